//! Keys, and those that are declared in a region.

use std::collections::{BTreeMap, HashMap};
use std::iter::Filter;
use std::str::Split;

fn is_special(byte: u8) -> bool {
    matches!(byte, b'#' | b'?' | b'*' | b'$')
}

fn is_chunk(chunk: &str) -> bool {
    match chunk {
        "" | "$*" => false,
        "*" | "**" => true,
        _ => !chunk.contains("$*$*") && chunk.split("$*").all(|piece| !piece.bytes().any(is_special)),
    }
}

pub fn is_key(text: &str) -> bool {
    if !text.bytes().any(is_special) {
        return !text.is_empty() && !text.starts_with('/') && !text.ends_with('/') && !text.contains("//");
    }
    !text.contains("**/*") && text.split('/').all(is_chunk)
}

/// What stands before the last `/`.
pub fn parent(text: &str) -> Option<&str> {
    text.rfind('/').map(|end| &text[..end])
}

fn last_chunk(text: &str) -> &str {
    text.rsplit('/').next().unwrap_or(text)
}

/// Whether a chunk is met by equal ones and by wild ones alone.
fn is_fixed(chunk: &str) -> bool {
    chunk.starts_with('@') || !chunk.contains(['*', '$'])
}

/// Whether a chunk with some `$*` has a text, in which its `$*` stand for any.
fn has(pattern: &str, text: &str) -> bool {
    let mut pieces = pattern.split('$').map(|piece| piece.strip_prefix('*').unwrap_or(piece));
    let (first, last) = (pieces.next().unwrap_or(""), pieces.next_back().unwrap_or(""));
    let Some(mut rest) = text.strip_prefix(first).and_then(|rest| rest.strip_suffix(last)) else { return false };
    pieces.all(|piece| match rest.find(piece) {
        Some(at) => {
            rest = &rest[at + piece.len()..];
            true
        }
        None => false,
    })
}

/// Whether two chunks meet, neither of them `**` or beginning with `@`. Where both have some `$*`, those take what stands
/// between the fronts and the ends.
fn chunks_meet(a: &str, b: &str) -> bool {
    if a == b || a == "*" || b == "*" {
        return true;
    }
    match (a.split_once('$'), b.split_once('$')) {
        (Some((a_front, _)), Some((b_front, _))) => {
            let (a_end, b_end) = (end(a), end(b));
            (a_front.starts_with(b_front) || b_front.starts_with(a_front))
                && (a_end.ends_with(b_end) || b_end.ends_with(a_end))
        }
        (Some(_), None) => has(a, b),
        (None, Some(_)) => has(b, a),
        (None, None) => false,
    }
}

/// What stands behind the last `*`.
fn end(chunk: &str) -> &str {
    chunk.rsplit_once('*').map_or(chunk, |(_, end)| end)
}

fn chunk_includes(a: &str, b: &str) -> bool {
    let is_other = b == "**" || is_fixed(a) || b.starts_with('@');
    a == b || !is_other && (a == "*" || a != "**" && has(a, b))
}

/// The chunks of a text, of which the empty text has none.
type Chunks<'a> = Filter<Split<'a, char>, fn(&&'a str) -> bool>;

fn chunks(text: &str) -> Chunks<'_> {
    text.split('/').filter(|chunk| !chunk.is_empty())
}

/// Whether chunks stand for others, of which each takes one that agrees with it, and `**` any number of them that do not
/// begin with `@`. Where they go on differently, the last `**` takes one more.
fn covers(a: Chunks, b: Chunks, agree: impl Fn(&str, &str) -> bool) -> bool {
    let (mut left, mut right, mut stars) = (a, b, None);
    loop {
        let (mut after_left, mut after_right) = (left.clone(), right.clone());
        match (after_left.next(), after_right.next()) {
            (None, None) => return true,
            (Some("**"), _) => {
                stars = Some((after_left.clone(), right.clone()));
                left = after_left;
            }
            (Some(_), None) => return false,
            (Some(x), Some(y)) if agree(x, y) => (left, right) = (after_left, after_right),
            _ => {
                let Some((behind, taken)) = &mut stars else { return false };
                if taken.next().is_none_or(|chunk| chunk.starts_with('@')) {
                    return false;
                }
                (left, right) = (behind.clone(), taken.clone());
            }
        }
    }
}

/// Whether the first key includes the second.
pub fn includes(a: &str, b: &str) -> bool {
    covers(chunks(a), chunks(b), chunk_includes)
}

/// Whether chunks meet of which none begins with `@`. If both have a `**`, what stands between the first and the last of
/// them meets in any case.
fn free_meet(mut a: Chunks, mut b: Chunks) -> bool {
    let has_stars = |mut chunks: Chunks| chunks.any(|chunk| chunk == "**");
    match (has_stars(a.clone()), has_stars(b.clone())) {
        (true, true) => {}
        (false, true) => return covers(b, a, chunks_meet),
        (_, false) => return covers(a, b, chunks_meet),
    }
    while let (Some(x), Some(y)) = (a.next(), b.next()) {
        if x == "**" || y == "**" {
            break;
        }
        if !chunks_meet(x, y) {
            return false;
        }
    }
    while let (Some(x), Some(y)) = (a.next_back(), b.next_back()) {
        if x == "**" || y == "**" {
            break;
        }
        if !chunks_meet(x, y) {
            return false;
        }
    }
    true
}

/// A text up to its first chunk that begins with `@`, and from there on.
fn cut_at_verbatim(text: &str) -> (&str, &str) {
    let at = if text.starts_with('@') { Some(0) } else { text.find("/@").map(|at| at + 1) };
    text.split_at(at.unwrap_or(text.len()))
}

/// Whether the last chunks of two keys let them meet.
fn ends_meet(a: &str, b: &str) -> bool {
    let (x, y) = (last_chunk(a), last_chunk(b));
    x == y || x == "**" || y == "**" || !(x.starts_with('@') || y.starts_with('@')) && chunks_meet(x, y)
}

/// Whether two keys meet: each chunk that begins with `@` by itself alone, and what stands between those.
pub fn keys_meet(mut a: &str, mut b: &str) -> bool {
    if !ends_meet(a, b) {
        return false;
    }
    loop {
        let ((a_free, a_rest), (b_free, b_rest)) = (cut_at_verbatim(a), cut_at_verbatim(b));
        if !free_meet(chunks(a_free), chunks(b_free)) {
            return false;
        }
        if a_rest.is_empty() || b_rest.is_empty() {
            return a_rest == b_rest;
        }
        let (x, a_behind) = a_rest.split_once('/').unwrap_or((a_rest, ""));
        let (y, b_behind) = b_rest.split_once('/').unwrap_or((b_rest, ""));
        if x != y {
            return false;
        }
        (a, b) = (a_behind, b_behind);
    }
}

/// By face, how many declarations there are on a key, and how many of them are complete.
pub type Holders = BTreeMap<u32, (u32, u32)>;

pub struct Declared {
    pub key: String,
    pub holders: Holders,
}

const ROOT: usize = 0;

/// The declared keys that begin with some chunks: where they go on, and the one that ends here.
#[derive(Default)]
struct Node {
    parent: usize,
    fixed: HashMap<Box<str>, usize>,
    wild: HashMap<Box<str>, usize>,
    stars: Option<usize>,
    declared: Option<Box<Declared>>,
}

impl Node {
    fn is_leaf(&self) -> bool {
        self.fixed.is_empty() && self.wild.is_empty() && self.stars.is_none()
    }
}

/// What is declared in a region, by the chunks of the keys, and who may carry whose requests.
pub struct Hat {
    nodes: Vec<Node>,
    free: Vec<usize>,
    pub gateways: HashMap<u128, Vec<u128>>,
}

impl Hat {
    pub fn new() -> Self {
        Hat { nodes: vec![Node::default()], free: Vec::new(), gateways: HashMap::new() }
    }

    fn child(&mut self, parent: usize, chunk: &str) -> usize {
        let node = &self.nodes[parent];
        let known = match chunk {
            "**" => node.stars,
            _ if is_fixed(chunk) => node.fixed.get(chunk).copied(),
            _ => node.wild.get(chunk).copied(),
        };
        known.unwrap_or_else(|| self.add(parent, chunk))
    }

    fn add(&mut self, parent: usize, chunk: &str) -> usize {
        let node = Node { parent, ..Node::default() };
        let at = self.free.pop().unwrap_or(self.nodes.len());
        if at == self.nodes.len() {
            self.nodes.push(node);
        } else {
            self.nodes[at] = node;
        }
        let above = &mut self.nodes[parent];
        match chunk {
            "**" => above.stars = Some(at),
            _ if is_fixed(chunk) => drop(above.fixed.insert(chunk.into(), at)),
            _ => drop(above.wild.insert(chunk.into(), at)),
        }
        at
    }

    pub fn declare(&mut self, face: u32, key: &str, complete: bool) -> usize {
        let at = key.split('/').fold(ROOT, |at, chunk| self.child(at, chunk));
        let new = || Box::new(Declared { key: key.into(), holders: Holders::new() });
        let declared = self.nodes[at].declared.get_or_insert_with(new);
        let count = declared.holders.entry(face).or_default();
        *count = (count.0 + 1, count.1 + u32::from(complete));
        at
    }

    pub fn withdraw(&mut self, face: u32, at: usize, complete: bool) {
        let Some(declared) = &mut self.nodes[at].declared else { return };
        let Some(count) = declared.holders.get_mut(&face) else { return };
        *count = (count.0 - 1, count.1 - u32::from(complete));
        if count.0 == 0 {
            declared.holders.remove(&face);
        }
        if declared.holders.is_empty() {
            if let Some(declared) = self.nodes[at].declared.take() {
                self.prune(at, &declared.key);
            }
        }
    }

    /// Drops a node of no use, and those above it that are of none without it.
    fn prune(&mut self, mut at: usize, mut key: &str) {
        while at != ROOT && self.nodes[at].is_leaf() && self.nodes[at].declared.is_none() {
            let chunk = last_chunk(key);
            key = parent(key).unwrap_or("");
            let above = self.nodes[at].parent;
            let node = &mut self.nodes[above];
            match chunk {
                "**" => node.stars = None,
                _ if is_fixed(chunk) => drop(node.fixed.remove(chunk)),
                _ => drop(node.wild.remove(chunk)),
            }
            self.nodes[at] = Node::default();
            self.free.push(at);
            at = above;
        }
    }

    /// The declared keys that meet the key, in order.
    pub fn matches<'a>(&'a self, key: &'a str) -> Vec<&'a Declared> {
        let mut search = Search { hat: self, todo: vec![(ROOT, 0, key)], found: Vec::new() };
        while let Some((at, length, rest)) = search.todo.pop() {
            search.visit(&self.nodes[at], length, rest);
        }
        search.found.sort_unstable_by_key(|declared| &declared.key);
        search.found
    }
}

/// A search for the keys that meet one: nodes to visit, each with the length of its text and what is left of the key.
struct Search<'a> {
    hat: &'a Hat,
    todo: Vec<(usize, usize, &'a str)>,
    found: Vec<&'a Declared>,
}

impl<'a> Search<'a> {
    fn visit(&mut self, node: &'a Node, length: usize, rest: &'a str) {
        let (chunk, behind) = rest.split_once('/').unwrap_or((rest, ""));
        if chunk == "**" {
            return self.compare(node, length, rest);
        }
        if let Some(below) = node.stars {
            self.compare(&self.hat.nodes[below], length, rest);
        }
        if rest.is_empty() {
            self.found.extend(node.declared.as_deref());
        } else if is_fixed(chunk) {
            self.take(node.fixed.get_key_value(chunk), length, behind);
            if !chunk.starts_with('@') {
                self.take(node.wild.iter().filter(|(other, _)| chunks_meet(other, chunk)), length, behind);
            }
        } else {
            let free = node.fixed.iter().filter(|(other, _)| !other.starts_with('@')).chain(&node.wild);
            self.take(free.filter(|(other, _)| chunks_meet(other, chunk)), length, behind);
        }
    }

    /// Goes on at the nodes below by these chunks.
    fn take(&mut self, nodes: impl IntoIterator<Item = (&'a Box<str>, &'a usize)>, length: usize, rest: &'a str) {
        self.todo.extend(nodes.into_iter().map(|(chunk, at)| (*at, length + chunk.len() + 1, rest)));
    }

    /// From a `**` on each key is compared for itself: all from a node on, whose texts are alike up to a length.
    fn compare(&mut self, node: &'a Node, length: usize, rest: &str) {
        let mut todo = vec![node];
        while let Some(node) = todo.pop() {
            let declared = node.declared.as_deref();
            self.found.extend(declared.filter(|it| keys_meet(it.key.get(length..).unwrap_or(""), rest)));
            let below = node.fixed.values().chain(node.wild.values()).chain(&node.stars);
            todo.extend(below.map(|at| &self.hat.nodes[*at]));
        }
    }
}
