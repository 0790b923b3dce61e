//! The words of a line, read and printed.

use std::borrow::Cow;
use std::collections::HashMap;
use std::str::FromStr;

pub struct Wire<'a> {
    pub scope: u16,
    pub of_sender: bool,
    pub suffix: Cow<'a, str>,
}

#[derive(Clone, Copy, Default, PartialEq, Eq, PartialOrd, Ord)]
pub enum Region {
    #[default]
    North,
    Local,
    South(u32, usize),
}

const MODES: [&str; 3] = ["router", "peer", "client"];
pub const ROUTER: usize = 0;
pub const PEER: usize = 1;
pub const CLIENT: usize = 2;

/// The one of some names that the word is.
pub fn one_of(names: &[&'static str], word: &[u8]) -> Option<&'static str> {
    names.iter().copied().find(|name| name.as_bytes() == word)
}

pub fn flag(word: &[u8]) -> Option<bool> {
    one_of(&["0", "1"], word).map(|word| word == "1")
}

pub fn option<'a, T>(word: &'a [u8], read: impl Fn(&'a [u8]) -> Option<T>) -> Option<Option<T>> {
    if word == b"-" {
        Some(None)
    } else {
        read(word).map(Some)
    }
}

fn cut(word: &[u8], byte: u8) -> Option<(&[u8], &[u8])> {
    let at = word.iter().position(|b| *b == byte)?;
    Some((&word[..at], &word[at + 1..]))
}

pub fn number<T: FromStr>(word: &[u8]) -> Option<T> {
    let is_number = word.iter().all(u8::is_ascii_digit) && (word.len() == 1 || word.first() != Some(&b'0'));
    std::str::from_utf8(word).ok().filter(|_| is_number)?.parse().ok()
}

pub fn payload(word: &[u8]) -> Cow<'_, [u8]> {
    if word == b"-" || !word.contains(&b'%') {
        return Cow::Borrowed(if word == b"-" { b"" } else { word });
    }
    let hex = |at: usize| (*word.get(at)? as char).to_digit(16);
    let mut bytes = Vec::with_capacity(word.len());
    let mut at = 0;
    while at < word.len() {
        match (word[at], hex(at + 1), hex(at + 2)) {
            (b'%', Some(high), Some(low)) => {
                bytes.push((16 * high + low) as u8);
                at += 2;
            }
            (byte, _, _) => bytes.push(byte),
        }
        at += 1;
    }
    Cow::Owned(bytes)
}

pub fn text(word: &[u8]) -> Option<Cow<'_, str>> {
    match payload(word) {
        Cow::Borrowed(bytes) => std::str::from_utf8(bytes).ok().map(Cow::Borrowed),
        Cow::Owned(bytes) => String::from_utf8(bytes).ok().map(Cow::Owned),
    }
}

pub fn wire(word: &[u8]) -> Option<Wire<'_>> {
    let (scope, rest) = cut(word, b':')?;
    let (side, suffix) = cut(rest, b':')?;
    let of_sender = (side == b"s" || side == b"r").then_some(side == b"s")?;
    Some(Wire { scope: number(scope)?, of_sender, suffix: text(suffix)? })
}

pub fn mode(word: &[u8]) -> Option<usize> {
    MODES.iter().position(|mode| mode.as_bytes() == word)
}

pub fn region(word: &[u8]) -> Option<Region> {
    match word {
        b"north" => Some(Region::North),
        b"local" => Some(Region::Local),
        _ => {
            let (id, strategy) = cut(word.strip_prefix(b"south:")?, b':')?;
            Some(Region::South(number(id)?, mode(strategy)?))
        }
    }
}

pub fn list(word: &[u8]) -> Option<Vec<u128>> {
    match word {
        b"-" => Some(Vec::new()),
        _ => word.split(|b| *b == b',').map(number).collect(),
    }
}

/// For each id the gateways that may carry its requests, by its first entry.
pub fn gateway_lists(word: &[u8]) -> Option<HashMap<u128, Vec<u128>>> {
    let mut lists = HashMap::new();
    for entry in word.split(|b| *b == b';').filter(|_| word != b"-") {
        let (zid, gateways) = cut(entry, b'=')?;
        lists.entry(number(zid)?).or_insert(list(gateways)?);
    }
    Some(lists)
}

/// What can be printed.
pub trait Put {
    fn put(&self, out: &mut Vec<u8>);
}

impl Put for &str {
    fn put(&self, out: &mut Vec<u8>) {
        out.extend_from_slice(self.as_bytes());
    }
}

impl Put for &[u8] {
    fn put(&self, out: &mut Vec<u8>) {
        out.extend_from_slice(self);
    }
}

impl Put for u64 {
    fn put(&self, out: &mut Vec<u8>) {
        let (mut digits, mut at, mut rest) = ([0; 20], 20, *self);
        loop {
            at -= 1;
            digits[at] = b'0' + (rest % 10) as u8;
            rest /= 10;
            if rest == 0 {
                return out.extend_from_slice(&digits[at..]);
            }
        }
    }
}

impl Put for u32 {
    fn put(&self, out: &mut Vec<u8>) {
        u64::from(*self).put(out);
    }
}

impl Put for u128 {
    fn put(&self, out: &mut Vec<u8>) {
        out.extend_from_slice(self.to_string().as_bytes());
    }
}

/// None is `-`.
impl<T: Put> Put for Option<T> {
    fn put(&self, out: &mut Vec<u8>) {
        match self {
            Some(it) => it.put(out),
            None => out.push(b'-'),
        }
    }
}

/// A text or a payload, with what has to be escaped.
pub struct Word<'a>(pub &'a [u8]);

impl Put for Word<'_> {
    fn put(&self, out: &mut Vec<u8>) {
        match self.0 {
            b"" => return out.push(b'-'),
            b"-" => return out.extend_from_slice(b"%2D"),
            _ => {}
        }
        let mut rest = self.0;
        while let Some(at) = rest.iter().position(|byte| matches!(byte, b'%' | 0..=32 | 127..)) {
            out.extend_from_slice(&rest[..at]);
            let digit = |four| b"0123456789ABCDEF"[usize::from(four)];
            out.extend([b'%', digit(rest[at] >> 4), digit(rest[at] & 15)]);
            rest = &rest[at + 1..];
        }
        out.extend_from_slice(rest);
    }
}

macro_rules! put {
    ($out:expr, $($what:expr),+) => {{ $($what.put($out);)+ }};
}
pub(crate) use put;
