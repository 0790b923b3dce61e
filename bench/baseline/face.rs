//! An open face: what it declared and asks for, what it was told, and the numbers that stand for texts there.

use std::borrow::Cow;
use std::collections::{BTreeMap, BTreeSet, HashMap, HashSet};
use std::rc::Rc;

use crate::keys::{is_key, keys_meet, parent};
use crate::words::*;

/// What is declared on a key. Of two informations the lesser counts: complete ones, then the nearer.
#[derive(Clone, Copy, PartialEq, Eq, PartialOrd, Ord)]
pub struct Info {
    pub partial: bool,
    pub distance: u16,
}

/// A queryable of a face: its key, and the place of that in the region's tree.
pub struct Queryable {
    pub key: Rc<str>,
    pub at: usize,
    pub info: Info,
}

/// What a face asks to hear of: the keys that meet one, or all.
pub struct Interest {
    pub key: Option<Rc<str>>,
    pub numbers: bool,
    pub aggregate: bool,
}

impl Interest {
    fn meets(&self, key: &str) -> bool {
        self.key.as_ref().is_none_or(|own| keys_meet(own, key))
    }

    /// The key of which one entry is asked for, for all that meet it.
    pub fn folded(&self) -> Option<&Rc<str>> {
        self.key.as_ref().filter(|_| self.aggregate)
    }

    pub fn asks(&self, key: &str) -> bool {
        self.folded().is_none() && self.meets(key)
    }
}

/// How often each information stands on the keys that meet one, as a face hears them.
pub type Fold = BTreeMap<Info, u32>;

#[derive(Default)]
pub struct Face {
    pub region: Region,
    pub zid: u128,
    pub is_upstream: bool,
    pub told: bool,
    pub told_of: HashSet<String>,
    pub queryables: HashMap<u32, Queryable>,
    pub pending: HashMap<u32, u64>,
    pub last_id: u32,
    pub interests: BTreeMap<u32, Interest>,
    pub folds: BTreeMap<Rc<str>, Fold>,
    pub known: HashMap<Rc<str>, (u32, Info)>,
    pub last_known: u32,
    texts: HashMap<u16, Rc<str>>,
    numbers: HashMap<Rc<str>, BTreeSet<u16>>,
    our_texts: HashMap<u16, Rc<str>>,
    our_numbers: HashMap<Rc<str>, u16>,
    least_free: u16,
}

/// A part of a key by a number: whose it is for the face, and how long the part is.
#[derive(Clone, Copy)]
pub struct Part {
    pub scope: u16,
    pub side: &'static str,
    pub cut: usize,
}

const WHOLE: Part = Part { scope: 0, side: ":s:", cut: 0 };

impl Face {
    pub fn new(region: Region, zid: u128, is_upstream: bool) -> Self {
        Face { region, zid, is_upstream, ..Face::default() }
    }

    /// The full text of an expression that the face sends.
    pub fn said<'a>(&self, wire: Wire<'a>) -> Result<Cow<'a, str>, &'static str> {
        if wire.scope == 0 {
            return Ok(wire.suffix);
        }
        let texts = if wire.of_sender { &self.texts } else { &self.our_texts };
        let text = texts.get(&wire.scope).ok_or("UnknownScope")?;
        Ok(Cow::Owned([&**text, &*wire.suffix].concat()))
    }

    pub fn key<'a>(&self, wire: Wire<'a>) -> Result<Cow<'a, str>, &'static str> {
        self.said(wire).and_then(|text| if is_key(&text) { Ok(text) } else { Err("InvalidKeyExpr") })
    }

    /// The number of a text: the face's least, else the gateway's.
    fn number_of(&self, text: &str) -> Option<Part> {
        let own = self.numbers.get(text).and_then(|numbers| numbers.first());
        let part = |side, scope: &u16| Part { scope: *scope, side, cut: text.len() };
        own.map(|n| part(":r:", n)).or_else(|| self.our_numbers.get(text).map(|n| part(":s:", n)))
    }

    /// A key by its longest part of whole chunks that has a number.
    pub fn best(&self, text: &str) -> Part {
        if self.numbers.is_empty() && self.our_numbers.is_empty() {
            return WHOLE;
        }
        std::iter::successors(Some(text), |part| parent(part)).find_map(|part| self.number_of(part)).unwrap_or(WHOLE)
    }

    /// A key as it is declared to the face: by the part before its first wild chunk, or in full.
    pub fn declared_by(&self, part: &str) -> Part {
        let part = Some(part).filter(|_| self.region != Region::Local);
        part.and_then(|part| self.number_of(part)).unwrap_or(WHOLE)
    }

    fn takes_number(&self, part: &str) -> bool {
        match self.region {
            Region::North => true,
            Region::Local => false,
            Region::South(..) => self.interests.values().any(|it| it.numbers && it.meets(part)),
        }
    }

    /// A new number for a part of a key, the least that is free, where the face takes one.
    pub fn give_number(&mut self, part: &str) -> Option<u16> {
        if part.is_empty() || self.number_of(part).is_some() || !self.takes_number(part) {
            return None;
        }
        let free = |n: &u16| !self.texts.contains_key(n) && !self.our_texts.contains_key(n);
        let number = (self.least_free.max(1)..=u16::MAX).find(free)?;
        self.least_free = number;
        let text: Rc<str> = part.into();
        self.our_texts.insert(number, text.clone());
        self.our_numbers.insert(text, number);
        Some(number)
    }

    pub fn name(&mut self, number: u16, wire: Wire) -> Result<(), &'static str> {
        let text: Rc<str> = self.key(wire)?.into();
        if number == 0 || self.texts.get(&number).is_some_and(|old| *old != text) {
            return Err("Remapped");
        }
        self.numbers.entry(text.clone()).or_default().insert(number);
        self.texts.insert(number, text);
        Ok(())
    }

    pub fn unname(&mut self, number: u16) -> Result<(), &'static str> {
        let text = self.texts.remove(&number).ok_or("UnknownId")?;
        self.least_free = self.least_free.min(number);
        if let Some(numbers) = self.numbers.get_mut(&text) {
            numbers.remove(&number);
            if numbers.is_empty() {
                self.numbers.remove(&text);
            }
        }
        Ok(())
    }

    pub fn next_id(&mut self) -> u32 {
        self.last_id = self.last_id.wrapping_add(1);
        while self.pending.contains_key(&self.last_id) {
            self.last_id = self.last_id.wrapping_add(1);
        }
        self.last_id
    }

    /// Whether it is told of queryables at all.
    pub fn listens(&self) -> bool {
        self.region == Region::North || !self.interests.is_empty()
    }

    /// Whether it is told of a key as it is.
    pub fn asks(&self, key: &str) -> bool {
        self.region == Region::North || self.interests.values().any(|interest| interest.asks(key))
    }

    /// The keys of which it is told one entry, for all that meet them.
    pub fn folded(&self) -> impl Iterator<Item = &Rc<str>> {
        self.interests.values().filter_map(|it| it.folded()).filter(|_| self.region != Region::North)
    }
}
