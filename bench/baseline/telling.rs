//! What neighbours are told: upstreams and peers in North of all keys, others of those for which they ask.

use std::collections::{BTreeSet, HashMap};
use std::rc::Rc;

use crate::face::{Face, Fold, Info, Interest};
use crate::gateway::{Answer, Gateway};
use crate::keys::{includes, keys_meet};
use crate::words::*;

/// Who declared what on a key.
struct Declared {
    face: u32,
    place: Region,
    info: Info,
}

/// All that is declared, by key, and the faces that are told of it.
#[derive(Default)]
pub struct Told {
    keys: HashMap<Rc<str>, Vec<Declared>>,
    listeners: BTreeSet<u32>,
}

/// What each listener heard on some keys before a change.
pub type Heard = Vec<(Rc<str>, Vec<(u32, Option<Info>)>)>;

/// The chunks before the first one that is wild.
fn front(key: &str) -> &str {
    key.find('*').map_or(key, |star| key[..star].rfind('/').map_or("", |end| &key[..end]))
}

impl Told {
    pub fn add(&mut self, key: &Rc<str>, face: u32, place: Region, info: Info) {
        self.keys.entry(key.clone()).or_default().push(Declared { face, place, info });
    }

    pub fn remove(&mut self, key: &Rc<str>, face: u32, info: Info) {
        let Some(all) = self.keys.get_mut(key) else { return };
        if let Some(at) = all.iter().position(|it| it.face == face && it.info == info) {
            all.swap_remove(at);
        }
        if all.is_empty() {
            self.keys.remove(key);
        }
    }

    pub fn listen(&mut self, number: u32, on: bool) {
        if on {
            self.listeners.insert(number);
        } else {
            self.listeners.remove(&number);
        }
    }

    /// What a face hears on a key: of other regions, and of its own where that is of applications or clients.
    fn heard(&self, number: u32, place: Region, key: &str) -> Option<Info> {
        let among = matches!(place, Region::Local | Region::South(_, CLIENT));
        let all = self.keys.get(key).into_iter().flatten();
        all.filter(|it| it.face != number && (among || it.place != place)).map(|it| it.info).min()
    }
}

/// An information as a part of an entry.
fn as_part(info: Info, key: &str, entry: &str) -> Info {
    Info { partial: info.partial || !includes(key, entry), ..info }
}

fn count(fold: &mut Fold, old: Option<Info>, new: Option<Info>) {
    if let Some(new) = new {
        *fold.entry(new).or_default() += 1;
    }
    if let Some(old) = old {
        if let Some(times) = fold.get_mut(&old) {
            *times -= 1;
            if *times == 0 {
                fold.remove(&old);
            }
        }
    }
}

impl Gateway {
    /// What all that listen hear on these keys now.
    pub fn hear(&self, keys: impl IntoIterator<Item = Rc<str>>) -> Heard {
        if self.told.listeners.is_empty() {
            return Vec::new();
        }
        let listeners = || self.told.listeners.iter().map(|number| (*number, self.faces[number].region));
        let on = |key: &str| listeners().map(|(number, place)| (number, self.told.heard(number, place, key))).collect();
        keys.into_iter().map(|key| (key.clone(), on(&key))).collect()
    }

    /// Tells each listener what is due to it on these keys, and on those of its entries that they meet.
    pub fn tell_changes(&mut self, before: Heard) {
        let mut touched: Vec<(u32, Rc<str>)> = Vec::new();
        for (key, heard) in before {
            for (number, old) in heard {
                let Some(face) = self.faces.get_mut(&number) else { continue };
                let new = self.told.heard(number, face.region, &key);
                if new == old {
                    continue;
                }
                for (entry, fold) in &mut face.folds {
                    if keys_meet(entry, &key) {
                        let part = |info: Option<Info>| info.map(|info| as_part(info, &key, entry));
                        count(fold, part(old), part(new));
                        touched.push((number, entry.clone()));
                    }
                }
                if face.asks(&key) {
                    touched.push((number, key.clone()));
                }
            }
        }
        touched.sort_unstable();
        touched.dedup();
        for (number, key) in touched {
            let due = self.due_on(number, &key);
            self.tell(number, &key, due, None);
        }
    }

    fn due_on(&self, number: u32, key: &str) -> Option<Info> {
        let face = &self.faces[&number];
        if let Some(fold) = face.folds.get(key) {
            return fold.first_key_value().map(|(info, _)| *info);
        }
        if face.asks(key) {
            self.told.heard(number, face.region, key)
        } else {
            None
        }
    }

    /// All that is due to a face, in order.
    fn due(&self, number: u32) -> Vec<(Rc<str>, Info)> {
        let face = &self.faces[&number];
        let entries = face.folds.keys().filter(|entry| !self.told.keys.contains_key(*entry));
        let keys = self.told.keys.keys().chain(entries);
        let mut due: Vec<_> = keys.filter_map(|key| Some((key.clone(), self.due_on(number, key)?))).collect();
        due.sort_unstable();
        due
    }

    /// Tells a face one thing, where it does not know it, or where an interest asks for it.
    fn tell(&mut self, number: u32, key: &Rc<str>, due: Option<Info>, interest: Option<u32>) {
        let Some(face) = self.faces.get_mut(&number) else { return };
        let known = face.known.get(key).copied();
        let Some(info) = due else {
            if let Some((id, _)) = known {
                face.known.remove(key);
                put!(&mut self.out, "> ", number, " - - unqueryable ", id, " - 0\n");
            }
            return;
        };
        if interest.is_none() && known.is_some_and(|(_, old)| old == info) {
            return;
        }
        let id = known.map_or(face.last_known.wrapping_add(1), |(id, _)| id);
        if known.is_none() {
            face.last_known = id;
        }
        face.known.insert(key.clone(), (id, info));
        let part = front(key);
        if let Some(given) = face.give_number(part) {
            put!(&mut self.out, "> ", number, " - - key ", u32::from(given), " 0:s:", Word(part.as_bytes()), "\n");
        }
        let by = face.declared_by(part);
        put!(&mut self.out, "> ", number, " - - queryable ", id, " ", u32::from(by.scope), by.side);
        put!(&mut self.out, Word(&key.as_bytes()[by.cut..]), if info.partial { " p " } else { " c " });
        put!(&mut self.out, u32::from(info.distance), " 0 ", interest, "\n");
    }

    /// A face that has come is told all that is due to it.
    pub fn tell_all(&mut self, number: u32) {
        for (key, info) in self.due(number) {
            self.tell(number, &key, Some(info), None);
        }
    }

    /// What is due to a face; it does not know anything else any more.
    fn forget(&mut self, number: u32) -> Vec<(Rc<str>, Info)> {
        let due = self.due(number);
        let is_due = |key: &Rc<str>| due.binary_search_by(|it| it.0.cmp(key)).is_ok();
        if let Some(face) = self.faces.get_mut(&number) {
            face.known.retain(|key, _| is_due(key));
        }
        due
    }

    /// The folds of a face are those of its interests: new ones are counted once over all keys.
    fn refold(&mut self, number: u32) {
        let Some(face) = self.faces.get_mut(&number) else { return };
        let wanted: BTreeSet<Rc<str>> = face.folded().cloned().collect();
        face.folds.retain(|entry, _| wanted.contains(entry));
        for entry in wanted {
            if !face.folds.contains_key(&entry) {
                let fold = fold_of(&self.told, face, number, &entry);
                face.folds.insert(entry, fold);
            }
        }
    }

    pub fn interest(&mut self, number: u32, id: u32, wire: Option<Wire>, numbers: bool, aggregate: bool) -> Answer {
        let face = self.face(number)?;
        let key: Option<Rc<str>> = wire.map(|wire| face.key(wire)).transpose()?.map(Into::into);
        if face.interests.get(&id).is_some_and(|old| old.key != key) {
            return Err("IdInUse");
        }
        face.interests.insert(id, Interest { key, numbers, aggregate });
        self.told.listen(number, true);
        self.refold(number);
        self.done()?;
        for (key, info) in self.forget(number) {
            let interest = &self.faces[&number].interests[&id];
            let is_asked = interest.folded().map_or_else(|| interest.asks(&key), |entry| *entry == key);
            self.tell(number, &key, Some(info), is_asked.then_some(id));
        }
        put!(&mut self.out, "> ", number, " - - declfinal ", id, "\n");
        Ok(())
    }

    pub fn uninterest(&mut self, number: u32, id: u32) -> Answer {
        let face = self.face(number)?;
        face.interests.remove(&id).ok_or("UnknownId")?;
        let listens = face.listens();
        self.told.listen(number, listens);
        self.refold(number);
        self.done()?;
        for (key, info) in self.forget(number) {
            self.tell(number, &key, Some(info), None);
        }
        Ok(())
    }
}

fn fold_of(told: &Told, face: &Face, number: u32, entry: &str) -> Fold {
    let mut fold = Fold::new();
    for key in told.keys.keys().filter(|key| keys_meet(entry, key)) {
        let heard = told.heard(number, face.region, key).map(|info| as_part(info, key, entry));
        count(&mut fold, None, heard);
    }
    fold
}
