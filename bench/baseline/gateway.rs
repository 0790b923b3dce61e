//! The gateway: what each line does, and is answered.

use std::borrow::Cow;
use std::collections::{BTreeMap, BTreeSet, HashMap, HashSet};
use std::rc::Rc;

use crate::face::{Face, Info, Queryable};
use crate::keys::{includes, is_key, Hat};
use crate::telling::Told;
use crate::words::*;

/// Done, or refused by a name.
pub type Answer = Result<(), &'static str>;

#[derive(Clone, Copy, PartialEq)]
enum Target {
    All,
    Complete,
    Best,
}

struct Ask<'a> {
    asker: u32,
    id: u32,
    target: Target,
    timeout: Option<u64>,
    qos: u8,
    payload: Cow<'a, [u8]>,
    now: u64,
}

struct Reply<'a> {
    kind: &'static str,
    payload: Cow<'a, [u8]>,
    responder: Option<u128>,
}

/// An open request: whom it was handed to under which ids, and how many of them owe a final.
struct Request {
    asker: u32,
    id: u32,
    qos: u8,
    deadline: u64,
    targets: Vec<(u32, u32)>,
    pending: usize,
    in_flight: usize,
}

/// A face that may answer. One in North may without having declared: it may have more than it told.
struct Offer {
    face: u32,
    complete: bool,
    declared: bool,
}

#[derive(Default)]
pub struct Gateway {
    zid: u128,
    timeout: u64,
    north: usize,
    hats: BTreeMap<Region, Hat>,
    pub faces: HashMap<u32, Face>,
    pub told: Told,
    upstreams: BTreeSet<u32>,
    requests: HashMap<u64, Request>,
    deadlines: BTreeSet<(u64, u64)>,
    in_flight: HashMap<u64, u64>,
    next_face: u32,
    next_request: u64,
    next_reply: u64,
    last_id: u32,
    last_known: u32,
    pub out: Vec<u8>,
}

impl Gateway {
    pub fn config(&mut self, words: &[&[u8]]) -> Option<()> {
        let [b"config", zid, timeout, entries @ ..] = words else { return None };
        (self.zid, self.timeout) = (number(zid)?, number(timeout)?);
        for word in entries {
            let place = match word.strip_prefix(b"north:") {
                Some(north) => {
                    self.north = mode(north)?;
                    Region::North
                }
                None => region(word).filter(|place| !matches!(place, Region::North | Region::South(256.., _)))?,
            };
            if self.hats.insert(place, Hat::new()).is_some() {
                return None;
            }
        }
        self.hats.get(&Region::North).map(|_| ())
    }

    pub fn start(&mut self, words: &[&[u8]]) -> Option<()> {
        let [b"start", face, request, reply, told, id] = words else { return None };
        let (face, request, reply) = (number(face)?, number(request)?, number(reply)?);
        (self.last_known, self.last_id) = (number(told)?, number(id)?);
        (self.next_face, self.next_request, self.next_reply) = (face, request, reply);
        Some(())
    }

    /// Makes the call of a line, and prints what it is answered; none for a bad line.
    pub fn line(&mut self, words: &[&[u8]]) -> Option<()> {
        let answer = match *words {
            [b"ask", face, id, said, target, timeout, node, qos, bytes, now] => {
                number::<u16>(node)?;
                let ask = Ask {
                    asker: number(face)?,
                    id: number(id)?,
                    target: read_target(target)?,
                    timeout: option(timeout, number)?,
                    qos: number(qos)?,
                    payload: payload(bytes),
                    now: number(now)?,
                };
                self.ask(wire(said)?, ask)
            }
            [b"reply", face, id, said, kind, bytes, ref rest @ ..] => {
                let responder = match rest {
                    [] => None,
                    [by] => Some(number(by.strip_prefix(b"by:")?)?),
                    _ => return None,
                };
                let reply = Reply { kind: one_of(&["ok", "err"], kind)?, payload: payload(bytes), responder };
                self.reply(number(face)?, number(id)?, wire(said)?, reply)
            }
            [b"final", face, id] => self.last(number(face)?, number(id)?),
            [b"sent", reply] => self.sent(number(reply)?),
            [b"poll", now] => self.poll(number(now)?),
            [b"queryable", face, id, said, complete, distance, node] => {
                number::<u16>(node)?;
                let info = Info { partial: one_of(&["c", "p"], complete)? == "p", distance: number(distance)? };
                self.declare(number(face)?, number(id)?, wire(said)?, info)
            }
            [b"unqueryable", face, id, said, node] => {
                let (_said, _node) = (option(said, wire)?, number::<u16>(node)?);
                self.withdraw(number(face)?, number(id)?)
            }
            [b"key", face, id, said] => self.name(number(face)?, number(id)?, wire(said)?),
            [b"unkey", face, id] => self.unname(number(face)?, number(id)?),
            [b"interest", face, id, said, numbers, ref rest @ ..] => {
                let (id, said) = (number(id)?, option(said, wire)?);
                let (numbers, aggregate) = (one_of(&["n", "k"], numbers)? == "k", *rest == [b"a"]);
                (aggregate || rest.is_empty()).then_some(())?;
                self.interest(number(face)?, id, said, numbers, aggregate)
            }
            [b"uninterest", face, id] => self.uninterest(number(face)?, number(id)?),
            [b"open", ref words @ ..] => self.open(words)?,
            [b"close", face] => self.close(number(face)?),
            [b"finalize", face, b"initial", on] => self.mark(number(face)?, flag(on)?),
            [b"finalize", face, b"key", key, on] => self.mark_key(number(face)?, text(key)?, flag(on)?),
            [b"gateways", place, entries, all] => {
                option(all, |all| if all == b"none" { Some(Vec::new()) } else { list(all) })?;
                self.carry(region(place)?, gateway_lists(entries)?)
            }
            _ => return None,
        };
        if let Err(refusal) = answer {
            put!(&mut self.out, "= refused ", refusal, "\n");
        }
        Some(())
    }

    pub fn face(&mut self, face: u32) -> Result<&mut Face, &'static str> {
        self.faces.get_mut(&face).ok_or("UnknownFace")
    }

    pub fn done(&mut self) -> Answer {
        put!(&mut self.out, "= done\n");
        Ok(())
    }
}

fn read_target(word: &[u8]) -> Option<Target> {
    match word {
        b"all" => Some(Target::All),
        b"complete" => Some(Target::Complete),
        b"best" => Some(Target::Best),
        _ => None,
    }
}

/// Faces, numbers and declarations.
impl Gateway {
    fn open(&mut self, words: &[&[u8]]) -> Option<Answer> {
        let [place, zid, mode_word, bound, space, items @ ..] = words else { return None };
        let (place, zid, _mode) = (region(place)?, number(zid)?, mode(mode_word)?);
        let (bound, space) = (one_of(&["north", "south"], bound)?, option(space, text)?);
        for item in items {
            text(item.strip_prefix(b"in:").or(item.strip_prefix(b"out:"))?)?;
        }
        if !self.hats.contains_key(&place) {
            return Some(Err("UnknownRegion"));
        }
        (space.is_none() && items.is_empty() && self.mode(place) != ROUTER).then_some(())?;
        Some(self.add_face(Face::new(place, zid, bound == "south")))
    }

    /// What the faces of a region are: Local has clients.
    fn mode(&self, place: Region) -> usize {
        match place {
            Region::North => self.north,
            Region::Local => CLIENT,
            Region::South(_, mode) => mode,
        }
    }

    fn add_face(&mut self, mut face: Face) -> Answer {
        let is_north = face.region == Region::North;
        if is_north && self.north == CLIENT && !self.upstreams.is_empty() {
            return Err("UpstreamInUse");
        }
        let number = self.next_face;
        self.next_face = number.checked_add(1).ok_or("NoFreeId")?;
        if is_north {
            self.upstreams.insert(number);
        }
        (face.last_id, face.last_known) = (self.last_id, self.last_known);
        self.faces.insert(number, face);
        put!(&mut self.out, "= opened ", number, "\n");
        self.told.listen(number, is_north);
        if is_north {
            self.tell_all(number);
        }
        Ok(())
    }

    fn close(&mut self, number: u32) -> Answer {
        let face = self.faces.remove(&number).ok_or("UnknownFace")?;
        self.done()?;
        self.upstreams.remove(&number);
        self.told.listen(number, false);
        let keys: BTreeSet<Rc<str>> = face.queryables.values().map(|it| it.key.clone()).collect();
        let before = self.hear(keys);
        for queryable in face.queryables.values() {
            self.remove(number, face.region, queryable);
        }
        let mut requests: Vec<u64> = face.pending.into_values().collect();
        requests.sort_unstable();
        for request in requests {
            self.let_go(request);
        }
        self.tell_changes(before);
        Ok(())
    }

    fn name(&mut self, face: u32, number: u16, wire: Wire) -> Answer {
        self.face(face)?.name(number, wire)?;
        self.done()
    }

    fn unname(&mut self, face: u32, number: u16) -> Answer {
        self.face(face)?.unname(number)?;
        self.done()
    }

    fn declare(&mut self, number: u32, id: u32, wire: Wire, info: Info) -> Answer {
        let face = self.face(number)?;
        let (key, place): (Rc<str>, Region) = (face.key(wire)?.into(), face.region);
        if face.queryables.get(&id).is_some_and(|old| old.key != key) {
            return Err("IdInUse");
        }
        self.done()?;
        let before = self.hear([key.clone()]);
        let at = self.hats.get_mut(&place).map_or(0, |hat| hat.declare(number, &key, !info.partial));
        self.told.add(&key, number, place, info);
        let face = self.face(number)?;
        if let Some(old) = face.queryables.insert(id, Queryable { key, at, info }) {
            self.remove(number, place, &old);
        }
        self.tell_changes(before);
        Ok(())
    }

    fn withdraw(&mut self, number: u32, id: u32) -> Answer {
        let face = self.face(number)?;
        let (old, place) = (face.queryables.remove(&id).ok_or("UnknownId")?, face.region);
        self.done()?;
        let before = self.hear([old.key.clone()]);
        self.remove(number, place, &old);
        self.tell_changes(before);
        Ok(())
    }

    fn remove(&mut self, number: u32, place: Region, old: &Queryable) {
        if let Some(hat) = self.hats.get_mut(&place) {
            hat.withdraw(number, old.at, !old.info.partial);
        }
        self.told.remove(&old.key, number, old.info);
    }

    fn mark(&mut self, face: u32, on: bool) -> Answer {
        self.face(face)?.told = on;
        self.done()
    }

    fn mark_key(&mut self, face: u32, key: Cow<str>, on: bool) -> Answer {
        let face = self.face(face)?;
        if !is_key(&key) {
            return Err("InvalidKeyExpr");
        }
        if on {
            face.told_of.insert(key.into_owned());
        } else {
            face.told_of.remove(&*key);
        }
        self.done()
    }

    fn carry(&mut self, place: Region, lists: HashMap<u128, Vec<u128>>) -> Answer {
        self.hats.get_mut(&place).ok_or("UnknownRegion")?.gateways = lists;
        self.done()
    }
}

/// Selection.
impl Gateway {
    /// Between North and other regions a list says which gateway carries a request: the asker's, or for an asker in
    /// North that of the asked face.
    fn may_ask(&self, asker: &Face, asked: u32, place: Region) -> bool {
        if (place == Region::North) == (asker.region == Region::North) {
            return true;
        }
        let listed = if place == Region::North { asker } else { &self.faces[&asked] };
        let carriers = self.hats[&listed.region].gateways.get(&listed.zid).filter(|carriers| !carriers.is_empty());
        carriers.is_none_or(|carriers| !carriers.contains(&asker.zid) && carriers.iter().max() == Some(&self.zid))
    }

    /// The offers of a region for a request, in order; whether they are complete is left out for a target that takes all.
    fn offers(&self, place: Region, hat: &Hat, number: u32, asker: &Face, key: &str, target: Target) -> Vec<Offer> {
        let mut offers = Vec::new();
        let is_apart = place == Region::North || self.mode(place) == PEER;
        let may_ask = |face: u32| face != number && self.may_ask(asker, face, place);
        let matches = if place == asker.region && is_apart { Vec::new() } else { hat.matches(key) };
        for declared in matches {
            let covers = target != Target::All && includes(&declared.key, key);
            let others = declared.holders.iter().filter(|(face, _)| may_ask(**face));
            offers.extend(others.map(|(face, count)| Offer {
                face: *face,
                complete: covers && count.1 > 0,
                declared: true,
            }));
        }
        if place == Region::North && asker.region != Region::North {
            let others = self.upstreams.iter().filter(|face| may_ask(**face) && self.may_have_more(**face, key));
            offers.extend(others.map(|face| Offer { face: *face, complete: false, declared: false }));
        }
        offers
    }

    /// Whether a face in North may answer a key that it has not declared.
    fn may_have_more(&self, face: u32, key: &str) -> bool {
        let face = &self.faces[&face];
        if self.north == PEER && !face.is_upstream {
            !face.told
        } else {
            !face.told_of.contains(key)
        }
    }

    /// The faces that a request is handed to: of each region those that the target picks, each face once.
    fn select(&self, number: u32, key: &str, target: Target) -> Vec<(u32, u32)> {
        let (mut picked, asker) = (Vec::new(), &self.faces[&number]);
        for (place, hat) in &self.hats {
            let mut offers = self.offers(*place, hat, number, asker, key, target);
            let first = offers.iter().position(|offer| offer.complete);
            match (target, first) {
                (Target::All, _) | (Target::Best, None) => {}
                (Target::Best, Some(first)) => offers = vec![offers.swap_remove(first)],
                (Target::Complete, _) => offers.retain(|offer| offer.complete || !offer.declared),
            }
            picked.extend(offers.into_iter().map(|offer| (offer.face, 0)));
        }
        let mut seen = HashSet::new();
        if picked.len() > 1 {
            picked.retain(|(face, _)| seen.insert(*face));
        }
        picked
    }
}

/// The life of a request.
impl Gateway {
    fn ask(&mut self, wire: Wire, ask: Ask) -> Answer {
        let key = self.face(ask.asker)?.key(wire).unwrap_or_default();
        let mut targets = if key.is_empty() { Vec::new() } else { self.select(ask.asker, &key, ask.target) };
        let number = self.next_request;
        self.next_request = number.checked_add(1).ok_or("NoFreeId")?;
        put!(&mut self.out, "= asked ", number, "\n");
        let target = ["all", "complete", "best"][ask.target as usize];
        let mut rest = Vec::new();
        put!(&mut rest, " ", target, " ", ask.timeout, " 0 ", u64::from(ask.qos), " ", Word(&ask.payload), "\n");
        for (to, id) in &mut targets {
            let Some(face) = self.faces.get_mut(to) else { continue };
            *id = face.next_id();
            face.pending.insert(*id, number);
            put!(&mut self.out, "> ", *to, " ", number, " - request ", *id, " ");
            let by = face.best(&key);
            put!(&mut self.out, u32::from(by.scope), by.side, Word(&key.as_bytes()[by.cut..]), &rest[..]);
        }
        let deadline = ask.now.saturating_add(ask.timeout.unwrap_or(self.timeout));
        self.keep(
            number,
            Request {
                asker: ask.asker,
                id: ask.id,
                qos: ask.qos,
                deadline,
                pending: targets.len(),
                targets,
                in_flight: 0,
            },
        );
        Ok(())
    }

    /// Keeps a request that waits for something, or ends it.
    fn keep(&mut self, number: u64, request: Request) {
        if request.pending == 0 {
            return self.hand_final(number, &request);
        }
        self.deadlines.insert((request.deadline, number));
        self.requests.insert(number, request);
    }

    /// An asker that is open is handed the final of its request.
    fn hand_final(&mut self, number: u64, request: &Request) {
        if self.faces.contains_key(&request.asker) {
            let qos = u64::from(request.qos);
            put!(&mut self.out, "> ", request.asker, " ", number, " - final ", request.id, " ", qos, "\n");
        }
    }

    fn end_if_done(&mut self, number: u64) {
        let is_done = |request: &Request| request.pending == 0 && request.in_flight == 0;
        if self.requests.get(&number).is_some_and(is_done) {
            if let Some(request) = self.requests.remove(&number) {
                self.hand_final(number, &request);
            }
        }
    }

    /// A target owes its final no more.
    fn let_go(&mut self, number: u64) {
        let Some(request) = self.requests.get_mut(&number) else { return };
        request.pending -= 1;
        if request.pending == 0 {
            self.deadlines.remove(&(request.deadline, number));
            self.end_if_done(number);
        }
    }

    /// Hands a reply to the asker, which is open, under the next number, which is left.
    fn hand_reply(&mut self, number: u64, text: &str, reply: &Reply) {
        let Some(request) = self.requests.get_mut(&number) else { return };
        request.in_flight += 1;
        self.in_flight.insert(self.next_reply, number);
        put!(&mut self.out, "> ", request.asker, " ", number, " ", self.next_reply, " response ", request.id, " 0:s:");
        put!(&mut self.out, Word(text.as_bytes()), " ", u64::from(request.qos), " ", reply.kind, " ");
        put!(&mut self.out, Word(&reply.payload), " ", reply.responder, "\n");
        self.next_reply += 1;
    }

    fn reply(&mut self, face: u32, id: u32, wire: Wire, reply: Reply) -> Answer {
        let face = self.face(face)?;
        let text = face.said(wire)?;
        let number = *face.pending.get(&id).ok_or("QueryNotFound")?;
        if !text.is_empty() && !is_key(&text) {
            return Err("InvalidKeyExpr");
        }
        if !self.faces.contains_key(&self.requests[&number].asker) {
            put!(&mut self.out, "= replied -\n");
            return Ok(());
        }
        if self.next_reply == u64::MAX {
            return Err("NoFreeId");
        }
        put!(&mut self.out, "= replied ", self.next_reply, "\n");
        self.hand_reply(number, &text, &reply);
        Ok(())
    }

    fn last(&mut self, face: u32, id: u32) -> Answer {
        let number = self.face(face)?.pending.remove(&id).ok_or("QueryNotFound")?;
        self.done()?;
        self.let_go(number);
        Ok(())
    }

    fn sent(&mut self, reply: u64) -> Answer {
        let number = self.in_flight.remove(&reply).ok_or("NotInFlight")?;
        self.done()?;
        if let Some(request) = self.requests.get_mut(&number) {
            request.in_flight -= 1;
            self.end_if_done(number);
        }
        Ok(())
    }

    fn poll(&mut self, now: u64) -> Answer {
        let due: Vec<u64> = self.deadlines.range(..=(now, u64::MAX)).map(|due| due.1).collect();
        let open = due.iter().map(|number| &self.requests[number]).filter(|it| self.faces.contains_key(&it.asker));
        if open.map(|request| request.pending as u64).sum::<u64>() > u64::MAX - self.next_reply {
            return Err("NoFreeId");
        }
        self.done()?;
        for number in due {
            let Some(request) = self.requests.get_mut(&number) else { continue };
            let (asker, mut targets) = (request.asker, std::mem::take(&mut request.targets));
            targets.sort_unstable();
            for (to, id) in targets {
                self.run_out(number, asker, to, id);
            }
        }
        Ok(())
    }

    /// A target that owes its final has run out of time: an open asker is handed an error in its place.
    fn run_out(&mut self, number: u64, asker: u32, to: u32, id: u32) {
        let Some(face) = self.faces.get_mut(&to).filter(|face| face.pending.get(&id) == Some(&number)) else { return };
        face.pending.remove(&id);
        let responder = Some(face.zid);
        if self.faces.contains_key(&asker) {
            self.hand_reply(number, "", &Reply { kind: "err", payload: Cow::Borrowed(b"Timeout"), responder });
        }
        self.let_go(number);
    }
}
