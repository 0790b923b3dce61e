//! A gateway, by calls with types.
use crate::raw::{Fault, Speaker};
use crate::types::{Bound, Message, Mode, Outcome, Refusal, Region, Step, Target, Wire};
use crate::words::{escape, list, optional};
use std::fmt;

/// Why a call was not made. Nothing changed, but at `Fault::Unprinted`.
#[derive(Clone, Copy, Debug, PartialEq, Eq)]
pub enum Error {
    /// The gateway refused it.
    Refused(Refusal),
    /// It was no call, or no memory was found.
    Fault(Fault),
    /// The print is that of another version of the library.
    Unread,
}

impl fmt::Display for Error {
    fn fmt(&self, f: &mut fmt::Formatter<'_>) -> fmt::Result {
        match self {
            Error::Refused(refusal) => write!(f, "refused: {refusal:?}"),
            Error::Fault(fault) => fault.fmt(f),
            Error::Unread => f.write_str("the print is that of another version of the library"),
        }
    }
}

impl std::error::Error for Error {}

impl From<Fault> for Error {
    fn from(fault: Fault) -> Error {
        Error::Fault(fault)
    }
}

/// What is to be sent behind a call.
pub type Messages = Result<Vec<Message>, Error>;

/// How a face is opened.
#[derive(Clone, Debug)]
pub struct Opening<'a> {
    pub region: Region,
    pub zid: u128,
    pub mode: Mode,
    pub remote: Bound,
    pub namespace: Option<&'a str>,
    pub entry_deny: &'a [&'a str],
    pub exit_deny: &'a [&'a str],
}

impl Opening<'_> {
    /// A client of a region, with neither namespace nor deny lists.
    pub fn client(region: Region, zid: u128) -> Opening<'static> {
        Opening { region, zid, mode: Mode::Client, remote: Bound::North, namespace: None, entry_deny: &[], exit_deny: &[] }
    }
}

/// A request.
#[derive(Clone, Debug)]
pub struct Ask<'a> {
    pub id: u32,
    pub wire: Wire,
    pub target: Target,
    pub timeout: Option<u64>,
    pub node: u16,
    pub qos: u8,
    pub payload: &'a [u8],
    /// The moment, in milliseconds.
    pub now: u64,
}

impl Ask<'_> {
    /// A request of all offers, with the timeout of the configuration and no payload, at the moment 0.
    pub fn all(id: u32, key: &str) -> Ask<'static> {
        Ask { id, wire: key.into(), target: Target::All, timeout: None, node: 0, qos: 0, payload: &[], now: 0 }
    }
}

/// A router's tree, as the gateway sees it: the places of its children, and for each place that of the next router there.
pub type Tree = (Vec<u32>, Vec<Option<u32>>);

/// A gateway. It may go from thread to thread; threads share it under a `Mutex`.
pub struct Gateway(Speaker);

impl Gateway {
    /// A gateway of the lines before a script's calls, as `config 1 10000 north:client local`.
    pub fn new(head: &str) -> Result<Gateway, Error> {
        Ok(Gateway(Speaker::gateway(head.as_bytes())?))
    }

    /// Makes the call of a line (docs/SCRIPT.md); the print of its step.
    pub fn call(&mut self, line: &[u8]) -> Result<&[u8], Fault> {
        self.0.call(line)
    }

    /// The print of the last call's step, once more. It makes no call.
    pub fn print(&mut self) -> Result<&[u8], Fault> {
        self.0.print()
    }

    /// When the gateway is to be told next that a moment has come, by `poll`, in milliseconds.
    pub fn next_deadline(&mut self) -> Option<u64> {
        self.0.next_deadline()
    }

    fn step(&mut self, line: String) -> Result<(Outcome, Vec<Message>), Error> {
        let step = Step::read(self.0.call(line.as_bytes())?).ok_or(Error::Unread)?;
        match step.outcome {
            Outcome::Refused(refusal) => Err(Error::Refused(refusal)),
            outcome => Ok((outcome, step.messages)),
        }
    }

    fn done(&mut self, line: String) -> Messages {
        Ok(self.step(line)?.1)
    }

    /// A face is opened; its number.
    pub fn open(&mut self, opening: &Opening<'_>) -> Result<(u32, Vec<Message>), Error> {
        let Opening { region, zid, mode, remote, .. } = opening;
        let namespace = optional(opening.namespace.map(|it| escape(it.as_bytes())));
        let mut line = format!("open {region} {zid} {mode} {remote} {namespace}");
        for (side, denied) in [("in", opening.entry_deny), ("out", opening.exit_deny)] {
            for text in denied {
                line += &format!(" {side}:{}", escape(text.as_bytes()));
            }
        }
        match self.step(line)? {
            (Outcome::Opened(face), messages) => Ok((face, messages)),
            _ => Err(Error::Unread),
        }
    }

    /// A face is closed.
    pub fn close(&mut self, face: u32) -> Messages {
        self.done(format!("close {face}"))
    }

    /// A face gives a number to a key.
    pub fn key(&mut self, face: u32, number: u16, wire: &Wire) -> Messages {
        self.done(format!("key {face} {number} {wire}"))
    }

    /// It takes the number back.
    pub fn unkey(&mut self, face: u32, number: u16) -> Messages {
        self.done(format!("unkey {face} {number}"))
    }

    /// A face declares, under an id, that it answers queries on a key, completely or in part, at a distance.
    pub fn queryable(&mut self, face: u32, id: u32, wire: &Wire, complete: bool, distance: u16, node: u16) -> Messages {
        self.done(format!("queryable {face} {id} {wire} {} {distance} {node}", if complete { 'c' } else { 'p' }))
    }

    /// It withdraws the id. The expression is read in a region of routers alone.
    pub fn unqueryable(&mut self, face: u32, id: u32, wire: Option<&Wire>, node: u16) -> Messages {
        self.done(format!("unqueryable {face} {id} {} {node}", optional(wire)))
    }

    /// A face asks to hear, under an id, of the queryables on the keys that meet a key, or on all.
    pub fn interest(&mut self, face: u32, id: u32, wire: Option<&Wire>, numbers: bool, aggregate: bool) -> Messages {
        let (numbers, aggregate) = (if numbers { 'k' } else { 'n' }, if aggregate { " a" } else { "" });
        self.done(format!("interest {face} {id} {} {numbers}{aggregate}", optional(wire)))
    }

    /// It asks no longer under the id.
    pub fn uninterest(&mut self, face: u32, id: u32) -> Messages {
        self.done(format!("uninterest {face} {id}"))
    }

    /// A face asks; the request's number.
    pub fn ask(&mut self, face: u32, ask: &Ask<'_>) -> Result<(u64, Vec<Message>), Error> {
        let Ask { id, wire, target, timeout, node, qos, payload, now } = ask;
        let line = format!("ask {face} {id} {wire} {target} {} {node} {qos} {} {now}", optional(*timeout), escape(payload));
        match self.step(line)? {
            (Outcome::Asked(request), messages) => Ok((request, messages)),
            _ => Err(Error::Unread),
        }
    }

    fn answer(&mut self, line: String, responder: Option<u128>) -> Result<(Option<u64>, Vec<Message>), Error> {
        let by = responder.map_or(String::new(), |zid| format!(" by:{zid}"));
        match self.step(line + &by)? {
            (Outcome::Replied(reply), messages) => Ok((reply, messages)),
            _ => Err(Error::Unread),
        }
    }

    /// A face replies to the request that it has under the id; the reply's number, if the asker is open.
    pub fn reply(&mut self, face: u32, id: u32, wire: &Wire, payload: &[u8], responder: Option<u128>) -> Result<(Option<u64>, Vec<Message>), Error> {
        self.answer(format!("reply {face} {id} {wire} ok {}", escape(payload)), responder)
    }

    /// It replies that it failed.
    pub fn error(&mut self, face: u32, id: u32, wire: &Wire, payload: &[u8], responder: Option<u128>) -> Result<(Option<u64>, Vec<Message>), Error> {
        self.answer(format!("reply {face} {id} {wire} err {}", escape(payload)), responder)
    }

    /// It has no more to say to the request.
    pub fn finish(&mut self, face: u32, id: u32) -> Messages {
        self.done(format!("final {face} {id}"))
    }

    /// The reply of this number has been sent, or nothing of it leaves.
    pub fn sent(&mut self, reply: u64) -> Messages {
        self.done(format!("sent {reply}"))
    }

    /// A moment has come, in milliseconds.
    pub fn poll(&mut self, now: u64) -> Messages {
        self.done(format!("poll {now}"))
    }

    /// All that a face had to declare, at its opening or on a key, has come, or the mark is taken away.
    pub fn finalize(&mut self, face: u32, key: Option<&str>, set: bool) -> Messages {
        let mark = key.map_or("initial".to_string(), |text| format!("key {}", escape(text.as_bytes())));
        self.done(format!("finalize {face} {mark} {}", set as u8))
    }

    /// The network of a region of routers: their ids, the tree of each, and how far each is.
    pub fn network(&mut self, region: Region, nodes: &[u128], trees: &[Tree], distances: &[u32]) -> Messages {
        let trees: Vec<String> = trees
            .iter()
            .map(|(children, ways)| {
                let ways: Vec<String> = ways.iter().map(|way| way.map_or("x".to_string(), |it| it.to_string())).collect();
                format!("{}/{}", list(children, ","), list(&ways, ","))
            })
            .collect();
        self.done(format!("network {region} {} {} {}", list(nodes, ","), list(&trees, ";"), list(distances, ",")))
    }

    /// What the node numbers of a router's face stand for.
    pub fn nodes(&mut self, face: u32, ids: &[u128]) -> Messages {
        self.done(format!("nodes {face} {}", list(ids, ",")))
    }

    /// For each client or node of a region, the gateways that may carry its requests; and for one that is not known.
    pub fn gateways(&mut self, region: Region, entries: &[(u128, Vec<u128>)], others: Option<&[u128]>) -> Messages {
        let entries: Vec<String> = entries.iter().map(|(zid, ids)| format!("{zid}={}", list(ids, ","))).collect();
        self.done(format!("gateways {region} {} {}", list(&entries, ";"), others.map_or("none".to_string(), |ids| list(ids, ","))))
    }
}
