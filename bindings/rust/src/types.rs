//! What is said to a gateway, and what it answers.
use crate::words::{escape, unescape, Words};
use std::fmt;

/// A region of a gateway.
#[derive(Clone, Copy, Debug, PartialEq, Eq)]
pub enum Region {
    /// Towards the rest of the network.
    North,
    /// Applications on this machine.
    Local,
    /// Clients, peers or routers below.
    South(u32, Mode),
}

/// What a face's remote is.
#[derive(Clone, Copy, Debug, PartialEq, Eq)]
pub enum Mode {
    Router,
    Peer,
    Client,
}

/// On which of its sides a remote has the gateway.
#[derive(Clone, Copy, Debug, PartialEq, Eq)]
pub enum Bound {
    North,
    South,
}

/// Which of the offers that are for the asker are taken.
#[derive(Clone, Copy, Debug, PartialEq, Eq)]
pub enum Target {
    All,
    Complete,
    Best,
}

impl fmt::Display for Mode {
    fn fmt(&self, f: &mut fmt::Formatter<'_>) -> fmt::Result {
        f.write_str(match self {
            Mode::Router => "router",
            Mode::Peer => "peer",
            Mode::Client => "client",
        })
    }
}

impl fmt::Display for Region {
    fn fmt(&self, f: &mut fmt::Formatter<'_>) -> fmt::Result {
        match self {
            Region::North => f.write_str("north"),
            Region::Local => f.write_str("local"),
            Region::South(id, mode) => write!(f, "south:{id}:{mode}"),
        }
    }
}

impl fmt::Display for Bound {
    fn fmt(&self, f: &mut fmt::Formatter<'_>) -> fmt::Result {
        f.write_str(match self {
            Bound::North => "north",
            Bound::South => "south",
        })
    }
}

impl fmt::Display for Target {
    fn fmt(&self, f: &mut fmt::Formatter<'_>) -> fmt::Result {
        f.write_str(match self {
            Target::All => "all",
            Target::Complete => "complete",
            Target::Best => "best",
        })
    }
}

/// A key expression: a number for a key, or 0, and what follows its text.
#[derive(Clone, Debug, PartialEq, Eq)]
pub struct Wire {
    pub number: u16,
    /// Whether the number is one that the receiver gave.
    pub receiver: bool,
    pub suffix: String,
}

impl From<&str> for Wire {
    fn from(key: &str) -> Wire {
        Wire { number: 0, receiver: false, suffix: key.to_string() }
    }
}

impl fmt::Display for Wire {
    fn fmt(&self, f: &mut fmt::Formatter<'_>) -> fmt::Result {
        write!(f, "{}:{}:{}", self.number, if self.receiver { 'r' } else { 's' }, escape(self.suffix.as_bytes()))
    }
}

impl Wire {
    fn read(word: &str) -> Option<Wire> {
        let mut parts = word.splitn(3, ':');
        Some(Wire {
            number: parts.next()?.parse().ok()?,
            receiver: parts.next()? == "r",
            suffix: String::from_utf8(unescape(parts.next()?)).ok()?,
        })
    }
}

/// Why a gateway refused a call: the first cause of those that hold. Nothing changed.
#[derive(Clone, Copy, Debug, PartialEq, Eq)]
pub enum Refusal {
    UnknownFace,
    UnknownRegion,
    UpstreamInUse,
    UnknownScope,
    InvalidKeyExpr,
    QueryNotFound,
    NotInFlight,
    Remapped,
    UnknownId,
    IdInUse,
    UnknownRouter,
    NoFreeId,
}

impl Refusal {
    fn read(name: &str) -> Option<Refusal> {
        use Refusal::*;
        [
            UnknownFace, UnknownRegion, UpstreamInUse, UnknownScope, InvalidKeyExpr, QueryNotFound, NotInFlight, Remapped,
            UnknownId, IdInUse, UnknownRouter, NoFreeId,
        ]
        .into_iter()
        .find(|it| format!("{it:?}") == name)
    }
}

/// What a call was answered.
#[derive(Clone, Copy, Debug, PartialEq, Eq)]
pub enum Outcome {
    /// The face has this number.
    Opened(u32),
    /// The request has this number.
    Asked(u64),
    /// The reply has this number, if its asker is open.
    Replied(Option<u64>),
    Done,
    Refused(Refusal),
}

/// What a face is handed.
#[derive(Clone, Debug, PartialEq, Eq)]
pub enum Body {
    Request { id: u32, wire: Wire, target: Target, timeout: Option<u64>, node: u16, qos: u8, payload: Vec<u8> },
    Response { id: u32, wire: Wire, qos: u8, ok: bool, payload: Vec<u8>, responder: Option<u128> },
    Final { id: u32, qos: u8 },
    Key { number: u16, wire: Wire },
    Queryable { id: u32, wire: Wire, complete: bool, distance: u16, node: u16, interest: Option<u32> },
    Unqueryable { id: u32, wire: Option<Wire>, node: u16 },
    DeclareFinal { interest: Option<u32> },
}

/// A message that is to be sent to a face.
#[derive(Clone, Debug, PartialEq, Eq)]
pub struct Message {
    pub face: u32,
    /// The number of its request, if it is of one.
    pub request: Option<u64>,
    /// The number of a reply, which is to be reported by `sent` once the message was sent, or where nothing leaves.
    pub reply: Option<u64>,
    /// What is handed.
    pub body: Body,
    /// What of it leaves through the face's exit, if anything does: this is what is to be sent.
    pub leaves: Option<Body>,
}

/// What a call was answered, and what is to be sent.
#[derive(Clone, Debug, PartialEq, Eq)]
pub struct Step {
    pub outcome: Outcome,
    pub messages: Vec<Message>,
}

fn read_outcome(mut words: Words<'_>) -> Option<Outcome> {
    match words.word()? {
        "opened" => Some(Outcome::Opened(words.number()?)),
        "asked" => Some(Outcome::Asked(words.number()?)),
        "replied" => Some(Outcome::Replied(words.maybe()?)),
        "done" => Some(Outcome::Done),
        "refused" => Some(Outcome::Refused(Refusal::read(words.word()?)?)),
        _ => None,
    }
}

fn read_target(word: &str) -> Option<Target> {
    [Target::All, Target::Complete, Target::Best].into_iter().find(|it| it.to_string() == word)
}

fn read_maybe_wire(word: &str) -> Option<Option<Wire>> {
    match word {
        "-" => Some(None),
        word => Wire::read(word).map(Some),
    }
}

fn read_body(w: &mut Words<'_>) -> Option<Body> {
    Some(match w.word()? {
        "request" => Body::Request {
            id: w.number()?,
            wire: Wire::read(w.word()?)?,
            target: read_target(w.word()?)?,
            timeout: w.maybe()?,
            node: w.number()?,
            qos: w.number()?,
            payload: unescape(w.word()?),
        },
        "response" => Body::Response {
            id: w.number()?,
            wire: Wire::read(w.word()?)?,
            qos: w.number()?,
            ok: w.word()? == "ok",
            payload: unescape(w.word()?),
            responder: w.maybe()?,
        },
        "final" => Body::Final { id: w.number()?, qos: w.number()? },
        "key" => Body::Key { number: w.number()?, wire: Wire::read(w.word()?)? },
        "queryable" => Body::Queryable {
            id: w.number()?,
            wire: Wire::read(w.word()?)?,
            complete: w.word()? == "c",
            distance: w.number()?,
            node: w.number()?,
            interest: w.maybe()?,
        },
        "unqueryable" => Body::Unqueryable { id: w.number()?, wire: read_maybe_wire(w.word()?)?, node: w.number()? },
        "declfinal" => Body::DeclareFinal { interest: w.maybe()? },
        _ => return None,
    })
}

impl Step {
    /// The step that a print is of; None where it is none.
    pub fn read(print: &[u8]) -> Option<Step> {
        let mut lines = std::str::from_utf8(print).ok()?.lines();
        let mut step = Step { outcome: read_outcome(Words::of(lines.next()?.strip_prefix("= ")?))?, messages: Vec::new() };
        for line in lines {
            if line == "< -" {
                step.messages.last_mut()?.leaves = None;
            } else if let Some(rest) = line.strip_prefix("< ") {
                step.messages.last_mut()?.leaves = Some(read_body(&mut Words::of(rest))?);
            } else {
                let mut w = Words::of(line.strip_prefix("> ")?);
                let (face, request, reply) = (w.number()?, w.maybe()?, w.maybe()?);
                let body = read_body(&mut w)?;
                step.messages.push(Message { face, request, reply, leaves: Some(body.clone()), body });
            }
        }
        Some(step)
    }
}
