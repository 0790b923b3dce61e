//! A bus of storages.
use crate::raw::{Fault, Speaker};
use crate::types::Target;
use crate::words::{escape, unescape};
use std::fmt;

/// Why a storage or a bus refused a line: the first cause of those that hold. Nothing changed.
#[derive(Clone, Copy, Debug, PartialEq, Eq)]
pub enum BusRefusal {
    /// No storage has the number.
    UnknownStore,
    /// The key is not plain.
    NotPlain,
    /// The storage's key does not include it.
    Outside,
    /// No number is left.
    NoFreeId,
    /// An earlier line found no memory.
    Spent,
}

/// Why a line of a bus was not done.
#[derive(Clone, Copy, Debug, PartialEq, Eq)]
pub enum BusError {
    Refused(BusRefusal),
    /// A key was none, or no memory was found.
    Fault(Fault),
    /// The print is that of another version of the library.
    Unread,
}

impl fmt::Display for BusError {
    fn fmt(&self, f: &mut fmt::Formatter<'_>) -> fmt::Result {
        match self {
            BusError::Refused(refusal) => write!(f, "refused: {refusal:?}"),
            BusError::Fault(fault) => fault.fmt(f),
            BusError::Unread => f.write_str("the print is that of another version of the library"),
        }
    }
}

impl std::error::Error for BusError {}

impl From<Fault> for BusError {
    fn from(fault: Fault) -> BusError {
        BusError::Fault(fault)
    }
}

fn refusal(name: &str) -> BusError {
    use BusRefusal::*;
    let found = [UnknownStore, NotPlain, Outside, NoFreeId, Spent].into_iter().find(|it| format!("{it:?}") == name);
    found.map_or(BusError::Unread, BusError::Refused)
}

/// A gateway with an asker and storages.
pub struct Bus(Speaker);

impl Bus {
    /// A bus of the lines before a script's calls, as `config 1 10000 north:client local`.
    pub fn new(head: &str) -> Result<Bus, BusError> {
        Ok(Bus(Speaker::bus(head.as_bytes())?))
    }

    /// Does what a line says (docs/STORE.md); its print.
    pub fn call(&mut self, line: &[u8]) -> Result<&[u8], Fault> {
        self.0.call(line)
    }

    fn said(&mut self, line: String) -> Result<&str, BusError> {
        let print = std::str::from_utf8(self.0.call(line.as_bytes())?).map_err(|_| BusError::Unread)?;
        match print.strip_prefix("refused ") {
            Some(name) => Err(refusal(name.trim_end())),
            None => Ok(print),
        }
    }

    /// A storage joins, and answers for the key, completely or in part; its number.
    pub fn storage(&mut self, key: &str, complete: bool) -> Result<u32, BusError> {
        let print = self.said(format!("storage {} {}", escape(key.as_bytes()), if complete { 'c' } else { 'p' }))?;
        print.strip_prefix("storage ").and_then(|it| it.trim_end().parse().ok()).ok_or(BusError::Unread)
    }

    fn changed(&mut self, line: String) -> Result<Option<Vec<u8>>, BusError> {
        let print = self.said(line)?;
        if print == "done\n" {
            return Ok(None);
        }
        print.strip_prefix("old ").map(|it| Some(unescape(it.trim_end()))).ok_or(BusError::Unread)
    }

    /// The storage has this value at the key; the value before.
    pub fn put(&mut self, store: u32, key: &str, value: &[u8]) -> Result<Option<Vec<u8>>, BusError> {
        self.changed(format!("put {store} {} {}", escape(key.as_bytes()), escape(value)))
    }

    /// The storage has no value at the key any more; the value before.
    pub fn delete(&mut self, store: u32, key: &str) -> Result<Option<Vec<u8>>, BusError> {
        self.changed(format!("delete {store} {}", escape(key.as_bytes())))
    }

    /// What storages reply on a key, each pair that meets it.
    pub fn get(&mut self, key: &str, target: Target) -> Result<Vec<(String, Vec<u8>)>, BusError> {
        let print = self.said(format!("get {} {target}", escape(key.as_bytes())))?;
        let replies = print.strip_suffix("end\n").ok_or(BusError::Unread)?;
        replies
            .lines()
            .map(|line| {
                let (key, value) = line.split_once(' ').ok_or(BusError::Unread)?;
                Ok((String::from_utf8(unescape(key)).map_err(|_| BusError::Unread)?, unescape(value)))
            })
            .collect()
    }
}
