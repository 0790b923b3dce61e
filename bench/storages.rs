//! Storages and gets as plain Rust, to compare the speed of `zq store` with. It reads the same lines and prints the same,
//! for keys and values without bytes that have to be escaped. Pairs stand in ordered maps, storages in a list; there is
//! no gateway. Nothing is proved of it, and nothing else uses it.
//!
//!     rustc --edition 2021 -O -o storages bench/storages.rs && ./storages store < SCRIPT

use std::collections::BTreeMap;
use std::fmt::Write as _;
use std::io::{self, Read, Write};
use std::process::ExitCode;

#[allow(dead_code)]
#[path = "baseline/keys.rs"]
mod keys;

struct Storage {
    key: String,
    complete: bool,
    pairs: BTreeMap<String, String>,
}

#[derive(Default)]
struct Storages {
    all: Vec<Storage>,
    print: String,
}

/// The longest front of a key that has plain chunks alone.
fn plain_front(key: &str) -> &str {
    let wild = key.find(['*', '$', '@']).unwrap_or(key.len());
    if wild == key.len() { key } else { &key[..key[..wild].rfind('/').unwrap_or(0)] }
}

impl Storage {
    /// Writes the pairs that meet a key: it looks at those that begin with its plain front.
    fn reply(&self, key: &str, print: &mut String) {
        let front = plain_front(key);
        for (name, value) in self.pairs.range(front.to_string()..) {
            if !name.starts_with(front) {
                break;
            }
            if keys::keys_meet(name, key) {
                let _ = writeln!(print, "{name} {value}");
            }
        }
    }
}

impl Storages {
    fn put(&mut self, number: usize, key: &str, value: &str) -> Option<()> {
        let storage = self.all.get_mut(number)?;
        if !keys::includes(&storage.key, key) {
            self.print.push_str("refused Outside\n");
            return Some(());
        }
        match storage.pairs.insert(key.to_string(), value.to_string()) {
            Some(old) => { let _ = writeln!(self.print, "old {old}"); }
            None => self.print.push_str("done\n"),
        }
        Some(())
    }

    fn delete(&mut self, number: usize, key: &str) -> Option<()> {
        match self.all.get_mut(number)?.pairs.remove(key) {
            Some(old) => { let _ = writeln!(self.print, "old {old}"); }
            None => self.print.push_str("done\n"),
        }
        Some(())
    }

    /// Those whose key meets, by key and number; of these the first that has all of the key for `best`, if one has.
    fn get(&mut self, key: &str, target: &str) {
        let mut met: Vec<_> = self.all.iter().filter(|it| keys::keys_meet(&it.key, key)).collect();
        met.sort_by(|a, b| a.key.cmp(&b.key));
        let is_whole = |it: &&Storage| it.complete && keys::includes(&it.key, key);
        match target {
            "complete" => met.retain(is_whole),
            "best" => if let Some(first) = met.iter().position(is_whole) { met = vec![met[first]] },
            _ => {}
        }
        for storage in met {
            storage.reply(key, &mut self.print);
        }
        self.print.push_str("end\n");
    }

    fn line(&mut self, line: &str) -> Option<()> {
        let words: Vec<_> = line.split(' ').collect();
        match words[..] {
            ["storage", key, how] if keys::is_key(key) => {
                let _ = writeln!(self.print, "storage {}", self.all.len());
                self.all.push(Storage { key: key.to_string(), complete: how == "c", pairs: BTreeMap::new() });
            }
            ["put", number, key, value] if keys::is_key(key) => self.put(number.parse().ok()?, key, value)?,
            ["delete", number, key] if keys::is_key(key) => self.delete(number.parse().ok()?, key)?,
            ["get", key, target] if keys::is_key(key) => self.get(key, target),
            _ => return None,
        }
        Some(())
    }
}

fn main() -> ExitCode {
    let mut script = String::new();
    if io::stdin().lock().read_to_string(&mut script).is_err() {
        return ExitCode::from(3);
    }
    let mut storages = Storages::default();
    for (at, line) in script.lines().enumerate() {
        if storages.line(line).is_none() {
            println!("bad line {}", at + 1);
            return ExitCode::from(2);
        }
    }
    match io::stdout().write_all(storages.print.as_bytes()) {
        Ok(()) => ExitCode::SUCCESS,
        Err(_) => ExitCode::from(4),
    }
}
