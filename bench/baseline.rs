//! The query gateway as plain Rust, to compare the program's speed with. It reads the same scripts and prints the same
//! prints. It was written from docs/SCRIPT.md, with hash maps and no contracts: each line is called as it is read, and
//! what is kept is the state of the gateway and the print. Nothing is proved of it, and nothing else uses it.
//!
//!     rustc --edition 2021 -O -o baseline bench/baseline.rs && ./baseline replay < SCRIPT

use std::io::{self, Read, Write};
use std::process::ExitCode;

#[path = "baseline/face.rs"]
mod face;
#[path = "baseline/gateway.rs"]
mod gateway;
#[path = "baseline/keys.rs"]
mod keys;
#[path = "baseline/telling.rs"]
mod telling;
#[path = "baseline/words.rs"]
mod words;

const MOST_BYTES: u64 = 16_777_216;

/// The print of a script, or the number of its first bad line.
fn replay(bytes: &[u8]) -> Result<Vec<u8>, usize> {
    let (mut gateway, mut words) = (gateway::Gateway::default(), Vec::new());
    for (n, line) in bytes.strip_suffix(b"\n").unwrap_or(bytes).split(|b| *b == b'\n').enumerate() {
        words.clear();
        words.extend(line.split(|b| *b == b' '));
        let read = match n {
            _ if words.contains(&&b""[..]) => None,
            0 => gateway.config(&words),
            1 => gateway.start(&words).or_else(|| gateway.line(&words)),
            _ => gateway.line(&words),
        };
        read.ok_or(n + 1)?;
    }
    Ok(gateway.out)
}

fn main() -> ExitCode {
    if !std::env::args().skip(1).eq(["replay"]) {
        return ExitCode::from(1);
    }
    let mut bytes = Vec::new();
    if io::stdin().lock().take(MOST_BYTES + 1).read_to_end(&mut bytes).is_err() {
        return ExitCode::from(3);
    }
    if bytes.len() as u64 > MOST_BYTES {
        return ExitCode::from(6);
    }
    let (print, status) = match replay(&bytes) {
        Ok(print) => (print, 0),
        Err(line) => (format!("bad line {line}\n").into_bytes(), 2),
    };
    match io::stdout().write_all(&print) {
        Ok(()) => ExitCode::from(status),
        Err(_) => ExitCode::from(4),
    }
}
