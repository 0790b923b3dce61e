//! Says the lines of a script to a gateway, or of a script for storages to a bus, and prints what they are answered:
//! `run [-s] [-t] SCRIPT`. -s: they are of storages. -t: prints calls a second in place of it. Where a line is bad it prints
//! `bad line N` in place of all else, and ends with status 2, as `zq replay` does.
use std::io::Write;
use std::time::Instant;
use zq::{Fault, Speaker, Step};

const LOAD: &[u8] = b"config 1 10000 north:client local\n";

/// The lines of a script, and how many of them stand before the calls.
fn lines(script: &[u8]) -> (Vec<&[u8]>, usize) {
    let mut lines: Vec<&[u8]> = script.split(|&b| b == b'\n').collect();
    if lines.last() == Some(&b"".as_slice()) {
        lines.pop();
    }
    let further = lines.iter().skip(1).take(2).take_while(|it| it.starts_with(b"start ") || it.starts_with(b"best ")).count();
    let heads = (1 + further).min(lines.len());
    (lines, heads)
}

/// All prints, or the number of the bad line. Each print is read as a step, where that is wanted.
fn run(script: &[u8], storages: bool, reads: bool, out: &mut Vec<u8>) -> Result<u64, u64> {
    let (lines, heads) = lines(script);
    let heads = if storages { 0 } else { heads };
    let opened = if storages { Speaker::bus(LOAD) } else { Speaker::gateway(&lines[..heads].join(&b'\n')) };
    let mut speaker = match opened {
        Err(Fault::BadHead(number)) => return Err(number),
        other => other.expect("there is memory"),
    };
    for (number, line) in lines.iter().enumerate().skip(heads) {
        match speaker.call(line) {
            Err(Fault::BadLine) => return Err(number as u64 + 1),
            print => out.extend_from_slice(print.expect("there is memory")),
        }
        if reads && !storages {
            assert!(Step::read(speaker.print().expect("it was printed")).is_some());
        }
    }
    Ok((lines.len() - heads) as u64)
}

fn main() -> std::io::Result<()> {
    let words: Vec<String> = std::env::args().skip(1).collect();
    let has = |flag: &str| words.iter().any(|it| it == flag);
    let script = std::fs::read(words.last().expect("a script"))?;
    let mut out = Vec::new();
    let begun = Instant::now();
    match run(&script, has("-s"), !has("-t"), &mut out) {
        Ok(calls) if has("-t") => {
            let s = begun.elapsed().as_secs_f64();
            println!("Rust: {calls} calls, {} bytes, {s:.3} s, {:.0} calls a second", out.len(), calls as f64 / s);
        }
        Ok(_) => std::io::stdout().write_all(&out)?,
        Err(number) => {
            println!("bad line {number}");
            std::process::exit(2);
        }
    }
    Ok(())
}
