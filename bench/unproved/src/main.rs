//! `play`, `check` and `gen SIZE NUMBER` of the replicated text buffer, in plain Rust, without contracts and proofs. It
//! prints what the proved program prints, byte for byte, and is there to measure against and to compare bytes with.
//! With `audit` before `play` it looks, after each command, at the invariants of its documents, and in small scripts at
//! each site's text and order: they must be those that its operations show by themselves (`shown`).

mod doc;
mod gen;
mod ids;
mod judge;
mod play;
mod replica;
mod script;
mod seq;
mod shown;
mod trace;
mod world;

use play::Out;
use seq::Seq;
use std::io::Read;
use std::os::unix::ffi::OsStringExt;

fn main() {
    let words: Vec<Vec<u8>> = std::env::args_os().skip(1).map(|word| word.into_vec()).collect();
    let words: Vec<&[u8]> = words.iter().map(|word| &word[..]).collect();
    let mut out = Out { bytes: Vec::new(), failed: false, quiet: false };
    let mut status = match words[..] {
        [b"play"] => run(false, &mut out),
        [b"audit", b"play"] => run(true, &mut out),
        [b"check"] => check(&mut out),
        [b"gen", size, number] => match (script::number(size), script::number(number)) {
            (Some(size), Some(number)) if size <= 50_000 => {
                play::gen::<Seq>(size, number, &mut out);
                0
            }
            _ => 2,
        },
        _ => 2,
    };
    if status == 2 {
        out.bytes.extend_from_slice(b"usage: unproved [audit] play | check | gen SIZE NUMBER\n");
    }
    out.flush();
    if out.failed {
        status = 5;
    }
    std::process::exit(status);
}

/// The first bytes of standard input, at most so many.
fn input(most: u64) -> Option<Vec<u8>> {
    let mut bytes = Vec::new();
    std::io::stdin().take(most).read_to_end(&mut bytes).ok()?;
    Some(bytes)
}

fn check(out: &mut Out) -> i32 {
    let Some(bytes) = input(536_870_913) else { return 4 };
    let line = match judge::check(&bytes) {
        Ok(()) => "yes\n".to_string(),
        Err(judge::No(line, word)) => format!("no {line} {word}\n"),
    };
    out.bytes.extend_from_slice(line.as_bytes());
    0
}

fn run(audit: bool, out: &mut Out) -> i32 {
    let Some(bytes) = input(1_048_577) else { return 4 };
    match script::read(&bytes) {
        Err(script::Fault(line, kind)) => {
            out.bytes.extend_from_slice(format!("fault {line} {kind}\n").as_bytes());
            3
        }
        Ok(script) => {
            drop(bytes);
            // The world is not taken apart: the process ends.
            std::mem::forget(play::play::<Seq>(&script, out, audit));
            0
        }
    }
}
