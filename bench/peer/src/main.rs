//! The peer: a plain Rust program that does what the measured calls of antientropy do, so that anybody can compare both
//! on one machine. `bench/all` builds it and runs each benchmark against it.
//!
//!     peer < SCRIPT
//!     peer calls [--keys N] [--threads T] [--one] [--told] [--key-bytes B] [--value-bytes B]
//!     peer reconcile KEYS DIFFER TURNS
//!     peer storm [--puts N] [--times]
//!
//! It is written from docs/FORMATS.md and docs/SCRIPTS.md. A range keeps its rows, the journal of all accepted
//! versions, a tree of digests, and records of its sessions. A pass keeps a caller's receipts and readings, and closing
//! a range compares the passes with the journal. Scripts are of both formats, the other commands of format 1.
//!
//! Nothing is proved. If memory runs out, the program ends. The record of a session has its state and the number of
//! nodes asked, not their list. There are no outlines, renewals or migrations.
//!
//! A tree is persistent: a snapshot shares all its nodes, and a put first copies the shared nodes on the way to its
//! row. So no job and no snapshot sees a change. Rows are in chunks of at most 32, which are shared in the same way. A
//! version and its key are one block of memory, which rows, journal, receipts and readings share. Hashing uses no
//! instructions of the processor for SHA-256, as in the program.
mod calls;
mod clock;
mod cursor;
mod format;
mod journal;
mod line;
mod message;
mod offers;
mod pass;
mod place;
mod process;
mod range;
mod reconcile;
mod refusal;
mod rows;
mod script;
mod session;
mod shape;
mod shared;
mod slots;
mod storm;
#[cfg(test)]
mod tests;
mod tree;
mod version;
mod words;

use script::End;
use std::io;
use std::process::ExitCode;

const FAILED: u8 = 1;
const WRONG_WORDS: u8 = 2;
const DEVICE_FAULT: u8 = 3;

const USAGE: &str = "usage: peer < SCRIPT
       peer calls [--keys N] [--threads T] [--one] [--told] [--key-bytes B] [--value-bytes B]
       peer reconcile KEYS DIFFER TURNS
       peer storm [--puts N] [--times]";

fn main() -> ExitCode {
    let words: Vec<String> = std::env::args().skip(1).collect();
    let Some((name, words)) = words.split_first() else { return run_script() };
    let done = match name.as_str() {
        "calls" => calls::run(words),
        "reconcile" => reconcile::run(words),
        "storm" => storm::run(words),
        _ => Err(words::Wrong),
    };
    match done {
        Ok(Ok(true)) => ExitCode::SUCCESS,
        Ok(Ok(false)) => ExitCode::from(FAILED),
        Ok(Err(refusal)) => {
            eprintln!("peer: refused: {refusal:?}");
            ExitCode::from(FAILED)
        }
        Err(words::Wrong) => {
            eprintln!("{USAGE}");
            ExitCode::from(WRONG_WORDS)
        }
    }
}

/// Runs the script on standard input.
fn run_script() -> ExitCode {
    let mut input = io::BufReader::with_capacity(1 << 16, io::stdin().lock());
    match script::run(&mut input, &mut io::stdout().lock()) {
        Ok(End::Done) => ExitCode::SUCCESS,
        Ok(End::BadLine(number)) => {
            eprintln!("peer: line {number} isn't a command");
            ExitCode::from(FAILED)
        }
        Err(error) => {
            eprintln!("peer: device fault: {error}");
            ExitCode::from(DEVICE_FAULT)
        }
    }
}
