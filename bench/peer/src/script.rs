//! Scripts: commands on a ring of nodes, a line of JSON each, with a line in reply.
mod cluster;
mod command;
mod hints;
mod json;

use crate::refusal::Refusal;
use cluster::Cluster;
use command::Command;
use std::io::{self, BufRead, Write};

/// The maximum length of a line without its line feed, in bytes.
const LINE_MAX: u64 = 1_048_576;

/// The number of bytes of output that are kept back while more input is at hand.
const OUTPUT_BYTES: usize = 1 << 16;

/// The end of a script.
pub enum End {
    /// The whole input was read.
    Done,
    /// The line of this number isn't a command.
    BadLine(u64),
}

/// Runs the script of the input. An answer is written at the latest before more input is waited for.
pub fn run(input: &mut io::BufReader<impl io::Read>, output: &mut impl Write) -> io::Result<End> {
    let mut cluster = Cluster::new();
    let (mut line, mut out) = (Vec::new(), Vec::new());
    let mut number = 0;
    let end = loop {
        if out.len() >= OUTPUT_BYTES || !input.buffer().contains(&b'\n') {
            output.write_all(&out)?;
            output.flush()?;
            out.clear();
        }
        line.clear();
        io::Read::take(&mut *input, LINE_MAX + 1).read_until(b'\n', &mut line)?;
        if line.is_empty() {
            break End::Done;
        }
        number += 1;
        if line.last() == Some(&b'\n') {
            line.pop();
        }
        if line.iter().all(|byte| b" \t\r".contains(byte)) && line.len() as u64 <= LINE_MAX {
            continue;
        }
        if !answer(&mut cluster, &line, &mut out) {
            let bad = Refusal::BadLine;
            out.extend_from_slice(
                format!("{{\"cause\":\"{bad:?}\",\"line\":{number},\"refused\":{}}}\n", bad as u8).as_bytes(),
            );
            break End::BadLine(number);
        }
    };
    output.write_all(&out)?;
    output.flush()?;
    Ok(end)
}

/// Appends the answer to a line. Returns false if the line isn't a command.
fn answer(cluster: &mut Cluster, line: &[u8], out: &mut Vec<u8>) -> bool {
    if line.len() as u64 > LINE_MAX {
        return false;
    }
    let Some(command) = Command::read(line) else { return false };
    match cluster.run(command, out) {
        Ok(()) => true,
        Err(Refusal::BadLine) => false,
        Err(refusal) => {
            let line = format!("{{\"cause\":\"{refusal:?}\",\"refused\":{}}}\n", refusal as u8);
            out.extend_from_slice(line.as_bytes());
            true
        }
    }
}
