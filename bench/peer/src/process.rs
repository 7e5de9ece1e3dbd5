//! The memory and the processor time of the process, 0 if the system doesn't report them.
use std::fs;

/// The number of bytes of a page.
const PAGE_BYTES: u64 = 4_096;

/// The milliseconds of a tick of processor time.
const TICK_MS: u64 = 10;

/// Returns a number of a file of /proc/self, by its place among the words after the last parenthesis.
fn number(file: &str, at: usize) -> u64 {
    let text = fs::read_to_string(format!("/proc/self/{file}")).unwrap_or_default();
    let words = text.rsplit(')').next().unwrap_or_default();
    words.split_whitespace().nth(at).and_then(|word| word.parse().ok()).unwrap_or(0)
}

/// Returns the resident memory, in bytes.
pub fn resident() -> u64 {
    number("statm", 1) * PAGE_BYTES
}

/// Returns the processor time so far, in milliseconds.
pub fn processor_ms() -> u64 {
    (number("stat", 11) + number("stat", 12)) * TICK_MS
}
