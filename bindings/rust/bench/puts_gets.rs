//! Measures the calls of the crate that one thread makes, for `bench/bindings`.
//!
//! The arguments are the number of keys, 100000 by default, and the format, 1 by default. Keys and values equal those
//! in `bench/puts_gets.c`, and are prepared first. Prints a line of JSON: calls per second of elapsed time, and the
//! processor time of a call in nanoseconds.

use std::env;
use std::os::raw::{c_int, c_long};
use std::time::Instant;

use antientropy::{Clock, Config, Refusal, Replica};

const NO_CONTEXT: Clock = Clock::new();

/// `struct timespec` of Linux.
#[repr(C)]
struct Timespec {
    seconds: c_long,
    nanoseconds: c_long,
}

const CLOCK_PROCESS_CPUTIME_ID: c_int = 2;

extern "C" {
    fn clock_gettime(clock: c_int, at: *mut Timespec) -> c_int;
}

/// Returns the processor time of the process in nanoseconds.
fn processor_time() -> f64 {
    let mut at = Timespec { seconds: 0, nanoseconds: 0 };
    // SAFETY: `at` is valid for writes, and has the layout that the call writes.
    assert_eq!(unsafe { clock_gettime(CLOCK_PROCESS_CPUTIME_ID, &mut at) }, 0);
    at.seconds as f64 * 1e9 + at.nanoseconds as f64
}

/// A key with its value.
struct Item {
    key: String,
    value: Vec<u8>,
}

fn make_items(keys: u64) -> Vec<Item> {
    (0..keys).map(|number| Item { key: format!("key-{number:06}"), value: number.to_be_bytes().repeat(4) }).collect()
}

/// Calls a function for each item. Returns two members of the result: the calls per second, named `rate`, and the
/// processor time of one call, named `time`.
fn measure(
    (rate, time): (&str, &str),
    items: &[Item],
    mut call: impl FnMut(&Item) -> Result<(), Refusal>,
) -> Result<String, Refusal> {
    let (start, before) = (Instant::now(), processor_time());
    for item in items {
        call(item)?;
    }
    let (used, took) = (processor_time() - before, start.elapsed());
    let calls = items.len() as f64;
    Ok(format!(r#","{rate}":{:.0},"{time}":{:.0}"#, calls / took.as_secs_f64(), used / calls))
}

/// Returns a number of the command line.
fn word(place: usize, otherwise: u64) -> u64 {
    env::args().nth(place).and_then(|word| word.parse().ok()).unwrap_or(otherwise)
}

fn main() -> Result<(), Refusal> {
    let (items, format) = (make_items(word(1, 100_000)), word(2, 1) as u8);
    let mut replica = Replica::new(Config { format, ..Config::default() })?;
    let mut met = 0;
    let puts = measure(("puts_per_s", "put_ns"), &items, |item| {
        replica.put(1, item.key.as_bytes(), &item.value, &NO_CONTEXT)?;
        Ok(())
    })?;
    let gets = measure(("gets_per_s", "get_ns"), &items, |item| {
        met += replica.get(item.key.as_bytes())?.len();
        Ok(())
    })?;
    let rows = measure(("rows_per_s", "row_ns"), &items, |item| {
        met += usize::from(replica.row(item.key.as_bytes())?.is_some());
        Ok(())
    })?;
    assert_eq!(met, 2 * items.len());
    println!(r#"{{"keys":{}{puts}{gets}{rows}}}"#, items.len());
    Ok(())
}
