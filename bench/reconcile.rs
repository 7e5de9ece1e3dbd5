//! Reconciles two ranges, turn by turn: a sync each way over memory, on snapshots that were taken before both.
//! `bench/reconcile` builds this file into a copy of the program of `YARDSTICK`, if that has no such command. The
//! words, the keys and the standard output are those of the program of the crate `bench_costs`.
use crate::shared::*;
use crate::*;
use std::sync::Mutex;
use std::time::{Duration, Instant};

/// The counts of all turns.
#[derive(Default)]
struct Done {
    asked: usize,
    accepted: usize,
    took: Duration,
}

fn accept(range: &SharedRange, number: u64) -> Result<(), No> {
    let version = Version { clock: vec![(1, 1)], value: Some(number.to_be_bytes().repeat(4)) };
    range.copy(0, format!("key-{number}").as_bytes(), &version).map(drop)
}

/// Returns a pool that offers a snapshot of a range.
fn offer(range: &SharedRange) -> Result<OfferPool, No> {
    let pool = OfferPool::default();
    pool.publish(range.snapshot()?);
    Ok(pool)
}

fn reconcile(a: &SharedRange, b: &SharedRange, slot: &Slot, done: &mut Done) -> Result<(), No> {
    let (of_a, of_b) = (offer(a)?, offer(b)?);
    for (range, partner) in [(a, &of_b), (b, &of_a)] {
        let synced = range.sync(slot, &mut MemoryLink(partner), 0, usize::MAX, &mut Vec::new())?;
        assert!(synced.finished, "a sync over memory is finished");
        done.asked += synced.asked;
        done.accepted += synced.accepted;
    }
    Ok(())
}

fn run(keys: u64, differ: u64, turns: u64) -> Result<Done, No> {
    let (a, b) = (SharedRange::new(1, 1_000_000), SharedRange::new(2, 1_000_000));
    for number in 0..keys {
        accept(&a, number)?;
        accept(&b, number)?;
    }
    let control = Mutex::new(Control::new());
    let slot = Slot::lend(&control)?;
    let mut done = Done::default();
    for turn in 0..turns {
        for i in 0..differ {
            let number = keys + 2 * (turn * differ + i);
            accept(&a, number)?;
            accept(&b, number + 1)?;
        }
        a.rehash_held();
        b.rehash_held();
        let start = Instant::now();
        reconcile(&a, &b, &slot, &mut done)?;
        done.took += start.elapsed();
    }
    Ok(done)
}

pub fn main(words: &[String]) -> i32 {
    let numbers: Option<Vec<u64>> = words.iter().map(|w| w.parse().ok()).collect();
    let Some(&[keys, differ, turns]) = numbers.as_deref() else { return usage() };
    match run(keys, differ, turns) {
        Ok(done) => {
            println!("{} asked, {} accepted", done.asked, done.accepted);
            eprintln!("{{\"reconciled_ns\":{}}}", done.took.as_nanos());
            0
        }
        Err(no) => {
            eprintln!("refused: {no:?}");
            1
        }
    }
}
