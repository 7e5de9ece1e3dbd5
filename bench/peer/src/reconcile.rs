//! `reconcile`: two ranges that each have keys which the other doesn't have, and sync both ways.
use crate::clock::Clock;
use crate::format::Format;
use crate::journal::ENTRIES_MAX;
use crate::offers::{MemoryLink, OfferPool};
use crate::range::Config;
use crate::refusal::Refusal;
use crate::shared::SharedRange;
use crate::version::Version;
use crate::words::{Words, Wrong};
use std::time::{Duration, Instant};

const CONFIG: Config = Config { format: Format::One, bits: 0, number: 0, limit: ENTRIES_MAX };

/// The sums over all turns.
#[derive(Default)]
struct Sums {
    asked: u64,
    accepted: u64,
    took: Duration,
}

fn accept(range: &SharedRange, number: u64) -> Result<(), Refusal> {
    let clock = Clock::from_pairs(&[(1, 1)])?;
    let value = number.to_be_bytes().repeat(4);
    range.copy(0, Version::new(format!("key-{number}").as_bytes(), &clock, Some(&value))).map(drop)
}

/// Returns a pool that offers a snapshot of a range.
fn offered(range: &SharedRange) -> Result<OfferPool, Refusal> {
    let pool = OfferPool::default();
    pool.publish(CONFIG.format, CONFIG.number, range.snapshot()?)?;
    Ok(pool)
}

impl Sums {
    fn reconcile(&mut self, pair: &[SharedRange; 2]) -> Result<(), Refusal> {
        let pools = [offered(&pair[0])?, offered(&pair[1])?];
        for (range, pool) in pair.iter().zip(pools.iter().rev()) {
            let synced = range.sync(&mut MemoryLink(pool), 0, u64::MAX, drop)?;
            self.asked += synced.asked;
            self.accepted += synced.accepted;
        }
        Ok(())
    }
}

/// Runs the turns. Before each of them, both ranges get `differ` more keys and are rehashed, untimed.
fn run_turns(keys: u64, differ: u64, turns: u64) -> Result<Sums, Refusal> {
    let pair = [SharedRange::new(1, CONFIG), SharedRange::new(2, CONFIG)];
    for number in 0..keys {
        pair.iter().try_for_each(|range| accept(range, number))?;
    }
    let mut sums = Sums::default();
    let mut next = keys;
    for _ in 0..turns {
        for _ in 0..differ {
            for range in &pair {
                accept(range, next)?;
                next += 1;
            }
        }
        for range in &pair {
            range.rehash();
        }
        let from = Instant::now();
        sums.reconcile(&pair)?;
        sums.took += from.elapsed();
    }
    Ok(sums)
}

/// Runs the command. Returns true.
pub fn run(words: &[String]) -> Result<Result<bool, Refusal>, Wrong> {
    if words.len() != 3 {
        return Err(Wrong);
    }
    let mut words = Words::new(words);
    let (keys, differ, turns) = (words.number()?, words.number()?, words.number()?);
    Ok(run_turns(keys, differ, turns).map(|sums| {
        println!("{} asked, {} accepted", sums.asked, sums.accepted);
        eprintln!("{{\"reconciled_ns\":{}}}", sums.took.as_nanos());
        true
    }))
}
