//! Slots for background work, whose number follows the latency of the foreground.
use crate::refusal::Refusal;
use std::collections::VecDeque;

/// The greatest target, and the one at the start.
pub const CEILING: u64 = 8;

/// The latency, in microseconds, above which the target is halved.
const THRESHOLD_US: u64 = 50_000;

/// The age of the oldest samples that count, in milliseconds.
const WINDOW_MS: u64 = 60_000;

/// The number of samples that are kept.
const SAMPLES_MAX: usize = 1_024;

/// A controller of slots.
pub struct Slots {
    /// The wanted number of slots.
    pub target: u64,
    /// The number of slots that are lent.
    pub lent: u64,
    now: u64,
    /// The moments and latencies of the last samples.
    samples: VecDeque<(u64, u32)>,
}

impl Slots {
    /// Returns a controller that has lent nothing.
    pub fn new() -> Slots {
        Slots { target: CEILING, lent: 0, now: 0, samples: VecDeque::new() }
    }

    /// Returns the number of slots that could be lent now.
    pub fn free(&self) -> u64 {
        self.target.saturating_sub(self.lent)
    }

    /// Lends a slot. Refused: NoSlot.
    pub fn lend(&mut self) -> Result<(), Refusal> {
        if self.free() == 0 {
            return Err(Refusal::NoSlot);
        }
        self.lent += 1;
        Ok(())
    }

    /// Takes back a slot, if one is lent.
    pub fn give_back(&mut self) {
        self.lent = self.lent.saturating_sub(1);
    }

    fn advance(&mut self, moment: u64) -> Result<(), Refusal> {
        if moment < self.now {
            return Err(Refusal::ClockBack);
        }
        self.now = moment;
        Ok(())
    }

    /// Keeps a sample, and returns the number of samples kept. Refused: ClockBack.
    pub fn sample(&mut self, moment: u64, latency_us: u32) -> Result<usize, Refusal> {
        self.advance(moment)?;
        if self.samples.len() == SAMPLES_MAX {
            self.samples.pop_front();
        }
        self.samples.push_back((moment, latency_us));
        Ok(self.samples.len())
    }

    /// Sets the target by the 99th percentile of the recent latencies, and returns that, `None` without samples.
    /// Refused: ClockBack.
    pub fn adjust(&mut self, moment: u64) -> Result<Option<u32>, Refusal> {
        self.advance(moment)?;
        let recent = self.samples.iter().filter(|&&(at, _)| at.saturating_add(WINDOW_MS) > moment);
        let mut latencies: Vec<u32> = recent.map(|&(_, latency)| latency).collect();
        latencies.sort_unstable();
        let rank = (99 * latencies.len()).div_ceil(100);
        let p99 = rank.checked_sub(1).map(|at| latencies[at]);
        if let Some(p99) = p99.map(u64::from) {
            if p99 > THRESHOLD_US {
                self.target = (self.target / 2).max(1);
            } else if 2 * p99 <= THRESHOLD_US {
                self.target = (self.target + 1).min(CEILING);
            }
        }
        Ok(p99)
    }
}
