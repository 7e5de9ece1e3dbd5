//! Slots for background work, which backs off when the foreground is slow.

use crate::handle::{written, Owned};
use crate::refusal::{check, Refusal};
use crate::sys;
use crate::values::SlotCounts;

/// Slots: their target stays between the floor and the ceiling, and starts at the ceiling.
///
/// It falls if the latency of the foreground is above the threshold, in microseconds.
///
/// ```
/// let mut slots = antientropy::Slots::new(1, 4, 10_000)?;
/// slots.sample(1_000, 25_000)?;
/// assert_eq!(slots.adjust(2_000)?, Some(25_000));
/// assert_eq!(slots.count()?.target, 2);
/// slots.lend()?;
/// slots.give_back()?;
/// # Ok::<(), antientropy::Refusal>(())
/// ```
#[derive(Debug)]
pub struct Slots {
    handle: Owned,
}

impl Slots {
    /// Makes slots. None is lent.
    ///
    /// # Errors
    ///
    /// `BadRing` if the numbers are outside their limits.
    pub fn new(floor: u32, ceiling: u32, threshold: u32) -> Result<Slots, Refusal> {
        let handle = Owned::make(sys::antientropy_slots_free, |raw| {
            // SAFETY: the handle is empty and a local one.
            unsafe { sys::antientropy_slots_new(raw, floor, ceiling, threshold) }
        })?;
        Ok(Slots { handle })
    }

    /// Lends a slot, before background work.
    ///
    /// # Errors
    ///
    /// `NoSlot` if the slots lent reach the target.
    pub fn lend(&mut self) -> Result<(), Refusal> {
        // SAFETY: as in `sys`.
        check(unsafe { sys::antientropy_slot_lend(self.handle.raw()) })
    }

    /// Gives a slot back, after background work.
    ///
    /// # Errors
    ///
    /// `NoSlot` if none is lent.
    pub fn give_back(&mut self) -> Result<(), Refusal> {
        // SAFETY: as in `sys`.
        check(unsafe { sys::antientropy_slot_give_back(self.handle.raw()) })
    }

    /// Records the latency of a reply in microseconds, with its time in milliseconds.
    ///
    /// # Errors
    ///
    /// `ClockBack` if a later time was recorded before.
    pub fn sample(&mut self, moment: u64, micros: u32) -> Result<(), Refusal> {
        // SAFETY: as in `sys`.
        check(unsafe { sys::antientropy_slots_sample(self.handle.raw(), moment, micros) })
    }

    /// Sets the target by the samples of the last minute. Returns their 99th percentile in microseconds.
    ///
    /// Without samples it returns `None`, and the target is unchanged.
    ///
    /// # Errors
    ///
    /// `ClockBack`.
    pub fn adjust(&mut self, now: u64) -> Result<Option<u64>, Refusal> {
        let p99: sys::Percentile = written(|p99| {
            // SAFETY: as in `sys`.
            unsafe { sys::antientropy_slots_adjust(self.handle.raw(), now, p99) }
        })?;
        Ok((p99.found != 0).then_some(p99.micros))
    }

    /// Sets the target. Slots that are lent stay lent.
    ///
    /// # Errors
    ///
    /// `BadRing` if the target is below the floor or above the ceiling.
    pub fn set_target(&mut self, target: u32) -> Result<(), Refusal> {
        // SAFETY: as in `sys`.
        check(unsafe { sys::antientropy_slots_set_target(self.handle.raw(), target) })
    }

    /// Returns the target, and the counts of slots that are lent and free.
    pub fn count(&mut self) -> Result<SlotCounts, Refusal> {
        written(|counts| {
            // SAFETY: as in `sys`.
            unsafe { sys::antientropy_slots_count(self.handle.raw(), counts) }
        })
    }
}
