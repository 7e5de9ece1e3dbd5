//! Hints: versions that a node carries for replicas that are down.

use std::iter;

use crate::handle::{bytes, clock, value, written, Owned};
use crate::refusal::{check, found, Refusal};
use crate::sys;
use crate::values::{Hint, HintCounts, Version};

/// The hints that a node carries in memory. A hint doesn't belong to a range, and its number never names another one.
///
/// Confirm a hint once its owner has the version on its disk:
///
/// ```
/// use antientropy::{Clock, Config, Hints, Replica, Version};
/// let mut hints = Hints::new()?;
/// hints.keep(2, b"cart", &Version { clock: Clock::from([(1, 1)]), value: Some(b"tea".to_vec()) })?;
///
/// let mut owner = Replica::new(Config::default())?;
/// let mut after = 0;
/// while let Some(hint) = hints.next_pending(2, after)? {
///     let new = owner.accept(&hint.key, &hint.version)?;
///     hints.confirm(hint.number, !new)?;
///     after = hint.number;
/// }
/// assert_eq!(hints.count()?.delivered, 1);
/// # Ok::<(), antientropy::Refusal>(())
/// ```
#[derive(Debug)]
pub struct Hints {
    handle: Owned,
}

impl Hints {
    /// Makes an empty store of hints. The first hint gets the number 1.
    pub fn new() -> Result<Hints, Refusal> {
        let handle = Owned::make(sys::antientropy_hints_free, |raw| {
            // SAFETY: the handle is empty and a local one.
            unsafe { sys::antientropy_hints_new(raw) }
        })?;
        Ok(Hints { handle })
    }

    /// Makes an empty store of hints, after a restart. The first hint gets the number `first`.
    ///
    /// It must be above all numbers in the program's log: hints that are kept again get new numbers to log, and no old
    /// number names another hint.
    ///
    /// # Errors
    ///
    /// `UnknownHint` if `first` is 0.
    pub fn restore(first: u64) -> Result<Hints, Refusal> {
        let handle = Owned::make(sys::antientropy_hints_free, |raw| {
            // SAFETY: the handle is empty and a local one.
            unsafe { sys::antientropy_hints_restore(raw, first) }
        })?;
        Ok(Hints { handle })
    }

    /// Keeps a version for its owner. Returns the number of the hint: one more than the last.
    ///
    /// # Errors
    ///
    /// `BadClock` (also if the owner is 0), `ClockFull`, `BadKey`, `BadValue` or `HintsFull`.
    pub fn keep(&mut self, owner: u16, key: &[u8], version: &Version) -> Result<u64, Refusal> {
        let (kind, data) = (version.kind().number() as u8, version.value.as_deref().unwrap_or_default());
        let pairs = version.clock.pairs();
        written(|id| {
            // SAFETY: as in `sys`.
            unsafe {
                sys::antientropy_hint_keep(
                    self.handle.raw(),
                    owner.into(),
                    key.as_ptr(),
                    key.len(),
                    pairs.as_ptr(),
                    pairs.len(),
                    kind,
                    data.as_ptr(),
                    data.len(),
                    id,
                )
            }
        })
    }

    /// Returns the owner's pending hint with the least number over `after`, which is 0 for the first.
    pub fn next_pending(&mut self, owner: u16, after: u64) -> Result<Option<Hint>, Refusal> {
        let number: Option<u64> = found(written(|id| {
            // SAFETY: as in `sys`.
            unsafe { sys::antientropy_hint_next(self.handle.raw(), owner.into(), after, id) }
        }))?;
        match number {
            Some(number) => self.hint(number),
            None => Ok(None),
        }
    }

    /// Returns an iterator over the pending hints of an owner, in order.
    pub fn pending(&mut self, owner: u16) -> impl Iterator<Item = Result<Hint, Refusal>> + '_ {
        let mut last = Some(0);
        iter::from_fn(move || {
            let next = self.next_pending(owner, last.take()?).transpose()?;
            last = next.as_ref().ok().map(|hint| hint.number);
            Some(next)
        })
    }

    /// Returns a hint, pending or delivered.
    pub fn hint(&mut self, number: u64) -> Result<Option<Hint>, Refusal> {
        found(self.hint_parts(number))
    }

    /// Marks a pending hint as delivered, once its owner has the version on its disk.
    ///
    /// `known` is true if the owner knew the version.
    ///
    /// # Errors
    ///
    /// `UnknownHint`.
    pub fn confirm(&mut self, number: u64, known: bool) -> Result<(), Refusal> {
        // SAFETY: as in `sys`.
        check(unsafe { sys::antientropy_hint_confirm(self.handle.raw(), number, known) })
    }

    /// Drops the delivered hints. The pending ones get new numbers in order, above every number that was used.
    ///
    /// After that, an old number names no hint.
    ///
    /// # Errors
    ///
    /// `HintsFull` if a number would be over 2^64 - 1.
    pub fn renew(&mut self) -> Result<(), Refusal> {
        // SAFETY: as in `sys`.
        check(unsafe { sys::antientropy_hints_renew(self.handle.raw()) })
    }

    /// Returns the counts of pending and of delivered hints.
    pub fn count(&mut self) -> Result<HintCounts, Refusal> {
        written(|counts| {
            // SAFETY: as in `sys`.
            unsafe { sys::antientropy_hints_count(self.handle.raw(), counts) }
        })
    }

    /// Returns the size of all hints in bytes, including delivered ones.
    ///
    /// It counts their keys, values and clocks, 10 bytes for each pair of a clock.
    pub fn bytes(&mut self) -> Result<u64, Refusal> {
        written(|bytes| {
            // SAFETY: as in `sys`.
            unsafe { sys::antientropy_hints_bytes(self.handle.raw(), bytes) }
        })
    }

    fn hint_parts(&mut self, number: u64) -> Result<Hint, Refusal> {
        let handle = self.handle.raw();
        // SAFETY: as in `sys`, for the four calls.
        let (owner, key, value, clock) = unsafe {
            (
                written::<u64>(|owner| sys::antientropy_hint_owner(handle, number, owner))?,
                bytes(|out, len, need| sys::antientropy_hint_key(handle, number, out, len, need))?,
                value(|kind, out, len, need| sys::antientropy_hint_value(handle, number, kind, out, len, need))?,
                clock(|out, len, need| sys::antientropy_hint_clock(handle, number, out, len, need))?,
            )
        };
        Ok(Hint { number, owner: owner as u16, key, version: Version::of(clock, value)? })
    }
}
