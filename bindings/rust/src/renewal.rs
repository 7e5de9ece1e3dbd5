//! Renewals of a replica in place, in between its other calls.

use std::thread;
use std::time::{Duration, Instant};

use crate::handle::{written, Owned};
use crate::moment::{at_moment, Access};
use crate::refusal::{check, Refusal};
use crate::replica::Replica;
use crate::sys;

/// Initial number of entries that a renewal accepts at a time.
const AT_ONCE: u64 = 64;

/// Maximum number of entries that a renewal leaves to its finish.
const FEW: u64 = 64;

/// The new replica, which is built while the old one is in use. After its finish it holds the old one.
struct Renewal {
    handle: Owned,
}

impl Renewal {
    /// Takes the rows of the replica's moment.
    fn begin(replica: &Replica, limit: u64) -> Result<Renewal, Refusal> {
        let mut share = replica.handle.share();
        let handle = Owned::make(sys::antientropy_renewal_free, |renewal| {
            // SAFETY: as in `sys`; `renewal` is empty and a local one.
            unsafe { sys::antientropy_share_renewal_begin(&mut share, limit, renewal) }
        })?;
        Ok(Renewal { handle })
    }

    /// Builds the new replica from the rows.
    fn build(&mut self) -> Result<(), Refusal> {
        // SAFETY: as in `sys`.
        check(unsafe { sys::antientropy_renewal_build(self.handle.raw()) })
    }

    /// Accepts the next entries. Returns the number of entries left.
    fn catch_up(&mut self, replica: &Replica, most: u64) -> Result<u64, Refusal> {
        let mut share = replica.handle.share();
        written(|left| {
            // SAFETY: as in `sys`.
            unsafe { sys::antientropy_share_renewal_catch_up(self.handle.raw(), &mut share, most, left) }
        })
    }

    /// Accepts the remaining entries, and replaces the old replica by the new one.
    fn finish(&mut self, replica: &mut Replica) -> Result<(), Refusal> {
        // SAFETY: as in `sys`.
        check(unsafe { sys::antientropy_renewal_finish(self.handle.raw(), replica.handle.raw()) })?;
        replica.note_renewed()
    }
}

/// Renews a replica in place. The old one is freed when no call uses the replica.
pub(crate) fn renew<A: Access>(access: &mut A, limit: u64) -> Result<(), Refusal> {
    let mut renewal = at_moment(access, |replica| Renewal::begin(replica, limit))?;
    renewal.build()?;
    catch_up(access, &mut renewal)?;
    access.with(|replica| renewal.finish(replica))
}

/// Accepts entries until few are left. After each step the lock is free for the same time, so that all waiting puts are
/// made. If they still outrun it, it accepts more at a time without waiting, so it ends.
fn catch_up<A: Access>(access: &mut A, renewal: &mut Renewal) -> Result<(), Refusal> {
    let (mut most, mut outrun) = (AT_ONCE, false);
    let (mut left, mut took) = step(access, renewal, most)?;
    while left > FEW {
        if !outrun {
            thread::sleep(took);
        }
        let before = left;
        (left, took) = step(access, renewal, most)?;
        if left >= before {
            (most, outrun) = (most * 2, true);
        }
    }
    Ok(())
}

/// Accepts the next entries. Returns the number of entries left, and the time for which it held the lock.
fn step<A: Access>(access: &mut A, renewal: &mut Renewal, most: u64) -> Result<(u64, Duration), Refusal> {
    access.with(|replica| {
        let begin = Instant::now();
        Ok((renewal.catch_up(replica, most)?, begin.elapsed()))
    })
}
