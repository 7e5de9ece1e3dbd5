//! Moments that are hashed in portions, in between other calls of a replica.

use std::ops::ControlFlow;

use crate::portion::Portion;
use crate::refusal::Refusal;
use crate::replica::Replica;

/// Maximum number of nodes in a portion.
const PORTION_MAX: u64 = 64;

/// Access to the calls of a replica.
pub(crate) trait Access {
    /// Makes some calls, without others in between. Returns `None` if a panic may have left the replica's owner broken.
    fn try_with<T>(&mut self, calls: impl FnOnce(&mut Replica) -> T) -> Option<T>;

    /// Makes some calls, without others in between.
    fn with<T>(&mut self, calls: impl FnOnce(&mut Replica) -> T) -> T {
        self.try_with(calls).expect("the lock of the replica is poisoned")
    }
}

impl Access for Replica {
    fn try_with<T>(&mut self, calls: impl FnOnce(&mut Replica) -> T) -> Option<T> {
        Some(calls(self))
    }
}

/// Holds a moment, hashes it, and makes a call as soon as it is whole, without others in between. Then drops the
/// moment: its rows stay with the result of the call, and no later hold frees them under a lock.
pub(crate) fn at_moment<A: Access, T>(
    access: &mut A,
    mut call: impl FnMut(&mut Replica) -> Result<T, Refusal>,
) -> Result<T, Refusal> {
    let mut portion = access.with(first_portion)?;
    loop {
        portion.hash()?;
        match access.with(|replica| next_portion(replica, portion, &mut call))? {
            ControlFlow::Continue(next) => portion = next,
            ControlFlow::Break(result) => return Ok(result),
        }
    }
}

/// Holds a moment, and takes a portion of it.
fn first_portion(replica: &mut Replica) -> Result<Portion, Refusal> {
    replica.hold()?;
    replica.take_portion(PORTION_MAX)
}

/// Installs a portion. Takes the next one, or makes the call and drops the moment if none is left.
fn next_portion<T>(
    replica: &mut Replica,
    portion: Portion,
    call: &mut impl FnMut(&mut Replica) -> Result<T, Refusal>,
) -> Result<ControlFlow<T, Portion>, Refusal> {
    if replica.install_portion(portion)? > 0 {
        return replica.take_portion(PORTION_MAX).map(ControlFlow::Continue);
    }
    match call(replica) {
        // Another thread has dropped the moment.
        Err(Refusal::Dirty) => first_portion(replica).map(ControlFlow::Continue),
        result => {
            replica.drop_moment()?;
            result.map(ControlFlow::Break)
        }
    }
}
