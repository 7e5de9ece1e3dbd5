//! A portion of the nodes of a replica's moment.

use crate::handle::Owned;
use crate::refusal::{check, Refusal};
use crate::sys;

/// Some nodes of a replica's moment that have no digest.
///
/// [`Replica::take_portion`](crate::Replica::take_portion) returns it. It needs no replica, and may outlive it, so
/// threads that share a replica can hash without its lock, like [`snapshot_beside`](crate::snapshot_beside):
///
/// ```
/// use std::sync::Mutex;
///
/// use antientropy::{Clock, Config, Replica};
/// let shared = Mutex::new(Replica::new(Config::default())?);
/// let locked = || shared.lock().unwrap();
/// locked().put(1, b"cart", b"milk", &Clock::new())?;
/// locked().hold()?;
/// let snapshot = loop {
///     let mut portion = locked().take_portion(64)?;
///     portion.hash()?; // without the lock
///     let mut replica = locked();
///     if replica.install_portion(portion)? == 0 {
///         let snapshot = replica.moment()?; // under the same lock: another thread may hold another moment next
///         replica.drop_moment()?; // the rows are freed with the snapshot, without the lock
///         break snapshot;
///     }
/// };
/// assert_eq!(snapshot.entries(), 1);
/// # Ok::<(), antientropy::Refusal>(())
/// ```
#[derive(Debug)]
pub struct Portion {
    handle: Owned,
}

impl Portion {
    pub(crate) fn of(handle: Owned) -> Portion {
        Portion { handle }
    }

    /// Hashes the nodes.
    pub fn hash(&mut self) -> Result<(), Refusal> {
        // SAFETY: as in `sys`.
        check(unsafe { sys::antientropy_hash_portion(self.raw()) })
    }

    /// Returns the handle for one call.
    pub(crate) fn raw(&mut self) -> *mut sys::Handle {
        self.handle.raw()
    }
}
