//! Snapshots, exchanges, syncs and renewals of a replica that threads share.

use std::sync::{Mutex, RwLock};

use crate::exchange::Exchange;
use crate::moment::{at_moment, Access};
use crate::refusal::Refusal;
use crate::renewal;
use crate::replica::Replica;
use crate::snapshot::Snapshot;
use crate::sync::{self, Synced};
use crate::values::Bounds;

/// Locks for a replica that threads share, or for a type that has one: [`Mutex`], and [`RwLock`], whose
/// [`read`](RwLock::read) lets threads read the replica concurrently. No other type can implement it.
pub trait Lock: sealed::Lock {}

impl<T: AsMut<Replica>> Lock for Mutex<T> {}
impl<T: AsMut<Replica>> Lock for RwLock<T> {}

mod sealed {
    use super::{Mutex, Replica, RwLock};

    /// The methods of a lock that the calls here use.
    pub trait Lock {
        /// Makes some calls without others in between, unless the lock is poisoned.
        fn try_with<U>(&self, calls: impl FnOnce(&mut Replica) -> U) -> Option<U>;
    }

    impl<T: AsMut<Replica>> Lock for Mutex<T> {
        fn try_with<U>(&self, calls: impl FnOnce(&mut Replica) -> U) -> Option<U> {
            Some(calls(self.lock().ok()?.as_mut()))
        }
    }

    impl<T: AsMut<Replica>> Lock for RwLock<T> {
        fn try_with<U>(&self, calls: impl FnOnce(&mut Replica) -> U) -> Option<U> {
            Some(calls(self.write().ok()?.as_mut()))
        }
    }
}

/// A replica that threads share.
struct Shared<'a, L>(&'a L);

impl<L: Lock> Access for Shared<'_, L> {
    fn try_with<U>(&mut self, calls: impl FnOnce(&mut Replica) -> U) -> Option<U> {
        self.0.try_with(calls)
    }
}

/// Returns a snapshot of a replica that threads share. The lock is free while nodes are hashed, so other threads can
/// put.
///
/// The rows are from a moment during the call, which is dropped at the end. Offer them when the entries that the
/// snapshot counts are on the disk.
///
/// ```
/// use std::sync::RwLock;
/// use std::thread;
///
/// use antientropy::{snapshot_beside, Clock, Config, Refusal, Replica};
/// let shared = RwLock::new(Replica::new(Config::default())?);
/// thread::scope(|scope| {
///     scope.spawn(|| shared.write().unwrap().put(1, b"cart", b"milk", &Clock::new()));
///     scope.spawn(|| shared.read().unwrap().get(b"cart")); // threads read concurrently
///     let snapshot = snapshot_beside(&shared)?;
///     assert!(snapshot.entries() <= 1);
///     snapshot.offer(7)
/// })?;
/// # Ok::<(), antientropy::Refusal>(())
/// ```
///
/// # Panics
///
/// If the lock is poisoned.
pub fn snapshot_beside<L: Lock>(shared: &L) -> Result<Snapshot, Refusal> {
    at_moment(&mut Shared(shared), |replica| replica.moment())
}

/// Opens an exchange of a shared replica, like [`Replica::exchange`]. The lock is free while nodes are hashed.
///
/// # Panics
///
/// If the lock is poisoned.
pub fn exchange_beside<L: Lock>(shared: &L, partner: u16, offer: &[u8], bounds: Bounds) -> Result<Exchange, Refusal> {
    Exchange::open(&mut Shared(shared), partner, offer, bounds)
}

/// Takes the versions that a shared replica is missing from a partner's offer, like [`Replica::sync_within`].
///
/// The lock is free while nodes are hashed and while `reach` waits, so other threads can put. A migration, or a renewed
/// replica in place of this one, ends the sync as [`Gone`](crate::Report::Gone).
///
/// ```
/// use std::sync::Mutex;
///
/// use antientropy::{sync_beside, Bounds, Clock, Config, Replica};
/// let (mut a, b) = (Replica::new(Config::default())?, Mutex::new(Replica::new(Config::default())?));
/// a.put(1, b"cart", b"milk", &Clock::new())?;
/// let offered = a.snapshot()?;
/// let offer = offered.offer(7)?;
/// let synced = sync_beside(&b, Bounds::default(), 1, &offer, |asks| {
///     asks.iter().map(|ask| offered.serve(7, ask).ok()).collect()
/// })?;
/// assert!(synced.finished() && synced.accepted == 1);
/// # Ok::<(), antientropy::Refusal>(())
/// ```
///
/// # Panics
///
/// If the lock is poisoned.
pub fn sync_beside<L, R>(shared: &L, bounds: Bounds, partner: u16, offer: &[u8], reach: R) -> Result<Synced, Refusal>
where
    L: Lock,
    R: FnMut(&[Vec<u8>]) -> Vec<Option<Vec<u8>>>,
{
    sync::sync(&mut Shared(shared), bounds, partner, offer, reach)
}

/// Renews a shared replica in place, like [`Replica::renew_in_place`].
///
/// It holds the current rows as a moment, builds the new journal from them without the lock, and accepts the entries
/// put meanwhile. Other threads wait only for its steps under the lock: about 64 entries at a time, and a few at the
/// end. Entry numbers continue: entries since the moment keep theirs, and a log that has all earlier entries reads on.
///
/// # Errors
///
/// `BadRing` (the limit), `JournalFull` (more versions are held than the limit, or accepted meanwhile) or `Stale`
/// (another thread has renewed or migrated the replica meanwhile). A refusal leaves the replica unchanged, except its
/// moment.
///
/// # Panics
///
/// If the lock is poisoned.
pub fn renew_beside<L: Lock>(shared: &L, limit: u64) -> Result<(), Refusal> {
    renewal::renew(&mut Shared(shared), limit)
}

/// Renews a shared replica like [`renew_beside`], with its limit, if [`Replica::is_renewal_due`]. Returns true if it
/// has renewed it.
///
/// If a thread repeats this call, a put is refused as `JournalFull` only if the last tenth of the limit is used before
/// the renewal has ended, or if the rows fill the journal.
///
/// ```
/// use std::sync::RwLock;
///
/// use antientropy::{renew_if_due, Clock, Config, Replica};
/// let shared = RwLock::new(Replica::new(Config { limit: 10, ..Config::default() })?);
/// let mut context = Clock::new();
/// for _ in 0..100 {
///     let receipt = shared.write().unwrap().put(1, b"cart", b"milk", &context)?;
///     context = Clock::from([(1, receipt.counter)]);
///     renew_if_due(&shared)?; // better in a separate thread
/// }
/// assert_eq!(shared.read().unwrap().count()?.entries, 100);
/// # Ok::<(), antientropy::Refusal>(())
/// ```
pub fn renew_if_due<L: Lock>(shared: &L) -> Result<bool, Refusal> {
    let mut shared = Shared(shared);
    let is_due = shared.with(|replica| replica.is_renewal_due())?;
    if is_due {
        let limit = shared.with(|replica| replica.count())?.limit;
        renewal::renew(&mut shared, limit)?;
    }
    Ok(is_due)
}
