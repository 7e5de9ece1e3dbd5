//! Snapshots, moments and their portions.

use std::panic::{catch_unwind, AssertUnwindSafe};
use std::sync::Mutex;

use antientropy::{exchange_beside, place, read_offer, snapshot_beside, sync_beside, Bounds, Refusal, Replica, Report};

use crate::support::{assert_refused, filled, replica, serve, NONE};

#[test]
fn snapshots() {
    let mut replica = filled(50);
    let snapshot = replica.snapshot().unwrap();
    let root = snapshot.root().unwrap();
    assert_eq!((snapshot.format(), snapshot.bits(), snapshot.range(), snapshot.entries()), (2, 0, 0, 50));
    replica.put(1, b"later", b"", &NONE).unwrap();
    assert_ne!(replica.root().unwrap(), root);
    drop(replica);
    let parts = read_offer(&snapshot.offer(8).unwrap()).unwrap();
    assert_eq!((parts.number, parts.format, parts.range, parts.root), (8, 2, 0, root));
}

#[test]
fn rows_of_a_leaf() {
    let snapshot = filled(50).snapshot().unwrap();
    let leaf = place(2, 0, b"key 3").unwrap().leaf;
    let rows = snapshot.rows(leaf).unwrap();
    assert!(replica().load_rows(&rows).unwrap().accepted >= 1);
    assert_eq!(snapshot.rows(4096), Err(Refusal::BadMessage));
}

#[test]
fn refused_asks() {
    let snapshot = filled(50).snapshot().unwrap();
    let ask = [2, 0, 0, 0, 7, 0, 0, 0];
    assert!(snapshot.serve(7, &ask).is_ok());
    assert_eq!(snapshot.serve(8, &ask), Err(Refusal::Gone));
    assert_eq!(snapshot.serve(7, &ask[1..]), Err(Refusal::BadMessage));
}

#[test]
fn dirty() {
    let mut replica = filled(1);
    assert_eq!(replica.snapshot_if_clean().err(), Some(Refusal::Dirty));
    replica.rehash().unwrap();
    assert!(replica.snapshot_if_clean().is_ok());
}

#[test]
fn a_moment() {
    let mut replica = filled(50);
    let dirty = replica.count().unwrap().dirty;
    replica.hold().unwrap();
    replica.put(1, b"later", b"", &NONE).unwrap();
    assert_eq!(replica.hash_moment(0), Ok(dirty));
    assert_eq!(replica.hash_moment(10), Ok(dirty - 10));
    let mut portion = replica.take_portion(10).unwrap();
    portion.hash().unwrap();
    assert_eq!(replica.install_portion(portion), Ok(dirty - 20));
    let unhashed = replica.take_portion(10).unwrap();
    assert_eq!(replica.install_portion(unhashed), Ok(dirty - 30));
    while replica.hash_moment(10).unwrap() > 0 {
        assert_eq!(replica.count().unwrap().front, 0);
    }
    let snapshot = replica.moment().unwrap();
    assert_eq!((snapshot.entries(), snapshot.root()), (50, filled(50).root()));
    replica.hold().unwrap();
    assert_eq!(replica.count().unwrap().front, 50);
    assert_eq!(replica.snapshot().unwrap().entries(), 51);
    assert_eq!(replica.count().unwrap().front, 51);
    replica.hold().unwrap();
    replica.drop_moment().unwrap();
    assert_eq!((replica.count().unwrap().front, replica.hash_moment(1)), (51, Ok(0)));
    assert_eq!(snapshot.root(), filled(50).root());
}

fn assert_no_moment(replica: &mut Replica, front: u64) {
    assert_refused(Refusal::Dirty, replica, |replica| replica.moment());
    assert_eq!((replica.hash_moment(0), replica.count().unwrap().front), (Ok(0), front));
}

/// A call that holds a moment drops it, also if it is refused.
#[test]
fn no_moment_is_left() {
    let mut replica = filled(50);
    let snapshot = replica.snapshot().unwrap();
    let offer = snapshot.offer(1).unwrap();
    assert_no_moment(&mut replica, 50);
    assert_eq!(replica.sync(2, &offer, |asks| serve(&snapshot, 1, asks)).unwrap().asks, 0);
    assert_no_moment(&mut replica, 50);
    replica.put(1, b"later", b"", &NONE).unwrap();
    assert_eq!(replica.exchange(2, b"", Bounds::default()).unwrap_err(), Refusal::BadMessage);
    assert_no_moment(&mut replica, 51);
    replica.put(1, b"last", b"", &NONE).unwrap();
    replica.exchange(2, &offer, Bounds::default()).unwrap().close(&mut replica).unwrap();
    assert_no_moment(&mut replica, 52);
}

#[test]
fn an_exchange_at_the_moment() {
    let offer = filled(50).snapshot().unwrap().offer(7).unwrap();
    let mut replica = filled(50);
    replica.hold().unwrap();
    replica.put(2, b"later", b"", &NONE).unwrap();
    while replica.hash_moment(10).unwrap() > 0 {}
    let mut exchange = replica.exchange_at_moment(1, &offer, Bounds::default()).unwrap();
    assert_eq!(exchange.progress(&replica).unwrap().report, Report::Finished);
}

#[test]
fn no_whole_moment() {
    let offer = filled(50).snapshot().unwrap().offer(7).unwrap();
    let mut replica = filled(1);
    assert_refused(Refusal::Dirty, &mut replica, |replica| replica.moment());
    assert_refused(Refusal::Dirty, &mut replica, |replica| replica.exchange_at_moment(1, &offer, Bounds::default()));
    replica.hold().unwrap();
    assert_refused(Refusal::Dirty, &mut replica, |replica| replica.moment());
    assert_refused(Refusal::Dirty, &mut replica, |replica| replica.exchange_at_moment(1, &offer, Bounds::default()));
}

#[test]
fn a_portion_outlives_its_replica() {
    let mut replica = filled(50);
    replica.hold().unwrap();
    let mut portion = replica.take_portion(u64::MAX).unwrap();
    drop(replica);
    portion.hash().unwrap();
    let mut other = filled(1);
    other.hold().unwrap();
    other.install_portion(portion).unwrap();
    assert_eq!(other.root(), filled(1).root());
}

/// A replica that another thread changes whenever the lock is free: it puts, it drops the sessions that have ended, and
/// it drops the first moment.
struct Busy {
    replica: Replica,
    locked: u32,
}

impl AsMut<Replica> for Busy {
    fn as_mut(&mut self) -> &mut Replica {
        self.locked += 1;
        self.replica.put(2, &self.locked.to_be_bytes(), b"", &NONE).unwrap();
        self.replica.drop_sessions().unwrap();
        if self.locked == 2 {
            self.replica.drop_moment().unwrap();
        }
        &mut self.replica
    }
}

#[test]
fn a_replica_that_is_never_at_rest() {
    let shared = Mutex::new(Busy { replica: replica(), locked: 0 });
    assert_eq!(snapshot_beside(&shared).unwrap().entries(), 2);
    let partner = filled(50).snapshot().unwrap();
    let offer = partner.offer(1).unwrap();
    let exchange = exchange_beside(&shared, 1, &offer, Bounds::default()).unwrap();
    exchange.close(shared.lock().unwrap().as_mut()).unwrap();
    let synced = sync_beside(&shared, Bounds::default(), 1, &offer, |asks| serve(&partner, 1, asks)).unwrap();
    assert_eq!((synced.finished(), synced.accepted), (true, 50));
}

#[test]
fn a_poisoned_lock() {
    let snapshot = filled(50).snapshot().unwrap();
    let (offer, shared) = (snapshot.offer(1).unwrap(), Mutex::new(replica()));
    let poison = |asks: &[Vec<u8>]| {
        let _locked = shared.lock();
        if asks.len() > 1 {
            panic!("link");
        }
        serve(&snapshot, 1, asks)
    };
    assert!(catch_unwind(AssertUnwindSafe(|| sync_beside(&shared, Bounds::default(), 9, &offer, poison))).is_err());
    assert!(catch_unwind(AssertUnwindSafe(|| snapshot_beside(&shared))).is_err());
}
