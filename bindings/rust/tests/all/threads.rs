//! Handles that are moved to other threads.

use std::sync::atomic::{AtomicBool, Ordering};
use std::sync::{mpsc, Mutex, RwLock};
use std::thread;

use antientropy::{merge, place, snapshot_beside, sync_beside};
use antientropy::{Bounds, Config, Exchange, Hints, Portion, Refusal, Replica, Slots, Snapshot};

use crate::support::{filled, replica, serve, NONE};

fn threads_may_have<T: Send + Sync>() {}

#[test]
fn handles_are_send_and_sync() {
    threads_may_have::<Replica>();
    threads_may_have::<Snapshot>();
    threads_may_have::<Portion>();
    threads_may_have::<Exchange>();
    threads_may_have::<Hints>();
    threads_may_have::<Slots>();
}

#[test]
fn a_replica_moves_to_another_thread() {
    let mut replica = filled(100);
    let root = replica.root().unwrap();
    let moved = thread::spawn(move || {
        replica.put(2, b"there", b"", &NONE).unwrap();
        replica
    });
    let mut replica = moved.join().unwrap();
    assert_ne!(replica.root().unwrap(), root);
    assert_eq!(replica.count().unwrap().entries, 101);
}

#[test]
fn a_lock_lets_threads_share_a_replica() {
    let shared = Mutex::new(replica());
    let put = |node: u16, n: u64| {
        shared.lock().unwrap().put(node, format!("{node} {n}").as_bytes(), b"", &NONE).unwrap();
    };
    thread::scope(|scope| {
        for node in 1..=4 {
            scope.spawn(move || (0..200).for_each(|n| put(node, n)));
        }
    });
    assert_eq!(shared.lock().unwrap().count().unwrap().entries, 800);
}

/// Reads a key by calls that must agree, while other threads read too. Returns true if it has a version.
fn read(replica: &Replica, key: &[u8]) -> bool {
    let versions = replica.get(key).unwrap();
    assert!(versions.iter().all(|version| version.value.as_deref() == Some(key)));
    assert_eq!(replica.row(key).unwrap().is_some(), !versions.is_empty());
    !versions.is_empty()
}

#[test]
fn threads_read_a_replica_at_once() {
    let shared = RwLock::new(replica());
    let keys: Vec<_> = (0..300).map(|n| format!("key {n}").into_bytes()).collect();
    thread::scope(|scope| {
        for _ in 0..3 {
            scope.spawn(|| while !keys.iter().all(|key| read(&shared.read().unwrap(), key)) {});
        }
        keys.iter().for_each(|key| {
            shared.write().unwrap().put(1, key, key, &NONE).unwrap();
        });
        snapshot_beside(&shared).unwrap();
    });
    let snapshot = shared.into_inner().unwrap().snapshot().unwrap();
    let read = || rows(&snapshot);
    let readers = thread::scope(|scope| [(); 3].map(|()| scope.spawn(read)).map(|reader| reader.join().unwrap()));
    assert!(readers.iter().all(|rows| rows[0].len() == 300 && *rows == readers[0]));
}

#[test]
fn one_thread_serves_a_snapshot_while_another_puts() {
    let (mut a, mut b) = (filled(500), replica());
    let snapshot = a.snapshot().unwrap();
    let (offer, root) = (snapshot.offer(1).unwrap(), snapshot.root().unwrap());
    let (asks, asked) = mpsc::channel::<Vec<u8>>();
    let (answers, answered) = mpsc::channel();
    let server = thread::spawn(move || {
        asked.into_iter().for_each(|ask| answers.send(snapshot.serve(1, &ask).ok()).unwrap());
    });
    let writer = thread::spawn(move || {
        for n in 0..500 {
            a.put(1, format!("late {n}").as_bytes(), b"", &NONE).unwrap();
        }
    });
    let synced = b.sync(1, &offer, |some| {
        some.iter().for_each(|ask| asks.send(ask.clone()).unwrap());
        some.iter().map(|_| answered.recv().unwrap()).collect()
    });
    drop(asks);
    server.join().unwrap();
    writer.join().unwrap();
    assert_eq!((synced.unwrap().accepted, b.root().unwrap()), (500, root));
}

/// Returns the keys of a snapshot, and their rows.
fn rows(snapshot: &Snapshot) -> [Vec<Vec<u8>>; 2] {
    let keys: Vec<_> = snapshot.keys().map(Result::unwrap).collect();
    let rows = keys.iter().map(|key| snapshot.row(key).unwrap().unwrap()).collect();
    [keys, rows]
}

#[test]
fn threads_read_the_rows_of_a_snapshot() {
    let mut replica = filled(300);
    let keys: Vec<_> = replica.keys().map(Result::unwrap).collect();
    let held: Vec<_> = keys.iter().map(|key| replica.row(key).unwrap().unwrap()).collect();
    let first = replica.snapshot().unwrap();
    let (root, leaf) = (first.root().unwrap(), place(2, 0, b"key 7").unwrap().leaf);
    let [second, third] = [(); 2].map(|()| first.share().unwrap());
    drop(first);
    replica.put(1, b"later", b"", &NONE).unwrap();
    let reader = thread::spawn(move || rows(&second));
    assert_eq!(rows(&third), [keys, held]);
    assert_eq!(reader.join().unwrap(), rows(&third));
    assert!(third.keys_of(leaf).eq(replica.keys_of(leaf)));
    assert_eq!((third.entries(), third.root(), third.digest(0, 0)), (300, Ok(root), Ok(root)));
    assert_ne!(third.digest(3, leaf).unwrap(), third.digest(3, leaf ^ 1).unwrap());
    assert_eq!((third.row(b"later"), third.row(b"")), (Ok(None), Err(Refusal::BadKey)));
    assert_eq!(third.keys_of(4096).collect::<Vec<_>>(), [Err(Refusal::BadMessage)]);
    assert_eq!([third.digest(3, 4096), third.digest(4, 0)], [Err(Refusal::BadMessage); 2]);
}

/// Puts at random keys of two replicas, each after a read, until it is stopped.
fn put_without_pause(replicas: [&Mutex<Replica>; 2], stop: &AtomicBool) {
    let mut random = 1u64;
    for _ in 0..200_000 {
        random = random.wrapping_mul(6_364_136_223_846_793_005).wrapping_add(1);
        let key = (random >> 54).to_be_bytes();
        for (node, replica) in (1..).zip(replicas) {
            let mut replica = replica.lock().unwrap();
            let context = merge(replica.get(&key).unwrap().iter().map(|version| &version.clock)).unwrap();
            replica.put(node, &key, b"value", &context).unwrap();
        }
        if stop.load(Ordering::SeqCst) {
            return;
        }
    }
}

/// Syncs from a partner. Returns the partner's snapshot.
fn sync(replica: &Mutex<Replica>, partner: &Mutex<Replica>) -> Snapshot {
    let snapshot = snapshot_beside(partner).unwrap();
    let offer = snapshot.offer(1).unwrap();
    let synced = sync_beside(replica, Bounds::default(), 9, &offer, |asks| serve(&snapshot, 1, asks));
    assert!(synced.unwrap().finished());
    snapshot
}

/// Each snapshot has the versions of the entries that it counts.
fn check_snapshots(replica: &Replica, snapshots: Vec<Snapshot>) {
    let mut copy = Replica::new(Config::default()).unwrap();
    let mut entries = replica.entries(0).unwrap();
    for snapshot in snapshots {
        while copy.count().unwrap().entries < snapshot.entries() {
            let entry = entries.next().unwrap().unwrap();
            assert!(copy.accept(&entry.key, &entry.version).unwrap());
        }
        assert_eq!(snapshot.root(), copy.root());
    }
}

#[test]
fn snapshots_and_syncs_while_a_thread_puts() {
    let [a, b] = [(); 2].map(|()| Mutex::new(Replica::new(Config::default()).unwrap()));
    let stop = AtomicBool::new(false);
    let (of_a, of_b) = thread::scope(|scope| {
        scope.spawn(|| put_without_pause([&a, &b], &stop));
        let snapshots = (0..3).map(|_| (sync(&b, &a), sync(&a, &b))).unzip();
        stop.store(true, Ordering::SeqCst);
        snapshots
    });
    sync(&b, &a);
    sync(&a, &b);
    let [mut a, mut b] = [a, b].map(|replica| replica.into_inner().unwrap());
    assert_eq!(a.root(), b.root());
    check_snapshots(&a, of_a);
    check_snapshots(&b, of_b);
}
