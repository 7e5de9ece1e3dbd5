//! A drop frees the memory of a handle. These tests measure the memory of the process: it runs no others, and one of
//! them at a time.

use std::fs;
use std::sync::{Mutex, MutexGuard, PoisonError};

use antientropy::{Bounds, Config, Hints, Replica, Slots};

use support::{filled, live, replica, NONE};

#[allow(dead_code)]
#[path = "../all/support.rs"]
mod support;

const VALUE: &[u8] = &[b'v'; 65_536];
const KEYS: u8 = 64;
const EXCHANGE_LEN: usize = 32 << 10; // 8 bytes a node at least
const SLOTS_LEN: usize = 20 << 10;

/// Waits until no other test runs.
fn alone() -> MutexGuard<'static, ()> {
    static RUNNING: Mutex<()> = Mutex::new(());
    RUNNING.lock().unwrap_or_else(PoisonError::into_inner)
}

/// Returns the memory of the process in bytes: pages have 4,096.
fn resident() -> usize {
    let statm = fs::read_to_string("/proc/self/statm").unwrap();
    statm.split(' ').nth(1).unwrap().parse::<usize>().unwrap() * 4096
}

/// Makes an object of `bytes` bytes again and again. Without frees the process would grow by 128 MiB.
#[track_caller]
fn assert_freed(bytes: usize, mut make: impl FnMut()) {
    let before = resident();
    (0..(128 << 20) / bytes).for_each(|_| make());
    assert!(resident() < before + (64 << 20));
}

#[test]
fn replicas_snapshots_and_portions() {
    let _alone = alone();
    assert_freed(VALUE.len() * usize::from(KEYS), || {
        let mut replica = replica();
        for n in 0..KEYS {
            replica.put(1, &[n], VALUE, &NONE).unwrap();
        }
        let snapshot = replica.snapshot().unwrap().share().unwrap();
        replica.renew_in_place(1_000).unwrap();
        replica.put(1, b"later", VALUE, &NONE).unwrap();
        replica.hold().unwrap();
        let mut portion = replica.take_portion(u64::MAX).unwrap();
        drop(replica);
        snapshot.root().unwrap();
        portion.hash().unwrap();
    });
}

#[test]
fn exchanges() {
    let _alone = alone();
    let (offer, mut replica) = (filled(1).snapshot().unwrap().offer(1).unwrap(), replica());
    assert_freed(EXCHANGE_LEN, || {
        replica.exchange(1, &offer, Bounds::default()).unwrap().close(&mut replica).unwrap();
    });
}

#[test]
fn hints() {
    let _alone = alone();
    assert_freed(VALUE.len(), || {
        Hints::new().unwrap().keep(1, b"key", &live([(1, 1)], VALUE)).unwrap();
    });
}

#[test]
fn slots() {
    let _alone = alone();
    assert_freed(SLOTS_LEN, || {
        Slots::new(1, 4, 1).unwrap().lend().unwrap();
    });
}

/// Returns a replica of format 1 with a key.
fn small() -> Replica {
    let mut replica = Replica::new(Config { format: 1, ..Config::default() }).unwrap();
    replica.put(1, b"cart", b"milk", &NONE).unwrap();
    replica
}

/// 10,000 replicas, snapshots and exchanges leave no more than the first thousand.
#[test]
fn ten_thousand_of_each() {
    let _alone = alone();
    let (mut partner, mut replica) = (small(), small());
    partner.put(2, b"gift", b"wrapped", &NONE).unwrap();
    let offer = partner.snapshot().unwrap().offer(1).unwrap();
    let mut make = || {
        small().snapshot().unwrap().share().unwrap().root().unwrap();
        let mut exchange = replica.exchange(1, &offer, Bounds::default()).unwrap();
        assert_eq!(exchange.asks(&replica).unwrap().len(), 1);
        exchange.close(&mut replica).unwrap();
    };
    (0..1_000).for_each(|_| make());
    let before = resident();
    (0..9_000).for_each(|_| make());
    assert!(resident() <= before + before / 10);
}
