//! Helpers of several tests.

use std::fmt::Debug;

use antientropy::{place, Clock, Config, Counts, Entry, Refusal, Replica, Snapshot, Version};

pub const NONE: Clock = Clock::new();

/// Returns an empty replica of the default ring.
pub fn replica() -> Replica {
    with_limit(20_000)
}

/// Returns an empty replica whose journal may have `limit` entries.
pub fn with_limit(limit: u64) -> Replica {
    Replica::new(Config { limit, ..Config::default() }).unwrap()
}

/// Returns a replica with `keys` keys, put at node 1.
pub fn filled(keys: usize) -> Replica {
    let mut replica = replica();
    for n in 0..keys {
        replica.put(1, format!("key {n}").as_bytes(), b"value", &NONE).unwrap();
    }
    replica
}

/// Returns a live version.
pub fn live<const N: usize>(pairs: [(u64, u64); N], value: &[u8]) -> Version {
    Version { clock: Clock::from(pairs), value: Some(value.to_vec()) }
}

/// Fills a key with 64 concurrent versions.
pub fn crowd(replica: &mut Replica, key: &[u8]) {
    for node in 1..=64 {
        assert!(replica.accept(key, &live([(node, 1)], b"crowd")).unwrap());
    }
}

/// Returns a replica with `keys` keys, another one without them, and the leaf of a key that is crowded between the two.
/// It is the first of their leaves.
pub fn crowded_pair(keys: usize) -> (Replica, Replica, u16) {
    let (mut a, mut b) = (filled(keys), replica());
    let leaf_of = |key: &[u8]| place(2, 0, key).unwrap().leaf;
    let first = a.keys().map(|key| leaf_of(&key.unwrap())).min().unwrap();
    let key = (0..).map(|n| format!("crowded {n}").into_bytes()).find(|key| leaf_of(key) < first).unwrap();
    crowd(&mut a, &key);
    b.accept(&key, &live([(100, 1)], b"one more")).unwrap();
    (a, b, leaf_of(&key))
}

/// Returns the numbers of sessions that are kept, and of open ones.
pub fn sessions(replica: &Replica) -> (u64, u64) {
    let counts = replica.count().unwrap();
    (counts.sessions, counts.open_sessions)
}

/// Returns the answers of a directly called partner.
pub fn serve(snapshot: &Snapshot, number: u32, asks: &[Vec<u8>]) -> Vec<Option<Vec<u8>>> {
    asks.iter().map(|ask| snapshot.serve(number, ask).ok()).collect()
}

type Held = (Counts, Vec<Entry>, Vec<Vec<u8>>);

/// Returns all that a replica holds.
pub fn state(replica: &Replica) -> Held {
    let keys: Vec<_> = replica.keys().map(Result::unwrap).collect();
    let rows = keys.iter().map(|key| replica.row(key).unwrap().unwrap()).collect();
    let counts = replica.count().unwrap();
    (counts, replica.entries(counts.first).unwrap().map(Result::unwrap).collect(), rows)
}

/// Checks that a call is refused, and leaves the replica unchanged.
#[track_caller]
pub fn assert_refused<T: Debug>(
    cause: Refusal,
    replica: &mut Replica,
    call: impl FnOnce(&mut Replica) -> Result<T, Refusal>,
) {
    let before = state(replica);
    assert_eq!(call(replica).unwrap_err(), cause);
    assert_eq!(state(replica), before);
}
