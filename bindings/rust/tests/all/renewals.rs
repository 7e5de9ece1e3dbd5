//! Renewals in place, while another thread puts.

use std::collections::BTreeMap;
use std::sync::atomic::{AtomicBool, Ordering};
use std::sync::{Mutex, RwLock};
use std::thread;

use antientropy::{renew_beside, renew_if_due, Bounds, Clock, Entry, Refusal, Replica, Report};

use crate::support::{assert_refused, filled, live, replica, serve, state, with_limit, NONE};

const KEYS: u64 = 200;

/// Puts keys in turn, each after its last put, and logs the entries after each put.
struct Writer<'a> {
    shared: &'a RwLock<Replica>,
    keys: u64,
    puts: u64,
    log: BTreeMap<u64, Entry>,
}

impl<'a> Writer<'a> {
    fn new(shared: &'a RwLock<Replica>, keys: u64) -> Writer<'a> {
        Writer { shared, keys, puts: 0, log: BTreeMap::new() }
    }

    /// Puts the next key, and again if the journal is full.
    fn put(&mut self) {
        let (key, counter) = (self.puts % self.keys, self.puts / self.keys);
        let context = if counter > 0 { Clock::from([(1, counter)]) } else { NONE };
        let receipt = loop {
            match self.shared.write().unwrap().put(1, &key.to_be_bytes(), b"value", &context) {
                Err(Refusal::JournalFull) => thread::yield_now(),
                result => break result.unwrap(),
            }
        };
        assert_eq!((receipt.number, receipt.counter), (self.puts, counter + 1));
        self.puts += 1;
    }

    /// Logs the entries after the last one, or the whole journal if some were missed.
    fn read(&mut self) {
        let position = self.log.keys().next_back().map_or(0, |last| last + 1);
        let replica = self.shared.read().unwrap();
        let first = replica.count().unwrap().first;
        let entries = match replica.entries(position) {
            Err(Refusal::BadPosition) => replica.entries(first),
            entries => entries,
        };
        self.log.extend(entries.unwrap().map(Result::unwrap).map(|entry| (entry.number, entry)));
    }

    /// Each key has the version of its last put, also in a replica that is restored from the log.
    fn check(&self) {
        let (mut restored, mut replica) = (with_limit(1_000_000), self.shared.write().unwrap());
        for entry in self.log.values() {
            restored.accept(&entry.key, &entry.version).unwrap();
        }
        for key in 0..self.keys {
            let counter = (self.puts + self.keys - 1 - key) / self.keys;
            assert_eq!(replica.get(&key.to_be_bytes()), Ok(vec![live([(1, counter)], b"value")]));
        }
        assert_eq!(replica.count().unwrap().entries, self.puts);
        assert_eq!(restored.root(), replica.root());
    }
}

#[test]
fn a_renewal_in_place() {
    let mut replica = with_limit(10);
    replica.put(1, b"cart", b"milk", &NONE).unwrap();
    replica.put(1, b"cart", b"eggs", &Clock::from([(1, 1)])).unwrap();
    let root = replica.root().unwrap();
    replica.renew_in_place(5).unwrap();
    let counts = replica.count().unwrap();
    assert_eq!((counts.entries, counts.first, counts.limit), (2, 1, 5));
    assert_eq!(replica.root(), Ok(root));
    assert_eq!(replica.entries(2).unwrap().count(), 0);
    assert_eq!(replica.put(1, b"gift", b"toys", &NONE).unwrap().number, 2);
    assert_eq!(replica.entries(2).unwrap().next().unwrap().unwrap().key, b"gift");
    assert_refused(Refusal::BadPosition, &mut replica, |replica| replica.packed_entries(0));
    assert_refused(Refusal::Dirty, &mut replica, |replica| replica.moment());
}

#[test]
fn refusals() {
    let mut replica = filled(3);
    replica.root().unwrap();
    for (cause, limit) in [(Refusal::BadRing, 0), (Refusal::BadRing, 1_000_001), (Refusal::JournalFull, 2)] {
        assert_refused(cause, &mut replica, |replica| replica.renew_in_place(limit));
    }
}

#[test]
fn a_renewal_ends_sessions() {
    let (mut replica, partner) = (replica(), filled(3).snapshot().unwrap());
    let offer = partner.offer(1).unwrap();
    let mut exchange = replica.exchange(1, &offer, Bounds::default()).unwrap();
    replica.renew_in_place(100).unwrap();
    assert_eq!(exchange.progress(&replica).unwrap().report, Report::Gone);
    assert_eq!(replica.sync(1, &offer, |asks| serve(&partner, 1, asks)).unwrap().accepted, 3);
}

#[test]
fn renewals_beside_puts() {
    let (shared, stop) = (RwLock::new(with_limit(1_000_000)), AtomicBool::new(false));
    let entries = || shared.read().unwrap().count().unwrap().entries;
    let mut writer = Writer::new(&shared, KEYS);
    thread::scope(|scope| {
        scope.spawn(|| {
            while !stop.load(Ordering::SeqCst) {
                writer.put();
                writer.read();
            }
        });
        for n in 1..=5 {
            while entries() < 2 * n * KEYS {
                thread::yield_now();
            }
            renew_beside(&shared, 1_000_000).unwrap();
        }
        stop.store(true, Ordering::SeqCst);
    });
    assert!(shared.read().unwrap().count().unwrap().first > KEYS);
    writer.check();
}

/// A replica that changes at each lock.
struct Busy<F> {
    replica: Replica,
    locked: u32,
    change: F,
}

impl<F: FnMut(&mut Replica, u32)> AsMut<Replica> for Busy<F> {
    fn as_mut(&mut self) -> &mut Replica {
        self.locked += 1;
        (self.change)(&mut self.replica, self.locked);
        &mut self.replica
    }
}

/// Puts the only key `puts` more times, each after the last put.
fn put_more(replica: &mut Replica, puts: u64) {
    let entries = replica.count().unwrap().entries;
    for counter in entries..entries + puts {
        let context = if counter > 0 { Clock::from([(1, counter)]) } else { NONE };
        replica.put(1, b"key", b"", &context).unwrap();
    }
}

#[test]
fn a_renewal_catches_up() {
    let change = |replica: &mut Replica, _| put_more(replica, 300);
    let shared = Mutex::new(Busy { replica: with_limit(1_000_000), locked: 0, change });
    renew_beside(&shared, 1_000_000).unwrap();
    let busy = shared.into_inner().unwrap();
    assert!(busy.locked > 4, "each step takes the lock");
    let counts = busy.replica.count().unwrap();
    assert_eq!(counts.entries, u64::from(busy.locked) * 300);
    assert_eq!(busy.replica.get(b"key").unwrap(), [live([(1, counts.entries)], b"")]);
}

/// Another renewal ends first. Nothing is lost.
#[test]
fn a_stale_renewal() {
    let mut first = with_limit(100);
    put_more(&mut first, 5);
    let change = |replica: &mut Replica, _| {
        let counts = replica.count().unwrap();
        let has_begun = counts.front == 5; // its moment was whole
        if has_begun && counts.limit == 100 {
            replica.renew_in_place(99).unwrap();
        }
    };
    let shared = Mutex::new(Busy { replica: first, locked: 0, change });
    assert_eq!(renew_beside(&shared, 98), Err(Refusal::Stale));
    let replica = shared.into_inner().unwrap().replica;
    let counts = replica.count().unwrap();
    assert_eq!((counts.entries, counts.first, counts.limit), (5, 4, 99));
    assert_eq!(replica.get(b"key").unwrap(), [live([(1, 5)], b"")]);
    assert_eq!(state(&replica).1.len(), 1);
}

/// One key is put a hundred times as often as the journal has entries. Another thread renews the replica if it is due.
#[test]
fn a_replica_that_is_renewed_when_it_is_due() {
    const LIMIT: u64 = 2_000;
    let (shared, stop) = (RwLock::new(with_limit(LIMIT)), AtomicBool::new(false));
    let mut writer = Writer::new(&shared, 1);
    thread::scope(|scope| {
        scope.spawn(|| {
            while !stop.load(Ordering::SeqCst) {
                renew_if_due(&shared).unwrap();
                thread::yield_now();
            }
        });
        (0..100 * LIMIT).for_each(|_| writer.put());
        stop.store(true, Ordering::SeqCst);
    });
    writer.read();
    writer.check();
}

/// A journal that its rows fill is renewed a few times, until no renewal is due any more.
#[test]
fn rows_fill_a_journal() {
    let (shared, mut renewals) = (Mutex::new(with_limit(100)), 0);
    for n in 0..100_u32 {
        shared.lock().unwrap().put(1, &n.to_be_bytes(), b"", &NONE).unwrap();
        renewals += u32::from(renew_if_due(&shared).unwrap());
    }
    assert_eq!(renewals, 5, "at 90, 95, 98, 99 and 100 entries");
    assert_eq!(renew_if_due(&shared), Ok(false));
    assert_refused(Refusal::JournalFull, &mut shared.lock().unwrap(), |replica| replica.put(1, b"last", b"", &NONE));
}
