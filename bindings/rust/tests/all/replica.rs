//! Puts, reads and the journal of a replica.

use antientropy::{merge, place, Refusal, Replica, RowsRefused};
use antientropy::{About, Bytes, Clock, Config, Counts, Entry, Kind, Packed, Receipt, Source, Version};

use crate::support::{assert_refused, crowd, filled, live, replica, state, with_limit, NONE};

#[test]
fn put_and_read() {
    let mut replica = replica();
    assert_eq!(replica.put(1, b"cart", b"milk", &NONE), Ok(Receipt { number: 0, counter: 1 }));
    assert_eq!(replica.accept(b"cart", &live([(2, 4)], b"eggs")), Ok(true));
    assert_eq!(replica.accept(b"cart", &live([(2, 4)], b"eggs")), Ok(false));
    let versions = replica.get(b"cart").unwrap();
    assert_eq!(versions, [live([(1, 1)], b"milk"), live([(2, 4)], b"eggs")]);
    assert!(replica.row(b"cart").unwrap().unwrap().len() > 10);
}

#[test]
fn nothing_is_held() {
    let replica = replica();
    assert_eq!(replica.get(b"cart"), Ok(vec![]));
    assert_eq!(replica.row(b"cart"), Ok(None));
    assert_eq!(replica.entry(0), Ok(None));
    assert_eq!(replica.keys_of(0).count(), 0);
    assert_eq!(replica.keys().count(), 0);
}

#[test]
fn tombstones_and_empty_values() {
    let mut replica = replica();
    replica.delete(1, b"gone", &NONE).unwrap();
    replica.put(1, b"empty", b"", &NONE).unwrap();
    let gone = Version { clock: Clock::from([(1, 1)]), value: None };
    assert_eq!((gone.kind(), replica.get(b"gone").unwrap()), (Kind::Tombstone, vec![gone]));
    assert_eq!(replica.get(b"empty").unwrap()[0].value, Some(vec![]));
    assert_eq!(replica.entry(0).unwrap().unwrap().version.value, None);
}

#[test]
fn long_values() {
    let mut replica = replica();
    let value: Vec<u8> = (0..65_536u32).map(|n| n as u8).collect();
    replica.put(1, b"long", &value, &NONE).unwrap();
    assert_eq!(replica.get(b"long").unwrap()[0].value.as_deref(), Some(&value[..]));
    assert_eq!(replica.entry(0).unwrap().unwrap().version.value, Some(value));
}

#[test]
fn keys_and_entries() {
    let replica = filled(300);
    let mut keys: Vec<_> = replica.keys().map(Result::unwrap).collect();
    let mut put: Vec<_> = replica.entries(0).unwrap().map(|entry| entry.unwrap().key).collect();
    assert_eq!(keys.len(), 300);
    keys.sort();
    put.sort();
    assert_eq!(keys, put);
    let leaf = place(2, 0, b"key 7").unwrap().leaf;
    let keys: Vec<_> = replica.keys_of(leaf).map(Result::unwrap).collect();
    assert!(keys.contains(&b"key 7".to_vec()));
    assert!(keys.windows(2).all(|pair| pair[0] < pair[1]));
    let last = replica.entries(299).unwrap().next().unwrap().unwrap();
    assert_eq!((last.number, last.source, last.version.kind()), (299, Source::Put, Kind::Live));
}

/// Puts a key `puts` times, each after a read.
fn put_often(replica: &mut Replica, key: &[u8], puts: u64) {
    for _ in 0..puts {
        let context = merge(replica.get(key).unwrap().iter().map(|version| &version.clock)).unwrap();
        replica.put(1, key, b"milk", &context).unwrap();
    }
}

fn entries_of(replica: &Replica, start: u64) -> Vec<Entry> {
    replica.entries(start).unwrap().map(Result::unwrap).collect()
}

#[test]
fn entries_of_all_kinds() {
    let first = || Replica::new(Config { format: 1, ..Config::default() }).unwrap();
    let (mut migrated, mut second) = (first(), replica());
    migrated.migrate().unwrap();
    second.delete(2, b"gone", &NONE).unwrap();
    for mut replica in [first(), migrated, second] {
        replica.put(1, b"cart", b"milk", &(2..=32).map(|node| (node, node)).collect()).unwrap();
        replica.accept(&[b'k'; 255], &live([(1, 1), (65_535, u64::MAX)], &[b'v'; 4096])).unwrap();
        replica.accept(b"empty", &live([(3, 1)], b"")).unwrap();
        let entries = entries_of(&replica, 0);
        assert_eq!(entries.len() as u64, replica.count().unwrap().entries);
        for (number, entry) in (0..).zip(entries) {
            assert_eq!(replica.entry(number), Ok(Some(entry)));
        }
    }
}

#[test]
fn packed_entries() {
    let mut replica = replica();
    replica.put(1, b"a", b"x", &NONE).unwrap();
    let page = b"\x00\x00\x01a\x00\x01\x00\x01\x00\x01\x00\x00\x00\x00\x00\x00\x00\x01\x00\x00\x00\x01x";
    assert_eq!(replica.packed_entries(0), Ok(Packed { bytes: page.to_vec(), next: 1 }));
    assert_eq!(replica.packed_entries(1), Ok(Packed { bytes: vec![], next: 1 }));
}

#[test]
fn entries_of_several_calls() {
    let (mut replica, value) = (replica(), [b'v'; 65_536]);
    for n in 0..40 {
        replica.put(1, &[n], &value, &NONE).unwrap();
    }
    let packed = replica.packed_entries(0).unwrap();
    assert_eq!((packed.bytes.len(), packed.next), (15 * (22 + value.len()), 15));
    assert_eq!(replica.packed_entries(38).unwrap().next, 40);
    let entries = entries_of(&replica, 3);
    assert!(entries.iter().map(|entry| (entry.number, entry.key[0])).eq((3..40).map(|n| (n.into(), n))));
}

/// The position of a log is the number of entries that it has, and is never changed otherwise.
#[test]
fn a_log_goes_on_over_renewals() {
    let (mut replica, mut log) = (with_limit(150), Vec::new());
    for round in 0..3u8 {
        put_often(&mut replica, b"cart", 100);
        put_often(&mut replica, &[round], 1);
        log.append(&mut entries_of(&replica, log.len() as u64));
        replica = replica.renew(150).unwrap();
        assert_eq!(replica.snapshot().unwrap().entries(), log.len() as u64);
        assert_eq!(entries_of(&replica, log.len() as u64), []);
    }
    assert!(log.iter().map(|entry| entry.number).eq(0..303));
    let mut restored = with_limit(1000);
    for entry in &log {
        assert_eq!(restored.accept(&entry.key, &entry.version), Ok(true));
    }
    assert_eq!(restored.root(), replica.root());
}

#[test]
fn bad_positions() {
    let mut replica = replica();
    put_often(&mut replica, b"cart", 10);
    put_often(&mut replica, b"gift", 1);
    assert_eq!((entries_of(&replica, 11), replica.entries(12).err()), (vec![], Some(Refusal::BadPosition)));
    let mut renewed = replica.renew(1000).unwrap();
    put_often(&mut renewed, b"list", 1);
    for start in [0, 8, 10, 13, u64::MAX] {
        assert_eq!(renewed.entries(start).err(), Some(Refusal::BadPosition));
        assert_eq!(renewed.packed_entries(start), Err(Refusal::BadPosition));
    }
    let first = renewed.count().unwrap().first;
    let whole = entries_of(&renewed, first);
    assert!(whole.iter().map(|entry| entry.number).eq(9..12));
    assert_eq!([0, 1, 2].map(|n| whole[n].source), [Source::Copy, Source::Copy, Source::Put]);
    assert_eq!((entries_of(&renewed, 11), entries_of(&renewed, 12)), (whole[2..].to_vec(), vec![]));
    assert_eq!([renewed.entry(8), renewed.entry(9)], [Ok(None), Ok(Some(whole[0].clone()))]);
}

#[test]
fn two_clients() {
    let mut replica = replica();
    let both = Clock::from([(1, 1), (2, 1)]);
    replica.put(1, b"cart", b"milk", &NONE).unwrap();
    replica.accept(b"cart", &live([(2, 1)], b"eggs")).unwrap();
    replica.put(1, b"cart", b"bread", &Clock::from([(1, 1)])).unwrap();
    assert_refused(Refusal::StaleContext, &mut replica, |replica| replica.put(1, b"cart", b"tea", &both));
    let tops = [u64::MAX, 3, 2].map(|entries| replica.top_counter(1, b"cart", entries).unwrap());
    assert_eq!(tops, [2, 2, 1]);
    assert_eq!(replica.top_counter(0, b"cart", 1), Err(Refusal::BadClock));
    replica.put_unread(1, b"cart", b"tea", &both).unwrap();
    assert_eq!(replica.get(b"cart").unwrap(), [live([(1, 2), (2, 1)], b"tea")]);
}

#[test]
fn keys_of_no_leaf() {
    let replica = filled(3);
    assert_eq!(replica.keys_of(4096).collect::<Vec<_>>(), [Err(Refusal::BadMessage)]);
}

#[test]
fn counts_and_renewal() {
    let mut replica = with_limit(10);
    let first = replica.put(1, b"cart", b"milk", &NONE).unwrap();
    replica.put(1, b"cart", b"eggs", &Clock::from([(1, first.counter)])).unwrap();
    replica.rehash().unwrap();
    let counts = Counts { entries: 2, limit: 10, ..Counts::default() };
    assert_eq!(replica.count(), Ok(counts));
    let renewed = replica.renew(5).unwrap();
    assert_eq!(renewed.count(), Ok(Counts { limit: 5, first: 1, front: 1, ..counts }));
    assert_eq!(renewed.get(b"cart"), replica.get(b"cart"));
    assert_eq!(replica.renew(0).err(), Some(Refusal::BadRing));
}

/// Returns the total lengths of the rows that a replica holds, and of its entries, with 10 bytes for each pair of a
/// clock.
fn lengths(replica: &Replica) -> (u64, u64) {
    let (_, entries, rows) = state(replica);
    let entry_len = |entry: &Entry| {
        let value_len = entry.version.value.as_ref().map_or(0, Vec::len);
        entry.key.len() + value_len + 10 * entry.version.clock.pairs().len()
    };
    let (rows, journal): (usize, usize) = (rows.iter().map(Vec::len).sum(), entries.iter().map(entry_len).sum());
    (rows as u64, journal as u64)
}

#[test]
fn sizes_in_bytes() {
    let mut replica = replica();
    assert_eq!(replica.bytes(), Ok(Bytes::default()));
    replica.put(1, b"cart", b"milk", &NONE).unwrap();
    replica.put(1, b"cart", b"milk, eggs", &Clock::from([(1, 1), (7, 3)])).unwrap();
    replica.accept(b"list", &Version { clock: Clock::from([(2, 5)]), value: None }).unwrap();
    let snapshot = replica.snapshot().unwrap();
    let (rows, journal) = lengths(&replica);
    assert!(journal == 8 + 10 + 14 + 20 + 4 + 10 && rows != journal);
    assert_eq!(replica.bytes(), Ok(Bytes { rows, journal, sessions: 0 }));
    replica.put(1, b"gift", b"tea", &NONE).unwrap();
    let (later, _) = lengths(&replica);
    assert_eq!(replica.bytes(), Ok(Bytes { rows: later, journal: journal + 17, sessions: 0 }));
    assert_eq!((snapshot.bytes(), later > rows), (Ok(rows), true));
    let renewed = replica.renew(10).unwrap();
    assert_eq!(lengths(&renewed), (later, journal - 1));
    assert_eq!(renewed.bytes(), Ok(Bytes { rows: later, journal: journal - 1, sessions: 0 }));
}

#[test]
fn about() {
    let mut replica = Replica::new(Config { format: 1, bits: 8, range: 255, limit: 10 }).unwrap();
    let about = About { format: 1, bits: 8, range: 255, entries: 0 };
    assert_eq!(replica.about(), Ok(about));
    replica.migrate().unwrap();
    assert_eq!(replica.about(), Ok(About { format: 2, ..about }));
    let renewed = filled(3).renew(10).unwrap();
    assert_eq!(renewed.about(), Ok(About { format: 2, bits: 0, range: 0, entries: 3 }));
}

#[test]
fn rehash_by_steps() {
    let [mut replica, mut other] = [(); 2].map(|()| {
        let mut replica = Replica::new(Config { format: 1, ..Config::default() }).unwrap();
        for n in 0..50 {
            replica.put(1, format!("key {n}").as_bytes(), b"value", &NONE).unwrap();
        }
        replica
    });
    let dirty = replica.count().unwrap().dirty;
    assert!(dirty > 50);
    assert_eq!(replica.rehash_some(0), Ok(dirty));
    for left in (0..dirty).rev() {
        assert_eq!(replica.rehash_some(1), Ok(left));
        assert_eq!(replica.count().unwrap().dirty, left);
    }
    assert_eq!(replica.rehash_some(1), Ok(0));
    assert_eq!(replica.snapshot_if_clean().unwrap().root(), other.root());
}

#[test]
fn migration() {
    let mut replica = Replica::new(Config { format: 1, ..Config::default() }).unwrap();
    replica.put(1, b"cart", b"milk", &NONE).unwrap();
    assert_refused(Refusal::BadValue, &mut replica, |replica| replica.delete(1, b"cart", &NONE));
    replica.migrate().unwrap();
    assert_eq!((replica.about().unwrap().format, replica.snapshot().unwrap().format()), (2, 2));
    replica.delete(1, b"cart", &Clock::from([(1, 1)])).unwrap();
}

#[test]
fn bad_rings() {
    let bad = [
        Config { format: 3, ..Config::default() },
        Config { bits: 9, ..Config::default() },
        Config { range: 1, ..Config::default() },
        Config { limit: 1_000_001, ..Config::default() },
    ];
    for config in bad {
        assert_eq!(Replica::new(config).err(), Some(Refusal::BadRing));
        assert_eq!(Replica::seeded(config, [1, 2]).err(), Some(Refusal::BadRing));
    }
}

#[test]
fn a_seed_leaves_the_rows_unchanged() {
    let mut seeded = Replica::seeded(Config::default(), [1, 2]).unwrap();
    seeded.put(1, b"cart", b"milk", &Clock::new()).unwrap();
    let mut plain = Replica::new(Config::default()).unwrap();
    plain.put(1, b"cart", b"milk", &Clock::new()).unwrap();
    assert_eq!(seeded.get(b"cart"), plain.get(b"cart"));
}

#[test]
fn refused_puts() {
    let mut replica = filled(1);
    let mut refused = |cause, node, key: &[u8], value: &[u8], context: &Clock| {
        assert_refused(cause, &mut replica, |replica| replica.put(node, key, value, context));
    };
    refused(Refusal::BadClock, 0, b"key", b"", &NONE);
    refused(Refusal::BadClock, 1, b"key", b"", &Clock::from([(1, 0)]));
    refused(Refusal::ClockFull, 1, b"key", b"", &(1..=33).map(|node| (node, 1)).collect());
    refused(Refusal::ClockFull, 33, b"key", b"", &(1..=32).map(|node| (node, 1)).collect());
    refused(Refusal::CounterFull, 1, b"key", b"", &Clock::from([(1, u64::MAX)]));
    refused(Refusal::BadKey, 1, b"", b"", &NONE);
    refused(Refusal::BadKey, 1, &[b'k'; 256], b"", &NONE);
    refused(Refusal::BadValue, 1, b"key", &[0; 65_537], &NONE);
    refused(Refusal::StaleContext, 1, b"key 0", b"", &NONE);
}

#[test]
fn other_range() {
    let range = 1 - place(2, 1, b"key").unwrap().range;
    let mut other = Replica::new(Config { bits: 1, range, ..Config::default() }).unwrap();
    assert_refused(Refusal::OtherRange, &mut other, |other| other.put(1, b"key", b"", &NONE));
    assert_refused(Refusal::OtherRange, &mut other, |other| other.accept(b"key", &live([(1, 1)], b"")));
}

#[test]
fn crowded() {
    let mut replica = replica();
    crowd(&mut replica, b"key");
    assert_eq!(replica.get(b"key").unwrap().len(), 64);
    assert_refused(Refusal::Crowded, &mut replica, |replica| replica.accept(b"key", &live([(65, 1)], b"")));
}

#[test]
fn journal_full() {
    let mut replica = with_limit(1);
    replica.put(1, b"key", b"", &NONE).unwrap();
    assert_refused(Refusal::JournalFull, &mut replica, |replica| replica.put(1, b"other", b"", &NONE));
}

#[test]
fn rows_are_loaded() {
    let (from, mut to) = (filled(3), replica());
    let row = from.row(b"key 1").unwrap().unwrap();
    assert_eq!(to.load_rows(&row).unwrap().accepted, 1);
    assert_eq!(to.load_rows(&row).unwrap().known, 1);
    assert_eq!(to.entry(0).unwrap().unwrap().source, Source::Copy);
}

#[test]
fn rows_of_before_a_migration() {
    let first = || Replica::new(Config { format: 1, ..Config::default() }).unwrap();
    let (mut from, mut again, mut to) = (first(), first(), replica());
    let mut rows = Vec::new();
    for key in [b"key 0", b"key 1", b"key 2"] {
        from.put(1, key, b"value", &NONE).unwrap();
        rows.append(&mut from.row(key).unwrap().unwrap());
    }
    assert_eq!(to.load_format(1, &rows).unwrap().accepted, 3);
    assert_eq!(again.load_format(1, &rows).unwrap().accepted, 3);
    assert_eq!(again.root(), from.root());
    from.migrate().unwrap();
    assert_eq!(to.root(), from.root());
    assert_refused(Refusal::BadRing, &mut to, |to| Ok(to.load_format(3, &rows)?));
    assert_refused(Refusal::OtherFormat, &mut again, |again| Ok(again.load_format(2, &rows)?));
    assert!(to.load_format(1, &rows[..rows.len() - 1]).unwrap_err().offset.is_some());
}

#[test]
fn broken_rows() {
    let mut replica = filled(3);
    let row = replica.row(b"key 1").unwrap().unwrap();
    let refused = replica.load_rows(&row[..row.len() - 1]).unwrap_err();
    assert_eq!(refused.refusal, Refusal::RowBroken);
    assert!(refused.offset.unwrap() < row.len() as u64);
    assert_eq!(refused.to_string(), format!("the bytes aren't texts of rows, at byte {}", refused.offset.unwrap()));
    assert_refused(Refusal::RowBroken, &mut replica, |replica| Ok(replica.load_rows(b"?")?));
}

#[test]
fn rows_of_two_leaves() {
    let mut replica = filled(2);
    let rows: Vec<u8> = [b"key 0", b"key 1"].iter().flat_map(|key| replica.row(*key).unwrap().unwrap()).collect();
    let refused = RowsRefused { refusal: Refusal::OtherRange, offset: None };
    assert_eq!(replica.load_rows(&rows), Err(refused));
    assert_eq!(refused.to_string(), Refusal::OtherRange.to_string());
}
