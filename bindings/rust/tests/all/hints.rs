//! Hints.

use antientropy::{Clock, Hint, HintCounts, Hints, Refusal, Version};

use crate::support::live;

#[test]
fn kept_and_confirmed() {
    let mut hints = Hints::new().unwrap();
    let tombstone = Version { clock: Clock::from([(1, 2)]), value: None };
    assert_eq!(hints.keep(2, b"cart", &live([(1, 1)], b"tea")), Ok(1));
    assert_eq!(hints.keep(3, b"cart", &live([(1, 1)], b"tea")), Ok(2));
    assert_eq!(hints.keep(2, b"list", &tombstone), Ok(3));
    let first = Hint { number: 1, owner: 2, key: b"cart".to_vec(), version: live([(1, 1)], b"tea") };
    let third = Hint { number: 3, owner: 2, key: b"list".to_vec(), version: tombstone };
    assert_eq!(hints.hint(1), Ok(Some(first.clone())));
    assert_eq!(hints.next_pending(2, 1), Ok(Some(third.clone())));
    assert_eq!(hints.pending(2).collect::<Vec<_>>(), [Ok(first), Ok(third)]);
    hints.confirm(1, false).unwrap();
    assert_eq!(hints.count(), Ok(HintCounts { pending: 2, delivered: 1 }));
    assert!(hints.hint(1).unwrap().is_some());
    hints.renew().unwrap();
    assert_eq!(hints.count(), Ok(HintCounts { pending: 2, delivered: 0 }));
    assert_eq!(hints.pending(2).map(|hint| hint.unwrap().number).collect::<Vec<_>>(), [5]);
    assert_eq!(hints.next_pending(3, 0).unwrap().unwrap().number, 4);
}

/// Delivered hints count until a renewal.
#[test]
fn sizes_of_hints() {
    let mut hints = Hints::new().unwrap();
    assert_eq!(hints.bytes(), Ok(0));
    hints.keep(2, b"cart", &live([(1, 2), (3, 4)], b"milk")).unwrap();
    hints.keep(3, b"gift list", &Version { clock: Clock::from([(1, 3)]), value: None }).unwrap();
    assert_eq!(hints.bytes(), Ok(8 + 20 + 9 + 10));
    hints.confirm(1, false).unwrap();
    assert_eq!(hints.bytes(), Ok(47));
    hints.renew().unwrap();
    assert_eq!(hints.bytes(), Ok(19));
}

#[test]
fn no_number_names_two_hints() {
    let mut hints = Hints::new().unwrap();
    let version = live([(1, 1)], b"tea");
    for (key, number) in [(b"cart".as_slice(), 1), (b"order", 2)] {
        assert_eq!(hints.keep(2, key, &version), Ok(number));
    }
    hints.confirm(1, false).unwrap();
    hints.renew().unwrap();
    let payment = hints.keep(2, b"payment", &version).unwrap();
    assert_eq!(hints.confirm(2, false), Err(Refusal::UnknownHint));
    assert_eq!(hints.hint(2), Ok(None));
    assert_eq!(hints.hint(payment).unwrap().unwrap().key, b"payment");
    assert_eq!(hints.count(), Ok(HintCounts { pending: 2, delivered: 0 }));
}

#[test]
fn restored() {
    let version = live([(1, 1)], b"tea");
    let mut hints = Hints::restore(u64::MAX).unwrap();
    assert_eq!(hints.keep(2, b"cart", &version), Ok(u64::MAX));
    assert_eq!(hints.keep(2, b"order", &version), Err(Refusal::HintsFull));
    assert_eq!(hints.renew(), Err(Refusal::HintsFull));
    assert_eq!(hints.hint(u64::MAX).unwrap().unwrap().key, b"cart");
    assert_eq!(Hints::restore(0).err(), Some(Refusal::UnknownHint));
}

#[test]
fn none() {
    let mut hints = Hints::new().unwrap();
    assert_eq!(hints.hint(1), Ok(None));
    assert_eq!(hints.next_pending(2, 0), Ok(None));
    assert_eq!(hints.pending(2).count(), 0);
}

#[test]
fn refused() {
    let mut hints = Hints::new().unwrap();
    let version = live([(1, 1)], b"tea");
    assert_eq!(hints.keep(0, b"cart", &version), Err(Refusal::BadClock));
    assert_eq!(hints.keep(2, b"", &version), Err(Refusal::BadKey));
    assert_eq!(hints.keep(2, b"cart", &live([(1, 1)], &[0; 65_537])), Err(Refusal::BadValue));
    assert_eq!(hints.confirm(1, true), Err(Refusal::UnknownHint));
    assert_eq!(hints.confirm((1 << 32) + 1, true), Err(Refusal::UnknownHint));
    assert_eq!(hints.count(), Ok(HintCounts { pending: 0, delivered: 0 }));
}

#[test]
fn full() {
    let mut hints = Hints::new().unwrap();
    let version = live([(1, 1)], b"");
    for _ in 0..10_000 {
        hints.keep(2, b"cart", &version).unwrap();
    }
    assert_eq!(hints.keep(2, b"cart", &version), Err(Refusal::HintsFull));
}
