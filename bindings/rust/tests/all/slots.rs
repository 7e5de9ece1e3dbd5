//! Slots.

use antientropy::{Refusal, SlotCounts, Slots};

#[test]
fn lent_and_given_back() {
    let mut slots = Slots::new(1, 2, 10_000).unwrap();
    assert_eq!(slots.give_back(), Err(Refusal::NoSlot));
    slots.lend().unwrap();
    slots.lend().unwrap();
    assert_eq!(slots.lend(), Err(Refusal::NoSlot));
    assert_eq!(slots.count(), Ok(SlotCounts { target: 2, lent: 2, free: 0 }));
    slots.give_back().unwrap();
    assert_eq!(slots.count(), Ok(SlotCounts { target: 2, lent: 1, free: 1 }));
}

#[test]
fn adjusted() {
    let mut slots = Slots::new(1, 8, 10_000).unwrap();
    assert_eq!(slots.adjust(1_000), Ok(None));
    slots.sample(2_000, 20_000).unwrap();
    assert_eq!(slots.adjust(2_000), Ok(Some(20_000)));
    assert_eq!(slots.count().unwrap().target, 4);
    assert_eq!(slots.sample(1_999, 1), Err(Refusal::ClockBack));
    assert_eq!(slots.adjust(1_999), Err(Refusal::ClockBack));
    slots.set_target(8).unwrap();
    assert_eq!(slots.count().unwrap().target, 8);
    assert_eq!(slots.set_target(9), Err(Refusal::BadRing));
}

#[test]
fn bad_numbers() {
    assert_eq!(Slots::new(0, 4, 1).err(), Some(Refusal::BadRing));
    assert_eq!(Slots::new(1, 1025, 1).err(), Some(Refusal::BadRing));
}
