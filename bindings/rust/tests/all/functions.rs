//! The calls that need no replica.

use antientropy::{compare, merge, place, read_offer, version, Clock, Order, Refusal};

fn clock_of(nodes: u64) -> Clock {
    (1..=nodes).map(|node| (node, 1)).collect()
}

#[test]
fn version_of_the_crate() {
    let (major, minor, patch) = version();
    assert_eq!(format!("{major}.{minor}.{patch}"), env!("CARGO_PKG_VERSION"));
}

#[test]
fn places() {
    let (whole, half) = (place(2, 0, b"key").unwrap(), place(2, 1, b"key").unwrap());
    assert_eq!(whole.range, 0);
    assert!(whole.leaf < 4096 && half.range < 2);
    assert_eq!(place(3, 0, b"key"), Err(Refusal::BadRing));
    assert_eq!(place(2, 9, b"key"), Err(Refusal::BadRing));
    assert_eq!(place(2, 0, b""), Err(Refusal::BadKey));
}

#[test]
fn orders() {
    let (first, second) = (Clock::from([(1, 1)]), Clock::from([(2, 1), (1, 1)]));
    assert_eq!(compare(&first, &second), Ok(Order::Before));
    assert_eq!(compare(&second, &first), Ok(Order::After));
    assert_eq!(compare(&first, &first), Ok(Order::Equal));
    assert_eq!(compare(&first, &Clock::from([(2, 1)])), Ok(Order::Apart));
    assert_eq!(compare(&first, &Clock::from([(0, 1)])), Err(Refusal::BadClock));
    assert_eq!(compare(&first, &clock_of(33)), Err(Refusal::ClockFull));
}

#[test]
fn merged_clocks() {
    let clocks = [Clock::from([(3, 1), (1, 2)]), Clock::from([(1, 5)]), Clock::from([(2, 7)])];
    assert_eq!(merge(&clocks), Ok(Clock::from([(1, 5), (2, 7), (3, 1)])));
    assert_eq!(merge(&[]), Ok(Clock::new()));
    assert_eq!(merge(&[clock_of(32)]), Ok(clock_of(32)));
    assert_eq!(merge(&[clock_of(32), Clock::from([(33, 1)])]), Err(Refusal::ClockFull));
    assert_eq!(merge(&[Clock::from([(65_536, 1)])]), Err(Refusal::BadClock));
    assert_eq!(merge(&[Clock::from([(1, 1), (1, 2)])]), Err(Refusal::BadClock));
}

#[test]
fn clocks_are_shown_as_maps() {
    assert_eq!(format!("{:?}", Clock::from([(1, 7), (3, 2)])), "{1: 7, 3: 2}");
}

#[test]
fn no_offer() {
    assert_eq!(read_offer(b""), Err(Refusal::BadMessage));
}

#[test]
fn refusals() {
    assert_eq!(Refusal::from(99), Refusal::Other(99));
    assert_eq!((Refusal::Other(99).number(), Refusal::Crowded.number()), (99, 7));
    assert_eq!(Refusal::Other(99).to_string(), "refusal 99");
    let error: Box<dyn std::error::Error + Send + Sync> = Refusal::Crowded.into();
    assert_eq!(error.to_string(), "the key would have over 64 versions");
}
