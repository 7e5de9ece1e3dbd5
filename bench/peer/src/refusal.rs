//! Refusals.

/// The cause of a refused call, with its number in scripts.
#[derive(Clone, Copy, Debug, PartialEq, Eq)]
pub enum Refusal {
    BadClock = 1,
    ClockFull = 2,
    CounterFull = 3,
    BadKey = 4,
    BadValue = 5,
    StaleContext = 6,
    Crowded = 7,
    JournalFull = 8,
    OtherRange = 9,
    Dirty = 10,
    Stale = 11,
    UnknownSession = 12,
    NotAsked = 13,
    WrongDigest = 14,
    NotCanonical = 15,
    OtherFormat = 16,
    SessionsFull = 17,
    NoSlot = 18,
    ClockBack = 19,
    HintsFull = 21,
    Gone = 22,
    Behind = 23,
    LinkLost = 26,
    BadRing = 27,
    Down = 28,
    BadLine = 29,
    BadMessage = 31,
}
