//! The values that calls take and return.

use std::fmt;

use crate::refusal::{check, Refusal};
use crate::sys;

/// A pair of a clock: a node and its counter.
#[repr(C)]
#[derive(Clone, Copy, Debug, Default, PartialEq, Eq, Hash)]
pub struct Pair {
    /// Number of the node, 1 to 65,535 in a valid clock.
    pub node: u64,
    /// Number of puts at the node that the clock has seen.
    pub counter: u64,
}

/// A clock: the pairs of nodes and counters of a version or a context.
///
/// A call takes the pairs in any order, and returns them by rising node. `==` compares the lists of pairs;
/// [`compare`](crate::compare) and [`merge`](crate::merge) are the library's.
///
/// ```
/// use antientropy::Clock;
/// let clock = Clock::from([(1, 7), (3, 2)]);
/// assert_eq!(clock.counter(3), Some(2));
/// assert!(Clock::new().pairs().is_empty());
/// ```
#[derive(Clone, Default, PartialEq, Eq, Hash)]
pub struct Clock(Vec<Pair>);

impl Clock {
    /// Returns the empty clock: the context of a client that has read no version.
    #[must_use]
    pub const fn new() -> Clock {
        Clock(Vec::new())
    }

    /// Returns the pairs.
    #[must_use]
    pub fn pairs(&self) -> &[Pair] {
        &self.0
    }

    /// Returns the counter of a node, if the clock has a pair of it.
    #[must_use]
    pub fn counter(&self, node: u64) -> Option<u64> {
        self.0.iter().find(|pair| pair.node == node).map(|pair| pair.counter)
    }
}

impl From<Vec<Pair>> for Clock {
    fn from(pairs: Vec<Pair>) -> Clock {
        Clock(pairs)
    }
}

impl<const N: usize> From<[(u64, u64); N]> for Clock {
    fn from(pairs: [(u64, u64); N]) -> Clock {
        pairs.into_iter().collect()
    }
}

impl FromIterator<(u64, u64)> for Clock {
    fn from_iter<I: IntoIterator<Item = (u64, u64)>>(pairs: I) -> Clock {
        Clock(pairs.into_iter().map(|(node, counter)| Pair { node, counter }).collect())
    }
}

impl fmt::Debug for Clock {
    fn fmt(&self, out: &mut fmt::Formatter<'_>) -> fmt::Result {
        out.debug_map().entries(self.0.iter().map(|pair| (pair.node, pair.counter))).finish()
    }
}

/// An enum whose members have the numbers of the header.
macro_rules! numbered {
    ($(#[$doc:meta])* $name:ident { $($(#[$member_doc:meta])* $member:ident = $number:literal,)* }) => {
        $(#[$doc])*
        #[derive(Clone, Copy, Debug, PartialEq, Eq, Hash)]
        #[non_exhaustive]
        pub enum $name {
            $($(#[$member_doc])* $member,)*
            /// A number that this crate doesn't know: one of a newer library.
            Other(u64),
        }

        impl From<u64> for $name {
            fn from(number: u64) -> $name {
                match number {
                    $($number => $name::$member,)*
                    other => $name::Other(other),
                }
            }
        }

        impl $name {
            /// Returns its number in the header.
            #[must_use]
            pub fn number(self) -> u64 {
                match self {
                    $($name::$member => $number,)*
                    $name::Other(number) => number,
                }
            }
        }
    };
}

numbered! {
    /// Kinds of versions.
    Kind {
        /// The version has a value.
        Live = 0,
        /// The version marks the key as removed.
        Tombstone = 1,
    }
}

numbered! {
    /// Sources of an entry's version.
    Source {
        /// A put at this replica.
        Put = 0,
        /// A copy: accepted or loaded here, carried over by a renewal, or taken in a session that was dropped.
        Copy = 1,
        /// A hint that was delivered: not through the C library, which takes it as a copy.
        Hint = 2,
        /// A partner's version, taken in a session that is kept.
        Partner = 3,
    }
}

numbered! {
    /// Kinds of verdicts on an answer.
    VerdictKind {
        /// The session took it.
        Taken = 0,
        /// Its leaf was left because a key in it is crowded.
        Left = 1,
        /// It counts as bad: `BadMessage`, `NotAsked` or `WrongDigest`.
        Bad = 2,
        /// It is late, of another offer, or the exchange is over: it counts as nothing.
        Late = 3,
        /// No space was left for it: `JournalFull` or `NoMemory`.
        Refused = 4,
        /// It has the expected digest, but doesn't encode a node: the session has failed.
        Failed = 5,
    }
}

numbered! {
    /// Reports of an exchange. It sends asks while it is waiting.
    Report {
        /// The replica holds each version of the offer, or one that has seen it.
        Finished = 0,
        /// An ask is in flight, or is still to be sent.
        Waiting = 1,
        /// Everything is taken except the leaves that were left.
        Left = 2,
        /// No space was left for an answer: call `go_on` or `close`.
        Stopped = 3,
        /// More answers were bad than the bounds allow.
        TooManyBad = 4,
        /// More asks were lost than the bounds allow.
        TooManyLost = 5,
        /// The session has failed.
        Failed = 6,
        /// The exchange is closed.
        Closed = 7,
        /// The replica doesn't have the session, or it was cancelled.
        Gone = 8,
    }
}

numbered! {
    /// Orders of two clocks.
    Order {
        /// The second has seen everything the first has, and more.
        Before = 0,
        /// The first has seen everything the second has, and more.
        After = 1,
        /// Both have seen the same.
        Equal = 2,
        /// Each has seen something the other hasn't: versions under them are concurrent.
        Apart = 3,
    }
}

/// A version of a key.
#[derive(Clone, Debug, PartialEq, Eq, Hash)]
pub struct Version {
    /// Clock of the version.
    pub clock: Clock,
    /// Value of the version: `None` for a tombstone.
    pub value: Option<Vec<u8>>,
}

impl Version {
    /// Returns the kind of the version.
    #[must_use]
    pub fn kind(&self) -> Kind {
        kind_of(self.value.as_deref())
    }

    /// Returns a version that a call returned in parts. One of an unknown kind is refused as `BadValue`, since it may
    /// be neither a value nor a tombstone.
    pub(crate) fn of(clock: Clock, (kind, value): (Kind, Vec<u8>)) -> Result<Version, Refusal> {
        let value = match kind {
            Kind::Live => Some(value),
            Kind::Tombstone => None,
            Kind::Other(_) => return Err(Refusal::BadValue),
        };
        Ok(Version { clock, value })
    }
}

/// Returns the kind of a version by its value.
pub(crate) fn kind_of(value: Option<&[u8]>) -> Kind {
    match value {
        Some(_) => Kind::Live,
        None => Kind::Tombstone,
    }
}

/// An entry of a journal: an accepted version, with its key and its source.
#[derive(Clone, Debug, PartialEq, Eq, Hash)]
pub struct Entry {
    /// Number of the entry, from 0. Numbering continues over renewals.
    pub number: u64,
    /// Key of the version.
    pub key: Vec<u8>,
    /// The version itself.
    pub version: Version,
    /// Source of the version.
    pub source: Source,
}

/// A version that is kept for its owner, a node that is down.
#[derive(Clone, Debug, PartialEq, Eq, Hash)]
pub struct Hint {
    /// Number of the hint, which is never reused.
    pub number: u64,
    /// Node for which the version is kept.
    pub owner: u16,
    /// Key of the version.
    pub key: Vec<u8>,
    /// The version itself.
    pub version: Version,
}

/// The result of a put.
#[repr(C)]
#[derive(Clone, Copy, Debug, Default, PartialEq, Eq, Hash)]
pub struct Receipt {
    /// Number of the entry in the journal: [`Replica::entry`](crate::Replica::entry) returns the version for copies.
    /// After a renewal it may name another version.
    pub number: u64,
    /// The node's counter in the new version's clock. The context has the other counters.
    pub counter: u64,
}

/// The range and the leaf of a key.
#[derive(Clone, Copy, Debug, PartialEq, Eq, Hash)]
pub struct Spot {
    /// Number of the range in the ring, from 0.
    pub range: u16,
    /// Number of the leaf in the range's tree, from 0.
    pub leaf: u16,
}

/// A digest of a root, or of another node of a tree: 32 bytes. Replicas of a range with equal roots hold the same
/// versions.
pub type Root = [u8; 32];

/// The parts of an offer. Format and range are as received: the ring may not have them.
#[derive(Clone, Copy, Debug, PartialEq, Eq, Hash)]
pub struct OfferParts {
    /// Number that the partner gave the offer.
    pub number: u32,
    /// Format of the partner's tree.
    pub format: u8,
    /// Number of the partner's range.
    pub range: u16,
    /// Digest of the partner's root.
    pub root: Root,
}

/// The bounds of an exchange or a sync.
#[derive(Clone, Copy, Debug, PartialEq, Eq, Hash)]
pub struct Bounds {
    /// Maximum number of asks in flight. One is always allowed.
    pub asks: u64,
    /// Maximum number of estimated bytes of their answers.
    pub bytes: u64,
    /// Maximum number of bad answers: one more ends it.
    pub bad: u64,
    /// Maximum number of lost asks: one more ends it.
    pub lost: u64,
    /// True if no ask is an outline: that saves processor time on both sides, and sends more over the link.
    pub plain: bool,
}

/// 256 asks, 1 MiB of answers, 8 bad answers, and 256 lost asks. Asks may be outlines.
impl Default for Bounds {
    fn default() -> Bounds {
        Bounds { asks: 256, bytes: 1 << 20, bad: 8, lost: 256, plain: false }
    }
}

/// The verdict of an exchange on an answer.
#[derive(Clone, Copy, Debug, PartialEq, Eq, Hash)]
pub struct Verdict {
    /// Kind of the verdict.
    pub kind: VerdictKind,
    /// Cause of a bad or a refused one.
    pub cause: Option<Refusal>,
    /// Number of new versions: they are now entries of the journal.
    pub accepted: u64,
    /// Number of known versions.
    pub known: u64,
}

/// The progress of an exchange.
#[derive(Clone, Copy, Debug, PartialEq, Eq, Hash)]
pub struct Progress {
    /// The report.
    pub report: Report,
    /// Cause of a stop: `JournalFull` or `NoMemory`.
    pub cause: Option<Refusal>,
    /// Asks sent.
    pub asks: u64,
    /// Asks in flight.
    pub in_flight: u64,
    /// Estimated bytes of their answers.
    pub bytes_in_flight: u64,
    /// Bad answers.
    pub bad: u64,
    /// Lost asks.
    pub lost: u64,
    /// New versions in the answers taken.
    pub accepted: u64,
    /// Known versions in them.
    pub known: u64,
    /// Leaves taken.
    pub leaves: u64,
}

impl From<sys::Progress> for Progress {
    fn from(progress: sys::Progress) -> Progress {
        let sys::Progress { report, cause, asks, in_flight, bytes_in_flight, bad, lost, accepted, known, leaves } =
            progress;
        let (report, cause) = (report.into(), cause_of(cause));
        Progress { report, cause, asks, in_flight, bytes_in_flight, bad, lost, accepted, known, leaves }
    }
}

/// Returns the cause of a number in a verdict or a report, or `None` for 0.
pub(crate) fn cause_of(number: u64) -> Option<Refusal> {
    check(number as u32).err()
}

/// The result of loading rows.
#[derive(Clone, Copy, Debug, PartialEq, Eq, Hash)]
pub struct Loaded {
    /// Number of accepted versions: they are now entries of the journal.
    pub accepted: u64,
    /// Number of known versions.
    pub known: u64,
}

/// Counts of a replica.
#[repr(C)]
#[derive(Clone, Copy, Debug, Default, PartialEq, Eq, Hash)]
pub struct Counts {
    /// Entries, including those before renewals: the number of the next entry.
    pub entries: u64,
    /// Maximum of `entries` minus `first`, at which the journal is full.
    pub limit: u64,
    /// Nodes of the tree that have no digest.
    pub dirty: u64,
    /// Sessions that are kept: at 1,024 no other can be opened until ended ones are dropped.
    pub sessions: u64,
    /// Open sessions: at 64 no other can be opened until one has ended.
    pub open_sessions: u64,
    /// Number of the journal's first entry: 0 before the first renewal.
    pub first: u64,
    /// `entries` at the last moment that was whole: `first` without one since a renewal.
    pub front: u64,
}

/// The size of a replica: lengths of contents in bytes. Its memory differs.
#[repr(C)]
#[derive(Clone, Copy, Debug, Default, PartialEq, Eq, Hash)]
pub struct Bytes {
    /// The rows, as [`Snapshot::rows`](crate::Snapshot::rows) returns them.
    pub rows: u64,
    /// The keys, values and clocks of the entries from `first` of the counts on: 10 bytes for each pair of a clock.
    pub journal: u64,
    /// Additional contents of sessions: the texts that they took, and the leaves of their rows that have changed since
    /// or have no digest now.
    pub sessions: u64,
}

/// The range of a replica or a snapshot, and the position of its journal: the identity to store in a checkpoint or a
/// log.
#[derive(Clone, Copy, Debug, PartialEq, Eq, Hash)]
pub struct About {
    /// Format of the tree: 1 or 2.
    pub format: u8,
    /// Bits of the ring, which has 2^bits ranges.
    pub bits: u8,
    /// Number of the range, from 0.
    pub range: u16,
    /// Entries, including those before renewals: the number of the next entry.
    pub entries: u64,
}

impl From<sys::About> for About {
    fn from(about: sys::About) -> About {
        let sys::About { format, bits, range, entries } = about;
        About { format: format as u8, bits: bits as u8, range: range as u16, entries }
    }
}

/// Counts of hints.
#[repr(C)]
#[derive(Clone, Copy, Debug, Default, PartialEq, Eq, Hash)]
pub struct HintCounts {
    /// Hints that wait for their owners.
    pub pending: u64,
    /// Hints that were delivered: they are kept until a renewal.
    pub delivered: u64,
}

/// Counts of slots.
#[repr(C)]
#[derive(Clone, Copy, Debug, Default, PartialEq, Eq, Hash)]
pub struct SlotCounts {
    /// Maximum number of slots that are lent.
    pub target: u64,
    /// Slots lent.
    pub lent: u64,
    /// Slots that could be lent now.
    pub free: u64,
}

#[cfg(test)]
mod tests {
    use super::*;

    #[test]
    fn a_version_of_an_unknown_kind() {
        assert_eq!(Version::of(Clock::new(), (Kind::Other(2), vec![])), Err(Refusal::BadValue));
    }
}
