//! Causes of refusal.

use std::error::Error;
use std::fmt;

use crate::handle::fill;
use crate::sys;

/// Bytes of the longest name.
const NAME_ROOM: usize = 64;

macro_rules! refusals {
    ($(#[doc = $doc:literal] $name:ident = $number:literal,)*) => {
        /// The reason why the library refused a call. Except as the header says, a refused call changes nothing.
        ///
        /// The page `docs/FORMATS.md` has the remedy for each cause.
        ///
        /// ```
        /// use antientropy::Refusal;
        /// assert_eq!(Refusal::from(6), Refusal::StaleContext);
        /// assert_eq!(Refusal::StaleContext.number(), 6);
        /// assert_eq!(Refusal::StaleContext.name(), "StaleContext");
        /// assert_eq!(Refusal::BadKey.to_string(), "the key has no byte, or over 255");
        /// ```
        #[derive(Clone, Copy, Debug, PartialEq, Eq, Hash)]
        #[non_exhaustive]
        pub enum Refusal {
            $(#[doc = $doc] $name,)*
            /// A number that this crate doesn't know.
            Other(u32),
        }

        impl From<u32> for Refusal {
            fn from(number: u32) -> Refusal {
                match number {
                    $($number => Refusal::$name,)*
                    other => Refusal::Other(other),
                }
            }
        }

        impl Refusal {
            /// Returns the cause's number in the header.
            #[must_use]
            pub fn number(self) -> u32 {
                match self {
                    $(Refusal::$name => $number,)*
                    Refusal::Other(number) => number,
                }
            }

            /// Returns the sentence that is the variant's documentation, or no text for another number.
            fn sentence(self) -> &'static str {
                match self {
                    $(Refusal::$name => $doc,)*
                    Refusal::Other(_) => "",
                }
            }
        }
    };
}

refusals! {
    /// A node is 0, over 65,535 or repeated, or a counter is 0.
    BadClock = 1,
    /// The clock would have more than 32 pairs.
    ClockFull = 2,
    /// The counter to raise is 2^64 - 1.
    CounterFull = 3,
    /// The key has no byte, or over 255.
    BadKey = 4,
    /// Too long; a tombstone with a value, or in format 1; or an unknown kind.
    BadValue = 5,
    /// A held version has seen all of the new clock, or more of the node's puts than the context.
    StaleContext = 6,
    /// The key would have over 64 versions.
    Crowded = 7,
    /// The entries don't fit into the journal, or a renewal has no numbers left.
    JournalFull = 8,
    /// A key or an offer belongs to another range, or the rows to two leaves.
    OtherRange = 9,
    /// Some node has no digest, or the replica has no moment.
    Dirty = 10,
    /// The replica isn't the renewal's: it was renewed or migrated meanwhile.
    Stale = 11,
    /// No session has this number.
    UnknownSession = 12,
    /// The node isn't outstanding.
    NotAsked = 13,
    /// The text's digest isn't the expected one.
    WrongDigest = 14,
    /// The digest matches, but the text isn't a node's: the session has failed.
    NotCanonical = 15,
    /// The offer or the rows have another format.
    OtherFormat = 16,
    /// 64 sessions are open, or 1,024 are kept: drop the ended ones.
    SessionsFull = 17,
    /// No slot is free, or none is lent.
    NoSlot = 18,
    /// The time is before the latest one accepted.
    ClockBack = 19,
    /// No pending hint has this number, or no hint can have it.
    UnknownHint = 20,
    /// 10,000 hints are pending, or the last number was used.
    HintsFull = 21,
    /// The ask is for another offer.
    Gone = 22,
    /// A format, or the numbers of a range or of slots, are outside the limits.
    BadRing = 27,
    /// The bytes aren't texts of rows.
    RowBroken = 30,
    /// Not a message, not the expected kind, or a node that isn't in the tree.
    BadMessage = 31,
    /// Malloc or realloc failed.
    NoMemory = 32,
    /// The buffer is too small.
    Small = 33,
    /// The handle is empty.
    Empty = 34,
    /// The handle isn't empty.
    Held = 35,
    /// No such version, entry, hint or leaf, or none follows.
    NoVersion = 36,
    /// Entries can't be read from this number on: it is over the number of entries, or from before the last renewal.
    BadPosition = 37,
}

impl Refusal {
    /// Returns the library's name of the number: an empty string if it doesn't know the number.
    #[must_use]
    pub fn name(self) -> String {
        let number = self.number();
        // SAFETY: no handle; the rest as in `sys`.
        let name = unsafe { fill::<u8, NAME_ROOM>(|room, len, need| sys::antientropy_name(number, room, len, need)) };
        String::from_utf8_lossy(&name.unwrap_or_default()).into_owned()
    }
}

/// Writes the cause as a sentence, without a capital letter and a full stop.
impl fmt::Display for Refusal {
    fn fmt(&self, out: &mut fmt::Formatter<'_>) -> fmt::Result {
        let sentence = self.sentence().trim().trim_end_matches('.');
        match sentence.chars().next() {
            Some(first) => write!(out, "{}{}", first.to_lowercase(), &sentence[first.len_utf8()..]),
            None => write!(out, "refusal {}", self.number()),
        }
    }
}

impl Error for Refusal {}

/// Returns the result of a call that returned a number.
pub(crate) fn check(number: u32) -> Result<(), Refusal> {
    match number {
        0 => Ok(()),
        refused => Err(refused.into()),
    }
}

/// Turns `NoVersion` into `None`.
pub(crate) fn found<T>(result: Result<T, Refusal>) -> Result<Option<T>, Refusal> {
    match result {
        Err(Refusal::NoVersion) => Ok(None),
        other => other.map(Some),
    }
}
