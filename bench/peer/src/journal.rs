//! The journal of a range: all versions that it accepted, in order.
use crate::version::Version;

/// The maximum number of entries of a journal.
pub const ENTRIES_MAX: u64 = 1_000_000;

/// The source of an entry.
#[derive(Clone, Copy, Debug, PartialEq, Eq)]
pub enum Source {
    /// A put.
    Client,
    /// A copy of another replica's put.
    Copy,
    /// A hint.
    Hint,
    /// A session's partner.
    Partner,
}

/// An accepted version.
pub struct Entry {
    /// The version, with its key.
    pub version: Version,
    /// The seat of the caller.
    pub seat: u8,
    /// The source of the version.
    pub source: Source,
}

/// The receipt of an entry.
pub struct Receipt {
    /// The number of the entry, from 0.
    pub number: u64,
    /// The mark of the key's place.
    pub mark: u64,
    /// The version, with its key.
    pub version: Version,
    /// The source of the version.
    pub source: Source,
}

/// A journal.
pub struct Journal {
    limit: u64,
    entries: Vec<Entry>,
}

impl Journal {
    /// Returns an empty journal of at most `limit` entries.
    pub fn new(limit: u64) -> Journal {
        Journal { limit, entries: Vec::new() }
    }

    /// Returns the number of entries.
    pub fn len(&self) -> u64 {
        self.entries.len() as u64
    }

    /// Returns the number of entries that the journal still takes.
    pub fn room(&self) -> u64 {
        self.limit - self.len()
    }

    /// Returns the entries.
    pub fn entries(&self) -> &[Entry] {
        &self.entries
    }

    /// Appends an entry, for which there is room, and returns its number.
    pub fn append(&mut self, entry: Entry) -> u64 {
        self.entries.push(entry);
        self.len() - 1
    }
}
