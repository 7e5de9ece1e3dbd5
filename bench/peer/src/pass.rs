//! Passes: a caller's record of the receipts and readings that a range returned. Closing a range compares the passes
//! with its journal.
use crate::format::Format;
use crate::journal::{Journal, Receipt};
use crate::place::Place;
use crate::refusal::Refusal;
use crate::version::{cover, Held};
use smallvec::SmallVec;
use std::collections::HashMap;
use std::hash::{BuildHasherDefault, Hasher};

/// A hasher of marks, which are hashes already.
#[derive(Default)]
struct MarkHasher(u64);

impl Hasher for MarkHasher {
    fn finish(&self) -> u64 {
        self.0
    }

    fn write(&mut self, bytes: &[u8]) {
        for &byte in bytes {
            self.0 = self.0 << 8 | u64::from(byte);
        }
    }

    fn write_u64(&mut self, mark: u64) {
        self.0 = mark;
    }
}

type ByMark<T> = HashMap<u64, T, BuildHasherDefault<MarkHasher>>;

/// A reading: the versions that a get returned.
struct Reading {
    /// The length of the journal at the get.
    front: u64,
    /// The key.
    key: Box<[u8]>,
    /// The place of the key.
    place: Place,
    /// The versions.
    held: Held,
}

/// A caller's record of a range.
pub struct Pass {
    /// The caller's seat.
    pub seat: u8,
    seen: u64,
    receipts: Vec<Receipt>,
    readings: Vec<Reading>,
    /// The receipts of each key, by its mark.
    by_mark: ByMark<SmallVec<[u32; 2]>>,
}

impl Pass {
    /// Returns the empty pass of a seat.
    pub fn new(seat: u8) -> Pass {
        Pass { seat, seen: 0, receipts: Vec::new(), readings: Vec::new(), by_mark: ByMark::default() }
    }

    /// Keeps a receipt.
    pub fn keep(&mut self, receipt: Receipt) {
        self.seen = self.seen.max(receipt.number + 1);
        self.by_mark.entry(receipt.mark).or_default().push(self.receipts.len() as u32);
        self.receipts.push(receipt);
    }

    /// Keeps the reading of a get. Refused: Behind, if the journal is shorter than the caller has seen it, or the
    /// versions don't cover a receipt of the caller for the key.
    pub fn read(&mut self, key: &[u8], place: Place, held: Held, front: u64) -> Result<(), Refusal> {
        if front < self.seen {
            return Err(Refusal::Behind);
        }
        for &at in self.by_mark.get(&place.mark).map_or(&[][..], |list| list) {
            let version = &self.receipts[at as usize].version;
            if version.key() == key && !cover(held.versions(), version) {
                return Err(Refusal::Behind);
            }
        }
        self.seen = front;
        self.readings.push(Reading { front, key: key.into(), place, held });
        Ok(())
    }

    /// Returns true if the receipts are the journal's entries of their numbers.
    fn has_entries_of(&self, journal: &Journal) -> bool {
        self.receipts.iter().all(|receipt| {
            let entry = usize::try_from(receipt.number).ok().and_then(|number| journal.entries().get(number));
            entry.is_some_and(|entry| {
                entry.seat == self.seat && entry.source == receipt.source && entry.version.is(&receipt.version)
            })
        })
    }
}

/// Returns true if the passes agree with the journal: each receipt is an entry, each entry of their seats has a
/// receipt, and each reading has the versions that the entries before it leave.
pub fn agree(passes: &[Pass], journal: &Journal) -> bool {
    let receipts: usize = passes.iter().map(|pass| pass.receipts.len()).sum();
    let entries = journal.entries().iter().filter(|entry| passes.iter().any(|pass| pass.seat == entry.seat)).count();
    receipts == entries && passes.iter().all(|pass| pass.has_entries_of(journal)) && are_read(passes, journal)
}

/// Returns true if each reading has the versions that the entries before it leave. For a reading, only the entries of
/// its key are read.
fn are_read(passes: &[Pass], journal: &Journal) -> bool {
    let mut marks: ByMark<SmallVec<[u32; 2]>> = ByMark::default();
    let readings = || passes.iter().flat_map(|pass| &pass.readings);
    if readings().next().is_none() {
        return true;
    }
    for (number, entry) in journal.entries().iter().enumerate() {
        marks.entry(Place::of(entry.version.key(), 0, Format::One).mark).or_default().push(number as u32);
    }
    readings().all(|reading| {
        let mut held = Held::default();
        for &number in marks.get(&reading.place.mark).map_or(&[][..], |list| list) {
            let version = &journal.entries()[number as usize].version;
            if u64::from(number) < reading.front && *version.key() == *reading.key && !cover(held.versions(), version) {
                held.add(version.clone());
            }
        }
        held.versions() == reading.held.versions()
    })
}
