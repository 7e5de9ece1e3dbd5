//! Packed entries of a journal (`docs/FORMATS.md`).

use std::iter;

use crate::handle::Owned;
use crate::refusal::{check, Refusal};
use crate::sys;
use crate::values::{Clock, Entry, Kind, Pair, Source, Version};

/// Size of the buffer for packed entries, in bytes. A longer first entry gets a buffer of its length.
const ROOM: u64 = 1 << 20;

/// Some entries of a journal, concatenated (`docs/FORMATS.md`).
#[derive(Clone, Debug, PartialEq, Eq, Hash)]
pub struct Packed {
    /// Bytes of the entries: none if no entry is left.
    pub bytes: Vec<u8>,
    /// Number after the last of the entries: continue there.
    pub next: u64,
}

impl Packed {
    /// Returns entries of a replica from a number on.
    pub(crate) fn read(handle: &Owned, start: u64) -> Result<Packed, Refusal> {
        let mut packed = Packed { bytes: Vec::new(), next: start };
        packed.read_on(handle)?;
        Ok(packed)
    }

    /// Replaces these entries by the ones that follow.
    fn read_on(&mut self, handle: &Owned) -> Result<(), Refusal> {
        let mut need = ROOM;
        self.bytes.clear();
        loop {
            self.bytes.reserve(need as usize);
            let (from, out, len) = (self.next, self.bytes.as_mut_ptr(), self.bytes.capacity());
            // SAFETY: as in `sys`.
            let number = unsafe {
                sys::antientropy_share_entries(&mut handle.share(), from, out, len, &mut need, &mut self.next)
            };
            match check(number) {
                Ok(()) => {
                    // SAFETY: the call has written that many bytes.
                    unsafe { self.bytes.set_len(need as usize) };
                    return Ok(());
                }
                Err(Refusal::Small) => {}
                Err(refusal) => return Err(refusal),
            }
        }
    }
}

/// The entries of a journal, which are read in batches.
pub(crate) struct Entries<'a> {
    handle: &'a Owned,
    format: u8,
    packed: Packed,
    parsed: usize,
    number: u64,
}

impl<'a> Entries<'a> {
    /// Returns the entries of a replica from a number on. `format` is the replica's format.
    pub(crate) fn of(handle: &'a Owned, format: u8, start: u64) -> Result<Entries<'a>, Refusal> {
        let packed = Packed::read(handle, start)?;
        Ok(Entries { handle, format, packed, parsed: 0, number: start })
    }

    /// Returns an iterator over the entries.
    pub(crate) fn all(self) -> impl Iterator<Item = Result<Entry, Refusal>> + 'a {
        let mut entries = Some(self);
        iter::from_fn(move || {
            let next = entries.as_mut()?.next_entry().transpose();
            if !matches!(next, Some(Ok(_))) {
                entries = None;
            }
            next
        })
    }

    fn next_entry(&mut self) -> Result<Option<Entry>, Refusal> {
        if self.parsed == self.packed.bytes.len() {
            self.packed.read_on(self.handle)?;
            self.parsed = 0;
        }
        let mut text = Text(&self.packed.bytes[self.parsed..]);
        if text.0.is_empty() {
            return Ok(None);
        }
        let entry = text.entry(self.number, self.format)?;
        self.parsed = self.packed.bytes.len() - text.0.len();
        self.number += 1;
        Ok(Some(entry))
    }
}

/// The bytes of packed entries that are left to parse. Bytes that aren't entries are refused as `RowBroken`.
struct Text<'a>(&'a [u8]);

impl<'a> Text<'a> {
    /// Returns the next entry, which has a number in a replica of a format.
    fn entry(&mut self, number: u64, format: u8) -> Result<Entry, Refusal> {
        let [source] = self.array()?;
        let key_len = u16::from_be_bytes(self.array()?);
        let key = self.bytes(key_len.into())?.to_vec();
        if u16::from_be_bytes(self.array()?) != 1 {
            return Err(Refusal::RowBroken);
        }
        let [kind] = if format == 1 { [0] } else { self.array()? };
        let clock = self.clock()?;
        let value_len = u32::from_be_bytes(self.array()?);
        let value = self.bytes(value_len as usize)?.to_vec();
        let version = Version::of(clock, (Kind::from(u64::from(kind)), value))?;
        Ok(Entry { number, key, version, source: Source::from(u64::from(source)) })
    }

    fn clock(&mut self) -> Result<Clock, Refusal> {
        let [len] = self.array()?;
        let mut pairs = Vec::with_capacity(len.into());
        for _ in 0..len {
            let node = u16::from_be_bytes(self.array()?).into();
            pairs.push(Pair { node, counter: u64::from_be_bytes(self.array()?) });
        }
        Ok(Clock::from(pairs))
    }

    /// Returns the bytes of a field.
    fn array<const N: usize>(&mut self) -> Result<[u8; N], Refusal> {
        let mut array = [0; N];
        array.copy_from_slice(self.bytes(N)?);
        Ok(array)
    }

    /// Returns the next bytes.
    fn bytes(&mut self, len: usize) -> Result<&'a [u8], Refusal> {
        let bytes = self.0.get(..len).ok_or(Refusal::RowBroken)?;
        self.0 = &self.0[len..];
        Ok(bytes)
    }
}

#[cfg(test)]
mod tests {
    use super::*;

    /// An entry of the page `docs/FORMATS.md`.
    const PAGE: &[u8] = b"\x00\x00\x01a\x00\x01\x00\x01\x00\x01\x00\x00\x00\x00\x00\x00\x00\x01\x00\x00\x00\x01x";

    #[test]
    fn entry_of_the_page() {
        let version = Version { clock: Clock::from([(1, 1)]), value: Some(b"x".to_vec()) };
        let entry = Entry { number: 9, key: b"a".to_vec(), version, source: Source::Put };
        let first = [&PAGE[..6], &PAGE[7..]].concat();
        assert_eq!(Text(PAGE).entry(9, 2).as_ref(), Ok(&entry));
        assert_eq!(Text(&first).entry(9, 1).as_ref(), Ok(&entry));
    }

    #[test]
    fn bytes_that_are_no_entry() {
        let two = [&PAGE[..5], &[2], &PAGE[6..]].concat();
        assert_eq!(Text(&two).entry(9, 2), Err(Refusal::RowBroken));
        for len in 0..PAGE.len() {
            assert_eq!(Text(&PAGE[..len]).entry(9, 2), Err(Refusal::RowBroken));
        }
    }
}
