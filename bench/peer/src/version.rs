//! Versions, and the versions held for a key.
use crate::clock::{Clock, Pairs, PAIRS_MAX, PAIR_BYTES};
use crate::cursor::Cursor;
use crate::format::Format;
use smallvec::SmallVec;
use std::sync::Arc;

/// The maximum number of versions of a key.
pub const VERSIONS_MAX: usize = 64;

/// The maximum length of a key, in bytes.
pub const KEY_MAX: usize = 255;

const LIVE: u8 = 0;
const TOMBSTONE: u8 = 1;

/// A version with its key, in one block of memory: the text in format 1 of a row that has only this version, and a byte
/// for its kind. Clones share the block.
#[derive(Clone, PartialEq, Eq)]
pub struct Version(Arc<[u8]>);

/// The block of a version in the making. Blocks of short values are made on the stack.
type Block = SmallVec<[u8; 0x600]>;

/// Begins the block of a version whose text has `len` bytes.
fn begin(key: &[u8], len: usize) -> Block {
    let mut block = Block::with_capacity(2 + key.len() + 2 + len + 1);
    block.extend_from_slice(&(key.len() as u16).to_be_bytes());
    block.extend_from_slice(key);
    block.extend_from_slice(&1_u16.to_be_bytes());
    block
}

/// Returns the number of bytes of a kind in a version's text.
fn kind_bytes(format: Format) -> usize {
    usize::from(format == Format::Two)
}

impl Version {
    /// Makes a version. `None` as its value is a tombstone.
    pub fn new(key: &[u8], clock: &Clock, value: Option<&[u8]>) -> Version {
        let kind = if value.is_some() { LIVE } else { TOMBSTONE };
        let (pairs, value) = (clock.pairs(), value.unwrap_or_default());
        let mut block = begin(key, 5 + pairs.bytes().len() + value.len());
        block.push(pairs.len() as u8);
        block.extend_from_slice(pairs.bytes());
        block.extend_from_slice(&(value.len() as u32).to_be_bytes());
        block.extend_from_slice(value);
        block.push(kind);
        Version(Arc::from(block.as_slice()))
    }

    /// Reads the text of a version of a key. Returns `None` if the text is broken.
    fn read(key: &[u8], format: Format, cursor: &mut Cursor) -> Option<Version> {
        let kind = match format {
            Format::One => LIVE,
            Format::Two => cursor.u8().filter(|&kind| kind <= TOMBSTONE)?,
        };
        let start = cursor.rest();
        let count = cursor.u8().filter(|&count| usize::from(count) <= PAIRS_MAX)?;
        let mut last = 0;
        for (node, counter) in Pairs::of_text(cursor.take(usize::from(count) * PAIR_BYTES)?).iter() {
            if node <= last || counter == 0 {
                return None;
            }
            last = node;
        }
        let len = cursor.u32()? as usize;
        if len > format.value_max() || (kind == TOMBSTONE && len > 0) {
            return None;
        }
        cursor.take(len)?;
        let text = &start[..start.len() - cursor.rest().len()];
        let mut block = begin(key, text.len());
        block.extend_from_slice(text);
        block.push(kind);
        Some(Version(Arc::from(block.as_slice())))
    }

    /// Returns the key.
    pub fn key(&self) -> &[u8] {
        &self.0[2..2 + self.key_len()]
    }

    fn key_len(&self) -> usize {
        usize::from(self.0[1])
    }

    /// Returns the text in format 1 of a row that has only this version.
    fn row(&self) -> &[u8] {
        &self.0[..self.0.len() - 1]
    }

    /// Returns the key's length and the key, as a row's text begins with them.
    fn row_start(&self) -> &[u8] {
        &self.0[..2 + self.key_len()]
    }

    /// Reads the first and the last byte of the block.
    pub fn read_ends(&self) -> u8 {
        self.0[0] ^ self.kind()
    }

    fn kind(&self) -> u8 {
        self.0[self.0.len() - 1]
    }

    /// Returns the version's text without its kind.
    fn text(&self) -> &[u8] {
        &self.row()[4 + self.key_len()..]
    }

    /// Returns the parts of the version's text in format 2, by which the versions of a key are ordered.
    fn order(&self) -> (u8, &[u8]) {
        (self.kind(), self.text())
    }

    /// Returns the version's clock.
    pub fn clock(&self) -> Pairs<'_> {
        let text = self.text();
        Pairs::of_text(&text[1..=usize::from(text[0]) * PAIR_BYTES])
    }

    /// Returns the version's value, `None` for a tombstone.
    pub fn value(&self) -> Option<&[u8]> {
        let text = self.text();
        (self.kind() == LIVE).then(|| &text[5 + usize::from(text[0]) * PAIR_BYTES..])
    }

    /// Returns true if the version is below another one.
    fn is_below(&self, other: &Version) -> bool {
        self.clock() != other.clock() && self.clock().at_most(other.clock())
    }

    /// Returns true if both are one version of one key.
    pub fn is(&self, other: &Version) -> bool {
        Arc::ptr_eq(&self.0, &other.0) || self.0 == other.0
    }
}

/// The versions held for a key, in ascending order of their texts. None is below another.
#[derive(Clone, Default)]
pub struct Held(SmallVec<[Version; 1]>);

impl Held {
    /// Returns the set of one version.
    pub fn one(version: Version) -> Held {
        Held(SmallVec::from([version]))
    }

    /// Returns the versions.
    pub fn versions(&self) -> &[Version] {
        &self.0
    }

    /// Adds a version that the set doesn't cover, and drops the versions below it.
    pub fn add(&mut self, version: Version) {
        if let [held] = self.0.as_mut_slice() {
            if held.is_below(&version) {
                *held = version;
                return;
            }
        }
        self.0.retain(|held| !held.is_below(&version));
        let at = self.0.partition_point(|held| held.order() < version.order());
        self.0.insert(at, version);
    }
}

/// Returns true if a held version has seen this clock.
pub fn have_seen(held: &[Version], clock: Pairs) -> bool {
    held.iter().any(|version| clock.at_most(version.clock()))
}

/// Returns true if the held versions cover a version of their key.
pub fn cover(held: &[Version], version: &Version) -> bool {
    held.iter().any(|held| held.is(version) || version.is_below(held))
}

/// Returns the number of held versions that are below none of the new ones.
pub fn count_kept(held: &[Version], new: &[Version]) -> usize {
    held.iter().filter(|held| !new.iter().any(|version| held.is_below(version))).count()
}

/// Appends the text of a row. A row has at least one version.
pub fn write_row(versions: &[Version], format: Format, out: &mut Vec<u8>) {
    if let ([version], Format::One) = (versions, format) {
        out.extend_from_slice(version.row());
        return;
    }
    out.extend_from_slice(versions[0].row_start());
    out.extend_from_slice(&(versions.len() as u16).to_be_bytes());
    for version in versions {
        out.extend_from_slice(&[version.kind()][..kind_bytes(format)]);
        out.extend_from_slice(version.text());
    }
}

/// Returns the length of a row's text, in bytes.
pub fn row_len(versions: &[Version], format: Format) -> usize {
    if let [version] = versions {
        return version.row().len() + kind_bytes(format);
    }
    let texts: usize = versions.iter().map(|version| kind_bytes(format) + version.text().len()).sum();
    versions[0].row_start().len() + 2 + texts
}

/// Returns the bytes after the text of this row, or `None` if the bytes don't begin with it.
pub fn strip_row<'a>(bytes: &'a [u8], versions: &[Version], format: Format) -> Option<&'a [u8]> {
    if let ([version], Format::One) = (versions, format) {
        return bytes.strip_prefix(version.row());
    }
    let mut rest = bytes.strip_prefix(versions[0].row_start())?;
    rest = rest.strip_prefix(&(versions.len() as u16).to_be_bytes())?;
    for version in versions {
        rest = rest.strip_prefix(&[version.kind()][..kind_bytes(format)])?;
        rest = rest.strip_prefix(version.text())?;
    }
    Some(rest)
}

/// Returns the key at the beginning of a row's text, or `None` if it is broken.
pub fn read_key<'a>(cursor: &mut Cursor<'a>) -> Option<&'a [u8]> {
    let len = usize::from(cursor.u16()?);
    if len == 0 || len > KEY_MAX {
        return None;
    }
    cursor.take(len)
}

/// Reads the text of a row. Returns `None` if it is broken.
pub fn read_row(cursor: &mut Cursor, format: Format) -> Option<Vec<Version>> {
    let key = read_key(cursor)?;
    let count = usize::from(cursor.u16()?);
    if count == 0 || count > VERSIONS_MAX {
        return None;
    }
    let mut versions: Vec<Version> = Vec::with_capacity(count);
    for _ in 0..count {
        let version = Version::read(key, format, cursor)?;
        let ascends = versions.last().is_none_or(|last| last.order() < version.order());
        if !ascends || versions.iter().any(|other| other.is_below(&version) || version.is_below(other)) {
            return None;
        }
        versions.push(version);
    }
    Some(versions)
}
