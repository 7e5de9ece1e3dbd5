//! The rows of a leaf.
use crate::format::Format;
use crate::version::{row_len, write_row, Held, Version};
use std::cmp::Ordering;
use std::hint::black_box;
use std::sync::Arc;

/// The maximum number of rows of a chunk.
const CHUNK_ROWS: usize = 32;

/// The first 16 bytes of a key, filled up with zeros. They are in the row, so that most comparisons of keys read no
/// other memory.
#[derive(Clone, Copy, PartialEq, Eq, PartialOrd, Ord)]
struct Head(u64, u64);

impl Head {
    fn of(key: &[u8]) -> Head {
        let mut bytes = [0; 16];
        let len = key.len().min(16);
        bytes[..len].copy_from_slice(&key[..len]);
        let head = u128::from_be_bytes(bytes);
        Head((head >> 64) as u64, head as u64)
    }
}

/// A key's head, and the versions held for it. There is at least one.
#[derive(Clone)]
struct Row {
    head: Head,
    held: Held,
}

impl Row {
    fn key(&self) -> &[u8] {
        self.held.versions()[0].key()
    }

    fn compare(&self, head: Head, key: &[u8]) -> Ordering {
        self.head.cmp(&head).then_with(|| self.key().cmp(key))
    }
}

/// Consecutive rows, at least one. Copies share them until one of both is changed.
#[derive(Clone)]
struct Chunk {
    first: Head,
    rows: Arc<Vec<Row>>,
}

impl Chunk {
    fn iter(&self) -> impl Iterator<Item = &[Version]> {
        self.rows.iter().map(|row| row.held.versions())
    }

    /// Appends the texts of the rows. The blocks of the versions are in no order in memory, so both ends of each are
    /// read first: unlike the copies, these reads don't wait for each other.
    fn write_text(&self, format: Format, out: &mut Vec<u8>) {
        black_box(self.iter().fold(0, |read, versions| read ^ versions[0].read_ends()));
        for versions in self.iter() {
            write_row(versions, format, out);
        }
    }
}

/// The rows of a leaf in ascending order of key.
#[derive(Clone, Default)]
pub struct Rows {
    chunks: Vec<Chunk>,
}

/// The place of a key among the rows.
#[derive(Clone, Copy)]
pub struct Spot {
    head: Head,
    chunk: usize,
    row: usize,
    is_held: bool,
}

impl Rows {
    /// Finds the place of a key.
    pub fn find(&self, key: &[u8]) -> Spot {
        let head = Head::of(key);
        let behind = self.chunks.partition_point(|chunk| match chunk.first.cmp(&head) {
            Ordering::Less => true,
            Ordering::Equal => chunk.rows[0].key() <= key,
            Ordering::Greater => false,
        });
        let chunk = behind.saturating_sub(1);
        let found = match self.chunks.get(chunk) {
            Some(chunk) => chunk.rows.binary_search_by(|row| row.compare(head, key)),
            None => Err(0),
        };
        let (row, is_held) = match found {
            Ok(row) => (row, true),
            Err(row) => (row, false),
        };
        Spot { head, chunk, row, is_held }
    }

    /// Returns the versions held at a place.
    pub fn held(&self, spot: Spot) -> &[Version] {
        if spot.is_held {
            self.chunks[spot.chunk].rows[spot.row].held.versions()
        } else {
            &[]
        }
    }

    /// Returns a copy of the versions held for a key.
    pub fn get(&self, key: &[u8]) -> Held {
        let spot = self.find(key);
        if spot.is_held {
            self.chunks[spot.chunk].rows[spot.row].held.clone()
        } else {
            Held::default()
        }
    }

    /// Adds a version at the place of its key. The versions there don't cover it.
    pub fn add(&mut self, spot: Spot, version: Version) {
        if spot.is_held {
            let rows = Arc::make_mut(&mut self.chunks[spot.chunk].rows);
            rows[spot.row].held.add(version);
        } else {
            self.insert(spot, Row { head: spot.head, held: Held::one(version) });
        }
    }

    fn insert(&mut self, spot: Spot, row: Row) {
        let Some(chunk) = self.chunks.get_mut(spot.chunk) else {
            let mut rows = Vec::with_capacity(CHUNK_ROWS);
            rows.push(row);
            self.chunks.push(Chunk { first: spot.head, rows: Arc::new(rows) });
            return;
        };
        let rows = Arc::make_mut(&mut chunk.rows);
        let mut upper = None;
        if rows.len() < CHUNK_ROWS {
            rows.insert(spot.row, row);
        } else {
            let mut split = Vec::with_capacity(CHUNK_ROWS);
            split.extend(rows.drain(CHUNK_ROWS / 2..));
            if spot.row <= rows.len() {
                rows.insert(spot.row, row);
            } else {
                split.insert(spot.row - rows.len(), row);
            }
            upper = Some(Chunk { first: split[0].head, rows: Arc::new(split) });
        }
        chunk.first = rows[0].head;
        if let Some(upper) = upper {
            self.chunks.insert(spot.chunk + 1, upper);
        }
    }

    /// Returns the versions of each row.
    pub fn iter(&self) -> impl Iterator<Item = &[Version]> {
        self.chunks.iter().flat_map(Chunk::iter)
    }

    /// Appends the texts of the rows.
    pub fn write_text(&self, format: Format, out: &mut Vec<u8>) {
        out.reserve(self.iter().map(|versions| row_len(versions, format)).sum());
        for chunk in &self.chunks {
            chunk.write_text(format, out);
        }
    }

    /// Passes the texts of the rows to a function, in pieces.
    pub fn read_text(&self, format: Format, mut read: impl FnMut(&[u8])) {
        let mut piece = Vec::new();
        for chunk in &self.chunks {
            piece.clear();
            chunk.write_text(format, &mut piece);
            read(&piece);
        }
    }
}
