//! A snapshot of a replica's rows.

use std::io::Write;

use crate::checkpoint::{self, CheckpointError};
use crate::handle::{bytes, written, Owned};
use crate::refusal::{check, Refusal};
use crate::rows::{row, Keys};
use crate::sys;
use crate::values::{About, Root};

/// The rows of a replica at one moment.
///
/// It serves a partner's asks while the replica changes, maybe in another thread, and may outlive the replica. Threads
/// may read it concurrently: by reference, or each by a separate snapshot, which [`share`](Snapshot::share) returns.
///
/// ```
/// use antientropy::{read_offer, Clock, Config, Replica};
/// let mut replica = Replica::new(Config::default())?;
/// replica.put(1, b"cart", b"milk", &Clock::new())?;
/// let snapshot = replica.snapshot()?;
/// let offer = snapshot.offer(7)?;
/// assert_eq!(read_offer(&offer)?.root, snapshot.root()?);
/// # Ok::<(), antientropy::Refusal>(())
/// ```
#[derive(Debug)]
pub struct Snapshot {
    handle: Owned,
    about: About,
}

impl Snapshot {
    /// Returns the snapshot of a handle.
    pub(crate) fn of(handle: Owned) -> Result<Snapshot, Refusal> {
        let about: sys::About = written(|about| {
            // SAFETY: as in `sys`.
            unsafe { sys::antientropy_share_snapshot_about(&mut handle.share(), about) }
        })?;
        Ok(Snapshot { handle, about: about.into() })
    }

    /// Returns another snapshot of the same rows. Copies no row.
    ///
    /// The last one frees the rows.
    ///
    /// ```
    /// # use antientropy::{Clock, Config, Replica};
    /// # let mut replica = Replica::new(Config::default())?;
    /// replica.put(1, b"cart", b"milk", &Clock::new())?;
    /// let snapshot = replica.snapshot()?;
    /// let shared = snapshot.share()?;
    /// let reader = std::thread::spawn(move || shared.row(b"cart"));
    /// assert_eq!(snapshot.row(b"cart")?, reader.join().unwrap()?);
    /// # Ok::<(), antientropy::Refusal>(())
    /// ```
    pub fn share(&self) -> Result<Snapshot, Refusal> {
        let mut share = self.handle.share();
        let handle = Owned::make(sys::antientropy_snapshot_free, |into| {
            // SAFETY: as in `sys`; `into` is empty and a local one.
            unsafe { sys::antientropy_share_snapshot_share(&mut share, into) }
        })?;
        Ok(Snapshot { handle, about: self.about })
    }

    /// Returns the format of the rows.
    #[must_use]
    pub fn format(&self) -> u8 {
        self.about.format
    }

    /// Returns the bits of the ring.
    #[must_use]
    pub fn bits(&self) -> u8 {
        self.about.bits
    }

    /// Returns the number of the range.
    #[must_use]
    pub fn range(&self) -> u16 {
        self.about.range
    }

    /// Returns the number of entries at the moment of the snapshot: a log continues there.
    #[must_use]
    pub fn entries(&self) -> u64 {
        self.about.entries
    }

    /// Returns the size of the rows in bytes, as [`rows`](Snapshot::rows) returns them.
    pub fn bytes(&self) -> Result<u64, Refusal> {
        written(|bytes| {
            // SAFETY: as in `sys`.
            unsafe { sys::antientropy_share_snapshot_bytes(&mut self.handle.share(), bytes) }
        })
    }

    /// Returns the digest of the root.
    pub fn root(&self) -> Result<Root, Refusal> {
        let (mut root, mut need) = (Root::default(), 0);
        // SAFETY: as in `sys`.
        check(unsafe {
            sys::antientropy_share_root(&mut self.handle.share(), root.as_mut_ptr(), root.len(), &mut need)
        })?;
        Ok(root)
    }

    /// Returns the digest of a node of the tree.
    ///
    /// The root is node 0 at depth 0; the leaves are at depth 2, or at 3 in format 2.
    ///
    /// # Errors
    ///
    /// `BadMessage` if the tree has no such node.
    pub fn digest(&self, depth: u8, index: u16) -> Result<Root, Refusal> {
        let (mut digest, mut need) = (Root::default(), 0);
        let (mut share, out, len) = (self.handle.share(), digest.as_mut_ptr(), digest.len());
        // SAFETY: as in `sys`.
        check(unsafe { sys::antientropy_share_digest(&mut share, depth.into(), index.into(), out, len, &mut need) })?;
        Ok(digest)
    }

    /// Returns the message that offers the snapshot. The caller numbers its offers.
    pub fn offer(&self, number: u32) -> Result<Vec<u8>, Refusal> {
        let mut share = self.handle.share();
        // SAFETY: as in `sys`.
        unsafe { bytes(|out, len, need| sys::antientropy_share_offer(&mut share, number, out, len, need)) }
    }

    /// Returns the answer to a partner's ask for the offer of that number.
    ///
    /// # Errors
    ///
    /// `BadMessage` or `Gone`.
    pub fn serve(&self, number: u32, ask: &[u8]) -> Result<Vec<u8>, Refusal> {
        let mut share = self.handle.share();
        // SAFETY: as in `sys`.
        unsafe {
            bytes(|out, len, need| {
                sys::antientropy_share_serve(&mut share, number, ask.as_ptr(), ask.len(), out, len, need)
            })
        }
    }

    /// Returns the texts of the rows of a leaf.
    ///
    /// # Errors
    ///
    /// `BadMessage` if the tree has no such leaf.
    pub fn rows(&self, leaf: u16) -> Result<Vec<u8>, Refusal> {
        let mut share = self.handle.share();
        // SAFETY: as in `sys`.
        unsafe { bytes(|out, len, need| sys::antientropy_share_rows(&mut share, leaf.into(), out, len, need)) }
    }

    /// Returns the text of the row of a key (`docs/FORMATS.md`), or `None` if no version is held.
    ///
    /// # Errors
    ///
    /// `BadKey`.
    pub fn row(&self, key: &[u8]) -> Result<Option<Vec<u8>>, Refusal> {
        row(&self.handle, sys::antientropy_share_snapshot_get, key)
    }

    /// Returns an iterator over the keys, leaf by leaf.
    pub fn keys(&self) -> impl Iterator<Item = Result<Vec<u8>, Refusal>> + '_ {
        Keys::of(&self.handle, sys::antientropy_share_snapshot_key_next).all()
    }

    /// Returns an iterator over the keys of a leaf, in ascending order. Its first result is a refusal as `BadMessage`
    /// if the tree has no such leaf.
    pub fn keys_of(&self, leaf: u16) -> impl Iterator<Item = Result<Vec<u8>, Refusal>> + '_ {
        Keys::of(&self.handle, sys::antientropy_share_snapshot_key_next).of_leaf(leaf)
    }

    /// Writes a checkpoint of the rows (`docs/FORMATS.md`), like [`Replica::save`](crate::Replica::save).
    pub fn save<W: Write>(&self, mut file: W) -> Result<(), CheckpointError> {
        checkpoint::save(self, &mut file)
    }
}
