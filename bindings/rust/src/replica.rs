//! A replica of a range.

use std::error::Error;
use std::fmt;
use std::io::{Read, Write};

use crate::checkpoint::{self, CheckpointError};
use crate::exchange::Exchange;
use crate::handle::{bytes, clock, value, written, Owned, CLOCK_MAX};
use crate::moment::at_moment;
use crate::packed::{Entries, Packed};
use crate::portion::Portion;
use crate::refusal::{check, found, Refusal};
use crate::renewal;
use crate::rows::{row, Keys};
use crate::snapshot::Snapshot;
use crate::sync::{self, Synced};
use crate::sys;
use crate::values::{
    kind_of, About, Bounds, Bytes, Clock, Counts, Entry, Kind, Loaded, Pair, Receipt, Root, Source, Version,
};

/// A call that puts a version.
type PutCall = unsafe extern "C" fn(
    *mut sys::Handle,
    u64,
    *const u8,
    usize,
    *const Pair,
    usize,
    u8,
    *const u8,
    usize,
    *mut Receipt,
) -> u32;

/// A call that makes a snapshot.
type SnapshotCall = unsafe extern "C" fn(*mut sys::Handle, *mut sys::Handle) -> u32;

/// The numbers of a new replica.
///
/// ```
/// use antientropy::{Config, Replica};
/// let mut replica = Replica::new(Config { bits: 4, range: 9, ..Config::default() })?;
/// let about = replica.about()?;
/// assert_eq!((about.format, about.bits, about.range), (2, 4, 9));
/// # Ok::<(), antientropy::Refusal>(())
/// ```
#[derive(Clone, Copy, Debug, PartialEq, Eq, Hash)]
pub struct Config {
    /// Format of the tree: 1 (256 leaves, no tombstones) or 2 (4,096 leaves).
    pub format: u8,
    /// Bits of the ring, which has 2^bits ranges: 0 to 8.
    pub bits: u8,
    /// Number of the range, from 0.
    pub range: u16,
    /// Maximum number of the journal's entries, 1 to 1,000,000.
    pub limit: u64,
}

/// The one range of a ring of 0 bits, in format 2, with the greatest limit.
impl Default for Config {
    fn default() -> Config {
        Config { format: 2, bits: 0, range: 0, limit: 1_000_000 }
    }
}

/// A replica of one range of a ring.
///
/// A call that takes `&self` reads the replica, and threads may read it concurrently. A lock around a replica lets
/// threads share it, best an [`RwLock`](std::sync::RwLock): [`snapshot_beside`](crate::snapshot_beside) and
/// [`sync_beside`](crate::sync_beside) unlock it while they hash.
///
/// ```
/// use antientropy::{merge, Clock, Config, Replica};
/// let mut replica = Replica::new(Config::default())?;
/// replica.put(1, b"cart", b"milk", &Clock::new())?;
/// let versions = replica.get(b"cart")?;
/// let context = merge(versions.iter().map(|version| &version.clock))?;
/// replica.put(1, b"cart", b"milk, eggs", &context)?;
/// assert_eq!(replica.get(b"cart")?.len(), 1);
/// # Ok::<(), antientropy::Refusal>(())
/// ```
#[derive(Debug)]
pub struct Replica {
    pub(crate) handle: Owned,
    /// Number of entries that the last renewal left: 0 before the first one.
    held: u64,
}

impl Replica {
    /// Makes an empty replica.
    ///
    /// # Errors
    ///
    /// `BadRing` if a number is outside its limits.
    pub fn new(config: Config) -> Result<Replica, Refusal> {
        let Config { format, bits, range, limit } = config;
        let handle = Owned::make(sys::antientropy_free, |raw| {
            // SAFETY: the handle is empty and a local one.
            unsafe { sys::antientropy_new(raw, format.into(), bits.into(), range.into(), limit) }
        })?;
        Ok(Replica { handle, held: 0 })
    }

    /// Makes an empty replica with a seed for the hash of keys.
    ///
    /// Random words make it hard for clients to choose keys with equal hashes, which are slow to find.
    ///
    /// # Errors
    ///
    /// `BadRing` if a number is outside its limits.
    pub fn seeded(config: Config, seed: [u64; 2]) -> Result<Replica, Refusal> {
        let Config { format, bits, range, limit } = config;
        let [first, second] = seed;
        let handle = Owned::make(sys::antientropy_free, |raw| {
            // SAFETY: the handle is empty and a local one.
            unsafe { sys::antientropy_new_seeded(raw, format.into(), bits.into(), range.into(), limit, first, second) }
        })?;
        Ok(Replica { handle, held: 0 })
    }

    /// Returns a new replica with the held versions: one entry for each, as a copy, and no sessions.
    ///
    /// Entry numbers continue: both replicas have the same entry count, and the next entry gets a number that was never
    /// used. Session numbers continue, too. This replica is unchanged: drop it, and use the new one under the same node
    /// number. Takes time in proportion to the rows.
    ///
    /// # Errors
    ///
    /// `BadRing` (the limit) or `JournalFull` (more versions are held than the limit, or no numbers are left).
    pub fn renew(&self, limit: u64) -> Result<Replica, Refusal> {
        let mut share = self.handle.share();
        let handle = Owned::make(sys::antientropy_free, |into| {
            // SAFETY: as in `sys`; `into` is empty and a local one.
            unsafe { sys::antientropy_share_renew(&mut share, into, limit) }
        })?;
        let mut renewed = Replica { handle, held: 0 };
        renewed.note_renewed()?;
        Ok(renewed)
    }

    /// Renews the replica like [`renew`](Replica::renew), but in place. Drops its sessions and its moment.
    ///
    /// [`renew_beside`](crate::renew_beside) does it while other threads put.
    ///
    /// # Errors
    ///
    /// `BadRing` (the limit) or `JournalFull` (more versions are held than the limit, or no numbers are left). A
    /// refusal leaves the replica unchanged, except its moment.
    pub fn renew_in_place(&mut self, limit: u64) -> Result<(), Refusal> {
        renewal::renew(self, limit)
    }

    /// Returns true if a renewal is due: at nine tenths of the limit, once half of the space that the last renewal left
    /// is used. This keeps a journal that its rows fill from being renewed again and again.
    ///
    /// ```
    /// use antientropy::{Clock, Config, Replica};
    /// let mut replica = Replica::new(Config { limit: 10, ..Config::default() })?;
    /// let mut context = Clock::new();
    /// while !replica.is_renewal_due()? {
    ///     let receipt = replica.put(1, b"cart", b"milk", &context)?;
    ///     context = Clock::from([(1, receipt.counter)]);
    /// }
    /// assert_eq!(replica.count()?.entries, 9);
    /// replica.renew_in_place(10)?;
    /// assert_eq!((replica.count()?.entries, replica.count()?.first), (9, 8));
    /// # Ok::<(), antientropy::Refusal>(())
    /// ```
    pub fn is_renewal_due(&self) -> Result<bool, Refusal> {
        let Counts { entries, first, limit, .. } = self.count()?;
        let used = entries - first;
        Ok(used * 10 >= limit * 9 && used > self.held && (used - self.held) * 2 >= limit - self.held)
    }

    /// Records the journal's length after a renewal.
    pub(crate) fn note_renewed(&mut self) -> Result<(), Refusal> {
        let Counts { entries, first, .. } = self.count()?;
        self.held = entries - first;
        Ok(())
    }

    /// Converts a replica of format 1 to format 2. All nodes become dirty, open sessions are cancelled, and the moment
    /// is dropped.
    pub fn migrate(&mut self) -> Result<(), Refusal> {
        // SAFETY: as in `sys`.
        check(unsafe { sys::antientropy_migrate(self.handle.raw()) })
    }

    /// Returns the format, the range and the number of entries: the identity to store in a checkpoint or a log.
    pub fn about(&self) -> Result<About, Refusal> {
        let about: sys::About = written(|about| {
            // SAFETY: as in `sys`.
            unsafe { sys::antientropy_share_about(&mut self.handle.share(), about) }
        })?;
        Ok(about.into())
    }

    /// Returns the counts of entries, dirty nodes and sessions.
    pub fn count(&self) -> Result<Counts, Refusal> {
        written(|counts| {
            // SAFETY: as in `sys`.
            unsafe { sys::antientropy_share_count(&mut self.handle.share(), counts) }
        })
    }

    /// Returns the size of the rows, of the journal and of the sessions' additional contents.
    ///
    /// It visits each chunk of 15 rows and the digests of each session's leaves: call it every few seconds, not at each
    /// put.
    pub fn bytes(&self) -> Result<Bytes, Refusal> {
        written(|bytes| {
            // SAFETY: as in `sys`.
            unsafe { sys::antientropy_share_bytes(&mut self.handle.share(), bytes) }
        })
    }
}

/// Versions.
impl Replica {
    /// Puts a value at a node, after a read: the context is the merged clock of the versions read.
    ///
    /// The new version replaces each held version whose clock is at most its clock. The client has read each of these:
    /// `StaleContext` means that a held version has a greater counter of the node than the context, so another client
    /// has put in between; read again.
    ///
    /// # Errors
    ///
    /// `BadClock`, `ClockFull`, `BadKey`, `BadValue`, `OtherRange`, `CounterFull`, `StaleContext`, `Crowded` or
    /// `JournalFull`.
    pub fn put(&mut self, node: u16, key: &[u8], value: &[u8], context: &Clock) -> Result<Receipt, Refusal> {
        self.put_by(sys::antientropy_put_read, node, key, Some(value), context)
    }

    /// Puts a tombstone at a node, after a read, like [`put`](Replica::put).
    ///
    /// # Errors
    ///
    /// As of `put`, and `BadValue` in format 1, which has no tombstones.
    pub fn delete(&mut self, node: u16, key: &[u8], context: &Clock) -> Result<Receipt, Refusal> {
        self.put_by(sys::antientropy_put_read, node, key, None, context)
    }

    /// Puts like [`put`](Replica::put), without its check, which the caller must make.
    ///
    /// The new version replaces even a held version that the client hasn't read.
    ///
    /// # Errors
    ///
    /// As of `put`, but `StaleContext` only if a held version's clock includes the new version's.
    pub fn put_unread(&mut self, node: u16, key: &[u8], value: &[u8], context: &Clock) -> Result<Receipt, Refusal> {
        self.put_by(sys::antientropy_put, node, key, Some(value), context)
    }

    /// Puts a tombstone like [`put_unread`](Replica::put_unread).
    ///
    /// # Errors
    ///
    /// As of `put_unread`, and `BadValue` in format 1, which has no tombstones.
    pub fn delete_unread(&mut self, node: u16, key: &[u8], context: &Clock) -> Result<Receipt, Refusal> {
        self.put_by(sys::antientropy_put, node, key, None, context)
    }

    /// Makes one of the two calls that put.
    fn put_by(
        &mut self,
        call: PutCall,
        node: u16,
        key: &[u8],
        value: Option<&[u8]>,
        context: &Clock,
    ) -> Result<Receipt, Refusal> {
        let (kind, data, pairs) = (kind_of(value).number() as u8, value.unwrap_or_default(), context.pairs());
        written(|receipt| {
            // SAFETY: as in `sys`.
            unsafe {
                call(
                    self.handle.raw(),
                    node.into(),
                    key.as_ptr(),
                    key.len(),
                    pairs.as_ptr(),
                    pairs.len(),
                    kind,
                    data.as_ptr(),
                    data.len(),
                    receipt,
                )
            }
        })
    }

    /// Accepts a version of another replica, as a copy. Returns false if it was known.
    ///
    /// # Errors
    ///
    /// `BadClock`, `ClockFull`, `BadKey`, `BadValue`, `OtherRange`, `Crowded` or `JournalFull`.
    pub fn accept(&mut self, key: &[u8], version: &Version) -> Result<bool, Refusal> {
        let (kind, data) = (version.kind().number() as u8, version.value.as_deref().unwrap_or_default());
        let pairs = version.clock.pairs();
        let taken: u64 = written(|taken| {
            // SAFETY: as in `sys`.
            unsafe {
                sys::antientropy_accept(
                    self.handle.raw(),
                    key.as_ptr(),
                    key.len(),
                    pairs.as_ptr(),
                    pairs.len(),
                    kind,
                    data.as_ptr(),
                    data.len(),
                    taken,
                )
            }
        })?;
        Ok(taken != 0)
    }

    /// Returns all versions held for a key. Several versions are concurrent.
    pub fn get(&self, key: &[u8]) -> Result<Vec<Version>, Refusal> {
        let mut versions = Vec::new();
        while let Some((version, held)) = self.read_counted(key, versions.len() as u64)? {
            versions.push(version);
            if versions.len() as u64 == held {
                break;
            }
        }
        Ok(versions)
    }

    /// Returns the text of the row of a key (`docs/FORMATS.md`), or `None` if no version is held.
    ///
    /// # Errors
    ///
    /// `BadKey`.
    pub fn row(&self, key: &[u8]) -> Result<Option<Vec<u8>>, Refusal> {
        row(&self.handle, sys::antientropy_share_get, key)
    }

    /// Returns an iterator over the keys, leaf by leaf.
    ///
    /// ```
    /// # use antientropy::{Clock, Config, Replica};
    /// # let mut replica = Replica::new(Config::default())?;
    /// replica.put(1, b"cart", b"milk", &Clock::new())?;
    /// let keys: Result<Vec<_>, _> = replica.keys().collect();
    /// assert_eq!(keys?, [b"cart"]);
    /// # Ok::<(), antientropy::Refusal>(())
    /// ```
    pub fn keys(&self) -> impl Iterator<Item = Result<Vec<u8>, Refusal>> + '_ {
        Keys::of(&self.handle, sys::antientropy_share_key_next).all()
    }

    /// Returns an iterator over the keys of a leaf, in ascending order. Its first result is a refusal as `BadMessage`
    /// if the tree has no such leaf.
    pub fn keys_of(&self, leaf: u16) -> impl Iterator<Item = Result<Vec<u8>, Refusal>> + '_ {
        Keys::of(&self.handle, sys::antientropy_share_key_next).of_leaf(leaf)
    }

    /// Returns one of the versions held for a key, with the number of all.
    fn read_counted(&self, key: &[u8], index: u64) -> Result<Option<(Version, u64)>, Refusal> {
        let (mut share, at, key_len) = (self.handle.share(), key.as_ptr(), key.len());
        let mut reading = sys::Reading::default();
        let mut pairs = [Pair::default(); CLOCK_MAX];
        // SAFETY: as in `sys`. The pairs always fit, so SMALL means that the value doesn't.
        let value = found(unsafe {
            bytes(|out, len, need| {
                let to = pairs.as_mut_ptr();
                let number =
                    sys::antientropy_share_read(&mut share, at, key_len, index, &mut reading, to, CLOCK_MAX, out, len);
                *need = reading.bytes;
                number
            })
        })?;
        value
            .map(|value| {
                let clock = Clock::from(pairs[..reading.pairs as usize].to_vec());
                Ok((Version::of(clock, (Kind::from(reading.kind), value))?, reading.versions))
            })
            .transpose()
    }
}

/// The journal.
impl Replica {
    /// Returns an entry of the journal, by its number.
    pub fn entry(&self, number: u64) -> Result<Option<Entry>, Refusal> {
        found(self.entry_parts(number))
    }

    /// Returns an iterator over the entries of the journal, from a number on. It ends after a refusal.
    ///
    /// A log reads from its count of entries. A renewal skips no entry for a log that had all of them.
    ///
    /// ```
    /// # use antientropy::{Clock, Config, Replica};
    /// # let mut replica = Replica::new(Config::default())?;
    /// replica.put(1, b"cart", b"milk", &Clock::new())?;
    /// let logged = replica.count()?.entries;
    /// replica.put(1, b"gift", b"wrapped", &Clock::new())?;
    /// for entry in replica.entries(logged)? {
    ///     assert_eq!(entry?.key, b"gift");
    /// }
    /// # Ok::<(), antientropy::Refusal>(())
    /// ```
    ///
    /// # Errors
    ///
    /// `BadPosition` if the number is over the count of entries, or below the count at the last renewal: entries were
    /// missed, or the number belongs to another replica. Read from [`Counts::first`], which returns the whole journal.
    pub fn entries(&self, start: u64) -> Result<impl Iterator<Item = Result<Entry, Refusal>> + '_, Refusal> {
        let format = self.about()?.format;
        Ok(Entries::of(&self.handle, format, start)?.all())
    }

    /// Returns some entries of the journal, from a number on, packed: about 1 MiB, and at least one if any is left.
    ///
    /// ```
    /// # use std::io::Write;
    /// # use antientropy::{Clock, Config, Replica};
    /// # let (mut replica, mut log, mut logged) = (Replica::new(Config::default())?, Vec::new(), 0);
    /// replica.put(1, b"cart", b"milk", &Clock::new())?;
    /// loop {
    ///     let packed = replica.packed_entries(logged)?;
    ///     if packed.bytes.is_empty() {
    ///         break;
    ///     }
    ///     log.write_all(&packed.bytes)?;
    ///     logged = packed.next;
    /// }
    /// assert_eq!((logged, log.len()), (1, 29));
    /// # Ok::<(), Box<dyn std::error::Error>>(())
    /// ```
    ///
    /// # Errors
    ///
    /// As of [`entries`](Replica::entries).
    pub fn packed_entries(&self, start: u64) -> Result<Packed, Refusal> {
        let mut packed = Packed::read(&self.handle, start)?;
        packed.bytes.shrink_to_fit();
        Ok(packed)
    }

    /// Returns the greatest counter of a node in the clocks of a key's versions, or 0.
    ///
    /// It looks at the journal's entries of numbers below `entries`, or at all if there are fewer.
    ///
    /// ```
    /// # use antientropy::{Clock, Config, Replica};
    /// # let mut replica = Replica::new(Config::default())?;
    /// replica.put(1, b"cart", b"milk", &Clock::new())?;
    /// assert_eq!(replica.top_counter(1, b"cart", u64::MAX)?, 1);
    /// # Ok::<(), antientropy::Refusal>(())
    /// ```
    ///
    /// # Errors
    ///
    /// `BadClock` if the node is 0.
    pub fn top_counter(&self, node: u16, key: &[u8], entries: u64) -> Result<u64, Refusal> {
        let (node, at, key_len) = (node.into(), key.as_ptr(), key.len());
        written(|counter| {
            // SAFETY: as in `sys`.
            unsafe { sys::antientropy_share_top_counter(&mut self.handle.share(), node, at, key_len, entries, counter) }
        })
    }

    fn entry_parts(&self, number: u64) -> Result<Entry, Refusal> {
        let mut share = self.handle.share();
        // SAFETY: as in `sys`, for the four calls.
        let (key, value, clock, source): (_, _, _, u64) = unsafe {
            (
                bytes(|out, len, need| sys::antientropy_share_entry_key(&mut share, number, out, len, need))?,
                value(|kind, out, len, need| {
                    sys::antientropy_share_entry_value(&mut share, number, kind, out, len, need)
                })?,
                clock(|out, len, need| sys::antientropy_share_entry_clock(&mut share, number, out, len, need))?,
                written(|source| sys::antientropy_share_entry_source(&mut share, number, source))?,
            )
        };
        Ok(Entry { number, key, version: Version::of(clock, value)?, source: Source::from(source) })
    }
}

/// The tree, offers and checkpoints.
impl Replica {
    /// Hashes all nodes of the tree that have no digest. Only `snapshot_if_clean` requires it.
    pub fn rehash(&mut self) -> Result<(), Refusal> {
        // SAFETY: as in `sys`.
        check(unsafe { sys::antientropy_rehash(self.handle.raw()) })
    }

    /// Hashes at most `most` of the nodes that have no digest though all their children have one.
    ///
    /// Returns the number of nodes still without one. Repeat it until it returns 0; other calls may be made in between.
    ///
    /// ```
    /// # use antientropy::{Clock, Config, Replica};
    /// # let mut replica = Replica::new(Config::default())?;
    /// replica.put(1, b"cart", b"milk", &Clock::new())?;
    /// while replica.rehash_some(100)? > 0 {}
    /// replica.snapshot_if_clean()?;
    /// # Ok::<(), antientropy::Refusal>(())
    /// ```
    pub fn rehash_some(&mut self, most: u64) -> Result<u64, Refusal> {
        written(|left| {
            // SAFETY: as in `sys`.
            unsafe { sys::antientropy_rehash_some(self.handle.raw(), most, left) }
        })
    }

    /// Returns a snapshot of the current rows. Hashes the nodes that have no digest, and drops the moment.
    pub fn snapshot(&mut self) -> Result<Snapshot, Refusal> {
        at_moment(self, |replica| replica.moment())
    }

    /// Returns a snapshot of the current rows.
    ///
    /// # Errors
    ///
    /// `Dirty` if a node has no digest.
    pub fn snapshot_if_clean(&self) -> Result<Snapshot, Refusal> {
        self.snapshot_by(sys::antientropy_share_snapshot)
    }

    /// Makes one of the two calls that make a snapshot.
    fn snapshot_by(&self, call: SnapshotCall) -> Result<Snapshot, Refusal> {
        let mut share = self.handle.share();
        let handle = Owned::make(sys::antientropy_snapshot_free, |into| {
            // SAFETY: as in `sys`; `into` is empty and a local one.
            unsafe { call(&mut share, into) }
        })?;
        Snapshot::of(handle)
    }

    /// Returns the digest of the current root. Replicas of a range with equal roots hold the same versions.
    pub fn root(&mut self) -> Result<Root, Refusal> {
        self.snapshot()?.root()
    }

    /// Accepts all versions in rows of one leaf as copies, or none of them.
    ///
    /// [`Snapshot::rows`] and [`Replica::row`] return such rows.
    ///
    /// # Errors
    ///
    /// `RowBroken`, `OtherRange`, `Crowded` or `JournalFull`.
    pub fn load_rows(&mut self, rows: &[u8]) -> Result<Loaded, RowsRefused> {
        let handle = self.handle.raw();
        loaded(|loaded| {
            // SAFETY: as in `sys`.
            unsafe { sys::antientropy_load(handle, rows.as_ptr(), rows.len(), loaded) }
        })
    }

    /// Accepts all versions in rows of a format and of any leaves, in ascending order of key, as copies, or none of
    /// them. A replica of format 2 loads rows of format 1 too.
    ///
    /// # Errors
    ///
    /// `BadRing` (the format is neither 1 nor 2), `OtherFormat` (rows of format 2, replica of format 1), `RowBroken`,
    /// `OtherRange`, `Crowded` or `JournalFull`.
    pub fn load_format(&mut self, format: u8, rows: &[u8]) -> Result<Loaded, RowsRefused> {
        let handle = self.handle.raw();
        loaded(|loaded| {
            // SAFETY: as in `sys`.
            unsafe { sys::antientropy_load_format(handle, format.into(), rows.as_ptr(), rows.len(), loaded) }
        })
    }

    /// Writes a checkpoint of the current rows (`docs/FORMATS.md`). Returns the number of entries that it includes.
    ///
    /// Each leaf is written separately: pass a file in a [`BufWriter`](std::io::BufWriter). The caller syncs the file
    /// to its disk, and renames it. A log continues at the entry of the number returned.
    ///
    /// ```
    /// # use antientropy::{Clock, Config, Replica};
    /// # let mut replica = Replica::new(Config::default())?;
    /// # replica.put(1, b"cart", b"milk", &Clock::new())?;
    /// let mut file = Vec::new();
    /// assert_eq!(replica.save(&mut file)?, 1);
    /// let mut loaded = Replica::load(&mut file.as_slice(), 1_000_000)?;
    /// assert_eq!(loaded.root()?, replica.root()?);
    /// # Ok::<(), Box<dyn std::error::Error>>(())
    /// ```
    pub fn save<W: Write>(&mut self, file: W) -> Result<u64, CheckpointError> {
        let snapshot = self.snapshot()?;
        snapshot.save(file)?;
        Ok(snapshot.entries())
    }

    /// Returns a new replica with the rows of a checkpoint, and a journal of at most `limit` entries.
    ///
    /// Pass a file in a [`BufReader`](std::io::BufReader). The root detects damage, but not a forged file. Compare
    /// [`about`](Replica::about) with your configuration. Entries are numbered from 0: accept the logged ones, and save
    /// again.
    ///
    /// # Errors
    ///
    /// `BadRing` (the file's bits or range, or the limit) or `JournalFull`.
    pub fn load<R: Read>(mut file: R, limit: u64) -> Result<Replica, CheckpointError> {
        checkpoint::load(&mut file, limit)
    }
}

/// The moment: the rows at one time, which are hashed and offered while the replica changes.
///
/// It is whole when each of its nodes has a digest. [`Replica::snapshot`], `root`, `save`, `exchange` and `sync` hold,
/// hash and drop a moment in one call, in place of the previous one.
impl Replica {
    /// Keeps the current rows as the replica's moment, in place of the previous one. No later call changes it.
    ///
    /// Copies no row, and keeps the nodes' digests. While the moment is kept, the first change in a block of rows
    /// copies the block. The next hold frees the blocks that only this moment has: if threads share the replica, call
    /// `drop_moment` before its snapshot is dropped, so that they don't wait for that.
    ///
    /// ```
    /// # use antientropy::{Clock, Config, Replica};
    /// # let mut replica = Replica::new(Config::default())?;
    /// replica.put(1, b"cart", b"milk", &Clock::new())?;
    /// replica.hold()?;
    /// replica.put(1, b"gift", b"wrapped", &Clock::new())?;
    /// while replica.hash_moment(100)? > 0 {} // other calls may be made in between
    /// assert_eq!((replica.moment()?.entries(), replica.count()?.front), (1, 1));
    /// # Ok::<(), antientropy::Refusal>(())
    /// ```
    pub fn hold(&mut self) -> Result<(), Refusal> {
        // SAFETY: as in `sys`.
        check(unsafe { sys::antientropy_hold(self.handle.raw()) })
    }

    /// Drops the moment, if any. Its snapshots stay valid.
    pub fn drop_moment(&mut self) -> Result<(), Refusal> {
        // SAFETY: as in `sys`.
        check(unsafe { sys::antientropy_drop_moment(self.handle.raw()) })
    }

    /// Hashes at most `most` of the moment's nodes that have no digest though all their children have one.
    ///
    /// Returns the number of its nodes still without one: 0 if it is whole or doesn't exist. Repeat it until it returns
    /// 0; other calls may be made in between.
    pub fn hash_moment(&mut self, most: u64) -> Result<u64, Refusal> {
        written(|left| {
            // SAFETY: as in `sys`.
            unsafe { sys::antientropy_hash_moment(self.handle.raw(), most, left) }
        })
    }

    /// Takes a portion of the moment's nodes, the same that `hash_moment` would hash: any thread may hash it.
    ///
    /// The portion is empty if the moment is whole or doesn't exist.
    pub fn take_portion(&self, most: u64) -> Result<Portion, Refusal> {
        let mut share = self.handle.share();
        let handle = Owned::make(sys::antientropy_portion_free, |into| {
            // SAFETY: as in `sys`; `into` is empty and a local one.
            unsafe { sys::antientropy_share_take_portion(&mut share, most, into) }
        })?;
        Ok(Portion::of(handle))
    }

    /// Installs the digests of a portion in the moment. Hashes the portion's nodes that aren't hashed yet.
    ///
    /// Returns the number of the moment's nodes still without a digest, like `hash_moment`. Skips the digests of
    /// another moment's nodes if the node's text differs.
    pub fn install_portion(&mut self, mut portion: Portion) -> Result<u64, Refusal> {
        written(|left| {
            // SAFETY: as in `sys`, for both handles.
            unsafe { sys::antientropy_install_portion(self.handle.raw(), portion.raw(), left) }
        })
    }

    /// Returns a snapshot of the moment.
    ///
    /// # Errors
    ///
    /// `Dirty` if it isn't whole or doesn't exist.
    pub fn moment(&self) -> Result<Snapshot, Refusal> {
        self.snapshot_by(sys::antientropy_share_moment)
    }
}

/// Syncs.
impl Replica {
    /// Opens an exchange with a partner by its offer. Hashes the nodes that have no digest, and drops the moment.
    ///
    /// If the roots are equal, it is finished and has no session.
    ///
    /// # Errors
    ///
    /// `BadMessage`, `OtherFormat`, `OtherRange` or `SessionsFull`. [`exchange_beside`](crate::exchange_beside) opens
    /// one while other threads put.
    pub fn exchange(&mut self, partner: u16, offer: &[u8], bounds: Bounds) -> Result<Exchange, Refusal> {
        Exchange::open(self, partner, offer, bounds)
    }

    /// Opens an exchange at the moment.
    ///
    /// # Errors
    ///
    /// As of `exchange`, or `Dirty` if the moment isn't whole or doesn't exist.
    pub fn exchange_at_moment(&mut self, partner: u16, offer: &[u8], bounds: Bounds) -> Result<Exchange, Refusal> {
        let (replica, at, len) = (self.handle.raw(), offer.as_ptr(), offer.len());
        let Bounds { asks, bytes, bad, lost, plain } = bounds;
        let most = sys::Bounds { asks, bytes, bad, lost };
        let handle = Owned::make(sys::antientropy_exchange_free, |into| {
            // SAFETY: as in `sys`; `into` is empty and a local one.
            unsafe { sys::antientropy_exchange_open(replica, into, partner.into(), at, len, &most) }
        })?;
        Ok(Exchange { handle, plain })
    }

    /// Drops the sessions that have ended, with the changed rows and the texts that they keep.
    ///
    /// Open sessions are unchanged. Entries of the source `Partner` get the source `Copy`. Closing an exchange and
    /// [`sync`](Replica::sync) drop ended sessions, too.
    pub fn drop_sessions(&mut self) -> Result<(), Refusal> {
        // SAFETY: as in `sys`.
        check(unsafe { sys::antientropy_drop_sessions(self.handle.raw()) })
    }

    /// Takes the versions that this replica is missing from a partner's offer, by an exchange that it closes, even if
    /// it is refused or `reach` panics.
    ///
    /// `reach` sends asks to the partner, and returns the answers in any order: `None` for a missing one, or fewer
    /// answers than asks. The sync has the bounds of [`Bounds::default`].
    ///
    /// ```
    /// # use antientropy::{Clock, Config, Replica};
    /// # let (mut a, mut b) = (Replica::new(Config::default())?, Replica::new(Config::default())?);
    /// a.put(1, b"cart", b"milk", &Clock::new())?;
    /// let offered = a.snapshot()?;
    /// let offer = offered.offer(7)?;
    /// let synced = b.sync(1, &offer, |asks| asks.iter().map(|ask| offered.serve(7, ask).ok()).collect())?;
    /// assert!(synced.finished() && synced.accepted == 1);
    /// # Ok::<(), antientropy::Refusal>(())
    /// ```
    ///
    /// # Errors
    ///
    /// As of `exchange`; `JournalFull` if no space is left for an answer, and `NotCanonical` if one doesn't encode a
    /// node. Versions taken before stay.
    pub fn sync<R>(&mut self, partner: u16, offer: &[u8], reach: R) -> Result<Synced, Refusal>
    where
        R: FnMut(&[Vec<u8>]) -> Vec<Option<Vec<u8>>>,
    {
        self.sync_within(Bounds::default(), partner, offer, reach)
    }

    /// Takes the versions of a partner's offer like [`sync`](Replica::sync), within the given bounds.
    pub fn sync_within<R>(&mut self, bounds: Bounds, partner: u16, offer: &[u8], reach: R) -> Result<Synced, Refusal>
    where
        R: FnMut(&[Vec<u8>]) -> Vec<Option<Vec<u8>>>,
    {
        sync::sync(self, bounds, partner, offer, reach)
    }
}

/// For [`snapshot_beside`](crate::snapshot_beside) and [`sync_beside`](crate::sync_beside).
impl AsMut<Replica> for Replica {
    fn as_mut(&mut self) -> &mut Replica {
        self
    }
}

/// Returns the result of a call that loads rows.
fn loaded(call: impl FnOnce(&mut sys::Loaded) -> u32) -> Result<Loaded, RowsRefused> {
    let mut loaded = sys::Loaded::default();
    check(call(&mut loaded))
        .map_err(|refusal| RowsRefused { refusal, offset: (refusal == Refusal::RowBroken).then_some(loaded.offset) })?;
    Ok(Loaded { accepted: loaded.taken, known: loaded.known })
}

/// The refusal of rows to load.
#[derive(Clone, Copy, Debug, PartialEq, Eq, Hash)]
pub struct RowsRefused {
    /// Cause of the refusal.
    pub refusal: Refusal,
    /// Offset of the broken field in bytes, after `RowBroken`.
    pub offset: Option<u64>,
}

impl fmt::Display for RowsRefused {
    fn fmt(&self, out: &mut fmt::Formatter<'_>) -> fmt::Result {
        match self.offset {
            Some(offset) => write!(out, "{}, at byte {}", self.refusal, offset),
            None => self.refusal.fmt(out),
        }
    }
}

impl Error for RowsRefused {}

impl From<RowsRefused> for Refusal {
    fn from(refused: RowsRefused) -> Refusal {
        refused.refusal
    }
}
