//! The frame of a checkpoint: a head, and then the rows of each leaf with their length. See `docs/FORMATS.md`.

use std::error::Error;
use std::fmt;
use std::io::{self, Read, Write};

use crate::refusal::Refusal;
use crate::replica::{Config, Replica};
use crate::snapshot::Snapshot;
use crate::values::Root;

const MAGIC: &[u8; 8] = b"antient\x01";

/// A checkpoint that wasn't saved, or wasn't loaded.
#[derive(Debug)]
#[non_exhaustive]
pub enum CheckpointError {
    /// The file couldn't be read or written.
    Io(io::Error),
    /// The file is damaged.
    Damaged(Damage),
    /// The library refused a call.
    Refused(Refusal),
}

/// The damage of a checkpoint.
#[derive(Clone, Copy, Debug, PartialEq, Eq, Hash)]
#[non_exhaustive]
pub enum Damage {
    /// The file doesn't begin like a checkpoint.
    NotCheckpoint,
    /// The file ends early, or a length in it is damaged.
    Truncated,
    /// Bytes follow the last leaf.
    TooLong,
    /// The rows of the leaf of this number are refused.
    Leaf(u16),
    /// The rows' root differs from the file's.
    Root,
}

impl fmt::Display for CheckpointError {
    fn fmt(&self, out: &mut fmt::Formatter<'_>) -> fmt::Result {
        match self {
            CheckpointError::Io(error) => write!(out, "the checkpoint can't be read or written: {error}"),
            CheckpointError::Damaged(damage) => damage.fmt(out),
            CheckpointError::Refused(refusal) => write!(out, "the checkpoint is refused: {refusal}"),
        }
    }
}

impl fmt::Display for Damage {
    fn fmt(&self, out: &mut fmt::Formatter<'_>) -> fmt::Result {
        match self {
            Damage::NotCheckpoint => write!(out, "this isn't a checkpoint"),
            Damage::Truncated => write!(out, "the checkpoint is truncated, or a length in it is damaged"),
            Damage::TooLong => write!(out, "the checkpoint is damaged: bytes follow its last leaf"),
            Damage::Leaf(leaf) => write!(out, "the checkpoint is damaged: the rows of leaf {leaf} are refused"),
            Damage::Root => write!(out, "the checkpoint is damaged: its root differs"),
        }
    }
}

impl Error for CheckpointError {
    fn source(&self) -> Option<&(dyn Error + 'static)> {
        match self {
            CheckpointError::Io(error) => Some(error),
            CheckpointError::Damaged(damage) => Some(damage),
            CheckpointError::Refused(refusal) => Some(refusal),
        }
    }
}

impl Error for Damage {}

impl From<io::Error> for CheckpointError {
    fn from(error: io::Error) -> CheckpointError {
        CheckpointError::Io(error)
    }
}

impl From<Damage> for CheckpointError {
    fn from(damage: Damage) -> CheckpointError {
        CheckpointError::Damaged(damage)
    }
}

impl From<Refusal> for CheckpointError {
    fn from(refusal: Refusal) -> CheckpointError {
        CheckpointError::Refused(refusal)
    }
}

/// Writes the checkpoint of a snapshot.
pub(crate) fn save(snapshot: &Snapshot, file: &mut impl Write) -> Result<(), CheckpointError> {
    file.write_all(MAGIC)?;
    file.write_all(&[snapshot.format(), snapshot.bits()])?;
    file.write_all(&snapshot.range().to_be_bytes())?;
    file.write_all(&snapshot.root()?)?;
    for leaf in 0..leaves(snapshot.format())? {
        let rows = snapshot.rows(leaf)?;
        file.write_all(&(rows.len() as u64).to_be_bytes())?;
        file.write_all(&rows)?;
    }
    file.flush()?;
    Ok(())
}

/// Returns a replica with the rows of a checkpoint.
pub(crate) fn load(file: &mut impl Read, limit: u64) -> Result<Replica, CheckpointError> {
    if &read_array(file)? != MAGIC {
        return Err(Damage::NotCheckpoint.into());
    }
    let [format, bits] = read_array(file)?;
    let range = u16::from_be_bytes(read_array(file)?);
    let root: Root = read_array(file)?;
    let leaves = leaves(format)?;
    let mut replica = Replica::new(Config { format, bits, range, limit })?;
    load_leaves(&mut replica, file, leaves)?;
    if replica.root()? != root {
        return Err(Damage::Root.into());
    }
    Ok(replica)
}

/// Returns the number of leaves in a format.
fn leaves(format: u8) -> Result<u16, Damage> {
    match format {
        1 => Ok(256),
        2 => Ok(4096),
        _ => Err(Damage::NotCheckpoint),
    }
}

fn load_leaves(replica: &mut Replica, file: &mut impl Read, leaves: u16) -> Result<(), CheckpointError> {
    for leaf in 0..leaves {
        let len = u64::from_be_bytes(read_array(file)?);
        let rows = read(file, len)?;
        if !rows.is_empty() {
            load_rows(replica, leaf, &rows)?;
        }
    }
    match file.take(1).read_to_end(&mut Vec::new())? {
        0 => Ok(()),
        _ => Err(Damage::TooLong.into()),
    }
}

fn load_rows(replica: &mut Replica, leaf: u16, rows: &[u8]) -> Result<(), CheckpointError> {
    match replica.load_rows(rows).map_err(Refusal::from) {
        Ok(_) => Ok(()),
        Err(Refusal::RowBroken | Refusal::OtherRange | Refusal::Crowded) => Err(Damage::Leaf(leaf).into()),
        Err(refusal) => Err(refusal.into()),
    }
}

/// Reads `len` bytes. A damaged length may be huge, so the memory grows with the bytes in the file.
fn read(file: &mut impl Read, len: u64) -> Result<Vec<u8>, CheckpointError> {
    let mut bytes = Vec::new();
    file.take(len).read_to_end(&mut bytes)?;
    if bytes.len() as u64 == len {
        Ok(bytes)
    } else {
        Err(Damage::Truncated.into())
    }
}

/// Reads the bytes of a field.
fn read_array<const N: usize>(file: &mut impl Read) -> Result<[u8; N], CheckpointError> {
    let mut bytes = [0; N];
    match file.read_exact(&mut bytes) {
        Ok(()) => Ok(bytes),
        Err(error) if error.kind() == io::ErrorKind::UnexpectedEof => Err(Damage::Truncated.into()),
        Err(error) => Err(error.into()),
    }
}
