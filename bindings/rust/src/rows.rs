//! Reads of rows by key, which replicas and snapshots have.

use std::iter;

use crate::handle::{bytes, Owned, KEY_MAX};
use crate::refusal::{check, found, Refusal};
use crate::sys;

/// A call that returns the text of the row of a key.
type RowCall = unsafe extern "C" fn(*mut sys::Handle, *const u8, usize, *mut u8, usize, *mut u64) -> u32;

/// A call that returns the next key of a leaf.
type KeyCall = unsafe extern "C" fn(*mut sys::Handle, u64, *mut u8, usize, *mut u64) -> u32;

/// Returns the text of the row of a key, or `None` if no version is held. `call` is for this kind of handle.
pub(crate) fn row(handle: &Owned, call: RowCall, key: &[u8]) -> Result<Option<Vec<u8>>, Refusal> {
    let (mut share, at, key_len) = (handle.share(), key.as_ptr(), key.len());
    // SAFETY: as in `sys`.
    let row = unsafe { bytes(|out, len, need| call(&mut share, at, key_len, out, len, need)) }?;
    Ok(Some(row).filter(|row| !row.is_empty()))
}

/// The last key of a leaf that an iterator has returned.
struct Seen {
    leaf: u16,
    key: [u8; KEY_MAX],
    len: u64,
}

impl Seen {
    fn none_of(leaf: u16) -> Seen {
        Seen { leaf, key: [0; KEY_MAX], len: 0 }
    }
}

/// The keys of rows.
pub(crate) struct Keys<'a> {
    handle: &'a Owned,
    call: KeyCall,
}

impl<'a> Keys<'a> {
    /// Returns the keys of the rows of a handle. `call` is for this kind of handle.
    pub(crate) fn of(handle: &'a Owned, call: KeyCall) -> Keys<'a> {
        Keys { handle, call }
    }

    /// Returns an iterator over the keys, leaf by leaf.
    pub(crate) fn all(self) -> impl Iterator<Item = Result<Vec<u8>, Refusal>> + 'a {
        let mut seen = Some(Seen::none_of(0));
        iter::from_fn(move || {
            let next = self.key_on(seen.as_mut()?).transpose();
            if !matches!(next, Some(Ok(_))) {
                seen = None;
            }
            next
        })
    }

    /// Returns an iterator over the keys of a leaf.
    pub(crate) fn of_leaf(self, leaf: u16) -> impl Iterator<Item = Result<Vec<u8>, Refusal>> + 'a {
        let mut seen = Some(Seen::none_of(leaf));
        iter::from_fn(move || {
            let next = self.key_next(seen.as_mut()?).transpose();
            if !matches!(next, Some(Ok(_))) {
                seen = None;
            }
            next
        })
    }

    /// Returns the next key of a leaf, or the first one of a later leaf.
    fn key_on(&self, seen: &mut Seen) -> Result<Option<Vec<u8>>, Refusal> {
        loop {
            match self.key_next(seen) {
                Ok(None) => *seen = Seen::none_of(seen.leaf + 1),
                Err(Refusal::BadMessage) => return Ok(None),
                next => return next,
            }
        }
    }

    /// Returns the next key of a leaf.
    fn key_next(&self, seen: &mut Seen) -> Result<Option<Vec<u8>>, Refusal> {
        let (mut share, leaf, key) = (self.handle.share(), seen.leaf.into(), seen.key.as_mut_ptr());
        // SAFETY: as in `sys`.
        let next = check(unsafe { (self.call)(&mut share, leaf, key, KEY_MAX, &mut seen.len) });
        Ok(found(next)?.map(|()| seen.key[..seen.len as usize].to_vec()))
    }
}
