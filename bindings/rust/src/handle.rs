//! Handles of the library, and the memory for results.

use std::mem::MaybeUninit;
use std::{fmt, ptr, slice};

use crate::refusal::{check, Refusal};
use crate::sys;
use crate::values::{Clock, Kind, Pair};

/// Size of a result's buffer on the stack, in bytes. A longer result needs a second call.
const BYTES_ROOM: usize = 16 << 10;

/// Bytes of the longest key.
pub(crate) const KEY_MAX: usize = 255;

/// Maximum number of pairs of a clock.
pub(crate) const CLOCK_MAX: usize = 32;

/// A call that frees a handle.
type Free = unsafe extern "C" fn(*mut sys::Handle);

/// A non-empty handle, which is freed when this is dropped.
pub(crate) struct Owned {
    raw: sys::Handle,
    free: Free,
}

// SAFETY: the library lets a handle go to another thread if the program orders the calls before and after. The header
// names locks, the start and the end of threads, and sequentially consistent atomics. Safe code may also use weaker
// atomics that order, as channels do: on x86-64, the library's only processor, those are equivalent.
unsafe impl Send for Owned {}

// SAFETY: a shared reference gives only copies of the handle, which are passed only to calls by shares. Any number of
// threads may make such calls concurrently, as long as no other call of the handle is made, for which it is borrowed
// exclusively.
unsafe impl Sync for Owned {}

impl Owned {
    /// Returns the handle that a call fills. `free` is the call that frees it.
    pub(crate) fn make(free: Free, call: impl FnOnce(*mut sys::Handle) -> u32) -> Result<Owned, Refusal> {
        let mut raw = sys::Handle { at: ptr::null_mut(), held: false, before: 0 };
        check(call(&mut raw))?;
        Ok(Owned { raw, free })
    }

    /// Returns the handle for one call.
    pub(crate) fn raw(&mut self) -> *mut sys::Handle {
        &mut self.raw
    }

    /// Returns a copy of the handle for one call by a share, or for several in sequence.
    pub(crate) fn share(&self) -> sys::Handle {
        self.raw
    }
}

impl fmt::Debug for Owned {
    fn fmt(&self, out: &mut fmt::Formatter<'_>) -> fmt::Result {
        out.debug_struct("Owned").finish_non_exhaustive()
    }
}

impl Drop for Owned {
    fn drop(&mut self) {
        // SAFETY: `free` is the call for this kind of handle, and no other call follows.
        unsafe { (self.free)(&mut self.raw) }
    }
}

/// Returns the struct or the number that a call writes.
pub(crate) fn written<T: Default>(call: impl FnOnce(&mut T) -> u32) -> Result<T, Refusal> {
    let mut result = T::default();
    check(call(&mut result))?;
    Ok(result)
}

/// Returns the elements that a call writes, first to a buffer for `N` elements, then to one of the length needed.
///
/// # Safety
///
/// The call gets a buffer, its length and the address for the length needed. If it returns 0, it has written that
/// length, and that number of elements to the buffer. If it returns SMALL, it has written a length that suffices the
/// next time.
pub(crate) unsafe fn fill<T: Copy, const N: usize>(
    mut call: impl FnMut(*mut T, usize, &mut u64) -> u32,
) -> Result<Vec<T>, Refusal> {
    let mut need = 0;
    let mut room = [MaybeUninit::<T>::uninit(); N];
    match check(call(room.as_mut_ptr().cast(), N, &mut need)) {
        // SAFETY: the call has written that many elements.
        Ok(()) => Ok(unsafe { slice::from_raw_parts(room.as_ptr().cast(), need as usize) }.to_vec()),
        // SAFETY: the conditions are the same.
        Err(Refusal::Small) => unsafe { fill_exactly(call, need) },
        Err(refusal) => Err(refusal),
    }
}

/// Returns the elements that a call writes to a buffer for `need` elements.
///
/// # Safety
///
/// As for `fill`.
unsafe fn fill_exactly<T: Copy>(
    mut call: impl FnMut(*mut T, usize, &mut u64) -> u32,
    mut need: u64,
) -> Result<Vec<T>, Refusal> {
    let mut out = Vec::with_capacity(need as usize);
    check(call(out.as_mut_ptr(), out.capacity(), &mut need))?;
    // SAFETY: the call has written that many elements.
    unsafe { out.set_len(need as usize) };
    Ok(out)
}

/// Returns the bytes that a call writes.
///
/// # Safety
///
/// As for `fill`.
pub(crate) unsafe fn bytes(call: impl FnMut(*mut u8, usize, &mut u64) -> u32) -> Result<Vec<u8>, Refusal> {
    // SAFETY: the conditions are the same.
    unsafe { fill::<u8, BYTES_ROOM>(call) }
}

/// Returns the kind and the bytes of a value that a call writes.
///
/// # Safety
///
/// As for `fill`. The first argument is the address for the kind.
pub(crate) unsafe fn value(
    mut call: impl FnMut(&mut u8, *mut u8, usize, &mut u64) -> u32,
) -> Result<(Kind, Vec<u8>), Refusal> {
    let mut kind = 0;
    // SAFETY: the conditions are the same.
    let value = unsafe { bytes(|out, len, need| call(&mut kind, out, len, need)) }?;
    Ok((Kind::from(u64::from(kind)), value))
}

/// Returns the clock that a call writes.
///
/// # Safety
///
/// As for `fill`.
pub(crate) unsafe fn clock(call: impl FnMut(*mut Pair, usize, &mut u64) -> u32) -> Result<Clock, Refusal> {
    // SAFETY: the conditions are the same.
    unsafe { fill::<Pair, CLOCK_MAX>(call) }.map(Clock::from)
}
