//! The calls that need no replica.

use crate::handle::{clock, written};
use crate::refusal::Refusal;
use crate::sys;
use crate::values::{Clock, OfferParts, Order, Spot};

/// Returns the major, the minor and the patch number of the library's version.
///
/// ```
/// assert_eq!(antientropy::version().0, 2);
/// ```
#[must_use]
pub fn version() -> (u32, u32, u32) {
    // SAFETY: the call takes nothing.
    let number = unsafe { sys::antientropy_version() };
    (number / 10_000, number / 100 % 100, number % 100)
}

/// Returns the range and the leaf of a key, in a ring of 2^bits ranges of format 1 or 2.
///
/// ```
/// let spot = antientropy::place(2, 0, b"cart")?;
/// assert_eq!(spot.range, 0);
/// # Ok::<(), antientropy::Refusal>(())
/// ```
///
/// # Errors
///
/// `BadRing` or `BadKey`.
pub fn place(format: u8, bits: u8, key: &[u8]) -> Result<Spot, Refusal> {
    let spot: sys::Spot = written(|spot| {
        // SAFETY: no handle; the rest as in `sys`.
        unsafe { sys::antientropy_place(format.into(), bits.into(), key.as_ptr(), key.len(), spot) }
    })?;
    Ok(Spot { range: spot.range as u16, leaf: spot.leaf as u16 })
}

/// Compares two clocks.
///
/// ```
/// use antientropy::{compare, Clock, Order};
/// assert_eq!(compare(&Clock::from([(1, 1)]), &Clock::from([(1, 2)]))?, Order::Before);
/// # Ok::<(), antientropy::Refusal>(())
/// ```
///
/// # Errors
///
/// `BadClock` or `ClockFull`.
pub fn compare(first: &Clock, second: &Clock) -> Result<Order, Refusal> {
    let (first, second) = (first.pairs(), second.pairs());
    let order: u64 = written(|order| {
        // SAFETY: no handle; the rest as in `sys`.
        unsafe { sys::antientropy_compare(first.as_ptr(), first.len(), second.as_ptr(), second.len(), order) }
    })?;
    Ok(Order::from(order))
}

/// Merges clocks, for the context of a put that replaces the versions of all these clocks.
///
/// ```
/// use antientropy::{merge, Clock};
/// let merged = merge(&[Clock::from([(1, 1), (2, 5)]), Clock::from([(1, 3)])])?;
/// assert_eq!(merged, Clock::from([(1, 3), (2, 5)]));
/// # Ok::<(), antientropy::Refusal>(())
/// ```
///
/// # Errors
///
/// `BadClock` or `ClockFull`.
pub fn merge<'a>(clocks: impl IntoIterator<Item = &'a Clock>) -> Result<Clock, Refusal> {
    clocks.into_iter().try_fold(Clock::new(), |merged, clock| merge_two(&merged, clock))
}

fn merge_two(first: &Clock, second: &Clock) -> Result<Clock, Refusal> {
    let (first, second) = (first.pairs(), second.pairs());
    // SAFETY: no handle; the rest as in `sys`.
    unsafe {
        clock(|out, len, need| {
            sys::antientropy_merge(first.as_ptr(), first.len(), second.as_ptr(), second.len(), out, len, need)
        })
    }
}

/// Returns the parts of a partner's offer.
///
/// ```
/// assert_eq!(antientropy::read_offer(b"?"), Err(antientropy::Refusal::BadMessage));
/// ```
///
/// # Errors
///
/// `BadMessage` if the bytes aren't an offer.
pub fn read_offer(offer: &[u8]) -> Result<OfferParts, Refusal> {
    let parts: sys::OfferParts = written(|parts| {
        // SAFETY: no handle; the rest as in `sys`.
        unsafe { sys::antientropy_read_offer(offer.as_ptr(), offer.len(), parts) }
    })?;
    Ok(OfferParts {
        number: parts.number as u32,
        format: parts.format as u8,
        range: parts.range as u16,
        root: parts.root,
    })
}
