//! Offers of snapshots, and links to the ones who have them.
use crate::format::Format;
use crate::message::{Ask, Offer};
use crate::refusal::Refusal;
use crate::tree::{NodeAt, Tree};
use std::collections::VecDeque;
use std::sync::{Mutex, MutexGuard, PoisonError};

/// The number of offers that a pool keeps.
const OFFERS_MAX: usize = 16;

/// An offered snapshot.
#[derive(Clone)]
struct Offered {
    offer: Offer,
    format: Format,
    snapshot: Tree,
}

/// The last 16 offers of a node.
#[derive(Default)]
pub struct OfferPool {
    offers: Mutex<VecDeque<Offered>>,
}

/// A link to the partner of a session. Refused: Gone, if the partner doesn't have the offer; LinkLost, if the link
/// failed.
pub trait Link {
    /// Returns the bytes of the partner's offer.
    fn offer(&mut self) -> Result<Vec<u8>, Refusal>;
    /// Returns the bytes of the answer to an ask.
    fn ask(&mut self, ask: &[u8]) -> Result<Vec<u8>, Refusal>;
}

impl OfferPool {
    /// Offers a snapshot of a range, and returns the offer. The 17th offer drops the oldest one. Refused: Dirty,
    /// SessionsFull.
    pub fn publish(&self, format: Format, range: u16, snapshot: Tree) -> Result<Offer, Refusal> {
        let root = snapshot.root().ok_or(Refusal::Dirty)?;
        let mut offers = lock(&self.offers);
        let last = offers.back().map_or(0, |last| last.offer.number);
        let number = last.checked_add(1).ok_or(Refusal::SessionsFull)?;
        let offer = Offer { number, format: format.number(), range: range as u8, root };
        let dropped = if offers.len() == OFFERS_MAX { offers.pop_front() } else { None };
        offers.push_back(Offered { offer, format, snapshot });
        drop(offers);
        drop(dropped);
        Ok(offer)
    }

    /// Returns the latest offer. Refused: Gone.
    pub fn latest(&self) -> Result<Offer, Refusal> {
        lock(&self.offers).back().map(|last| last.offer).ok_or(Refusal::Gone)
    }

    /// Returns the bytes of the answer to an ask. Refused: BadMessage, Gone.
    pub fn serve(&self, bytes: &[u8]) -> Result<Vec<u8>, Refusal> {
        let ask = Ask::decode(bytes)?;
        let offers = lock(&self.offers);
        let found = offers.iter().find(|offered| offered.offer.number == ask.offer).cloned();
        drop(offers);
        let Offered { format, snapshot, .. } = found.ok_or(Refusal::Gone)?;
        let at = NodeAt::new(format, u64::from(ask.at.depth), u64::from(ask.at.index)).ok_or(Refusal::BadMessage)?;
        ask.answer(|out| snapshot.write_text_at(at, format, out)).ok_or(Refusal::Dirty)
    }
}

/// Locks a value. A thread that panics ends the program, so no lock is poisoned.
pub fn lock<T>(mutex: &Mutex<T>) -> MutexGuard<'_, T> {
    mutex.lock().unwrap_or_else(PoisonError::into_inner)
}

/// A link over memory to the offers of a pool.
pub struct MemoryLink<'a>(pub &'a OfferPool);

impl Link for MemoryLink<'_> {
    fn offer(&mut self) -> Result<Vec<u8>, Refusal> {
        self.0.latest().map(|offer| offer.encode())
    }

    fn ask(&mut self, ask: &[u8]) -> Result<Vec<u8>, Refusal> {
        self.0.serve(ask)
    }
}
