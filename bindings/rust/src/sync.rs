//! A complete sync with a partner.

use crate::exchange::Exchange;
use crate::moment::Access;
use crate::refusal::Refusal;
use crate::replica::Replica;
use crate::values::{Bounds, Progress, Report};

/// The result of a sync.
#[derive(Clone, Debug, PartialEq, Eq)]
pub struct Synced {
    /// The last report.
    pub report: Report,
    /// Number of new versions: they are now entries of the journal.
    pub accepted: u64,
    /// Number of known versions.
    pub known: u64,
    /// Number of asks sent.
    pub asks: u64,
    /// Number of bad answers.
    pub bad: u64,
    /// Number of lost asks, whose answers were missing.
    pub lost: u64,
    /// Leaves that were left because a key in them is crowded.
    pub left: Vec<u16>,
}

impl Synced {
    /// Returns true if each version of the offer was taken.
    #[must_use]
    pub fn finished(&self) -> bool {
        self.report == Report::Finished
    }

    /// Returns the result of an exchange that sends no more asks.
    fn of(exchange: &mut Exchange, replica: &Replica) -> Result<Synced, Refusal> {
        let Progress { report, cause, accepted, known, asks, bad, lost, .. } = exchange.progress(replica)?;
        match (report, cause) {
            (Report::Failed, _) => Err(Refusal::NotCanonical),
            (_, Some(cause)) => Err(cause),
            _ => Ok(Synced { report, accepted, known, asks, bad, lost, left: exchange.left(replica)? }),
        }
    }
}

/// Takes the versions that a replica is missing from an offer.
pub(crate) fn sync<A, R>(
    access: &mut A,
    bounds: Bounds,
    partner: u16,
    offer: &[u8],
    mut reach: R,
) -> Result<Synced, Refusal>
where
    A: Access,
    R: FnMut(&[Vec<u8>]) -> Vec<Option<Vec<u8>>>,
{
    let exchange = Exchange::open(access, partner, offer, bounds)?;
    let mut open = Open { access, exchange };
    loop {
        let asks = open.with(|exchange, replica| exchange.asks(replica))?;
        if asks.is_empty() {
            return open.with(|exchange, replica| Synced::of(exchange, replica));
        }
        for answer in reach(&asks).into_iter().flatten() {
            open.with(|exchange, replica| exchange.take(replica, &answer))?;
        }
        // An ask whose answer was judged isn't in flight any more.
        asks.iter().try_for_each(|ask| open.exchange.lose(ask))?;
    }
}

/// An exchange that ends with this struct: at the end, after a refusal, or when `reach` panics.
struct Open<'a, A: Access> {
    access: &'a mut A,
    exchange: Exchange,
}

impl<A: Access> Open<'_, A> {
    /// Makes some calls of the exchange.
    fn with<T>(&mut self, calls: impl FnOnce(&mut Exchange, &mut Replica) -> T) -> T {
        let exchange = &mut self.exchange;
        self.access.with(|replica| calls(exchange, replica))
    }
}

impl<A: Access> Drop for Open<'_, A> {
    fn drop(&mut self) {
        let exchange = &mut self.exchange;
        // Neither handle is empty, so it isn't refused.
        let _ = self.access.try_with(|replica| exchange.end(replica));
    }
}
