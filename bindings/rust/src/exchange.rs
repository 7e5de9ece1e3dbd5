//! An exchange with a partner.

use std::iter;

use crate::handle::{bytes, written, Owned};
use crate::moment::{at_moment, Access};
use crate::refusal::{check, found, Refusal};
use crate::replica::Replica;
use crate::sys;
use crate::values::{cause_of, Bounds, Progress, Verdict};

/// The loop of a sync, which the program polls: the asks to send, the verdicts on the answers, and its progress.
///
/// [`Replica::exchange`] opens it. It lasts as long as the program wants: between its calls the replica may change in
/// any way, but a renewal or a migration ends it. Its calls get the replica that opened it; with another one it is
/// [`Gone`](crate::Report::Gone). [`close`](Exchange::close) ends it: if it is dropped without `close`, its session
/// stays open, one of at most 64.
///
/// ```
/// use antientropy::{Bounds, Clock, Config, Replica, Report};
/// let (mut a, mut b) = (Replica::new(Config::default())?, Replica::new(Config::default())?);
/// a.put(1, b"cart", b"milk", &Clock::new())?;
/// let offered = a.snapshot()?;
/// let mut exchange = b.exchange(1, &offered.offer(7)?, Bounds::default())?;
/// while exchange.progress(&b)?.report == Report::Waiting {
///     for ask in exchange.asks(&b)? {
///         match offered.serve(7, &ask) {
///             Ok(answer) => {
///                 exchange.take(&mut b, &answer)?;
///             }
///             Err(_) => exchange.lose(&ask)?,
///         }
///     }
/// }
/// assert_eq!(exchange.progress(&b)?.report, Report::Finished);
/// exchange.close(&mut b)?;
/// # Ok::<(), antientropy::Refusal>(())
/// ```
#[derive(Debug)]
#[must_use = "its session stays open until it is closed"]
pub struct Exchange {
    pub(crate) handle: Owned,
    /// True if no ask is an outline.
    pub(crate) plain: bool,
}

impl Exchange {
    /// Opens an exchange at a new moment.
    pub(crate) fn open<A: Access>(
        access: &mut A,
        partner: u16,
        offer: &[u8],
        bounds: Bounds,
    ) -> Result<Exchange, Refusal> {
        // The snapshot keeps the moment's rows until the lock is free.
        let (_moment, exchange) =
            at_moment(access, |replica| Ok((replica.moment()?, replica.exchange_at_moment(partner, offer, bounds)?)))?;
        Ok(exchange)
    }

    /// Returns the asks to send now: none if all are in flight, if the bounds allow no more, or if it is over.
    ///
    /// Each is in flight until its answer is taken or it is lost, so keep those that a deadline leaves unsent for
    /// later. An ask may be an outline, which makes the partner send only the differences.
    pub fn asks(&mut self, replica: &Replica) -> Result<Vec<Vec<u8>>, Refusal> {
        let next = || self.next(replica).map(|ask| Some(ask).filter(|ask| !ask.is_empty())).transpose();
        iter::from_fn(next).collect()
    }

    /// Returns the next ask to send, or no bytes without one.
    fn next(&mut self, replica: &Replica) -> Result<Vec<u8>, Refusal> {
        let (exchange, mut share) = (self.handle.raw(), replica.handle.share());
        let most = if self.plain { sys::ASK_LEN } else { usize::MAX };
        // SAFETY: as in `sys`; the length passed is at most the buffer's.
        unsafe {
            bytes(|out, len, need| sys::antientropy_share_exchange_next(exchange, &mut share, out, len.min(most), need))
        }
    }

    /// Takes a partner's answer, which isn't trusted. Answers may arrive in any order, late or twice. It judges an
    /// answer by the node that it names, so lose each ask whose time is over, even if some answer arrived instead.
    pub fn take(&mut self, replica: &mut Replica, answer: &[u8]) -> Result<Verdict, Refusal> {
        let sys::Verdict { verdict, cause, accepted, known } = written(|verdict| {
            let (exchange, replica) = (self.handle.raw(), replica.handle.raw());
            // SAFETY: as in `sys`, for both handles.
            unsafe { sys::antientropy_exchange_take(exchange, replica, answer.as_ptr(), answer.len(), verdict) }
        })?;
        Ok(Verdict { kind: verdict.into(), cause: cause_of(cause), accepted, known })
    }

    /// Counts an ask in flight as lost, so that it may be sent again.
    ///
    /// # Errors
    ///
    /// `BadMessage` if the bytes aren't an ask or an outline.
    pub fn lose(&mut self, ask: &[u8]) -> Result<(), Refusal> {
        // SAFETY: as in `sys`.
        check(unsafe { sys::antientropy_exchange_lose(self.handle.raw(), ask.as_ptr(), ask.len()) })
    }

    /// Lets asks be sent again after [`Stopped`](crate::Report::Stopped). Asks whose answers were refused count as
    /// lost. If the journal is full, close the exchange and renew the replica instead.
    pub fn go_on(&mut self) -> Result<(), Refusal> {
        // SAFETY: as in `sys`.
        check(unsafe { sys::antientropy_exchange_go_on(self.handle.raw()) })
    }

    /// Returns its progress.
    pub fn progress(&mut self, replica: &Replica) -> Result<Progress, Refusal> {
        let progress: sys::Progress = written(|progress| {
            let (exchange, mut share) = (self.handle.raw(), replica.handle.share());
            // SAFETY: as in `sys`, for both handles.
            unsafe { sys::antientropy_share_exchange_report(exchange, &mut share, progress) }
        })?;
        Ok(progress.into())
    }

    /// Returns the leaves that were left because a key in them is crowded. Merge the versions of these keys.
    pub fn left(&mut self, replica: &Replica) -> Result<Vec<u16>, Refusal> {
        let mut places = 0..;
        iter::from_fn(|| found(self.left_at(replica, places.next()?)).transpose()).collect()
    }

    /// Returns a leaf that was left, by its place from 0.
    fn left_at(&mut self, replica: &Replica, place: u64) -> Result<u16, Refusal> {
        let node: sys::Node = written(|node| {
            let (exchange, mut share) = (self.handle.raw(), replica.handle.share());
            // SAFETY: as in `sys`, for both handles.
            unsafe { sys::antientropy_share_exchange_left(exchange, &mut share, place, node) }
        })?;
        Ok(node.index as u16)
    }

    /// Closes it, and drops the replica's ended sessions, including this one.
    pub fn close(mut self, replica: &mut Replica) -> Result<(), Refusal> {
        self.end(replica)
    }

    pub(crate) fn end(&mut self, replica: &mut Replica) -> Result<(), Refusal> {
        // SAFETY: as in `sys`, for both handles.
        check(unsafe { sys::antientropy_exchange_close(self.handle.raw(), replica.handle.raw()) })?;
        replica.drop_sessions()
    }
}
