//! A replica of a range behind a lock, and its workers.
use crate::clock::Clock;
use crate::journal::{Receipt, Source};
use crate::message::{Answer, Ask, Offer};
use crate::offers::{lock, Link};
use crate::pass::{agree, Pass};
use crate::range::{Config, New, Range, Taken};
use crate::refusal::Refusal;
use crate::session::State;
use crate::tree::{hash, Tree};
use crate::version::{Held, Version};
use std::sync::{Mutex, PoisonError};

/// The report of a rehash worker.
#[derive(Clone, Copy, Default)]
pub struct Rehashed {
    /// The number of digests that were installed.
    pub installed: u64,
    /// The number of digests that were late.
    pub stale: u64,
    /// True if the tree was clean at the end.
    pub is_clean: bool,
}

/// The report of a sync worker.
#[derive(Clone, Copy)]
pub struct Synced {
    /// The state of the session.
    pub state: State,
    /// The number of nodes that were asked for.
    pub asked: u64,
    /// The number of versions that were accepted.
    pub accepted: u64,
    /// The number of versions that were known.
    pub known: u64,
    /// The number of answers that were thrown away.
    pub bad: u64,
}

/// A replica of a range at a node, which threads share.
pub struct SharedRange {
    node: u16,
    config: Config,
    range: Mutex<Range>,
}

impl SharedRange {
    /// Returns a replica at a node that has accepted nothing.
    pub fn new(node: u16, config: Config) -> SharedRange {
        SharedRange { node, config, range: Mutex::new(Range::new(config)) }
    }

    /// Returns the number of the node.
    pub fn node(&self) -> u16 {
        self.node
    }

    /// Puts a value under a key. Refused as [`Config::put`] and then [`Range::put`] are.
    pub fn put(&self, seat: u8, key: &[u8], context: &Clock, value: &[u8]) -> Result<Receipt, Refusal> {
        let new = self.config.put(self.node, key, context, Some(value))?;
        lock(&self.range).put(seat, new)
    }

    /// Accepts a copy of a version. Refused as [`Range::accept`] is.
    pub fn copy(&self, seat: u8, version: Version) -> Result<Option<Receipt>, Refusal> {
        let new: New = self.config.copy(version)?;
        lock(&self.range).accept(seat, Source::Copy, new)
    }

    /// Returns the versions held for a key. Refused: BadKey, OtherRange.
    pub fn get(&self, key: &[u8]) -> Result<Held, Refusal> {
        let place = self.config.place(key)?;
        Ok(lock(&self.range).get(key, place))
    }

    /// Puts a value as [`SharedRange::put`] does, and keeps the receipt.
    pub fn put_kept(&self, pass: &mut Pass, key: &[u8], context: &Clock, value: &[u8]) -> Result<(), Refusal> {
        pass.keep(self.put(pass.seat, key, context, value)?);
        Ok(())
    }

    /// Gets the versions held for a key, and keeps the reading. Refused: BadKey, OtherRange, Behind.
    pub fn get_kept(&self, pass: &mut Pass, key: &[u8]) -> Result<Held, Refusal> {
        let place = self.config.place(key)?;
        let range = lock(&self.range);
        let (held, front) = (range.get(key, place), range.journal().len());
        drop(range);
        pass.read(key, place, held.clone(), front)?;
        Ok(held)
    }

    /// Hashes dirty nodes, job by job, without the lock. Ends when the tree is clean, or after `turns` jobs.
    pub fn rehash_jobs(&self, skip: usize, turns: u64) -> Rehashed {
        let mut report = Rehashed::default();
        for _ in 0..turns {
            let job = lock(&self.range).take_job(skip);
            let Some(job) = job else {
                report.is_clean = true;
                break;
            };
            let Some(digest) = job.run() else { break };
            match lock(&self.range).install(job, digest) {
                Ok(()) => report.installed += 1,
                Err(_) => report.stale += 1,
            }
        }
        report
    }

    /// Hashes all dirty nodes on all processors, with the lock, and returns their number.
    pub fn rehash(&self) -> u64 {
        lock(&self.range).rehash()
    }

    /// Returns a snapshot. Refused: Dirty.
    pub fn snapshot(&self) -> Result<Tree, Refusal> {
        lock(&self.range).snapshot()
    }

    /// Accepts the versions of a partner, wherever the two trees differ, and passes the receipts to `keep`. Ends after
    /// `turns` asks. Refused: LinkLost, Gone, BadMessage, OtherFormat, OtherRange, SessionsFull, Dirty, Crowded,
    /// JournalFull.
    pub fn sync(
        &self,
        link: &mut impl Link,
        seat: u8,
        turns: u64,
        keep: impl FnMut(Receipt),
    ) -> Result<Synced, Refusal> {
        let offer = Offer::decode(&link.offer()?)?;
        let id = lock(&self.range).open_session(&offer)?;
        let walked = self.walk(link, seat, id, offer.number, turns, keep);
        if !matches!(walked, Ok(Synced { state: State::Finished | State::Failed, .. })) {
            lock(&self.range).cancel_session(id);
        }
        walked
    }

    fn walk(
        &self,
        link: &mut impl Link,
        seat: u8,
        id: usize,
        offer: u32,
        turns: u64,
        mut keep: impl FnMut(Receipt),
    ) -> Result<Synced, Refusal> {
        let (mut accepted, mut known, mut bad) = (0, 0, 0);
        for _ in 0..turns {
            let Some(at) = lock(&self.range).session(id)?.next() else { break };
            let bytes = link.ask(&Ask { offer, at }.encode())?;
            let answer = Answer::decode(&bytes).ok().filter(|answer| answer.offer == offer);
            let Some(answer) = answer else {
                bad += 1;
                continue;
            };
            let digest = hash(answer.text);
            let taken = lock(&self.range).take_answer(seat, id, answer.at, answer.text, digest);
            match taken {
                Ok(Taken { receipts, known: of_leaf }) => {
                    accepted += receipts.len() as u64;
                    known += of_leaf;
                    receipts.into_iter().for_each(&mut keep);
                }
                Err(Refusal::NotAsked | Refusal::WrongDigest) => bad += 1,
                Err(Refusal::NotCanonical) => break,
                Err(refusal) => return Err(refusal),
            }
        }
        let range = lock(&self.range);
        let session = range.session(id)?;
        Ok(Synced { state: session.state, asked: session.asked, accepted, known, bad })
    }

    /// Closes the range. Returns true if the passes agree with its journal.
    pub fn close(self, passes: &[Pass]) -> bool {
        let range = self.range.into_inner().unwrap_or_else(PoisonError::into_inner);
        agree(passes, range.journal())
    }
}
