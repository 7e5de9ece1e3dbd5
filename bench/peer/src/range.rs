//! A replica of a range: its rows and their tree, its journal and its sessions. One caller at a time uses it.
use crate::clock::Clock;
use crate::cursor::Cursor;
use crate::format::Format;
use crate::journal::{Entry, Journal, Receipt, Source};
use crate::message::Offer;
use crate::place::Place;
use crate::refusal::Refusal;
use crate::session::{Session, Sessions, State};
use crate::tree::{Digest, Job, NodeAt, Tree};
use crate::version::{
    count_kept, cover, have_seen, read_key, read_row, strip_row, Held, Version, KEY_MAX, VERSIONS_MAX,
};

/// The configuration of a range.
#[derive(Clone, Copy)]
pub struct Config {
    /// The format of rows and tree.
    pub format: Format,
    /// The bits of the ring.
    pub bits: u8,
    /// The number of the range.
    pub number: u16,
    /// The maximum number of entries of the journal.
    pub limit: u64,
}

impl Config {
    /// Returns the place of a key. Refused: BadKey, OtherRange.
    pub fn place(&self, key: &[u8]) -> Result<Place, Refusal> {
        check_key(key)?;
        self.place_here(key)
    }

    fn place_here(&self, key: &[u8]) -> Result<Place, Refusal> {
        let place = Place::of(key, self.bits, self.format);
        if place.range != self.number {
            return Err(Refusal::OtherRange);
        }
        Ok(place)
    }

    /// Makes the version of a put at a node. It needs no range, and thus no lock. Refused: BadKey, BadValue,
    /// OtherRange, ClockFull, CounterFull.
    pub fn put(&self, node: u16, key: &[u8], context: &Clock, value: Option<&[u8]>) -> Result<New, Refusal> {
        check_key(key)?;
        check_value(self.format, value)?;
        let place = self.place_here(key)?;
        Ok(New { place, version: Version::new(key, &context.raise(node)?, value) })
    }

    /// Returns the version of another replica with its place. Refused: OtherRange.
    pub fn copy(&self, version: Version) -> Result<New, Refusal> {
        Ok(New { place: self.place_here(version.key())?, version })
    }

    fn leaf(&self, place: Place) -> NodeAt {
        NodeAt { depth: self.format.depth(), index: place.leaf }
    }
}

/// Checks the length of a key. Refused: BadKey.
pub fn check_key(key: &[u8]) -> Result<(), Refusal> {
    if key.is_empty() || key.len() > KEY_MAX {
        return Err(Refusal::BadKey);
    }
    Ok(())
}

/// Checks a value, or a tombstone. Refused: BadValue.
pub fn check_value(format: Format, value: Option<&[u8]>) -> Result<(), Refusal> {
    let is_value = value.map_or(format == Format::Two, |value| value.len() <= format.value_max());
    if is_value {
        Ok(())
    } else {
        Err(Refusal::BadValue)
    }
}

/// A version to accept, with the place of its key.
pub struct New {
    /// The place of the key.
    pub place: Place,
    /// The version.
    pub version: Version,
}

/// The result of an answer that a session took.
pub struct Taken {
    /// The receipts of the versions that were accepted.
    pub receipts: Vec<Receipt>,
    /// The number of versions that were known.
    pub known: u64,
}

/// The versions of a partner's leaf that a range doesn't know.
struct News {
    rows: Vec<Vec<New>>,
    known: u64,
}

/// The reason why a version wasn't accepted.
enum Unchanged {
    Known,
    Refused(Refusal),
}

/// A replica of a range.
pub struct Range {
    config: Config,
    tree: Tree,
    journal: Journal,
    sessions: Sessions,
}

impl Range {
    /// Returns a replica that has accepted nothing.
    pub fn new(config: Config) -> Range {
        Range {
            config,
            tree: Tree::new(config.format),
            journal: Journal::new(config.limit),
            sessions: Sessions::default(),
        }
    }

    /// Returns the configuration.
    pub fn config(&self) -> Config {
        self.config
    }

    /// Returns the journal.
    pub fn journal(&self) -> &Journal {
        &self.journal
    }

    /// Accepts the version of a put. Refused: StaleContext, Crowded, JournalFull.
    pub fn put(&mut self, seat: u8, new: New) -> Result<Receipt, Refusal> {
        let stale = Unchanged::Refused(Refusal::StaleContext);
        match self.admit(seat, Source::Client, new, |held, new| have_seen(held, new.clock()), stale) {
            Ok(receipt) => Ok(receipt),
            Err(Unchanged::Refused(refusal)) => Err(refusal),
            Err(Unchanged::Known) => Err(Refusal::StaleContext),
        }
    }

    /// Accepts a version of another replica, unless the held versions cover it: then it is known, and the result is
    /// `None`. Refused: Crowded, JournalFull.
    pub fn accept(&mut self, seat: u8, source: Source, new: New) -> Result<Option<Receipt>, Refusal> {
        match self.admit(seat, source, new, cover, Unchanged::Known) {
            Ok(receipt) => Ok(Some(receipt)),
            Err(Unchanged::Known) => Ok(None),
            Err(Unchanged::Refused(refusal)) => Err(refusal),
        }
    }

    fn admit(
        &mut self,
        seat: u8,
        source: Source,
        new: New,
        bars: impl FnOnce(&[Version], &Version) -> bool,
        barred: Unchanged,
    ) -> Result<Receipt, Unchanged> {
        let New { place, version } = new;
        let has_room = self.journal.room() > 0;
        self.tree.edit(self.config.leaf(place), |rows| {
            let spot = rows.find(version.key());
            let held = rows.held(spot);
            if bars(held, &version) {
                return Err(barred);
            }
            if held.len() >= VERSIONS_MAX && count_kept(held, std::slice::from_ref(&version)) >= VERSIONS_MAX {
                return Err(Unchanged::Refused(Refusal::Crowded));
            }
            if !has_room {
                return Err(Unchanged::Refused(Refusal::JournalFull));
            }
            rows.add(spot, version.clone());
            Ok(())
        })?;
        let number = self.journal.append(Entry { version: version.clone(), seat, source });
        Ok(Receipt { number, mark: place.mark, version, source })
    }

    /// Returns the versions held for a key, whose place this is.
    pub fn get(&self, key: &[u8], place: Place) -> Held {
        self.tree.with_rows(self.config.leaf(place), |rows| rows.get(key))
    }

    /// Returns a job for a dirty node, or `None` if the tree is clean.
    pub fn take_job(&self, skip: usize) -> Option<Job> {
        self.tree.take_job(self.config.format, skip)
    }

    /// Installs the digest of a job. Refused: Stale, if the node has another text now.
    pub fn install(&mut self, job: Job, digest: Digest) -> Result<(), Refusal> {
        if self.tree.install(job, digest) {
            Ok(())
        } else {
            Err(Refusal::Stale)
        }
    }

    /// Hashes all dirty nodes on all processors, and returns their number.
    pub fn rehash(&mut self) -> u64 {
        self.tree.rehash(self.config.format)
    }

    /// Returns a snapshot of the rows and the tree. Refused: Dirty.
    pub fn snapshot(&self) -> Result<Tree, Refusal> {
        match self.tree.root() {
            Some(_) => Ok(self.tree.clone()),
            None => Err(Refusal::Dirty),
        }
    }

    /// Returns the digest of a node, or `None` if it is dirty.
    pub fn digest_at(&self, at: NodeAt) -> Option<Digest> {
        self.tree.digest_at(at)
    }

    /// Opens a session on a partner's offer, and returns its number. Refused: OtherFormat, OtherRange, SessionsFull,
    /// Dirty.
    pub fn open_session(&mut self, offer: &Offer) -> Result<usize, Refusal> {
        if offer.format != self.config.format.number() {
            return Err(Refusal::OtherFormat);
        }
        if u16::from(offer.range) != self.config.number {
            return Err(Refusal::OtherRange);
        }
        if self.sessions.is_full() {
            return Err(Refusal::SessionsFull);
        }
        Ok(self.sessions.open(self.snapshot()?, offer.root))
    }

    /// Returns the record of a session. Refused: UnknownSession.
    pub fn session(&self, id: usize) -> Result<&Session, Refusal> {
        self.sessions.get(id).ok_or(Refusal::UnknownSession)
    }

    /// Cancels a session that is open.
    pub fn cancel_session(&mut self, id: usize) {
        self.sessions.end(id, State::Cancelled);
    }

    /// Has a session take the text of an outstanding node. The versions of a leaf are accepted, all or none. Refused:
    /// UnknownSession, NotAsked, WrongDigest, NotCanonical, Crowded, JournalFull. After NotCanonical the session has
    /// failed.
    pub fn take_answer(
        &mut self,
        seat: u8,
        id: usize,
        at: NodeAt,
        text: &[u8],
        digest: Digest,
    ) -> Result<Taken, Refusal> {
        self.session(id)?.check(at, digest)?;
        let taken = if at.depth < self.config.format.depth() {
            self.take_inner(id, at, text)
        } else {
            self.take_leaf(seat, id, at, text)
        };
        if let Err(Refusal::NotCanonical) = taken {
            self.sessions.end(id, State::Failed);
        }
        taken
    }

    fn take_inner(&mut self, id: usize, at: NodeAt, text: &[u8]) -> Result<Taken, Refusal> {
        let format = self.config.format;
        let taken = self.sessions.change(id, |session| session.take_inner(at, text, format));
        taken.ok_or(Refusal::UnknownSession)??;
        Ok(Taken { receipts: Vec::new(), known: 0 })
    }

    fn take_leaf(&mut self, seat: u8, id: usize, at: NodeAt, text: &[u8]) -> Result<Taken, Refusal> {
        let news = self.read_leaf(at, text).ok_or(Refusal::NotCanonical)?;
        if self.would_crowd(at, &news) {
            return Err(Refusal::Crowded);
        }
        let new: Vec<New> = news.rows.into_iter().flatten().collect();
        if new.len() as u64 > self.journal.room() {
            return Err(Refusal::JournalFull);
        }
        let mut receipts = Vec::with_capacity(new.len());
        for new in new {
            receipts.extend(self.accept(seat, Source::Partner, new)?);
        }
        self.sessions.change(id, |session| session.take(at));
        Ok(Taken { receipts, known: news.known })
    }

    /// Reads the text of a partner's leaf. Returns `None` if it isn't the text of that leaf. Rows whose texts are equal
    /// to local ones are known without being read.
    fn read_leaf(&self, at: NodeAt, text: &[u8]) -> Option<News> {
        let Config { format, bits, .. } = self.config;
        let mut cursor = Cursor::new(text);
        cursor.u8().filter(|&tag| tag == format.leaf_tag())?;
        let mut news = News { rows: Vec::new(), known: 0 };
        let mut last: Option<&[u8]> = None;
        self.tree.with_rows(at, |rows| {
            let mut local = rows.iter().peekable();
            while !cursor.rest().is_empty() {
                let mut ahead = cursor;
                let key = read_key(&mut ahead)?;
                if last.is_some_and(|last| key <= last) {
                    return None;
                }
                last = Some(key);
                while local.peek().is_some_and(|versions| versions[0].key() < key) {
                    local.next();
                }
                let held = local.peek().filter(|versions| versions[0].key() == key).copied().unwrap_or_default();
                let equal = if held.is_empty() { None } else { strip_row(cursor.rest(), held, format) };
                if let Some(rest) = equal {
                    cursor = Cursor::new(rest);
                    news.known += held.len() as u64;
                    continue;
                }
                let versions = read_row(&mut cursor, format)?;
                let place = Place::of(key, bits, format);
                if place.range != self.config.number || place.leaf != at.index {
                    return None;
                }
                let count = versions.len();
                let new: Vec<New> = versions
                    .into_iter()
                    .filter(|version| !cover(held, version))
                    .map(|version| New { place, version })
                    .collect();
                news.known += (count - new.len()) as u64;
                news.rows.push(new);
            }
            Some(())
        })?;
        Some(news)
    }

    /// Returns true if a key would have too many versions with the new ones.
    fn would_crowd(&self, leaf: NodeAt, news: &News) -> bool {
        self.tree.with_rows(leaf, |rows| {
            news.rows.iter().filter(|row| !row.is_empty()).any(|row| {
                let held = rows.held(rows.find(row[0].version.key()));
                let new: Vec<Version> = row.iter().map(|new| new.version.clone()).collect();
                count_kept(held, &new) + new.len() > VERSIONS_MAX
            })
        })
    }
}
