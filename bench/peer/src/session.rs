//! Sessions, in which a range asks a partner for the nodes whose digests differ.
use crate::cursor::Cursor;
use crate::format::{Format, FAN};
use crate::refusal::Refusal;
use crate::tree::{Digest, NodeAt, Tree};
use std::collections::VecDeque;

/// The maximum number of open sessions of a range.
const OPEN_MAX: usize = 64;

/// The maximum number of records of a range.
const RECORDS_MAX: usize = 1_024;

/// The state of a session.
#[derive(Clone, Copy, Debug, PartialEq, Eq)]
pub enum State {
    /// Nodes are outstanding.
    Open,
    /// All nodes were taken.
    Finished,
    /// A text with the expected digest isn't a node's text.
    Failed,
    /// The session was given up.
    Cancelled,
}

/// The record of a session.
pub struct Session {
    /// The state of the session.
    pub state: State,
    /// The number of nodes that were asked for.
    pub asked: u64,
    /// The snapshot that was taken at the opening, until the session ends.
    local: Option<Tree>,
    outstanding: VecDeque<(NodeAt, Digest)>,
}

impl Session {
    /// Opens a session on a local snapshot and a partner's root.
    fn start(local: Tree, root: Digest) -> Session {
        let mut session = Session { state: State::Open, asked: 0, local: None, outstanding: VecDeque::new() };
        if local.root() == Some(root) {
            session.state = State::Finished;
        } else {
            session.local = Some(local);
            session.ask(NodeAt::ROOT, root);
        }
        session
    }

    fn ask(&mut self, at: NodeAt, digest: Digest) {
        self.asked += 1;
        self.outstanding.push_back((at, digest));
    }

    /// Returns the first outstanding node.
    pub fn next(&self) -> Option<NodeAt> {
        self.outstanding.front().map(|&(at, _)| at)
    }

    /// Checks the digest of a node's text. Refused: NotAsked, WrongDigest.
    pub fn check(&self, at: NodeAt, digest: Digest) -> Result<(), Refusal> {
        match self.outstanding.iter().find(|asked| asked.0 == at) {
            None => Err(Refusal::NotAsked),
            Some(asked) if asked.1 != digest => Err(Refusal::WrongDigest),
            Some(_) => Ok(()),
        }
    }

    /// Takes the checked text of an inner node. Refused: NotCanonical.
    pub fn take_inner(&mut self, at: NodeAt, text: &[u8], format: Format) -> Result<(), Refusal> {
        let digests = inner_digests(text, format).ok_or(Refusal::NotCanonical)?;
        let children: Vec<NodeAt> = (0..FAN).map(|number| at.child(number)).collect();
        for (&child, &digest) in children.iter().zip(&digests) {
            let differs = self.local.as_ref().is_none_or(|local| local.digest_at(child) != Some(digest));
            if differs {
                self.ask(child, digest);
            }
        }
        self.take(at);
        Ok(())
    }

    /// Removes a node that was taken, and finishes the session after the last one.
    pub fn take(&mut self, at: NodeAt) {
        if self.next() == Some(at) {
            self.outstanding.pop_front();
        } else {
            self.outstanding.retain(|asked| asked.0 != at);
        }
        if self.outstanding.is_empty() {
            self.end(State::Finished);
        }
    }

    fn end(&mut self, state: State) {
        self.state = state;
        self.local = None;
        self.outstanding.clear();
    }
}

/// Returns the digests of the children in the text of an inner node, or `None` if it isn't one.
fn inner_digests(text: &[u8], format: Format) -> Option<Vec<Digest>> {
    let mut cursor = Cursor::new(text);
    cursor.u8().filter(|&tag| tag == format.inner_tag())?;
    let digests: Option<Vec<Digest>> = (0..FAN).map(|_| cursor.digest()).collect();
    digests.filter(|_| cursor.rest().is_empty())
}

/// The sessions of a range. Their records stay.
#[derive(Default)]
pub struct Sessions {
    records: Vec<Session>,
    open: usize,
}

impl Sessions {
    /// Returns true if there is no room for one more session.
    pub fn is_full(&self) -> bool {
        self.open == OPEN_MAX || self.records.len() == RECORDS_MAX
    }

    /// Opens a session, for which there is room, and returns its number.
    pub fn open(&mut self, local: Tree, root: Digest) -> usize {
        self.records.push(Session::start(local, root));
        let id = self.records.len() - 1;
        self.open += usize::from(self.records[id].state == State::Open);
        id
    }

    /// Returns the record of a session.
    pub fn get(&self, id: usize) -> Option<&Session> {
        self.records.get(id)
    }

    /// Changes a session by a function.
    pub fn change<T>(&mut self, id: usize, change: impl FnOnce(&mut Session) -> T) -> Option<T> {
        let session = self.records.get_mut(id)?;
        let was_open = session.state == State::Open;
        let changed = change(session);
        if was_open && session.state != State::Open {
            self.open -= 1;
        }
        Some(changed)
    }

    /// Ends a session that is open.
    pub fn end(&mut self, id: usize, state: State) {
        self.change(id, |session| {
            if session.state == State::Open {
                session.end(state);
            }
        });
    }
}
