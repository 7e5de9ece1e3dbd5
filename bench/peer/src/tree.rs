//! Merkle trees over the rows of a range.
use crate::format::{Format, FAN};
use crate::rows::Rows;
use rayon::prelude::*;
use sha2::{Digest as _, Sha256};
use std::sync::Arc;

/// The SHA-256 of a node's text.
pub type Digest = [u8; 32];

/// Returns the digest of a text.
pub fn hash(text: &[u8]) -> Digest {
    Sha256::digest(text).into()
}

/// A node's place in a tree.
#[derive(Clone, Copy, PartialEq, Eq, Debug)]
pub struct NodeAt {
    /// Its depth, 0 for the root.
    pub depth: u8,
    /// Its index among the nodes of its depth.
    pub index: u16,
}

impl NodeAt {
    /// The root.
    pub const ROOT: NodeAt = NodeAt { depth: 0, index: 0 };

    /// Returns the node of a depth and an index, or `None` if trees of the format don't have it.
    pub fn new(format: Format, depth: u64, index: u64) -> Option<NodeAt> {
        if depth > u64::from(format.depth()) || index >= 1 << (4 * depth) {
            return None;
        }
        Some(NodeAt { depth: depth as u8, index: index as u16 })
    }

    /// Returns a child of the node.
    pub fn child(self, number: usize) -> NodeAt {
        NodeAt { depth: self.depth + 1, index: FAN as u16 * self.index + number as u16 }
    }

    /// Returns the number of the child, at a depth from 1 on, on the way from the root to the node.
    fn step(self, depth: u8) -> usize {
        usize::from(self.index >> (4 * (self.depth - depth))) % FAN
    }
}

/// A tree or a part of one. Clones share the nodes until one of both is changed, so a clone is a snapshot.
#[derive(Clone)]
pub struct Tree {
    /// The digest of the top node, `None` if it is dirty. The nodes below a clean one are clean.
    digest: Option<Digest>,
    body: Arc<Body>,
}

#[derive(Clone)]
enum Body {
    Inner(Vec<Tree>),
    Leaf(Rows),
}

impl Body {
    /// Appends the text of the node. Returns `None` if a child is dirty.
    fn write_text(&self, format: Format, out: &mut Vec<u8>) -> Option<()> {
        match self {
            Body::Inner(children) => {
                out.push(format.inner_tag());
                for child in children {
                    out.extend_from_slice(&child.digest?);
                }
            }
            Body::Leaf(rows) => {
                out.push(format.leaf_tag());
                rows.write_text(format, out);
            }
        }
        Some(())
    }

    /// Returns the digest of the node's text, or `None` if a child is dirty.
    fn hash(&self, format: Format) -> Option<Digest> {
        let mut hasher = Sha256::new();
        match self {
            Body::Inner(children) => {
                hasher.update([format.inner_tag()]);
                for child in children {
                    hasher.update(child.digest?);
                }
            }
            Body::Leaf(rows) => {
                hasher.update([format.leaf_tag()]);
                rows.read_text(format, |piece| hasher.update(piece));
            }
        }
        Some(hasher.finalize().into())
    }
}

/// A dirty node whose children are clean, to be hashed without the lock of its range.
pub struct Job {
    at: NodeAt,
    format: Format,
    body: Arc<Body>,
}

impl Job {
    /// Returns the digest of the node.
    pub fn run(&self) -> Option<Digest> {
        self.body.hash(self.format)
    }
}

impl Tree {
    /// Returns the tree over no rows. All its nodes are dirty.
    pub fn new(format: Format) -> Tree {
        let leaf = Tree { digest: None, body: Arc::new(Body::Leaf(Rows::default())) };
        (0..format.depth()).fold(leaf, |child, _| Tree { digest: None, body: Arc::new(Body::Inner(vec![child; FAN])) })
    }

    /// Returns the digest of the top node, or `None` if it is dirty.
    pub fn root(&self) -> Option<Digest> {
        self.digest
    }

    fn at(&self, at: NodeAt) -> &Tree {
        let mut tree = self;
        for depth in 1..=at.depth {
            if let Body::Inner(children) = &*tree.body {
                tree = &children[at.step(depth)];
            }
        }
        tree
    }

    /// Returns the digest of a node, or `None` if it is dirty.
    pub fn digest_at(&self, at: NodeAt) -> Option<Digest> {
        self.at(at).digest
    }

    /// Appends the text of a node. Returns `None` if a child is dirty.
    pub fn write_text_at(&self, at: NodeAt, format: Format, out: &mut Vec<u8>) -> Option<()> {
        self.at(at).body.write_text(format, out)
    }

    /// Calls a function with the rows of a leaf.
    pub fn with_rows<T>(&self, leaf: NodeAt, read: impl FnOnce(&Rows) -> T) -> T {
        match &*self.at(leaf).body {
            Body::Leaf(rows) => read(rows),
            Body::Inner(_) => read(&Rows::default()),
        }
    }

    /// Edits the rows of a leaf. If the edit succeeds, the leaf and each node above it become dirty; otherwise it has
    /// changed nothing.
    pub fn edit<E>(&mut self, leaf: NodeAt, edit: impl FnOnce(&mut Rows) -> Result<(), E>) -> Result<(), E> {
        self.edit_below(leaf, 1, edit)
    }

    fn edit_below<E>(
        &mut self,
        leaf: NodeAt,
        depth: u8,
        edit: impl FnOnce(&mut Rows) -> Result<(), E>,
    ) -> Result<(), E> {
        match Arc::make_mut(&mut self.body) {
            Body::Inner(children) => children[leaf.step(depth)].edit_below(leaf, depth + 1, edit)?,
            Body::Leaf(rows) => edit(rows)?,
        }
        self.digest = None;
        Ok(())
    }

    /// Returns a job for a dirty node, or `None` if the tree is clean. Workers with different `skip` begin their search
    /// at different leaves.
    pub fn take_job(&self, format: Format, skip: usize) -> Option<Job> {
        self.job_below(NodeAt::ROOT, format, skip)
    }

    fn job_below(&self, at: NodeAt, format: Format, skip: usize) -> Option<Job> {
        if self.digest.is_some() {
            return None;
        }
        if let Body::Inner(children) = &*self.body {
            let mut numbers = (0..FAN).map(|i| (i + skip) % FAN);
            let found = numbers.find_map(|number| children[number].job_below(at.child(number), format, skip / FAN));
            if found.is_some() {
                return found;
            }
        }
        Some(Job { at, format, body: Arc::clone(&self.body) })
    }

    /// Installs the digest of a job. Returns false if the node has another text now. While the job has a node, a change
    /// of its text makes a new one.
    pub fn install(&mut self, job: Job, digest: Digest) -> bool {
        let now = self.at(job.at);
        if !Arc::ptr_eq(&now.body, &job.body) {
            return false;
        }
        if now.digest.is_none() {
            let at = job.at;
            drop(job);
            self.set_digest(at, 1, digest);
        }
        true
    }

    fn set_digest(&mut self, at: NodeAt, depth: u8, digest: Digest) {
        if depth > at.depth {
            self.digest = Some(digest);
        } else if let Body::Inner(children) = Arc::make_mut(&mut self.body) {
            children[at.step(depth)].set_digest(at, depth + 1, digest);
        }
    }

    /// Hashes all dirty nodes, and returns their number. The children of a node are hashed on all processors if several
    /// are dirty.
    pub fn rehash(&mut self, format: Format) -> u64 {
        if self.digest.is_some() {
            return 0;
        }
        let mut hashed = 1;
        if let Body::Inner(children) = &*self.body {
            let dirty = children.iter().filter(|child| child.digest.is_none()).count();
            if dirty > 0 {
                hashed += self.rehash_children(format, dirty > 1);
            }
        }
        self.digest = self.body.hash(format);
        hashed
    }

    fn rehash_children(&mut self, format: Format, at_once: bool) -> u64 {
        match Arc::make_mut(&mut self.body) {
            Body::Inner(children) if at_once => children.par_iter_mut().map(|child| child.rehash(format)).sum(),
            Body::Inner(children) => children.iter_mut().map(|child| child.rehash(format)).sum(),
            Body::Leaf(_) => 0,
        }
    }
}
