//! Hints, which a carrier keeps for replicas that are down.
use crate::refusal::Refusal;
use crate::version::Version;

/// The maximum number of pending hints.
const PENDING_MAX: usize = 10_000;

/// The greatest number of a hint.
const NUMBER_MAX: u64 = u32::MAX as u64;

/// A pending hint.
pub struct Hint {
    /// The index of the node that the version is for.
    pub owner: usize,
    /// The version, with its key.
    pub version: Version,
}

/// The hints of a carrier.
#[derive(Default)]
pub struct Hints {
    kept: u64,
    pending: Vec<Hint>,
}

impl Hints {
    /// Keeps a hint. Refused: HintsFull.
    pub fn keep(&mut self, hint: Hint) -> Result<(), Refusal> {
        if self.pending.len() == PENDING_MAX || self.kept == NUMBER_MAX {
            return Err(Refusal::HintsFull);
        }
        self.kept += 1;
        self.pending.push(hint);
        Ok(())
    }

    /// Offers each pending hint to a function, oldest first, and removes those for which it returns true.
    pub fn deliver(&mut self, mut offer: impl FnMut(&Hint) -> bool) {
        self.pending.retain(|hint| !offer(hint));
    }

    /// Returns the number of pending hints.
    pub fn pending(&self) -> usize {
        self.pending.len()
    }
}
