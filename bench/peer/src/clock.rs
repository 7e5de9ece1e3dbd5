//! Version clocks.
use crate::refusal::Refusal;
use smallvec::SmallVec;

/// The number of bytes of a pair in a text.
pub const PAIR_BYTES: usize = 10;

/// The maximum number of pairs of a clock.
pub const PAIRS_MAX: usize = 32;

/// The pairs of a clock as bytes: node and counter, in ascending order of node.
#[derive(Clone, Copy, PartialEq, Eq)]
pub struct Pairs<'a>(&'a [u8]);

impl<'a> Pairs<'a> {
    /// Returns the pairs of a version's text.
    pub fn of_text(bytes: &'a [u8]) -> Pairs<'a> {
        Pairs(bytes)
    }

    /// Returns the bytes of the pairs.
    pub fn bytes(self) -> &'a [u8] {
        self.0
    }

    /// Returns the number of pairs.
    pub fn len(self) -> usize {
        self.0.len() / PAIR_BYTES
    }

    /// Returns the pairs as numbers.
    pub fn iter(self) -> impl Iterator<Item = (u16, u64)> + 'a {
        self.0.chunks_exact(PAIR_BYTES).map(|pair| {
            let number = |bytes: &[u8]| bytes.iter().fold(0, |high, &low| high << 8 | u64::from(low));
            (number(&pair[..2]) as u16, number(&pair[2..]))
        })
    }

    /// Returns true if each counter is at most that of the other clock.
    pub fn at_most(self, other: Pairs) -> bool {
        let mut above = other.iter();
        self.len() <= other.len()
            && self.iter().all(|(node, counter)| {
                above
                    .find(|&(other_node, _)| other_node >= node)
                    .is_some_and(|pair| pair.0 == node && counter <= pair.1)
            })
    }
}

/// A clock.
#[derive(Clone, Default, PartialEq, Eq)]
pub struct Clock(SmallVec<[u8; 32]>);

impl Clock {
    /// Returns the clock of these pairs, in any order. Refused: BadClock, ClockFull.
    pub fn from_pairs(pairs: &[(u64, u64)]) -> Result<Clock, Refusal> {
        let mut sorted = SmallVec::<[(u16, u64); 4]>::new();
        for &(node, counter) in pairs {
            match u16::try_from(node) {
                Ok(node) if node > 0 && counter > 0 => sorted.push((node, counter)),
                _ => return Err(Refusal::BadClock),
            }
        }
        sorted.sort_unstable();
        if sorted.windows(2).any(|two| two[0].0 == two[1].0) {
            return Err(Refusal::BadClock);
        }
        if sorted.len() > PAIRS_MAX {
            return Err(Refusal::ClockFull);
        }
        let mut clock = Clock::default();
        for (node, counter) in sorted {
            clock.0.extend_from_slice(&node.to_be_bytes());
            clock.0.extend_from_slice(&counter.to_be_bytes());
        }
        Ok(clock)
    }

    /// Returns the pairs of the clock.
    pub fn pairs(&self) -> Pairs<'_> {
        Pairs(&self.0)
    }

    /// Returns the clock with a node's counter raised by one. Refused: ClockFull, CounterFull.
    pub fn raise(&self, node: u16) -> Result<Clock, Refusal> {
        let at = self.pairs().iter().take_while(|pair| pair.0 < node).count();
        let found = self.pairs().iter().nth(at).filter(|pair| pair.0 == node);
        let mut raised = self.clone();
        let offset = at * PAIR_BYTES;
        match found {
            Some((_, counter)) => {
                let counter = counter.checked_add(1).ok_or(Refusal::CounterFull)?;
                raised.0[offset + 2..offset + PAIR_BYTES].copy_from_slice(&counter.to_be_bytes());
            }
            None if self.pairs().len() == PAIRS_MAX => return Err(Refusal::ClockFull),
            None => {
                let [high, low] = node.to_be_bytes();
                raised.0.insert_from_slice(offset, &[high, low, 0, 0, 0, 0, 0, 0, 0, 1]);
            }
        }
        Ok(raised)
    }
}
