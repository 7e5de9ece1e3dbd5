//! The two formats of rows and trees.

/// The number of children of an inner node.
pub const FAN: usize = 16;

/// A format of rows and trees.
#[derive(Clone, Copy, Debug, PartialEq, Eq)]
pub enum Format {
    /// Live values, and trees of depth 2.
    One,
    /// Live values and tombstones, and trees of depth 3.
    Two,
}

impl Format {
    /// Returns the format of a number.
    pub fn of_number(number: u64) -> Option<Format> {
        match number {
            1 => Some(Format::One),
            2 => Some(Format::Two),
            _ => None,
        }
    }

    /// Returns the number of the format.
    pub fn number(self) -> u8 {
        match self {
            Format::One => 1,
            Format::Two => 2,
        }
    }

    /// Returns the depth of the leaves.
    pub fn depth(self) -> u8 {
        self.number() + 1
    }

    /// Returns the maximum length of a value, in bytes.
    pub fn value_max(self) -> usize {
        match self {
            Format::One => 4_096,
            Format::Two => 65_536,
        }
    }

    /// Returns the first byte of a leaf's text.
    pub fn leaf_tag(self) -> u8 {
        2 * (self.number() - 1)
    }

    /// Returns the first byte of an inner node's text.
    pub fn inner_tag(self) -> u8 {
        self.leaf_tag() + 1
    }
}
