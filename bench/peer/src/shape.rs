//! The keys and values of the benchmarks.
use crate::version::KEY_MAX;
use std::io::Write;

/// The odd factor that scrambles a number, and the step of the numbers that a value is made of.
const SCRAMBLE: u64 = 0x9e37_79b9_7f4a_7c15;

/// The least length of a scrambled key, in bytes.
const SCRAMBLED_KEY_MIN: usize = 13;

/// The number of bytes of a value that depend on its number. The others are 7.
const NUMBERED_BYTES: usize = 32;

/// The lengths of keys and values, in bytes. Keys of length 0 are `key-` and a number.
#[derive(Clone, Copy)]
pub struct Shape {
    /// The length of a key.
    pub key_bytes: usize,
    /// The length of a value.
    pub value_bytes: usize,
}

impl Default for Shape {
    fn default() -> Shape {
        Shape { key_bytes: 0, value_bytes: NUMBERED_BYTES }
    }
}

impl Shape {
    /// Returns true if no length is over the limit.
    pub fn is_valid(&self, value_max: usize) -> bool {
        self.key_bytes <= KEY_MAX && self.value_bytes <= value_max
    }

    /// Returns the key of a number. Scrambled keys are in no order.
    pub fn key(&self, number: u64) -> Vec<u8> {
        let mut key = Vec::with_capacity(self.key_bytes.max(24));
        if self.key_bytes == 0 {
            // (a vector takes all bytes)
            let _ = write!(key, "key-{number}");
            return key;
        }
        key.extend_from_slice(b"user:");
        let scrambled = number.wrapping_mul(SCRAMBLE);
        key.extend((0..16).rev().map(|digit| b"0123456789abcdef"[(scrambled >> (4 * digit)) as usize % 16]));
        key.resize(self.key_bytes.max(SCRAMBLED_KEY_MIN), b'z');
        key
    }

    /// Returns the value of a number. Its first 32 bytes differ from those of each other number.
    pub fn value(&self, number: u64) -> Vec<u8> {
        let mut value = Vec::with_capacity(self.value_bytes.max(NUMBERED_BYTES));
        let mut state = number;
        for _ in 0..NUMBERED_BYTES / 8 {
            state = state.wrapping_add(SCRAMBLE);
            let half = (state ^ (state >> 30)).wrapping_mul(0xbf58_476d_1ce4_e5b9);
            value.extend_from_slice(&(half ^ (half >> 27)).to_be_bytes());
        }
        value.resize(self.value_bytes, 7);
        value
    }
}
