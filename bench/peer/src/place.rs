//! The place of a key in a ring: its range, and its leaf in the range's tree.
use crate::format::Format;

/// The place of a key.
#[derive(Clone, Copy)]
pub struct Place {
    /// The key's range.
    pub range: u16,
    /// The index of its leaf.
    pub leaf: u16,
    /// The last bytes of the key's MD5, for maps of keys.
    pub mark: u64,
}

impl Place {
    /// Returns the place of a key in a ring of 2^bits ranges.
    pub fn of(key: &[u8], bits: u8, format: Format) -> Place {
        let digest = u128::from_be_bytes(md5::compute(key).0);
        let first = (digest >> 64) as u64;
        let leaf_bits = 4 * u32::from(format.depth());
        Place {
            range: first.checked_shr(64 - u32::from(bits)).unwrap_or(0) as u16,
            leaf: (first << bits >> (64 - leaf_bits)) as u16,
            mark: digest as u64,
        }
    }
}
