//! Which blocks of a file are held, and which is missing (rules 1.23, 1.24). No length and no map is refused.

use super::BLOCK_SIZE;

/// Whether a file of `len` bytes has the block, and the map has its bit.
///
/// ```
/// use sarvoltig_reference::model::holds;
///
/// assert_eq!([0, 1, 2].map(|block| holds(1024, &[0b110], block)), [false, true, false]);
/// ```
pub fn holds(len: u64, map: &[u64], block: u64) -> bool {
    block < blocks(len) && has_bit(map, block)
}

/// The first block from `from` on that a file of `len` bytes has and that is not held.
///
/// ```
/// use sarvoltig_reference::model::missing;
///
/// assert_eq!(missing(1536, &[0b101], 0), Some(1));
/// assert_eq!(missing(1536, &[0b101], 2), None);
/// ```
pub fn missing(len: u64, map: &[u64], from: u64) -> Option<u64> {
    (from..blocks(len)).find(|block| !holds(len, map, *block))
}

/// B, for any length.
fn blocks(len: u64) -> u64 {
    len / BLOCK_SIZE as u64
}

/// A word that the map does not have counts as 0 (rule 1.8).
fn has_bit(map: &[u64], block: u64) -> bool {
    let word = usize::try_from(block / 64).ok().and_then(|i| map.get(i));
    word.is_some_and(|word| word >> (block % 64) & 1 == 1)
}
