//! Where a question finds the blocks that are held.

use std::borrow::Cow;

pub(super) trait Source {
    /// L.
    fn file_len(&self) -> u64;

    /// The `len` bytes from `place`, if every block of them is held. Both
    /// numbers are multiples of the block's size, and the end is at most L.
    fn held_bytes(&self, place: usize, len: usize) -> Option<Cow<'_, [u8]>>;
}
