//! What a packet of blocks did: the held count, and a result for each block.

use crate::raw::{DONE, SAME};
use crate::Refusal;
use core::iter::FusedIterator;

/// What a block of a packet did that was not refused. Unlike [`Delivered`](crate::Delivered) it carries no count: the
/// blocks held are counted once, behind the packet.
#[derive(Clone, Copy, Debug, PartialEq, Eq, Hash)]
pub enum Accepted {
    /// The block was not held, and is now.
    New,
    /// The block was held with the same bytes, also from earlier in the packet; nothing changed.
    Same,
}

/// The answer of [`Intake::deliver_packet`](crate::Intake::deliver_packet): the number of blocks held after the packet,
/// and what each of its blocks did. It borrows the caller's results and nothing of the intake.
///
/// ```
/// use sarvoltig::{Accepted, Intake, Refusal};
///
/// let mut image = [0; 1024];
/// let mut map = [0; 1];
/// let mut intake = Intake::open(&mut image, &mut map)?;
/// let mut results = [0; 64];
/// // the file has blocks 0 and 1
/// let packet = intake.deliver_packet(&[1, 2, 1], &[7; 3 * 512], &mut results)?;
/// assert_eq!(packet.held(), 1);
/// assert_eq!(packet.len(), 3);
/// assert_eq!(packet.get(2), Some(Ok(Accepted::Same)));
/// assert_eq!(packet.get(3), None);
/// let refused = packet.iter().filter_map(Result::err);
/// assert!(refused.eq([Refusal::BlockNumber]));
/// # Ok::<(), Refusal>(())
/// ```
#[derive(Clone, Copy, Debug)]
#[must_use = "a block of the packet may be refused"]
pub struct DeliveredPacket<'r> {
    held: u64,
    codes: &'r [u32],
}

impl<'r> DeliveredPacket<'r> {
    /// The codes are those of the packet's blocks, and no more.
    pub(crate) fn new(held: u64, codes: &'r [u32]) -> Self {
        Self { held, codes }
    }

    /// The number of blocks held after the packet.
    #[must_use]
    pub fn held(&self) -> u64 {
        self.held
    }

    /// How many blocks the packet had.
    #[must_use]
    pub fn len(&self) -> usize {
        self.codes.len()
    }

    /// Whether it had none.
    #[must_use]
    pub fn is_empty(&self) -> bool {
        self.codes.is_empty()
    }

    /// What block `i` of the packet did, from 0.
    #[must_use]
    pub fn get(&self, i: usize) -> Option<Result<Accepted, Refusal>> {
        self.codes.get(i).map(|&code| result(code))
    }

    /// What each block did, in the order of the packet.
    pub fn iter(&self) -> BlockIter<'r> {
        BlockIter {
            left: self.codes.iter(),
        }
    }
}

impl<'r> IntoIterator for DeliveredPacket<'r> {
    type Item = Result<Accepted, Refusal>;
    type IntoIter = BlockIter<'r>;

    fn into_iter(self) -> BlockIter<'r> {
        self.iter()
    }
}

impl<'r> IntoIterator for &DeliveredPacket<'r> {
    type Item = Result<Accepted, Refusal>;
    type IntoIter = BlockIter<'r>;

    fn into_iter(self) -> BlockIter<'r> {
        self.iter()
    }
}

/// What the blocks of a packet did, one by one, made by [`DeliveredPacket::iter`].
///
/// ```
/// # use sarvoltig::{Accepted, Intake, Refusal};
/// # let (mut image, mut map, mut results) = ([0; 1024], [0; 1], [0; 64]);
/// # let mut intake = Intake::open(&mut image, &mut map)?;
/// let mut blocks = intake.deliver_packet(&[1, 2], &[7; 2 * 512], &mut results)?.iter();
/// assert_eq!(blocks.next(), Some(Ok(Accepted::New)));
/// assert_eq!(blocks.len(), 1);
/// assert_eq!(blocks.next(), Some(Err(Refusal::BlockNumber)));
/// assert_eq!(blocks.next(), None);
/// # Ok::<(), Refusal>(())
/// ```
#[derive(Clone, Debug)]
#[must_use = "iterators do nothing unless they are consumed"]
pub struct BlockIter<'r> {
    left: core::slice::Iter<'r, u32>,
}

impl Iterator for BlockIter<'_> {
    type Item = Result<Accepted, Refusal>;

    fn next(&mut self) -> Option<Self::Item> {
        self.left.next().map(|&code| result(code))
    }

    fn size_hint(&self) -> (usize, Option<usize>) {
        self.left.size_hint()
    }
}

impl DoubleEndedIterator for BlockIter<'_> {
    fn next_back(&mut self) -> Option<Self::Item> {
        self.left.next_back().map(|&code| result(code))
    }
}

impl ExactSizeIterator for BlockIter<'_> {}

impl FusedIterator for BlockIter<'_> {}

/// What a block did, by its code. The refusals of a block, 5 and 7, have no value and no entry.
fn result(code: u32) -> Result<Accepted, Refusal> {
    match code {
        DONE => Ok(Accepted::New),
        SAME => Ok(Accepted::Same),
        number => Err(Refusal::new(number, 0, 0)),
    }
}
