//! The received blocks of a run, without record, image and map (rules 8.3 to 8.8).

use std::borrow::Cow;

use super::bounds::{self, BoundsReply, LayoutReply};
use super::listed;
use super::question::{self, RecordReply, Rows, TextReply};
use super::session::block_count;
use super::source::Source;
use super::{Refusal, BLOCK_SIZE};

/// The received blocks of a run, kept from the arguments of its opening, deliveries and packets.
/// The questions are answered from L, the received blocks and the list.
///
/// ```
/// use sarvoltig_reference::model::Received;
///
/// let mut received = Received::open(1024)?;
/// received.deliver(1, &[7; 512]);
/// received.deliver(1, &[8; 512]);
/// received.deliver(2, &[7; 512]);
/// assert_eq!(received.block(1), Some(&[7; 512]));
/// assert_eq!(received.held_count(), 1);
/// # Ok::<(), sarvoltig_reference::model::Refusal>(())
/// ```
#[derive(Clone, Debug, PartialEq, Eq)]
pub struct Received {
    blocks: Vec<Option<[u8; BLOCK_SIZE]>>,
}

impl Received {
    /// The received blocks of a run that opens a file of `len` bytes.
    ///
    /// # Errors
    ///
    /// Refusal 1, when no run has this length.
    pub fn open(len: u64) -> Result<Self, Refusal> {
        let blocks = block_count(len)?;
        Ok(Received {
            blocks: vec![None; blocks as usize],
        })
    }

    /// Enters a delivery: the first block of a number stays.
    pub fn deliver(&mut self, block: u64, piece: &[u8]) {
        let entry = usize::try_from(block)
            .ok()
            .and_then(|block| self.blocks.get_mut(block));
        if let (Some(entry), Ok(piece)) = (entry, piece.try_into()) {
            entry.get_or_insert(piece);
        }
    }

    /// Enters a packet with a list of `room` results: each of its blocks is a
    /// delivery, but a packet that is refused whole brings none.
    ///
    /// ```
    /// # use sarvoltig_reference::model::Received;
    /// let mut received = Received::open(1024)?;
    /// let pieces = [[7; 512], [8; 512], [9; 512]].concat();
    /// received.deliver_packet(&[1, 2, 1], &pieces, 2);
    /// assert_eq!(received.held_count(), 0);
    /// received.deliver_packet(&[1, 2, 1], &pieces, 3);
    /// assert_eq!(received.block(1), Some(&[7; 512]));
    /// assert_eq!(received.held_count(), 1);
    /// # Ok::<(), sarvoltig_reference::model::Refusal>(())
    /// ```
    pub fn deliver_packet(&mut self, blocks: &[u64], pieces: &[u8], room: usize) {
        let pieces: Vec<&[u8]> = pieces.chunks(BLOCK_SIZE).collect();
        let one_each =
            pieces.len() == blocks.len() && pieces.iter().all(|piece| piece.len() == BLOCK_SIZE);
        if one_each && blocks.len() <= room {
            for (block, piece) in blocks.iter().zip(pieces) {
                self.deliver(*block, piece);
            }
        }
    }

    /// The block of a number, if it is received.
    pub fn block(&self, block: usize) -> Option<&[u8; BLOCK_SIZE]> {
        self.blocks.get(block)?.as_ref()
    }

    /// B, the number of blocks that the file has.
    ///
    /// ```
    /// # use sarvoltig_reference::model::Received;
    /// assert_eq!(Received::open(1024)?.block_count(), 2);
    /// # Ok::<(), sarvoltig_reference::model::Refusal>(())
    /// ```
    pub fn block_count(&self) -> u64 {
        self.blocks.len() as u64
    }

    /// How many are received.
    pub fn held_count(&self) -> u64 {
        self.blocks.iter().flatten().count() as u64
    }

    /// The whole file, when every block is received.
    ///
    /// ```
    /// # use sarvoltig_reference::model::Received;
    /// let mut received = Received::open(512)?;
    /// assert_eq!(received.whole_file(), None);
    /// received.deliver(0, &[7; 512]);
    /// assert_eq!(received.whole_file(), Some(vec![7; 512]));
    /// # Ok::<(), sarvoltig_reference::model::Refusal>(())
    /// ```
    pub fn whole_file(&self) -> Option<Vec<u8>> {
        concat(&self.blocks)
    }

    /// All rows of a table, as [`Session::rows`](super::Session::rows).
    ///
    /// # Errors
    ///
    /// Refusals 8 to 17 and 25.
    pub fn rows(&self, table: impl Into<u32>, list: &mut [u32]) -> Result<Rows, Refusal> {
        question::rows(self, table.into(), list)
    }

    /// Record `k` of a table.
    ///
    /// # Errors
    ///
    /// Refusals 8 to 16, 18 and 25.
    pub fn record(&self, table: impl Into<u32>, k: u64) -> Result<RecordReply, Refusal> {
        question::record(self, table.into(), k)
    }

    /// String slot `slot` of record `k` of a table.
    ///
    /// # Errors
    ///
    /// Refusals 8 to 16, 18, 19 and 25.
    pub fn text(&self, table: impl Into<u32>, k: u64, slot: u64) -> Result<TextReply, Refusal> {
        question::text(self, table.into(), k, slot)
    }

    /// The record of element `i` of a list, as [`Session::record_in`](super::Session::record_in).
    ///
    /// # Errors
    ///
    /// Refusals 8, 9, 12 to 15, 18 and 25.
    pub fn record_in(
        &self,
        table: impl Into<u32>,
        list: &[u32],
        i: u64,
    ) -> Result<RecordReply, Refusal> {
        listed::record_in(self, table.into(), list, i)
    }

    /// A string of element `i` of a list, as [`Session::text_in`](super::Session::text_in).
    ///
    /// # Errors
    ///
    /// Refusals 8, 9, 12 to 15, 18, 19 and 25.
    pub fn text_in(
        &self,
        table: impl Into<u32>,
        list: &[u32],
        i: u64,
        slot: u64,
    ) -> Result<TextReply, Refusal> {
        listed::text_in(self, table.into(), list, i, slot)
    }

    /// Whether the block is received.
    pub fn holds(&self, block: u64) -> bool {
        usize::try_from(block).is_ok_and(|block| self.block(block).is_some())
    }

    /// The first block from `from` on that the file has and that is not received.
    pub fn missing(&self, from: u64) -> Option<u64> {
        let blocks = (0..).zip(&self.blocks);
        let mut absent = blocks.filter(|(_, block)| block.is_none());
        absent.find_map(|(number, _)| (number >= from).then_some(number))
    }

    /// The file's pages, as [`Session::layout`](super::Session::layout).
    ///
    /// # Errors
    ///
    /// Refusal 9.
    pub fn layout(&self) -> Result<LayoutReply, Refusal> {
        bounds::layout(self)
    }

    /// The first and the last page of a table, as [`Session::bounds`](super::Session::bounds).
    ///
    /// # Errors
    ///
    /// Refusals 8 to 11.
    pub fn bounds(&self, table: impl Into<u32>) -> Result<BoundsReply, Refusal> {
        bounds::bounds(self, table.into())
    }
}

impl Source for Received {
    fn file_len(&self) -> u64 {
        (self.blocks.len() * BLOCK_SIZE) as u64
    }

    fn held_bytes(&self, place: usize, len: usize) -> Option<Cow<'_, [u8]>> {
        concat(&self.blocks[place / BLOCK_SIZE..(place + len) / BLOCK_SIZE]).map(Cow::Owned)
    }
}

/// The blocks one after another, if none is missing.
fn concat(blocks: &[Option<[u8; BLOCK_SIZE]>]) -> Option<Vec<u8>> {
    let mut bytes = Vec::with_capacity(blocks.len() * BLOCK_SIZE);
    for block in blocks {
        bytes.extend_from_slice(block.as_ref()?);
    }
    Some(bytes)
}
