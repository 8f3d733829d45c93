//! An intake over a caller's image and map: opening, deliveries and packets.

use crate::raw::{self, DONE, SAME};
use crate::{DeliveredPacket, Refusal};

/// Bytes in a block.
pub const BLOCK: usize = 512;

/// Bytes in the longest file.
pub const FILE_MAX: u64 = 268_435_456;

/// The words of a map for a file of `len` bytes: one bit for each of its `len / 512` blocks, 64 to a word. That is
/// `SARVOLTIG_SIZE_MAP` of the C header.
///
/// A number of words that a `usize` of 32 bits does not hold is given as [`usize::MAX`]; no file of an allowed length
/// has so many.
///
/// ```
/// use sarvoltig::map_words;
///
/// static MAP: [u64; map_words(27_648)] = [0; 1];
/// assert_eq!(map_words(32_768), 1);
/// assert_eq!(map_words(32_768 + 511), 1);
/// assert_eq!(map_words(32_768 + 512), 2);
/// ```
#[must_use]
pub const fn map_words(len: u64) -> usize {
    let words = (len / BLOCK as u64).div_ceil(64);
    if words > usize::MAX as u64 {
        return usize::MAX;
    }
    words as usize
}

/// What a delivery did. Both carry the number of blocks held after it.
#[derive(Clone, Copy, Debug, PartialEq, Eq, Hash)]
pub enum Delivered {
    /// The block was not held, and is now.
    New(u64),
    /// The block was held with the same bytes; nothing changed.
    Same(u64),
}

impl Delivered {
    /// The number of blocks held after the delivery.
    #[must_use]
    pub fn held(self) -> u64 {
        match self {
            Self::New(held) | Self::Same(held) => held,
        }
    }
}

/// An intake: the file's length with the image and the map that the caller owns.
///
/// ```
/// use sarvoltig::{map_words, Delivered, Intake};
///
/// let mut image = [0; 1024];
/// let mut map = [0; map_words(1024)];
/// let mut intake = Intake::open(&mut image, &mut map)?;
/// assert_eq!(intake.deliver(1, &[7; 512])?, Delivered::New(1));
/// assert_eq!(intake.deliver(1, &[7; 512])?, Delivered::Same(1));
/// assert_eq!(intake.next_missing(0), Some(0));
/// # Ok::<(), sarvoltig::Refusal>(())
/// ```
#[derive(Debug)]
pub struct Intake<'a> {
    pub(crate) len: u64,
    pub(crate) image: &'a mut [u8],
    pub(crate) map: &'a mut [u64],
}

impl<'a> Intake<'a> {
    /// Opens an intake for a file as long as the image: clears the map's words in use.
    ///
    /// # Errors
    /// [`Refusal::Length`] and [`Refusal::MapShort`].
    pub fn open(image: &'a mut [u8], map: &'a mut [u64]) -> Result<Self, Refusal> {
        Self::open_len(image.len() as u64, image, map)
    }

    /// Opens an intake for a file of `len` bytes in an image that may be longer.
    ///
    /// # Errors
    /// Those of [`open`](Self::open), and [`Refusal::ImageShort`].
    pub fn open_len(len: u64, image: &'a mut [u8], map: &'a mut [u64]) -> Result<Self, Refusal> {
        let mut result = [0; 2];
        match raw::open(len, image, map, &mut result) {
            DONE => Ok(Self { len, image, map }),
            number => Err(Refusal::from_result(number, &result)),
        }
    }

    /// Takes up an intake that was opened before, with its file length and both buffers as they were left.
    /// Any values are safe: each call tests them again.
    #[must_use]
    pub fn resume(len: u64, image: &'a mut [u8], map: &'a mut [u64]) -> Self {
        Self { len, image, map }
    }

    /// The file's length.
    #[must_use]
    pub fn file_len(&self) -> u64 {
        self.len
    }

    /// The number of blocks in the file.
    #[must_use]
    pub fn blocks(&self) -> u64 {
        self.len / BLOCK as u64
    }

    /// The image.
    #[must_use]
    pub fn image(&self) -> &[u8] {
        self.image
    }

    /// The map.
    #[must_use]
    pub fn map(&self) -> &[u64] {
        self.map
    }

    /// Delivers a block. The first content of a block stays.
    ///
    /// # Errors
    /// [`Refusal::Length`], [`Refusal::ImageShort`], [`Refusal::MapShort`], [`Refusal::MapSpare`],
    /// [`Refusal::BlockNumber`], [`Refusal::PieceSize`] and [`Refusal::BlockDiffers`].
    pub fn deliver(&mut self, block: u64, piece: &[u8]) -> Result<Delivered, Refusal> {
        let mut result = [0; 2];
        match raw::deliver(self.len, self.image, self.map, block, piece, &mut result) {
            DONE => Ok(Delivered::New(result[0])),
            SAME => Ok(Delivered::Same(result[0])),
            number => Err(Refusal::from_result(number, &result)),
        }
    }

    /// Delivers a packet of any number of blocks: block `blocks[i]` with the 512 bytes of `pieces` from `i * 512` on.
    /// Image and map become what [`deliver`](Self::deliver) makes of them, called for one block after the other, and
    /// the answer has its result for each. The blocks held are counted once.
    ///
    /// `results` takes a code for each block, at its front, and the rest of it stays; the answer reads them from there.
    /// So a fetcher of up to 64 blocks keeps 64 numbers for it and uses them again with each packet.
    ///
    /// ```
    /// # use sarvoltig::*;
    /// # let file = std::fs::read("../tools/data/demo.pdb")?;
    /// # let mut image = vec![0; file.len()];
    /// # let mut map = vec![0; map_words(file.len() as u64)];
    /// # let mut intake = Intake::open(&mut image, &mut map)?;
    /// # let fetch = |blocks: &[u64]| {
    /// #     let parts = blocks.iter().map(|&b| &file[b as usize * BLOCK..][..BLOCK]);
    /// #     parts.collect::<Vec<_>>().concat()
    /// # };
    /// let mut results = [0; 64];
    /// let blocks = [7, 3, 7, 0];
    /// let pieces = fetch(&blocks);
    /// let packet = intake.deliver_packet(&blocks, &pieces, &mut results)?;
    /// assert_eq!(packet.held(), 3);
    /// for (block, result) in blocks.iter().zip(packet) {
    ///     match result {
    ///         Ok(Accepted::New) => println!("block {block} is there"),
    ///         Ok(Accepted::Same) => println!("block {block} was there"),
    ///         Err(refusal) => println!("block {block} is refused: {refusal}"),
    ///     }
    /// }
    /// # Ok::<(), Box<dyn std::error::Error>>(())
    /// ```
    ///
    /// # Errors
    /// [`Refusal::Length`], [`Refusal::ImageShort`], [`Refusal::MapShort`], [`Refusal::MapSpare`],
    /// [`Refusal::PieceSize`], and [`Refusal::ListShort`] where `results` is shorter than `blocks`. They refuse the
    /// packet whole: image, map and results stay. In a packet that is not refused a block may be, by
    /// [`Refusal::BlockNumber`] or [`Refusal::BlockDiffers`] in its own result; that stops none of the others.
    pub fn deliver_packet<'r>(
        &mut self,
        blocks: &[u64],
        pieces: &[u8],
        results: &'r mut [u32],
    ) -> Result<DeliveredPacket<'r>, Refusal> {
        let mut result = [0; 2];
        match raw::packet(
            self.len,
            self.image,
            self.map,
            blocks,
            pieces,
            results,
            &mut result,
        ) {
            DONE => Ok(DeliveredPacket::new(result[0], &results[..blocks.len()])),
            number => Err(Refusal::from_result(number, &result)),
        }
    }
}
