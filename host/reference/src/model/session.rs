//! Opening and delivery (section 1 of the rules), and the tests before each call (rules 2.25 to 2.28).

use std::borrow::Cow;

use super::bounds::{self, BoundsReply, LayoutReply};
use super::contents::{self, RowContents};
use super::held;
use super::listed;
use super::question::{self, RecordReply, Rows, TextReply};
use super::source::Source;
use super::Refusal;

/// The length of a block.
pub const BLOCK_SIZE: usize = 512;

const LONGEST_FILE: u64 = 268_435_456;

/// A good answer to a delivery, with the held count after the call.
#[derive(Clone, Copy, Debug, PartialEq, Eq)]
pub enum Delivered {
    /// The block was not held; it is stored now.
    New(u64),
    /// The block was held with equal bytes.
    Same(u64),
}

/// The image and map, and the record of the last opening not refused.
///
/// ```
/// use sarvoltig_reference::model::{Delivered, Refusal, Rows, Session};
///
/// let mut session = Session::new(vec![7; 600], vec![u64::MAX; 1]);
/// assert_eq!(session.rows(1u8, &mut []), Err(Refusal { number: 1, value: 0, entry: 0 }));
/// assert_eq!(session.open(512), Ok(1));
/// let waiting = Rows::Waiting { page: 0, rows: 0, pages: 0 };
/// assert_eq!(session.rows(1u8, &mut []), Ok(waiting));
/// assert_eq!(session.deliver(0, &[1; 512]), Ok(Delivered::New(1)));
/// assert_eq!(session.deliver(0, &[1; 512]), Ok(Delivered::Same(1)));
/// assert_eq!(session.rows(1u8, &mut []), Err(Refusal { number: 9, value: 0, entry: 0 }));
/// ```
#[derive(Clone, Debug)]
pub struct Session {
    image: Vec<u8>,
    map: Vec<u64>,
    file_len: u64,
}

impl Session {
    /// A session before any opening: its record's length is 0.
    pub fn new(image: Vec<u8>, map: Vec<u64>) -> Self {
        Session {
            image,
            map,
            file_len: 0,
        }
    }

    /// Takes other buffers and keeps the record.
    ///
    /// ```
    /// # use sarvoltig_reference::model::{Refusal, Session};
    /// let mut session = Session::new(vec![0; 512], vec![0; 1]);
    /// session.open(512)?;
    /// session.replace_buffers(vec![0; 511], vec![0; 1]);
    /// assert_eq!(session.file_len(), 512);
    /// let too_short = Refusal { number: 2, value: 0, entry: 0 };
    /// assert_eq!(session.deliver(0, &[0; 512]), Err(too_short));
    /// # Ok::<(), Refusal>(())
    /// ```
    pub fn replace_buffers(&mut self, image: Vec<u8>, map: Vec<u64>) {
        self.image = image;
        self.map = map;
    }

    /// Writes word `i` of the map from outside, if the map has it.
    ///
    /// ```
    /// # use sarvoltig_reference::model::Session;
    /// let mut session = Session::new(vec![], vec![0; 2]);
    /// session.write_word(1, 5);
    /// session.write_word(2, 6);
    /// assert_eq!(session.map(), [0, 5]);
    /// ```
    pub fn write_word(&mut self, i: u64, v: u64) {
        let word = usize::try_from(i).ok().and_then(|i| self.map.get_mut(i));
        if let Some(word) = word {
            *word = v;
        }
    }

    /// The image.
    pub fn image(&self) -> &[u8] {
        &self.image
    }

    /// The map.
    pub fn map(&self) -> &[u64] {
        &self.map
    }

    /// The record: the file length of the last opening not refused, or 0.
    pub fn file_len(&self) -> u64 {
        self.file_len
    }

    /// Opens an intake of a file of `len` bytes and answers B.
    ///
    /// # Errors
    ///
    /// Refusals 1, 2 and 3; the earlier record stays.
    ///
    /// ```
    /// # use sarvoltig_reference::model::Session;
    /// let mut session = Session::new(vec![7; 1100], vec![9; 2]);
    /// assert_eq!(session.open(1024), Ok(2));
    /// assert_eq!(session.map(), [0, 9]);
    /// assert_eq!(session.image(), [7; 1100]);
    /// assert!(session.open(1536).is_err());
    /// assert_eq!(session.file_len(), 1024);
    /// ```
    pub fn open(&mut self, len: u64) -> Result<u64, Refusal> {
        let blocks = self.check_sizes(len)?;
        self.map[..counted_words(blocks)].fill(0);
        self.file_len = len;
        Ok(blocks)
    }

    /// Takes a block in.
    ///
    /// # Errors
    ///
    /// Refusals 1 to 7.
    ///
    /// ```
    /// # use sarvoltig_reference::model::{Delivered, Refusal, Session};
    /// let mut session = Session::new(vec![0; 1024], vec![0; 1]);
    /// session.open(1024)?;
    /// assert_eq!(session.deliver(1, &[5; 512])?, Delivered::New(1));
    /// assert_eq!(session.deliver(1, &[5; 512])?, Delivered::Same(1));
    /// let other_bytes = Refusal { number: 7, value: 0, entry: 0 };
    /// assert_eq!(session.deliver(1, &[6; 512]), Err(other_bytes));
    /// assert_eq!(session.image()[512..], [5; 512]);
    /// # Ok::<(), Refusal>(())
    /// ```
    pub fn deliver(&mut self, block: u64, piece: &[u8]) -> Result<Delivered, Refusal> {
        let blocks = self.check_intake()?;
        if block >= blocks {
            return Err(Refusal::plain(5));
        }
        if piece.len() != BLOCK_SIZE {
            return Err(Refusal::plain(6));
        }
        let block = block as usize;
        let stored = &mut self.image[block * BLOCK_SIZE..][..BLOCK_SIZE];
        if is_held(&self.map, block) {
            return if stored == piece {
                Ok(Delivered::Same(held_count(&self.map, blocks)))
            } else {
                Err(Refusal::plain(7))
            };
        }
        stored.copy_from_slice(piece);
        self.map[block / 64] |= 1 << (block % 64);
        Ok(Delivered::New(held_count(&self.map, blocks)))
    }

    /// All rows of a table: their places go to the front of `list`.
    ///
    /// # Errors
    ///
    /// Refusals 1 to 4, 8 to 17 and 25; the list stays as it was.
    ///
    /// ```
    /// # use sarvoltig_reference::{generate, model::{Rows, Session}};
    /// # let file = generate::demo();
    /// # let mut session = Session::new(file.clone(), vec![0; 8]);
    /// # session.open(file.len() as u64)?;
    /// # for (block, piece) in (0..).zip(file.chunks(512)) {
    /// #     session.deliver(block, piece)?;
    /// # }
    /// let mut list = [0; 10];
    /// assert_eq!(session.rows(1u8, &mut list)?, Rows::Full { rows: 5, pages: 1 });
    /// assert_eq!(list[5..], [0; 5]);
    /// # Ok::<(), sarvoltig_reference::model::Refusal>(())
    /// ```
    pub fn rows(&self, table: impl Into<u32>, list: &mut [u32]) -> Result<Rows, Refusal> {
        self.check_intake()?;
        question::rows(self, table.into(), list)
    }

    /// Record `k` of a table.
    ///
    /// # Errors
    ///
    /// Refusals 1 to 4, 8 to 16, 18 and 25.
    ///
    /// ```
    /// # use sarvoltig_reference::{generate, model::{RecordReply, Session}};
    /// # let file = generate::demo();
    /// # let mut session = Session::new(file.clone(), vec![0; 8]);
    /// # session.open(file.len() as u64)?;
    /// # for (block, piece) in (0..).zip(file.chunks(512)) {
    /// #     session.deliver(block, piece)?;
    /// # }
    /// let first = RecordReply::Found { page: 14, entry: 0, numbers: vec![1] };
    /// assert_eq!(session.record(1u8, 0)?, first);
    /// # Ok::<(), sarvoltig_reference::model::Refusal>(())
    /// ```
    pub fn record(&self, table: impl Into<u32>, k: u64) -> Result<RecordReply, Refusal> {
        self.check_intake()?;
        question::record(self, table.into(), k)
    }

    /// String slot `slot` of record `k` of a table.
    ///
    /// # Errors
    ///
    /// Refusals 1 to 4, 8 to 16, 18, 19 and 25.
    ///
    /// ```
    /// # use sarvoltig_reference::{generate, model::{Encoding, Session, TextReply}};
    /// # let file = generate::demo();
    /// # let mut session = Session::new(file.clone(), vec![0; 8]);
    /// # session.open(file.len() as u64)?;
    /// # for (block, piece) in (0..).zip(file.chunks(512)) {
    /// #     session.deliver(block, piece)?;
    /// # }
    /// assert!(matches!(session.text(1u8, 0, 0)?, TextReply::Found { len: 5, .. }));
    ///
    /// // The recording code of the first track.
    /// let code = session.text(0u8, 0, 0)?;
    /// assert!(matches!(code, TextReply::Found { len: 12, encoding: Encoding::Ascii, .. }));
    /// # Ok::<(), sarvoltig_reference::model::Refusal>(())
    /// ```
    pub fn text(&self, table: impl Into<u32>, k: u64, slot: u64) -> Result<TextReply, Refusal> {
        self.check_intake()?;
        question::text(self, table.into(), k, slot)
    }

    /// The record of the row that element `i` of `list` names, where a question
    /// for all rows of the table wrote the list. One page is read.
    ///
    /// # Errors
    ///
    /// Refusals 1 to 4, 8, 9, 12 to 15, 18 and 25.
    ///
    /// ```
    /// # use sarvoltig_reference::{generate, model::Session};
    /// # let file = generate::demo();
    /// # let mut session = Session::new(file.clone(), vec![0; 8]);
    /// # session.open(file.len() as u64)?;
    /// # for (block, piece) in (0..).zip(file.chunks(512)) {
    /// #     session.deliver(block, piece)?;
    /// # }
    /// let mut list = [0; 5];
    /// session.rows(1u8, &mut list)?;
    /// assert_eq!(session.record_in(1u8, &list, 4)?, session.record(1u8, 4)?);
    /// assert!(session.record_in(1u8, &list, 5).is_err());
    /// # Ok::<(), sarvoltig_reference::model::Refusal>(())
    /// ```
    pub fn record_in(
        &self,
        table: impl Into<u32>,
        list: &[u32],
        i: u64,
    ) -> Result<RecordReply, Refusal> {
        self.check_intake()?;
        listed::record_in(self, table.into(), list, i)
    }

    /// String slot `slot` of the row that element `i` of `list` names, as
    /// [`Session::record_in`].
    ///
    /// # Errors
    ///
    /// Refusals 1 to 4, 8, 9, 12 to 15, 18, 19 and 25.
    ///
    /// ```
    /// # use sarvoltig_reference::{generate, model::Session};
    /// # let file = generate::demo();
    /// # let mut session = Session::new(file.clone(), vec![0; 8]);
    /// # session.open(file.len() as u64)?;
    /// # for (block, piece) in (0..).zip(file.chunks(512)) {
    /// #     session.deliver(block, piece)?;
    /// # }
    /// let mut list = [0; 5];
    /// session.rows(1u8, &mut list)?;
    /// assert_eq!(session.text_in(1u8, &list, 4, 0)?, session.text(1u8, 4, 0)?);
    /// # Ok::<(), sarvoltig_reference::model::Refusal>(())
    /// ```
    pub fn text_in(
        &self,
        table: impl Into<u32>,
        list: &[u32],
        i: u64,
        slot: u64,
    ) -> Result<TextReply, Refusal> {
        self.check_intake()?;
        listed::text_in(self, table.into(), list, i, slot)
    }

    /// Whether the file has the block and the block is held. Nothing is refused.
    ///
    /// ```
    /// # use sarvoltig_reference::model::{Refusal, Session};
    /// let mut session = Session::new(vec![0; 1024], vec![0; 1]);
    /// assert!(!session.holds(1));
    /// session.open(1024)?;
    /// session.deliver(1, &[5; 512])?;
    /// assert_eq!([0, 1, 2].map(|block| session.holds(block)), [false, true, false]);
    /// # Ok::<(), Refusal>(())
    /// ```
    pub fn holds(&self, block: u64) -> bool {
        held::holds(self.file_len, &self.map, block)
    }

    /// The first block from `from` on that is not held. Nothing is refused.
    ///
    /// ```
    /// # use sarvoltig_reference::model::{Refusal, Session};
    /// let mut session = Session::new(vec![0; 1024], vec![0; 1]);
    /// assert_eq!(session.missing(0), None);
    /// session.open(1024)?;
    /// session.deliver(0, &[5; 512])?;
    /// assert_eq!(session.missing(0), Some(1));
    /// # Ok::<(), Refusal>(())
    /// ```
    pub fn missing(&self, from: u64) -> Option<u64> {
        held::missing(self.file_len, &self.map, from)
    }

    /// The length and the number of the file's pages.
    ///
    /// # Errors
    ///
    /// Refusals 1 to 4 and 9.
    ///
    /// ```
    /// # use sarvoltig_reference::{generate, model::{LayoutReply, Session}};
    /// # let file = generate::demo();
    /// # let mut session = Session::new(file.clone(), vec![0; 8]);
    /// # session.open(file.len() as u64)?;
    /// session.deliver(0, &file[..512])?;
    /// let layout = LayoutReply::Found { len_page: 1024, pages: 27 };
    /// assert_eq!(session.layout()?, layout);
    /// # Ok::<(), sarvoltig_reference::model::Refusal>(())
    /// ```
    pub fn layout(&self) -> Result<LayoutReply, Refusal> {
        self.check_intake()?;
        bounds::layout(self)
    }

    /// The first and the last page of a table.
    ///
    /// # Errors
    ///
    /// Refusals 1 to 4 and 8 to 11.
    ///
    /// ```
    /// # use sarvoltig_reference::{generate, model::{BoundsReply, Session}};
    /// # let file = generate::demo();
    /// # let mut session = Session::new(file.clone(), vec![0; 8]);
    /// # session.open(file.len() as u64)?;
    /// session.deliver(0, &file[..512])?;
    /// let bounds = BoundsReply::Found { first_page: 15, last_page: 16 };
    /// assert_eq!(session.bounds(2u8)?, bounds);
    /// # Ok::<(), sarvoltig_reference::model::Refusal>(())
    /// ```
    pub fn bounds(&self, table: impl Into<u32>) -> Result<BoundsReply, Refusal> {
        self.check_intake()?;
        bounds::bounds(self, table.into())
    }

    /// Calls `visit` for each row of a table in order, with its record and its
    /// strings, and answers as [`Session::rows`] with room for all. After a
    /// refusal the rows visited before the fault are not to be used.
    ///
    /// # Errors
    ///
    /// Refusals 1 to 4, 8 to 16 and 25.
    ///
    /// ```
    /// # use sarvoltig_reference::{generate, model::{Rows, Session}};
    /// # let file = generate::demo();
    /// # let mut session = Session::new(file.clone(), vec![0; 8]);
    /// # session.open(file.len() as u64)?;
    /// # for (block, piece) in (0..).zip(file.chunks(512)) {
    /// #     session.deliver(block, piece)?;
    /// # }
    /// let mut ids = Vec::new();
    /// let rows = session.for_each_row(1u8, |row| ids.push(row.numbers[0]))?;
    /// assert_eq!(rows, Rows::Full { rows: 5, pages: 1 });
    /// assert_eq!(ids, [1, 2, 3, 4, 5]);
    /// # Ok::<(), sarvoltig_reference::model::Refusal>(())
    /// ```
    pub fn for_each_row(
        &self,
        table: impl Into<u32>,
        visit: impl FnMut(RowContents),
    ) -> Result<Rows, Refusal> {
        self.check_intake()?;
        contents::for_each_row(self, table.into(), visit)
    }

    /// The pages that a walk of a table reads without a fault, in the order of
    /// its chain (rule 4.5). The answer of [`Session::rows`] carries their number.
    ///
    /// # Errors
    ///
    /// Refusals 1 to 4, 8 to 16 and 25. The pages before a fault are not given.
    ///
    /// ```
    /// # use sarvoltig_reference::{generate, model::{Rows, Session}};
    /// # let file = generate::demo();
    /// # let mut session = Session::new(file.clone(), vec![0; 8]);
    /// # session.open(file.len() as u64)?;
    /// # for (block, piece) in (0..).zip(file.chunks(512)) {
    /// #     session.deliver(block, piece)?;
    /// # }
    /// assert_eq!(session.pages_walked(2u8)?, [15, 16]);
    /// let rows = session.rows(2u8, &mut [0; 100])?;
    /// assert!(matches!(rows, Rows::Full { pages: 2, .. }));
    /// # Ok::<(), sarvoltig_reference::model::Refusal>(())
    /// ```
    pub fn pages_walked(&self, table: impl Into<u32>) -> Result<Vec<u32>, Refusal> {
        self.check_intake()?;
        question::pages_walked(self, table.into())
    }

    /// Rules 2.1 to 2.3; gives B.
    fn check_sizes(&self, len: u64) -> Result<u64, Refusal> {
        let blocks = block_count(len)?;
        if (self.image.len() as u64) < len {
            return Err(Refusal::plain(2));
        }
        if self.map.len() < counted_words(blocks) {
            return Err(Refusal::plain(3));
        }
        Ok(blocks)
    }

    /// Rules 2.1 to 2.4 for the record; gives B.
    pub(super) fn check_intake(&self) -> Result<u64, Refusal> {
        let blocks = self.check_sizes(self.file_len)?;
        if spare_bit_set(&self.map, blocks) {
            return Err(Refusal::plain(4));
        }
        Ok(blocks)
    }
}

impl Source for Session {
    fn file_len(&self) -> u64 {
        self.file_len
    }

    fn held_bytes(&self, place: usize, len: usize) -> Option<Cow<'_, [u8]>> {
        (place / BLOCK_SIZE..(place + len) / BLOCK_SIZE)
            .all(|block| is_held(&self.map, block))
            .then(|| Cow::Borrowed(&self.image[place..place + len]))
    }
}

/// B of an allowed file length (rules 1.6, 1.7).
pub(super) fn block_count(len: u64) -> Result<u64, Refusal> {
    let block = BLOCK_SIZE as u64;
    if (block..=LONGEST_FILE).contains(&len) && len.is_multiple_of(block) {
        Ok(len / block)
    } else {
        Err(Refusal::plain(1))
    }
}

/// Rule 1.9.
fn counted_words(blocks: u64) -> usize {
    blocks.div_ceil(64) as usize
}

fn is_held(map: &[u64], block: usize) -> bool {
    map[block / 64] >> (block % 64) & 1 == 1
}

/// Rule 1.17.
pub(super) fn held_count(map: &[u64], blocks: u64) -> u64 {
    map[..counted_words(blocks)]
        .iter()
        .map(|word| u64::from(word.count_ones()))
        .sum()
}

/// Whether a counted word has a one that belongs to no block (rule 2.4).
fn spare_bit_set(map: &[u64], blocks: u64) -> bool {
    match blocks % 64 {
        0 => false,
        used => map[counted_words(blocks) - 1] >> used != 0,
    }
}
