//! The rows of a table, read from the list of their places.

use crate::{Intake, Record, Refusal, Reply, Row, Table, Text, Walk};
use core::iter::FusedIterator;
use core::ops::Range;

/// The list of `Intake::rows`.
#[cfg(feature = "alloc")]
type Own = alloc::vec::Vec<u32>;
#[cfg(not(feature = "alloc"))]
type Own = [u32; 0];

/// The rows of a table that were found, in order: a list of their places, and where the walk came to. The list `P` is
/// the caller's, of [`Intake::rows_in`], or one of its own, of `Intake::rows`, which is meant where none is named.
///
/// ```
/// # use sarvoltig::*;
/// # let file = std::fs::read("../tools/data/demo.pdb")?;
/// # let mut image = vec![0; file.len()];
/// # let mut map = vec![0; map_words(file.len() as u64)];
/// # let mut intake = Intake::open(&mut image, &mut map)?;
/// # for (number, piece) in (0..).zip(file.chunks(BLOCK)) {
/// #     intake.deliver(number, piece)?;
/// # }
/// let mut list = [0; 100];
/// let playlists = intake.rows_in(Table::PlaylistTree, &mut list)?;
/// assert!(playlists.walk().is_full());
/// let mut names = Vec::new();
/// for row in &playlists {
///     names.push(row.text(0)?.to_string());
/// }
/// assert_eq!(names, ["Saturday", "Warm-up", "Peak", "Closing"]);
/// # Ok::<(), Box<dyn std::error::Error>>(())
/// ```
#[derive(Clone, Debug)]
pub struct Rows<'a, P = Own> {
    intake: &'a Intake<'a>,
    table: Table,
    walk: Walk,
    places: P,
}

impl<'a, P: AsRef<[u32]>> Rows<'a, P> {
    pub(crate) fn new(intake: &'a Intake<'a>, table: Table, walk: Walk, places: P) -> Self {
        Self {
            intake,
            table,
            walk,
            places,
        }
    }

    /// Where the walk came to: Full, or Waiting with more rows to come.
    #[must_use]
    pub fn walk(&self) -> Walk {
        self.walk
    }

    /// How many rows were found.
    #[must_use]
    pub fn len(&self) -> usize {
        self.places().len()
    }

    /// Whether none was found.
    #[must_use]
    pub fn is_empty(&self) -> bool {
        self.places().is_empty()
    }

    /// The list: where each row starts in the image.
    #[must_use]
    pub fn places(&self) -> &[u32] {
        self.places.as_ref()
    }

    /// The list without the intake, to keep while more blocks are delivered. [`Intake::record_in`] and
    /// [`Intake::text_in`] read from it.
    #[must_use]
    pub fn into_places(self) -> P {
        self.places
    }

    /// Row `i`, from 0.
    #[must_use]
    pub fn get(&self, i: usize) -> Option<ListedRow<'_, 'a>> {
        self.listed().get(i)
    }

    /// The rows in order.
    #[must_use]
    pub fn iter(&self) -> RowIter<'_, 'a> {
        RowIter {
            listed: self.listed(),
            left: 0..self.len(),
        }
    }

    fn listed(&self) -> Listed<'_, 'a> {
        Listed {
            intake: self.intake,
            table: self.table,
            places: self.places(),
        }
    }
}

impl<'r, 'a, P: AsRef<[u32]>> IntoIterator for &'r Rows<'a, P> {
    type Item = ListedRow<'r, 'a>;
    type IntoIter = RowIter<'r, 'a>;

    fn into_iter(self) -> RowIter<'r, 'a> {
        self.iter()
    }
}

/// What a row is read from.
#[derive(Clone, Copy, Debug)]
struct Listed<'r, 'a> {
    intake: &'a Intake<'a>,
    table: Table,
    places: &'r [u32],
}

impl<'r, 'a> Listed<'r, 'a> {
    fn get(self, i: usize) -> Option<ListedRow<'r, 'a>> {
        (i < self.places.len()).then_some(ListedRow { listed: self, i })
    }
}

/// The rows of a table one by one, made by [`Rows::iter`].
#[derive(Clone, Debug)]
pub struct RowIter<'r, 'a> {
    listed: Listed<'r, 'a>,
    left: Range<usize>,
}

impl<'r, 'a> Iterator for RowIter<'r, 'a> {
    type Item = ListedRow<'r, 'a>;

    fn next(&mut self) -> Option<ListedRow<'r, 'a>> {
        self.listed.get(self.left.next()?)
    }

    fn size_hint(&self) -> (usize, Option<usize>) {
        self.left.size_hint()
    }
}

impl DoubleEndedIterator for RowIter<'_, '_> {
    fn next_back(&mut self) -> Option<Self::Item> {
        self.listed.get(self.left.next_back()?)
    }
}

impl ExactSizeIterator for RowIter<'_, '_> {}

impl FusedIterator for RowIter<'_, '_> {}

/// A row in a list. Its record and its strings are read from its page alone.
#[derive(Clone, Copy, Debug)]
pub struct ListedRow<'r, 'a> {
    listed: Listed<'r, 'a>,
    i: usize,
}

impl<'a> ListedRow<'_, 'a> {
    /// Its number among the table's rows, from 0.
    #[must_use]
    pub fn number(&self) -> u64 {
        self.i as u64
    }

    /// Where it starts in the image.
    #[must_use]
    pub fn place(&self) -> u32 {
        self.listed.places[self.i]
    }

    /// Its page, its index entry and its record.
    ///
    /// ```
    /// # use sarvoltig::*;
    /// # let file = std::fs::read("../tools/data/demo.pdb")?;
    /// # let mut image = vec![0; file.len()];
    /// # let mut map = vec![0; map_words(file.len() as u64)];
    /// # let mut intake = Intake::open(&mut image, &mut map)?;
    /// # for (number, piece) in (0..).zip(file.chunks(BLOCK)) {
    /// #     intake.deliver(number, piece)?;
    /// # }
    /// let mut list = [0; 100];
    /// let tracks = intake.rows_in(Table::Tracks, &mut list)?;
    /// let fourth = tracks.get(3).ok_or("no track")?;
    /// let row = fourth.read()?;
    /// // three tracks stand on page 1
    /// assert_eq!((row.page, row.entry), (2, 0));
    /// assert_eq!(row.record, fourth.record()?);
    /// # Ok::<(), Box<dyn std::error::Error>>(())
    /// ```
    ///
    /// # Errors
    /// None: the row was found, and the image and the map are as they were then.
    pub fn read(&self) -> Result<Row, Refusal> {
        let Listed {
            intake,
            table,
            places,
        } = self.listed;
        found(intake.record_in(table, places, self.number()))
    }

    /// Its record.
    ///
    /// # Errors
    /// None, as of [`read`](Self::read).
    pub fn record(&self) -> Result<Record, Refusal> {
        self.read().map(|row| row.record)
    }

    /// The text of one of its string slots, which may be kept for longer than the list.
    ///
    /// # Errors
    /// [`Refusal::NoSlot`].
    pub fn text(&self, slot: u64) -> Result<Text<'a>, Refusal> {
        let Listed {
            intake,
            table,
            places,
        } = self.listed;
        found(intake.text_in(table, places, self.number(), slot))
    }
}

/// What a call gave for a row that is there.
fn found<T>(answer: Result<Reply<T>, Refusal>) -> Result<T, Refusal> {
    answer?.found().ok_or(Refusal::NoRow)
}
