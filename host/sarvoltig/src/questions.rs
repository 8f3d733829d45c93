//! The questions about the rows of a table.

use crate::raw::{self, RESULT};
use crate::{Encoding, Intake, Refusal, Reply, Row, Rows, Table, Text, Walk};
#[cfg(feature = "alloc")]
use alloc::vec::Vec;

impl Intake<'_> {
    /// Asks for all rows of a table: their places go to the front of the list.
    ///
    /// # Errors
    /// [`Refusal::Length`], [`Refusal::ImageShort`], [`Refusal::MapShort`], [`Refusal::MapSpare`]; the file's own
    /// faults [`Refusal::FileHeader`], [`Refusal::NoPointer`], [`Refusal::PageLink`], [`Refusal::ChainLoop`],
    /// [`Refusal::PageNumber`], [`Refusal::PageType`], [`Refusal::RowIndex`], [`Refusal::RowShort`] and
    /// [`Refusal::TextFault`]; and [`Refusal::ListShort`].
    pub fn rows_into(&self, table: Table, list: &mut [u32]) -> Result<Walk, Refusal> {
        let mut result = [0; 3];
        let table = table.number();
        let code = raw::rows(self.len, self.image, self.map, table, list, &mut result);
        Walk::from_result(code, &result)
    }

    /// Asks for all rows of a table, and reads each from the caller's list, to which their places go.
    ///
    /// ```
    /// # use sarvoltig::*;
    /// # let file = std::fs::read("../tools/data/demo.pdb")?;
    /// # let mut image = vec![0; file.len()];
    /// # let mut map = vec![0; map_words(file.len() as u64)];
    /// # let mut intake = Intake::open(&mut image, &mut map)?;
    /// # for (number, piece) in (0..).zip(file.chunks(BLOCK)) {
    /// #     intake.deliver(number, piece)?;
    /// # }
    /// let mut list = [0; 100];
    /// let genres = intake.rows_in(Table::Genres, &mut list)?;
    /// assert_eq!(genres.len(), 5);
    /// for genre in &genres {
    ///     println!("{}", genre.text(0)?);
    /// }
    /// # Ok::<(), Box<dyn std::error::Error>>(())
    /// ```
    ///
    /// # Errors
    /// Those of [`rows_into`](Self::rows_into).
    pub fn rows_in<'l>(
        &self,
        table: Table,
        list: &'l mut [u32],
    ) -> Result<Rows<'_, &'l [u32]>, Refusal> {
        let walk = self.rows_into(table, list)?;
        Ok(Rows::new(self, table, walk, &list[..walk.rows() as usize]))
    }

    /// Asks for all rows of a table, with a list of its own, from which each row is read. It needs the feature `alloc`.
    ///
    /// ```
    /// # use sarvoltig::*;
    /// # let file = std::fs::read("../tools/data/demo.pdb")?;
    /// # let mut image = vec![0; file.len()];
    /// # let mut map = vec![0; map_words(file.len() as u64)];
    /// # let mut intake = Intake::open(&mut image, &mut map)?;
    /// # for (number, piece) in (0..).zip(file.chunks(BLOCK)) {
    /// #     intake.deliver(number, piece)?;
    /// # }
    /// for track in &intake.rows(Table::Tracks)? {
    ///     println!("{} {}", track.number(), track.text(Track::TITLE)?);
    /// }
    /// # Ok::<(), Box<dyn std::error::Error>>(())
    /// ```
    ///
    /// # Errors
    /// Those of [`rows_into`](Self::rows_into) but [`Refusal::ListShort`].
    #[cfg(feature = "alloc")]
    pub fn rows(&self, table: Table) -> Result<Rows<'_, Vec<u32>>, Refusal> {
        let mut list = Vec::new();
        let walk = match self.rows_into(table, &mut list) {
            Err(Refusal::ListShort(rows)) => {
                list.resize(usize::try_from(rows).unwrap_or(usize::MAX), 0);
                self.rows_into(table, &mut list)?
            }
            answer => answer?,
        };
        Ok(Rows::new(self, table, walk, list))
    }

    /// Asks for record `k` of a table, from 0, with its page and index entry. It walks the whole table; to read many,
    /// see [`rows_in`](Self::rows_in).
    ///
    /// # Errors
    /// Those of [`rows_into`](Self::rows_into) with [`Refusal::NoRow`] in place of [`Refusal::ListShort`].
    pub fn record(&self, table: Table, k: u64) -> Result<Reply<Row>, Refusal> {
        row_reply(table, |result| {
            raw::record(self.len, self.image, self.map, table.number(), k, result)
        })
    }

    /// Asks for a string of record `k` of a table, by its slot. It walks the whole table.
    ///
    /// The slots of a track are the constants of [`Track`](crate::Track). The other tables have [`Table::NAME`], and
    /// the playlist entries none.
    ///
    /// # Errors
    /// Those of [`rows_into`](Self::rows_into) with [`Refusal::NoSlot`] and [`Refusal::NoRow`] in place of
    /// [`Refusal::ListShort`].
    pub fn text(&self, table: Table, k: u64, slot: u64) -> Result<Reply<Text<'_>>, Refusal> {
        self.text_reply(|result| {
            let table = table.number();
            raw::text(self.len, self.image, self.map, table, k, slot, result)
        })
    }

    /// Reads the record of element `i` of a list that [`rows_into`](Self::rows_into) wrote, from 0. It looks at one
    /// page.
    ///
    /// For `i` below the rows found, the answer is that of [`record`](Self::record) for `i`, and it stays as more
    /// blocks arrive. Any list is answered. The elements before `i` tell which of the page's rows is meant, as two may
    /// start at one place: pass the list from its first element on.
    ///
    /// ```
    /// # use sarvoltig::*;
    /// # let file = std::fs::read("../tools/data/demo.pdb")?;
    /// # let mut image = vec![0; file.len()];
    /// # let mut map = vec![0; map_words(file.len() as u64)];
    /// # let mut intake = Intake::open(&mut image, &mut map)?;
    /// # for (number, piece) in (0..).zip(file.chunks(BLOCK)) {
    /// #     intake.deliver(number, piece)?;
    /// # }
    /// let mut list = [0; 10];
    /// assert_eq!(intake.rows_into(Table::Genres, &mut list)?.rows(), 5);
    /// assert_eq!(intake.record_in(Table::Genres, &list, 4)?, intake.record(Table::Genres, 4)?);
    /// // no row stands at place 0
    /// assert_eq!(intake.record_in(Table::Genres, &list, 5), Err(Refusal::NoRow));
    /// # Ok::<(), Box<dyn std::error::Error>>(())
    /// ```
    ///
    /// # Errors
    /// [`Refusal::Length`], [`Refusal::ImageShort`], [`Refusal::MapShort`], [`Refusal::MapSpare`];
    /// [`Refusal::FileHeader`], [`Refusal::PageNumber`], [`Refusal::PageType`], [`Refusal::RowIndex`]; for this row
    /// alone [`Refusal::RowShort`] and [`Refusal::TextFault`]; and [`Refusal::NoRow`] where the list has no element `i`
    /// or that is not the place of a row.
    pub fn record_in(&self, table: Table, list: &[u32], i: u64) -> Result<Reply<Row>, Refusal> {
        row_reply(table, |result| {
            let table = table.number();
            raw::record_in(self.len, self.image, self.map, table, list, i, result)
        })
    }

    /// Reads a string of element `i` of a list, by its slot, as [`record_in`](Self::record_in) reads its record and
    /// [`text`](Self::text) the string.
    ///
    /// ```
    /// # use sarvoltig::*;
    /// # let file = std::fs::read("../tools/data/demo.pdb")?;
    /// # let mut image = vec![0; file.len()];
    /// # let mut map = vec![0; map_words(file.len() as u64)];
    /// # let mut intake = Intake::open(&mut image, &mut map)?;
    /// # for (number, piece) in (0..).zip(file.chunks(BLOCK)) {
    /// #     intake.deliver(number, piece)?;
    /// # }
    /// let mut list = [0; 10];
    /// intake.rows_into(Table::PlaylistTree, &mut list)?;
    /// let name = intake.text_in(Table::PlaylistTree, &list, 1, 0)?.found();
    /// assert_eq!(name.map(|name| name.to_string()).as_deref(), Some("Warm-up"));
    /// # Ok::<(), Box<dyn std::error::Error>>(())
    /// ```
    ///
    /// # Errors
    /// Those of [`record_in`](Self::record_in), and [`Refusal::NoSlot`].
    pub fn text_in(
        &self,
        table: Table,
        list: &[u32],
        i: u64,
        slot: u64,
    ) -> Result<Reply<Text<'_>>, Refusal> {
        self.text_reply(|result| {
            let table = table.number();
            raw::text_in(self.len, self.image, self.map, table, list, i, slot, result)
        })
    }

    /// The answer of a call for a string.
    fn text_reply(&self, call: impl FnOnce(&mut [u64]) -> u32) -> Result<Reply<Text<'_>>, Refusal> {
        let mut result = [0; 3];
        let code = call(&mut result);
        Reply::from_result(code, &result, |n| {
            let (at, size) = (n[0] as usize, n[1] as usize);
            Text {
                place: n[0],
                bytes: &self.image[at..at + size],
                encoding: if n[2] == 1 {
                    Encoding::Utf16Le
                } else {
                    Encoding::Ascii
                },
            }
        })
    }
}

/// The answer of a call for a record.
fn row_reply(table: Table, call: impl FnOnce(&mut [u64]) -> u32) -> Result<Reply<Row>, Refusal> {
    let mut result = [0; RESULT];
    let code = call(&mut result);
    Reply::from_result(code, &result, |result| Row::from_result(table, result))
}
