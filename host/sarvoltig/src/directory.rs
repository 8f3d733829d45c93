//! What block 0 says: the file's layout, and where each table's chain starts and ends (section 3 of docs/RULES.md).

use crate::{raw, Intake, Refusal, Reply, Table};

/// The file's pages.
#[derive(Clone, Copy, Debug, PartialEq, Eq, Hash)]
pub struct Layout {
    /// Bytes in a page.
    pub len_page: u32,
    /// The number of pages. Page n starts in the image at n times `len_page`.
    pub pages: u64,
}

/// The first and the last page of a table's chain, as the directory has them.
#[derive(Clone, Copy, Debug, PartialEq, Eq, Hash)]
pub struct Bounds {
    /// The page where the chain starts.
    pub first_page: u32,
    /// The page where the chain ends.
    pub last_page: u32,
}

impl Intake<'_> {
    /// Asks for the file's layout. It looks at block 0 alone, and waits for it.
    ///
    /// ```
    /// # use sarvoltig::*;
    /// # let file = std::fs::read("../tools/data/demo.pdb")?;
    /// # let mut image = vec![0; file.len()];
    /// # let mut map = vec![0; map_words(file.len() as u64)];
    /// # let mut intake = Intake::open(&mut image, &mut map)?;
    /// assert_eq!(intake.layout()?.found(), None);
    /// intake.deliver(0, &file[..BLOCK])?;
    /// let layout = Layout { len_page: 1024, pages: 27 };
    /// assert_eq!(intake.layout()?, Reply::Found(layout));
    /// # Ok::<(), Box<dyn std::error::Error>>(())
    /// ```
    ///
    /// # Errors
    /// [`Refusal::Length`], [`Refusal::ImageShort`], [`Refusal::MapShort`], [`Refusal::MapSpare`] and
    /// [`Refusal::FileHeader`].
    pub fn layout(&self) -> Result<Reply<Layout>, Refusal> {
        let mut result = [0; 3];
        let code = raw::layout(self.len, self.image, self.map, &mut result);
        Reply::from_result(code, &result, |&[len_page, pages, _]| Layout {
            len_page: len_page as u32,
            pages,
        })
    }

    /// Asks for the bounds of a table. It looks at block 0 alone, and waits for it. So a fetcher that has block 0 can
    /// ask for the blocks of these pages before others.
    ///
    /// ```
    /// # use sarvoltig::*;
    /// # let file = std::fs::read("../tools/data/demo.pdb")?;
    /// # let mut image = vec![0; file.len()];
    /// # let mut map = vec![0; map_words(file.len() as u64)];
    /// # let mut intake = Intake::open(&mut image, &mut map)?;
    /// # intake.deliver(0, &file[..BLOCK])?;
    /// let layout = intake.layout()?.found().ok_or("block 0 is missing")?;
    /// let bounds = intake.bounds(Table::Tracks)?.found().ok_or("block 0 is missing")?;
    /// let start = u64::from(bounds.first_page) * u64::from(layout.len_page);
    /// let first_block = start / BLOCK as u64;
    /// assert_eq!(intake.next_missing(first_block), Some(2));
    /// # Ok::<(), Box<dyn std::error::Error>>(())
    /// ```
    ///
    /// # Errors
    /// Those of [`layout`](Self::layout); [`Refusal::NoPointer`]; and [`Refusal::PageLink`] of page 0 where one of the
    /// two is no page of the file, or page 0.
    pub fn bounds(&self, table: Table) -> Result<Reply<Bounds>, Refusal> {
        let mut result = [0; 3];
        let code = raw::bounds(self.len, self.image, self.map, table.number(), &mut result);
        Reply::from_result(code, &result, |&[first_page, last_page, _]| Bounds {
            first_page: first_page as u32,
            last_page: last_page as u32,
        })
    }
}
