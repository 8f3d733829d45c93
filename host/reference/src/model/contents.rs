//! All records and strings of a table in a single pass over its chain (rules 4.1 to 4.10, 5.16 to 5.18, 5.34).

use super::chain::walk;
use super::question::{asked_table, Rows};
use super::row::{Position, Text};
use super::source::Source;
use super::Refusal;

/// A row with its record and its strings.
#[derive(Clone, Copy, Debug, PartialEq, Eq)]
pub struct RowContents<'a> {
    /// The page that the row is on.
    pub page: u32,
    /// Its entry in the row index of the page.
    pub entry: u32,
    /// Its absolute byte offset.
    pub place: u32,
    /// The record's numbers, in the order of rule 5.16.
    pub numbers: &'a [u64],
    /// Its strings, slot by slot.
    pub texts: &'a [Text],
}

pub(super) fn for_each_row(
    source: &impl Source,
    table: u32,
    mut visit: impl FnMut(RowContents),
) -> Result<Rows, Refusal> {
    let table = asked_table(table)?;
    let mut numbers = Vec::new();
    let mut texts = Vec::new();
    let walked = walk(source, table, |_, row| {
        numbers.clear();
        row.append_numbers(&mut numbers);
        texts.clear();
        let text = |slot| row.text(slot).expect("a checked row has its strings");
        texts.extend((0..table.slots()).map(text));
        let Position { page, entry, place } = row.position;
        visit(RowContents {
            page,
            entry,
            place,
            numbers: &numbers,
            texts: &texts,
        });
    })?;
    Ok(walked.into())
}
