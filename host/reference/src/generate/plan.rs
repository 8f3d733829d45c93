//! Which rows stand on which page.

use std::mem;

use super::content::Row;
use super::encode::{encode, Chunk};
use super::Options;
use crate::model::{index_size, RowCounts, Table, GROUP_SIZE, PAGE_HEADER};
use crate::rng::Rng;

/// Numbers of entries that added ones lead to, beside those around groups.
const ENTRIES_AIMED_AT: [usize; 9] = [255, 256, 257, 2047, 2048, 4095, 4096, 8190, 8191];
/// Numbers of present rows that added entries lead to.
const PRESENT_AIMED_AT: [usize; 6] = [256, 1023, 1024, 2046, 2047, 2047];
/// The same, where they are more than a page may have.
const TOO_MANY_PRESENT: [usize; 4] = [2048, 2049, 3000, 4096];

/// An entry of the row index and its bytes in the heap.
pub(super) struct Entry {
    /// Bytes of the heap left unused before it.
    pub gap: usize,
    pub len: usize,
    /// None is an absent row.
    pub row: Option<(Row, Chunk)>,
    /// The earlier entry of the page that names the same row, if one does.
    pub first: Option<usize>,
}

impl Entry {
    fn absent(len: usize) -> Self {
        Entry {
            gap: 0,
            len,
            row: None,
            first: None,
        }
    }
}

/// A page of a chain.
pub(super) struct Page {
    /// Whether flag `40` is set.
    pub strange: bool,
    pub entries: Vec<Entry>,
    /// How many of them are present rows.
    pub present: usize,
    most_entries: usize,
    most_present: usize,
    /// Bytes of the heap that the entries take.
    heap: usize,
}

impl Page {
    /// A page that is sometimes closed before it is full.
    fn data(options: &Options, rng: &mut Rng) -> Self {
        let most_entries = match options.tidy || rng.chance(2, 3) {
            true => options.most_entries.min(RowCounts::MOST_ENTRIES),
            false => 1 + rng.index(options.most_entries.min(40)),
        };
        Page {
            most_entries,
            ..Page::empty(false)
        }
    }

    fn empty(strange: bool) -> Self {
        Page {
            strange,
            entries: Vec::new(),
            present: 0,
            most_entries: 0,
            most_present: RowCounts::MOST_ROWS,
            heap: 0,
        }
    }

    fn fits(&self, entry: &Entry, options: &Options) -> bool {
        let heap = self.heap + entry.gap + entry.len;
        let entries = self.entries.len() + 1;
        let present = self.present + usize::from(entry.row.is_some());
        entries <= self.most_entries
            && present <= self.most_present
            && PAGE_HEADER + heap + index_size(entries) <= options.len_page as usize
    }

    fn push(&mut self, entry: Entry) {
        self.heap += entry.gap + entry.len;
        self.present += usize::from(entry.row.is_some());
        self.entries.push(entry);
    }

    /// Adds the entry if it fits; whether it does.
    fn push_if_fits(&mut self, entry: Entry, options: &Options) -> bool {
        let fits = self.fits(&entry, options);
        if fits {
            self.push(entry);
        }
        fits
    }

    /// A further entry for the row that an entry names, if that is present.
    fn again(&self, number: usize) -> Entry {
        let named = &self.entries[number];
        Entry {
            gap: 0,
            len: 0,
            row: named.row.clone(),
            first: named.first.or(Some(number)),
        }
    }

    /// A further entry for a row of the page, one of two times the last row.
    fn name_again(&mut self, options: &Options, rng: &mut Rng) {
        let count = self.entries.len();
        let again = self.again(match rng.chance(1, 2) {
            true => count - 1,
            false => rng.index(count),
        });
        if again.row.is_some() {
            self.push_if_fits(again, options);
        }
    }

    /// Adds entries that take no room in the heap, absent ones and further ones
    /// for rows of the page, until there are at least so many entries and so
    /// many present rows, as far as they fit.
    fn add_entries(&mut self, entries: usize, present: usize, options: &Options, rng: &mut Rng) {
        self.most_entries = RowCounts::MOST_ENTRIES;
        self.most_present = usize::MAX;
        let named: Vec<usize> = (0..self.entries.len())
            .filter(|number| self.entries[*number].row.is_some())
            .collect();
        loop {
            let few_entries = self.entries.len() < entries;
            let few_present = self.present < present && !named.is_empty();
            let entry = match (few_entries, few_present) {
                (false, false) => return,
                (true, false) => Entry::absent(0),
                (true, true) if rng.chance(1, 4) => Entry::absent(0),
                (_, true) => self.again(rng.pick(&named)),
            };
            if !self.push_if_fits(entry, options) {
                return;
            }
        }
    }

    /// Adds entries up to a number that is near a limit. Sometimes all of them
    /// are absent but for some of the last.
    fn fill_up(&mut self, options: &Options, rng: &mut Rng) {
        let groups = options.len_page as usize / GROUP_SIZE;
        let group = match rng.chance(1, 2) {
            true => self.entries.len().div_ceil(16),
            false => rng.index(groups + 1),
        };
        let entries = match rng.chance(1, 2) {
            true => rng.pick(&ENTRIES_AIMED_AT),
            false => (16 * group + rng.index(3)).saturating_sub(1),
        };
        let all_present = entries.min(RowCounts::MOST_ROWS);
        let (entries, present) = match rng.below(16) {
            0..2 => (entries, 0),
            2..5 => {
                let late = 1 + rng.index(3);
                self.add_entries(entries.saturating_sub(late), 0, options, rng);
                (entries, self.present + late)
            }
            5..9 => (all_present, all_present),
            9..12 => (0, rng.pick(&PRESENT_AIMED_AT)),
            12..14 => (entries, rng.pick(&PRESENT_AIMED_AT)),
            _ => (entries, rng.pick(&TOO_MANY_PRESENT)),
        };
        self.add_entries(entries, present, options, rng);
    }
}

/// The chain of a table: at least one page.
pub(super) fn chain(table: Table, rows: Vec<Row>, options: &Options, rng: &mut Rng) -> Vec<Page> {
    let mut pages = Vec::new();
    let mut page = Page::data(options, rng);
    for row in rows {
        if rng.chance(options.absent, 100) {
            page.push_if_fits(Entry::absent(rng.index(30)), options);
        }
        let mut entry = row_entry(table, row, options, rng);
        if !page.fits(&entry, options) {
            pages.push(mem::replace(&mut page, Page::data(options, rng)));
            entry.gap = 0;
        }
        page.push(entry);
        if options.repeated > 0 && rng.chance(options.repeated, 100) {
            page.name_again(options, rng);
        }
    }
    pages.push(page);
    for page in &mut pages {
        if options.filled_up > 0 && rng.chance(options.filled_up, 100) {
            page.fill_up(options, rng);
        }
    }
    with_strange_pages(pages, options, rng)
}

fn row_entry(table: Table, row: Row, options: &Options, rng: &mut Rng) -> Entry {
    let chunk = encode(table, &row, options, rng);
    let gap = match options.tidy || rng.chance(3, 4) {
        true => 0,
        false => rng.index(9),
    };
    Entry {
        gap,
        len: chunk.len,
        row: Some((row, chunk)),
        first: None,
    }
}

/// Strange pages before pages, and sometimes one as the last.
fn with_strange_pages(pages: Vec<Page>, options: &Options, rng: &mut Rng) -> Vec<Page> {
    let mut chain = Vec::new();
    for page in pages {
        if rng.chance(options.strange, 100) {
            chain.push(Page::empty(true));
        }
        chain.push(page);
    }
    if !options.tidy && rng.chance(options.strange, 200) {
        chain.push(Page::empty(true));
    }
    chain
}
