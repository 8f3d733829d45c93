//! Writes the header, the chains and the pages off them.

use super::content::{Row, Tables};
use super::encode::Chunk;
use super::marked::MarkedBytes;
use super::plan::{self, Entry, Page};
use super::{Expected, ExpectedRow, ExpectedTable, ExpectedText, Export, Options};
use crate::model::{Refusal, RowCounts, Table, GROUP_SIZE, PAGE_HEADER};
use crate::rng::Rng;

/// The most that num_tables may be (rule 3.6).
const MOST_POINTERS: usize = 30;

struct Pointer {
    table_type: u32,
    /// First and last page, of a table that is read.
    pages: Option<(u32, u32)>,
}

/// Pointers of types that are not read. Many have the low byte of another type,
/// also of one that is read.
fn pointers_of_other_types(count: usize, rng: &mut Rng) -> Vec<Pointer> {
    let mut types = vec![u32::MAX];
    let mut low = 0;
    while types.len() < count {
        if Table::of_type(low).is_none() {
            types.push(low);
        }
        types.push(low | 1 << (8 + rng.below(24)));
        low += 1;
    }
    types.truncate(count);
    let pages = None;
    let pointer = |table_type| Pointer { table_type, pages };
    types.into_iter().map(pointer).collect()
}

struct Writer<'a> {
    file: MarkedBytes,
    options: &'a Options,
    rng: &'a mut Rng,
}

pub(super) fn export(tables: Tables, options: &Options, rng: &mut Rng) -> Export {
    let chains: Vec<(Table, Vec<Page>)> = tables
        .into_iter()
        .map(|(table, rows)| (table, plan::chain(table, rows, options, rng)))
        .collect();
    let chained: usize = chains.iter().map(|(_, pages)| pages.len()).sum();
    let pages = (1 + chained as u32 + options.spare_pages).max(options.min_pages);
    let mut numbers: Vec<u32> = (1..pages).collect();
    if options.at_end {
        numbers.reverse();
        let near_end = numbers.len().min(2 * chained);
        rng.shuffle(&mut numbers[..near_end]);
    } else if options.shuffled {
        rng.shuffle(&mut numbers);
    }
    let len = pages as usize * options.len_page as usize;
    let fill = match options.tidy {
        true => vec![0; len],
        false => rng.bytes(len),
    };
    let mut writer = Writer {
        file: MarkedBytes::new(fill),
        options,
        rng,
    };
    let tables = writer.put_chains(chains, numbers);
    let (bytes, free) = writer.file.finish();
    Export {
        bytes,
        expected: Expected { tables, free },
    }
}

impl Writer<'_> {
    /// Each chain takes the next of the page numbers; the rest are off the chains.
    fn put_chains(
        &mut self,
        chains: Vec<(Table, Vec<Page>)>,
        mut numbers: Vec<u32>,
    ) -> Vec<ExpectedTable> {
        let mut pointers = Vec::new();
        let mut tables = Vec::new();
        for (table, pages) in chains {
            let rest = numbers.split_off(pages.len());
            pointers.push(Pointer {
                table_type: u32::from(table.number()),
                pages: numbers.first().copied().zip(numbers.last().copied()),
            });
            tables.push(self.put_chain(table, pages, &numbers));
            numbers = rest;
        }
        self.put_header(pointers);
        for spare in numbers {
            self.copy_any_page(spare);
        }
        tables
    }

    /// A page off the chains may look like one of a chain.
    fn copy_any_page(&mut self, spare: u32) {
        if self.options.tidy || self.rng.chance(1, 2) {
            return;
        }
        let other = 1 + self.rng.below(u64::from(spare)) as u32;
        let from = self.page_start(other);
        let len = self.options.len_page as usize;
        self.file.copy(from..from + len, self.page_start(spare));
    }

    fn put_header(&mut self, mut pointers: Vec<Pointer>) {
        if !self.options.tidy || pointers.is_empty() {
            let most = MOST_POINTERS - pointers.len();
            let others = match self.rng.below(4) {
                0 => most,
                _ => 1 + self.rng.index(8),
            };
            pointers.extend(pointers_of_other_types(others, self.rng));
            self.rng.shuffle(&mut pointers);
        }
        self.file.put_u32(0x00, 0);
        self.file.put_u32(0x04, self.options.len_page);
        self.file.put_u32(0x08, pointers.len() as u32);
        for (number, pointer) in pointers.iter().enumerate() {
            let at = 0x1c + 16 * number;
            self.file.put_u32(at, pointer.table_type);
            if let Some((first_page, last_page)) = pointer.pages {
                self.file.put_u32(at + 0x08, first_page);
                self.file.put_u32(at + 0x0c, last_page);
            }
        }
    }

    fn put_chain(&mut self, table: Table, pages: Vec<Page>, numbers: &[u32]) -> ExpectedTable {
        let mut rows = Vec::new();
        let mut fault = None;
        for (place, page) in pages.iter().enumerate() {
            self.put_page_header(table, page, numbers[place], numbers.get(place + 1));
            if place + 1 == pages.len() {
                self.link_back(numbers);
            }
            if page.strange {
                continue;
            }
            let start = self.page_start(numbers[place]);
            let offsets = self.offsets(&page.entries);
            let past_last = self.put_index(start, &page.entries, &offsets);
            if !self.put_counts(start, page, past_last) {
                fault = fault.or(Some(Refusal::of_page(13, numbers[place])));
            }
            rows.extend(self.put_rows(numbers[place], &page.entries, &offsets));
        }
        ExpectedTable {
            table,
            pages: pages.len() as u64,
            rows,
            fault,
        }
    }

    fn page_start(&self, number: u32) -> usize {
        number as usize * self.options.len_page as usize
    }

    fn put_page_header(&mut self, table: Table, page: &Page, number: u32, next: Option<&u32>) {
        let start = self.page_start(number);
        self.file.put_u32(start + 0x04, number);
        self.file.put_u32(start + 0x08, u32::from(table.number()));
        if let Some(next_page) = next {
            self.file.put_u32(start + 0x0c, *next_page);
        }
        let page_flags = self.page_flags(page.strange);
        self.file.put(start + 0x1b, &[page_flags]);
    }

    /// next_page of a last page, which no rule looks at, may name a page of its
    /// own chain (rule 4.7).
    fn link_back(&mut self, numbers: &[u32]) {
        if self.options.tidy || self.rng.chance(1, 2) {
            return;
        }
        let next_page = self.rng.pick(numbers);
        let last_page = self.page_start(numbers[numbers.len() - 1]);
        self.file.fill(last_page + 0x0c, &next_page.to_le_bytes());
    }

    fn page_flags(&mut self, strange: bool) -> u8 {
        let any = match self.options.tidy {
            true => 0x24,
            false => self.rng.next_u64() as u8,
        };
        match strange {
            true => any | 0x40,
            false => any & !0x40,
        }
    }

    /// Puts the number of entries and the number of present rows as one number
    /// of 24 bits. `past_last` presence flags are set behind the last entry.
    /// Whether the second number is right.
    fn put_counts(&mut self, start: usize, page: &Page, past_last: u32) -> bool {
        let num_row_offsets = page.entries.len();
        let wrong_counts = self.options.wrong_counts;
        let num_rows = match page.present > RowCounts::MOST_ROWS {
            true => self.cut_count(page),
            false if wrong_counts > 0 && self.rng.chance(wrong_counts, 100) => {
                self.wrong_count(page, past_last)
            }
            false => page.present,
        };
        let row_counts = RowCounts::bytes(num_row_offsets, num_rows);
        self.file.put(start + 0x18, &row_counts);
        self.fill_unread_count(start, num_row_offsets);
        num_rows == page.present
    }

    /// A count for more present rows than a header can hold, mostly the low
    /// bits of their number.
    fn cut_count(&mut self, page: &Page) -> usize {
        let most = RowCounts::MOST_ROWS;
        let low_bits = page.present & most;
        let any = self.rng.index(most + 1);
        self.rng.pick(&[low_bits, low_bits, most, 0, any])
    }

    /// A count that is mostly wrong: off by one, of all entries, with the
    /// presence flags behind the last entry, or without any.
    fn wrong_count(&mut self, page: &Page, past_last: u32) -> usize {
        let counts = [
            page.present + 1,
            page.present.wrapping_sub(1),
            page.entries.len(),
            page.present + past_last as usize,
            0,
        ];
        self.rng.pick(&counts) & RowCounts::MOST_ROWS
    }

    /// Bytes `22` and `23`, which no rule names. Tidy exports have there what
    /// older analyses took for a second number of entries; others often too.
    fn fill_unread_count(&mut self, start: usize, entries: usize) {
        let all = entries as u16;
        let value = match entries {
            _ if !self.options.tidy && self.rng.chance(1, 2) => return,
            0..256 => {
                let unused = self.rng.below(entries as u64 + 1) as u16;
                self.rng.pick(&[0, unused, all, 0x1fff])
            }
            _ => all,
        };
        self.file.fill(start + 0x22, &value.to_le_bytes());
    }

    /// Where each entry starts in the heap.
    fn offsets(&mut self, entries: &[Entry]) -> Vec<usize> {
        let mut order: Vec<usize> = (0..entries.len()).collect();
        if !self.options.tidy {
            self.rng.shuffle(&mut order);
        }
        let mut offsets = vec![0; entries.len()];
        let mut used = 0;
        for number in order {
            offsets[number] = used + entries[number].gap;
            used = offsets[number] + entries[number].len;
        }
        for (number, entry) in entries.iter().enumerate() {
            if let Some(first) = entry.first {
                offsets[number] = offsets[first];
            }
        }
        offsets
    }

    /// Document 003's figure of the table page. Pads and the offsets of absent
    /// rows are not put, though such an offset may lead to a row. Gives how many
    /// presence flags are set behind the last entry.
    fn put_index(&mut self, start: usize, entries: &[Entry], offsets: &[usize]) -> u32 {
        let mut group_end = start + self.options.len_page as usize;
        let mut past_last = 0;
        for (entries, offsets) in entries.chunks(16).zip(offsets.chunks(16)) {
            let mut flags = self.unused_flags(entries.len());
            past_last = flags.count_ones();
            for (number, (entry, offset)) in entries.iter().zip(offsets).enumerate() {
                let at = group_end - 6 - 2 * number;
                if entry.row.is_some() {
                    flags |= 1 << number;
                    self.file.put_u16(at, *offset as u16);
                } else if !self.options.tidy && self.rng.chance(2, 3) {
                    let any = self.rng.pick(offsets);
                    let offset = self.rng.pick(&[*offset, any]) as u16;
                    self.file.fill(at, &offset.to_le_bytes());
                }
            }
            self.file.put_u16(group_end - 4, flags);
            group_end -= GROUP_SIZE;
        }
        past_last
    }

    /// Presence bits past the last entry.
    fn unused_flags(&mut self, entries: usize) -> u16 {
        if self.options.tidy || entries == 16 {
            return 0;
        }
        (self.rng.next_u64() as u16) << entries
    }

    /// Puts the rows of a page.
    fn put_rows(&mut self, page: u32, entries: &[Entry], offsets: &[usize]) -> Vec<ExpectedRow> {
        let heap = self.page_start(page) + PAGE_HEADER;
        let mut rows = Vec::new();
        for (entry, (Entry { row, .. }, offset)) in (0..).zip(entries.iter().zip(offsets)) {
            if let Some((row, chunk)) = row {
                let place = heap + offset;
                rows.push(ExpectedRow {
                    page,
                    entry,
                    place: place as u32,
                    numbers: row.numbers.clone(),
                    texts: self.put_row(place, row, chunk),
                });
            }
        }
        rows
    }

    fn put_row(&mut self, place: usize, row: &Row, chunk: &Chunk) -> Vec<ExpectedText> {
        for (offset, bytes) in &chunk.parts {
            self.file.put(place + offset, bytes);
        }
        let texts = row.texts.iter().zip(&chunk.texts);
        texts
            .map(|(text, offset)| ExpectedText {
                place: (place + offset) as u64,
                bytes: text.bytes.clone(),
                encoding: text.encoding(),
            })
            .collect()
    }
}
