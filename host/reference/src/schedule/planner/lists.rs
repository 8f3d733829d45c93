//! Lists of places, and the calls that read from them.

use super::{slots, Planner};
use crate::layout::Layout;
use crate::model::{Rows, Table, PAGE_HEADER};
use crate::schedule::run::LIST_FILL;
use crate::schedule::Call;

/// Of shorter lists all elements are read in half of the cases.
const SHORT_LIST: u64 = 8;
/// A list made from a table's pages takes no further page once it is as long.
const LONGEST_LIST: usize = 3000;

/// The list that calls read from, as far as it is known.
#[derive(Default)]
pub(super) struct ListMade {
    /// The table whose rows it names.
    table: u32,
    /// An element that was altered or stands near one.
    altered: usize,
}

impl Planner<'_> {
    /// Calls that read from a list: a new one, or the one that is there,
    /// which may have been made when fewer blocks were held.
    pub(super) fn ask_from_list(&mut self, table: u32) {
        let old = !self.run.list().is_empty() && self.rng.chance(1, 2);
        if !old && Table::of_type(table).is_some() {
            self.new_list(table);
        }
        let table = match self.rng.below(16) {
            0 => table,
            1 => self.other_type(),
            _ => self.list.table,
        };
        let len = self.run.list().len() as u64;
        if len < SHORT_LIST && self.rng.chance(1, 2) {
            (0..len).for_each(|i| self.ask_element(table, i));
        }
        for _ in 0..1 + self.rng.below(3) {
            let i = self.any_i();
            self.ask_element(table, i);
        }
    }

    fn ask_element(&mut self, table: u32, i: u64) {
        let one_of = if slots(table) == 0 { 16 } else { 2 };
        if !self.rng.chance(1, one_of) {
            return self.make(Call::RecordIn { table, i });
        }
        let slot = match self.rng.chance(1, 3) {
            true => self.any_slot(table),
            false => self.good_slot(table),
        };
        self.make(Call::TextIn { table, i, slot });
    }

    /// A list for a table: as the question for all rows writes it, or of the
    /// rows that its pages have, with or without faults; often altered.
    fn new_list(&mut self, table: u32) {
        let mut places = match self.rng.below(5) {
            0 | 1 => self.places_written(table),
            _ => Vec::new(),
        };
        if places.is_empty() {
            places = self.places_present(table);
        }
        self.list = ListMade { table, altered: 0 };
        for _ in 0..self.rng.pick(&[0, 0, 0, 1, 1, 2]) {
            self.alter(&mut places);
        }
        self.make(Call::List { places });
    }

    /// The list after a question for all rows, with some room behind the rows.
    fn places_written(&mut self, table: u32) -> Vec<u32> {
        let room = self.rows_found(table) + self.rng.pick(&[0, 0, 1, 3]);
        let mut list = vec![LIST_FILL; room as usize];
        match self.run.session().rows(table, &mut list) {
            Ok(Rows::Full { .. } | Rows::Waiting { .. }) => list,
            Err(_) => Vec::new(),
        }
    }

    /// The starts of the present rows of a table's chain, or of all pages of
    /// the table. A start past its page is put on the page, so that later ranks
    /// are right; a page without rows sometimes has a place too.
    fn places_present(&mut self, table: u32) -> Vec<u32> {
        let layout = Layout::new(self.export);
        let mut places = Vec::new();
        for page in self.pages_of(table) {
            let page_start = layout.page_start(page);
            let inside = page_start..page_start + layout.len_page();
            let first = page_start + PAGE_HEADER;
            let present = layout.entries(page).into_iter().filter(|e| e.present);
            let starts: Vec<usize> = present.map(|entry| entry.start).collect();
            if starts.is_empty() && self.rng.chance(1, 2) {
                places.push(first as u32);
            }
            places.extend(
                starts
                    .into_iter()
                    .map(|start| match inside.contains(&start) {
                        true => start as u32,
                        false => first as u32,
                    }),
            );
            if places.len() > LONGEST_LIST {
                break;
            }
        }
        places
    }

    fn pages_of(&mut self, table: u32) -> Vec<u32> {
        let layout = Layout::new(self.export);
        let pointers = layout.table_pointers();
        let pointer = pointers
            .iter()
            .find(|(pointed, _)| u32::from(pointed.number()) == table);
        match pointer {
            Some((_, at)) if self.rng.chance(2, 3) => layout.chain(*at),
            _ => (1..layout.pages())
                .filter(|page| layout.page_type(*page) == table)
                .collect(),
        }
    }

    /// Alters a list in one way.
    fn alter(&mut self, places: &mut Vec<u32>) {
        let len = places.len();
        let at = self.rng.index(len + 1);
        self.list.altered = at;
        match self.rng.below(12) {
            0 => places.truncate(at),
            1 => drop(places.drain(..len.min(1 + self.rng.index(3)))),
            // Some page is then in two runs.
            2 => places.rotate_left(at),
            3 => {
                places.truncate(LONGEST_LIST);
                places.extend_from_within(..at.min(LONGEST_LIST));
            }
            4 if at < len => drop(places.remove(at)),
            5 if at + 1 < len => places.swap(at, at + 1),
            6 if at > 0 => places.insert(at, places[at - 1]),
            7 if len > 0 => places.insert(at, self.rng.pick(places)),
            8 if at < len => {
                let wrong = self.wrong_place(places[at]);
                places.insert(at, wrong);
            }
            _ if at < len => places[at] = self.wrong_place(places[at]),
            _ => places.push(self.wrong_place(PAGE_HEADER as u32)),
        }
    }

    /// A place that is mostly no row of the table, or not of the rank.
    fn wrong_place(&mut self, right: u32) -> u32 {
        let len_page = Layout::new(self.export).len_page() as u32;
        let len = self.export.len() as u32;
        let in_page = right % len_page;
        let any_page = self.any_page() * len_page;
        match self.rng.below(14) {
            0 => in_page,
            1 => len + in_page,
            2 => self
                .rng
                .pick(&[0, 512, len_page - 1, len, len - 1, LIST_FILL, u32::MAX]),
            3 => right.wrapping_add(1),
            4 => right.saturating_sub(1),
            5 => right.wrapping_add(len_page),
            6 => right.saturating_sub(len_page),
            7 => any_page + in_page,
            8 => any_page + self.rng.below(u64::from(len_page)) as u32,
            9 => right ^ 1 << self.rng.below(32),
            10 | 11 => self.start_of_any_entry(right / len_page).unwrap_or(right),
            _ => {
                let page = self.any_page();
                self.start_of_any_entry(page).unwrap_or(any_page)
            }
        }
    }

    /// A page from 1 on.
    fn any_page(&mut self) -> u32 {
        let pages = u64::from(Layout::new(self.export).pages());
        1 + self.rng.below((pages - 1).max(1)) as u32
    }

    /// Where a row of a page starts, or where an absent one is said to start.
    fn start_of_any_entry(&mut self, page: u32) -> Option<u32> {
        let layout = Layout::new(self.export);
        if page >= layout.pages() {
            return None;
        }
        let entries = layout.entries(page);
        let absent: Vec<u32> = entries
            .iter()
            .filter(|entry| !entry.present)
            .map(|entry| entry.start as u32)
            .collect();
        if !absent.is_empty() && self.rng.chance(1, 2) {
            return Some(self.rng.pick(&absent));
        }
        let starts: Vec<u32> = entries.iter().map(|entry| entry.start as u32).collect();
        (!starts.is_empty()).then(|| self.rng.pick(&starts))
    }

    /// The number of an element of the list, mostly one that the list has.
    fn any_i(&mut self) -> u64 {
        let len = self.run.list().len() as u64;
        let inside = self.rng.below(len.max(1));
        let near = (self.list.altered as u64 + self.rng.below(3)).min(len);
        let near = near.saturating_sub(self.rng.below(2));
        match self.rng.below(16) {
            0..6 => inside,
            6..11 => near,
            11 => 0,
            12 => len.saturating_sub(1),
            13 => len,
            14 => self.rng.pick(&[len + 1, u64::MAX]),
            _ => self.with_high_bit(inside),
        }
    }
}
