//! Generated exports. In most of them the chains of two tables meet.

use sarvoltig_reference::damage::damage;
use sarvoltig_reference::generate::{export, Options};
use sarvoltig_reference::model::Table;
use sarvoltig_reference::rng::Rng;
use std::iter::successors;

/// Fields of a pointer and of a page header.
const FIRST_PAGE: usize = 0x08;
const LAST_PAGE: usize = 0x0c;
pub const TYPE: usize = 0x08;
const NEXT_PAGE: usize = 0x0c;
pub const PAGE_FLAGS: usize = 0x1b;
/// The flag of a page without rows.
pub const NO_ROWS: u8 = 0x40;

pub fn u32_at(bytes: &[u8], at: usize) -> u32 {
    u32::from_le_bytes(bytes[at..at + 4].try_into().expect("four bytes"))
}

/// How the chain of a table, A, meets that of another, B.
#[derive(Clone, Copy, Debug)]
pub enum Meeting {
    /// next_page of a page of A leads to a page of B.
    NextPage,
    /// first_page of A is a page of B.
    FirstPage,
    /// last_page of A is a page of B, and next_page of the page that was the last leads to a page of B.
    LastPage,
    /// A and B have the same first_page, in one of two cases also the same last_page.
    SameFirstPage,
    /// next_page of a page of A without rows leads to a page of B.
    BehindPageWithoutRows,
    /// next_page of a page of A leads to a page of B, which gets the type of A. In one of two cases it becomes the last
    /// page of A, and in one of two it becomes a page without rows.
    PageOfOtherType,
}

impl Meeting {
    pub const ALL: [Meeting; 6] = [
        Meeting::NextPage,
        Meeting::FirstPage,
        Meeting::LastPage,
        Meeting::SameFirstPage,
        Meeting::BehindPageWithoutRows,
        Meeting::PageOfOtherType,
    ];
}

/// The chain of a table in an export as it was generated.
#[derive(Clone)]
struct Chain {
    table: Table,
    /// Where its pointer stands.
    pointer: usize,
    pages: Vec<u32>,
}

impl Chain {
    fn last_page(&self) -> u32 {
        self.pages[self.pages.len() - 1]
    }
}

/// The chains of a generated export.
fn chains(export: &[u8]) -> Vec<Chain> {
    let chain = |pointer| {
        let table = Table::of_type(u32_at(export, pointer))?;
        let pages = pages_of_chain(export, pointer);
        Some(Chain {
            table,
            pointer,
            pages,
        })
    };
    let pointers = (0x1c..).step_by(16).take(u32_at(export, 0x08) as usize);
    pointers.filter_map(chain).collect()
}

fn pages_of_chain(export: &[u8], pointer: usize) -> Vec<u32> {
    let len_page = u32_at(export, 0x04);
    let last_page = u32_at(export, pointer + LAST_PAGE);
    let next_page = |page: &u32| {
        let start = (*page * len_page) as usize;
        (*page != last_page).then(|| u32_at(export, start + NEXT_PAGE))
    };
    successors(Some(u32_at(export, pointer + FIRST_PAGE)), next_page).collect()
}

/// An export that is edited, with the chains that it had before.
struct Edited {
    bytes: Vec<u8>,
    chains: Vec<Chain>,
}

impl Edited {
    fn new(bytes: Vec<u8>) -> Self {
        let chains = chains(&bytes);
        Edited { bytes, chains }
    }

    /// Lets the chains of two tables meet, if there are two.
    fn meet(&mut self, meeting: Meeting, rng: &mut Rng) {
        rng.shuffle(&mut self.chains);
        if let [a, b, ..] = &self.chains[..] {
            let (a, b) = (a.clone(), b.clone());
            self.join(meeting, &a, &b, rng);
        }
    }

    fn join(&mut self, meeting: Meeting, a: &Chain, b: &Chain, rng: &mut Rng) {
        let (from, to) = (rng.pick(&a.pages), rng.pick(&b.pages));
        match meeting {
            Meeting::NextPage => self.go_on(a, from, to),
            Meeting::FirstPage => self.put(a.pointer + FIRST_PAGE, to),
            Meeting::LastPage => {
                self.go_on(a, a.last_page(), rng.pick(&b.pages));
                self.put(a.pointer + LAST_PAGE, to);
            }
            Meeting::SameFirstPage => {
                self.put(a.pointer + FIRST_PAGE, b.pages[0]);
                if rng.chance(1, 2) {
                    self.put(a.pointer + LAST_PAGE, b.last_page());
                }
            }
            Meeting::BehindPageWithoutRows => {
                self.set_no_rows(from);
                self.go_on(a, from, to);
            }
            Meeting::PageOfOtherType => {
                self.go_on(a, from, to);
                self.put(self.page_start(to) + TYPE, a.table.number().into());
                if rng.chance(1, 2) {
                    self.put(a.pointer + LAST_PAGE, to);
                }
                if rng.chance(1, 2) {
                    self.set_no_rows(to);
                }
            }
        }
    }

    /// Lets a chain go on from one of its pages to page `to`, which becomes the last one if `from` was it.
    fn go_on(&mut self, chain: &Chain, from: u32, to: u32) {
        self.put(self.page_start(from) + NEXT_PAGE, to);
        if from == chain.last_page() {
            self.put(chain.pointer + LAST_PAGE, to);
        }
    }

    fn set_no_rows(&mut self, page: u32) {
        let at = self.page_start(page) + PAGE_FLAGS;
        self.bytes[at] |= NO_ROWS;
    }

    fn page_start(&self, page: u32) -> usize {
        (page * u32_at(&self.bytes, 0x04)) as usize
    }

    fn put(&mut self, at: usize, value: u32) {
        self.bytes[at..at + 4].copy_from_slice(&value.to_le_bytes());
    }
}

/// Some tables of a few pages each.
fn options(rng: &mut Rng) -> Options {
    Options {
        seed: rng.next_u64(),
        len_page: 512 * rng.pick(&[1, 1, 1, 2, 3]),
        rows: Table::ALL.map(|_| rng.chance(1, 2).then(|| rng.below(6) as u32)),
        repeated: rng.pick(&[0, 20]),
        strange: rng.pick(&[0, 20, 60]),
        spare_pages: rng.pick(&[0, 0, 2]),
        longest_text: 30,
        most_entries: rng.pick(&[1, 2, 40]),
        ..Options::default()
    }
}

/// An export, and how chains meet in it. Of eight seeds one gives an export as it was generated, one a damaged export,
/// and six one of the meetings each, sometimes after another meeting and sometimes with damage.
pub fn file(seed: u64, rng: &mut Rng) -> (Vec<u8>, Option<Meeting>) {
    let mut edited = Edited::new(export(&options(rng)).bytes);
    let meeting = match seed % 8 {
        0 => return (edited.bytes, None),
        1 => return (damage(&edited.bytes, rng), None),
        kind => Meeting::ALL[kind as usize - 2],
    };
    if rng.chance(1, 4) {
        edited.meet(rng.pick(&Meeting::ALL), rng);
    }
    edited.meet(meeting, rng);
    let bytes = match rng.chance(1, 6) {
        true => damage(&edited.bytes, rng),
        false => edited.bytes,
    };
    (bytes, Some(meeting))
}
