//! Tables never share a page. In a state with block 0 held and a header that is not refused by 9, among the walks of the
//! ten tables that are not refused: a walk has each of its pages once, walks for two tables have none in common, and the
//! numbers of pages in the answers add up to at most P-1. While a file arrives, a page that was walked for one table is
//! walked for no other. The library answers, and the reference names the pages.

mod files;
mod walks;

use files::{file, u32_at, Meeting, NO_ROWS, PAGE_FLAGS, TYPE};
use sarvoltig_reference::model::{RecordReply, Refusal, Rows, Session, Table, BLOCK_SIZE};
use sarvoltig_reference::rng::Rng;
use sarvoltig_reference::schedule::{Answer, Call, Reply, Run};
use sarvoltig_tools::library::Library;
use std::collections::{BTreeMap, HashMap};
use walks::{breach, later_breach, page_sum, Walk};

const FILES: u64 = 6_000;
/// How often the ten tables are asked while the blocks of a file arrive, at most.
const STATES: usize = 8;

/// A file that arrives at the library and at the reference.
struct Arrival<'a> {
    seed: u64,
    file: &'a [u8],
    library: Library,
    run: Run,
}

impl<'a> Arrival<'a> {
    fn open(seed: u64, file: &'a [u8]) -> Self {
        let mut arrival = Arrival {
            seed,
            file,
            library: Library::default(),
            run: Run::new(Session::new(Vec::new(), Vec::new())),
        };
        arrival.make(&Call::Lend {
            image: file.len(),
            words: (file.len() / BLOCK_SIZE).div_ceil(64),
        });
        arrival.make(&Call::Open {
            len: file.len() as u64,
        });
        arrival
    }

    /// What the library answers. The reference answers the same.
    fn make(&mut self, call: &Call) -> Option<Answer> {
        let answer = self.library.make(call).expect("an answer of the library");
        let expected = call.make(&mut self.run);
        let reply = |answer: &Option<Answer>| answer.as_ref().map(|answer| answer.reply.clone());
        assert_eq!(
            reply(&answer),
            reply(&expected),
            "seed {}, {call:?}",
            self.seed
        );
        assert_eq!(answer, expected, "seed {}, {call:?}", self.seed);
        answer
    }

    fn deliver(&mut self, block: usize) {
        self.make(&Call::Deliver {
            block: block as u64,
            piece: self.file[block * BLOCK_SIZE..][..BLOCK_SIZE].to_vec(),
        });
    }

    fn is_header_held(&self) -> bool {
        self.library.map()[0] & 1 == 1
    }

    fn walk(&mut self, table: Table, rng: &mut Rng) -> Result<Walk, Refusal> {
        let number = table.number().into();
        // Each row has two bytes of its own in a row index, so this is room for all.
        let room = self.file.len() / 2;
        let call = Call::Rows {
            table: number,
            room,
        };
        let Answer { reply, mut list } = self.make(&call).expect("an answer");
        let (waiting, rows, page_count) = match reply? {
            Reply::Rows(Rows::Full { rows, pages }) => (None, rows, pages),
            Reply::Rows(Rows::Waiting { page, rows, pages }) => (Some(page), rows, pages),
            other => panic!("{other:?}"),
        };
        list.truncate(rows as usize);
        let pages = self.run.session().pages_walked(number);
        Ok(Walk {
            table,
            waiting,
            page_count,
            places: list,
            record_page: (rows > 0).then(|| self.record_page(number, rng.below(rows))),
            pages: pages.expect("a walk that is not refused"),
        })
    }

    fn record_page(&mut self, table: u32, k: u64) -> u32 {
        let answer = self.make(&Call::Record { table, k }).expect("an answer");
        match answer.reply {
            Ok(Reply::Record(_, RecordReply::Found { page, .. })) => page,
            other => panic!("record {k} of table {table}: {other:?}"),
        }
    }

    /// The ten tables in the present state, if block 0 is held and the header is not refused.
    fn state(&mut self, meeting: Option<Meeting>, rng: &mut Rng) -> Option<State<'a>> {
        let mut walks = Vec::new();
        let mut refusals = Vec::new();
        for table in Table::ALL {
            match self.walk(table, rng) {
                Ok(walk) => walks.push(walk),
                Err(refusal) => {
                    assert_ne!(refusal.number, 17, "seed {}: the room is enough", self.seed);
                    refusals.push(refusal);
                }
            }
        }
        let is_header_refused = refusals.iter().any(|refusal| refusal.number == 9);
        (self.is_header_held() && !is_header_refused).then(|| State {
            file: self.file,
            len_page: u32_at(self.file, 0x04),
            meeting,
            walks,
            refusals,
        })
    }
}

/// How often each situation is met.
#[derive(Debug, Default)]
struct Met(BTreeMap<String, u64>);

impl Met {
    fn add(&mut self, situation: impl Into<String>) {
        *self.0.entry(situation.into()).or_default() += 1;
    }

    fn add_if(&mut self, is_met: bool, situation: &str) {
        if is_met {
            self.add(situation);
        }
    }
}

/// What the ten tables answer in a state that the claim is about.
struct State<'a> {
    file: &'a [u8],
    len_page: u32,
    meeting: Option<Meeting>,
    walks: Vec<Walk>,
    refusals: Vec<Refusal>,
}

impl State<'_> {
    /// P.
    fn file_pages(&self) -> u32 {
        self.file.len() as u32 / self.len_page
    }

    fn breach(&self) -> Option<String> {
        breach(&self.walks, self.len_page, self.file_pages())
    }

    fn page(&self, page: u32) -> &[u8] {
        &self.file[(page * self.len_page) as usize..]
    }

    fn count(&self, met: &mut Met) {
        met.add("state");
        for walk in &self.walks {
            self.count_walk(walk, met);
        }
        for refusal in &self.refusals {
            self.count_refusal(refusal, met);
        }
        let with_pages = self.walks.iter().filter(|walk| walk.page_count > 0);
        let several = with_pages.count() > 1;
        let all_walked = page_sum(&self.walks) + 1 == u64::from(self.file_pages());
        met.add_if(several, "state, several tables with pages");
        met.add_if(
            several && all_walked,
            "state, several tables with P-1 pages",
        );
    }

    fn count_walk(&self, walk: &Walk, met: &mut Met) {
        met.add(match (walk.waiting, walk.page_count) {
            (None, _) => "Full",
            (Some(_), 0) => "Waiting without pages",
            (Some(_), _) => "Waiting with pages",
        });
        let also_waiting = |other: &Walk| {
            walk.waiting.is_some() && other.waiting == walk.waiting && other.table != walk.table
        };
        met.add_if(
            self.walks.iter().any(also_waiting),
            "Waiting for a page that another table waits for",
        );
        for page in &walk.pages {
            let without_rows = self.page(*page)[PAGE_FLAGS] & NO_ROWS != 0;
            met.add_if(without_rows, "page without rows");
        }
    }

    fn count_refusal(&self, refusal: &Refusal, met: &mut Met) {
        met.add(format!("refused {}", refusal.number));
        if refusal.number != 25 {
            return;
        }
        let page = refusal.value as u32;
        let page_type = u32_at(self.page(page), TYPE);
        met.add_if(
            Table::of_type(page_type).is_some(),
            "refused 25 for a page of another table",
        );
        if self.walks.iter().any(|walk| walk.pages.contains(&page)) {
            met.add("refused 25 for a page that another table walks");
            if let Some(meeting) = self.meeting {
                met.add(format!("the same, {meeting:?}"));
            }
        }
    }
}

/// All blocks in random order; in three of four files block 0 comes first.
fn blocks(file: &[u8], rng: &mut Rng) -> Vec<usize> {
    let mut blocks: Vec<usize> = (0..file.len() / BLOCK_SIZE).collect();
    match rng.chance(3, 4) {
        true => rng.shuffle(&mut blocks[1..]),
        false => rng.shuffle(&mut blocks),
    }
    blocks
}

/// Checks the states of a file while it arrives and when it is whole.
fn check_file(seed: u64, met: &mut Met) {
    let rng = &mut Rng::new(seed);
    let (file, meeting) = file(seed, rng);
    let blocks = blocks(&file, rng);
    let mut arrival = Arrival::open(seed, &file);
    let mut walked_for = HashMap::new();
    for arriving in blocks.chunks(blocks.len().div_ceil(STATES)) {
        arriving.iter().for_each(|block| arrival.deliver(*block));
        if let Some(state) = arrival.state(meeting, rng) {
            assert_eq!(state.breach(), None, "seed {seed}");
            assert_eq!(
                later_breach(&state.walks, &mut walked_for),
                None,
                "seed {seed}"
            );
            state.count(met);
        }
    }
}

#[test]
fn tables_never_share_a_page() {
    let mut met = Met::default();
    (0..FILES).for_each(|seed| check_file(seed, &mut met));
    let least = [
        ("state", 30_000),
        ("state, several tables with pages", 15_000),
        ("state, several tables with P-1 pages", 500),
        ("Full", 40_000),
        ("Waiting with pages", 20_000),
        ("Waiting for a page that another table waits for", 10_000),
        ("page without rows", 30_000),
        ("refused 25 for a page of another table", 10_000),
        ("refused 25 for a page that another table walks", 8_000),
        ("the same, NextPage", 1_000),
        ("the same, FirstPage", 1_500),
        ("the same, LastPage", 1_000),
        ("the same, SameFirstPage", 1_500),
        ("the same, BehindPageWithoutRows", 1_000),
        ("the same, PageOfOtherType", 800),
    ];
    for (situation, least) in least {
        assert!(
            met.0.get(situation) >= Some(&least),
            "{situation}: {met:#?}"
        );
    }
}
