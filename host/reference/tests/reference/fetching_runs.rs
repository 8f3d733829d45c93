//! Which questions for blocks, pages and bounds generated runs have, by their answers.

use std::collections::BTreeMap;
use std::sync::OnceLock;

use sarvoltig_reference::model::{BoundsReply, LayoutReply, Refusal, Session, Table, BLOCK_SIZE};
use sarvoltig_reference::schedule::{large_run, random_run, Answer, Call, Reply, Run};

/// B of the record.
fn blocks(session: &Session) -> u64 {
    session.file_len() / BLOCK_SIZE as u64
}

/// Whether the map has the bit, for a block of the file or not.
fn has_bit(session: &Session, bit: u64) -> bool {
    let word = session.map().get((bit / 64) as usize);
    word.is_some_and(|word| word >> (bit % 64) & 1 == 1)
}

/// Whether a word in use has a bit of no block.
fn has_spare_bit(session: &Session) -> bool {
    let blocks = blocks(session);
    (blocks..blocks.next_multiple_of(64)).any(|bit| has_bit(session, bit))
}

/// Where a block's number is, of the file's blocks and of a word.
fn place(session: &Session, number: u64) -> Vec<&'static str> {
    let last = blocks(session).wrapping_sub(1);
    let of_file = match number {
        _ if session.file_len() == 0 => "no opening",
        0 => "0",
        _ if number == last => "B-1",
        _ if number == last + 1 => "B",
        _ if number < last => "middle",
        _ if number >> 32 == 0 => "past B",
        _ => "huge",
    };
    let of_word = match number % 64 {
        0 if number > 0 => "start of a word",
        1 if number > 64 => "behind the start of a word",
        63 => "end of a word",
        _ => "in a word",
    };
    let inside = number < blocks(session);
    let kinds = [(of_file, true), (of_word, inside)];
    names(&kinds)
}

/// What is special about the missing block that was found.
fn found(session: &Session, from: u64, block: u64) -> Vec<&'static str> {
    let last = blocks(session) - 1;
    let kinds = [
        ("itself", block == from),
        ("behind a held one", block > from),
        ("in a later word", block / 64 > from / 64),
        ("two words later", block / 64 > from / 64 + 1),
        ("at the start of a word", block > from && block % 64 == 0),
        ("at the end of a word", block > from && block % 64 == 63),
        ("the last block", block > from && block == last),
        (
            "behind a short map",
            block / 64 >= session.map().len() as u64,
        ),
        ("with a spare bit", has_spare_bit(session)),
        ("past 16 bits", block >> 16 > 0),
    ];
    names(&kinds)
}

/// What is special about the answer that none is missing.
fn none(session: &Session, from: u64) -> Vec<&'static str> {
    let inside = from < blocks(session);
    let kinds = [
        ("all held", session.missing(0).is_none() && inside),
        ("one before", session.missing(0).is_some() && inside),
        (
            "one before, past B",
            session.missing(0).is_some() && !inside,
        ),
        ("with a spare bit", has_spare_bit(session) && inside),
    ];
    names(&kinds)
}

/// What is special about the answer whether a block is held.
fn holds(session: &Session, block: u64, held: bool) -> Vec<&'static str> {
    let inside = block < blocks(session);
    let kinds = [
        ("past 16 bits", inside && block >> 16 > 0),
        ("bit of no block", !inside && has_bit(session, block)),
        (
            "bit behind those in use",
            has_bit(session, block) && block / 64 > blocks(session).saturating_sub(1) / 64,
        ),
        (
            "behind a short map",
            inside && block / 64 >= session.map().len() as u64,
        ),
        ("with a spare bit", held && has_spare_bit(session)),
        (
            "held but for high bits",
            !inside && session.holds(block & 0xffff_ffff),
        ),
    ];
    names(&kinds)
}

fn names(kinds: &[(&'static str, bool)]) -> Vec<&'static str> {
    let kinds = kinds.iter().filter(|(_, is)| *is);
    kinds.map(|(name, _)| *name).collect()
}

/// Whether a page is held whole.
fn is_whole(session: &Session, page: u32) -> bool {
    let Ok(LayoutReply::Found { len_page, .. }) = session.layout() else {
        return false;
    };
    let count = u64::from(len_page) / BLOCK_SIZE as u64;
    let first = u64::from(page) * count;
    (first..first + count).all(|block| session.holds(block))
}

fn layout(session: &Session, reply: &LayoutReply) -> Vec<&'static str> {
    let waits = matches!(reply, LayoutReply::Waiting { .. });
    let later = (1..blocks(session)).any(|block| session.holds(block));
    let kinds = [
        ("waiting", waits),
        ("waiting with later blocks", waits && later),
        ("found", !waits),
        ("found, page 0 not whole", !waits && !is_whole(session, 0)),
    ];
    names(&kinds)
}

fn bounds(session: &Session, reply: &BoundsReply) -> Vec<&'static str> {
    let BoundsReply::Found {
        first_page,
        last_page,
    } = *reply
    else {
        return vec!["waiting"];
    };
    let kinds = [
        ("found", true),
        ("found, one page", first_page == last_page),
        ("found, first before last", first_page < last_page),
        ("found, last before first", first_page > last_page),
        (
            "found, first page not whole",
            !is_whole(session, first_page),
        ),
    ];
    names(&kinds)
}

/// What is special about bounds that are refused.
fn refused_bounds(session: &Session, table: u32, refusal: &Refusal) -> Vec<String> {
    let number = refusal.number;
    let known = Table::of_type(table).is_some();
    let mut kinds = vec![format!("refused {number}")];
    match number {
        1..=4 if !known => kinds.push(format!("refused {number}, no table")),
        8 => {
            let wide = if table > 255 { "wide" } else { "narrow" };
            let file = match session.layout() {
                Ok(LayoutReply::Waiting { .. }) => "waiting",
                Ok(LayoutReply::Found { .. }) => "good header",
                Err(_) => "broken header",
            };
            kinds.push(format!("refused 8, {wide}"));
            kinds.push(format!("refused 8, {file}"));
        }
        11 => kinds.push(format!("refused 11, {}", bad_links(session, table))),
        _ => {}
    }
    kinds
}

/// Which links of a table's pointer are bad.
fn bad_links(session: &Session, table: u32) -> &'static str {
    let Ok(LayoutReply::Found { pages, .. }) = session.layout() else {
        return "no layout";
    };
    let number = |at: usize| u32::from_le_bytes(session.image()[at..][..4].try_into().unwrap());
    let pointers = (0..number(0x08) as usize).map(|i| 0x1c + 16 * i);
    let pointer = pointers.into_iter().find(|at| number(*at) == table);
    let Some(at) = pointer else {
        return "no pointer";
    };
    let good = [0x08, 0x0c].map(|field| (1..pages).contains(&u64::from(number(at + field))));
    match good {
        [false, true] => "first",
        [true, false] => "last",
        [false, false] => "both",
        [true, true] => "none",
    }
}

/// The kinds of a question, by its answer; none for other calls.
fn kinds(session: &Session, call: &Call, answer: &Answer) -> Vec<String> {
    let (question, kinds) = match (call, &answer.reply) {
        (Call::Missing { from }, Ok(Reply::Missing(block))) => {
            let (answered, special) = match block {
                Some(block) => ("missing", found(session, *from, *block)),
                None => ("missing none", none(session, *from)),
            };
            (answered, [place(session, *from), special].concat())
        }
        (Call::Holds { block }, Ok(Reply::Holds(held))) => {
            let answered = if *held { "holds" } else { "holds not" };
            let special = holds(session, *block, *held);
            (answered, [place(session, *block), special].concat())
        }
        (Call::Layout, Ok(Reply::Layout(reply))) => ("layout", layout(session, reply)),
        (Call::Bounds { .. }, Ok(Reply::Bounds(_, reply))) => ("bounds", bounds(session, reply)),
        (Call::Layout, Err(refusal)) => return vec![format!("layout: refused {}", refusal.number)],
        (Call::Bounds { table }, Err(refusal)) => {
            let kinds = refused_bounds(session, *table, refusal);
            return kinds.iter().map(|kind| format!("bounds: {kind}")).collect();
        }
        _ => return Vec::new(),
    };
    let kinds = kinds.into_iter();
    kinds.map(|kind| format!("{question}: {kind}")).collect()
}

/// How often the runs have each kind.
fn count_kinds(runs: impl Iterator<Item = Vec<Call>>) -> BTreeMap<String, u64> {
    let mut counts = BTreeMap::new();
    for calls in runs {
        let mut run = Run::new(Session::new(Vec::new(), Vec::new()));
        for call in calls {
            if let Some(answer) = call.make(&mut run) {
                for kind in kinds(run.session(), &call, &answer) {
                    *counts.entry(kind).or_default() += 1;
                }
            }
        }
    }
    counts
}

/// Those of 2,000 runs.
fn counts() -> &'static BTreeMap<String, u64> {
    static COUNTS: OnceLock<BTreeMap<String, u64>> = OnceLock::new();
    COUNTS.get_or_init(|| count_kinds((0..2000).map(random_run)))
}

fn check_counts(counts: &BTreeMap<String, u64>, question: &str, least: &[(&str, u64)]) {
    for (kind, least) in least {
        let kind = format!("{question}: {kind}");
        assert!(counts.get(&kind) >= Some(least), "{kind}: {counts:?}");
    }
}

#[test]
fn generated_runs_ask_for_missing_blocks() {
    let counts = counts();
    let found = [
        ("0", 1000),
        ("middle", 2000),
        ("B-1", 300),
        ("start of a word", 50),
        ("behind the start of a word", 50),
        ("end of a word", 100),
        ("itself", 2000),
        ("behind a held one", 1000),
        ("in a later word", 80),
        ("two words later", 20),
        ("at the start of a word", 15),
        ("at the end of a word", 2),
        ("the last block", 30),
        ("behind a short map", 30),
        ("with a spare bit", 200),
    ];
    check_counts(counts, "missing", &found);
    let none = [
        ("no opening", 3000),
        ("0", 1000),
        ("middle", 800),
        ("B-1", 600),
        ("B", 800),
        ("past B", 3000),
        ("huge", 1000),
        ("all held", 2000),
        ("one before", 200),
        ("one before, past B", 2000),
        ("with a spare bit", 20),
    ];
    check_counts(counts, "missing none", &none);
}

#[test]
fn generated_runs_ask_whether_blocks_are_held() {
    let counts = counts();
    let inside = [
        ("0", 400),
        ("middle", 1000),
        ("B-1", 200),
        ("start of a word", 30),
        ("behind the start of a word", 20),
        ("end of a word", 50),
    ];
    check_counts(counts, "holds", &inside);
    check_counts(counts, "holds not", &inside);
    check_counts(counts, "holds", &[("with a spare bit", 100)]);
    let not_held = [
        ("no opening", 2000),
        ("B", 500),
        ("past B", 2000),
        ("huge", 800),
        ("bit of no block", 1000),
        ("bit behind those in use", 200),
        ("behind a short map", 25),
        ("held but for high bits", 200),
    ];
    check_counts(counts, "holds not", &not_held);
}

#[test]
fn generated_runs_ask_for_pages_and_bounds() {
    let counts = counts();
    let refused = [
        ("refused 1", 1000),
        ("refused 2", 15),
        ("refused 3", 15),
        ("refused 4", 150),
        ("refused 9", 200),
        ("waiting", 1000),
        ("found", 2000),
    ];
    check_counts(counts, "layout", &refused);
    check_counts(counts, "bounds", &refused);
    let layout = [
        ("waiting with later blocks", 200),
        ("found, page 0 not whole", 200),
    ];
    check_counts(counts, "layout", &layout);
    let bounds = [
        ("found, one page", 3000),
        ("found, first before last", 1000),
        ("found, last before first", 1000),
        ("found, first page not whole", 500),
        ("refused 1, no table", 400),
        ("refused 2, no table", 5),
        ("refused 3, no table", 5),
        ("refused 4, no table", 50),
        ("refused 8, narrow", 500),
        ("refused 8, wide", 700),
        ("refused 8, waiting", 500),
        ("refused 8, good header", 800),
        ("refused 8, broken header", 50),
        ("refused 10", 4000),
        ("refused 11, first", 20),
        ("refused 11, last", 40),
        ("refused 11, both", 2),
    ];
    check_counts(counts, "bounds", &bounds);
}

#[test]
fn large_runs_ask_for_blocks_of_many_words() {
    let counts = &count_kinds((0..42).map(large_run));
    let least = [
        ("in a later word", 30),
        ("two words later", 10),
        ("past 16 bits", 1),
    ];
    check_counts(counts, "missing", &least);
    check_counts(counts, "holds not", &[("past 16 bits", 1)]);
}
