//! Questions, reading from lists and recording codes, against the reference.

use crate::measure::{fastest, line, timed};
use crate::reading::{read_from_lists, Read};
use sarvoltig::{map_words, Encoding, Intake, Table, Track, BLOCK};
use sarvoltig_reference::model::{self, Session};
use sarvoltig_tools::code_page::CodePage;
use std::hint::black_box;
use std::io;
use std::ops::Range;
use std::time::Duration;

/// All that is read of an export, and of one twice as long.
pub fn read(file: &[u8]) -> io::Result<()> {
    with_export(file, |intake, session| {
        questions(intake, session, 60)?;
        title_from_list(intake, 60)?;
        contents(intake, session, "8 MB, 20,000 tracks", 20)
    })?;
    with_export(&doubled(file), |intake, session| {
        contents(intake, session, "16 MB, 40,000 tracks", 20)
    })
}

/// An export taken in whole, by the library and by the reference.
fn with_export<T>(file: &[u8], measure: impl FnOnce(&Intake, &Session) -> T) -> T {
    let mut image = vec![0; file.len()];
    let mut map = vec![0; map_words(file.len() as u64)];
    let mut session = Session::new(image.clone(), map.clone());
    let mut intake = Intake::open(&mut image, &mut map).expect("an allowed length");
    session.open(file.len() as u64).expect("an allowed length");
    for (block, piece) in (0..).zip(file.chunks(BLOCK)) {
        intake.deliver(block, piece).expect("a new block");
        session.deliver(block, piece).expect("a new block");
    }
    measure(&intake, &session)
}

/// A track in the middle of its table.
const MIDDLE: u64 = 12_345;

/// The three questions, against the reference.
fn questions(intake: &Intake, session: &Session, runs: usize) -> io::Result<()> {
    let times = fastest(runs, || all_rows(intake), || all_rows_of_reference(session));
    line(
        "all rows of the ten tables of 8 MB, 20,000 tracks, against the reference",
        times,
    )?;
    let times = fastest(
        runs,
        || timed(|| intake.record(Table::Tracks, MIDDLE)),
        || timed(|| session.record(0u32, MIDDLE)),
    );
    line("a track's record, against the reference", times)?;
    let times = fastest(
        runs,
        || timed(|| intake.text(Table::Tracks, MIDDLE, Track::TITLE).is_ok()),
        || timed(|| session.text(0u32, MIDDLE, Track::TITLE).is_ok()),
    );
    line("a track's title, against the reference", times)
}

/// One title from a list, against the question for it.
fn title_from_list(intake: &Intake, runs: usize) -> io::Result<()> {
    let rows = intake.rows(Table::Tracks).expect("a good table");
    let track = rows.get(MIDDLE as usize).expect("a track");
    let times = fastest(
        runs,
        || timed(|| track.text(Track::TITLE).is_ok()),
        || timed(|| intake.text(Table::Tracks, MIDDLE, Track::TITLE).is_ok()),
    );
    line("a track's title from a list, against the question", times)
}

/// Room for the rows of any of the tables.
const ROOM: usize = 1 << 17;

fn all_rows(intake: &Intake) -> Duration {
    let mut list = vec![1; ROOM];
    list.fill(0);
    timed(|| {
        for table in Table::ALL {
            intake.rows_into(table, &mut list).expect("a good table");
        }
    })
}

fn all_rows_of_reference(session: &Session) -> Duration {
    let mut list = vec![1; ROOM];
    list.fill(0);
    timed(|| {
        for table in Table::ALL {
            session
                .rows(table.number(), &mut list)
                .expect("a good table");
        }
    })
}

/// Reads every record and string in the reference's single pass over each table.
fn read_in_one_pass(session: &Session) -> Read {
    let mut read = Read::default();
    for table in Table::ALL {
        let visit = |row: model::RowContents| {
            black_box(row.numbers);
            read.rows += 1;
            read.text += row.texts.iter().map(|text| text.len).sum::<u64>();
        };
        session
            .for_each_row(table.number(), visit)
            .expect("a good table");
    }
    read
}

/// All records and all strings of the ten tables, against the reference.
fn contents(intake: &Intake, session: &Session, size: &str, runs: usize) -> io::Result<()> {
    let mut list = vec![0; ROOM];
    let read = read_from_lists(intake, &mut list).expect("good tables");
    assert_eq!(read, read_in_one_pass(session));
    let times = fastest(
        runs,
        || timed(|| read_from_lists(intake, &mut list)),
        || timed(|| read_in_one_pass(session)),
    );
    line(
        &format!("all records and strings of {size}, from lists, against the reference's pass"),
        times,
    )
}

fn number(file: &[u8], at: usize) -> u32 {
    u32::from_le_bytes([file[at], file[at + 1], file[at + 2], file[at + 3]])
}

fn put(file: &mut [u8], at: usize, number: u32) {
    file[at..at + 4].copy_from_slice(&number.to_le_bytes());
}

/// An export whose tables are twice as long: all its pages come a second time, and each chain goes on there.
fn doubled(file: &[u8]) -> Vec<u8> {
    const LEN_PAGE: usize = 0x04;
    const NUM_TABLES: usize = 0x08;
    const POINTERS: Range<usize> = 0x1c..BLOCK;
    const FIRST_PAGE: usize = 0x08;
    const LAST_PAGE: usize = 0x0c;
    const PAGE_INDEX: usize = 0x04;
    const NEXT_PAGE: usize = 0x0c;
    let len_page = number(file, LEN_PAGE);
    let start = |page: u32| (page * len_page) as usize;
    let pages = file.len() as u32 / len_page;
    let mut twice = [file, file].concat();
    for page in 1..pages {
        let next = number(file, start(page) + NEXT_PAGE);
        let copy = start(pages + page);
        put(&mut twice, copy + PAGE_INDEX, pages + page);
        put(&mut twice, copy + NEXT_PAGE, pages.wrapping_add(next));
    }
    let pointers = POINTERS.step_by(16).take(number(file, NUM_TABLES) as usize);
    for pointer in pointers {
        let first = number(file, pointer + FIRST_PAGE);
        let last = number(file, pointer + LAST_PAGE);
        put(&mut twice, start(last) + NEXT_PAGE, pages + first);
        put(&mut twice, pointer + LAST_PAGE, pages + last);
    }
    twice
}

/// Both readers find the code in the last row.
fn check_codes(page: CodePage, intake: &Intake, session: &Session) {
    let last = page.rows() as u64 - 1;
    let text = intake.text(Table::Tracks, last, Track::ISRC);
    let text = text.expect("a good page").found().expect("a row");
    assert_eq!(text.encoding, Encoding::Ascii);
    assert_eq!(text.bytes.len(), page.code_len());
    let found = model::TextReply::Found {
        place: text.place,
        len: text.bytes.len() as u64,
        encoding: model::Encoding::Ascii,
    };
    assert_eq!(session.text(0u32, last, Track::ISRC), Ok(found));
}

/// All rows of a page of recording codes: against the reference, and against the page without codes.
pub fn codes(what: &str, page: CodePage, runs: usize) -> io::Result<()> {
    let rows = page.rows();
    let what = format!(
        "all rows of {what}, {},{:03} rows",
        rows / 1000,
        rows % 1000
    );
    let mut list = vec![0; rows];
    let mut other_list = list.clone();
    with_export(&page.with_codes(), |intake, session| {
        check_codes(page, intake, session);
        let times = fastest(
            runs,
            || timed(|| intake.rows_into(Table::Tracks, &mut list).expect("rows")),
            || timed(|| session.rows(0u32, &mut other_list).expect("rows")),
        );
        line(&format!("{what}, against the reference"), times)?;
        with_export(&page.without_codes(), |without, _| {
            let times = fastest(
                runs,
                || timed(|| intake.rows_into(Table::Tracks, &mut list).expect("rows")),
                || {
                    timed(|| {
                        without
                            .rows_into(Table::Tracks, &mut other_list)
                            .expect("rows")
                    })
                },
            );
            line(&format!("{what}, against the page without codes"), times)
        })
    })
}
