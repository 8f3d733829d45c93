//! Walks over pages that take long.

use super::crafted::Crafted;
use super::held::with_file;
use super::report::{Report, Subject};
use sarvoltig::Table;
use sarvoltig_tools::code_page::CodePage;

/// Files whose entries all name one row: of every table, and longer ones of the slowest.
pub fn one_row(report: &mut Report) {
    for table in Table::ALL {
        let file = format!("{table:?}, one row for all entries");
        all_rows(report, &file, &Crafted::one_row(table), 1);
    }
    let file = "Tracks, one row for all entries";
    let tracks = Crafted::one_row(Table::Tracks);
    all_rows(report, file, &tracks, 8);
    all_rows(report, file, &tracks, 64);
    last_row(report, file, &tracks, 1);
    last_row(report, file, &tracks, 8)
}

/// Files of the worst pages of recording codes.
pub fn codes(report: &mut Report) {
    let file = "Tracks, recording codes";
    let codes = Crafted::codes(CodePage::longest_search());
    all_rows(report, file, &codes, 1);
    all_rows(report, file, &codes, 8);
    last_row(report, file, &codes, 1)
}

/// A file of so many megabytes, its pages in their order, and the number of its rows.
fn straight(crafted: &Crafted, megabytes: usize) -> (Vec<u8>, usize) {
    let order: Vec<u32> = (1..crafted.pages(megabytes)).collect();
    let export = crafted.export(megabytes, &order, None);
    (export, crafted.rows * order.len())
}

/// The question for all rows.
fn all_rows(report: &mut Report, file: &str, crafted: &Crafted, megabytes: usize) {
    let (export, rows) = straight(crafted, megabytes);
    let (call, len) = ("rows", export.len());
    let (mut list, mut other) = (vec![1; rows], vec![1; rows]);
    with_file(export, crafted.table, |held| {
        report.measure(
            Subject { file, call, len },
            || held.rows(&mut list),
            || held.reference_rows(&mut other),
        )
    })
}

/// The questions for record and string of the last row.
fn last_row(report: &mut Report, file: &str, crafted: &Crafted, megabytes: usize) {
    let (export, rows) = straight(crafted, megabytes);
    let (len, k) = (export.len(), rows as u64 - 1);
    let subject = |call| Subject { file, call, len };
    with_file(export, crafted.table, |held| {
        report.measure(
            subject("record"),
            || held.record(k),
            || held.reference_record(k),
        );
        report.measure(subject("text"), || held.text(k), || held.reference_text(k))
    })
}
