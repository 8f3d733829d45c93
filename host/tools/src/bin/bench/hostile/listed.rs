//! Rows from a list: what is slowest on their page.

use super::crafted::Crafted;
use super::held::with_file;
use super::report::{Report, Subject};
use sarvoltig_tools::code_page::CodePage;

/// The last row of the list that all rows of a page give, which has a recording code.
pub fn codes(report: &mut Report) {
    let pages = [
        (
            "Tracks, the longest recording code",
            CodePage::longest_code(),
        ),
        ("Tracks, recording codes", CodePage::longest_search()),
        (
            "Tracks, recording codes, most entries",
            CodePage::most_entries(),
        ),
    ];
    for (file, page) in pages {
        for megabytes in [1, 64] {
            one_page(report, file, &Crafted::codes(page), megabytes);
        }
    }
}

/// Record and code of the last row on page 1, which is the table's only one.
fn one_page(report: &mut Report, file: &str, crafted: &Crafted, megabytes: usize) {
    let export = crafted.export(megabytes, &[1], None);
    let (len, i) = (export.len(), crafted.rows as u64 - 1);
    let subject = |call| Subject { file, call, len };
    let mut list = vec![0; crafted.rows];
    with_file(export, crafted.table, |held| {
        let (_, rows) = held.rows(&mut list);
        assert_eq!(rows, Ok(i + 1));
        report.measure(
            subject("record_in"),
            || held.record_in(&list, i),
            || held.reference_record_in(&list, i),
        );
        report.measure(
            subject("text_in"),
            || held.text_in(&list, i),
            || held.reference_text_in(&list, i),
        )
    })
}
