//! The search for a missing block where none is, and what block 0 says, with as many pointers as there can be.

use super::crafted::Crafted;
use super::held::with_file;
use super::report::{Report, Subject};

pub fn measure(report: &mut Report) {
    let crafted = Crafted::without_rows();
    for megabytes in [1, 8, 64, 256] {
        let export = crafted.export(megabytes, &[1], None);
        let (file, len) = ("all blocks held", export.len());
        let subject = |call| Subject { file, call, len };
        with_file(export, crafted.table, |held| {
            report.measure(
                subject("missing"),
                || held.missing(),
                || held.reference_missing(),
            );
            report.measure(
                subject("layout"),
                || held.layout(),
                || held.reference_layout(),
            );
            report.measure(
                subject("bounds"),
                || held.bounds(),
                || held.reference_bounds(),
            );
        });
    }
}
