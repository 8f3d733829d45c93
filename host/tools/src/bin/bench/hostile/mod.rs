//! The slowest calls on crafted files, for whoever sets a watchdog: how long each takes, and for each megabyte of its
//! file.

mod anlz;
mod answer;
mod chains;
mod crafted;
mod deliveries;
mod fetching;
mod held;
mod listed;
mod report;
mod rows;

use report::Report;
use std::io;

/// Bytes of a megabyte.
const MB: usize = 1 << 20;

/// Measures all, and prints the table at the end.
pub fn table() -> io::Result<()> {
    let mut report = Report::default();
    rows::one_row(&mut report);
    rows::codes(&mut report);
    chains::loops(&mut report);
    listed::codes(&mut report);
    deliveries::measure(&mut report);
    fetching::measure(&mut report);
    anlz::measure(&mut report);
    report.print()
}
