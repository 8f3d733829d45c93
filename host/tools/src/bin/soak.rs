//! `soak [--anlz] SEED SECONDS`: compares the library with the reference on runs from a seed on, for so long.

use sarvoltig_tools::compare::first_difference;
use sarvoltig_tools::runs::{read_words, tell};
use std::process::ExitCode;
use std::time::{Duration, Instant};

/// Runs between two looks at the clock.
const BATCH: u64 = 100;

fn main() -> ExitCode {
    let Some((run, [seed, seconds])) = read_words(std::env::args().skip(1)) else {
        eprintln!("usage: soak [--anlz] SEED SECONDS");
        return ExitCode::from(2);
    };
    let end = Instant::now() + Duration::from_secs(seconds);
    let mut next = seed;
    let mut difference = None;
    while difference.is_none() && Instant::now() < end {
        difference = first_difference(run, next..next + BATCH);
        next += BATCH;
    }
    tell("soak", seed..next, difference)
}
