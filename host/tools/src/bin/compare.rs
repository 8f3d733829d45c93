//! `compare [--anlz] SEED RUNS`: compares the library with the reference on so many runs from a seed on, those of exports
//! or those of ANLZ files.

use sarvoltig_tools::compare::first_difference;
use sarvoltig_tools::runs::{read_words, tell};
use std::process::ExitCode;

fn main() -> ExitCode {
    let Some((run, [seed, runs])) = read_words(std::env::args().skip(1)) else {
        eprintln!("usage: compare [--anlz] SEED RUNS");
        return ExitCode::from(2);
    };
    let seeds = seed..seed.saturating_add(runs);
    let difference = first_difference(run, seeds.clone());
    tell("compare", seeds, difference)
}
