//! Times, and the lines of the table.

use std::hint::black_box;
use std::io::{self, Write};
use std::time::{Duration, Instant};

/// The fastest of some runs of each of two, taken in turn: what the work takes when nothing else disturbs it.
pub fn fastest(
    runs: usize,
    mut library: impl FnMut() -> Duration,
    mut other: impl FnMut() -> Duration,
) -> (Duration, Duration) {
    let mut best = (Duration::MAX, Duration::MAX);
    for _ in 0..runs {
        best = (best.0.min(library()), best.1.min(other()));
    }
    best
}

/// The time that a piece of work takes.
pub fn timed<T>(work: impl FnOnce() -> T) -> Duration {
    let start = Instant::now();
    black_box(work());
    start.elapsed()
}

/// The head of the table.
pub fn head() -> io::Result<()> {
    let mut out = io::stdout();
    writeln!(
        out,
        "| What | Library, ms | Other, ms | Ratio |\n|---|---|---|---|"
    )
}

/// One line of the table.
pub fn line(what: &str, (library, other): (Duration, Duration)) -> io::Result<()> {
    let (library, other) = (ms(library), ms(other));
    let ratio = library / other;
    writeln!(
        io::stdout(),
        "| {what} | {} | {} | {} |",
        decimal(library, 3),
        decimal(other, 3),
        decimal(ratio, 2)
    )
}

pub fn ms(time: Duration) -> f64 {
    time.as_secs_f64() * 1000.0
}

/// A number with so many digits behind the point, or five where it is small.
pub fn decimal(number: f64, digits: usize) -> String {
    let digits = if number < 0.01 { 5 } else { digits };
    format!("{number:.digits$}")
}
