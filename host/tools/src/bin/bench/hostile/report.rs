//! The table: a line for each file, call and size.

use super::answer::Answer;
use super::MB;
use crate::measure::ms;
use std::io::{self, Write};
use std::time::{Duration, Instant};

/// Runs of library and reference are taken in turn until they have taken so long. There are at least so many, but of a
/// long call there is one.
const ENOUGH: Duration = Duration::from_millis(300);
const RUNS: usize = 3;
const LONG: Duration = Duration::from_secs(2);

/// A call on a file.
#[derive(Clone, Copy)]
pub struct Subject<'a> {
    pub file: &'a str,
    pub call: &'a str,
    /// The file's length in bytes.
    pub len: usize,
}

/// The fastest runs.
struct Fastest {
    library: Duration,
    reference: Option<Duration>,
    runs: usize,
}

impl Fastest {
    /// Both have to answer the same.
    fn of(
        mut library: impl FnMut() -> (Duration, Answer),
        mut reference: Option<impl FnMut() -> (Duration, Answer)>,
    ) -> Self {
        let mut fastest = Self {
            library: Duration::MAX,
            reference: reference.as_ref().map(|_| Duration::MAX),
            runs: 0,
        };
        let start = Instant::now();
        loop {
            let (time, answer) = library();
            fastest.library = fastest.library.min(time);
            if let (Some(reference), Some(best)) = (&mut reference, &mut fastest.reference) {
                let (time, expected) = reference();
                assert_eq!(answer, expected, "the reference answers otherwise");
                *best = time.min(*best);
            }
            fastest.runs += 1;
            let few = fastest.runs < RUNS && fastest.library < LONG;
            if !few && start.elapsed() >= ENOUGH {
                return fastest;
            }
        }
    }
}

/// The lines about one call on files of one sort, from the smallest file on.
struct Series {
    name: String,
    /// Megabytes and milliseconds of the line before.
    before: Option<(f64, f64)>,
    lines: Vec<String>,
}

/// All that is measured.
#[derive(Default)]
pub struct Report {
    series: Vec<Series>,
    /// The most milliseconds for a megabyte, and where.
    worst: (f64, String),
}

impl Report {
    /// Measures a call beside the reference.
    pub fn measure(
        &mut self,
        subject: Subject,
        library: impl FnMut() -> (Duration, Answer),
        reference: impl FnMut() -> (Duration, Answer),
    ) {
        self.add(subject, &Fastest::of(library, Some(reference)));
    }

    /// Measures a call alone.
    pub fn measure_alone(&mut self, subject: Subject, library: impl FnMut() -> (Duration, Answer)) {
        let reference = None::<fn() -> (Duration, Answer)>;
        self.add(subject, &Fastest::of(library, reference));
    }

    /// Adds a line, and says on standard error how far the work is.
    fn add(&mut self, Subject { file, call, len }: Subject, fastest: &Fastest) {
        let (megabytes, time) = (len as f64 / MB as f64, ms(fastest.library));
        let name = format!("{file} | {call}");
        let rate = time / megabytes;
        if rate > self.worst.0 {
            self.worst = (rate, name.clone());
        }
        let time_and_rate = format!("{} | {}", rounded(time), rounded(rate));
        eprintln!("{name} | {megabytes:.0} | {time_and_rate}");
        let series = self.series(name);
        let before = series.before.replace((megabytes, time));
        series.lines.push(format!(
            "{megabytes:.0} | {time_and_rate} | {} | {} | {}",
            before.map_or("", |before| growth(before, (megabytes, time))),
            fastest
                .reference
                .map_or(String::new(), |time| rounded(ms(time))),
            fastest.runs
        ));
    }

    /// The series of a name.
    fn series(&mut self, name: String) -> &mut Series {
        let known = self.series.iter().position(|series| series.name == name);
        let at = known.unwrap_or_else(|| {
            self.series.push(Series {
                name,
                before: None,
                lines: Vec::new(),
            });
            self.series.len() - 1
        });
        &mut self.series[at]
    }

    /// Prints the table, and the worst of all for a megabyte.
    pub fn print(&self) -> io::Result<()> {
        let mut out = io::stdout().lock();
        let columns = "Library, ms | ms per MB | Growth | Reference, ms | Runs";
        writeln!(out, "| File | Call | MB | {columns} |")?;
        writeln!(out, "|---|---|---|---|---|---|---|---|")?;
        for Series { name, lines, .. } in &self.series {
            for line in lines {
                writeln!(out, "| {name} | {line} |")?;
            }
        }
        let (rate, name) = &self.worst;
        let name = name.replace(" | ", ", ");
        writeln!(out, "\nworst: {} ms per MB ({name})", rounded(*rate))
    }
}

/// A number with three digits that count, or all before the point.
fn rounded(number: f64) -> String {
    let digits = (2.0 - number.log10().floor()).max(0.0) as usize;
    format!("{number:.digits$}")
}

/// How a time grows with the megabytes: by the exponent, of which 1 is linear.
fn growth((size, time): (f64, f64), (larger, longer): (f64, f64)) -> &'static str {
    let exponent = (longer / time).ln() / (larger / size).ln();
    match exponent {
        ..0.3 => "constant",
        ..0.75 => "below linear",
        ..1.35 => "linear",
        _ => "above linear",
    }
}

#[cfg(test)]
mod tests {
    use super::*;

    #[test]
    fn small_numbers_have_three_digits() {
        let numbers = [1686.2, 123.4, 44.421, 0.0264, 0.000_003_519].map(rounded);
        assert_eq!(numbers, ["1686", "123", "44.4", "0.0264", "0.00000352"]);
    }

    #[test]
    fn growth_is_told_by_its_exponent() {
        let small = (1.0, 10.0);
        assert_eq!(growth(small, (64.0, 11.0)), "constant");
        assert_eq!(growth(small, (64.0, 80.0)), "below linear");
        assert_eq!(growth(small, (64.0, 700.0)), "linear");
        assert_eq!(growth(small, (64.0, 40_000.0)), "above linear");
    }
}
