//! The words that programs over runs are called with, and what they tell.

use crate::output::{counted, status};
use sarvoltig_reference::schedule::{anlz_run, compared_run, Call};
use std::io::{self, Write};
use std::ops::Range;
use std::process::ExitCode;

/// Makes the run of a seed.
pub type MakeRun = fn(u64) -> Vec<Call>;

/// The sort of runs and the numbers of `[--anlz] NUMBER..`, if the words are so many numbers.
///
/// ```
/// use sarvoltig_reference::schedule::anlz_run;
/// use sarvoltig_tools::runs::read_words;
///
/// let words = ["--anlz", "7", "100"].map(String::from);
/// let (run, [seed, runs]) = read_words(words).expect("two numbers");
/// assert_eq!((seed, runs), (7, 100));
/// assert_eq!(run(7), anlz_run(7));
/// ```
pub fn read_words<const COUNT: usize>(
    words: impl IntoIterator<Item = String>,
) -> Option<(MakeRun, [u64; COUNT])> {
    let mut words = words.into_iter().peekable();
    let run = match words.next_if(|word| word == "--anlz") {
        Some(_) => anlz_run,
        None => compared_run as MakeRun,
    };
    let numbers: Option<Vec<u64>> = words.map(|word| word.parse().ok()).collect();
    Some((run, numbers?.try_into().ok()?))
}

/// Prints the difference that was found in the runs of these seeds, or that there is none. The status is that of the
/// comparison: success where nothing differs.
pub fn tell(program: &str, seeds: Range<u64>, difference: Option<(u64, String)>) -> ExitCode {
    let (start, runs) = (seeds.start, seeds.end - seeds.start);
    let line = match &difference {
        Some((seed, words)) => format!("seed {seed} differs: {words}"),
        None => {
            let runs = counted(runs, "run", "runs");
            format!("{runs} from seed {start} on, no difference")
        }
    };
    let printed = status(program, writeln!(io::stdout(), "{line}"));
    match difference {
        Some(_) => ExitCode::FAILURE,
        None => printed,
    }
}
