//! `grid FILE [--pause] [--width N]`: the sections, the tempos, the cues, the waveforms and the beats of an ANLZ file on
//! a terminal.
//!
//! With `--pause` each beat is printed when its time has come, without it all at once. Pictures of waveforms have at most
//! N columns, 80 where no other number is given. What is refused of a file ends with status 1 behind all the rest, a file
//! that cannot be read with 2.

use sarvoltig_tools::failure::Failure;
use sarvoltig_tools::grid::show;
use std::env;
use std::ffi::OsString;
use std::fs;
use std::io;
use std::num::NonZeroUsize;
use std::path::PathBuf;
use std::process::ExitCode;
use std::thread::sleep;
use std::time::{Duration, Instant};

const USAGE: &str = "usage: grid FILE [--pause] [--width N]";

/// Columns of a picture.
const WIDTH: usize = 80;

/// What the command line asks for.
struct Options {
    file: PathBuf,
    pause: bool,
    width: usize,
}

impl Options {
    /// A file and each option at most once, in any order.
    fn parse(mut words: impl Iterator<Item = OsString>) -> Option<Self> {
        let (mut files, mut pauses, mut widths) = (Vec::new(), 0, Vec::new());
        while let Some(word) = words.next() {
            match word.to_str() {
                Some("--pause") => pauses += 1,
                Some("--width") => widths.push(words.next()?.to_str()?.parse().ok()?),
                _ => files.push(word),
            }
        }
        let [file] = <[OsString; 1]>::try_from(files).ok()?;
        let width = widths
            .first()
            .map_or(WIDTH, |width: &NonZeroUsize| width.get());
        (pauses < 2 && widths.len() < 2).then(|| Self {
            file: file.into(),
            pause: pauses == 1,
            width,
        })
    }
}

/// Waits until so much time has passed since the first call.
fn clock() -> impl FnMut(Duration) {
    let mut start = None;
    move |time| {
        let start = *start.get_or_insert_with(Instant::now);
        sleep((start + time).saturating_duration_since(Instant::now()));
    }
}

fn run(options: &Options) -> Result<(), Failure> {
    let file = fs::read(&options.file)?;
    let mut out = io::stdout().lock();
    if options.pause {
        show(&file, options.width, &mut out, clock())
    } else {
        show(&file, options.width, &mut out, |_| ())
    }
}

fn main() -> ExitCode {
    let Some(options) = Options::parse(env::args_os().skip(1)) else {
        eprintln!("{USAGE}");
        return ExitCode::from(2);
    };
    match run(&options) {
        Err(failure) if !failure.is_closed_pipe() => {
            eprintln!("grid: {:?}: {failure}", options.file);
            match failure {
                Failure::Refused(_) => ExitCode::from(1),
                Failure::Io(_) => ExitCode::from(2),
            }
        }
        _ => ExitCode::SUCCESS,
    }
}
