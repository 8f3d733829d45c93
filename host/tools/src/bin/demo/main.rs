//! `demo FILE [--packet N] [--late N] [--repeated N] [--harsh] [--seed N] [--pause MS] [--tracks N] [--artists]`: the main
//! job on a terminal.
//!
//! The file's blocks arrive out of order, some late and some repeated (N of a hundred), one by one or in packets of up to
//! N. The display shows the blocks held and the rows known of each table, and at the end the playlists with their tracks,
//! each with its recording code where it has one, and with `--artists` with its artist. A row once listed is never taken
//! back: each answer is compared with the one before. Where standard output is no terminal, what has changed is printed
//! now and then.

mod network;
mod options;
mod playlists;
mod progress;
mod screen;
mod tracks;

use network::Delivery;
use options::{Options, USAGE};
use progress::Progress;
use sarvoltig::{map_words, Intake, Text};
use sarvoltig_tools::failure::Failure;
use screen::{Bar, Screen};
use std::env;
use std::fs;
use std::io::{self, IsTerminal, Write};
use std::process::ExitCode;
use std::thread::sleep;
use std::time::Duration;

/// How often the tables are asked while blocks arrive.
const PICTURES: usize = 400;
const LOGGED: usize = 5;

/// Takes the deliveries in and shows what is known as they come.
fn take_in(
    intake: &mut Intake,
    deliveries: &[Delivery],
    pause: Duration,
    screen: &mut Screen<impl Write>,
) -> io::Result<()> {
    let mut progress = Progress::default();
    let looks = if screen.is_terminal() {
        PICTURES
    } else {
        LOGGED
    };
    let every = deliveries.len().div_ceil(looks).max(1);
    for (count, delivery) in (1..).zip(deliveries) {
        progress.take(intake, delivery);
        let last = count == deliveries.len();
        if last || count % every == 0 {
            let lines = progress.lines(intake);
            let (part, whole) = (progress.held(), intake.blocks());
            screen.show(Bar { part, whole }, lines, last)?;
            if screen.is_terminal() {
                sleep(pause);
            }
        }
    }
    Ok(())
}

/// A text for the terminal: a control character of the file is not obeyed.
fn printable(text: Text) -> String {
    let whole = text.to_string();
    whole
        .chars()
        .map(|c| {
            if c.is_control() {
                char::REPLACEMENT_CHARACTER
            } else {
                c
            }
        })
        .collect()
}

fn run(options: &Options) -> Result<(), Failure> {
    let file = fs::read(&options.file)?;
    let mut image = vec![0; file.len()];
    let mut map = vec![0; map_words(file.len() as u64)];
    let mut intake = Intake::open(&mut image, &mut map)?;
    let deliveries = network::deliveries(&file, options);
    let mut out = io::stdout().lock();
    let terminal = out.is_terminal();
    let mut screen = Screen::new(&mut out, terminal);
    let pause = Duration::from_millis(options.pause);
    take_in(&mut intake, &deliveries, pause, &mut screen)?;
    writeln!(out)?;
    playlists::print(&intake, options, &mut out)?;
    Ok(out.flush()?)
}

fn main() -> ExitCode {
    let options = match Options::parse(env::args_os().skip(1)) {
        Ok(options) => options,
        Err(wrong) => {
            eprintln!("demo: {wrong}\n{USAGE}");
            return ExitCode::from(2);
        }
    };
    match run(&options) {
        Err(failure) if !failure.is_closed_pipe() => {
            eprintln!("demo: {}: {failure}", options.file.display());
            ExitCode::FAILURE
        }
        _ => ExitCode::SUCCESS,
    }
}
