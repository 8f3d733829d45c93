//! Reading a file, against another program that reads it.

use crate::measure::{head, line, timed};
use crate::reading::{read_from_lists, Read};
use crate::taking_in::PACKET;
use sarvoltig::{map_words, Intake, Refusal, BLOCK};
use sarvoltig_tools::failure::Failure;
use sarvoltig_tools::output::{counted, status};
use std::ffi::OsString;
use std::fs;
use std::process::{Command, ExitCode, Stdio};
use std::time::Duration;

/// Runs of each.
const RUNS: usize = 5;

/// Prints the table for a program with its words, of which the last is the file.
pub fn table(words: &[OsString]) -> ExitCode {
    match times(words) {
        Ok((what, times)) => status("bench", head().and_then(|()| line(&what, times))),
        Err(wrong) => {
            eprintln!("bench: {wrong}");
            ExitCode::FAILURE
        }
    }
}

/// What was read, and the fastest runs of the library and of the program, which are taken in turn.
fn times(words: &[OsString]) -> Result<(String, (Duration, Duration)), String> {
    let (program, file) = (&words[0], &words[words.len() - 1]);
    let bytes = fs::read(file).map_err(|error| format!("{file:?}: {error}"))?;
    let mut reading = Reading::new(bytes);
    let mut best = (Duration::MAX, Duration::MAX);
    let mut rows = 0;
    for _ in 0..RUNS {
        let (read, time) = reading
            .run()
            .map_err(|refusal| format!("{file:?}: {}", Failure::from(refusal)))?;
        rows = read.rows;
        best = (best.0.min(time), best.1.min(told(words)?));
    }
    let rows = counted(rows, "row", "rows");
    let what = format!("reading {file:?}, {rows}, against {program:?}");
    Ok((what, best))
}

/// The time that the program tells: it prints one line, which is a number of milliseconds.
fn told(words: &[OsString]) -> Result<Duration, String> {
    let program = &words[0];
    let output = Command::new(program)
        .args(&words[1..])
        .stdin(Stdio::null())
        .stderr(Stdio::inherit())
        .output()
        .map_err(|error| format!("{program:?}: {error}"))?;
    if !output.status.success() {
        return Err(format!("{program:?}: {}", output.status));
    }
    let text = String::from_utf8_lossy(&output.stdout);
    let number: Option<f64> = text.trim().parse().ok();
    number
        .filter(|ms| *ms > 0.0)
        .and_then(|ms| Duration::try_from_secs_f64(ms / 1000.0).ok())
        .ok_or_else(|| {
            let start: String = text.chars().take(40).collect();
            format!("{program:?} printed {start:?}, not one line with a number of milliseconds")
        })
}

/// A file in memory, and the buffers that it is read with.
struct Reading {
    file: Vec<u8>,
    blocks: Vec<u64>,
    image: Vec<u8>,
    map: Vec<u64>,
    list: Vec<u32>,
}

impl Reading {
    fn new(file: Vec<u8>) -> Self {
        let len = file.len();
        Self {
            file,
            blocks: (0..(len / BLOCK) as u64).collect(),
            image: vec![1; len],
            map: vec![1; map_words(len as u64)],
            // an entry of a row index has more than two bytes
            list: vec![1; len / 2],
        }
    }

    /// Takes the file in, in packets, and reads every record and string of the ten tables. Buffers are cleared first.
    fn run(&mut self) -> Result<(Read, Duration), Refusal> {
        self.image.fill(0);
        self.map.fill(0);
        self.list.fill(0);
        let mut read = Ok(Read::default());
        let time = timed(|| read = self.read());
        Ok((read?, time))
    }

    fn read(&mut self) -> Result<Read, Refusal> {
        let mut intake = Intake::open(&mut self.image, &mut self.map)?;
        let mut results = [0; PACKET];
        let pieces = self.file.chunks(PACKET * BLOCK);
        for (blocks, pieces) in self.blocks.chunks(PACKET).zip(pieces) {
            let packet = intake.deliver_packet(blocks, pieces, &mut results)?;
            for result in packet {
                result?;
            }
        }
        read_from_lists(&intake, &mut self.list)
    }
}
