//! Plays a run of calls again and prints the answers.

use std::fmt::Write;

use super::{Answer, Call, Run};
use crate::model::bytes::u32_at;
use crate::model::Session;

/// What a replay prints, and how it ends.
#[derive(Clone, Debug, PartialEq, Eq)]
pub struct Replayed {
    /// One line for each call that has an answer.
    pub output: String,
    /// The exit status: 2 after a line that is no call, else 0.
    pub status: u8,
}

/// Makes the calls of the lines on a session. Before the first `lend` the
/// buffers are empty, before the first `list` the list, before the first `anlz`
/// the ANLZ file.
///
/// ```
/// use sarvoltig_reference::schedule::replay;
///
/// let replayed = replay("lend 512 1\nopen 512 0\nrecord 1 0\nrecord 1\n");
/// let output = "open 1 lent 83df2ef5\n\
///               wait page 0 rows 0 pages 0 lent 83df2ef5\n\
///               line 4\n";
/// assert_eq!(replayed.output, output);
/// assert_eq!(replayed.status, 2);
/// ```
pub fn replay(lines: &str) -> Replayed {
    let mut run = Run::new(Session::new(Vec::new(), Vec::new()));
    let mut output = String::new();
    for (number, line) in (1..).zip(lines.split_terminator('\n')) {
        let Some(call) = Call::parse_line(line) else {
            let _ = writeln!(output, "line {number}");
            return Replayed { output, status: 2 };
        };
        if let Some(answer) = call.make(&mut run) {
            let _ = write!(output, "{answer}");
            if !call.asks_anlz() {
                let crc = checksum(run.session(), &answer);
                let _ = write!(output, " lent {crc:08x}");
            }
            output.push('\n');
        }
    }
    Replayed { output, status: 0 }
}

/// The CRC of the image, the map and the list that the call wrote to, as they
/// are after the call.
fn checksum(session: &Session, answer: &Answer) -> u32 {
    let map = session.map().iter().flat_map(|word| word.to_le_bytes());
    let list = answer.list.iter().flat_map(|place| place.to_le_bytes());
    crc32([
        session.image(),
        &map.collect::<Vec<u8>>(),
        &list.collect::<Vec<u8>>(),
    ])
}

/// The common CRC-32, with polynomial edb88320, of the parts one after another.
///
/// ```
/// use sarvoltig_reference::schedule::crc32;
///
/// assert_eq!(crc32([&b"1234"[..], b"56789"]), 0xcbf4_3926);
/// ```
pub fn crc32<'a>(parts: impl IntoIterator<Item = &'a [u8]>) -> u32 {
    !parts.into_iter().fold(!0, crc_of_part)
}

/// Eight bytes at a time, as buffers are long.
fn crc_of_part(crc: u32, part: &[u8]) -> u32 {
    let mut eights = part.chunks_exact(8);
    let crc = eights.by_ref().fold(crc, |crc, eight| {
        let start = u32_at(eight, 0) ^ crc;
        let bytes = start
            .to_le_bytes()
            .into_iter()
            .chain(eight[4..].iter().copied());
        let tables = CRC_TABLES.iter().rev();
        tables
            .zip(bytes)
            .fold(0, |crc, (table, byte)| crc ^ table[usize::from(byte)])
    });
    eights.remainder().iter().fold(crc, |crc, byte| {
        CRC_TABLES[0][usize::from(crc as u8 ^ byte)] ^ (crc >> 8)
    })
}

/// Table n is for a byte that n bytes follow.
const CRC_TABLES: [[u32; 256]; 8] = crc_tables();

const fn crc_tables() -> [[u32; 256]; 8] {
    let mut tables = [[0; 256]; 8];
    let mut n = 0;
    while n < 8 {
        let mut byte = 0;
        while byte < 256 {
            let mut crc = match n {
                0 => byte as u32,
                _ => tables[n - 1][byte],
            };
            let mut bit = 0;
            while bit < 8 {
                crc = (crc >> 1) ^ ((crc & 1) * 0xedb8_8320);
                bit += 1;
            }
            tables[n][byte] = crc;
            byte += 1;
        }
        n += 1;
    }
    tables
}
