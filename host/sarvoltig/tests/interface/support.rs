//! Exports taken in whole, exports of one row, and records as numbers.

use sarvoltig::{map_words, Intake, Record, Table, Track, BLOCK};

/// A file taken in whole, in order.
pub fn with_intake<T>(file: &[u8], look: impl FnOnce(&Intake) -> T) -> T {
    let mut image = vec![0; file.len()];
    let mut map = vec![0; map_words(file.len() as u64)];
    let mut intake = Intake::open(&mut image, &mut map).expect("an allowed length");
    for (block, piece) in (0..).zip(file.chunks(BLOCK)) {
        intake.deliver(block, piece).expect("a new block");
        assert!(intake.holds(block));
    }
    look(&intake)
}

/// A list that takes the rows of every table here.
pub fn room() -> Vec<u32> {
    vec![0; 1 << 16]
}

/// A record's numbers, in the order of rule 5.16.
pub fn numbers(record: Record) -> Vec<u64> {
    let numbers = match record {
        Record::Track(track) => return track_numbers(track),
        Record::Genre { id }
        | Record::Artist { id }
        | Record::Label { id }
        | Record::Key { id }
        | Record::Color { id }
        | Record::Artwork { id } => vec![id],
        Record::Album { artist_id, id } => vec![artist_id, id],
        Record::PlaylistNode {
            parent_id,
            sort_order,
            id,
            raw_is_folder,
        } => vec![parent_id, sort_order, id, raw_is_folder],
        Record::PlaylistEntry {
            entry_index,
            track_id,
            playlist_id,
        } => vec![entry_index, track_id, playlist_id],
    };
    numbers.into_iter().map(u64::from).collect()
}

fn track_numbers(t: Track) -> Vec<u64> {
    let fours = [
        t.sample_rate,
        t.composer_id,
        t.file_size,
        t.artwork_id,
        t.key_id,
        t.original_artist_id,
        t.label_id,
        t.remixer_id,
        t.bitrate,
        t.track_number,
        t.tempo,
        t.genre_id,
        t.album_id,
        t.artist_id,
        t.id,
    ];
    let twos = [
        t.disc_number,
        t.play_count,
        t.year,
        t.sample_depth,
        t.duration,
    ];
    let ones = [t.color_id, t.rating];
    fours
        .into_iter()
        .map(u64::from)
        .chain(twos.into_iter().map(u64::from))
        .chain(ones.into_iter().map(u64::from))
        .collect()
}

/// Where page 1 of an export of two pages starts, and the row on it.
pub const PAGE: usize = 512;
pub const ROW: usize = PAGE + 0x28;

/// An export with one table of one row on page 1. Behind the row's bytes zeros follow up to the index.
pub fn export_of_row(table: Table, row: &[u8]) -> Vec<u8> {
    let mut file = vec![0; 2 * PAGE];
    let numbers = [
        (0x04, PAGE as u32),
        (0x08, 1),
        (0x1c, table.number()),
        (0x24, 1),
        (0x28, 1),
        (PAGE + 0x04, 1),
        (PAGE + 0x08, table.number()),
        (PAGE + 0x18, 1 + (1 << 13)),
        (2 * PAGE - 4, 1),
    ];
    for (at, number) in numbers {
        file[at..at + 4].copy_from_slice(&number.to_le_bytes());
    }
    file[ROW..ROW + row.len()].copy_from_slice(row);
    file
}

pub fn put_u16(file: &mut [u8], at: usize, number: u16) {
    file[at..at + 2].copy_from_slice(&number.to_le_bytes());
}

pub fn put_u32(file: &mut [u8], at: usize, number: u32) {
    file[at..at + 4].copy_from_slice(&number.to_le_bytes());
}

/// A genre of id 7 with an empty name.
pub const GENRE: &[u8] = b"\x07\0\0\0\x03";

/// Every answer about an intake, in one text.
pub fn answers_of(intake: &Intake) -> String {
    let mut answers = String::new();
    for table in Table::ALL {
        let mut list = room();
        let rows = intake.rows_in(table, &mut list);
        answers += &format!("{:?}\n", rows.as_ref().map(|rows| rows.walk()));
        for row in rows.iter().flatten() {
            let texts: Vec<_> = (0..21).map(|slot| row.text(slot)).collect();
            answers += &format!("{} {:?} {texts:?}\n", row.place(), row.read());
        }
    }
    answers
}

/// Every answer about a whole file.
pub fn answers(file: &[u8]) -> String {
    with_intake(file, answers_of)
}
