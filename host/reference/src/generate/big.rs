//! The content of the big export.

use super::content::{Row, Tables};
use crate::model::Table;
use crate::rng::Rng;

const TRACKS: u64 = 20_000;
const ARTISTS: u64 = 2_000;
const ALBUMS: u64 = 1_500;
const PLAYLISTS: u64 = 200;
const ENTRIES: u64 = 20_000;

const FIRST: [&str; 8] = [
    "Amber", "Northern", "Silent", "Electric", "Golden", "Hollow", "Velvet", "Distant",
];
const SECOND: [&str; 8] = [
    "Harbour", "Signal", "Garden", "Motion", "Ferry", "Winter", "Mirror", "Avenue",
];

pub(super) fn tables(rng: &mut Rng) -> Tables {
    let mut named = |table: Table, count: u64| -> (Table, Vec<Row>) {
        let rows = (1..=count).map(|id| Row::named(table, id, &name(id, rng)));
        (table, rows.collect())
    };
    let mut tables = vec![
        named(Table::Genres, 60),
        named(Table::Artists, ARTISTS),
        named(Table::Labels, 100),
        named(Table::Keys, 24),
        named(Table::Colors, 8),
        named(Table::Artwork, ALBUMS),
    ];
    tables.insert(
        0,
        (
            Table::Tracks,
            (1..=TRACKS).map(|id| track(id, rng)).collect(),
        ),
    );
    tables.push((
        Table::Albums,
        (1..=ALBUMS).map(|id| album(id, rng)).collect(),
    ));
    tables.push((
        Table::PlaylistTree,
        (1..=PLAYLISTS).map(|id| playlist(id, rng)).collect(),
    ));
    tables.push((
        Table::PlaylistEntries,
        (0..ENTRIES).map(|number| entry(number, rng)).collect(),
    ));
    tables
}

/// Mostly ASCII.
fn name(id: u64, rng: &mut Rng) -> String {
    let separator = if rng.chance(1, 16) { "–" } else { " " };
    format!("{}{separator}{} {id}", rng.pick(&FIRST), rng.pick(&SECOND))
}

fn album(id: u64, rng: &mut Rng) -> Row {
    let numbers = [("artist_id", 1 + rng.below(ARTISTS)), ("id", id)];
    Row::new(Table::Albums, &numbers, &[(0, &name(id, rng))])
}

/// Ten folders, which hold the playlists.
fn playlist(id: u64, rng: &mut Rng) -> Row {
    let folder = id <= 10;
    let numbers = [
        ("parent_id", if folder { 0 } else { 1 + id % 10 }),
        ("sort_order", id),
        ("id", id),
        ("raw_is_folder", u64::from(folder)),
    ];
    Row::new(Table::PlaylistTree, &numbers, &[(0, &name(id, rng))])
}

fn entry(number: u64, rng: &mut Rng) -> Row {
    let numbers = [
        ("entry_index", 1 + number / PLAYLISTS),
        ("track_id", 1 + rng.below(TRACKS)),
        ("playlist_id", 1 + number % PLAYLISTS),
    ];
    Row::new(Table::PlaylistEntries, &numbers, &[])
}

fn track(id: u64, rng: &mut Rng) -> Row {
    let numbers = [
        ("sample_rate", 44_100),
        ("file_size", 4_000_000 + rng.below(9_000_000)),
        ("artwork_id", 1 + rng.below(ALBUMS)),
        ("key_id", 1 + rng.below(24)),
        ("label_id", 1 + rng.below(100)),
        ("bitrate", 320),
        ("tempo", 9_000 + rng.below(6_000)),
        ("genre_id", 1 + rng.below(60)),
        ("album_id", 1 + rng.below(ALBUMS)),
        ("artist_id", 1 + rng.below(ARTISTS)),
        ("id", id),
        ("year", 1970 + rng.below(55)),
        ("sample_depth", 16),
        ("duration", 120 + rng.below(400)),
        ("rating", rng.below(6)),
    ];
    let title = name(id, rng);
    let filename = format!("{id:05} {title}.mp3");
    let file_path = format!("/Contents/{:04}/{filename}", id / 10);
    let analyze_path = format!("/PIONEER/USBANLZ/P{:03}/ANLZ{id:05}.DAT", id % 100);
    let texts = [
        (10, "2023-11-04"),
        (14, analyze_path.as_str()),
        (15, "2023-11-05"),
        (17, title.as_str()),
        (19, filename.as_str()),
        (20, file_path.as_str()),
    ];
    Row::new(Table::Tracks, &numbers, &texts)
}
