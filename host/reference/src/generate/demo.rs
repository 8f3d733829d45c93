//! The content of the demo export. All names are made up.

use super::content::{Row, Tables, Text};
use crate::model::Table;

const GENRES: [&str; 5] = ["House", "Techno", "Funk", "Ambient", "Breaks"];
const KEYS: [&str; 6] = ["Am", "C", "Em", "Fm", "Gm", "D"];
const LABELS: [&str; 3] = ["Tin Roof", "Nine Ferries", "Oblong"];
/// How the recording codes of each label start.
const CODES: [&str; 3] = ["GBTRF", "SENFE", "FROBL"];
const COLORS: [&str; 8] = [
    "Pink", "Red", "Orange", "Yellow", "Green", "Aqua", "Blue", "Purple",
];
const ARTISTS: [&str; 8] = [
    "Tamsin Okoro",
    "Velvet Ferry",
    "Søren Vale",
    "Pale Harbour",
    "Zoë Lindqvist",
    "Delta Orchard",
    "Hugo Marlow",
    "Ione Castell",
];
/// Names, each with its artist's id.
const ALBUMS: [(&str, u64); 6] = [
    ("Low Water", 1),
    ("Glass Market", 2),
    ("Nattåg", 3),
    ("Harbour Lights", 4),
    ("Fieldwork", 6),
    ("Second Sun", 8),
];
const PLAYLISTS: [&str; 3] = ["Warm-up", "Peak", "Closing"];
const TITLES: [&str; 24] = [
    "Morning Tram",
    "Copper Wire",
    "Slow Lantern",
    "Tidal",
    "Paper Boats",
    "Ninth Street",
    "Vinterljus",
    "Blå Timme",
    "Undertow",
    "Pier Seven",
    "Salt",
    "Radio Garden",
    "Après la pluie",
    "Halogen",
    "Wide Open",
    "Orchard Gate",
    "Red Barn",
    "Plough",
    "Two Left Feet",
    "Cassette Heart",
    "Night Shift",
    "Sundial",
    "Afterglow",
    "Last Bus Home",
];

const FOLDER_ID: u64 = 1;

pub(super) fn tables() -> Tables {
    vec![
        (Table::Tracks, numbered(&TITLES).map(track).collect()),
        (Table::Genres, named(Table::Genres, &GENRES)),
        (Table::Artists, named(Table::Artists, &ARTISTS)),
        (Table::Albums, numbered(&ALBUMS).map(album).collect()),
        (Table::Labels, named(Table::Labels, &LABELS)),
        (Table::Keys, named(Table::Keys, &KEYS)),
        (Table::Colors, named(Table::Colors, &COLORS)),
        (Table::PlaylistTree, playlist_tree()),
        (Table::PlaylistEntries, playlist_entries()),
        (Table::Artwork, (1..=6).map(artwork).collect()),
    ]
}

/// The items with their ids from 1.
fn numbered<T: Copy>(items: &[T]) -> impl Iterator<Item = (u64, T)> + '_ {
    (1..).zip(items.iter().copied())
}

fn named(table: Table, names: &[&str]) -> Vec<Row> {
    numbered(names)
        .map(|(id, name)| Row::named(table, id, name))
        .collect()
}

fn album((id, (name, artist_id)): (u64, (&str, u64))) -> Row {
    Row::new(
        Table::Albums,
        &[("artist_id", artist_id), ("id", id)],
        &[(0, name)],
    )
}

fn artwork(id: u64) -> Row {
    let path = format!("/PIONEER/Artwork/00001/a{id}.jpg");
    Row::named(Table::Artwork, id, &path)
}

fn playlist_tree() -> Vec<Row> {
    let row = |parent_id, sort_order, id, raw_is_folder, name| {
        let numbers = [
            ("parent_id", parent_id),
            ("sort_order", sort_order),
            ("id", id),
            ("raw_is_folder", raw_is_folder),
        ];
        Row::new(Table::PlaylistTree, &numbers, &[(0, name)])
    };
    let playlists = numbered(&PLAYLISTS)
        .map(|(number, name)| row(FOLDER_ID, number - 1, FOLDER_ID + number, 0, name));
    [row(0, 0, FOLDER_ID, 1, "Saturday")]
        .into_iter()
        .chain(playlists)
        .collect()
}

/// Eight tracks for each playlist.
fn playlist_entries() -> Vec<Row> {
    (0..TITLES.len() as u64)
        .map(|number| {
            let numbers = [
                ("entry_index", 1 + number % 8),
                ("track_id", 1 + number),
                ("playlist_id", FOLDER_ID + 1 + number / 8),
            ];
            Row::new(Table::PlaylistEntries, &numbers, &[])
        })
        .collect()
}

fn track((id, title): (u64, &str)) -> Row {
    let album_id = 1 + (id - 1) / 4;
    let numbers = [
        ("sample_rate", 44_100),
        ("file_size", 7_000_000 + 131_071 * id),
        ("artwork_id", album_id),
        ("key_id", 1 + id % KEYS.len() as u64),
        ("label_id", 1 + id % LABELS.len() as u64),
        ("bitrate", 320),
        ("track_number", 1 + (id - 1) % 4),
        ("tempo", 9_800 + 150 * id),
        ("genre_id", 1 + id % GENRES.len() as u64),
        ("album_id", album_id),
        ("artist_id", ALBUMS[album_id as usize - 1].1),
        ("id", id),
        ("disc_number", 1),
        ("play_count", id % 7),
        ("year", year(id)),
        ("sample_depth", 16),
        ("duration", 180 + 7 * id),
        ("color_id", id % 9),
        ("rating", id % 6),
    ];
    let filename = format!("{id:02} {title}.mp3");
    let file_path = format!("/Contents/{filename}");
    let analyze_path = format!("/PIONEER/USBANLZ/P00{}/ANLZ{id:04}.DAT", id % 10);
    let texts = [
        (10, "2024-05-11"),
        (14, analyze_path.as_str()),
        (15, "2024-05-12"),
        (17, title),
        (19, filename.as_str()),
        (20, file_path.as_str()),
    ];
    let mut row = Row::new(Table::Tracks, &numbers, &texts);
    if let Some(code) = recording_code(id) {
        row.texts[0] = code;
    }
    row
}

fn year(id: u64) -> u64 {
    2001 + id
}

/// Three of four tracks have a code, with none, one or two bytes behind its
/// zero byte.
fn recording_code(id: u64) -> Option<Text> {
    let padding = match id % 4 {
        0 => return None,
        1 => &[][..],
        2 => &[0],
        _ => &[0, 0],
    };
    let label = CODES[id as usize % CODES.len()];
    let code = format!("{label}{:02}{id:05}", year(id) % 100);
    Some(Text::code(code.as_bytes(), padding))
}
