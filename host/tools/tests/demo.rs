//! What `demo` logs of an export, and the artists that it lists; `programs.rs` has its other tests.

use sarvoltig::{map_words, Intake, Table, BLOCK};
use sarvoltig_reference::generate;
use sarvoltig_reference::model::RowCounts;
use std::collections::HashSet;
use std::fs;
use std::path::{Path, PathBuf};
use std::process::{Command, Output};

fn stored_export() -> PathBuf {
    Path::new(env!("CARGO_MANIFEST_DIR")).join("data/demo.pdb")
}

fn demo(words: &[&str]) -> Output {
    let mut demo = Command::new(env!("CARGO_BIN_EXE_demo"));
    demo.args(words).output().expect("the demo runs")
}

/// A file of its own for a test.
fn written(name: &str, bytes: &[u8]) -> PathBuf {
    let path = Path::new(env!("CARGO_TARGET_TMPDIR")).join(name);
    fs::write(&path, bytes).expect("a file");
    path
}

/// What the demo prints of an export: the log of what arrives, and the playlists.
fn log_and_playlists(path: &Path, words: &[&str]) -> (String, String) {
    let output = demo(&[&[path.to_str().expect("text")], words].concat());
    assert!(output.status.success());
    let text = String::from_utf8(output.stdout).expect("text");
    let (log, playlists) = text.split_once("\n\n").expect("the playlists");
    (log.to_string(), playlists.to_string())
}

/// The same of the stored export.
fn stored_log(words: &[&str]) -> (String, String) {
    log_and_playlists(&stored_export(), words)
}

/// Each table has a line at first and one whenever it has changed.
#[test]
fn the_demo_logs_what_changes() {
    for words in [&[][..], &["--harsh"], &["--packet", "1", "--pause", "9999"]] {
        let (log, playlists) = stored_log(words);
        let is_control = |c: char| c.is_control() && c != '\n';
        assert!(!log.contains(is_control) && !playlists.contains(is_control));
        let lines: Vec<&str> = log.lines().collect();
        let different: HashSet<&str> = lines.iter().copied().collect();
        assert_eq!(different.len(), lines.len(), "{log}");
        for table in Table::ALL {
            let name = format!("  {table:?} ");
            let mut states = lines.iter().filter(|line| line.starts_with(&name));
            let last = states.next_back().expect("a line");
            assert!(last.ends_with(", complete"), "{last}");
            assert!((1..5).contains(&states.count()), "{log}");
        }
    }
}

#[test]
fn the_demo_counts_one_in_the_singular() {
    const LABELS: usize = 18 * 1024;
    let mut file = generate::demo();
    file[LABELS + 0x18..LABELS + 0x1b].copy_from_slice(&RowCounts::bytes(3, 1));
    file[LABELS + 1020] = 0b010;
    let (log, _) = log_and_playlists(&written("label.pdb", &file), &[]);
    assert!(log.contains("\n  Labels                1 row on 1 page, complete\n"));
    assert!(log.contains("\n  Artists               8 rows on 2 pages, complete\n"));
    let block = written("block.pdb", &[0; BLOCK]);
    let output = demo(&[block.to_str().expect("text")]);
    let text = String::from_utf8_lossy(&output.stdout);
    assert!(text.contains("1 of 1 block held; 1 new"), "{text}");
}

/// Where the rows of a table start.
fn places(file: &[u8], table: Table) -> Vec<usize> {
    let mut image = vec![0; file.len()];
    let mut map = vec![0; map_words(file.len() as u64)];
    let mut intake = Intake::open(&mut image, &mut map).expect("an allowed length");
    for (block, piece) in (0..).zip(file.chunks(BLOCK)) {
        intake.deliver(block, piece).expect("a new block");
    }
    let rows = intake.rows(table).expect("a good table");
    rows.iter().map(|row| row.place() as usize).collect()
}

/// The lines that the demo prints for tracks with their artists: an index, and what follows it.
fn track_lines(path: &Path) -> Vec<String> {
    let (_, playlists) = log_and_playlists(path, &["--artists"]);
    playlists
        .lines()
        .filter_map(|line| line.trim_start().split_once("  "))
        .filter(|(index, _)| index.parse::<u32>().is_ok())
        .map(|(_, track)| track.to_string())
        .collect()
}

#[test]
fn the_demo_lists_artists_and_codes() {
    let lines = track_lines(&stored_export());
    let first = [
        "Morning Tram  Tamsin Okoro  SENFE0200001",
        "Copper Wire   Tamsin Okoro  FROBL0300002",
        "Slow Lantern  Tamsin Okoro  GBTRF0400003",
        "Tidal         Tamsin Okoro",
    ];
    assert_eq!(lines[..4], first);
    assert_eq!(lines[8], "Undertow        Søren Vale    GBTRF1000009");
    assert_eq!(lines[12], "Après la pluie  Pale Harbour  SENFE1400013");
}

/// The first and the fourth track get an artist that is not there, and the second artist gets the first one's id.
#[test]
fn the_demo_lists_titles_without_artists() {
    const ARTIST_ID: usize = 0x44;
    const ID: usize = 0x04;
    let mut file = generate::demo();
    let (tracks, artists) = (places(&file, Table::Tracks), places(&file, Table::Artists));
    file[tracks[0] + ARTIST_ID] = 99;
    file[tracks[3] + ARTIST_ID] = 99;
    file[artists[1] + ID] = 1;
    let lines = track_lines(&written("artists.pdb", &file));
    let first = [
        "Morning Tram                SENFE0200001",
        "Copper Wire   Tamsin Okoro  FROBL0300002",
        "Slow Lantern  Tamsin Okoro  GBTRF0400003",
        "Tidal",
        "Paper Boats                 FROBL0600005",
    ];
    assert_eq!(lines[..5], first);
}

/// The number of the first page of artists is wrong, which refuses that table and no other.
#[test]
fn the_demo_lists_titles_where_the_artists_are_refused() {
    let mut file = generate::demo();
    file[15 * 1024 + 0x04] = 14;
    let path = written("no_artists.pdb", &file);
    let (log, _) = log_and_playlists(&path, &["--artists"]);
    assert!(log.contains("\n  Artists               refused 12: "));
    let lines = track_lines(&path);
    assert_eq!(lines[0], "Morning Tram  SENFE0200001");
    assert_eq!(lines[3], "Tidal");
}
