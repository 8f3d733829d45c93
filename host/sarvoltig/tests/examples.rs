//! Examples that the crate's documentation had up to version 0.1.

#![cfg(feature = "alloc")]

use sarvoltig::{
    map_words, Delivered, Encoding, Intake, Refusal, Rows, Table, Text, Track, Walk, BLOCK,
};

type Tested = Result<(), Box<dyn std::error::Error>>;

#[test]
fn words_of_a_map() {
    assert_eq!(sarvoltig::map_words(512), 1);
    assert_eq!(sarvoltig::map_words(32_768 + 512), 2);
}

#[test]
fn an_intake() -> Result<(), Refusal> {
    let mut image = vec![0; 1024];
    let mut map = vec![0; sarvoltig::map_words(1024)];
    let mut intake = Intake::open(&mut image, &mut map)?;
    assert_eq!(intake.deliver(1, &[7; 512])?, Delivered::New(1));
    assert_eq!(intake.deliver(1, &[7; 512])?, Delivered::Same(1));
    // block 0 has the directory, and is missing
    let rows = intake.rows(Table::Genres)?;
    assert_eq!(
        rows.walk(),
        Walk::Waiting {
            page: 0,
            rows: 0,
            pages: 0
        }
    );
    Ok(())
}

#[test]
fn the_whole() -> Result<(), Refusal> {
    fn blocks() -> Vec<(u64, Vec<u8>)> {
        Vec::new()
    }
    let mut image = vec![0; 4096];
    let mut map = vec![0; map_words(4096)];
    let mut intake = Intake::open(&mut image, &mut map)?;
    for (number, bytes) in blocks() {
        intake.deliver(number, &bytes)?;
    }
    for row in &intake.rows(Table::PlaylistTree)? {
        println!("{}", row.text(0)?);
    }
    Ok(())
}

/// The stored export, taken in whole.
fn with_intake(look: impl FnOnce(&Intake) -> Tested) -> Tested {
    let file = std::fs::read("../tools/data/demo.pdb")?;
    let mut image = vec![0; file.len()];
    let mut map = vec![0; map_words(file.len() as u64)];
    let mut intake = Intake::open(&mut image, &mut map)?;
    for (number, piece) in (0..).zip(file.chunks(BLOCK)) {
        intake.deliver(number, piece)?;
    }
    look(&intake)
}

#[test]
fn a_text_from_a_list() -> Tested {
    with_intake(|intake| {
        let list = intake.rows(Table::PlaylistTree)?.into_places();
        let name = intake.text_in(Table::PlaylistTree, &list, 1, 0)?.found();
        assert_eq!(
            name.map(|name| name.to_string()).as_deref(),
            Some("Warm-up")
        );
        Ok(())
    })
}

#[test]
fn a_recording_code() -> Tested {
    with_intake(|intake| {
        let tracks = intake.rows(Table::Tracks)?;
        let first = tracks.get(0).ok_or("no track")?;
        assert_eq!(first.text(Track::ISRC)?.to_string(), "SENFE0200001");
        Ok(())
    })
}

#[test]
fn rows_and_their_names() -> Tested {
    with_intake(|intake| {
        let playlists: Rows = intake.rows(Table::PlaylistTree)?;
        assert!(playlists.walk().is_full());
        let mut names = Vec::new();
        for row in &playlists {
            names.push(row.text(0)?.to_string());
        }
        assert_eq!(names, ["Saturday", "Warm-up", "Peak", "Closing"]);
        Ok(())
    })
}

#[test]
fn a_row_of_a_list() -> Tested {
    with_intake(|intake| {
        let tracks = intake.rows(Table::Tracks)?;
        let fourth = tracks.get(3).ok_or("no track")?;
        let row = fourth.read()?;
        // three tracks stand on page 1
        assert_eq!((row.page, row.entry), (2, 0));
        assert_eq!(row.record, fourth.record()?);
        Ok(())
    })
}

#[test]
fn texts() {
    let text = Text {
        place: 0,
        bytes: b"F\0u\0n\0k\0",
        encoding: Encoding::Utf16Le,
    };
    assert_eq!(text.to_string(), "Funk");
    let text = Text {
        place: 0,
        bytes: b"SE\xe92400001",
        encoding: Encoding::Ascii,
    };
    assert_eq!(text.to_string(), "SE\u{fffd}2400001");
}
