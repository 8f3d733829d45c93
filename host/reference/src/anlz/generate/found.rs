//! What a reader finds in the sections of a file.

use std::iter;
use std::ops::Range;

use super::write::{file, Content, Tag};
use super::AnlzFile;
use crate::anlz::{Beat, Cue, Waveform, ENTRIES, ENVELOPE};

impl AnlzFile {
    /// The file of a header, given by its bytes behind the envelope, and
    /// sections.
    pub(super) fn of(header: &[u8], tags: &[Tag]) -> AnlzFile {
        let start = ENVELOPE + header.len();
        let placed = with_places(start, tags);
        AnlzFile {
            bytes: file(header, tags),
            beats: beats(tags),
            cues: cues(tags),
            waves: [b"PWV3", b"PWV4", b"PWV5"].map(|code| wave(*code, &placed)),
            free: iter::once(ENVELOPE..start)
                .filter(|header| !header.is_empty())
                .chain(free(&placed))
                .collect(),
        }
    }
}

/// The sections with the places where they begin.
fn with_places(start: usize, tags: &[Tag]) -> Vec<(usize, &Tag)> {
    let places = tags.iter().scan(start, |next, tag| {
        let place = *next;
        *next += tag.len_tag();
        Some(place)
    });
    places.zip(tags).collect()
}

/// The beats of the first grid.
fn beats(tags: &[Tag]) -> Result<Vec<Beat>, u8> {
    let mut grids = tags.iter().filter_map(|tag| match &tag.content {
        Content::Grid(found) => Some(found.clone()),
        _ => None,
    });
    grids.next().unwrap_or(Err(22))
}

/// The cues of all lists.
fn cues(tags: &[Tag]) -> Result<Vec<Cue>, u8> {
    let lists = tags.iter().filter_map(|tag| match &tag.content {
        Content::CueList(found) => Some(found.clone()),
        _ => None,
    });
    let lists: Vec<Vec<Cue>> = lists.collect::<Result<_, u8>>()?;
    Ok(lists.concat())
}

/// The first waveform with a code.
fn wave(code: [u8; 4], placed: &[(usize, &Tag)]) -> Result<Waveform, u8> {
    let mut waves = placed.iter().filter_map(|(place, tag)| match tag.content {
        Content::Wave(found) if tag.code == code => Some((place, found)),
        _ => None,
    });
    let (place, found) = waves.next().ok_or(18)?;
    found.map(|[width, count]| Waveform {
        place: (place + ENTRIES) as u64,
        width,
        count,
    })
}

/// The bytes of the sections that no answer depends on.
fn free(placed: &[(usize, &Tag)]) -> Vec<Range<usize>> {
    let mut free = Vec::new();
    for (number, (place, tag)) in placed.iter().enumerate() {
        let mut before = placed[..number].iter().map(|(_, tag)| tag.code);
        let is_first = before.all(|code| code != tag.code);
        let parts = tag.free(is_first).into_iter();
        free.extend(parts.map(|part| place + part.start..place + part.end));
    }
    free
}
