//! Random files.

use super::cue_lists::{insert_cue_lists, list_tag};
use super::grids::grid_tag;
use super::waveforms::{insert_waves, SORTS};
use super::write::Tag;
use super::AnlzFile;
use crate::anlz::{ENTRIES, ENVELOPE};
use crate::rng::Rng;

/// Codes of sections that are not asked for, some near that of a grid, of a cue
/// list or of a waveform.
const CODES: [[u8; 4]; 24] = [
    *b"PPTH",
    *b"PVBR",
    *b"PWAV",
    *b"PWV2",
    *b"pqtz",
    *b"PQTz",
    *b"pQTZ",
    *b"PQT2",
    *b"PQ\0Z",
    *b"ZTQP",
    *b"PMAI",
    *b"QTZ\0",
    *b"PCO2",
    *b"PCO2",
    *b"pcob",
    *b"PCOb",
    *b"PCPT",
    *b"PWV6",
    *b"pwv3",
    *b"PWV\x03",
    *b"PWV\0",
    *b"3VWP",
    [0; 4],
    [0xff; 4],
];

const HEADER_LENS: [usize; 8] = [12, 12, 28, 28, 13, 24, 27, 40];

/// Of so many bodies one is large.
const LARGE_ONE_IN: u64 = 800;

/// A file with random sections: none, one or several of them grids, cue lists
/// and waveforms, of which some are bad.
///
/// ```
/// use sarvoltig_reference::{anlz::{generate, sections}, rng::Rng};
///
/// assert!(sections(&generate::random(&mut Rng::new(3)).bytes).is_ok());
/// ```
pub fn random(rng: &mut Rng) -> AnlzFile {
    let len_header = rng.pick(&HEADER_LENS);
    let header = filler(len_header - ENVELOPE, rng);
    let others = rng.pick(&[0, 0, 1, 2, 3, 4, 6, 9]);
    let mut tags: Vec<Tag> = (0..others).map(|_| other_tag(rng)).collect();
    let grids = rng.pick(&[0, 1, 1, 1, 1, 1, 1, 1, 2, 2, 2, 3]);
    insert(&mut tags, grids, grid_tag, rng);
    if rng.chance(4, 5) {
        insert_cue_lists(&mut tags, rng);
        insert_waves(&mut tags, rng);
    }
    AnlzFile::of(&header, &tags)
}

/// Puts sections of one code among the others. One of twelve first ones is bad,
/// of further ones every second; they mostly stand behind it.
pub(super) fn insert(
    tags: &mut Vec<Tag>,
    count: usize,
    make: impl Fn(bool, &mut Rng) -> Tag,
    rng: &mut Rng,
) {
    let first = rng.index(tags.len() + 1);
    for number in 0..count {
        let is_bad = rng.chance(1, if number == 0 { 12 } else { 2 });
        let tag = make(is_bad, rng);
        let at = match number == 0 || rng.chance(1, 8) {
            true => first,
            false => first + 1 + rng.index(tags.len() - first),
        };
        tags.insert(at, tag);
    }
}

/// Bytes that are not read, sometimes with what looks like a section.
fn filler(len: usize, rng: &mut Rng) -> Vec<u8> {
    let mut bytes = match rng.chance(1, 4) {
        true => vec![0; len],
        false => rng.bytes(len),
    };
    if rng.chance(1, 2) {
        let code = rng.pick(&[b"PQTZ", b"PMAI", b"PCOB", b"PWV3"]);
        let at = rng.index(bytes.len() + 1);
        let room = bytes.len() - at;
        bytes[at..][..room.min(4)].copy_from_slice(&code[..room.min(4)]);
    }
    bytes
}

/// A section that is not asked for.
fn other_tag(rng: &mut Rng) -> Tag {
    let any = rng.next_u64().to_le_bytes();
    let mut code = rng.pick(&CODES);
    if rng.chance(1, 8) {
        code = [any[0], any[1], any[2], b'?'];
    }
    let body = match rng.below(7) {
        0 => Vec::new(),
        1 => hidden_tag(rng),
        2 => filler(ENTRIES - ENVELOPE, rng),
        // right but for its code
        3 => readable_tag(rng).body,
        _ => {
            let len = match rng.chance(1, LARGE_ONE_IN) {
                true => 65_500 + rng.index(90),
                false => rng.index(90),
            };
            filler(len, rng)
        }
    };
    with_header(Tag::new(code, body), rng)
}

/// A body with a whole section in it.
fn hidden_tag(rng: &mut Rng) -> Vec<u8> {
    let ahead = rng.pick(&[0, 0, 4, 7, 12]);
    let mut body = rng.bytes(ahead);
    body.extend(readable_tag(rng).bytes());
    body
}

/// A good grid, cue list or waveform of sort 3 or 5.
fn readable_tag(rng: &mut Rng) -> Tag {
    match rng.below(4) {
        0 => list_tag(false, rng),
        1 => rng.pick(&[SORTS[0], SORTS[2]]).tag(false, rng),
        _ => grid_tag(false, rng),
    }
}

/// The section with another len_header.
pub(super) fn with_header(mut tag: Tag, rng: &mut Rng) -> Tag {
    let len_tag = tag.len_tag();
    let inside = ENVELOPE + rng.index(len_tag - ENVELOPE + 1);
    let lens = [ENVELOPE, len_tag, inside, ENTRIES.min(len_tag)];
    tag.len_header = rng.pick(&lens);
    tag
}
