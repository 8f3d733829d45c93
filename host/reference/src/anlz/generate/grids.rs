//! Random beat grids.

use super::random::with_header;
use super::write::{Content, Tag};
use crate::anlz::{Beat, ENTRIES, ENVELOPE};
use crate::rng::Rng;

const BEAT_COUNTS: [usize; 16] = [0, 0, 1, 1, 2, 3, 4, 5, 7, 8, 16, 31, 64, 255, 256, 257];

/// Counts of beats at which a count, a length or a place needs more than 16 bits.
const LARGE_BEAT_COUNTS: [usize; 6] = [3_000, 8_188, 8_189, 65_535, 65_536, 65_600];

/// Of so many grids one is large.
const LARGE_ONE_IN: u64 = 800;

/// A grid, good or bad.
pub(super) fn grid_tag(is_bad: bool, rng: &mut Rng) -> Tag {
    let beats = random_beats(rng);
    let mut tag = Tag::grid(&beats);
    if rng.chance(1, 2) {
        let unnamed = rng.bytes(8);
        tag.put(ENVELOPE, &unnamed);
    }
    if is_bad {
        let number = spoil(&mut tag, beats.len(), rng);
        tag.content = Content::Grid(Err(number));
    }
    match rng.chance(1, 2) {
        true => with_header(tag, rng),
        false => tag,
    }
}

/// Makes a grid of so many beats a bad one; the number of its refusal.
fn spoil(tag: &mut Tag, beats: usize, rng: &mut Rng) -> u8 {
    let wrong_bar = rng.pick(&[0, 5, 0x0101, 0x0100, 0xffff]);
    match rng.below(4) {
        0 if beats > 0 => {
            tag.set_bar(rng.index(beats), wrong_bar);
            return 24;
        }
        1 if beats > 0 => {
            tag.set_bar(rng.index(beats), wrong_bar);
            tag.set_len_beats(beats as u32 - 1);
        }
        2 => tag.body.truncate(rng.index(ENTRIES - ENVELOPE)),
        _ => tag.body.extend(vec![0; 1 + rng.index(9)]),
    }
    tag.len_header = tag.len_header.min(tag.len_tag());
    23
}

/// Beats with plausible or with random numbers.
fn random_beats(rng: &mut Rng) -> Vec<Beat> {
    let count = match rng.below(LARGE_ONE_IN) {
        0 => rng.pick(&LARGE_BEAT_COUNTS),
        1..80 => rng.index(400),
        _ => rng.pick(&BEAT_COUNTS),
    };
    let any_numbers = rng.chance(1, 3);
    let tempo = 6_000 + rng.below(12_000) as u16;
    let first = rng.below(4) as u16;
    (0..count as u32)
        .map(|number| match any_numbers {
            true => Beat {
                bar_position: 1 + rng.below(4) as u16,
                tempo: rng.next_u64() as u16,
                time: rng.next_u64() as u32,
            },
            false => Beat {
                bar_position: 1 + (first + (number % 4) as u16) % 4,
                tempo,
                time: 6_000_000 / u32::from(tempo) * number,
            },
        })
        .collect()
}
