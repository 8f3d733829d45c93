//! Random cue lists.

use super::random::with_header;
use super::write::{Content, Tag};
use crate::anlz::{Cue, CueListType, CuePosition, CUE, ENTRIES, ENVELOPE};
use crate::rng::Rng;

const COUNTS: [usize; 12] = [0, 0, 0, 1, 1, 1, 2, 2, 3, 4, 8, 10];

/// Counts around the greatest of one byte.
const LONG_COUNTS: [usize; 4] = [255, 256, 257, 300];

/// Counts around the first whose length needs more than 16 bits, and the
/// greatest.
const LARGE_COUNTS: [usize; 3] = [1_169, 1_170, 65_535];

/// Of so many lists one is large.
const LARGE_ONE_IN: u64 = 2_000;

/// Puts cue lists among the sections. In one file of sixteen or so one of them
/// is a bad one.
pub(super) fn insert_cue_lists(tags: &mut Vec<Tag>, rng: &mut Rng) {
    let lists = rng.pick(&[0, 1, 1, 2, 2, 2, 2, 3, 3, 5]);
    let bad = rng.index(16 * lists + 1);
    for list in 0..lists {
        let at = rng.index(tags.len() + 1);
        tags.insert(at, list_tag(list == bad, rng));
    }
}

/// A cue list, good or bad. Half of them have random bytes in the fields that
/// no rule names, in the others the status of some cues is 0.
pub(super) fn list_tag(is_bad: bool, rng: &mut Rng) -> Tag {
    let list = rng.pick(&[CueListType::Memory, CueListType::Hot]);
    let cues = random_cues(list, rng);
    let mut tag = Tag::cue_list(list, &cues);
    match rng.chance(1, 2) {
        true => {
            for part in tag.free(true) {
                let bytes = rng.bytes(part.len());
                tag.put(part.start, &bytes);
            }
        }
        false => {
            for k in (0..cues.len()).filter(|_| rng.chance(1, 4)) {
                tag.put(entry(k) + 0x10, &[0; 4]);
            }
        }
    }
    if is_bad {
        spoil(&mut tag, cues.len(), rng);
    }
    match rng.chance(1, 3) {
        true => with_header(tag, rng),
        false => tag,
    }
}

/// Where entry k begins in a list.
fn entry(k: usize) -> usize {
    ENTRIES + CUE * k
}

/// Makes a list of so many cues a bad one.
fn spoil(tag: &mut Tag, cues: usize, rng: &mut Rng) {
    let any = entry(rng.index(cues.max(1)));
    match rng.below(8) {
        0 => tag.put(0x12, &rng.pick(&[cues + 1, cues ^ 1]).to_be_bytes()[6..]),
        1 => tag.body.truncate(rng.index(ENTRIES - ENVELOPE)),
        2 => tag.body.extend(vec![0; 1 + rng.index(CUE)]),
        3 if cues > 0 => tag.put(any + rng.index(4), b"?"),
        4 if cues > 0 => tag.put(any + 0x0b, &[rng.pick(&[0x37, 0x39, 0x1c])]),
        5 | 6 if cues > 0 => tag.put(any + 0x1c, &[rng.pick(&[0, 3, 0xff])]),
        _ => tag.put(0x0c, &rng.pick(&[2, 0x0100, 0x0100_0000_u32]).to_be_bytes()),
    }
    tag.len_header = tag.len_header.min(tag.len_tag());
    tag.content = Content::CueList(Err(26));
}

fn random_cues(list: CueListType, rng: &mut Rng) -> Vec<Cue> {
    let count = match rng.below(LARGE_ONE_IN) {
        0 => rng.pick(&LARGE_COUNTS),
        1..20 => rng.pick(&LONG_COUNTS),
        _ => rng.pick(&COUNTS),
    };
    let any_numbers = rng.chance(1, 3);
    (0..count as u32)
        .map(|number| match any_numbers {
            true => any_cue(list, rng),
            false => plausible_cue(list, number, rng),
        })
        .collect()
}

/// A cue with random numbers.
fn any_cue(list: CueListType, rng: &mut Rng) -> Cue {
    let [hot_cue, time, loop_time] = [(); 3].map(|()| rng.next_u64() as u32);
    let position = match rng.chance(1, 2) {
        true => CuePosition::Point { time },
        false => CuePosition::Loop { time, loop_time },
    };
    Cue {
        list,
        hot_cue,
        position,
    }
}

/// A cue as a list of this type has them.
fn plausible_cue(list: CueListType, number: u32, rng: &mut Rng) -> Cue {
    let time = 4_000 * number + rng.below(4_000) as u32;
    let position = match rng.chance(2, 3) {
        true => CuePosition::Point { time },
        false => CuePosition::Loop {
            time,
            loop_time: time + 2_000,
        },
    };
    Cue {
        list,
        hot_cue: match list {
            CueListType::Memory => 0,
            CueListType::Hot => 1 + number,
        },
        position,
    }
}
