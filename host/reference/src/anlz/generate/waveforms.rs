//! Random waveforms.

use super::random::{insert, with_header};
use super::write::{Content, Tag};
use crate::anlz::{ENTRIES, ENVELOPE};
use crate::rng::Rng;

/// The number of entries in a waveform of sort 4.
const PREVIEW: usize = 1_200;

const COUNTS: [usize; 12] = [0, 0, 1, 2, 3, 5, 6, 12, 150, 255, 256, 257];

/// Counts at which a count, a length or a place needs more than 16 bits.
const LARGE_COUNTS: [usize; 5] = [32_756, 65_512, 65_535, 65_536, 70_000];

/// Of so many waveforms one is large.
const LARGE_ONE_IN: u64 = 300;

/// Counts of sort 4 that are wrong.
const WRONG_PREVIEWS: [usize; 6] = [PREVIEW - 1, PREVIEW + 1, PREVIEW - 1, PREVIEW + 1, 0, 200];

/// A sort: code and width.
#[derive(Clone, Copy)]
pub(super) struct Sort {
    code: [u8; 4],
    width: usize,
}

const fn sort(code: [u8; 4], width: usize) -> Sort {
    Sort { code, width }
}

/// The sorts 3, 4 and 5.
pub(super) const SORTS: [Sort; 3] = [sort(*b"PWV3", 1), sort(*b"PWV4", 6), sort(*b"PWV5", 2)];

/// Puts waveforms among the sections, of sort 4 in fewer files, as it is long.
pub(super) fn insert_waves(tags: &mut Vec<Tag>, rng: &mut Rng) {
    for sort in SORTS {
        let waves = match sort.has_preview() {
            true => rng.pick(&[0, 0, 0, 0, 0, 0, 0, 1, 1, 2]),
            false => rng.pick(&[0, 0, 1, 1, 1, 1, 1, 2, 2, 3]),
        };
        insert(tags, waves, |is_bad, rng| sort.tag(is_bad, rng), rng);
    }
}

impl Sort {
    /// Whether it is sort 4, of which one number of entries is good.
    fn has_preview(self) -> bool {
        self.width == 6
    }

    /// A waveform, good or bad.
    pub fn tag(self, is_bad: bool, rng: &mut Rng) -> Tag {
        let count = match rng.below(LARGE_ONE_IN) {
            _ if self.has_preview() => PREVIEW,
            0 => rng.pick(&LARGE_COUNTS),
            _ => rng.pick(&COUNTS),
        };
        let entries = rng.bytes(self.width * count);
        let mut tag = Tag::wave(self.code, self.width, &entries);
        if rng.chance(1, 2) {
            let unnamed = rng.bytes(4);
            tag.put(0x14, &unnamed);
        }
        if is_bad {
            self.spoil(&mut tag, count, rng);
        }
        match rng.chance(1, 3) {
            true => with_header(tag, rng),
            false => tag,
        }
    }

    /// Makes a waveform of so many entries a bad one.
    fn spoil(self, tag: &mut Tag, count: usize, rng: &mut Rng) {
        let other = self.other_width(rng);
        let wrong_count = rng.pick(&[count + 1, count ^ 1]) as u32;
        match rng.below(7) {
            0 => tag.put(0x0c, &rng.pick(&[0, 0x0100, other as u32]).to_be_bytes()),
            1 => tag.put(0x10, &wrong_count.to_be_bytes()),
            2 => tag.body.truncate(rng.index(ENTRIES - ENVELOPE)),
            3 => tag.body.extend(vec![0; 1 + rng.index(self.width)]),
            4 if self.has_preview() => {
                let entries = self.width * rng.pick(&WRONG_PREVIEWS);
                *tag = Tag::wave(self.code, self.width, &rng.bytes(entries));
            }
            _ => *tag = Tag::wave(self.code, other, &rng.bytes(other * count)),
        }
        tag.len_header = tag.len_header.min(tag.len_tag());
        tag.content = Content::Wave(Err(27));
    }

    /// A width that is not that of the sort.
    fn other_width(self, rng: &mut Rng) -> usize {
        match rng.pick(&[1, 2, 6]) {
            width if width == self.width => 3,
            width => width,
        }
    }
}
