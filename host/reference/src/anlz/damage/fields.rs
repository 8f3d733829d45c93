//! Fields that get another value.

use super::target::{has_header, Target};
use crate::anlz::{BEAT, ENTRIES, ENVELOPE};

/// Numbers at which readers may go wrong.
const EDGES: [u32; 10] = [
    0,
    1,
    0x0b,
    0x0c,
    0x0d,
    0x18,
    0x7fff_ffff,
    0x8000_0000,
    0xffff_fff4,
    u32::MAX,
];

impl Target<'_> {
    /// Changes a byte of a code.
    pub fn code(&mut self, place: Option<usize>) {
        let Some(place) = place else { return };
        let at = place + self.rng.index(4);
        let old = self.bytes.get(at).copied().unwrap_or(0);
        let bit = 1 << self.rng.below(8);
        let other = self.rng.pick(&[old ^ 0x20, old ^ bit, old.wrapping_add(1)]);
        self.put(at, &[other]);
    }

    pub fn file_len_header(&mut self) {
        let len = self.bytes.len() as u32;
        let mut near = vec![11, 12, 13, len.wrapping_sub(1), len, len.wrapping_add(1)];
        near.extend(self.sections().iter().map(|(_, end)| *end as u32));
        self.change_number(0x04, &near);
    }

    pub fn len_file(&mut self) {
        let len = self.bytes.len() as u32;
        let header = self.number(0x04);
        let less = |by: u32| len.wrapping_sub(by);
        let near = [len + 1, less(1), len + 12, less(12), len + 0x100, header];
        self.change_number(0x08, &near);
    }

    pub fn section_len_header(&mut self) {
        let Some(place) = self.section() else { return };
        let len_tag = self.number(place + 0x08);
        let near = [11, 12, len_tag - 1, len_tag, len_tag + 1, len_tag + 2];
        self.change_number(place + 0x04, &near);
    }

    /// Another len_tag: near its header's length, near the file's end, over
    /// the next section, or such that a sum of 32 bits wraps to a place that
    /// looks right.
    pub fn len_tag(&mut self) {
        let Some(place) = self.section() else { return };
        let rest = (self.bytes.len() - place) as u32;
        let header = self.number(place + 0x04);
        let back = |to: u32| to.wrapping_sub(place as u32);
        let mut near = vec![11, 12, header, header.wrapping_sub(1)];
        near.extend([rest, rest + 1, rest - 1, rest - 11, rest - 12]);
        near.extend([back(0), back(self.number(0x04)), back(ENVELOPE as u32)]);
        near.extend(self.sections().iter().map(|(_, end)| back(*end as u32)));
        self.change_number(place + 0x08, &near);
    }

    /// Another len_beats, also such that its bytes counted with 32 bits are right.
    pub fn len_beats(&mut self) {
        let Some((place, _)) = self.grid().filter(has_header) else {
            return;
        };
        let at = place + 0x14;
        let old = self.number(at);
        let high = (1 + self.rng.below(7) as u32) << 29;
        let near = [old.wrapping_add(high), old ^ 0x0100, old.wrapping_mul(8)];
        self.change_number(at, &near);
    }

    /// Another bar position, of the first or last beat or any.
    pub fn bar_position(&mut self) {
        let Some((place, end)) = self.grid() else {
            return;
        };
        let beats = (end - place).saturating_sub(ENTRIES) / BEAT;
        if beats == 0 {
            return;
        }
        let any = self.rng.index(beats);
        let beat = self.rng.pick(&[0, beats - 1, any]);
        let good = 1 + self.rng.below(4) as u16;
        let bars = [
            0,
            0,
            5,
            5,
            good,
            good + 0x0100,
            good << 8,
            good | 0x8000,
            6,
            u16::MAX,
        ];
        let bar = self.rng.pick(&bars);
        self.put(place + ENTRIES + BEAT * beat, &bar.to_be_bytes());
    }

    pub fn any_bytes(&mut self) {
        for _ in 0..1 + self.rng.below(6) {
            let at = self.rng.index(self.bytes.len() + 1);
            let value = self.rng.next_u64() as u8;
            self.put(at, &[value]);
        }
    }

    /// Changes a number: off by one, in one bit, to one of `near`, to an edge,
    /// or to its bytes the other way round.
    pub fn change_number(&mut self, at: usize, near: &[u32]) {
        let old = self.number(at);
        let number = match self.rng.below(10) {
            0 => old.wrapping_add(1),
            1 => old.wrapping_sub(1),
            2..4 => old ^ 1 << self.rng.below(32),
            4..8 => self.rng.pick(near),
            8 => self.rng.pick(&EDGES),
            _ => old.swap_bytes(),
        };
        self.put_number(at, number);
    }
}
