//! Recording codes, and the strings that slot 0 of a track shares.

use super::target::{Row, Target};
use crate::model::bytes::u16_at;

/// The first byte behind the head of a code.
const MARK: u8 = 0x03;
const MARK_AT: usize = 4;

/// Where the offset of a string slot stands in a track.
pub(super) fn track_offset_at(row: &Row, slot: usize) -> usize {
    row.start + 0x5e + 2 * slot
}

impl Target<'_> {
    /// Damages the code of a track, or puts one where its string is none.
    pub fn code(&mut self) {
        let Some(row) = self.track() else { return };
        let Some(offset) = self.number(track_offset_at(&row, 0)) else {
            return;
        };
        let at = row.start + usize::from(offset);
        let head = self.bytes.get(at..=at + MARK_AT);
        if matches!(head, Some([0x90, _, _, _, MARK])) {
            return self.damage_code(&row, at);
        }
        let [low, high] = self.total_near(&row, at).to_le_bytes();
        self.put_in_heap(&row, at, &[0x90, low, high, 0, MARK]);
    }

    fn damage_code(&mut self, row: &Row, at: usize) {
        let other = 1 + self.rng.below(0xff) as u8;
        let (place, bytes) = match self.rng.below(8) {
            0 => {
                let kinds = [0x10, 0x40, 0x80, 0x91, 0x92, 0xd0];
                (0, vec![self.rng.pick(&kinds)])
            }
            1 => {
                let marks = [0x00, 0x02, 0x13, 0x83, other];
                (MARK_AT, vec![self.rng.pick(&marks)])
            }
            2 | 3 => (self.zero_of_code(row, at), vec![other]),
            _ => (1, self.total_near(row, at).to_le_bytes().to_vec()),
        };
        self.put_in_heap(row, at + place, &bytes);
    }

    /// Where the first zero byte behind a code's mark stands, or the index if
    /// no zero byte does, counted from the code's first byte.
    fn zero_of_code(&self, row: &Row, at: usize) -> usize {
        let start = (at + MARK_AT + 1).min(row.heap.end);
        let text = &self.bytes[start..row.heap.end];
        let len = text.iter().position(|byte| *byte == 0);
        start + len.unwrap_or(text.len()) - at.min(start)
    }

    /// A total near that of the string at `at`, near its zero byte, near the
    /// index, or near the shortest.
    fn total_near(&mut self, row: &Row, at: usize) -> u16 {
        let old = self.number(at + 1).unwrap_or(0);
        let zero = self.zero_of_code(row, at) as u16;
        let to_index = row.heap.end.saturating_sub(at) as u16;
        let totals = [
            3,
            4,
            5,
            6,
            zero,
            zero.wrapping_add(1),
            zero.wrapping_add(2),
            old ^ 1,
            old.wrapping_add(2),
            old | 0x8000,
            to_index,
            to_index.wrapping_add(1),
        ];
        self.rng.pick(&totals)
    }

    /// Writes a code and lets a track point to it, mostly from slot 0.
    pub fn code_at_end(&mut self) {
        let Some(row) = self.track() else { return };
        let to_index = 4 + self.rng.index(12);
        let Some(offset) = row.heap.end.checked_sub(to_index + row.start) else {
            return;
        };
        let string = self.code_near(to_index);
        self.put_in_heap(&row, row.start + offset, &string);
        let slot = match self.rng.chance(7, 8) {
            true => 0,
            false => self.rng.index(21),
        };
        let offset_at = track_offset_at(&row, slot);
        self.put(offset_at, &(offset as u16).to_le_bytes());
    }

    /// A code of a length near `to_index`, with at most one zero byte in or
    /// right behind it.
    fn code_near(&mut self, to_index: usize) -> Vec<u8> {
        let total = match self.rng.below(4) {
            0 => MARK_AT + self.rng.index(to_index),
            _ => to_index + 1 - self.rng.index(3),
        };
        let [low, high] = (total as u16).to_le_bytes();
        let mut string = vec![0x90, low, high, 0, MARK];
        string.extend((0..to_index).map(|_| 1 + self.rng.below(0xff) as u8));
        let zeros = [MARK_AT + 1, total - 1, total - 1, total, to_index - 1];
        let zero = self.rng.pick(&zeros);
        if zero > MARK_AT && self.rng.chance(3, 4) {
            string[zero] = 0;
        }
        string
    }

    /// Slot 0 of a track and another slot exchange their strings, or one of
    /// them takes the other's.
    pub fn string_of_other_slot(&mut self) {
        let Some(row) = self.track() else { return };
        let slot = 1 + self.rng.index(20);
        let [isrc_at, other_at] = [0, slot].map(|slot| track_offset_at(&row, slot));
        let offsets = self.number(isrc_at).zip(self.number(other_at));
        let Some((isrc, other)) = offsets else { return };
        let ways = [(other, isrc), (isrc, isrc), (other, other)];
        let (isrc, other) = self.rng.pick(&ways);
        self.put(isrc_at, &isrc.to_le_bytes());
        self.put(other_at, &other.to_le_bytes());
    }

    /// A number of two bytes, unless it would end past the file.
    fn number(&self, at: usize) -> Option<u16> {
        let bytes = self.bytes.get(at..at + 2)?;
        Some(u16_at(bytes, 0))
    }
}
