//! Fields of cue lists and of cues that get another value.

use super::target::{has_header, Target};
use crate::anlz::CUE;

impl Target<'_> {
    pub fn cue_list_type(&mut self) {
        let Some((place, _)) = self.cue_list().filter(has_header) else {
            return;
        };
        let at = place + 0x0c;
        let old = self.number(at);
        let near = [
            2,
            2,
            3,
            0x0100,
            0x0101,
            0x1_0000,
            old ^ 1,
            old ^ 0x0100_0000,
        ];
        self.change_number(at, &near);
    }

    /// Another count: off by one, with another high byte, or of an empty list.
    pub fn cue_count(&mut self) {
        let Some((place, _)) = self.cue_list().filter(has_header) else {
            return;
        };
        let at = place + 0x12;
        let old = self.number(at).to_be_bytes();
        let old = u16::from_be_bytes([old[0], old[1]]);
        let counts = [
            old.wrapping_add(1),
            old.wrapping_sub(1),
            old ^ 0x0100,
            old ^ 0x8000,
            old.swap_bytes(),
            0,
            u16::MAX,
        ];
        let count = self.rng.pick(&counts);
        self.put(at, &count.to_be_bytes());
    }

    pub fn cue_length(&mut self) {
        let Some(entry) = self.cue_entry() else {
            return;
        };
        let near = [0x37, 0x39, 0x1c, 0x0138, 0x1_0038, 0x0100_0038];
        self.change_number(entry + 0x08, &near);
    }

    pub fn cue_kind(&mut self) {
        let Some(entry) = self.cue_entry() else {
            return;
        };
        let kinds = [0, 0, 1, 2, 3, 3, 4, 0x11, 0x81, 0x82, 0xff];
        let kind = self.rng.pick(&kinds);
        self.put(entry + 0x1c, &[kind]);
    }

    pub fn cue_numbers(&mut self) {
        let Some(entry) = self.cue_entry() else {
            return;
        };
        let at = entry + self.rng.pick(&[0x0c, 0x20, 0x24]);
        let others = [0x0c, 0x10, 0x20, 0x24].map(|other| self.number(entry + other));
        self.change_number(at, &others);
    }

    /// Another len_header, status or byte that has no name; of the list or of a
    /// cue, and the loop time where the cue is a point.
    pub fn cue_unjudged(&mut self) {
        let value = self.rng.next_u64() as u8;
        let list = self.cue_list().filter(has_header);
        let (Some((list, _)), Some(entry)) = (list, self.cue_entry()) else {
            return;
        };
        let is_point = self.bytes.get(entry + 0x1c) == Some(&1);
        let from = if is_point { 0x24 } else { 0x28 };
        let parts = [0x04..0x08, 0x10..0x14, 0x14..0x1c, 0x1d..0x20, from..CUE];
        let part = self.rng.index(parts.len() + 1);
        match parts.get(part) {
            Some(part) => {
                let at = part.start + self.rng.index(part.len());
                self.put(entry + at, &[value]);
            }
            None => {
                let at = self.rng.pick(&[0x10, 0x11, 0x14, 0x15, 0x16, 0x17]);
                self.put(list + at, &[value]);
            }
        }
    }
}
