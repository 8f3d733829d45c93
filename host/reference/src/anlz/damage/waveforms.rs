//! Waveforms with other numbers, other entries, or a bad one beside them.

use super::target::{has_header, Span, Target};
use crate::anlz::ENTRIES;

impl Target<'_> {
    pub fn wave_width(&mut self) {
        let Some((place, _)) = self.wave().filter(has_header) else {
            return;
        };
        let at = place + 0x0c;
        let old = self.number(at);
        let high = [0x0100, 0x1_0000, 0x8000_0000].map(|more| old.wrapping_add(more));
        let near = [0, 1, 2, 3, 6, high[0], high[1], high[2]];
        self.change_number(at, &near);
    }

    /// Another count, also such that its bytes counted with 32 bits are right.
    pub fn wave_count(&mut self) {
        let Some((place, _)) = self.wave().filter(has_header) else {
            return;
        };
        let at = place + 0x10;
        let old = self.number(at);
        let near = [
            old.wrapping_add(0x8000_0000),
            old.wrapping_add(0x0100_0000),
            old.wrapping_add(0x1_0000),
            old ^ 0x0100,
            old.wrapping_mul(2),
            old / 2,
            1_199,
            1_201,
        ];
        self.change_number(at, &near);
    }

    pub fn wave_length(&mut self) {
        let wave = self.wave();
        let width = wave.map_or(1, |wave| self.width(wave));
        self.section_length(wave, width);
    }

    /// One entry more or less, or the bytes as entries of another width.
    pub fn wave_entries(&mut self) {
        let Some(wave) = self.wave() else { return };
        let (place, end) = wave;
        let width = self.width(wave);
        let count = (end - place).saturating_sub(ENTRIES) / width;
        let (width, count) = match self.rng.below(4) {
            0 => (width, count + 1),
            1 => (width, count.saturating_sub(1)),
            _ => {
                let other = self.rng.pick(&[1, 2, 3, 6]);
                (other, width * count / other)
            }
        };
        self.resize(wave, ENTRIES + width * count);
        self.put_number(place + 0x0c, width as u32);
        self.put_number(place + 0x10, count as u32);
    }

    /// Puts a bad waveform of a sort before one, right behind it, or at the end.
    pub fn wave_inserted(&mut self) {
        let Some((place, end)) = self.wave() else {
            return;
        };
        let mut section = self.bytes[place..][..4].to_vec();
        let numbers = self.rng.pick(&[
            [0x0c, 0x0c, 0, 0, 0],
            [0x0c, 0x18, 9, 0, 0],
            [0x18, 0x18, 1, 7, 0],
            [0x0c, 0x18, 2, 0x8000_0000, 0],
        ]);
        section.extend(numbers.map(u32::to_be_bytes).concat());
        section.truncate(numbers[1] as usize);
        let at = self.rng.pick(&[place, end, end, self.bytes.len()]);
        self.bytes.splice(at..at, section);
        self.follow_len_file();
    }

    /// The width of a waveform's sort.
    fn width(&self, (place, _): Span) -> usize {
        match self.bytes[place + 3] {
            b'3' => 1,
            b'4' => 6,
            _ => 2,
        }
    }
}
