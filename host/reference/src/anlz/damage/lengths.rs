//! Files and sections of another length.

use super::target::{Span, Target};
use crate::anlz::{ENTRIES, ENVELOPE};

impl Target<'_> {
    /// Cuts up to 12 bytes off, or any number.
    pub fn cut(&mut self) {
        let any = self.rng.index(self.bytes.len() + 1);
        let few = (1 + self.rng.index(12)).min(self.bytes.len());
        let cut = self.rng.pick(&[few, few, few, any]);
        self.bytes.truncate(self.bytes.len() - cut);
        self.follow_len_file_mostly();
    }

    /// Puts up to 13 bytes behind the file: zeros, or the start of a section of
    /// 12 bytes.
    pub fn extended(&mut self) {
        let section = *b"PQTZ\0\0\0\x0c\0\0\0\x0c\0";
        let bytes = self.rng.pick(&[section, [0; 13]]);
        let more = self.rng.pick(&[1, 2, 4, 8, 11, 12, 12, 13]);
        self.bytes.extend(&bytes[..more]);
        self.follow_len_file_mostly();
    }

    /// Gives a section with entries of a width another end; then its tag is
    /// often the end of the file.
    pub fn section_length(&mut self, section: Option<Span>, width: usize) {
        let Some((place, end)) = section else { return };
        if self.rng.chance(1, 2) {
            self.bytes.truncate(end);
        }
        let old = end - place;
        let short = ENVELOPE + self.rng.index(ENTRIES - ENVELOPE + 1);
        let off = 1 + self.rng.index(width + 1);
        let new = self
            .rng
            .pick(&[short, old + off, old.saturating_sub(off), ENTRIES])
            .max(ENVELOPE);
        let len_header = self.number(place + 0x04);
        self.resize((place, end), new);
        if self.rng.chance(1, 8) {
            self.put_number(place + 0x04, len_header);
        }
    }

    /// Gives a section another length, which len_tag, len_header and len_file
    /// follow.
    pub fn resize(&mut self, (place, end): Span, new: usize) {
        let old = end - place;
        let filler = vec![self.rng.below(4) as u8; new.saturating_sub(old)];
        self.bytes.splice(place + old.min(new)..end, filler);
        self.put_number(place + 0x08, new as u32);
        let len_header = self.number(place + 0x04);
        self.put_number(place + 0x04, len_header.min(new as u32));
        self.follow_len_file();
    }

    fn follow_len_file_mostly(&mut self) {
        if self.rng.chance(2, 3) {
            self.follow_len_file();
        }
    }
}
