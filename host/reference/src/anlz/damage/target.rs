//! Finds the places of a file that can be damaged, even in a damaged file.

use crate::anlz::{CUE, CUE_LIST_CODE, ENTRIES, ENVELOPE, GRID_CODE};
use crate::rng::Rng;

/// A section: where it begins and where it ends.
pub(super) type Span = (usize, usize);

/// Whether a section has the bytes before its entries.
pub(super) fn has_header((place, end): &Span) -> bool {
    end - place >= ENTRIES
}

pub(super) struct Target<'a> {
    pub bytes: &'a mut Vec<u8>,
    pub rng: &'a mut Rng,
}

impl<'a> Target<'a> {
    pub fn new(bytes: &'a mut Vec<u8>, rng: &'a mut Rng) -> Self {
        Target { bytes, rng }
    }

    /// The number at a place, 0 where the file ends before it does.
    pub fn number(&self, at: usize) -> u32 {
        let bytes = self.bytes.get(at..at + 4);
        bytes.map_or(0, |b| u32::from_be_bytes([b[0], b[1], b[2], b[3]]))
    }

    /// Puts the bytes, unless they would end past the file.
    pub fn put(&mut self, at: usize, bytes: &[u8]) {
        if let Some(place) = self.bytes.get_mut(at..at + bytes.len()) {
            place.copy_from_slice(bytes);
        }
    }

    pub fn put_number(&mut self, at: usize, number: u32) {
        self.put(at, &number.to_be_bytes());
    }

    /// Lets len_file be the file's length.
    pub fn follow_len_file(&mut self) {
        self.put_number(0x08, self.bytes.len() as u32);
    }

    /// The sections with their ends, as far as each ends inside the file.
    pub fn sections(&self) -> Vec<Span> {
        let mut sections = Vec::new();
        let mut place = self.number(0x04) as usize;
        while place >= ENVELOPE && place + ENVELOPE <= self.bytes.len() {
            let end = place + self.number(place + 0x08) as usize;
            if end < place + ENVELOPE || end > self.bytes.len() {
                break;
            }
            sections.push((place, end));
            place = end;
        }
        sections
    }

    /// Where a section begins, often the last one.
    pub fn section(&mut self) -> Option<usize> {
        let sections = self.sections();
        let last = sections.last()?.0;
        match self.rng.chance(1, 4) {
            true => Some(last),
            false => Some(self.rng.pick(&sections).0),
        }
    }

    /// The sections with a code.
    fn with_code(&self, code: [u8; 4]) -> Vec<Span> {
        let mut sections = self.sections();
        sections.retain(|(place, _)| self.bytes[*place..][..4] == code);
        sections
    }

    /// A section with a code, mostly the first one.
    fn mostly_first(&mut self, code: [u8; 4]) -> Option<Span> {
        let sections = self.with_code(code);
        let first = *sections.first()?;
        match self.rng.chance(3, 4) {
            true => Some(first),
            false => Some(self.rng.pick(&sections)),
        }
    }

    /// A grid, mostly the first one.
    pub fn grid(&mut self) -> Option<Span> {
        self.mostly_first(GRID_CODE)
    }

    /// A waveform of any sort, mostly the first of its sort.
    pub fn wave(&mut self) -> Option<Span> {
        let mut codes = [*b"PWV3", *b"PWV4", *b"PWV5"];
        self.rng.shuffle(&mut codes);
        codes.into_iter().find_map(|code| self.mostly_first(code))
    }

    /// A cue list: the first, the last or any.
    pub fn cue_list(&mut self) -> Option<Span> {
        let lists = self.with_code(CUE_LIST_CODE);
        self.first_last_or_any(&lists)
    }

    /// Where an entry of a cue list begins: the first, the last or any, of the
    /// first list, the last or any.
    pub fn cue_entry(&mut self) -> Option<usize> {
        let mut lists = self.with_code(CUE_LIST_CODE);
        lists.retain(|(place, end)| end - place >= ENTRIES + CUE);
        let (place, end) = self.first_last_or_any(&lists)?;
        let entries: Vec<usize> = (place + ENTRIES..=end - CUE).step_by(CUE).collect();
        self.first_last_or_any(&entries)
    }

    fn first_last_or_any<T: Copy>(&mut self, items: &[T]) -> Option<T> {
        let (first, last) = (*items.first()?, *items.last()?);
        let any = self.rng.pick(items);
        Some(self.rng.pick(&[first, last, any]))
    }
}
