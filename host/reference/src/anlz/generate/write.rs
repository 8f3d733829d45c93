//! Writes files of sections.

use std::iter;
use std::ops::Range;

use crate::anlz::{Beat, Cue, CueListType, CuePosition};
use crate::anlz::{BEAT, CUE, CUE_CODE, CUE_LIST_CODE, ENTRIES, ENVELOPE, FILE_CODE, GRID_CODE};

/// Where len_beats stands in a grid.
const LEN_BEATS: usize = 0x14;

/// Where the count of a waveform ends.
const WAVE_COUNT_END: usize = 0x14;

/// What a reader finds in a section, or the refusal's number.
#[derive(Clone, Debug)]
pub(super) enum Content {
    /// Nothing that is asked for.
    Other,
    Grid(Result<Vec<Beat>, u8>),
    CueList(Result<Vec<Cue>, u8>),
    /// Width and count.
    Wave(Result<[u32; 2], u8>),
}

/// A section to write.
#[derive(Clone, Debug)]
pub(super) struct Tag {
    pub code: [u8; 4],
    pub len_header: usize,
    /// The bytes behind the envelope.
    pub body: Vec<u8>,
    pub content: Content,
}

impl Tag {
    /// A section whose header is its envelope alone.
    pub fn new(code: [u8; 4], body: Vec<u8>) -> Self {
        Tag {
            code,
            len_header: ENVELOPE,
            body,
            content: Content::Other,
        }
    }

    /// A beat grid.
    pub fn grid(beats: &[Beat]) -> Self {
        let mut body = vec![0, 0, 0, 0, 0, 0x80, 0, 0];
        body.extend((beats.len() as u32).to_be_bytes());
        for beat in beats {
            body.extend(beat.bar_position.to_be_bytes());
            body.extend(beat.tempo.to_be_bytes());
            body.extend(beat.time.to_be_bytes());
        }
        Tag {
            len_header: ENTRIES,
            content: Content::Grid(Ok(beats.to_vec())),
            ..Tag::new(GRID_CODE, body)
        }
    }

    /// A cue list. Fields that no rule names are as rekordbox writes them.
    pub fn cue_list(list: CueListType, cues: &[Cue]) -> Self {
        let mut body = list.number().to_be_bytes().to_vec();
        body.extend([0; 2]);
        body.extend((cues.len() as u16).to_be_bytes());
        body.extend(u32::MAX.to_be_bytes());
        cues.iter().for_each(|cue| body.extend(cue_entry(cue)));
        Tag {
            len_header: ENTRIES,
            content: Content::CueList(Ok(cues.to_vec())),
            ..Tag::new(CUE_LIST_CODE, body)
        }
    }

    /// A waveform of entries of this width.
    pub fn wave(code: [u8; 4], width: usize, entries: &[u8]) -> Self {
        let count = entries.len() / width;
        let content = [width, count].map(|number| number as u32);
        let mut body = content.map(u32::to_be_bytes).concat();
        body.extend([0, 0x96, 0, 0]);
        body.extend(entries);
        Tag {
            len_header: ENTRIES,
            content: Content::Wave(Ok(content)),
            ..Tag::new(code, body)
        }
    }

    pub fn len_tag(&self) -> usize {
        ENVELOPE + self.body.len()
    }

    pub fn bytes(&self) -> Vec<u8> {
        let mut bytes = envelope(self.code, self.len_header, self.len_tag());
        bytes.extend(&self.body);
        bytes
    }

    /// Writes bytes at an offset of the section behind its envelope.
    pub fn put(&mut self, at: usize, bytes: &[u8]) {
        self.body[at - ENVELOPE..][..bytes.len()].copy_from_slice(bytes);
    }

    /// Changes the number of beats of a grid.
    pub fn set_len_beats(&mut self, len_beats: u32) {
        self.put(LEN_BEATS, &len_beats.to_be_bytes());
    }

    /// Changes the bar position of a beat of a grid.
    pub fn set_bar(&mut self, beat: usize, bar: u16) {
        self.put(ENTRIES + BEAT * beat, &bar.to_be_bytes());
    }

    /// The bytes behind the envelope that no answer depends on, where the
    /// section is the first with its code or a later one.
    pub fn free(&self, is_first: bool) -> Vec<Range<usize>> {
        let len_tag = self.len_tag();
        let mut free = match self.content {
            Content::Grid(_) if is_first => iter::once(ENVELOPE..LEN_BEATS).collect(),
            Content::CueList(_) => self.free_in_list(),
            Content::Wave(_) if is_first => iter::once(WAVE_COUNT_END..len_tag).collect(),
            _ => iter::once(ENVELOPE..len_tag).collect(),
        };
        for range in &mut free {
            range.end = range.end.min(len_tag);
        }
        free.retain(|range: &Range<usize>| !range.is_empty());
        free
    }

    /// In a cue list: bytes of the header, and of each entry those before and
    /// behind the numbers, for a point its loop time too.
    fn free_in_list(&self) -> Vec<Range<usize>> {
        let mut free = vec![0x10..0x12, 0x14..0x18];
        for entry in (ENTRIES..self.len_tag()).step_by(CUE) {
            let kind = self.body.get(entry + 0x1c - ENVELOPE);
            let from = if kind == Some(&1) { 0x24 } else { 0x28 };
            let parts = [0x04..0x08, 0x10..0x1c, 0x1d..0x20, from..CUE];
            free.extend(parts.map(|part| entry + part.start..entry + part.end));
        }
        free
    }
}

fn cue_entry(cue: &Cue) -> Vec<u8> {
    let (kind, time, loop_time) = match cue.position {
        CuePosition::Point { time } => (1, time, u32::MAX),
        CuePosition::Loop { time, loop_time } => (2, time, loop_time),
    };
    let mut entry = CUE_CODE.to_vec();
    for number in [0x1c, CUE as u32, cue.hot_cue, 1, 0x0010_0000, 0xffff_ffff] {
        entry.extend(number.to_be_bytes());
    }
    entry.extend([kind, 0, 0x03, 0xe8]);
    entry.extend(time.to_be_bytes());
    entry.extend(loop_time.to_be_bytes());
    entry.resize(CUE, 0);
    entry
}

/// The file of a header, given by its bytes behind the envelope, and sections.
pub(super) fn file(header: &[u8], tags: &[Tag]) -> Vec<u8> {
    let len_header = ENVELOPE + header.len();
    let len_file = len_header + tags.iter().map(Tag::len_tag).sum::<usize>();
    let mut bytes = envelope(FILE_CODE, len_header, len_file);
    bytes.extend(header);
    tags.iter().for_each(|tag| bytes.extend(tag.bytes()));
    bytes
}

fn envelope(code: [u8; 4], len_header: usize, len: usize) -> Vec<u8> {
    let mut bytes = code.to_vec();
    bytes.extend((len_header as u32).to_be_bytes());
    bytes.extend((len as u32).to_be_bytes());
    bytes
}
