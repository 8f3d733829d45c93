//! A row as it stands in the heap, by the figures of document 003.

use super::content::{fields, Row, Text};
use super::Options;
use crate::model::{index_size, Table, PAGE_HEADER};
use crate::rng::Rng;

/// A row's bytes, of which only some are put; the others may be anything.
#[derive(Clone)]
pub(super) struct Chunk {
    pub len: usize,
    /// Bytes to put, each run with its offset from the row's start.
    pub parts: Vec<(usize, Vec<u8>)>,
    /// The offsets of the texts from the row's start, slot by slot.
    pub texts: Vec<usize>,
}

impl Chunk {
    fn new(len: usize) -> Self {
        Chunk {
            len,
            parts: Vec::new(),
            texts: Vec::new(),
        }
    }

    fn put(&mut self, at: usize, bytes: &[u8]) {
        self.parts.push((at, bytes.to_vec()));
    }

    /// Appends a string and gives its offset. The byte that follows a long
    /// string's length is not put.
    fn append(&mut self, text: &Text) -> usize {
        let at = self.len;
        let (head, body) = (text.head(), text.body());
        self.put(at, &head);
        self.len += text.total();
        self.put(self.len - body.len(), &body);
        at
    }

    /// Appends the only string of a row and gives its offset.
    fn append_name(&mut self, name: &Text) -> usize {
        let at = self.append(name);
        self.texts.push(at + name.start());
        at
    }
}

/// The room in a page for the strings of its only row.
pub(super) fn room_for_strings(table: Table, len_page: u32) -> usize {
    let shared_empty_string = 1;
    room_for_row(len_page) - longest_fixed_part(table) - shared_empty_string
}

fn room_for_row(len_page: u32) -> usize {
    len_page as usize - PAGE_HEADER - index_size(1)
}

fn longest_fixed_part(table: Table) -> usize {
    match table {
        Table::Tracks => 0x88,
        Table::Genres | Table::Labels | Table::Artwork => 0x04,
        Table::Artists => 0x0c,
        Table::Albums => 0x16,
        Table::Keys | Table::Colors => 0x08,
        Table::PlaylistTree => 0x14,
        Table::PlaylistEntries => 0x0c,
    }
}

pub(super) fn encode(table: Table, row: &Row, options: &Options, rng: &mut Rng) -> Chunk {
    let mut chunk = Chunk::new(longest_fixed_part(table));
    for (field, number) in fields(table).iter().zip(&row.numbers) {
        chunk.put(field.at, &number.to_le_bytes()[..field.width]);
    }
    match table {
        Table::Tracks => put_track_strings(&mut chunk, &row.texts, options, rng),
        Table::Artists if options.tidy || rng.chance(1, 2) => {
            chunk.len = 0x0a;
            let offset = put_name_behind_gap(&mut chunk, &row.texts[0], 0xff, options, rng);
            chunk.put(0x00, &[0x60, 0x00]);
            chunk.put(0x09, &[offset as u8]);
        }
        Table::Artists => {
            let offset = put_name_behind_gap(&mut chunk, &row.texts[0], 0x7fff, options, rng);
            chunk.put(0x00, &[0x64, 0x00]);
            chunk.put(0x0a, &(offset as u16).to_le_bytes());
        }
        Table::Albums => {
            let offset = put_name_behind_gap(&mut chunk, &row.texts[0], 0xff, options, rng);
            chunk.put(0x15, &[offset as u8]);
        }
        _ => row.texts.iter().for_each(|name| {
            chunk.append_name(name);
        }),
    }
    chunk
}

/// Appends a name after a gap, so that its offset is at most `farthest` and the
/// row still fits a page; gives the offset.
fn put_name_behind_gap(
    chunk: &mut Chunk,
    name: &Text,
    farthest: usize,
    options: &Options,
    rng: &mut Rng,
) -> usize {
    let room = room_for_row(options.len_page) - chunk.len - name.total();
    if !options.tidy && rng.chance(1, 2) {
        chunk.len += rng.index(room.min(farthest - chunk.len) + 1);
    }
    chunk.append_name(name)
}

/// Equal strings stand once; an empty one may stand in the row's first
/// byte, which no rule names. Slot 0 has the first of the others, or the last.
fn put_track_strings(chunk: &mut Chunk, texts: &[Text], options: &Options, rng: &mut Rng) {
    let mut seen: Vec<(&Text, usize)> = Vec::new();
    let empty = Text::of("");
    if !options.tidy && rng.chance(1, 4) {
        chunk.put(0x00, &[0x03]);
        seen.push((&empty, 0));
    }
    let mut slots: Vec<usize> = (0..texts.len()).collect();
    if !options.tidy && rng.chance(1, 4) {
        slots.reverse();
    }
    chunk.texts = vec![0; texts.len()];
    for slot in slots {
        let text = &texts[slot];
        let shared = seen.iter().find(|(other, _)| other.same_string(text));
        let offset = match shared {
            Some((_, offset)) => *offset,
            None => {
                let offset = chunk.append(text);
                seen.push((text, offset));
                offset
            }
        };
        chunk.texts[slot] = offset + text.start();
        chunk.put(0x5e + 2 * slot, &(offset as u16).to_le_bytes());
    }
}
