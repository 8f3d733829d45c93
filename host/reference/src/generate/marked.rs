//! The bytes of a file, each with a mark once something is put there.

use std::ops::Range;

pub(super) struct MarkedBytes {
    bytes: Vec<u8>,
    marked: Vec<bool>,
}

impl MarkedBytes {
    /// A file with nothing put into it yet.
    pub fn new(bytes: Vec<u8>) -> Self {
        let marked = vec![false; bytes.len()];
        MarkedBytes { bytes, marked }
    }

    pub fn put(&mut self, at: usize, bytes: &[u8]) {
        let range = at..at + bytes.len();
        self.bytes[range.clone()].copy_from_slice(bytes);
        self.marked[range].fill(true);
    }

    pub fn put_u16(&mut self, at: usize, value: u16) {
        self.put(at, &value.to_le_bytes());
    }

    pub fn put_u32(&mut self, at: usize, value: u32) {
        self.put(at, &value.to_le_bytes());
    }

    /// Writes bytes without putting them.
    pub fn fill(&mut self, at: usize, bytes: &[u8]) {
        self.bytes[at..at + bytes.len()].copy_from_slice(bytes);
    }

    /// Copies bytes without putting them.
    pub fn copy(&mut self, from: Range<usize>, to: usize) {
        self.bytes.copy_within(from, to);
    }

    /// The file, and the bytes that nothing was put into.
    pub fn finish(self) -> (Vec<u8>, Vec<Range<usize>>) {
        let mut free: Vec<Range<usize>> = Vec::new();
        for at in (0..self.marked.len()).filter(|at| !self.marked[*at]) {
            match free.last_mut() {
                Some(range) if range.end == at => range.end += 1,
                _ => free.push(at..at + 1),
            }
        }
        (self.bytes, free)
    }
}
