//! Links, types and flags of page headers.

use super::target::Target;
use crate::model::bytes::u32_at;

impl Target<'_> {
    /// page_index or next_page.
    pub fn page_link(&mut self, field: usize) {
        if let Some(page) = self.page() {
            let link = self.any_link(u32_at(self.bytes, page + field));
            self.put(page + field, &link.to_le_bytes());
        }
    }

    pub fn page_type(&mut self) {
        if let Some(page) = self.page() {
            self.put_any_type(page);
        }
    }

    fn put_any_type(&mut self, page: usize) {
        let value = self.rng.below(20) as u32;
        self.put(page + 0x08, &value.to_le_bytes());
    }

    /// Both numbers that say which page it is; in one of two cases with flag `40`.
    pub fn page_index_and_type(&mut self) {
        if let Some(page) = self.page() {
            let page_index = u32_at(self.bytes, page + 0x04).wrapping_add(1);
            self.put(page + 0x04, &page_index.to_le_bytes());
            self.put_any_type(page);
            if self.rng.chance(1, 2) {
                let page_flags = self.bytes[page + 0x1b] | 0x40;
                self.put(page + 0x1b, &[page_flags]);
            }
        }
    }

    /// The last page of the loop is no longer the last of the chain.
    pub fn loop_in_chain(&mut self) {
        let pointer = self.pointer();
        let chain = self.layout().chain(pointer);
        if chain.is_empty() {
            return;
        }
        let looped = &chain[..1 + self.rng.index(chain.len())];
        let end = looped[looped.len() - 1];
        let next_page = self.rng.pick(looped);
        self.put(
            self.layout().page_start(end) + 0x0c,
            &next_page.to_le_bytes(),
        );
        if u32_at(self.bytes, pointer + 0x0c) == end {
            let last_page = self.any_link(end);
            self.put(pointer + 0x0c, &last_page.to_le_bytes());
        }
    }

    pub fn page_flags(&mut self) {
        if let Some(page) = self.page() {
            let value = self.bytes[page + 0x1b] ^ self.rng.pick(&[0x40, 0x40, 0x04, 0xff]);
            self.put(page + 0x1b, &[value]);
        }
    }
}
