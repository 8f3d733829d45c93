//! The file header, and bytes anywhere.

use super::target::Target;
use crate::model::bytes::u32_at;
use crate::model::BLOCK_SIZE;

impl Target<'_> {
    pub fn first_bytes(&mut self) {
        let at = self.rng.index(4);
        self.put(at, &[1]);
    }

    pub fn len_page_field(&mut self) {
        let len_page = self.layout().len_page() as u32;
        let values = [
            0,
            256,
            512,
            1024,
            33_280,
            65_536,
            len_page - 1,
            len_page / 2,
            len_page + 512,
            len_page * 2,
            self.bytes.len() as u32,
        ];
        let value = self.rng.pick(&values);
        self.put(0x04, &value.to_le_bytes());
    }

    pub fn num_tables_field(&mut self) {
        let pointers = self.layout().pointers();
        let values = [0, 1, pointers - 1, pointers + 1, 30, 31, 256, u32::MAX];
        let value = self.rng.pick(&values);
        self.put(0x08, &value.to_le_bytes());
    }

    /// A type that no pointer has.
    pub fn pointer_type(&mut self) {
        let at = self.pointer();
        let pointers = 0x1c..0x1c + 16 * self.layout().pointers() as usize;
        let types: Vec<u32> = pointers
            .step_by(16)
            .map(|at| u32_at(self.bytes, at))
            .collect();
        let free: Vec<u32> = (0..100).filter(|free| !types.contains(free)).collect();
        let value = self.rng.pick(&free[..20]);
        self.put(at, &value.to_le_bytes());
    }

    pub fn pointer_twice(&mut self) {
        let (from, to) = (self.pointer(), self.pointer());
        self.bytes.copy_within(from..from + 4, to);
    }

    pub fn pointer_link(&mut self, field: usize) {
        let at = self.pointer() + field;
        let link = self.any_link(u32_at(self.bytes, at));
        self.put(at, &link.to_le_bytes());
    }

    /// A link that is another than `old`, mostly near an end of the pages.
    pub fn any_link(&mut self, old: u32) -> u32 {
        let pages = self.layout().pages();
        let inside = self.rng.below(u64::from(pages)) as u32;
        let far = self.rng.next_u64() as u32;
        let links = [
            0,
            1,
            pages - 1,
            pages,
            pages + 1,
            inside,
            inside,
            old.wrapping_add(1),
            far,
            u32::MAX,
        ];
        self.rng.pick(&links)
    }

    /// A bit above the lowest byte of a four-byte number, above the lowest two
    /// of len_page.
    pub fn high_byte(&mut self) {
        let number = match self.rng.below(8) {
            0 => Some(0x04),
            1 => Some(0x08),
            2 => Some(self.pointer()),
            3 => Some(self.pointer() + 0x08),
            4 => Some(self.pointer() + 0x0c),
            _ => {
                let field = self.rng.pick(&[0x04, 0x08, 0x0c]);
                self.page().map(|page| page + field)
            }
        };
        if let Some(at) = number {
            let lowest = if at == 0x04 { 16 } else { 8 };
            let bit = lowest + self.rng.below(32 - lowest);
            let value = u32_at(self.bytes, at) ^ 1 << bit;
            self.put(at, &value.to_le_bytes());
        }
    }

    pub fn any_bytes(&mut self) {
        for _ in 0..1 + self.rng.below(20) {
            let at = self.rng.index(self.bytes.len());
            let value = self.rng.next_u64() as u8;
            self.put(at, &[value]);
        }
    }

    pub fn any_blocks(&mut self) {
        for _ in 0..1 + self.rng.below(2) {
            let block = self.rng.index(self.bytes.len() / BLOCK_SIZE);
            self.put(block * BLOCK_SIZE, &[0; BLOCK_SIZE]);
        }
    }
}
