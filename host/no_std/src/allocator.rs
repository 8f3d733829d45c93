//! The allocator of the C library.

use core::alloc::{GlobalAlloc, Layout};

extern "C" {
    fn aligned_alloc(align: usize, size: usize) -> *mut u8;
    fn free(memory: *mut u8);
}

struct CLibrary;

// SAFETY: the memory is as long and as aligned as asked for, and freed once.
unsafe impl GlobalAlloc for CLibrary {
    unsafe fn alloc(&self, layout: Layout) -> *mut u8 {
        // C11 wants a size that is a multiple of the alignment.
        let layout = layout.pad_to_align();
        unsafe { aligned_alloc(layout.align(), layout.size()) }
    }

    unsafe fn dealloc(&self, memory: *mut u8, _: Layout) {
        unsafe { free(memory) }
    }
}

#[global_allocator]
static ALLOCATOR: CLibrary = CLibrary;
