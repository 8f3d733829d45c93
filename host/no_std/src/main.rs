//! Takes the demo's export in, block by block, and prints its playlists, without the standard library. It has a panic
//! handler of its own, and without the feature `alloc` no allocator: it does not link where the crate needs either.

#![no_std]
#![no_main]

#[cfg(feature = "alloc")]
mod allocator;

use core::ffi::c_int;
use core::fmt::{self, Write};
use core::panic::PanicInfo;
use sarvoltig::{map_words, Intake, Refusal, Table, BLOCK};

/// What arrives.
static EXPORT: &[u8; LEN] = include_bytes!("../../tools/data/demo.pdb");
const LEN: usize = 27_648;
#[cfg(not(feature = "alloc"))]
const MOST_ROWS: usize = 100;

#[link(name = "c")]
extern "C" {
    fn write(file: c_int, bytes: *const u8, len: usize) -> isize;
    fn abort() -> !;
}

#[panic_handler]
fn panic(_: &PanicInfo) -> ! {
    // SAFETY: the function takes nothing.
    unsafe { abort() }
}

/// Standard output.
struct Output;

impl Write for Output {
    fn write_str(&mut self, text: &str) -> fmt::Result {
        // SAFETY: the pointer comes from a slice and goes with its length.
        let written = unsafe { write(1, text.as_ptr(), text.len()) };
        if written == text.len() as isize {
            Ok(())
        } else {
            Err(fmt::Error)
        }
    }
}

/// Fetches the missing blocks and prints the names in the playlist tree.
fn print_playlists(image: &mut [u8], map: &mut [u64]) -> Result<(), Refusal> {
    let mut intake = Intake::open(image, map)?;
    let mut from = 0;
    while let Some(block) = intake.next_missing(from) {
        let place = block as usize * BLOCK;
        intake.deliver(block, &EXPORT[place..place + BLOCK])?;
        from = block + 1;
    }
    #[cfg(not(feature = "alloc"))]
    let mut list = [0; MOST_ROWS];
    #[cfg(not(feature = "alloc"))]
    let rows = intake.rows_in(Table::PlaylistTree, &mut list)?;
    #[cfg(feature = "alloc")]
    let rows = intake.rows(Table::PlaylistTree)?;
    for row in &rows {
        writeln!(Output, "{}", row.text(0)?).expect("standard output");
    }
    Ok(())
}

#[no_mangle]
extern "C" fn main() -> c_int {
    let (mut image, mut map) = ([0; LEN], [0; map_words(LEN as u64)]);
    match print_playlists(&mut image, &mut map) {
        Ok(()) => 0,
        Err(refusal) => refusal.number() as c_int,
    }
}
