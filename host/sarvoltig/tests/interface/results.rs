//! The functions that look for blocks and pages, without types: results of any length, and any number for a table.

use crate::support::{export_of_row, put_u32, GENRE};
use sarvoltig::raw::{bounds, layout, missing, DONE, NONE, WAITING};
use sarvoltig::Table;

const UNWRITTEN: u64 = 77;

/// The code is this one, and these values are at the front of a result of any length, as far as it takes them.
fn check(code: u32, values: &[u64], call: impl Fn(&mut [u64]) -> u32) {
    for room in 0..6 {
        let mut result = vec![UNWRITTEN; room];
        assert_eq!(call(&mut result), code);
        let mut expected = values.to_vec();
        expected.resize(values.len().max(room), UNWRITTEN);
        assert_eq!(result, expected[..room]);
    }
}

#[test]
fn results_of_any_length() {
    let file = export_of_row(Table::Genres, GENRE);
    let genres = Table::Genres.number();
    check(DONE, &[1], |result| missing(1024, &[0b01], 0, result));
    check(NONE, &[], |result| missing(1024, &[0b11], 0, result));
    check(DONE, &[512, 2], |result| layout(1024, &file, &[1], result));
    check(DONE, &[1, 1], |result| {
        bounds(1024, &file, &[1], genres, result)
    });
    check(WAITING, &[0; 3], |result| layout(1024, &file, &[2], result));
    check(WAITING, &[0; 3], |result| {
        bounds(1024, &file, &[2], genres, result)
    });
    check(4, &[0; 2], |result| layout(1024, &file, &[5], result));
    check(10, &[0; 2], |result| bounds(1024, &file, &[1], 2, result));
}

#[test]
fn a_number_of_no_table_is_refused_before_the_file() {
    let mut file = export_of_row(Table::Genres, GENRE);
    for number in [9, 12, 14, 256, 257, 1 << 16, (1 << 31) + 1, u32::MAX] {
        put_u32(&mut file, 0x1c, number);
        // with block 0, without it, and with a spare bit
        for (map, code) in [(1, 8), (2, 8), (4, 4)] {
            check(code, &[0; 2], |result| {
                bounds(1024, &file, &[map], number, result)
            });
        }
    }
}
