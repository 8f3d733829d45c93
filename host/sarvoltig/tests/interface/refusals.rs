//! Refusals by number, and in words.

use sarvoltig::Refusal;
use std::collections::HashSet;

/// Every refusal of value 5 and index entry 6, as far as it has them, by its number.
const REFUSALS: [(u32, Refusal); 28] = [
    (1, Refusal::Length),
    (2, Refusal::ImageShort),
    (3, Refusal::MapShort),
    (4, Refusal::MapSpare),
    (5, Refusal::BlockNumber),
    (6, Refusal::PieceSize),
    (7, Refusal::BlockDiffers),
    (8, Refusal::TableType),
    (9, Refusal::FileHeader),
    (10, Refusal::NoPointer),
    (11, Refusal::PageLink(5)),
    (12, Refusal::PageNumber(5)),
    (13, Refusal::RowIndex(5)),
    (14, Refusal::RowShort { page: 5, entry: 6 }),
    (15, Refusal::TextFault { page: 5, entry: 6 }),
    (16, Refusal::ChainLoop),
    (17, Refusal::ListShort(5)),
    (18, Refusal::NoRow),
    (19, Refusal::NoSlot),
    (20, Refusal::AnlzHeader),
    (21, Refusal::Section),
    (22, Refusal::NoGrid),
    (23, Refusal::GridLength),
    (24, Refusal::BarPosition),
    (25, Refusal::PageType(5)),
    (26, Refusal::CueList),
    (27, Refusal::Waveform),
    (
        28,
        Refusal::Other {
            number: 28,
            value: 5,
            entry: 6,
        },
    ),
];

#[test]
fn refusals_have_number_value_and_entry() {
    for (number, refusal) in REFUSALS {
        assert_eq!(Refusal::new(number, 5, 6), refusal);
        assert_eq!(refusal.number(), number);
        let has_value = matches!(number, 11..=15 | 17 | 25 | 28);
        assert_eq!(refusal.value(), if has_value { 5 } else { 0 });
        let has_entry = matches!(number, 14 | 15 | 28);
        assert_eq!(refusal.entry(), if has_entry { 6 } else { 0 });
        let is_file_fault = matches!(number, 9..=16 | 25);
        assert_eq!(refusal.is_file_fault(), is_file_fault, "{number}");
    }
}

#[test]
fn refusals_are_told_apart_in_words() {
    let words: HashSet<String> = REFUSALS.iter().map(|(_, r)| r.to_string()).collect();
    assert_eq!(words.len(), REFUSALS.len());
    assert!(!words.contains(""));
    let told = [
        (12, "page 7 has another page's number"),
        (14, "the row of entry 3 on page 7 does not fit"),
        (15, "a string in the row of entry 3 on page 7 is malformed"),
        (25, "page 7 is of another table"),
        (26, "a cue list of the ANLZ file is malformed"),
        (28, "refusal 28 with 7 and entry 3"),
    ];
    for (number, words) in told {
        assert_eq!(Refusal::new(number, 7, 3).to_string(), words);
    }
}
