//! Which blocks are held and which is missing (rules 1.23, 1.24), the file's pages and the bounds of tables (rules
//! 3.15, 3.16): examples by hand.

use sarvoltig_reference::model::{
    holds, missing, BoundsReply, LayoutReply, Refusal, Rows, Session, Table, BLOCK_SIZE,
};
use sarvoltig_reference::rng::Rng;
use sarvoltig_reference::schedule::random_file;

use crate::{opened, refused};

/// Of 130 blocks 0, 63, 64, 128 and 129 are held. Bits 130 and 191 belong to no block.
const LEN: u64 = 130 * 512;
const MAP: [u64; 3] = [1 << 63 | 1, 1, 1 << 63 | 0b111];

#[test]
fn a_block_is_held_where_the_file_has_it_and_its_bit_is_set() {
    let held = [0, 63, 64, 128, 129];
    for block in 0..400 {
        assert_eq!(holds(LEN, &MAP, block), held.contains(&block), "{block}");
    }
    for block in [1 << 32, (1 << 32) + 63, 1 << 55, 1 << 63, u64::MAX] {
        assert!(!holds(LEN, &MAP, block), "{block}");
    }
}

#[test]
fn the_first_missing_block_is_looked_for_from_a_block_on() {
    let examples = [
        (0, Some(1)),
        (1, Some(1)),
        (2, Some(2)),
        (62, Some(62)),
        (63, Some(65)),
        (64, Some(65)),
        (65, Some(65)),
        (127, Some(127)),
        (128, None),
        (129, None),
        (130, None),
        (131, None),
        (192, None),
        (1 << 32, None),
        (u64::MAX, None),
    ];
    for (from, block) in examples {
        assert_eq!(missing(LEN, &MAP, from), block, "{from}");
    }
}

#[test]
fn one_missing_block_is_found_wherever_it_is() {
    for block in 0..130 {
        let mut map = [u64::MAX; 3];
        map[block / 64] ^= 1 << (block % 64);
        let block = block as u64;
        for from in 0..=block {
            assert_eq!(missing(LEN, &map, from), Some(block));
        }
        assert_eq!(missing(LEN, &map, block + 1), None);
        let absent: Vec<u64> = (0..130).filter(|b| !holds(LEN, &map, *b)).collect();
        assert_eq!(absent, [block]);
    }
    assert_eq!(missing(LEN, &[u64::MAX; 3], 0), None);
}

#[test]
fn a_length_has_its_whole_blocks() {
    let all = [u64::MAX; 3];
    let lengths = [
        (0, 0),
        (1, 0),
        (511, 0),
        (512, 1),
        (513, 1),
        (1023, 1),
        (1024, 2),
        (64 * 512 - 1, 63),
        (64 * 512, 64),
        (64 * 512 + 511, 64),
        (65 * 512, 65),
    ];
    for (len, blocks) in lengths {
        let held = (0..200).filter(|block| holds(len, &all, *block));
        assert_eq!(held.count(), blocks, "{len}");
        assert_eq!(missing(len, &all, 0), None);
        let first = (blocks > 0).then_some(0);
        assert_eq!(missing(len, &[0; 3], 0), first);
        assert_eq!(missing(len, &[], 0), first);
        assert_eq!(missing(len, &[0; 3], blocks as u64), None);
    }
}

#[test]
fn blocks_behind_a_short_map_are_missing() {
    let map = [u64::MAX; 2];
    assert!(holds(200 * 512, &map, 127));
    assert!(!holds(200 * 512, &map, 128));
    let examples = [
        (0, Some(128)),
        (127, Some(128)),
        (128, Some(128)),
        (150, Some(150)),
        (199, Some(199)),
        (200, None),
    ];
    for (from, block) in examples {
        assert_eq!(missing(200 * 512, &map, from), block, "{from}");
    }
    assert!(!holds(512, &[], 0));
    assert_eq!(missing(512, &[], 0), Some(0));
}

/// 2^64 - 1 bytes are 2^55 - 1 whole blocks.
#[test]
fn any_length_is_taken() {
    let last = (1 << 55) - 2;
    assert_eq!(missing(u64::MAX, &[u64::MAX], 0), Some(64));
    assert_eq!(missing(u64::MAX, &[u64::MAX], last), Some(last));
    assert_eq!(missing(u64::MAX, &[u64::MAX], last + 1), None);
    assert!(holds(u64::MAX, &[u64::MAX], 63));
    assert!(!holds(u64::MAX, &[u64::MAX], 64));
    assert!(!holds(u64::MAX, &[u64::MAX], last));
}

#[test]
fn neither_is_refused() {
    let mut session = Session::new(vec![0; 1536], vec![u64::MAX]);
    assert!(!session.holds(0));
    assert_eq!(session.missing(0), None);
    session.open(1536).expect("the buffers are long enough");
    session.write_word(0, 0b1010);
    assert_eq!(session.layout(), refused(4, 0));
    assert_eq!(
        [0, 1, 2, 3].map(|b| session.holds(b)),
        [false, true, false, false]
    );
    assert_eq!(
        [0, 1, 2, 3].map(|b| session.missing(b)),
        [Some(0), Some(2), Some(2), None]
    );
    session.replace_buffers(vec![], vec![]);
    assert_eq!(session.layout(), refused(2, 0));
    assert_eq!([0, 1, 2].map(|b| session.holds(b)), [false; 3]);
    assert_eq!(
        [0, 2, 3].map(|b| session.missing(b)),
        [Some(0), Some(2), None]
    );
}

/// Pointers of [`header`]: type, first_page, last_page.
type Pointers<'a> = &'a [[u32; 3]];

/// A file of these pages whose header has these pointers. All other bytes are ff, also empty_candidate of a pointer.
fn header(len_page: u32, pages: u32, pointers: Pointers) -> Vec<u8> {
    let mut file = vec![0xff; (len_page * pages) as usize];
    put(&mut file, 0x00, 0);
    put(&mut file, 0x04, len_page);
    put(&mut file, 0x08, pointers.len() as u32);
    for (i, [table, first_page, last_page]) in pointers.iter().enumerate() {
        put(&mut file, 0x1c + 16 * i, *table);
        put(&mut file, 0x1c + 16 * i + 0x08, *first_page);
        put(&mut file, 0x1c + 16 * i + 0x0c, *last_page);
    }
    file
}

fn put(file: &mut [u8], at: usize, number: u32) {
    file[at..at + 4].copy_from_slice(&number.to_le_bytes());
}

/// A session that holds block 0 of a file and no other.
fn started(file: &[u8]) -> Session {
    let mut session = opened(file);
    session
        .deliver(0, &file[..BLOCK_SIZE])
        .expect("block 0 is new");
    session
}

fn layout(len_page: u32, pages: u64) -> Result<LayoutReply, Refusal> {
    Ok(LayoutReply::Found { len_page, pages })
}

fn bounds(first_page: u32, last_page: u32) -> Result<BoundsReply, Refusal> {
    Ok(BoundsReply::Found {
        first_page,
        last_page,
    })
}

const LAYOUT_WAITS: Result<LayoutReply, Refusal> = Ok(LayoutReply::Waiting {
    page: 0,
    rows: 0,
    pages: 0,
});

const BOUNDS_WAIT: Result<BoundsReply, Refusal> = Ok(BoundsReply::Waiting {
    page: 0,
    rows: 0,
    pages: 0,
});

#[test]
fn block_0_gives_the_pages() {
    for (len_page, pages) in [
        (512, 1),
        (512, 2),
        (512, 65),
        (1024, 1),
        (1024, 3),
        (1536, 7),
        (4096, 41),
        (32_768, 1),
        (32_768, 2),
    ] {
        let session = started(&header(len_page, pages, &[[1, 1, 1]]));
        assert_eq!(session.layout(), layout(len_page, pages.into()));
    }
}

#[test]
fn block_0_is_waited_for() {
    let good = header(512, 3, &[[1, 1, 2]]);
    for file in [good, vec![0; 1536], vec![0xff; 1536]] {
        let mut session = opened(&file);
        for block in [None, Some(1), Some(2)] {
            if let Some(block) = block {
                session.deliver(block, &[0; 512]).expect("a new block");
            }
            assert_eq!(session.layout(), LAYOUT_WAITS);
            assert_eq!(session.bounds(1u8), BOUNDS_WAIT);
        }
    }
}

/// Both questions on a file of 3 pages of 1,024 bytes with bounds 1 and 2 for type 1, after an edit.
fn edited(edit: impl FnOnce(&mut [u8])) -> [Result<(), u8>; 2] {
    let mut file = header(1024, 3, &[[1, 1, 2], [9, 7, 0]]);
    edit(&mut file);
    let session = started(&file);
    let number = |refusal: Refusal| {
        assert_eq!((refusal.value, refusal.entry), (0, 0));
        refusal.number
    };
    [
        session.layout().map(drop).map_err(number),
        session.bounds(1u8).map(drop).map_err(number),
    ]
}

#[test]
fn a_broken_header_is_9() {
    let broken = [Err(9); 2];
    assert_eq!(edited(|_| {}), [Ok(()); 2]);
    for at in 0..4 {
        assert_eq!(edited(|file| file[at] = 1), broken);
    }
    for len_page in [0, 1, 256, 511, 513, 768, 2048, 33_280, 1 << 31, u32::MAX] {
        assert_eq!(edited(|file| put(file, 0x04, len_page)), broken);
    }
    for num_tables in [0, 31, 32, 256 + 1, 1 << 16 | 1, 1 << 31, u32::MAX] {
        assert_eq!(edited(|file| put(file, 0x08, num_tables)), broken);
    }
    for table in [1, 9] {
        let twice = |file: &mut [u8]| {
            put(file, 0x1c, table);
            put(file, 0x1c + 16, table);
        };
        assert_eq!(edited(twice), broken);
    }
    // The third pointer has type ff ff ff ff, and the fourth too.
    assert_eq!(edited(|file| put(file, 0x08, 3)), [Ok(()); 2]);
    assert_eq!(edited(|file| put(file, 0x08, 4)), broken);
}

#[test]
fn thirty_pointers_may_stand_in_block_0() {
    let pointers: Vec<[u32; 3]> = (0..30).map(|i| [i + 100, i + 1, 31 - i]).collect();
    let mut file = header(512, 32, &pointers);
    put(&mut file, 0x1c + 16 * 29, 13);
    let session = started(&file);
    assert_eq!(session.layout(), layout(512, 32));
    assert_eq!(session.bounds(13u8), bounds(30, 2));
}

#[test]
fn each_table_has_the_links_of_its_pointer() {
    for table in Table::ALL {
        let number = u32::from(table.number());
        let file = header(512, 12, &[[9, 3, 4], [number, 5, 11], [19, 1, 2]]);
        let session = started(&file);
        assert_eq!(session.bounds(number), bounds(5, 11));
        for other in Table::ALL.into_iter().filter(|other| *other != table) {
            assert_eq!(session.bounds(other.number()), refused(10, 0));
        }
    }
}

#[test]
fn a_pointer_behind_the_last_is_none() {
    let mut file = header(512, 4, &[[0, 1, 1], [1, 2, 3]]);
    assert_eq!(started(&file).bounds(1u8), bounds(2, 3));
    put(&mut file, 0x08, 1);
    assert_eq!(started(&file).bounds(1u8), refused(10, 0));
    assert_eq!(started(&file).bounds(0u8), bounds(1, 1));
}

#[test]
fn types_have_32_bits() {
    let file = header(
        512,
        4,
        &[[1 << 8 | 1, 1, 1], [1 << 31 | 2, 1, 1], [3, 2, 3]],
    );
    let session = started(&file);
    assert_eq!(session.bounds(1u8), refused(10, 0));
    assert_eq!(session.bounds(2u8), refused(10, 0));
    assert_eq!(session.bounds(3u8), bounds(2, 3));
    for table in [1u32 << 8 | 1, 1 << 8 | 3, 1 << 16 | 3, 1 << 31 | 2] {
        assert_eq!(session.bounds(table), refused(8, 0));
    }
}

/// A file of four pages: links from 1 to 3 are good.
#[test]
fn links_outside_the_file_are_11() {
    let asked = |first, last| started(&header(512, 4, &[[5, first, last]])).bounds(5u8);
    for good in 1..4 {
        assert_eq!(asked(good, 1), bounds(good, 1));
        assert_eq!(asked(1, good), bounds(1, good));
        for bad in [0, 4, 5, 256 + 1, 1 << 16 | 1, 1 << 31 | 1, u32::MAX] {
            assert_eq!(asked(bad, good), refused(11, 0));
            assert_eq!(asked(good, bad), refused(11, 0));
            assert_eq!(asked(bad, bad), refused(11, 0));
        }
    }
    let one_page = header(1024, 1, &[[5, 0, 0], [6, 1, 1]]);
    assert_eq!(started(&one_page).bounds(5u8), refused(11, 0));
    assert_eq!(started(&one_page).bounds(6u8), refused(11, 0));
    assert_eq!(started(&one_page).layout(), layout(1024, 1));
}

#[test]
fn links_of_other_tables_do_not_matter() {
    let session = started(&header(512, 4, &[[0, 0, 9], [1, 3, 2], [2, 4, 4]]));
    assert_eq!(session.layout(), layout(512, 4));
    assert_eq!(session.bounds(0u8), refused(11, 0));
    assert_eq!(session.bounds(1u8), bounds(3, 2));
    assert_eq!(session.bounds(2u8), refused(11, 0));
}

/// Page 0 is not whole, and pages 1 and 2 are not held or are no pages of the table.
#[test]
fn no_block_but_0_is_looked_at() {
    let file = header(1024, 3, &[[1, 2, 1]]);
    let mut session = started(&file);
    for block in [None, Some(2), Some(1), Some(5), Some(3), Some(4)] {
        if let Some(block) = block {
            session.deliver(block, &[0; 512]).expect("a new block");
        }
        assert_eq!(session.layout(), layout(1024, 3));
        assert_eq!(session.bounds(1u8), bounds(2, 1));
    }
}

#[test]
fn record_buffers_and_map_are_tested_first() {
    let file = header(512, 3, &[[1, 1, 2]]);
    let asked = |session: &Session| {
        let number = |refusal: Refusal| refusal.number;
        [
            session.layout().map(drop).map_err(number),
            session.bounds(1u8).map(drop).map_err(number),
            session.bounds(9u8).map(drop).map_err(number),
        ]
    };
    let mut session = Session::new(file.clone(), vec![0]);
    assert_eq!(asked(&session), [Err(1); 3]);
    session.open(1536).expect("the buffers are long enough");
    session.replace_buffers(file[..1535].to_vec(), vec![]);
    assert_eq!(asked(&session), [Err(2); 3]);
    session.replace_buffers(file.clone(), vec![]);
    assert_eq!(asked(&session), [Err(3); 3]);
    for spare in [3, 63] {
        session.replace_buffers(file.clone(), vec![1 << spare | 1]);
        assert_eq!(asked(&session), [Err(4); 3]);
    }
    session.replace_buffers(file, vec![1, u64::MAX]);
    assert_eq!(asked(&session), [Ok(()), Ok(()), Err(8)]);
}

#[test]
fn the_type_is_tested_before_the_file() {
    let broken = vec![0xff; 1536];
    let mut session = opened(&broken);
    for table in [9, 10, 11, 12, 14, 19, 255, 256, 256 + 13, 1 << 31, u32::MAX] {
        assert_eq!(session.bounds(table), refused(8, 0));
    }
    assert_eq!(session.bounds(13u8), BOUNDS_WAIT);
    session.deliver(0, &broken[..512]).expect("block 0 is new");
    assert_eq!(session.bounds(9u8), refused(8, 0));
    assert_eq!(session.bounds(13u8), refused(9, 0));
}

#[test]
fn the_header_is_tested_before_the_pointer() {
    let mut file = header(512, 4, &[[0, 0, 0], [2, 1, 1], [2, 1, 1]]);
    let session = started(&file);
    for table in [0u8, 1, 2] {
        assert_eq!(session.bounds(table), refused(9, 0));
    }
    put(&mut file, 0x08, 2);
    let session = started(&file);
    assert_eq!(session.bounds(0u8), refused(11, 0));
    assert_eq!(session.bounds(1u8), refused(10, 0));
    assert_eq!(session.bounds(2u8), bounds(1, 1));
}

/// Where all rows of a table are found, its bounds are the first and the last page walked. Where its bounds are
/// refused, its rows are, alike.
#[test]
fn bounds_are_the_ends_of_a_walk() {
    let (mut walks, mut refusals) = (0, 0);
    for seed in 0..400 {
        let file = random_file(&mut Rng::new(seed));
        let session = crate::whole(&file);
        for table in Table::ALL.map(Table::number) {
            let rows = session.for_each_row(table, |_| {});
            match session.bounds(table) {
                Ok(BoundsReply::Found {
                    first_page,
                    last_page,
                }) => {
                    if let Ok(Rows::Full { .. }) = rows {
                        let pages = session.pages_walked(table).expect("a full walk");
                        let ends = (pages.first(), pages.last());
                        assert_eq!(ends, (Some(&first_page), Some(&last_page)));
                        walks += 1;
                    }
                }
                Ok(BoundsReply::Waiting { .. }) => panic!("every block is held"),
                Err(refusal) => {
                    assert_eq!(rows, Err(refusal));
                    refusals += 1;
                }
            }
        }
    }
    assert!(walks > 500 && refusals > 500, "{walks}, {refusals}");
}
