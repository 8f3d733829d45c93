//! The layout of a file and the bounds of its tables, from block 0.

use crate::support::{export_of_row, put_u32, GENRE, PAGE};
use sarvoltig::{map_words, Bounds, Intake, Layout, Refusal, Reply, Table, Waiting, BLOCK};
use sarvoltig_reference::generate::{export, Options};
use sarvoltig_reference::rng::Rng;

/// Nothing is known before block 0.
const WAITS: Waiting = Waiting {
    page: 0,
    rows: 0,
    pages: 0,
};

fn u32_at(file: &[u8], at: usize) -> u32 {
    u32::from_le_bytes(file[at..at + 4].try_into().expect("four bytes"))
}

/// The links of a table's pointer (rule 3.8).
fn pointer(file: &[u8], table: Table) -> Option<Bounds> {
    let pointers = (0..u32_at(file, 0x08) as usize).map(|i| 0x1c + 16 * i);
    let mut of_table = pointers.filter(|&at| u32_at(file, at) == table.number());
    of_table.next().map(|at| Bounds {
        first_page: u32_at(file, at + 0x08),
        last_page: u32_at(file, at + 0x0c),
    })
}

/// Layout and bounds with an image of which blocks are held, as the map says.
fn check(intake: &Intake, file: &[u8], len_page: u32) {
    let pages = file.len() as u64 / u64::from(len_page);
    let layout = Layout { len_page, pages };
    assert_eq!(intake.layout(), Ok(Reply::Found(layout)));
    for table in Table::ALL {
        let bounds = pointer(file, table).map(Reply::Found);
        assert_eq!(intake.bounds(table), bounds.ok_or(Refusal::NoPointer));
    }
}

#[test]
fn block_0_is_enough() {
    let mut absent = 0;
    for seed in 700..760 {
        let mut rng = Rng::new(seed);
        let options = Options::random(&mut rng);
        let file = export(&options).bytes;
        let mut image = rng.bytes(file.len());
        let mut map = vec![0; map_words(file.len() as u64)];
        let mut intake = Intake::open(&mut image, &mut map).expect("an allowed length");
        let mut blocks: Vec<(u64, &[u8])> = (0..).zip(file.chunks(BLOCK)).collect();
        let (block_0, others) = blocks.split_first_mut().expect("block 0");
        rng.shuffle(others);
        let before = rng.index(others.len() + 1);
        for &mut (block, piece) in &mut others[..before] {
            intake.deliver(block, piece).expect("a new block");
        }
        assert_eq!(intake.layout(), Ok(WAITS.into()));
        for table in Table::ALL {
            assert_eq!(intake.bounds(table), Ok(WAITS.into()));
            absent += usize::from(pointer(&file, table).is_none());
        }
        intake.deliver(0, block_0.1).expect("a new block");
        check(&intake, &file, options.len_page);
        for &mut (block, piece) in &mut others[before..] {
            intake.deliver(block, piece).expect("a new block");
        }
        check(&intake, &file, options.len_page);
    }
    assert!(absent > 20, "tables without a pointer, and not {absent}");
}

/// The refusals of the layout and of the bounds of genres, of an export of one genre with some numbers of block 0
/// changed.
fn refused(numbers: &[(usize, u32)]) -> [Option<Refusal>; 2] {
    let mut file = export_of_row(Table::Genres, GENRE);
    for &(at, number) in numbers {
        put_u32(&mut file, at, number);
    }
    let mut map = [0b01];
    let intake = Intake::resume(file.len() as u64, &mut file, &mut map);
    [intake.layout().err(), intake.bounds(Table::Genres).err()]
}

#[test]
fn a_broken_header_is_refused() {
    let page = PAGE as u32;
    let headers: [&[(usize, u32)]; 11] = [
        &[(0x00, 1)],
        &[(0x00, 1 << 31)],
        &[(0x04, 0)],
        &[(0x04, page + 1)],
        // the file is no multiple of it
        &[(0x04, 3 * page)],
        &[(0x04, 65_536)],
        &[(0x04, (1 << 16) + page)],
        &[(0x08, 0)],
        &[(0x08, 31)],
        // two pointers of type 0, behind that of genres, and two of genres
        &[(0x08, 3)],
        &[(0x08, 2), (0x2c, 1)],
    ];
    for header in headers {
        assert_eq!(
            refused(header),
            [Some(Refusal::FileHeader); 2],
            "{header:?}"
        );
    }
    // the header is tested before the pointer
    let both = refused(&[(0x00, 1), (0x1c, 2), (0x24, 0)]);
    assert_eq!(both, [Some(Refusal::FileHeader); 2]);
}

#[test]
fn a_bad_link_of_the_directory_is_refused() {
    for (first_page, last_page) in [(0, 1), (1, 0), (2, 1), (1, 2), (u32::MAX, 1), (0, 0)] {
        let links = refused(&[(0x24, first_page), (0x28, last_page)]);
        assert_eq!(links, [None, Some(Refusal::PageLink(0))]);
    }
    // a pointer of another type
    let absent = refused(&[(0x1c, 0x0100_0001), (0x24, 0)]);
    assert_eq!(absent, [None, Some(Refusal::NoPointer)]);
    // the links of other pointers are not tested
    assert_eq!(refused(&[(0x08, 2)]), [None, None]);
}

#[test]
fn wrong_buffers_are_refused_first() {
    let mut broken = vec![0xff; 2 * PAGE];
    let refusals: [(u64, usize, &[u64], Refusal); 6] = [
        (0, 0, &[], Refusal::Length),
        (1023, 1023, &[], Refusal::Length),
        (1024, 1023, &[], Refusal::ImageShort),
        (1024, 1024, &[], Refusal::MapShort),
        (1024, 1024, &[0b100], Refusal::MapSpare),
        (1024, 1024, &[0b011], Refusal::FileHeader),
    ];
    for (len, image, map, refusal) in refusals {
        let mut map = map.to_vec();
        let intake = Intake::resume(len, &mut broken[..image], &mut map);
        assert_eq!(intake.layout(), Err(refusal));
        assert_eq!(intake.bounds(Table::Tracks), Err(refusal));
    }
}
