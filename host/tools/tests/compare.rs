//! The library and the reference give the same answers, lists, images and maps over 50,000 runs, of which one
//! in a hundred is about a large file, and about pages with each number of entries around groups of 16; and the
//! same answers about more than 100,000 ANLZ files. Where the row index begins is asked of the library alone, for every
//! number of entries.

use sarvoltig_reference::anlz::{cues, grid, waveform, CuePosition};
use sarvoltig_reference::model::{
    index_size, RecordReply, Refusal, Rows, Session, BLOCK_SIZE, PAGE_HEADER,
};
use sarvoltig_reference::schedule::{anlz_run, compared_run, Answer, Call, Reply, Run};
use sarvoltig_tools::compare::{difference, first_difference};
use sarvoltig_tools::library::Library;
use std::collections::BTreeMap;
use std::thread;

const RUNS: u64 = 50_000;
const ANLZ_RUNS: u64 = 100_000;

#[test]
fn library_and_reference_agree() {
    let half = thread::spawn(|| first_difference(compared_run, 0..RUNS / 2));
    assert_eq!(first_difference(compared_run, RUNS / 2..RUNS), None);
    assert_eq!(half.join().expect("no panic"), None);
}

const LEN_PAGE: usize = 32_768;
const PLAYLIST_ENTRIES: u8 = 8;
const MOST_ROWS: usize = 2_047;
/// A row of the playlist entries; it has a fixed part and no strings.
const ROW: [u8; 0x0c] = [5, 0, 0, 0, 6, 0, 0, 0, 7, 0, 0, 0];

/// A page of 32,768 bytes of the playlist entries. All entries of its index but the last name one row, at the start of
/// the heap.
#[derive(Clone, Copy, Debug)]
struct PlaylistPage {
    entries: usize,
    /// So many entries are present, the last ones.
    present: usize,
    /// So many flags past the last entry are set.
    past_last: usize,
    /// How many present rows the header counts.
    num_rows: usize,
    /// Where the index begins.
    index_start: usize,
    /// Where the row of the last entry starts.
    last_start: usize,
}

impl PlaylistPage {
    /// A file of two pages, of which this is the second.
    fn file(self) -> Vec<u8> {
        let mut file = vec![0; 2 * LEN_PAGE];
        let (header, page) = file.split_at_mut(LEN_PAGE);
        header[0x04..0x08].copy_from_slice(&(LEN_PAGE as u32).to_le_bytes());
        for (at, number) in [(0x08, 1), (0x1c, PLAYLIST_ENTRIES), (0x24, 1), (0x28, 1)] {
            header[at] = number;
        }
        page[0x04] = 1;
        page[0x08] = PLAYLIST_ENTRIES;
        let row_counts = (self.entries + 8_192 * self.num_rows) as u32;
        page[0x18..0x1b].copy_from_slice(&row_counts.to_le_bytes()[..3]);
        page[PAGE_HEADER..][..ROW.len()].copy_from_slice(&ROW);
        if self.last_fits() {
            page[self.last_start..][..ROW.len()].copy_from_slice(&ROW);
        }
        for entry in self.entries - self.present..self.entries + self.past_last {
            page[LEN_PAGE - 36 * (entry / 16) - 4 + entry % 16 / 8] |= 1 << (entry % 8);
        }
        if let Some(last) = self.entries.checked_sub(1) {
            let at = LEN_PAGE - 36 * (last / 16) - 6 - 2 * (last % 16);
            let offset = (self.last_start - PAGE_HEADER) as u16;
            page[at..at + 2].copy_from_slice(&offset.to_le_bytes());
        }
        file
    }

    /// Whether the row of the last entry ends where the index begins, or before.
    fn last_fits(self) -> bool {
        self.last_start + ROW.len() <= self.index_start
    }

    fn places(self) -> Vec<u32> {
        let mut places = vec![(LEN_PAGE + PAGE_HEADER) as u32; self.present];
        if let Some(last) = places.last_mut() {
            *last = (LEN_PAGE + self.last_start) as u32;
        }
        places
    }

    /// The blocks that are needed, in a packet, and four questions; the last reads from a list.
    fn calls(self) -> Vec<Call> {
        let file = self.file();
        let mut blocks = vec![0];
        blocks.extend(LEN_PAGE / BLOCK_SIZE..file.len() / BLOCK_SIZE);
        let table = u32::from(PLAYLIST_ENTRIES);
        let record = |k: usize| Call::Record { table, k: k as u64 };
        let last = self.present.saturating_sub(1);
        vec![
            Call::Lend {
                image: file.len(),
                words: 2,
            },
            Call::Open {
                len: file.len() as u64,
            },
            Call::Packet {
                room: blocks.len(),
                pieces: [&file[..BLOCK_SIZE], &file[LEN_PAGE..]].concat(),
                blocks: blocks.into_iter().map(|block| block as u64).collect(),
            },
            Call::Rows {
                table,
                room: MOST_ROWS + 1,
            },
            record(last),
            record(self.present),
            Call::List {
                places: self.places(),
            },
            Call::RecordIn {
                table,
                i: last as u64,
            },
        ]
    }

    /// What refuses the table.
    fn fault(self) -> Option<Refusal> {
        let refusal = |number, entry: usize| Refusal {
            number,
            value: 1,
            entry: entry as u64,
        };
        match self.num_rows == self.present {
            true => (!self.last_fits()).then(|| refusal(14, self.entries - 1)),
            false => Some(refusal(13, 0)),
        }
    }

    /// The answers to the questions.
    fn expected(self) -> [Result<Reply, Refusal>; 4] {
        let no_row = Refusal {
            number: 18,
            value: 0,
            entry: 0,
        };
        let rows = self.present as u64;
        let found = |entry: usize| RecordReply::Found {
            page: 1,
            entry: entry as u32,
            numbers: vec![5, 6, 7],
        };
        let last = match (rows, self.fault()) {
            (0, _) => Err(no_row),
            (_, Some(fault)) => Err(fault),
            _ => Ok(Reply::Record(
                PLAYLIST_ENTRIES.into(),
                found(self.entries - 1),
            )),
        };
        match self.fault() {
            Some(fault) => [Err(fault), Err(fault), Err(fault), last],
            None => {
                let full = Reply::Rows(Rows::Full { rows, pages: 1 });
                [Ok(full), last.clone(), Err(no_row), last]
            }
        }
    }
}

/// Pages of so many entries, all present or as many as the header has room to count. It counts them right, without and
/// with flags set past the last entry; one too many; with those flags; and one too few. On one page more it counts them
/// right and the last row starts a byte before the index. Of more than 2,047 entries all are present on another, which
/// has the low 11 bits of their number.
fn playlist_pages(entries: usize) -> Vec<PlaylistPage> {
    let past_last = entries.next_multiple_of(16) - entries;
    let page = |past_last, too_many| {
        let present = entries.min(MOST_ROWS - too_many);
        PlaylistPage {
            entries,
            present,
            past_last,
            num_rows: present + too_many,
            index_start: LEN_PAGE - index_size(entries),
            last_start: PAGE_HEADER,
        }
    };
    let right = page(0, 0);
    let mut pages = vec![
        right,
        page(past_last, 0),
        page(0, 1),
        page(past_last, past_last),
    ];
    if entries > 0 {
        pages.push(PlaylistPage {
            num_rows: right.present - 1,
            ..right
        });
        pages.push(PlaylistPage {
            last_start: right.index_start - 1,
            ..right
        });
    }
    pages.extend((entries > MOST_ROWS).then_some(PlaylistPage {
        present: entries,
        num_rows: entries % 2_048,
        ..page(past_last, 0)
    }));
    pages
}

/// The last four of some answers.
fn last_replies(answers: impl Iterator<Item = Answer>) -> Vec<Result<Reply, Refusal>> {
    let replies: Vec<_> = answers.map(|answer| answer.reply).collect();
    replies[replies.len() - 4..].to_vec()
}

/// What the reference answers to the last four calls that have an answer.
fn reference_replies(calls: &[Call]) -> Vec<Result<Reply, Refusal>> {
    let mut run = Run::new(Session::new(Vec::new(), Vec::new()));
    last_replies(calls.iter().filter_map(|call| call.make(&mut run)))
}

/// What the library answers to them.
fn library_replies(calls: &[Call]) -> Vec<Result<Reply, Refusal>> {
    let mut library = Library::default();
    let mut made = |call| library.make(call).expect("an answer of the library");
    last_replies(calls.iter().filter_map(&mut made))
}

#[test]
fn each_number_of_entries_around_groups_of_16() {
    for entries in (0..=8_191).filter(|entries| (entries + 1) % 16 < 3) {
        for page in playlist_pages(entries) {
            let calls = page.calls();
            assert_eq!(reference_replies(&calls), page.expected(), "{page:?}");
            assert_eq!(difference(&calls), None, "{page:?}");
        }
    }
}

/// The index of no entries begins at the page's end, and with one entry more it begins earlier: by 6 bytes where the
/// entries before were a multiple of 16, else by 2. A row that ends where the index begins is found; one that starts a
/// byte later is 14. A page without entries has no row, so pages of 1 to 8,191 entries are asked.
#[test]
fn one_entry_more_moves_the_index_by_6_bytes_or_2() {
    let mut index_start = LEN_PAGE;
    for before in 0..8_191 {
        index_start -= if before % 16 == 0 { 6 } else { 2 };
        let fits = PlaylistPage {
            entries: before + 1,
            present: 1,
            past_last: 0,
            num_rows: 1,
            index_start,
            last_start: index_start - ROW.len(),
        };
        let late = PlaylistPage {
            last_start: fits.last_start + 1,
            ..fits
        };
        for page in [fits, late] {
            assert_eq!(library_replies(&page.calls()), page.expected(), "{page:?}");
        }
    }
}

#[test]
fn library_and_reference_agree_on_anlz_files() {
    assert_eq!(first_difference(anlz_run, 0..ANLZ_RUNS), None);
}

/// What a call did, in a word or two.
fn outcome(call: &Call, run: &mut Run) -> String {
    match call.make(run).map(|answer| answer.reply) {
        None => "file".to_string(),
        Some(Err(refusal)) => format!("refused {}", refusal.number),
        Some(Ok(Reply::Beats(_))) => "beats".to_string(),
        Some(Ok(Reply::Beat(_))) => "beat".to_string(),
        Some(Ok(Reply::Cue(cue))) => match cue.position {
            CuePosition::Point { .. } => "point".to_string(),
            CuePosition::Loop { .. } => "loop".to_string(),
        },
        Some(Ok(Reply::WaveEntry(entry))) => format!("entry of {}", entry.width),
        Some(Ok(reply)) => format!("{reply}"),
    }
}

/// Whether a file has a cue and a waveform with an entry, all answered.
fn has_cues_and_waves(file: &[u8]) -> bool {
    let has_entries = |sort| waveform(file, sort).is_ok_and(|waveform| waveform.count > 0);
    cues(file).is_ok_and(|cues| !cues.is_empty()) && [3, 4, 5].into_iter().any(has_entries)
}

/// How often each outcome is met, and a file of cues and waves.
fn outcomes() -> BTreeMap<String, u64> {
    let mut outcomes = BTreeMap::new();
    for calls in (0..ANLZ_RUNS).map(anlz_run) {
        let mut run = Run::new(Session::new(Vec::new(), Vec::new()));
        for call in calls {
            *outcomes.entry(outcome(&call, &mut run)).or_default() += 1;
            if matches!(&call, Call::Anlz { file } if has_cues_and_waves(file)) {
                *outcomes
                    .entry("file of cues and waves".to_string())
                    .or_default() += 1;
            }
        }
    }
    outcomes
}

#[test]
fn runs_of_anlz_files_have_every_answer() {
    let least = [
        ("file", 100_000),
        ("file of cues and waves", 30_000),
        ("beats", 40_000),
        ("beat", 100_000),
        ("point", 90_000),
        ("loop", 60_000),
        ("entry of 1", 30_000),
        ("entry of 2", 30_000),
        ("entry of 6", 10_000),
        ("refused 18", 100_000),
        ("refused 20", 70_000),
        ("refused 21", 70_000),
        ("refused 22", 70_000),
        ("refused 23", 70_000),
        ("refused 24", 70_000),
        ("refused 26", 70_000),
        ("refused 27", 50_000),
    ];
    let outcomes = outcomes();
    for (outcome, least) in least {
        assert!(
            outcomes.get(outcome) >= Some(&least),
            "{outcome}: {outcomes:?}"
        );
    }
    assert_eq!(outcomes.len(), least.len(), "{outcomes:?}");
}

/// A file with a grid of two beats between other sections, and a second grid.
fn small_file() -> Vec<u8> {
    let file = [
        &b"PMAI\0\0\0\x0e\0\0\0\x68\0\x01"[..],
        b"pqtz\0\0\0\x0c\0\0\0\x0c",
        b"PQTZ\0\0\0\x18\0\0\0\x28\0\0\0\0\0\x80\0\0\0\0\0\x02",
        b"\0\x04\x30\xd4\0\0\0\x29",
        b"\0\x01\x30\xd5\0\x01\x02\x03",
        b"PCOB\0\0\0\x0d\0\0\0\x0e\0\x01",
        b"PQTZ\0\0\0\x0c\0\0\0\x18\0\0\0\0\0\x80\0\0\0\0\0\0",
    ];
    file.concat()
}

/// The number of beats and beats around the last.
fn asked(file: Vec<u8>) -> Vec<Call> {
    let mut calls = vec![Call::Anlz { file }, Call::Beats];
    calls.extend([0, 1, 2, u64::MAX].map(|k| Call::Beat { k }));
    calls
}

#[test]
fn each_value_of_each_byte_of_an_anlz_file() {
    let file = small_file();
    assert_eq!(grid(&file).map(|beats| beats.len()), Ok(2));
    for at in 0..file.len() {
        for value in 0..=u8::MAX {
            let mut file = file.clone();
            file[at] = value;
            assert_eq!(difference(&asked(file)), None, "{value} at {at}");
        }
    }
}

/// A file with two cue lists, the second empty, and waveforms of sorts 3 and 5, each of two entries.
fn small_file_of_cues_and_waves() -> Vec<u8> {
    let file = [
        &b"PMAI\0\0\0\x0c\0\0\0\xe2"[..],
        b"PCOB\0\0\0\x18\0\0\0\x88\0\0\0\x01\0\0\0\x02\xff\xff\xff\xff",
        b"PCPT\0\0\0\x1c\0\0\0\x38\0\0\0\x01\0\0\0\x01\0\x10\0\0\xff\xff\0\x01",
        b"\x01\0\x03\xe8\0\0\x01\xf9\xff\xff\xff\xff................",
        b"PCPT\0\0\0\x1c\0\0\0\x38\0\0\0\x02\0\0\0\0\0\x10\0\0\0\0\xff\xff",
        b"\x02\0\x03\xe8\0\0\x03\xe8\0\0\x07\xd0................",
        b"PWV3\0\0\0\x18\0\0\0\x1a\0\0\0\x01\0\0\0\x02\0\x96\0\0\x1f\x0f",
        b"PCOB\0\0\0\x0c\0\0\0\x18\0\0\0\0\0\0\0\0\xff\xff\xff\xff",
        b"PWV5\0\0\0\x18\0\0\0\x1c\0\0\0\x02\0\0\0\x02\0\x96\x03\x05\x12\x34\x56\x78",
    ];
    file.concat()
}

/// Cues and entries around the last.
fn asked_for_cues_and_waves(file: Vec<u8>) -> Vec<Call> {
    let mut calls = vec![Call::Anlz { file }];
    calls.extend([0, 1, 2, 3, u64::MAX].map(|k| Call::Cue { k }));
    for sort in 2..7 {
        calls.extend([0, 1, 2, u64::MAX].map(|k| Call::Wave { sort, k }));
    }
    calls
}

#[test]
fn each_value_of_each_byte_of_cue_lists_and_waveforms() {
    let file = small_file_of_cues_and_waves();
    assert_eq!(cues(&file).map(|cues| cues.len()), Ok(2));
    assert_eq!(waveform(&file, 3).map(|waveform| waveform.count), Ok(2));
    assert_eq!(waveform(&file, 5).map(|waveform| waveform.count), Ok(2));
    for at in 0..file.len() {
        for value in 0..=u8::MAX {
            let mut file = file.clone();
            file[at] = value;
            let calls = asked_for_cues_and_waves(file);
            assert_eq!(difference(&calls), None, "{value} at {at}");
        }
    }
}

/// The calls on each beginning of a file, with a fitting len_file and with others, and of the file with its sections,
/// which start at `sections`, once more behind it.
fn check_lengths(file: &[u8], sections: usize, asked: fn(Vec<u8>) -> Vec<Call>) {
    let longer = [file, &file[sections..]].concat();
    for len in 0..=longer.len() {
        for len_file in [len, len + 1, file.len()] {
            let mut file = longer[..len].to_vec();
            if let Some(place) = file.get_mut(0x08..0x0c) {
                place.copy_from_slice(&(len_file as u32).to_be_bytes());
            }
            assert_eq!(difference(&asked(file)), None, "{len_file} in {len}");
        }
    }
}

#[test]
fn each_length_of_an_anlz_file() {
    check_lengths(&small_file(), 14, asked);
    check_lengths(
        &small_file_of_cues_and_waves(),
        12,
        asked_for_cues_and_waves,
    );
}
