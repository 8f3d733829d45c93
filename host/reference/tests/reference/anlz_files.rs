//! Generated and damaged ANLZ files: what is in them, counted.

use std::collections::BTreeMap;

use sarvoltig_reference::anlz::damage::{apply, damage, Kind};
use sarvoltig_reference::anlz::generate::{random, AnlzFile};
use sarvoltig_reference::anlz::{
    beat, beats, cue, cues, grid, sections, wave, waveform, Beat, Cue, CueListType, CuePosition,
    Section, WaveEntry, Waveform,
};
use sarvoltig_reference::model::Refusal;
use sarvoltig_reference::rng::Rng;
use sarvoltig_reference::schedule::anlz_file;

use crate::anlz::plain;

/// The sorts of waveforms with their codes.
const SORTS: [(u64, &[u8; 4]); 3] = [(3, b"PWV3"), (4, b"PWV4"), (5, b"PWV5")];

/// Where entries begin, and the length of a cue.
const ENTRIES: usize = 0x18;
const CUE: usize = 0x38;

/// A situation, how many items have it at least, and whether one has it.
pub type Situation<T> = (&'static str, u32, fn(&T) -> bool);

/// Each situation is met as often as it says.
pub fn check_situations<T>(situations: &[Situation<T>], items: impl Iterator<Item = T>) {
    let mut met = vec![0; situations.len()];
    for item in items {
        for (met, (_, _, is_met)) in met.iter_mut().zip(situations) {
            *met += u32::from(is_met(&item));
        }
    }
    for (met, (situation, least, _)) in met.iter().zip(situations) {
        assert!(met >= least, "{situation}: {met} of {least}");
    }
}

/// All answers about a file.
#[derive(Debug, PartialEq)]
struct Found {
    beats: Result<Vec<Beat>, u8>,
    cues: Result<Vec<Cue>, u8>,
    waves: [Result<Waveform, u8>; 3],
}

impl Found {
    fn of(file: &[u8]) -> Found {
        let number = |refusal: Refusal| {
            assert_eq!((refusal.value, refusal.entry), (0, 0));
            refusal.number
        };
        Found {
            beats: grid(file).map_err(number),
            cues: cues(file).map_err(number),
            waves: SORTS.map(|(sort, _)| waveform(file, sort).map_err(number)),
        }
    }
}

/// The sections of a file with a code.
pub fn with_code(file: &[u8], code: &[u8; 4]) -> Vec<Section> {
    let mut sections = sections(file).unwrap_or_default();
    sections.retain(|section| section.code == *code);
    sections
}

/// The entries of the cue lists of a file, list by list.
fn entries_by_list(file: &[u8]) -> Vec<Vec<&[u8]>> {
    let lists = with_code(file, b"PCOB").into_iter();
    let tags = lists.map(|list| &file[list.place as usize..list.end() as usize]);
    let entries = tags.map(|tag| tag.get(ENTRIES..).unwrap_or_default());
    entries
        .map(|entries| entries.chunks_exact(CUE).collect())
        .collect()
}

fn generated(seeds: u64) -> impl Iterator<Item = AnlzFile> {
    (0..seeds).map(|seed| random(&mut Rng::new(seed)))
}

#[test]
fn generated_files_have_what_was_put_there() {
    for (seed, file) in generated(3000).enumerate() {
        let AnlzFile {
            bytes,
            beats,
            cues,
            waves,
            ..
        } = file;
        let expected = Found { beats, cues, waves };
        assert_eq!(Found::of(&bytes), expected, "seed {seed}");
        check_beats(&bytes, &expected.beats);
        check_cues(&bytes, &expected.cues);
        for ((sort, _), expected) in SORTS.into_iter().zip(expected.waves) {
            check_wave(&bytes, sort, expected);
        }
    }
}

fn check_beats(file: &[u8], expected: &Result<Vec<Beat>, u8>) {
    match expected {
        Err(number) => assert_eq!(beats(file), plain(*number)),
        Ok(all) => {
            assert_eq!(beats(file), Ok(all.len() as u32));
            for k in (0..all.len()).step_by(1 + all.len() / 400) {
                assert_eq!(beat(file, k as u64), Ok(all[k]));
            }
        }
    }
}

fn check_cues(file: &[u8], expected: &Result<Vec<Cue>, u8>) {
    match expected {
        Err(number) => assert_eq!(cue(file, 0), plain(*number)),
        Ok(all) => {
            for k in (0..all.len()).step_by(1 + all.len() / 400) {
                assert_eq!(cue(file, k as u64), Ok(all[k]));
            }
            assert_eq!(cue(file, all.len() as u64), plain(18));
        }
    }
}

fn check_wave(file: &[u8], sort: u64, expected: Result<Waveform, u8>) {
    match expected {
        Err(number) => assert_eq!(wave(file, sort, 0), plain(number)),
        Ok(all) => {
            let count = u64::from(all.count);
            let width = all.width;
            for k in (0..count).step_by(1 + all.count as usize / 10) {
                let place = all.place + u64::from(width) * k;
                assert_eq!(wave(file, sort, k), Ok(WaveEntry { place, width }));
            }
            assert_eq!(wave(file, sort, count), plain(18));
        }
    }
}

#[test]
fn free_bytes_change_no_answer() {
    let mut rng = Rng::new(7);
    let mut changed = 0;
    for (seed, file) in generated(3000).enumerate() {
        let mut other = file.bytes.clone();
        for at in file.free.iter().cloned().flatten() {
            other[at] = rng.below(256) as u8;
        }
        assert_eq!(Found::of(&other), Found::of(&file.bytes), "seed {seed}");
        assert_eq!(sections(&other), sections(&file.bytes), "seed {seed}");
        changed += usize::from(other != file.bytes);
    }
    assert!(changed > 2000, "{changed}");
}

fn lists(file: &AnlzFile) -> Vec<Section> {
    with_code(&file.bytes, b"PCOB")
}

fn is_empty(list: &Section) -> bool {
    list.len_tag == ENTRIES as u32
}

/// Whether two lists stand next to one another.
fn touch(two: &[Section]) -> bool {
    two[0].end() == two[1].place
}

fn any_cue(file: &AnlzFile, is_so: fn(&Cue) -> bool) -> bool {
    file.cues.iter().flatten().any(is_so)
}

fn any_entry(file: &AnlzFile, is_so: fn(&[u8]) -> bool) -> bool {
    entries_by_list(&file.bytes).concat().into_iter().any(is_so)
}

fn is_loop(cue: &Cue) -> bool {
    matches!(cue.position, CuePosition::Loop { .. })
}

fn is_hot(cue: &Cue) -> bool {
    cue.list == CueListType::Hot
}

const LISTS: [Situation<AnlzFile>; 17] = [
    ("no list", 400, |file| lists(file).is_empty()),
    ("one list", 200, |file| lists(file).len() == 1),
    ("several lists", 800, |file| lists(file).len() > 1),
    ("an empty list", 400, |file| {
        lists(file).iter().any(is_empty)
    }),
    ("an empty list before cues", 200, |file| {
        let lists = lists(file);
        let mut two = lists.windows(2);
        two.any(|two| is_empty(&two[0]) && !is_empty(&two[1]))
    }),
    ("lists next to one another", 300, |file| {
        lists(file).windows(2).any(touch)
    }),
    ("lists apart", 600, |file| {
        !lists(file).windows(2).all(touch)
    }),
    ("a memory cue", 600, |file| {
        any_cue(file, |cue| !is_hot(cue))
    }),
    ("a hot cue", 600, |file| any_cue(file, is_hot)),
    ("cues of both types", 300, |file| {
        any_cue(file, is_hot) && any_cue(file, |cue| !is_hot(cue))
    }),
    ("a point", 800, |file| any_cue(file, |cue| !is_loop(cue))),
    ("a loop", 700, |file| any_cue(file, is_loop)),
    ("a loop time below the time", 250, |file| {
        any_cue(
            file,
            |cue| matches!(cue.position, CuePosition::Loop { time, loop_time } if loop_time < time),
        )
    }),
    ("a status of 0", 400, |file| {
        any_entry(file, |entry| entry[0x10..0x14] == [0; 4])
    }),
    ("a len_header that is not 1c", 600, |file| {
        any_entry(file, |entry| entry[0x07] != 0x1c)
    }),
    ("PCO2", 250, |file| {
        !with_code(&file.bytes, b"PCO2").is_empty()
    }),
    ("a bad list", 60, |file| file.cues.is_err()),
];

#[test]
fn generated_files_have_cue_lists_of_each_form() {
    check_situations(&LISTS, generated(3000));
}

/// The waveforms of one sort: what is answered about the first, and of each the
/// width and the count, where its entries fill it.
struct Waves {
    first: Result<Waveform, Refusal>,
    filled: Vec<Option<(u32, u32)>>,
}

impl Waves {
    /// Those of sort 3 + `n`.
    fn of(file: &[u8], n: usize) -> Waves {
        let (sort, code) = SORTS[n];
        let sections = with_code(file, code).into_iter();
        let filled = sections.map(|section| {
            let number = |at: usize| {
                let bytes = file[section.place as usize + at..].get(..4)?;
                Some(u32::from_be_bytes(bytes.try_into().ok()?))
            };
            let (width, count) = (number(0x0c)?, number(0x10)?);
            let len = ENTRIES as u64 + u64::from(width) * u64::from(count);
            (len == u64::from(section.len_tag)).then_some((width, count))
        });
        Waves {
            first: waveform(file, sort),
            filled: filled.collect(),
        }
    }
}

const WAVES: [Situation<Waves>; 6] = [
    ("no waveform", 500, |waves| waves.filled.is_empty()),
    ("a good one", 250, |waves| waves.first.is_ok()),
    ("a bad one", 40, |waves| waves.first == plain(27)),
    ("more than 255 entries", 120, |waves| {
        waves.first.is_ok_and(|first| first.count > 255)
    }),
    ("a good one before another", 80, |waves| {
        waves.first.is_ok() && waves.filled.len() > 1
    }),
    ("a good one before one that is not filled", 25, |waves| {
        waves.first.is_ok() && waves.filled.contains(&None)
    }),
];

#[test]
fn generated_files_have_waveforms_of_each_form() {
    for n in 0..3 {
        let waves = generated(3000).map(|file| Waves::of(&file.bytes, n));
        check_situations(&WAVES, waves);
    }
    let no_entries: Situation<Waves> = ("no entries", 130, |waves| {
        waves.first.is_ok_and(|first| first.count == 0)
    });
    for n in [0, 2] {
        let waves = generated(3000).map(|file| Waves::of(&file.bytes, n));
        check_situations(&[no_entries], waves);
    }
}

const LARGE: [Situation<AnlzFile>; 4] = [
    ("a list of 65,535 cues", 2, |file| {
        let longest = 0x18 + 0x38 * 0xffff;
        lists(file).iter().any(|list| list.len_tag == longest)
    }),
    ("more cues than 65,535", 1, |file| {
        file.cues.as_ref().is_ok_and(|cues| cues.len() > 0xffff)
    }),
    ("entries of sort 3", 5, |file| {
        file.waves[0].is_ok_and(|wave| wave.count > 0xffff)
    }),
    ("entries of sort 5", 3, |file| {
        file.waves[2].is_ok_and(|wave| wave.count > 0xffff)
    }),
];

#[test]
fn generated_files_have_more_cues_and_entries_than_16_bits_count() {
    check_situations(&LARGE, generated(20_000));
}

/// How often files have each refusal of beats, of cues and of waveforms of any
/// sort, 0 for none.
fn refusals(files: impl Iterator<Item = Vec<u8>>) -> BTreeMap<(&'static str, u8), u32> {
    let mut met = BTreeMap::new();
    for file in files {
        let Found { beats, cues, waves } = Found::of(&file);
        *met.entry(("beats", beats.err().unwrap_or(0))).or_default() += 1;
        *met.entry(("cues", cues.err().unwrap_or(0))).or_default() += 1;
        for (wave, name) in waves.into_iter().zip(["sort 3", "sort 4", "sort 5"]) {
            *met.entry((name, wave.err().unwrap_or(0))).or_default() += 1;
        }
    }
    met
}

/// A generated file and what one kind of damage makes of it.
fn damaged(kind: Kind, seed: u64) -> (Vec<u8>, Vec<u8>) {
    let mut rng = Rng::new(seed);
    let before = random(&mut rng).bytes;
    let mut after = before.clone();
    apply(kind, &mut after, &mut rng);
    (before, after)
}

/// Kinds with what they bring: refusals of beats, of cues, and of waveforms of
/// each sort.
type Brings = (Kind, &'static [u8], &'static [u8], &'static [u8]);

const BRINGS: [Brings; 25] = [
    (Kind::FileCode, &[20], &[20], &[20]),
    (Kind::FileLenHeader, &[20, 21], &[20, 21], &[20, 21]),
    (Kind::LenFile, &[20], &[20], &[20]),
    (Kind::Cut, &[20, 21], &[20, 21], &[20, 21]),
    (Kind::Extended, &[20, 21], &[20, 21], &[20, 21]),
    (Kind::SectionCode, &[22], &[0], &[18]),
    (Kind::SectionLenHeader, &[21], &[21], &[21]),
    (Kind::LenTag, &[21], &[21, 26], &[21]),
    (Kind::LenBeats, &[23], &[0], &[0]),
    (Kind::BarPosition, &[24], &[0], &[0]),
    (Kind::GridLength, &[21, 23], &[21], &[21]),
    (Kind::CueListType, &[0], &[0, 26], &[0]),
    (Kind::CueCount, &[0], &[26], &[0]),
    (Kind::CueListLength, &[0, 21], &[21, 26], &[0, 21]),
    (Kind::CueCode, &[0], &[26], &[0]),
    (Kind::CueLength, &[0], &[26], &[0]),
    (Kind::CueKind, &[0], &[0, 26], &[0]),
    (Kind::CueNumbers, &[0], &[0], &[0]),
    (Kind::CueUnjudged, &[0], &[0], &[0]),
    (Kind::WaveWidth, &[0], &[0], &[27]),
    (Kind::WaveCount, &[0], &[0], &[27]),
    (Kind::WaveLength, &[0, 21], &[0, 21], &[21, 27]),
    (Kind::WaveEntries, &[0], &[0], &[0, 27]),
    (Kind::WaveInserted, &[0], &[0], &[0, 27]),
    (Kind::Bytes, &[20, 21, 24], &[20, 21, 26], &[20, 21]),
];

#[test]
fn each_kind_of_damage_gives_its_refusals() {
    assert_eq!(BRINGS.map(|(kind, ..)| kind), Kind::ALL);
    for (kind, beats, cues, waves) in BRINGS {
        let met = refusals((0..1000).map(|seed| damaged(kind, seed).1));
        let questions = [
            ("beats", beats),
            ("cues", cues),
            ("sort 3", waves),
            ("sort 4", waves),
            ("sort 5", waves),
        ];
        for (question, numbers) in questions {
            for number in numbers {
                let times = met.get(&(question, *number));
                assert!(times >= Some(&10), "{kind:?}, {question} {number}: {met:?}");
            }
        }
    }
}

/// Damage to fields of cue lists and cues changes nothing but cues, that to
/// fields of waveforms nothing but waveforms, and that to a grid nothing but
/// beats.
#[test]
fn fields_of_one_question_change_no_other_answer() {
    for kind in Kind::ALL {
        let (of_beats, of_cues, of_waves) = match kind {
            Kind::LenBeats | Kind::BarPosition => (true, false, false),
            Kind::CueListType
            | Kind::CueCount
            | Kind::CueCode
            | Kind::CueLength
            | Kind::CueKind
            | Kind::CueNumbers => (false, true, false),
            Kind::CueUnjudged => (false, false, false),
            Kind::WaveWidth | Kind::WaveCount => (false, false, true),
            _ => continue,
        };
        let mut changed = 0;
        for seed in 0..1000 {
            let (before, after) = damaged(kind, seed);
            changed += usize::from(before != after);
            let (before, after) = (Found::of(&before), Found::of(&after));
            assert!(of_beats || before.beats == after.beats, "{kind:?}, {seed}");
            assert!(of_cues || before.cues == after.cues, "{kind:?}, {seed}");
            assert!(of_waves || before.waves == after.waves, "{kind:?}, {seed}");
        }
        assert!(changed >= 300, "{kind:?}: {changed}");
    }
}

#[test]
fn numbers_of_cues_are_never_refused() {
    let mut changed = 0;
    for seed in 0..1000 {
        let (before, after) = damaged(Kind::CueNumbers, seed);
        let (before, after) = (Found::of(&before).cues, Found::of(&after).cues);
        assert_eq!(before.is_ok(), after.is_ok(), "seed {seed}");
        changed += usize::from(before != after);
    }
    assert!(changed >= 200, "{changed}");
}

/// Where damage turned good cues into bad ones: the list and the entry of the
/// first change, with how many there are.
struct Place {
    list: usize,
    lists: usize,
    entry: usize,
    entries: usize,
}

fn place_of_damage(kind: Kind, seed: u64) -> Option<Place> {
    let (before, after) = damaged(kind, seed);
    let is_spoiled = cues(&before).is_ok() && cues(&after) == plain(26);
    let lists = entries_by_list(&before);
    let changed = entries_by_list(&after);
    let list = (0..lists.len()).find(|list| lists[*list] != changed[*list])?;
    let (old, new) = (&lists[list], &changed[list]);
    let entry = (0..old.len()).find(|entry| old[*entry] != new[*entry])?;
    is_spoiled.then_some(Place {
        list,
        lists: lists.len(),
        entry,
        entries: old.len(),
    })
}

const PLACES: [Situation<Place>; 5] = [
    ("the first of several lists", 80, |place| {
        place.list == 0 && place.lists > 1
    }),
    ("a later list", 120, |place| place.list > 0),
    ("a list that is neither first nor last", 25, |place| {
        place.list > 0 && place.list + 1 < place.lists
    }),
    ("the first of several entries", 60, |place| {
        place.entry == 0 && place.entries > 1
    }),
    ("the last of several entries", 60, |place| {
        place.entry > 0 && place.entry + 1 == place.entries
    }),
];

#[test]
fn damage_meets_first_and_later_lists_and_entries() {
    for kind in [Kind::CueCode, Kind::CueLength, Kind::CueKind] {
        let places = (0..1000).filter_map(|seed| place_of_damage(kind, seed));
        check_situations(&PLACES, places);
    }
}

/// What damage of a list as a whole makes of a file with good cues, where they
/// become bad.
fn spoiled(kind: Kind, seed: u64) -> Option<Vec<u8>> {
    let (before, after) = damaged(kind, seed);
    let is_spoiled = cues(&before).is_ok() && cues(&after) == plain(26);
    is_spoiled.then_some(after)
}

#[test]
fn damage_meets_empty_lists_and_makes_short_ones() {
    let wrong_type: Situation<Vec<u8>> = ("the type of an empty list", 60, |file| {
        let lists = with_code(file, b"PCOB");
        let mut empty = lists.iter().filter(|list| is_empty(list));
        let kind = |list: &Section| &file[list.place as usize + 0x0c..][..4];
        empty.any(|list| kind(list) != [0; 4] && kind(list) != [0, 0, 0, 1])
    });
    let files = (0..1000).filter_map(|seed| spoiled(Kind::CueListType, seed));
    check_situations(&[wrong_type], files);
    let short: Situation<Vec<u8>> = ("a list shorter than 18", 80, |file| {
        let lists = with_code(file, b"PCOB");
        lists.iter().any(|list| list.len_tag < ENTRIES as u32)
    });
    let files = (0..1000).filter_map(|seed| spoiled(Kind::CueListLength, seed));
    check_situations(&[short], files);
}

/// Waveforms that are wrong though their entries fill them.
#[test]
fn damage_makes_waveforms_that_are_filled_and_wrong() {
    let of_sort_3: Situation<Waves> = ("width 2 for sort 3", 30, |waves| {
        matches!(waves.filled.first(), Some(Some((2, 1..))))
    });
    let of_sort_4: [Situation<Waves>; 3] = [
        ("1,199 entries", 15, |waves| {
            waves.filled.first() == Some(&Some((6, 1199)))
        }),
        ("1,201 entries", 15, |waves| {
            waves.filled.first() == Some(&Some((6, 1201)))
        }),
        ("width 2 for sort 4", 5, |waves| {
            waves.filled.first() == Some(&Some((2, 3600)))
        }),
    ];
    let of_sort_5: Situation<Waves> = ("width 1 for sort 5", 30, |waves| {
        matches!(waves.filled.first(), Some(Some((1, 1..))))
    });
    let situations = [&[of_sort_3][..], &of_sort_4, &[of_sort_5]];
    for (n, situations) in situations.into_iter().enumerate() {
        let files = (0..2000).map(|seed| damaged(Kind::WaveEntries, seed).1);
        check_situations(situations, files.map(|file| Waves::of(&file, n)));
    }
}

#[test]
fn damage_puts_bad_waveforms_before_and_behind() {
    let before_and_after = |n: usize, seed: u64| {
        let (before, after) = damaged(Kind::WaveInserted, seed);
        (Waves::of(&before, n), Waves::of(&after, n))
    };
    let situations: [Situation<(Waves, Waves)>; 2] = [
        ("a bad one before", 10, |(before, after)| {
            before.first.is_ok() && after.first == plain(27)
        }),
        ("a bad one behind", 25, |(before, after)| {
            let is_inserted = after.filled.len() > before.filled.len();
            is_inserted && before.first.is_ok() && after.first == before.first
        }),
    ];
    for n in 0..3 {
        check_situations(&situations, (0..1000).map(|seed| before_and_after(n, seed)));
    }
}

#[test]
fn every_refusal_is_reached_often() {
    let met = refusals((0..5000).map(|seed| anlz_file(&mut Rng::new(seed))));
    let questions: [(&str, &[u8]); 5] = [
        ("beats", &[0, 20, 21, 22, 23, 24]),
        ("cues", &[0, 20, 21, 26]),
        ("sort 3", &[0, 18, 20, 21, 27]),
        ("sort 4", &[0, 18, 20, 21, 27]),
        ("sort 5", &[0, 18, 20, 21, 27]),
    ];
    for (question, numbers) in questions {
        for number in numbers {
            let times = met.get(&(question, *number));
            assert!(times >= Some(&100), "{question} {number}: {met:?}");
        }
    }
}

/// The file with a right code and len_file.
fn with_right_header(file: &[u8]) -> Vec<u8> {
    let mut file = file.to_vec();
    let len_file = file.len() as u32;
    file[..4].copy_from_slice(b"PMAI");
    file[0x08..0x0c].copy_from_slice(&len_file.to_be_bytes());
    file
}

/// The file up to its first broken section.
fn without_broken_section(file: &[u8]) -> Vec<u8> {
    let lens = (12..file.len()).rev();
    let mut cut = lens.map(|len| with_right_header(&file[..len]));
    cut.find(|file| sections(file).is_ok()).unwrap_or_default()
}

/// What refuses a damaged file, and the answers once that is mended.
fn mended(seed: u64) -> Option<(u8, Found)> {
    let mut rng = Rng::new(seed);
    let file = random(&mut rng).bytes;
    let file = damage(&file, &mut rng);
    let number = sections(&file).err()?.number;
    let mended = match number {
        _ if !(12..20_000).contains(&file.len()) => return None,
        20 => with_right_header(&file),
        _ => without_broken_section(&file),
    };
    Some((number, Found::of(&mended)))
}

/// The order of refusals shows where a file has two faults.
const FAULTS: [Situation<(u8, Found)>; 4] = [
    ("20 and 26", 10, |(number, found)| {
        *number == 20 && found.cues == Err(26)
    }),
    ("20 and 27", 25, |(number, found)| {
        *number == 20 && found.waves.contains(&Err(27))
    }),
    ("21 and 26", 20, |(number, found)| {
        *number == 21 && found.cues == Err(26)
    }),
    ("21 and 27", 50, |(number, found)| {
        *number == 21 && found.waves.contains(&Err(27))
    }),
];

#[test]
fn damaged_files_have_several_faults() {
    check_situations(&FAULTS, (0..4000).filter_map(mended));
}
