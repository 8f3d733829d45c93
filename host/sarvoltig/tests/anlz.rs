//! The Rust interface to ANLZ files: beats, cues and entries of waveforms one by one and by their iterators, refusals,
//! results of any length, long files.

use sarvoltig::raw::{self, DONE};
use sarvoltig::{Anlz, Beat, Cue, CueListType, CuePosition, Refusal, Wave, WaveEntry};
use sarvoltig_reference::anlz;
use sarvoltig_reference::anlz::generate::{self, AnlzFile};
use sarvoltig_reference::model;
use sarvoltig_reference::rng::Rng;
use sarvoltig_reference::schedule::anlz_file;

/// Beats of all bar positions, the smallest and the greatest numbers among them.
const BEATS: [Beat; 5] = [
    beat(4, 12_500, 25),
    beat(1, 0, 505),
    beat(2, u16::MAX, u32::MAX),
    beat(3, 256, 1 << 24),
    beat(1, 12_500, 0),
];

const fn beat(bar_position: u16, tempo: u16, time: u32) -> Beat {
    Beat {
        bar_position,
        tempo,
        time,
    }
}

/// A section: its envelope, then the bytes behind it.
fn section(code: &[u8; 4], len_header: u32, body: &[u8]) -> Vec<u8> {
    let len_tag = 12 + body.len() as u32;
    let lengths = [len_header, len_tag].map(u32::to_be_bytes).concat();
    [&code[..], &lengths, body].concat()
}

/// A beat grid.
fn grid(beats: &[Beat]) -> Vec<u8> {
    let mut body = [0, 0x0080_0000, beats.len() as u32]
        .map(u32::to_be_bytes)
        .concat();
    for beat in beats {
        body.extend(
            [beat.bar_position, beat.tempo]
                .map(u16::to_be_bytes)
                .concat(),
        );
        body.extend(beat.time.to_be_bytes());
    }
    section(b"PQTZ", 0x18, &body)
}

/// A file, whose envelope is that of a section.
fn file(sections: &[Vec<u8>]) -> Vec<u8> {
    section(b"PMAI", 12, &sections.concat())
}

#[test]
fn the_beats_of_generated_files_are_found() {
    for seed in 0..2_000 {
        let AnlzFile { bytes, beats, .. } = generate::random(&mut Rng::new(seed));
        let anlz = Anlz::new(&bytes);
        let found = anlz.iter().map(|beats| {
            let numbers = |found: Beat| (found.bar_position, found.tempo, found.time);
            beats.map(numbers).collect::<Vec<_>>()
        });
        let expected = beats.map(|beats| {
            let numbers = beats
                .iter()
                .map(|beat| (beat.bar_position, beat.tempo, beat.time));
            numbers.collect::<Vec<_>>()
        });
        let found = found.map_err(|refusal| refusal.number());
        assert_eq!(found, expected.map_err(u32::from), "seed {seed}");
    }
}

/// The cue as the reference has it.
fn as_of_reference(cue: Cue) -> anlz::Cue {
    anlz::Cue {
        list: match cue.list {
            CueListType::Memory => anlz::CueListType::Memory,
            CueListType::Hot => anlz::CueListType::Hot,
        },
        hot_cue: cue.hot_cue,
        position: match cue.position {
            CuePosition::Point { time } => anlz::CuePosition::Point { time },
            CuePosition::Loop { time, loop_time } => anlz::CuePosition::Loop { time, loop_time },
        },
    }
}

#[test]
fn the_cues_of_generated_files_are_found() {
    for seed in 0..2_000 {
        let AnlzFile { bytes, cues, .. } = generate::random(&mut Rng::new(seed));
        let anlz = Anlz::new(&bytes);
        let found = anlz.cues().map(|cues| cues.map(as_of_reference).collect());
        let found: Result<Vec<_>, u32> = found.map_err(Refusal::number);
        assert_eq!(found, cues.clone().map_err(u32::from), "seed {seed}");
        let past = cues.as_ref().map_or(0, |cues| cues.len() as u64);
        let refusal = cues.err().map_or(18, u32::from);
        assert_eq!(anlz.cue(past).map_err(Refusal::number), Err(refusal));
    }
}

/// The places and the widths of a waveform's entries, or the refusal's number.
fn places(anlz: Anlz, wave: Wave) -> Result<Vec<(usize, usize)>, u32> {
    let entries = anlz.wave_entries(wave).map_err(Refusal::number)?;
    Ok(entries
        .map(|entry| (entry.place, entry.bytes.len()))
        .collect())
}

#[test]
fn the_waveforms_of_generated_files_are_found() {
    for seed in 0..2_000 {
        let AnlzFile { bytes, waves, .. } = generate::random(&mut Rng::new(seed));
        for (wave, expected) in Wave::ALL.into_iter().zip(waves) {
            let expected = match expected {
                Ok(all) => Ok((0..all.count as usize)
                    .map(|k| (all.place as usize + wave.width() * k, wave.width()))
                    .collect()),
                Err(18) => Ok(Vec::new()),
                Err(number) => Err(u32::from(number)),
            };
            assert_eq!(places(Anlz::new(&bytes), wave), expected, "seed {seed}");
        }
    }
}

#[test]
fn bytes_that_do_not_count_change_no_answer() {
    let mut rng = Rng::new(5);
    for seed in 0..500 {
        let AnlzFile {
            mut bytes, free, ..
        } = generate::random(&mut Rng::new(seed));
        let answers = |bytes: &[u8]| {
            let anlz = Anlz::new(bytes);
            let beats = anlz.iter().map(Vec::from_iter);
            let cues = anlz.cues().map(Vec::from_iter);
            (beats, cues, Wave::ALL.map(|wave| places(anlz, wave)))
        };
        let before = answers(&bytes);
        for at in free.into_iter().flatten() {
            bytes[at] = rng.below(256) as u8;
        }
        assert_eq!(answers(&bytes), before, "seed {seed}");
    }
}

#[test]
fn beats_are_answered_by_their_number() {
    let file = file(&[section(b"PPTH", 16, &[0; 9]), grid(&BEATS), grid(&[])]);
    let anlz = Anlz::new(&file);
    assert_eq!(anlz.beats(), Ok(5));
    for (k, beat) in (0..).zip(BEATS) {
        assert_eq!(anlz.beat(k), Ok(beat));
    }
    for k in [5, 6, 1 << 32, 1 << 61, u64::MAX] {
        assert_eq!(anlz.beat(k), Err(Refusal::NoRow));
    }
}

#[test]
fn an_iterator_has_each_beat_once() {
    let file = file(&[grid(&BEATS)]);
    let beats = || Anlz::new(&file).iter().expect("a grid");
    assert_eq!(beats().len(), BEATS.len());
    assert!(beats().eq(BEATS));
    assert!(beats().rev().eq(BEATS.into_iter().rev()));
    let mut both_ends = beats();
    assert_eq!(both_ends.nth(1), Some(BEATS[1]));
    assert_eq!(both_ends.next_back(), Some(BEATS[4]));
    assert_eq!(both_ends.len(), 2);
    assert_eq!(both_ends.nth(2), None);
    assert_eq!((both_ends.next(), both_ends.next_back()), (None, None));
    assert_eq!(both_ends.len(), 0);
}

#[test]
fn an_iterator_outlives_what_made_it() {
    let file = file(&[grid(&BEATS)]);
    let beats = {
        let anlz = Anlz::new(&file);
        anlz.iter().expect("a grid")
    };
    assert_eq!(beats.count(), BEATS.len());
}

#[test]
fn each_refusal_has_its_name() {
    let good = file(&[grid(&BEATS)]);
    let mut count = good.clone();
    count[12 + 0x17] += 1;
    let refused = [
        (Vec::new(), Refusal::AnlzHeader),
        (good[..good.len() - 1].to_vec(), Refusal::AnlzHeader),
        ([&good[..], &[0]].concat(), Refusal::AnlzHeader),
        (file(&[grid(&BEATS), vec![0; 11]]), Refusal::Section),
        (file(&[section(b"PQTZ", 11, &[0; 12])]), Refusal::Section),
        (file(&[section(b"PQTZ", 25, &[0; 12])]), Refusal::Section),
        (file(&[]), Refusal::NoGrid),
        (file(&[section(b"pqtz", 12, &[0; 12])]), Refusal::NoGrid),
        (count, Refusal::GridLength),
        (file(&[section(b"PQTZ", 12, &[0; 11])]), Refusal::GridLength),
        (file(&[grid(&[beat(0, 1, 1)])]), Refusal::BarPosition),
        (
            file(&[grid(&[BEATS[0], beat(5, 1, 1)])]),
            Refusal::BarPosition,
        ),
    ];
    for (file, refusal) in refused {
        let anlz = Anlz::new(&file);
        assert_eq!(anlz.beats(), Err(refusal));
        assert_eq!(anlz.iter().err(), Some(refusal));
        for k in [0, u64::MAX] {
            assert_eq!(anlz.beat(k), Err(refusal));
        }
    }
}

/// Cues of both types, a point and a loop among them.
const CUES: [Cue; 3] = [
    Cue {
        list: CueListType::Hot,
        hot_cue: 2,
        position: CuePosition::Loop {
            time: u32::MAX,
            loop_time: 1,
        },
    },
    Cue {
        list: CueListType::Hot,
        hot_cue: 1,
        position: CuePosition::Point { time: 505 },
    },
    Cue {
        list: CueListType::Memory,
        hot_cue: u32::MAX,
        position: CuePosition::Point { time: 0 },
    },
];

/// The list of some cues.
fn cue_list(kind: u32, cues: &[Cue]) -> Vec<u8> {
    let mut body = [kind, cues.len() as u32, u32::MAX]
        .map(u32::to_be_bytes)
        .concat();
    for cue in cues {
        let (kind, time, loop_time) = match cue.position {
            CuePosition::Point { time } => (0x0100_03e8, time, u32::MAX),
            CuePosition::Loop { time, loop_time } => (0x0200_03e8, time, loop_time),
        };
        body.extend(b"PCPT");
        let numbers = [0x1c, 0x38, cue.hot_cue, 1, 0, 0, kind, time, loop_time, 0];
        body.extend(numbers.map(u32::to_be_bytes).concat());
        body.extend([0; 12]);
    }
    section(b"PCOB", 0x18, &body)
}

/// Two lists, another section between them.
fn cue_file() -> Vec<u8> {
    file(&[
        cue_list(1, &CUES[..2]),
        section(b"PCO2", 12, &[1; 5]),
        cue_list(0, &CUES[2..]),
    ])
}

#[test]
fn cues_are_answered_by_their_number() {
    let file = cue_file();
    let anlz = Anlz::new(&file);
    for (k, cue) in (0..).zip(CUES) {
        assert_eq!(anlz.cue(k), Ok(cue));
    }
    for k in [3, 4, 1 << 16, 1 << 32, u64::MAX] {
        assert_eq!(anlz.cue(k), Err(Refusal::NoRow));
    }
}

#[test]
fn an_iterator_has_each_cue_once() {
    let file = cue_file();
    let cues = || Anlz::new(&file).cues().expect("good lists");
    assert!(cues().eq(CUES));
    for n in 0..4 {
        assert_eq!(cues().nth(n), CUES.get(n).copied());
    }
    let mut from_the_second = cues();
    assert_eq!(from_the_second.nth(1), Some(CUES[1]));
    assert_eq!(from_the_second.next(), Some(CUES[2]));
    assert_eq!(from_the_second.next(), None);
    let mut past = cues();
    assert_eq!(past.nth(3), None);
    assert_eq!((past.next(), past.nth(1)), (None, None));
    assert_eq!(cues().nth(usize::MAX), None);
}

/// A waveform of these bytes.
fn waveform(wave: Wave, bytes: &[u8]) -> Vec<u8> {
    let code = format!("PWV{}", wave.sort());
    let count = bytes.len() / wave.width();
    let mut body = [wave.width() as u32, count as u32, 0]
        .map(u32::to_be_bytes)
        .concat();
    body.extend(bytes);
    section(code.as_bytes().try_into().expect("four"), 0x18, &body)
}

#[test]
fn entries_are_answered_by_their_place() {
    let bytes: Vec<u8> = (0..7200).map(|at| at as u8).collect();
    for wave in Wave::ALL {
        let others = Wave::ALL.into_iter().filter(|other| *other != wave);
        let others = others.map(|other| section(b"PWV9", 12, &waveform(other, &bytes)));
        let sections: Vec<_> = others.chain([waveform(wave, &bytes)]).collect();
        let file = file(&sections);
        let anlz = Anlz::new(&file);
        let start = file.len() - bytes.len();
        let count = bytes.len() / wave.width();
        let entry = |k: usize| WaveEntry {
            place: start + wave.width() * k,
            bytes: &bytes[wave.width() * k..][..wave.width()],
        };
        for k in [0, 1, count / 2, count - 1] {
            assert_eq!(anlz.wave(wave, k as u64), Ok(entry(k)));
        }
        for k in [count as u64, 1 << 32, u64::MAX] {
            assert_eq!(anlz.wave(wave, k), Err(Refusal::NoRow));
        }
        let mut entries = anlz.wave_entries(wave).expect("a good waveform");
        assert!(entries.clone().eq((0..count).map(entry)));
        assert_eq!(entries.nth(7), Some(entry(7)));
        assert_eq!(entries.next(), Some(entry(8)));
        assert_eq!(entries.nth(count), None);
        assert_eq!(entries.next(), None);
    }
}

#[test]
fn cues_and_waveforms_that_are_refused() {
    let no_cue = |file: &[u8], refusal| {
        let anlz = Anlz::new(file);
        assert_eq!(anlz.cues().err(), Some(refusal));
        for k in [0, u64::MAX] {
            assert_eq!(anlz.cue(k), Err(refusal));
        }
    };
    let no_wave = |file: &[u8], refusal| {
        let anlz = Anlz::new(file);
        assert_eq!(anlz.wave_entries(Wave::Detail).err(), Some(refusal));
        for k in [0, u64::MAX] {
            assert_eq!(anlz.wave(Wave::Detail, k), Err(refusal));
        }
    };
    let bad_wave = section(b"PWV3", 12, &[]);
    let bad = file(&[cue_list(2, &[]), bad_wave.clone(), grid(&BEATS)]);
    no_cue(&bad, Refusal::CueList);
    no_wave(&bad, Refusal::Waveform);
    assert_eq!(Anlz::new(&bad).beats(), Ok(5));
    let broken = file(&[cue_list(2, &[]), bad_wave, vec![0; 11]]);
    no_cue(&broken, Refusal::Section);
    no_wave(&broken, Refusal::Section);
    no_cue(&bad[..bad.len() - 1], Refusal::AnlzHeader);
    no_wave(&bad[..bad.len() - 1], Refusal::AnlzHeader);
}

/// The code and the words of a result of this length.
fn with_room(room: usize, call: impl Fn(&mut [u64]) -> u32) -> (u32, Vec<u64>) {
    let mut result = vec![7; room];
    (call(&mut result), result)
}

/// What is answered into a result of this length: as many values as it has room for, and its other words stay.
fn cut((code, values): &(u32, Vec<u64>), room: usize) -> (u32, Vec<u64>) {
    let mut result = values[..room.min(values.len())].to_vec();
    result.resize(room, 7);
    (*code, result)
}

/// The values of a beat.
fn numbers(beat: anlz::Beat) -> Vec<u64> {
    vec![
        beat.bar_position.into(),
        beat.tempo.into(),
        beat.time.into(),
    ]
}

#[test]
fn results_of_any_length() {
    for seed in 0..500 {
        let file = anlz_file(&mut Rng::new(seed));
        let grid = anlz::grid(&file);
        let (counted, found) = match &grid {
            Ok(beats) => (
                (DONE, vec![beats.len() as u64]),
                beats
                    .first()
                    .map_or((18, vec![0, 0]), |beat| (DONE, numbers(*beat))),
            ),
            Err(refusal) => {
                let refused = (refusal.number.into(), vec![0, 0]);
                (refused.clone(), refused)
            }
        };
        for room in 0..6 {
            let answer = with_room(room, |result| raw::beats(&file, result));
            assert_eq!(answer, cut(&counted, room), "seed {seed}, room {room}");
            let answer = with_room(room, |result| raw::beat(&file, 0, result));
            assert_eq!(answer, cut(&found, room), "seed {seed}, room {room}");
        }
    }
}

/// The code and the values of an answer.
fn coded<T>(answer: Result<T, model::Refusal>, values: impl Fn(T) -> Vec<u64>) -> (u32, Vec<u64>) {
    match answer {
        Ok(found) => (DONE, values(found)),
        Err(refusal) => (refusal.number.into(), vec![refusal.value, refusal.entry]),
    }
}

/// The values of a cue: four, five of a loop.
fn cue_numbers(cue: anlz::Cue) -> Vec<u64> {
    let (list, hot_cue) = (u64::from(cue.list.number()), u64::from(cue.hot_cue));
    match cue.position {
        anlz::CuePosition::Point { time } => vec![list, hot_cue, 1, time.into()],
        anlz::CuePosition::Loop { time, loop_time } => {
            vec![list, hot_cue, 2, time.into(), loop_time.into()]
        }
    }
}

#[test]
fn results_of_cues_and_entries_of_any_length() {
    for seed in 0..500 {
        let file = anlz_file(&mut Rng::new(seed));
        let cue = coded(anlz::cue(&file, 1), cue_numbers);
        for room in 0..8 {
            let answer = with_room(room, |result| raw::cue(&file, 1, result));
            assert_eq!(answer, cut(&cue, room), "seed {seed}, room {room}");
        }
        for sort in [2, 3, 4, 5] {
            let entry = anlz::wave(&file, sort, 1);
            let entry = coded(entry, |entry| vec![entry.place, entry.width.into()]);
            for room in 0..5 {
                let answer = with_room(room, |result| raw::wave(&file, sort, 1, result));
                assert_eq!(answer, cut(&entry, room), "seed {seed}, room {room}");
            }
        }
    }
}

/// Questions about zeros of this length behind a file header of 12 bytes and the envelope of a section. The number of
/// beats is refused with this number; where that is 22, a cue and an entry are refused with 18, and else with the same.
fn check_long(file: &mut [u8], len_file: u32, len_tag: u32, number: u32) {
    file[..24].copy_from_slice(b"PMAI\0\0\0\x0c....????\0\0\0\x0c....");
    file[0x08..0x0c].copy_from_slice(&len_file.to_be_bytes());
    file[0x14..0x18].copy_from_slice(&len_tag.to_be_bytes());
    let anlz = Anlz::new(file);
    let absent = if number == 22 { 18 } else { number };
    let found = (
        anlz.beats().map_err(Refusal::number),
        anlz.cue(0).map_err(Refusal::number),
        anlz.wave(Wave::Detail, 0).map_err(Refusal::number),
    );
    assert_eq!(found, (Err(number), Err(absent), Err(absent)), "{len_tag}");
    let number_of = |refusal: model::Refusal| u32::from(refusal.number);
    assert_eq!(found.0, anlz::beats(file).map_err(number_of), "{len_tag}");
    let refused = Some(absent);
    assert_eq!(anlz::cue(file, 0).map_err(number_of).err(), refused);
    assert_eq!(anlz::wave(file, 3, 0).map_err(number_of).err(), refused);
}

/// Lengths and places near 2^32. Of the zeros almost none are read, so that they take no memory.
#[test]
fn files_of_32_bits_and_longer() {
    const LONGEST: usize = u32::MAX as usize;
    let len = LONGEST + 1 + 0x24;
    let mut file = vec![0; len];
    for longer in [LONGEST + 1, LONGEST + 1 + 12, LONGEST + 1 + 0x24] {
        check_long(&mut file[..longer], longer as u32, 12, 20);
        check_long(&mut file[..longer], u32::MAX, u32::MAX - 12, 20);
    }
    let file = &mut file[..LONGEST];
    let rest = u32::MAX - 12;
    check_long(file, u32::MAX, rest, 22);
    for len_tag in [u32::MAX, rest + 2, rest + 1, rest - 1, rest - 11, rest - 12] {
        check_long(file, u32::MAX, len_tag, 21);
    }
}

/// Entry `k` of a waveform that fills a file of 2^32 - 1 bytes, with this number of entries, as the library and the
/// reference answer it: its place, or the refusal's number.
fn entry_of_long(file: &mut [u8], wave: Wave, count: u32, k: u64) -> Result<usize, u32> {
    const HEADER: usize = 13;
    let len_tag = u32::MAX - HEADER as u32;
    file[..HEADER].copy_from_slice(b"PMAI\0\0\0\x0d\xff\xff\xff\xff\0");
    let tag = &mut file[HEADER..];
    tag[..4].copy_from_slice(format!("PWV{}", wave.sort()).as_bytes());
    let numbers = [0x18, len_tag, wave.width() as u32, count];
    tag[4..0x14].copy_from_slice(&numbers.map(u32::to_be_bytes).concat());
    let found = Anlz::new(file).wave(wave, k);
    let found = found.map(|entry| entry.place).map_err(Refusal::number);
    let expected = anlz::wave(file, wave.sort(), k);
    let expected = expected.map(|entry| entry.place as usize);
    assert_eq!(found, expected.map_err(|refusal| refusal.number.into()));
    found
}

/// Of the entries, zeros, none is read.
#[test]
fn waveforms_of_32_bits() {
    const LONGEST: usize = u32::MAX as usize;
    let mut file = vec![0; LONGEST];
    let bytes = u32::MAX - 13 - 0x18;
    for (wave, count) in [(Wave::Detail, bytes), (Wave::ColorDetail, bytes / 2)] {
        let mut entry = |count, k| entry_of_long(&mut file, wave, count, k);
        let last = u64::from(count) - 1;
        assert_eq!(entry(count, 0), Ok(13 + 0x18));
        assert_eq!(entry(count, last), Ok(LONGEST - wave.width()));
        assert_eq!(entry(count, last + 1), Err(18));
        for wrong in [count - 1, count + 1, count ^ 1 << 31] {
            assert_eq!(entry(wrong, 0), Err(27));
        }
    }
    assert_eq!(
        entry_of_long(&mut file, Wave::ColorPreview, 1200, 0),
        Err(27)
    );
}
