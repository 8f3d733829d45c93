//! `grid`, and what it prints of an ANLZ file.

use sarvoltig_reference::anlz;
use sarvoltig_tools::failure::Failure;
use sarvoltig_tools::grid::show;
use std::fs;
use std::path::{Path, PathBuf};
use std::process::{Command, Output, Stdio};
use std::time::{Duration, Instant};

fn stored_anlz() -> PathBuf {
    Path::new(env!("CARGO_MANIFEST_DIR")).join("data/demo.anlz")
}

/// A file of its own for a test.
fn written(name: &str, bytes: &[u8]) -> PathBuf {
    let path = Path::new(env!("CARGO_TARGET_TMPDIR")).join(name);
    fs::write(&path, bytes).expect("a file");
    path
}

fn grid(file: &Path, words: &[&str]) -> Output {
    let mut grid = Command::new(env!("CARGO_BIN_EXE_grid"));
    grid.arg(file).args(words).output().expect("grid runs")
}

/// What `grid` prints of a file, and why not all of it.
fn printed(file: &[u8]) -> (String, Option<Failure>) {
    printed_in(8, file)
}

/// The same with pictures of so many columns.
fn printed_in(width: usize, file: &[u8]) -> (String, Option<Failure>) {
    let mut out = Vec::new();
    let failure = show(file, width, &mut out, |_| ()).err();
    (String::from_utf8(out).expect("text"), failure)
}

/// What is printed of a file that is not refused, in pictures of so many columns.
fn shown(width: usize, file: &[u8]) -> String {
    let (text, failure) = printed_in(width, file);
    assert!(failure.is_none(), "{failure:?}");
    text
}

fn numbers<const COUNT: usize>(numbers: [u32; COUNT]) -> Vec<u8> {
    numbers.map(u32::to_be_bytes).concat()
}

/// A section with a header of 12 bytes.
fn section(code: &[u8; 4], body: &[u8]) -> Vec<u8> {
    let envelope = numbers([12, 12 + body.len() as u32]);
    [&code[..], &envelope, body].concat()
}

fn file(sections: &[Vec<u8>]) -> Vec<u8> {
    section(b"PMAI", &sections.concat())
}

/// A grid of beats of these bar positions, 20 ms apart.
fn beat_grid(bars: &[u8]) -> Vec<u8> {
    let mut body = numbers([0, 0x0080_0000, bars.len() as u32]);
    for (time, &bar) in (0..).step_by(20).zip(bars) {
        body.extend(numbers([u32::from(bar) << 16 | 12_500, time]));
    }
    section(b"PQTZ", &body)
}

/// An ANLZ file with a section of its own, a grid of beats of these bar positions, and what follows.
fn anlz_file(code: &[u8; 4], bars: &[u8], rest: &[u8]) -> Vec<u8> {
    file(&[section(code, &[]), beat_grid(bars), rest.to_vec()])
}

/// A cue list of a type: hot cue number, kind, time and loop time of each cue.
fn cue_list(kind: u32, cues: &[[u32; 4]]) -> Vec<u8> {
    let mut body = numbers([kind, cues.len() as u32, 0]);
    for &[hot_cue, kind, time, loop_time] in cues {
        body.extend(b"PCPT");
        body.extend(numbers([28, 56, hot_cue, 1, 0, 0, kind << 24]));
        body.extend(numbers([time, loop_time, 0, 0, 0, 0]));
    }
    section(b"PCOB", &body)
}

/// A waveform of entries of a width.
fn waveform(code: &[u8; 4], width: usize, entries: &[u8]) -> Vec<u8> {
    let count = entries.len() / width;
    let mut body = numbers([width as u32, count as u32, 0]);
    body.extend(entries);
    section(code, &body)
}

#[test]
fn the_stored_anlz_file_is_the_generated_one() {
    let stored = fs::read(stored_anlz()).expect("a file");
    assert!(
        stored == anlz::generate::demo(),
        "`anlz` writes another file"
    );
}

/// What `grid` prints of the stored file, up to the first beats.
const STORED: &str = "\
sections: 6
     place  len_header     len_tag  code
        28          16          76  PPTH
       104          16         768  PVBR
       872          24        2576  PQTZ
      3448          24         192  PCOB
      3640          24         136  PCOB
      3776          24       28074  PWV3

tempos: 2
 from beat        time     BPM       beats
         0    0:00.120   99.50         128
       128    1:17.305  104.00         191

cues: 5
       cue        time        loop        beat
     hot A    0:00.120                       0
     hot B    1:17.305    1:26.536         128
     hot C    2:29.986                     254
    memory    0:38.712                      64
    memory    2:50.767    2:55.382         290

waveform PWV3: 28050 entries, 3:07.000
            ▂▁▄▃▁   ▇▆▆▅▅▄▇▆▄   ▇▆▆▅▃
      ▁ ▄▃▇▆█████   █████████   █████▃▁
  ▁ ▅▄███████████▃▆▅█████████▁█▇███████
▆▄█████████████████████████████████████▇

beats: 319
first beat        time     BPM  bar positions
         0    0:00.120   99.50  1[hot A] 2 3 4
         4    0:02.532   99.50  1 2 3 4
";

#[test]
fn grid_prints_the_stored_file() {
    let output = grid(&stored_anlz(), &["--width", "40"]);
    assert!(output.status.success());
    let text = String::from_utf8_lossy(&output.stdout);
    let last = "       316    3:05.767  104.00  1 2 3\n";
    assert!(text.starts_with(STORED) && text.ends_with(last), "{text}");
    let bars = 319_usize.div_ceil(4);
    assert_eq!(text.lines().count(), STORED.lines().count() - 2 + bars);
    let marked: Vec<&str> = text.lines().filter(|line| line.contains('[')).collect();
    let expected = [
        "         0    0:00.120   99.50  1[hot A] 2 3 4",
        "        64    0:38.712   99.50  1[memory] 2 3 4",
        "       128    1:17.305  104.00  1[hot B to 1:26.536] 2 3 4",
        "       252    2:28.844  104.00  1 2 3[hot C -12 ms] 4",
        "       288    2:49.613  104.00  1 2 3[memory to 2:55.382] 4",
    ];
    assert_eq!(marked, expected);
}

#[test]
fn grid_shows_a_cue_at_the_beat_next_to_it() {
    let cues = [[1, 1, 9, 0], [26, 2, 10, 5], [27, 1, 11, 0], [0, 1, 60, 0]];
    let sections = [
        beat_grid(&[1, 2, 3]),
        cue_list(1, &cues),
        cue_list(0, &[[7, 2, u32::MAX, u32::MAX]]),
    ];
    let text = shown(8, &file(&sections));
    let end = "\
cues: 5
       cue        time        loop        beat
     hot A    0:00.009                       0
     hot Z    0:00.010    0:00.005           0
    hot 27    0:00.011                       1
     hot 0    0:00.060                       2
    memory  71582:47.295  71582:47.295           2

beats: 3
first beat        time     BPM  bar positions
         0    0:00.000  125.00  1[hot A +9 ms][hot Z +10 ms to 0:00.005] 2[hot 27 -9 ms] \
3[hot 0 +20 ms][memory +4294967255 ms to 71582:47.295]
";
    assert!(text.ends_with(end), "{text}");
}

/// Beats may stand in any order: their times count.
#[test]
fn grid_finds_the_beat_next_to_a_cue_by_its_time() {
    let mut grid = beat_grid(&[1, 2, 3]);
    let time_of_beat_1 = 0x18 + 8 + 7;
    grid[time_of_beat_1] = 100;
    let text = shown(8, &file(&[grid, cue_list(1, &[[1, 1, 90, 0]])]));
    assert!(text.ends_with("  1 2[hot A -10 ms] 3\n"), "{text}");
}

#[test]
fn grid_shows_cues_without_beats() {
    let list = cue_list(0, &[[0, 1, 60_500, 0]]);
    let text = shown(8, &file(&[beat_grid(&[]), list.clone()]));
    assert!(text.contains("    memory    1:00.500\n\nbeats: 0\n"));
    let (text, _) = printed(&file(&[list]));
    assert!(text.ends_with("    memory    1:00.500\n"), "{text}");
}

/// The lines of the picture of a file with this waveform.
fn picture(width: usize, waveform: Vec<u8>) -> Vec<String> {
    let text = shown(width, &file(&[beat_grid(&[]), waveform]));
    let (_, picture) = text.split_once("\nwaveform ").expect("a waveform");
    let lines = picture.lines().take(5);
    lines.map(str::to_string).collect()
}

#[test]
fn grid_draws_the_heights_of_a_waveform() {
    let heights = [0, 1, 8, 9, 16, 23, 24, 31];
    let detail = picture(8, waveform(b"PWV3", 1, &heights));
    let lines = [
        "PWV3: 8 entries, 0:00.053",
        "       ▇",
        "     ▇██",
        "   ▁████",
        " ▁██████",
    ];
    assert_eq!(detail, lines);
    // bits that are no part of the height: the high three, and in color the lowest two too
    let white = heights.map(|height| 0xe0 | height);
    assert_eq!(picture(9, waveform(b"PWV3", 1, &white))[1..], lines[1..]);
    for colors in [0, 0xff83] {
        let colored = heights.map(|height| (u16::from(height) << 2 | colors).to_be_bytes());
        let picture = picture(8, waveform(b"PWV5", 2, &colored.concat()));
        assert_eq!(picture[0], "PWV5: 8 entries, 0:00.053");
        assert_eq!(picture[1..], lines[1..]);
    }
}

#[test]
fn grid_draws_the_greatest_height_of_a_column() {
    let heights = [1, 7, 2, 3, 0, 0, 8];
    let bottom = |width| picture(width, waveform(b"PWV3", 1, &heights)).pop();
    assert_eq!(bottom(1).as_deref(), Some("█"));
    assert_eq!(bottom(2).as_deref(), Some("▇█"));
    assert_eq!(bottom(3).as_deref(), Some("▇▃█"));
    assert_eq!(bottom(7).as_deref(), Some("▁▇▂▃  █"));
    assert_eq!(bottom(80), bottom(7));
}

#[test]
fn grid_names_a_preview_in_color() {
    let preview = waveform(b"PWV4", 6, &[1; 7200]);
    let text = shown(80, &file(&[beat_grid(&[1]), preview]));
    assert!(text.contains("\nwaveform PWV4: 1200 entries, not shown\n\nbeats: 1\n"));
}

/// Each part that is refused is told, and the others are shown.
#[test]
fn grid_shows_what_is_not_refused() {
    let bad_list = cue_list(2, &[]);
    let bad_wave = section(b"PWV3", &[]);
    let good_list = cue_list(1, &[[1, 1, 0, 0]]);
    let good_wave = waveform(b"PWV5", 2, &[0, 4]);
    let told_beats = "\nbeats: refused 24: the bar position of a beat is not 1 to 4\n";
    let told_cues = "\ncues: refused 26: a cue list of the ANLZ file is malformed\n";
    let told_wave = "\nwaveform PWV3: refused 27: the waveform of the ANLZ file is malformed\n";
    let check = |sections: &[Vec<u8>], number, parts: &[&str]| {
        let (text, failure) = printed(&file(sections));
        assert!(
            matches!(failure, Some(Failure::Refused(refusal)) if refusal.number() == number),
            "{failure:?}"
        );
        for part in parts {
            assert!(text.contains(part), "{part} is not in {text}");
        }
    };
    let shown_wave = "\nwaveform PWV5: 1 entries, 0:00.006\n\n\n\n▁\n";
    let bar = "\n         0    0:00.000  125.00  1 2\n";
    let sections = [bad_list.clone(), beat_grid(&[1, 2]), good_wave.clone()];
    check(&sections, 26, &[told_cues, shown_wave, bar]);
    let sections = [good_list.clone(), beat_grid(&[5]), good_wave.clone()];
    check(
        &sections,
        24,
        &[told_beats, "     hot A    0:00.000\n", shown_wave],
    );
    let sections = [bad_wave.clone(), beat_grid(&[1, 2]), good_wave.clone()];
    check(&sections, 27, &[told_wave, "\ncues: 0\n", shown_wave, bar]);
    let sections = [bad_wave, bad_list, beat_grid(&[0]), good_wave];
    check(
        &sections,
        24,
        &[told_beats, told_cues, told_wave, shown_wave],
    );
}

#[test]
fn grid_starts_a_line_with_each_bar() {
    let (text, failure) = printed(&anlz_file(b"PPTH", &[3, 4, 2, 2, 3, 1, 4], &[]));
    assert!(failure.is_none());
    let bars = "\
         0    0:00.000  125.00      3 4
         2    0:00.040  125.00    2
         3    0:00.060  125.00    2 3
         5    0:00.100  125.00  1     4
";
    assert!(text.ends_with(bars), "{text}");
    let (text, failure) = printed(&anlz_file(b"PPTH", &[], &[]));
    assert!(failure.is_none() && text.contains("beats: 0\n"), "{text}");
}

#[test]
fn grid_waits_for_each_beat() {
    let file = anlz_file(b"PPTH", &[4, 1, 2, 2], &[]);
    let mut times = Vec::new();
    show(&file, 8, &mut Vec::new(), |time| times.push(time)).expect("a grid");
    assert_eq!(times, [0, 20, 40, 60].map(Duration::from_millis));
    let path = written("waits.anlz", &file);
    let start = Instant::now();
    let output = grid(&path, &["--pause"]);
    assert!(start.elapsed() >= Duration::from_millis(60));
    assert!(output.status.success());
    assert_eq!(String::from_utf8_lossy(&output.stdout), printed(&file).0);
}

#[test]
fn grid_prints_no_control_characters() {
    let file = anlz_file(b"\x1b[\x9b\\", &[1], &[]);
    let (text, _) = printed(&file);
    assert!(text.contains("  \\x1b[\\x9b\\\\\n"), "{text}");
    let output = grid(Path::new("\x1b[2J\u{9b}\n"), &[]);
    let error = String::from_utf8(output.stderr).expect("text");
    for text in [text, error] {
        assert!(!text.contains(|c: char| c.is_control() && c != '\n'));
    }
}

#[test]
fn grid_prints_the_sections_where_the_grid_is_refused() {
    let no_section = |file: &[u8], number| {
        let (text, failure) = printed(file);
        assert_eq!(text, "");
        assert!(matches!(failure, Some(Failure::Refused(refusal)) if refusal.number() == number));
    };
    let good = anlz_file(b"PPTH", &[1, 2], &[]);
    no_section(&good[..good.len() - 1], 20);
    no_section(&anlz_file(b"PPTH", &[1, 2], &[0; 11]), 21);
    let sections = |file: &[u8], number| {
        let (text, failure) = printed(file);
        assert!(text.starts_with("sections: 2\n") && text.lines().count() == 8);
        assert!(text.contains(&format!("\n\nbeats: refused {number}: ")));
        assert!(text.ends_with("\n\ncues: 0\n"));
        assert!(matches!(failure, Some(Failure::Refused(refusal)) if refusal.number() == number));
    };
    let written_over = |at: usize, byte: u8| {
        let mut file = good.clone();
        file[at] = byte;
        file
    };
    sections(&written_over(24, b'p'), 22);
    sections(&written_over(24 + 0x17, 3), 23);
    sections(&written_over(24 + 0x18 + 9, 5), 24);
}

#[test]
fn grid_refuses_what_is_no_anlz_file() {
    let export = Path::new(env!("CARGO_MANIFEST_DIR")).join("data/demo.pdb");
    let refused = grid(&export, &[]);
    assert_eq!(refused.status.code(), Some(1));
    assert_eq!(refused.stdout, b"");
    let error = String::from_utf8_lossy(&refused.stderr);
    assert!(
        error.ends_with("refused 20: the header of the ANLZ file is broken\n"),
        "{error}"
    );
    let missing = grid(Path::new("no such file"), &[]);
    assert_eq!(missing.status.code(), Some(2));
    let error = String::from_utf8_lossy(&missing.stderr);
    assert!(error.starts_with("grid: \"no such file\": "), "{error}");
}

#[test]
fn grid_takes_each_option_once() {
    let wrong = [
        &["--loud"][..],
        &["--pause", "--pause"],
        &["--pause", "x"],
        &["--width"],
        &["--width", "0"],
        &["--width", "-1"],
        &["--width", "x"],
        &["--width", "8", "--width", "8"],
    ];
    for words in wrong {
        let output = grid(&stored_anlz(), words);
        assert_eq!(output.status.code(), Some(2), "{words:?}");
        assert_eq!(output.stderr, b"usage: grid FILE [--pause] [--width N]\n");
    }
    let file = anlz_file(b"PPTH", &[1], &waveform(b"PWV3", 1, &[9; 100]));
    let path = written("options.anlz", &file);
    for (words, width) in [(&["--pause"][..], 80), (&["--width", "3", "--pause"], 3)] {
        let output = grid(&path, words);
        assert!(output.status.success());
        assert_eq!(String::from_utf8_lossy(&output.stdout), shown(width, &file));
    }
}

#[test]
fn grid_ends_quietly_when_nobody_reads() {
    let mut grid = Command::new(env!("CARGO_BIN_EXE_grid"))
        .arg(stored_anlz())
        .stdout(Stdio::piped())
        .stderr(Stdio::piped())
        .spawn()
        .expect("grid runs");
    drop(grid.stdout.take());
    let output = grid.wait_with_output().expect("an end");
    assert!(output.status.success());
    assert_eq!(String::from_utf8_lossy(&output.stderr), "");
}
