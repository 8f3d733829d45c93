//! The programs as they are called from a shell; `grid` and `bench` have tests of their own, and so has what `demo` has
//! more.

use sarvoltig::{map_words, Intake, Table, Track, BLOCK};
use sarvoltig_reference::generate;
use sarvoltig_reference::schedule::{anlz_run, compared_run, Call};
use std::fs::{self, File};
use std::io::{self, Write};
use std::path::{Path, PathBuf};
use std::process::{Command, Output, Stdio};

fn stored_export() -> PathBuf {
    Path::new(env!("CARGO_MANIFEST_DIR")).join("data/demo.pdb")
}

fn demo(words: &[&str]) -> Output {
    let mut demo = Command::new(env!("CARGO_BIN_EXE_demo"));
    demo.args(words).output().expect("the demo runs")
}

/// A file of its own for a test.
fn written(name: &str, bytes: &[u8]) -> PathBuf {
    let path = Path::new(env!("CARGO_TARGET_TMPDIR")).join(name);
    fs::write(&path, bytes).expect("a file");
    path
}

#[test]
fn the_stored_export_is_the_generated_one() {
    let stored = fs::read(stored_export()).expect("a file");
    assert!(stored == generate::demo(), "`export` writes another file");
}

#[test]
fn the_demo_ends_with_the_playlists() {
    let path = stored_export();
    let path = path.to_str().expect("text");
    let usual = demo(&[path]);
    let harsh = demo(&[path, "--harsh", "--seed", "7"]);
    for output in [&usual, &harsh] {
        assert!(output.status.success());
        let text = String::from_utf8_lossy(&output.stdout);
        assert!(text.contains("54 of 54 blocks held"), "{text}");
        assert!(text.ends_with("   8  Last Bus Home\n"), "{text}");
    }
    let tail = |output: &Output| {
        let text = String::from_utf8_lossy(&output.stdout).into_owned();
        text[text.find("Saturday/").expect("the folder")..].to_string()
    };
    assert_eq!(tail(&usual), tail(&harsh));
}

/// What the demo prints of the stored export: the pictures, and the playlists.
fn demo_of_packets(words: &[&str]) -> (String, String) {
    let path = stored_export();
    let output = demo(&[&[path.to_str().expect("text")], words].concat());
    assert!(output.status.success());
    let text = String::from_utf8(output.stdout).expect("text");
    let (pictures, playlists) = text.split_once("\n\n").expect("the playlists");
    (pictures.to_string(), playlists.to_string())
}

#[test]
fn the_demo_takes_packets() {
    let (pictures, playlists) = demo_of_packets(&[]);
    assert!(!pictures.contains("packets"), "{pictures}");
    for most in ["1", "8", "64", "18446744073709551615"] {
        for words in [&["--packet", most][..], &["--packet", most, "--harsh"]] {
            let (pictures, listed) = demo_of_packets(words);
            assert!(pictures.contains("54 of 54 blocks held; 54 new"));
            assert_eq!(listed, playlists, "{words:?}");
        }
    }
    let (pictures, _) = demo_of_packets(&["--packet", "8"]);
    let last = pictures.lines().rfind(|line| line.contains("packets"));
    assert_eq!(last, Some("  packets: 7, refused whole: 0"));
    // one piece is cut, and the packet that it came with is sent again
    let (pictures, _) = demo_of_packets(&["--packet", "8", "--harsh"]);
    let last = pictures.lines().rfind(|line| line.contains("packets"));
    assert_eq!(last, Some("  packets: 10, refused whole: 1"));
}

#[test]
fn the_demo_says_which_option_is_wrong() {
    let wrong = [
        (&["--packet"][..], "--packet takes a number from 1 on\n"),
        (
            &["--packet", "0"],
            "--packet takes a number from 1 on, not \"0\"\n",
        ),
        (
            &["--packet", "-1"],
            "--packet takes a number from 1 on, not \"-1\"\n",
        ),
        (&["--late", "x"], "--late takes a number, not \"x\"\n"),
        (&["--packets", "8"], "\"--packets\" is no option\n"),
    ];
    for (words, line) in wrong {
        let output = demo(&[&["file"], words].concat());
        assert_eq!(output.status.code(), Some(2), "{words:?}");
        let error = String::from_utf8_lossy(&output.stderr);
        assert!(error.starts_with(&format!("demo: {line}usage: demo FILE ")));
    }
}

/// Where the rows of an export's tracks start.
fn tracks(file: &[u8]) -> Vec<usize> {
    let mut image = vec![0; file.len()];
    let mut map = vec![0; map_words(file.len() as u64)];
    let mut intake = Intake::open(&mut image, &mut map).expect("an allowed length");
    for (block, piece) in (0..).zip(file.chunks(BLOCK)) {
        intake.deliver(block, piece).expect("a new block");
    }
    let rows = intake.rows(Table::Tracks).expect("a good table");
    rows.iter().map(|row| row.place() as usize).collect()
}

/// The lines that the demo prints for tracks: an index, and what follows it.
fn track_lines(path: &Path) -> Vec<String> {
    let output = demo(&[path.to_str().expect("text")]);
    assert!(output.status.success());
    let text = String::from_utf8_lossy(&output.stdout);
    let tracks = text.split_once("\n\n").expect("the playlists").1.lines();
    tracks
        .filter_map(|line| line.trim_start().split_once("  "))
        .filter(|(index, _)| index.parse::<u32>().is_ok())
        .map(|(_, track)| track.to_string())
        .collect()
}

#[test]
fn the_demo_lists_the_stored_codes() {
    let lines = track_lines(&stored_export());
    let first = [
        "Morning Tram  SENFE0200001",
        "Copper Wire   FROBL0300002",
        "Slow Lantern  GBTRF0400003",
        "Tidal",
    ];
    assert_eq!(lines[..4], first);
    assert_eq!(lines[12], "Après la pluie  SENFE1400013");
}

/// Slot 0 of some tracks is made to name the string of another of their slots.
#[test]
fn the_demo_lists_ascii_texts_of_slot_0() {
    const OFFSETS: usize = 0x5e;
    const DATE_ADDED: usize = 10;
    let mut file = generate::demo();
    let tracks = tracks(&file);
    let mut name = |k: usize, slot: usize| {
        let offsets = tracks[k] + OFFSETS;
        file.copy_within(offsets + 2 * slot..offsets + 2 * slot + 2, offsets);
        offsets - OFFSETS + usize::from(file[offsets]) + (usize::from(file[offsets + 1]) << 8)
    };
    name(0, DATE_ADDED);
    let date = name(1, DATE_ADDED);
    name(7, Track::TITLE as usize);
    file[date + 1] = 0x1b;
    let lines = track_lines(&written("codes.pdb", &file));
    assert_eq!(lines[0], "Morning Tram  2024-05-11");
    assert_eq!(lines[1], "Copper Wire   \u{fffd}024-05-11");
    assert_eq!(lines[7], "Blå Timme");
}

#[test]
fn the_demo_refuses_what_is_no_export() {
    let cut = written("cut.pdb", &generate::demo()[..1000]);
    let refused = demo(&[cut.to_str().expect("text")]);
    assert_eq!(refused.status.code(), Some(1));
    assert!(String::from_utf8_lossy(&refused.stderr).contains("refused 1"));
    let zeros = written("zeros.pdb", &[0; 1024]);
    let refused = demo(&[zeros.to_str().expect("text")]);
    assert_eq!(refused.status.code(), Some(1));
    assert!(String::from_utf8_lossy(&refused.stderr).contains("refused 9"));
    assert_eq!(demo(&["no such file"]).status.code(), Some(1));
    assert_eq!(demo(&[]).status.code(), Some(2));
    assert_eq!(demo(&["file", "--late", "x"]).status.code(), Some(2));
}

/// Page 22 of the stored export, of 1,024 bytes, has the playlist tree. One byte of it is written over.
#[test]
fn the_demo_says_where_a_fault_is() {
    const PAGE: usize = 22 * 1024;
    const NAME_OF_ENTRY_3: usize = PAGE + 0x28 + 82 + 0x14;
    const OFFSET_OF_ENTRY_3: usize = PAGE + 1024 - 6 - 2 * 3;
    let faults = [
        (
            PAGE + 0x04,
            1,
            "refused 12: page 22 has another page's number\n",
        ),
        (PAGE + 0x08, 8, "refused 25: page 22 is of another table\n"),
        (
            OFFSET_OF_ENTRY_3 + 1,
            255,
            "refused 14: the row of entry 3 on page 22 does not fit\n",
        ),
        (
            NAME_OF_ENTRY_3,
            0,
            "refused 15: a string in the row of entry 3 on page 22 is malformed\n",
        ),
    ];
    for (at, byte, line) in faults {
        let mut file = generate::demo();
        file[at] = byte;
        let path = written("fault.pdb", &file);
        let refused = demo(&[path.to_str().expect("text")]);
        assert_eq!(refused.status.code(), Some(1));
        let text = String::from_utf8_lossy(&refused.stdout);
        assert!(text.contains(&format!("  PlaylistTree          {line}")));
        let error = String::from_utf8_lossy(&refused.stderr);
        assert!(error.ends_with(&format!("fault.pdb: {line}")), "{error}");
    }
}

#[test]
fn the_demo_ends_quietly_when_nobody_reads() {
    let mut demo = Command::new(env!("CARGO_BIN_EXE_demo"))
        .arg(stored_export())
        .stdout(Stdio::piped())
        .stderr(Stdio::piped())
        .spawn()
        .expect("the demo runs");
    drop(demo.stdout.take());
    let output = demo.wait_with_output().expect("an end");
    assert!(output.status.success());
    assert_eq!(String::from_utf8_lossy(&output.stderr), "");
}

/// What `replay` prints for these calls, and its exit status.
fn replay(calls: &str) -> (String, Option<i32>) {
    let mut replay = Command::new(env!("CARGO_BIN_EXE_replay"))
        .stdin(Stdio::piped())
        .stdout(Stdio::piped())
        .spawn()
        .expect("replay runs");
    let mut input = replay.stdin.take().expect("a pipe");
    input.write_all(calls.as_bytes()).expect("written");
    drop(input);
    let output = replay.wait_with_output().expect("an end");
    let text = String::from_utf8(output.stdout).expect("text");
    (text, output.status.code())
}

#[test]
fn replay_reads_standard_input() {
    let answers = "open 1 lent 83df2ef5\nline 3\n".to_string();
    assert_eq!(replay("lend 512 1\nopen 512 0\nbye"), (answers, Some(2)));
}

#[test]
fn replay_plays_packets() {
    let three = "00".repeat(3 * BLOCK);
    let calls = format!(
        "lend 512 1\nopen 512 0\npacket 0 4 0,0,1 {three}\npacket 7 2 0,0,1 {three}\n\
         packet 0 0 - -\npacket 0 1 0 00\npacket 0 1 0\n"
    );
    let answers = "\
open 1 lent 83df2ef5
held 1 lent fad0c4a6
refused 17 3 0 lent ecee918e
held 1 lent baedc3a2
refused 6 0 0 lent 87382b04
line 7
";
    assert_eq!(replay(&calls), (answers.to_string(), Some(2)));
}

#[test]
fn soak_takes_a_seed_and_a_time() {
    let soak = |words: &[&str]| {
        let mut soak = Command::new(env!("CARGO_BIN_EXE_soak"));
        soak.args(words).output().expect("soak runs")
    };
    let output = soak(&["3", "1"]);
    assert!(output.status.success());
    let text = String::from_utf8_lossy(&output.stdout);
    assert!(
        text.ends_with("runs from seed 3 on, no difference\n"),
        "{text}"
    );
    assert_eq!(soak(&["3"]).status.code(), Some(2));
}

#[test]
fn compare_takes_a_seed_and_a_number_of_runs() {
    let compare = |words: &[&str]| {
        let mut compare = Command::new(env!("CARGO_BIN_EXE_compare"));
        compare.args(words).output().expect("compare runs")
    };
    let output = compare(&["95", "10"]);
    assert!(output.status.success());
    let text = String::from_utf8_lossy(&output.stdout);
    assert_eq!(text, "10 runs from seed 95 on, no difference\n");
    let output = compare(&["--anlz", "7", "20"]);
    assert!(output.status.success());
    let text = String::from_utf8_lossy(&output.stdout);
    assert_eq!(text, "20 runs from seed 7 on, no difference\n");
    for words in [
        &["95"][..],
        &["95", "x"],
        &["95", "10", "1"],
        &["95", "--anlz", "1"],
    ] {
        assert_eq!(compare(words).status.code(), Some(2), "{words:?}");
    }
}

#[test]
fn calls_writes_the_lines_of_a_run() {
    let calls = |words: &[&str]| {
        let mut calls = Command::new(env!("CARGO_BIN_EXE_calls"));
        calls.args(words).output().expect("calls runs")
    };
    let runs = [
        (&["7"][..], compared_run(7)),
        (&["--anlz", "7"], anlz_run(7)),
    ];
    for (words, run) in runs {
        let output = calls(words);
        assert!(output.status.success());
        let text = String::from_utf8_lossy(&output.stdout);
        let lines: Vec<String> = run.iter().filter_map(Call::to_line).collect();
        assert!(text.lines().eq(&lines), "{words:?}");
    }
    for words in [&[][..], &["--anlz"], &["7", "8"]] {
        assert_eq!(calls(words).status.code(), Some(2), "{words:?}");
    }
}

/// A call of each program that prints something, with the output that it is given.
fn printing(stdout: impl Fn() -> Stdio) -> Vec<(&'static str, Output)> {
    let data = |name: &str| Path::new(env!("CARGO_MANIFEST_DIR")).join(name);
    let program = |name: &'static str, path: &str, words: &[&str]| {
        let mut command = Command::new(path);
        let calls = File::open(data("tests/replays/case_d.calls")).expect("a file");
        command.current_dir(data("data")).args(words);
        command.stdin(calls).stdout(stdout()).stderr(Stdio::piped());
        let child = command.spawn().expect("the program runs");
        (name, child.wait_with_output().expect("an end"))
    };
    let against = ["--against", "sh", "-c", "echo 1.5", "demo.pdb"];
    vec![
        program("demo", env!("CARGO_BIN_EXE_demo"), &["demo.pdb"]),
        program("grid", env!("CARGO_BIN_EXE_grid"), &["demo.anlz"]),
        program("replay", env!("CARGO_BIN_EXE_replay"), &[]),
        program("calls", env!("CARGO_BIN_EXE_calls"), &["7"]),
        program("export", env!("CARGO_BIN_EXE_export"), &[]),
        program("anlz", env!("CARGO_BIN_EXE_anlz"), &[]),
        program("compare", env!("CARGO_BIN_EXE_compare"), &["7", "1"]),
        program("soak", env!("CARGO_BIN_EXE_soak"), &["7", "0"]),
        program("bench", env!("CARGO_BIN_EXE_bench"), &against),
    ]
}

#[test]
fn programs_end_quietly_when_nobody_reads() {
    let closed = || {
        let (reader, writer) = io::pipe().expect("a pipe");
        drop(reader);
        writer.into()
    };
    for (name, output) in printing(closed) {
        assert_eq!(String::from_utf8_lossy(&output.stderr), "", "{name}");
        assert!(output.status.success(), "{name}");
    }
}

#[test]
fn programs_say_that_nothing_can_be_written() {
    let full = || File::create("/dev/full").expect("a device").into();
    for (name, output) in printing(full) {
        let error = String::from_utf8_lossy(&output.stderr);
        assert!(error.starts_with(name) && error.contains("No space left on device"));
        assert!(!output.status.success(), "{name}");
    }
}

#[test]
fn compare_counts_one_run_in_the_singular() {
    let mut compare = Command::new(env!("CARGO_BIN_EXE_compare"));
    let output = compare.args(["95", "1"]).output().expect("compare runs");
    let text = String::from_utf8_lossy(&output.stdout);
    assert_eq!(text, "1 run from seed 95 on, no difference\n");
}
