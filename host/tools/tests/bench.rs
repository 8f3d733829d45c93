//! `bench` as it is called from a shell; what it measures is not tested.

use std::fs;
use std::path::{Path, PathBuf};
use std::process::{Command, Output};

fn stored_export() -> PathBuf {
    Path::new(env!("CARGO_MANIFEST_DIR")).join("data/demo.pdb")
}

fn bench(words: &[&str]) -> Output {
    let mut bench = Command::new(env!("CARGO_BIN_EXE_bench"));
    bench.args(words).output().expect("bench runs")
}

/// A file of its own for a test.
fn written(name: &str, text: &str) -> String {
    let path = Path::new(env!("CARGO_TARGET_TMPDIR")).join(name);
    fs::write(&path, text).expect("a file");
    path.to_str().expect("text").to_string()
}

/// The reading of a file against a shell script.
fn against(script: &str, file: &str) -> Output {
    bench(&["--against", "sh", script, "--quiet", file])
}

#[test]
fn bench_reads_against_another_program() {
    let log = written("against.log", "");
    let script = format!("echo \"$@\" >> '{log}'\necho 12.5\n");
    let script = written("against.sh", &script);
    let export = stored_export();
    let export = export.to_str().expect("text");
    let output = against(&script, export);
    assert!(output.status.success());
    let text = String::from_utf8(output.stdout).expect("text");
    let [head, rule, line] = text.lines().collect::<Vec<_>>()[..] else {
        panic!("{text}")
    };
    assert_eq!(head, "| What | Library, ms | Other, ms | Ratio |");
    assert_eq!(rule, "|---|---|---|---|");
    let cells: Vec<&str> = line.split(" | ").collect();
    let what = format!("| reading \"{export}\", 94 rows, against \"sh\"");
    assert_eq!([cells[0], cells[2]], [&what, "12.500"]);
    let library: f64 = cells[1].parse().expect("a number");
    let ratio: f64 = cells[3].trim_end_matches(" |").parse().expect("a number");
    assert!((ratio - library / 12.5).abs() < 0.006, "{line}");
    let words = format!("--quiet {export}\n");
    assert_eq!(fs::read_to_string(log).expect("a file"), words.repeat(5));
}

/// The message that a reading ends with.
fn refused(output: &Output) -> String {
    assert_eq!(output.status.code(), Some(1));
    assert!(output.stdout.is_empty());
    String::from_utf8(output.stderr.clone()).expect("text")
}

#[test]
fn bench_says_what_another_program_did_wrong() {
    let export = stored_export();
    let export = export.to_str().expect("text");
    let wrong = [
        "", "soon", "12 ms", "1\n2", "-3", "0", "nan", "inf", "1e300",
    ];
    for printed in wrong {
        let script = written("wrong.sh", &format!("printf '%s\\n' '{printed}'\n"));
        let error = refused(&against(&script, export));
        let line = format!("{printed}\n");
        let told = format!("printed {line:?}, not one line with a number of milliseconds");
        assert_eq!(error, format!("bench: \"sh\" {told}\n"));
    }
    let fails = written("fails.sh", "echo 12.5\necho 'no such key' >&2\nexit 3\n");
    let error = refused(&against(&fails, export));
    assert_eq!(error, "no such key\nbench: \"sh\": exit status: 3\n");
    let error = refused(&bench(&["--against", "/no/such/program", export]));
    assert!(error.starts_with("bench: \"/no/such/program\": No such file"));
}

#[test]
fn bench_says_why_a_file_is_not_read() {
    let script = written("good.sh", "echo 12.5\n");
    let error = refused(&against(&script, "/no/such/file"));
    assert!(error.starts_with("bench: \"/no/such/file\": No such file"));
    let short = written("short.pdb", "no export");
    let error = refused(&against(&script, &short));
    assert!(error.contains("short.pdb\": refused 1: "));
    let zeros = written("zeros_of_bench.pdb", &"\0".repeat(512));
    let error = refused(&against(&script, &zeros));
    assert!(error.contains("zeros_of_bench.pdb\": refused 9: "));
}

#[test]
fn bench_takes_no_other_words() {
    for words in [
        &["--hostil"][..],
        &["--hostile", "1"],
        &["--against"],
        &["--against", "sh"],
        &["demo.pdb"],
    ] {
        let output = bench(words);
        assert_eq!(output.status.code(), Some(2), "{words:?}");
        let error = String::from_utf8_lossy(&output.stderr);
        assert!(error.starts_with("usage: bench [--hostile | --against "));
    }
}
