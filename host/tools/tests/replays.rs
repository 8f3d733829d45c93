//! Stored replays: the library gives the stored answers, and so does the reference.

use sarvoltig_reference::schedule::{anlz_run, random_run, replay, Call};
use sarvoltig_tools::replay::{play, Ending};
use std::fs;
use std::path::Path;

/// What the library prints, and its exit status.
fn played(calls: &str) -> (String, u8) {
    let mut output = Vec::new();
    let ending = play(calls.as_bytes(), &mut output).expect("a buffer takes all");
    let status = match ending {
        Ending::Played => 0,
        Ending::Line(_) => 2,
        Ending::Failed(..) => 1,
    };
    (String::from_utf8(output).expect("text"), status)
}

#[test]
fn stored_runs_have_their_answers() {
    let folder = Path::new(env!("CARGO_MANIFEST_DIR")).join("tests/replays");
    let mut count = 0;
    for entry in fs::read_dir(folder).expect("the folder is there") {
        let path = entry.expect("an entry").path();
        if path.extension().is_some_and(|e| e == "calls") {
            let calls = fs::read_to_string(&path).expect("calls");
            let answers = fs::read_to_string(path.with_extension("answers")).expect("answers");
            let (output, status) = played(&calls);
            assert_eq!(output, answers, "{}", path.display());
            let expected = replay(&calls);
            assert_eq!(
                (output, status),
                (expected.output, expected.status),
                "{}",
                path.display()
            );
            count += 1;
        }
    }
    assert!(count >= 34, "{count} stored runs");
}

/// The run replays as the reference replays it.
fn check_replay(run: &[Call], seed: u64) {
    let lines: Vec<String> = run.iter().filter_map(Call::to_line).collect();
    let calls = lines.join("\n") + "\n";
    let expected = replay(&calls);
    assert_eq!(
        played(&calls),
        (expected.output, expected.status),
        "seed {seed}"
    );
}

#[test]
fn random_runs_replay_as_the_reference_does() {
    for seed in 1_000_000..1_000_100 {
        check_replay(&random_run(seed), seed);
    }
}

#[test]
fn anlz_runs_replay_as_the_reference_does() {
    for seed in 1_000_000..1_000_500 {
        check_replay(&anlz_run(seed), seed);
    }
}

#[test]
fn buffers_that_cannot_be_had_end_the_run() {
    let calls = format!("lend {} 1\n", u64::MAX);
    assert_eq!(played(&calls), (String::new(), 1));
}
