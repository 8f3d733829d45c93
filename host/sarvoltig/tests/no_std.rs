//! The crate needs no standard library, and without the feature `alloc` no allocator: the program of `host/no_std`,
//! which has neither, is linked and runs.

use std::path::Path;
use std::process::Command;

/// Builds the program with some features and runs it.
fn printed(features: &str) -> String {
    let manifest = concat!(env!("CARGO_MANIFEST_DIR"), "/../no_std/Cargo.toml");
    let target_dir = Path::new(env!("CARGO_TARGET_TMPDIR")).join("no_std");
    let output = Command::new(env!("CARGO"))
        .args(["run", "--quiet", "--offline", "--manifest-path", manifest])
        .args(["--features", features, "--target-dir"])
        .arg(target_dir)
        .output()
        .expect("cargo");
    let errors = String::from_utf8_lossy(&output.stderr);
    assert!(output.status.success(), "{errors}");
    String::from_utf8(output.stdout).expect("names")
}

#[test]
fn a_program_without_the_standard_library_reads_an_export() {
    let names = "Saturday\nWarm-up\nPeak\nClosing\n";
    assert_eq!(printed(""), names);
    assert_eq!(printed("alloc"), names);
}
