//! Rust and C have the same constants, the same size of the map and the same words for refusals: those of include/, as
//! the C compiler has them.

use sarvoltig::raw::{self, DONE, NONE, REFUSED_MAX, RESULT, SAME, WAITING};
use sarvoltig::{map_words, version, Intake, Refusal, Table, Track, Wave, BLOCK, FILE_MAX};
use std::collections::{BTreeMap, BTreeSet};
use std::path::Path;
use std::process::Command;
use std::{env, fs};

const INCLUDE: &str = concat!(env!("CARGO_MANIFEST_DIR"), "/../../include");

type Constants = BTreeMap<String, u64>;

/// What a C program of these statements prints. No two tests have the same name for theirs.
fn c_output(name: &str, prints: &str) -> String {
    let program = Path::new(env!("CARGO_TARGET_TMPDIR")).join(name);
    let source = program.with_extension("c");
    let headers = "#include <stdio.h>\n#include \"sarvoltig_text.h\"\n";
    let text = format!("{headers}int main(void)\n{{\n{prints}return 0;\n}}\n");
    fs::write(&source, text).expect("a file");
    let compiled = Command::new(env::var("CC").unwrap_or("gcc".to_string()))
        .args([
            "-std=c99", "-Wall", "-Wextra", "-Werror", "-I", INCLUDE, "-o",
        ])
        .args([&program, &source])
        .status();
    assert!(compiled.expect("a compiler").success());
    let printed = Command::new(&program).output().expect("a program").stdout;
    String::from_utf8(printed).expect("a text")
}

/// The values of C expressions.
fn c_values(name: &str, expressions: &[String]) -> Vec<u64> {
    let print = |expression| format!("printf(\"%llu\\n\", (unsigned long long)({expression}));\n");
    let prints: String = expressions.iter().map(print).collect();
    c_output(name, &prints)
        .lines()
        .map(|line| line.parse().expect("a number"))
        .collect()
}

/// The constants of the header whose names begin so, without that. The names of version 0.1 stand behind them.
fn c_constants(prefix: &str) -> Constants {
    let header = fs::read_to_string(Path::new(INCLUDE).join("sarvoltig.h")).expect("the header");
    let today = header
        .split_once("The names of version 0.1")
        .expect("both")
        .0;
    let words = today.split(|c: char| !c.is_ascii_alphanumeric() && c != '_');
    let names: BTreeSet<&str> = words
        .filter_map(|word| word.strip_prefix(prefix))
        .filter(|name| !name.is_empty())
        .collect();
    let expressions: Vec<String> = names.iter().map(|name| format!("{prefix}{name}")).collect();
    let names = names.into_iter().map(str::to_string);
    names.zip(c_values(prefix, &expressions)).collect()
}

fn constants<const N: usize>(pairs: [(&str, u64); N]) -> Constants {
    pairs.map(|(name, value)| (name.to_string(), value)).into()
}

/// The name of a variant, as `PAGE_LINK` for `PageLink(7)`.
fn c_name(variant: &impl std::fmt::Debug) -> String {
    let words = format!("{variant:?}");
    let name = words.split(|c: char| !c.is_ascii_alphanumeric()).next();
    let mut c_name = String::new();
    for c in name.expect("a name").chars() {
        if c.is_ascii_uppercase() && !c_name.is_empty() {
            c_name.push('_');
        }
        c_name.push(c.to_ascii_uppercase());
    }
    c_name
}

/// Constants of a type with the names that they have there.
macro_rules! named {
    ($type:ident, $($name:ident),*) => {
        constants([$((stringify!($name), $type::$name)),*])
    };
}

#[test]
fn slots_are_those_of_the_header() {
    let mut slots = named!(
        Track,
        ISRC,
        TEXTER,
        UNKNOWN_STRING_2,
        UNKNOWN_STRING_3,
        UNKNOWN_STRING_4,
        MESSAGE,
        KUVO_PUBLIC,
        AUTOLOAD_HOTCUES,
        UNKNOWN_STRING_5,
        UNKNOWN_STRING_6,
        DATE_ADDED,
        RELEASE_DATE,
        MIX_NAME,
        UNKNOWN_STRING_7,
        ANALYZE_PATH,
        ANALYZE_DATE,
        COMMENT,
        TITLE,
        UNKNOWN_STRING_8,
        FILENAME,
        FILE_PATH
    );
    let mut numbers: Vec<u64> = slots.values().copied().collect();
    numbers.sort_unstable();
    assert!(numbers.into_iter().eq(0..21));
    slots.extend(named!(Table, NAME));
    assert_eq!(slots, c_constants("SARVOLTIG_SLOT_"));
}

#[test]
fn tables_are_those_of_the_header() {
    let tables = Table::ALL.map(|table| (c_name(&table), table.number().into()));
    assert_eq!(Constants::from(tables), c_constants("SARVOLTIG_TABLE_"));
}

#[test]
fn sorts_of_waveforms_are_those_of_the_header() {
    let sorts = Wave::ALL.map(|wave| (c_name(&wave), wave.sort()));
    assert_eq!(Constants::from(sorts), c_constants("SARVOLTIG_WAVE_SORT_"));
}

#[test]
fn refusals_are_those_of_the_header() {
    let refusals = (1..=REFUSED_MAX).map(|number| Refusal::new(number, 0, 0));
    let known = refusals.filter(|refusal| !matches!(refusal, Refusal::Other { .. }));
    let known = known.map(|refusal| (c_name(&refusal), refusal.number().into()));
    assert_eq!(
        known.collect::<Constants>(),
        c_constants("SARVOLTIG_REFUSED_")
    );
}

/// The words of a refusal, without those that name its page, its entry or the length of a list.
fn words(refusal: Refusal) -> String {
    let named = [
        ("the link of page 7", "a link"),
        ("page 7 ", "a page "),
        ("the row index of a page ", "a row index "),
        ("the row of entry 3 on a page ", "a row "),
        (
            "a string in a row is malformed",
            "a string is malformed or outside its page",
        ),
        (", it needs at least 7 elements", ""),
    ];
    named
        .iter()
        .fold(refusal.to_string(), |words, (name, other)| {
            words.replace(name, other)
        })
}

#[test]
fn refusals_have_the_words_of_the_header() {
    let print = |number| format!("puts(sarvoltig_refusal_text({number}));\n");
    let printed = c_output("refusal_texts", &(1..=27).map(print).collect::<String>());
    let texts: Vec<&str> = printed.lines().collect();
    assert_eq!(texts.len(), 27);
    for (number, text) in (1..).zip(texts) {
        assert_eq!(words(Refusal::new(number, 7, 3)), text, "{number}");
    }
}

#[test]
fn codes_and_sizes_are_those_of_the_header() {
    let codes = [
        ("DONE", DONE),
        ("REFUSED_MAX", REFUSED_MAX),
        ("SAME", SAME),
        ("WAITING", WAITING),
        ("NONE", NONE),
    ];
    let codes = constants(codes.map(|(name, code)| (name, code.into())));
    assert_eq!(codes, c_constants("SARVOLTIG_CODE_"));
    let names = ["BLOCK", "FILE_MAX", "RESULT"].map(|name| format!("SARVOLTIG_SIZE_{name}"));
    let sizes = [BLOCK as u64, FILE_MAX, RESULT as u64];
    assert_eq!(c_values("sizes", &names), sizes);
}

#[test]
fn library_header_and_crate_have_one_version() {
    assert_eq!(version().to_string(), env!("CARGO_PKG_VERSION"));
    let of_header = c_values("version", &["SARVOLTIG_VERSION".to_string()]);
    assert_eq!(of_header, [u64::from(raw::version())]);
}

/// Lengths around each multiple of a block, up to three words of blocks, and around each power of two.
fn lengths() -> Vec<u64> {
    let multiples = (0..=3 * 64 + 1).map(|blocks| blocks * BLOCK as u64);
    let powers = (0..64).map(|bit| 1 << bit);
    let edges = multiples.chain(powers).chain([FILE_MAX, u64::MAX]);
    let near = [-513, -512, -511, -1, 0, 1, 511, 512, 513];
    edges
        .flat_map(|edge: u64| near.map(|by| edge.saturating_add_signed(by)))
        .collect()
}

#[test]
fn the_map_has_as_many_words_as_in_c() {
    let lengths = lengths();
    let macros: Vec<String> = lengths
        .iter()
        .map(|len| format!("SARVOLTIG_SIZE_MAP(UINT64_C({len}))"))
        .collect();
    let words = c_values("map", &macros);
    assert_eq!(words.len(), lengths.len());
    for (len, words) in lengths.into_iter().zip(words) {
        assert_eq!(map_words(len) as u64, words, "{len} bytes");
    }
}

#[test]
fn the_map_is_as_long_as_the_library_needs_it() {
    const WORDS: usize = map_words(FILE_MAX);
    assert_eq!(WORDS, 8192);
    let mut image = vec![0; FILE_MAX as usize];
    let mut map = vec![0; WORDS + 1];
    for len in (512..=3 * 64 * 512).step_by(512).chain([FILE_MAX]) {
        let words = map_words(len);
        let open = Intake::open_len(len, &mut image, &mut map[..words]);
        assert_eq!(open.err(), None);
        let open = Intake::open_len(len, &mut image, &mut map[..words - 1]);
        assert_eq!(open.err(), Some(Refusal::MapShort));
    }
    let longer = Intake::open_len(FILE_MAX + 512, &mut image, &mut map);
    assert_eq!(longer.err(), Some(Refusal::Length));
}
