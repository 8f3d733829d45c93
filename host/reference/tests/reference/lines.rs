//! Calls as lines, and their replay.

use sarvoltig_reference::model::Session;
use sarvoltig_reference::schedule::{anlz_run, random_run, replay, Call, Run};

use crate::desk::case_d;

#[test]
fn lines_are_read_as_written() {
    for seed in 0..30 {
        for call in random_run(seed).into_iter().chain(anlz_run(seed)) {
            if let Some(line) = call.to_line() {
                assert_eq!(Call::parse_line(&line), Some(call));
            }
        }
    }
}

#[test]
fn other_lines_are_no_calls() {
    let lines = [
        "",
        "lend 1",
        "lend 1 2 3",
        " lend 1 2",
        "lend 1 2 ",
        "lend  1 2",
        "lend +1 2",
        "lend -1 2",
        "Lend 1 2",
        "open 512",
        "open 512 x",
        "rows 256 1",
        "rows 1 18446744073709551616",
        "deliver 0 0",
        "deliver 0 0 ",
        "deliver 0 0 abc",
        "deliver 0 0 ag",
        "deliver 0 0 é",
        "record 1 -",
        "record 1 0\r",
        "string 1 0",
        "word 0",
    ];
    for line in lines {
        assert_eq!(Call::parse_line(line), None, "{line}");
    }
}

#[test]
fn other_lines_about_a_list_are_no_calls() {
    let lines = [
        "list",
        "list ",
        "list ,",
        "list 1,",
        "list ,1",
        "list 1,,2",
        "list 1, 2",
        "list 1 2",
        "list +1",
        "list -,1",
        "list 4294967296",
        "list 1,4294967296",
        "record_in 1",
        "record_in 256 0",
        "record_in 1 18446744073709551616",
        "record_in 1 0 0",
        "text_in 1 0",
        "text_in 1 0 -",
        "text_in 1 0 0 0",
    ];
    for line in lines {
        assert_eq!(Call::parse_line(line), None, "{line}");
    }
}

#[test]
fn other_lines_about_an_anlz_file_are_no_calls() {
    let lines = [
        "anlz",
        "anlz ",
        "anlz abc",
        "anlz 0g",
        "anlz 00 00",
        "anlz - ",
        "beats 0",
        "beats ",
        "Beats",
        "beat",
        "beat ",
        "beat -",
        "beat +1",
        "beat 18446744073709551616",
        "beat 0 0",
    ];
    for line in lines {
        assert_eq!(Call::parse_line(line), None, "{line}");
    }
}

#[test]
fn other_lines_about_cues_and_waves_are_no_calls() {
    let lines = [
        "cue",
        "cue ",
        "cue -",
        "cue +1",
        "cue 18446744073709551616",
        "cue 0 0",
        "cues",
        "Cue 0",
        "wave",
        "wave 3",
        "wave 3 ",
        "wave 3 -",
        "wave - 0",
        "wave 3  0",
        "wave 3 0 0",
        "wave 18446744073709551616 0",
        "wave 3 18446744073709551616",
        "waves 3 0",
    ];
    for line in lines {
        assert_eq!(Call::parse_line(line), None, "{line}");
    }
}

#[test]
fn other_lines_about_a_packet_are_no_calls() {
    let lines = [
        "packet",
        "packet 0 0 -",
        "packet 0 0 - - -",
        "packet 0 0 -  -",
        "packet 0 0 - ",
        "packet - 0 - -",
        "packet 0 - - -",
        "packet 0 0 , -",
        "packet 0 0 1, -",
        "packet 0 0 1,,2 -",
        "packet 0 0 -,1 -",
        "packet 0 0 18446744073709551616 -",
        "packet 18446744073709551616 0 - -",
        "packet 0 18446744073709551616 - -",
        "packet 0 0 - abc",
        "packet 0 0 - 0g",
        "Packet 0 0 - -",
    ];
    for line in lines {
        assert_eq!(Call::parse_line(line), None, "{line}");
    }
}

#[test]
fn other_lines_about_blocks_and_tables_are_no_calls() {
    let lines = [
        "missing",
        "missing ",
        "missing -",
        "missing +1",
        "missing none",
        "missing 0 0",
        "missing 18446744073709551616",
        "Missing 0",
        "holds",
        "holds ",
        "holds -1",
        "holds 0 0",
        "holds 18446744073709551616",
        "hold 0",
        "layout ",
        "layout 0",
        "Layout",
        "bounds",
        "bounds ",
        "bounds -",
        "bounds 256",
        "bounds 1 0",
        "bound 1",
    ];
    for line in lines {
        assert_eq!(Call::parse_line(line), None, "{line}");
    }
}

#[test]
fn blocks_have_64_bits_and_types_8() {
    let call = Call::Missing { from: u64::MAX };
    let line = "missing 18446744073709551615";
    assert_eq!(call.to_line().as_deref(), Some(line));
    assert_eq!(Call::parse_line(line), Some(call));
    let call = Call::Holds { block: u64::MAX };
    let line = "holds 18446744073709551615";
    assert_eq!(call.to_line().as_deref(), Some(line));
    assert_eq!(Call::parse_line(line), Some(call));
    assert_eq!(Call::parse_line("layout"), Some(Call::Layout));
    let call = Call::Bounds { table: 255 };
    assert_eq!(call.to_line().as_deref(), Some("bounds 255"));
    assert_eq!(Call::parse_line("bounds 255"), Some(call));
    assert_eq!(Call::Bounds { table: 256 }.to_line(), None);
}

#[test]
fn packets_have_64_bit_numbers_and_any_fetch_number() {
    let call = Call::Packet {
        room: 3,
        blocks: vec![0, u64::MAX],
        pieces: vec![0x0a, 0xff],
    };
    let line = "packet 0 3 0,18446744073709551615 0aff";
    assert_eq!(call.to_line().as_deref(), Some(line));
    assert_eq!(Call::parse_line(&line.replace("t 0", "t 7")), Some(call));
    let empty = Call::Packet {
        room: 0,
        blocks: vec![],
        pieces: vec![],
    };
    assert_eq!(empty.to_line().as_deref(), Some("packet 0 0 - -"));
    assert_eq!(Call::parse_line("packet 0 0 - -"), Some(empty));
}

#[test]
fn anlz_files_replay_without_a_checksum() {
    let input = [
        "beats",
        "lend 512 1",
        "open 512 0",
        "anlz 504d41490000000c0000002c5051545a00000018000000200000000000800000000000010003303a00000079",
        "beats",
        "beat 0",
        "beat 18446744073709551615",
        "open 512 0",
        "anlz -",
        "beat 0",
    ];
    let output = "\
refused 20 0 0
open 1 lent 83df2ef5
beats 1
beat 3 12346 121
refused 18 0 0
open 1 lent 83df2ef5
refused 20 0 0
";
    let replayed = replay(&input.join("\n"));
    assert_eq!((replayed.output.as_str(), replayed.status), (output, 0));
}

#[test]
fn sorts_and_numbers_of_entries_have_64_bits() {
    let call = Call::Wave {
        sort: u64::MAX,
        k: u64::MAX,
    };
    let line = "wave 18446744073709551615 18446744073709551615";
    assert_eq!(call.to_line().as_deref(), Some(line));
    assert_eq!(Call::parse_line(line), Some(call));
    let call = Call::Cue { k: u64::MAX };
    assert_eq!(Call::parse_line("cue 18446744073709551615"), Some(call));
}

/// The line of a file with a list of a hot point, one of a memory loop, and a
/// waveform of sort 5 with five entries.
fn line_of_cues_and_a_wave() -> String {
    let list =
        |kind: &str, entry: &str| format!("50434f420000001800000050{kind}ffff0001ffffffff{entry}");
    let entry = |hot_cue: &str, kind: &str, times: &str| {
        let order = "000000010010000000010002";
        let rest = "00".repeat(0x10);
        format!("504350540000001c00000038{hot_cue}{order}{kind}0003e8{times}{rest}")
    };
    let sections = [
        list("00000001", &entry("00000003", "01", "00000190ffffffff")),
        list("00000000", &entry("00000000", "02", "0000025800000190")),
        "505756350000001800000022000000020000000500960305".to_string(),
        "11112222333344445555".to_string(),
    ];
    let sections = sections.concat();
    let len_file = 12 + sections.len() / 2;
    format!("anlz 504d41490000000c{len_file:08x}{sections}")
}

#[test]
fn cues_and_waves_replay_without_a_checksum() {
    let file = line_of_cues_and_a_wave();
    let wrong_kind = file.replace("020003e8", "030003e8");
    let wrong_width = file.replace("50575635", "50575633");
    // lines with their answers; a file has none
    let lines = [
        ("cue 0", "refused 20 0 0\n"),
        ("wave 3 0", "refused 20 0 0\n"),
        (&file, ""),
        ("cue 0", "point 1 3 400\n"),
        ("cue 1", "loop 0 0 600 400\n"),
        ("cue 2", "refused 18 0 0\n"),
        ("wave 5 0", "entry 196\n"),
        ("wave 5 4", "entry 204\n"),
        ("wave 5 5", "refused 18 0 0\n"),
        ("wave 3 0", "refused 18 0 0\n"),
        ("wave 4294967301 0", "refused 18 0 0\n"),
        (&wrong_kind, ""),
        ("cue 0", "refused 26 0 0\n"),
        ("beats", "refused 22 0 0\n"),
        (&wrong_width, ""),
        ("wave 3 0", "refused 27 0 0\n"),
        ("wave 5 0", "refused 18 0 0\n"),
    ];
    let replayed = replay(&lines.map(|(line, _)| line).join("\n"));
    assert_eq!(replayed.output, lines.map(|(_, answer)| answer).concat());
    assert_eq!(replayed.status, 0);
}

#[test]
fn a_replay_prints_the_answers_of_the_calls() {
    for seed in 0..20 {
        let mut calls = random_run(seed);
        calls.retain(|call| call.to_line().is_some());
        let lines = calls.iter().filter_map(Call::to_line);
        let lines: String = lines.map(|line| line + "\n").collect();
        let replayed = replay(&lines);
        assert_eq!(replayed.status, 0);
        let mut run = Run::new(Session::new(Vec::new(), Vec::new()));
        let answers = calls.iter().filter_map(|call| call.make(&mut run));
        let answers: Vec<String> = answers.map(|answer| answer.to_string()).collect();
        let printed: Vec<&str> = replayed
            .output
            .lines()
            .map(|line| line.rsplit_once(" lent ").expect("a CRC").0)
            .collect();
        assert_eq!(printed, answers);
    }
}

/// The CRCs were computed by another program.
const CASE_D_OUTPUT: &str = "\
refused 1 0 0 lent 178581ff
open 3 lent b9d2e835
wait page 0 rows 0 pages 0 lent b69d8ea8
new 1 lent 637014c9
new 2 lent 14ec8d81
wait page 1 rows 0 pages 0 lent 8b68084d
same 2 lent 14ec8d81
new 3 lent 919bea38
done rows 1 pages 2 lent bfe930bf
refused 17 1 0 lent 919bea38
record 1 page 2 entry 1 7 lent 919bea38
text 1085 4 ascii lent 919bea38
refused 6 0 0 lent 919bea38
refused 4 0 0 lent e2887577
";

#[test]
fn case_d_replays() {
    let deliver = |block: u64| {
        let piece = case_d()[512 * block as usize..][..512].to_vec();
        let call = Call::Deliver { block, piece };
        call.to_line().expect("a delivery has a line")
    };
    let input = [
        "lend 1600 2",
        "rows 1 2",
        "open 1536 0",
        "rows 1 2",
        &deliver(2),
        &deliver(0),
        "rows 1 2",
        &deliver(0),
        &deliver(1),
        "rows 1 2",
        "rows 1 0",
        "record 1 0",
        "string 1 0 0",
        "deliver 1 9 -",
        "word 0 15",
        "string 1 0 0",
    ];
    assert_eq!(replay(&input.join("\n")).output, CASE_D_OUTPUT);
}

/// The CRCs were computed by another program.
#[test]
fn case_d_replays_with_questions_for_blocks_and_pages() {
    let deliver = |block: u64| {
        let piece = case_d()[512 * block as usize..][..512].to_vec();
        let call = Call::Deliver { block, piece };
        call.to_line().expect("a delivery has a line")
    };
    let (block_0, block_1, block_2) = (deliver(0), deliver(1), deliver(2));
    // lines with their answers; buffers and words have none
    let lines = [
        ("missing 0", "missing none lent 00000000\n"),
        ("lend 1600 2", ""),
        ("layout", "refused 1 0 0 lent 44e20924\n"),
        ("open 1536 0", "open 3 lent b9d2e835\n"),
        ("missing 0", "missing 0 lent b9d2e835\n"),
        (&block_2, "new 1 lent 637014c9\n"),
        ("holds 1", "holds no lent 637014c9\n"),
        ("holds 2", "holds yes lent 637014c9\n"),
        ("layout", "wait page 0 rows 0 pages 0 lent 637014c9\n"),
        ("bounds 1", "wait page 0 rows 0 pages 0 lent 637014c9\n"),
        ("bounds 9", "refused 8 0 0 lent 637014c9\n"),
        (&block_0, "new 2 lent 14ec8d81\n"),
        ("missing 0", "missing 1 lent 14ec8d81\n"),
        ("layout", "layout 512 3 lent 14ec8d81\n"),
        ("bounds 1", "bounds 1 1 2 lent 14ec8d81\n"),
        ("bounds 2", "refused 10 0 0 lent 14ec8d81\n"),
        (&block_1, "new 3 lent 919bea38\n"),
        ("missing 0", "missing none lent 919bea38\n"),
        ("word 0 15", ""),
        ("holds 3", "holds no lent e2887577\n"),
        ("layout", "refused 4 0 0 lent e2887577\n"),
    ];
    let replayed = replay(&lines.map(|(line, _)| line).join("\n"));
    assert_eq!(replayed.output, lines.map(|(_, answer)| answer).concat());
    assert_eq!(replayed.status, 0);
}

#[test]
fn lists_have_32_bit_numbers() {
    let places = vec![0, 1080, u32::MAX];
    let call = Call::List { places };
    assert_eq!(Call::parse_line("list 0,1080,4294967295"), Some(call));
    let empty = Call::List { places: vec![] };
    assert_eq!(Call::parse_line("list -"), Some(empty));
}

/// The CRCs were computed by another program.
#[test]
fn case_d_replays_from_its_list() {
    let deliver = |block: u64| {
        let piece = case_d()[512 * block as usize..][..512].to_vec();
        let call = Call::Deliver { block, piece };
        call.to_line().expect("a delivery has a line")
    };
    let input = [
        "list 1080",
        "lend 1600 2",
        "record_in 1 0",
        "open 1536 0",
        "record_in 1 0",
        &deliver(2),
        &deliver(0),
        "text_in 1 0 0",
        "record_in 1 0",
        "list 512,1080",
        "record_in 1 0",
        "list -",
        "record_in 1 0",
    ];
    let output = "\
refused 1 0 0 lent 44e20924
open 3 lent b9d2e835
wait page 0 rows 0 pages 0 lent b9d2e835
new 1 lent 637014c9
new 2 lent 14ec8d81
text 1085 4 ascii lent 14ec8d81
record 1 page 2 entry 1 7 lent 14ec8d81
wait page 1 rows 0 pages 0 lent 14ec8d81
refused 18 0 0 lent 14ec8d81
";
    let replayed = replay(&input.join("\n"));
    assert_eq!((replayed.output.as_str(), replayed.status), (output, 0));
}

/// The CRCs were computed by another program.
#[test]
fn packets_replay_with_the_checksum_of_their_results() {
    let packet = |room: usize, blocks: &[u64], pieces: &[usize]| {
        let file = case_d();
        let pieces = pieces.iter().flat_map(|piece| &file[512 * piece..][..512]);
        let call = Call::Packet {
            room,
            blocks: blocks.to_vec(),
            pieces: pieces.copied().collect(),
        };
        call.to_line().expect("a packet has a line")
    };
    let input = [
        "lend 1600 2",
        "open 1536 0",
        &packet(5, &[2, 3, 2], &[2, 2, 2]),
        &packet(2, &[], &[]),
        &packet(1, &[0, 1], &[0, 1]),
        &packet(1, &[0, 1], &[0]),
        &packet(2, &[1, 2], &[1, 1]),
    ];
    let output = "\
open 3 lent b9d2e835
held 1 lent 9c9b6166
held 1 lent 2a16081d
refused 17 2 0 lent d839e694
refused 6 0 0 lent d839e694
held 2 lent 33b4be31
";
    let replayed = replay(&input.join("\n"));
    assert_eq!((replayed.output.as_str(), replayed.status), (output, 0));
}
