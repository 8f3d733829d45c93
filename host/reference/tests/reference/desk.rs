//! The desk program and case D (rules 9.5 to 9.13).

use std::fmt::Write;

use sarvoltig_reference::model::{Delivered, Encoding, Refusal, Rows, Session, TextReply};

use crate::whole;

/// Runs the desk program on its standard input.
fn desk(mut input: &[u8]) -> String {
    let mut session = Session::new(vec![0; 32_768], vec![0; 1]);
    let mut output = String::new();
    while let Some((kind, rest)) = input.split_first() {
        let body_len = match kind {
            1 => 4,
            2 => 4 + 512,
            3 => 1,
            _ => return output + "kind\n",
        };
        let Some((body, rest)) = rest.split_at_checked(body_len) else {
            return output + "cut\n";
        };
        input = rest;
        match answer(&mut session, *kind, body) {
            Ok(lines) => output += &lines,
            Err(refusal) => writeln!(output, "refused {}", refusal.number).unwrap(),
        }
    }
    output
}

fn answer(session: &mut Session, kind: u8, body: &[u8]) -> Result<String, Refusal> {
    let number = || u64::from(u32::from_le_bytes(body[..4].try_into().unwrap()));
    match kind {
        1 => session
            .open(number())
            .map(|blocks| format!("open {blocks}\n")),
        2 => session
            .deliver(number(), &body[4..])
            .map(|delivered| match delivered {
                Delivered::New(held) => format!("new {held}\n"),
                Delivered::Same(held) => format!("same {held}\n"),
            }),
        _ => rows(session, body[0]),
    }
}

fn rows(session: &Session, table: u8) -> Result<String, Refusal> {
    let mut list = [0; 1024];
    let (mut lines, rows) = match session.rows(table, &mut list)? {
        Rows::Full { rows, pages } => (format!("done rows {rows} pages {pages}\n"), rows),
        Rows::Waiting { page, rows, pages } => (
            format!("wait page {page} rows {rows} pages {pages}\n"),
            rows,
        ),
    };
    for place in &list[..rows as usize] {
        writeln!(lines, "row {place}").unwrap();
    }
    Ok(lines)
}

/// The file of Case D.
pub fn case_d() -> Vec<u8> {
    let mut file = vec![0; 1536];
    let mut put = |at: usize, bytes: &[u8]| file[at..at + bytes.len()].copy_from_slice(bytes);
    put(0x04, &512u32.to_le_bytes());
    put(0x08, &[1]);
    put(0x1c, &[1]);
    put(0x1c + 0x08, &[1]);
    put(0x1c + 0x0c, &[2]);
    for page in [1, 2] {
        put(512 * page + 0x04, &[page as u8]);
        put(512 * page + 0x08, &[1]);
    }
    put(512 + 0x0c, &[2]);
    put(512 + 0x1b, &[0x64]);
    put(1024 + 0x18, &[2, 0x20]);
    put(1024 + 0x1b, &[0x24]);
    put(1536 - 4, &0x0002u16.to_le_bytes());
    put(1536 - 8, &16u16.to_le_bytes());
    put(1024 + 0x28 + 16, &[7, 0, 0, 0, 0x0b]);
    put(1024 + 0x28 + 21, b"Funk");
    file
}

#[test]
fn case_d_prints_what_rule_9_12_has() {
    let file = case_d();
    let block = |number: u8| {
        let start = 512 * usize::from(number);
        [&[2, number, 0, 0, 0], &file[start..start + 512]].concat()
    };
    let open = [1, 0x00, 0x06, 0, 0].to_vec();
    let ask = [3, 1].to_vec();
    let input = [
        open,
        ask.clone(),
        block(2),
        block(0),
        ask.clone(),
        block(0),
        block(1),
        ask,
    ];
    let output = "open 3
wait page 0 rows 0 pages 0
new 1
new 2
wait page 1 rows 0 pages 0
same 2
new 3
done rows 1 pages 2
row 1080
";
    assert_eq!(desk(&input.concat()), output);
}

#[test]
fn the_name_in_case_d_is_at_1085() {
    let found = TextReply::Found {
        place: 1085,
        len: 4,
        encoding: Encoding::Ascii,
    };
    assert_eq!(whole(&case_d()).text(1u8, 0, 0), Ok(found));
}

/// Page 1 of case D, which has flag `40`, with another number or another type.
#[test]
fn the_desk_tells_a_wrong_page_index_from_a_wrong_type() {
    for (at, output) in [(0x04, "refused 12\n"), (0x08, "refused 25\n")] {
        let mut file = case_d();
        file[512 + at] = 2;
        let mut input = vec![1, 0x00, 0x06, 0, 0];
        for (number, block) in (0..).zip(file.chunks(512)) {
            input.extend([2, number, 0, 0, 0]);
            input.extend(block);
        }
        input.extend([3, 1]);
        assert!(desk(&input).ends_with(output));
    }
}

#[test]
fn the_desk_stops_at_another_kind_and_at_a_short_body() {
    assert_eq!(desk(&[3, 1, 4, 3, 1]), "refused 1\nkind\n");
    assert_eq!(desk(&[1, 0, 0]), "cut\n");
    assert_eq!(
        desk(&[3, 9, 1, 0, 2, 0, 0, 3, 9]),
        "refused 1\nopen 1\nrefused 8\n"
    );
}
