//! Calls as lines of text.

use std::fmt::Write;
use std::str::FromStr;

use super::Call;

/// The fetch number of a line, which nothing uses so far.
const FETCH: u64 = 0;

impl Call {
    /// The call's line, without its end. In lines a type has 8 bits, so a
    /// question for a wider one has no line; it is refused and changes nothing.
    ///
    /// ```
    /// use sarvoltig_reference::schedule::Call;
    ///
    /// let line = Call::Open { len: 1536 }.to_line();
    /// assert_eq!(line.as_deref(), Some("open 1536 0"));
    /// assert_eq!(Call::Record { table: 257, k: 0 }.to_line(), None);
    /// ```
    pub fn to_line(&self) -> Option<String> {
        Some(match self {
            Call::Lend { image, words } => format!("lend {image} {words}"),
            Call::Word { i, value } => format!("word {i} {value}"),
            Call::Open { len } => format!("open {len} {FETCH}"),
            Call::Deliver { block, piece } => format!("deliver {block} {FETCH} {}", hex(piece)),
            Call::Packet {
                room,
                blocks,
                pieces,
            } => format!("packet {FETCH} {room} {} {}", numbers(blocks), hex(pieces)),
            Call::Rows { table, room } => format!("rows {} {room}", narrow(*table)?),
            Call::Record { table, k } => format!("record {} {k}", narrow(*table)?),
            Call::Text { table, k, slot } => format!("string {} {k} {slot}", narrow(*table)?),
            Call::List { places } => format!("list {}", numbers(places)),
            Call::RecordIn { table, i } => format!("record_in {} {i}", narrow(*table)?),
            Call::TextIn { table, i, slot } => format!("text_in {} {i} {slot}", narrow(*table)?),
            Call::Missing { from } => format!("missing {from}"),
            Call::Holds { block } => format!("holds {block}"),
            Call::Layout => "layout".to_string(),
            Call::Bounds { table } => format!("bounds {}", narrow(*table)?),
            Call::Anlz { file } => format!("anlz {}", hex(file)),
            Call::Beats => "beats".to_string(),
            Call::Beat { k } => format!("beat {k}"),
            Call::Cue { k } => format!("cue {k}"),
            Call::Wave { sort, k } => format!("wave {sort} {k}"),
        })
    }

    /// The call of a line, if the line is one.
    ///
    /// ```
    /// use sarvoltig_reference::schedule::Call;
    ///
    /// let call = Call::Text { table: 0, k: 12, slot: 17 };
    /// assert_eq!(Call::parse_line("string 0 12 17"), Some(call));
    /// assert_eq!(Call::parse_line("string 256 12 17"), None);
    /// assert_eq!(Call::parse_line("string 0  12 17"), None);
    /// ```
    pub fn parse_line(line: &str) -> Option<Call> {
        let words: Vec<&str> = line.split(' ').collect();
        let call = match words[..] {
            ["lend", image, words] => Call::Lend {
                image: number(image)?,
                words: number(words)?,
            },
            ["word", i, value] => Call::Word {
                i: number(i)?,
                value: number(value)?,
            },
            ["open" | "deliver" | "packet", ..] => parse_fetched(&words)?,
            ["list", places] => Call::List {
                places: list(places)?,
            },
            ["missing", from] => Call::Missing {
                from: number(from)?,
            },
            ["holds", block] => Call::Holds {
                block: number(block)?,
            },
            ["layout"] => Call::Layout,
            ["anlz", file] => Call::Anlz { file: bytes(file)? },
            ["beats"] => Call::Beats,
            ["beat", k] => Call::Beat { k: number(k)? },
            ["cue", k] => Call::Cue { k: number(k)? },
            ["wave", sort, k] => Call::Wave {
                sort: number(sort)?,
                k: number(k)?,
            },
            [question, table, ref numbers @ ..] => parse_question(question, table, numbers)?,
            _ => return None,
        };
        Some(call)
    }
}

/// The call of a line with a fetch number.
fn parse_fetched(words: &[&str]) -> Option<Call> {
    let (fetch, call) = match *words {
        ["open", len, fetch] => (fetch, Call::Open { len: number(len)? }),
        ["deliver", block, fetch, piece] => {
            let block = number(block)?;
            let piece = bytes(piece)?;
            (fetch, Call::Deliver { block, piece })
        }
        ["packet", fetch, room, blocks, pieces] => {
            let call = Call::Packet {
                room: number(room)?,
                blocks: list(blocks)?,
                pieces: bytes(pieces)?,
            };
            (fetch, call)
        }
        _ => return None,
    };
    number::<u64>(fetch).map(|_| call)
}

/// The question of a line's words.
fn parse_question(question: &str, table: &str, numbers: &[&str]) -> Option<Call> {
    let table = table_type(table)?;
    Some(match (question, numbers) {
        ("rows", [room]) => Call::Rows {
            table,
            room: number(room)?,
        },
        ("record", [k]) => Call::Record {
            table,
            k: number(k)?,
        },
        ("string", [k, slot]) => Call::Text {
            table,
            k: number(k)?,
            slot: number(slot)?,
        },
        ("record_in", [i]) => Call::RecordIn {
            table,
            i: number(i)?,
        },
        ("text_in", [i, slot]) => Call::TextIn {
            table,
            i: number(i)?,
            slot: number(slot)?,
        },
        ("bounds", []) => Call::Bounds { table },
        _ => return None,
    })
}

/// A type that a line can have.
fn narrow(table: u32) -> Option<u8> {
    u8::try_from(table).ok()
}

fn table_type(word: &str) -> Option<u32> {
    number::<u8>(word).map(u32::from)
}

/// A decimal number without a sign.
fn number<T: FromStr>(word: &str) -> Option<T> {
    word.bytes().all(|b| b.is_ascii_digit()).then_some(())?;
    word.parse().ok()
}

/// Numbers with commas between them.
fn numbers<T: ToString>(numbers: &[T]) -> String {
    if numbers.is_empty() {
        return "-".to_string();
    }
    let words: Vec<String> = numbers.iter().map(T::to_string).collect();
    words.join(",")
}

fn list<T: FromStr>(word: &str) -> Option<Vec<T>> {
    match word {
        "-" => Some(Vec::new()),
        _ => word.split(',').map(number).collect(),
    }
}

fn hex(bytes: &[u8]) -> String {
    if bytes.is_empty() {
        return "-".to_string();
    }
    bytes.iter().fold(String::new(), |mut word, byte| {
        let _ = write!(word, "{byte:02x}");
        word
    })
}

fn bytes(word: &str) -> Option<Vec<u8>> {
    if word == "-" {
        return Some(Vec::new());
    }
    let digits: Option<Vec<u8>> = word.chars().map(hex_digit).collect();
    let digits = digits.filter(|digits| digits.len() % 2 == 0 && !digits.is_empty())?;
    Some(
        digits
            .chunks(2)
            .map(|pair| pair[0] << 4 | pair[1])
            .collect(),
    )
}

fn hex_digit(digit: char) -> Option<u8> {
    digit.to_digit(16).map(|value| value as u8)
}
