//! Examples in words: calls, and what each gives. `examples/README.md` has the grammar.

use crate::target::Move;
use reference::codes::{answer, IMAGE_ROOM, REPLY_ROOM, SLOTS};
use reference::why::TEXT_ROOM;
use reference::{Call, Reply};

/// A call of an example.
pub enum Step {
    /// Any call but load.
    Call(Call),
    /// A load of an image.
    Load(Vec<u8>),
    /// An image is moved to the other version.
    Move {
        /// Which way.
        way: Move,
        /// The image.
        image: Vec<u8>,
        /// Length of the buffer for what it gives.
        room: usize,
    },
    /// What is on air is asked for.
    OnAir {
        /// The controller.
        index: u64,
        /// Length of the reply buffer.
        room: usize,
    },
    /// Why a packet would be refused is asked for.
    Why {
        /// The packet.
        packet: Vec<u8>,
        /// Length of the text buffer.
        room: usize,
    },
    /// Where a key stands is asked for.
    LookUp {
        /// The controller.
        index: u64,
        /// The table's number.
        table: u64,
        /// The key.
        key: Vec<u8>,
    },
}

/// A call with what it gives.
pub struct Line {
    /// The line of the file that the call stands in.
    pub number: usize,
    /// The call.
    pub step: Step,
    /// Its answer and every octet that it writes.
    pub gives: Reply,
    /// The second number: the status that why tells, slot and slots walked of a look-up, 0 for every other call.
    pub extra: u64,
}

/// An example: a list of calls from the fresh state.
pub struct Example {
    /// What it shows.
    pub title: String,
    /// Its calls.
    pub lines: Vec<Line>,
}

/// The examples of a file.
pub fn examples(text: &str) -> Vec<Example> {
    let mut examples = Vec::new();
    let mut room = None;
    let mut asked = None;
    for (number, line) in joined(text) {
        if let Some(title) = line.strip_prefix("== ") {
            assert!(asked.is_none(), "line {number}: the call before gives nothing");
            examples.push(Example { title: title.to_string(), lines: Vec::new() });
            continue;
        }
        let words: Vec<&str> = line.split_whitespace().collect();
        match words[0] {
            "room" => room = Some(value(words[1]) as usize),
            "gives" | "takes" | "tells" | "finds" => {
                let (number, step) =
                    asked.take().unwrap_or_else(|| panic!("line {number}: no call gives this"));
                let (gives, extra) = result(&words);
                let example = examples.last_mut().expect("a title comes first");
                example.lines.push(Line { number, step, gives, extra });
            }
            _ => {
                assert!(asked.is_none(), "line {number}: the call before gives nothing");
                asked = Some((number, step(&words, room.take())));
            }
        }
    }
    assert!(asked.is_none(), "the last call gives nothing");
    examples
}

/// What a call gives, with its second number: the status and the text that a question tells, the slot that a look-up finds and the slots
/// that it walks. The octets that a lump takes stand in its reply, and so does the offset of what is at fault in an image.
fn result(words: &[&str]) -> (Reply, u64) {
    match words[0] {
        "tells" => (Reply::new(answer::DONE, words[2..].join(" ").into_bytes()), value(words[1])),
        "takes" => {
            let reply = Reply::new(value(words[2]) as u8, octets(&words[3..]));
            (Reply { taken: value(words[1]) as usize, ..reply }, 0)
        }
        "finds" => {
            let slot = if words[1] == "none" { SLOTS as u64 } else { value(words[1]) };
            (Reply::bare(answer::DONE), slot + 256 * value(words[2]))
        }
        _ => (given(value(words[1]) as u8, &words[2..]), 0),
    }
}

/// An answer with its octets, or the refusal of an image with the offset, which has to be told.
fn given(given: u8, words: &[&str]) -> Reply {
    match (answer::is_bad_image(given), words) {
        (true, ["at", offset]) => Reply { offset: value(offset) as usize, ..Reply::bare(given) },
        (true, _) => panic!("answer {given} without an offset"),
        (false, _) => Reply::new(given, octets(words)),
    }
}

/// The number of a table: one of six names, or a number.
fn table(word: &str) -> u64 {
    let names = ["uuids", "link-keys", "long-term-keys", "identity-keys", "blocked", "devices"];
    match names.iter().position(|name| *name == word) {
        Some(number) => number as u64,
        None => value(word),
    }
}

/// The lines with their numbers, those that go on joined to the line before, comments left out.
fn joined(text: &str) -> Vec<(usize, String)> {
    let mut lines: Vec<(usize, String)> = Vec::new();
    for (place, line) in text.lines().enumerate() {
        if line.trim().is_empty() || line.starts_with('#') {
            continue;
        }
        match lines.last_mut() {
            Some((_, last)) if line.starts_with(' ') => last.push_str(line),
            _ => lines.push((place + 1, line.to_string())),
        }
    }
    lines
}

/// The call that a line's words name, with the room of its reply buffer.
fn step(words: &[&str], room: Option<usize>) -> Step {
    let number = |place: usize| value(words[place]);
    let replies = room.unwrap_or(REPLY_ROOM);
    Step::Call(match words[0] {
        "load" => return Step::Load(octets(&words[1..])),
        "upgrade" | "downgrade" => {
            let way = if words[0] == "upgrade" { Move::Upgrade } else { Move::Downgrade };
            return Step::Move { way, image: octets(&words[1..]), room: room.unwrap_or(IMAGE_ROOM) };
        }
        "on-air" => return Step::OnAir { index: number(1), room: replies },
        "look-up" => {
            return Step::LookUp { index: number(1), table: table(words[2]), key: octets(&words[3..]) };
        }
        "why" => return Step::Why { packet: octets(&words[1..]), room: room.unwrap_or(TEXT_ROOM) },
        "command" => Call::Command { packet: octets(&words[1..]), room: replies },
        "lump" => Call::Stream { octets: octets(&words[1..]), room: replies },
        "report" => Call::Report { index: number(1), status: number(2), room: replies },
        "clock" => Call::Clock { reading: number(1) as u32, room: replies },
        "plug" => {
            let rest = words.len() - 3;
            Call::Plug {
                index: number(1),
                address: octets(&words[2..rest]),
                version: number(rest) as u8,
                manufacturer: number(rest + 1) as u16,
                supported: number(rest + 2) as u32,
                room: replies,
            }
        }
        "unplug" => Call::Unplug { index: number(1), room: replies },
        "save" => Call::Save { room: room.unwrap_or(IMAGE_ROOM) },
        other => panic!("no such call: {other}"),
    })
}

/// A number: decimal, or hexadecimal with 0x.
fn value(word: &str) -> u64 {
    let read = match word.strip_prefix("0x") {
        Some(digits) => u64::from_str_radix(digits, 16),
        None => word.parse(),
    };
    read.unwrap_or_else(|_| panic!("no number: {word}"))
}

/// An octet of two hexadecimal digits.
fn octet(word: &str) -> u8 {
    assert_eq!(word.len(), 2, "no octet: {word}");
    u8::from_str_radix(word, 16).unwrap_or_else(|_| panic!("no octet: {word}"))
}

/// The octets that words stand for.
fn octets(words: &[&str]) -> Vec<u8> {
    let mut out = Vec::new();
    group(words, 0, &mut out);
    out
}

/// Writes out the octets of words; `##` stands for the counter.
fn group(words: &[&str], counter: u8, out: &mut Vec<u8>) {
    let mut place = 0;
    while place < words.len() {
        match words[place] {
            "(" => {
                let end = closing(words, place);
                repeat(&words[place + 1..end], words[end], counter, out);
                place = end;
            }
            "##" => out.push(counter),
            word => match word.split_once('*') {
                Some((what, times)) => out.extend(vec![octet(what); value(times) as usize]),
                None => out.push(octet(word)),
            },
        }
        place += 1;
    }
}

/// Where the bracket that is open at a place ends.
fn closing(words: &[&str], open: usize) -> usize {
    let mut depth = 0;
    for (place, word) in words.iter().enumerate().skip(open) {
        depth += i32::from(*word == "(");
        depth -= i32::from(word.starts_with(')'));
        if depth == 0 {
            return place;
        }
    }
    panic!("a bracket stays open")
}

/// Writes out what stands in brackets as often as the closing one says.
fn repeat(words: &[&str], close: &str, counter: u8, out: &mut Vec<u8>) {
    let times = close.strip_prefix(")*").unwrap_or_else(|| panic!("how often: {close}"));
    match times.split_once("..") {
        Some((first, last)) => (octet(first)..=octet(last)).for_each(|count| group(words, count, out)),
        None => (0..value(times)).for_each(|_| group(words, counter, out)),
    }
}
