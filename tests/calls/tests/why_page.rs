//! docs/WHY.md, held to the reference hub: every wording with its status, places and commands, and every example.

use calls::coverage::expected_refusals;
use calls::whys;
use reference::packet::frame;
use reference::reason::Reason;
use reference::why::{condition, status_name, TAKEN};
use reference::Hub;
use std::collections::BTreeSet;

/// The page.
const PAGE: &str = include_str!("../../../docs/WHY.md");
/// The names of the four states of the examples.
const STATES: [&str; 4] = ["at rest", "powered", "waiting", "LE alone"];

/// A row of a table of wordings, with the heading that it stands under.
struct Row {
    /// Status name and number.
    status: (String, u8),
    /// Condition, place, commands.
    cells: [String; 3],
}

/// An example: state, packet, line.
type Example = (&'static str, Vec<u8>, String);

/// Status name and number of a heading `### NAME (0xNN)`.
fn heading(line: &str) -> Option<(String, u8)> {
    let (name, number) = line.strip_prefix("### ")?.split_once(" (0x")?;
    Some((name.into(), u8::from_str_radix(number.strip_suffix(')')?, 16).ok()?))
}

/// The rows of the tables of wordings.
fn rows() -> Vec<Row> {
    let mut status = None;
    let mut out = Vec::new();
    for line in PAGE.lines() {
        if line.starts_with('#') {
            status = heading(line);
        }
        let cells: Vec<String> = line.split('|').map(|cell| cell.trim().into()).collect();
        match (&status, <[String; 5]>::try_from(cells)) {
            (Some(status), Ok([_, first, second, third, _])) if first != "condition" && first != "---" => {
                out.push(Row { status: status.clone(), cells: [first, second, third] });
            }
            _ => {}
        }
    }
    out
}

/// The octets that words stand for; `00*3` is an octet three times.
fn octets(words: &str) -> Vec<u8> {
    let one = |word: &str| u8::from_str_radix(word, 16).expect("an octet");
    let group = |word: &str| match word.split_once('*') {
        Some((octet, times)) => vec![one(octet); times.parse().expect("a number")],
        None => vec![one(word)],
    };
    words.split_whitespace().flat_map(group).collect()
}

/// The examples of the page.
fn examples() -> Vec<Example> {
    let mut out = Vec::new();
    let mut lines = PAGE.lines();
    while let Some(line) = lines.next() {
        let Some(rest) = line.strip_prefix("    ") else { continue };
        let Some((state, words)) = STATES.iter().find_map(|state| Some((*state, rest.strip_prefix(state)?)))
        else {
            continue;
        };
        let text = lines.next().expect("a line stands under its packet").trim().to_string();
        out.push((state, octets(words), text));
    }
    out
}

/// Gives a packet that has to be answered so.
fn must(hub: &mut Hub, code: u16, parameters: &[u8], answer: u8) {
    assert_eq!(hub.command(&frame(code, 0, parameters), 1024).answer, answer, "{code:#06x}");
}

/// One of the four states.
fn state(name: &str) -> Hub {
    let mut hub = Hub::new();
    for (index, address, supported) in [(0, [0x11; 6], 0x0280), (1, [0; 6], 0x0200), (2, [0x22; 6], 0x0080)] {
        assert_eq!(hub.plug(index, &address, 6, 15, supported, 1024).answer, 0);
    }
    match name {
        "at rest" => {}
        "waiting" => must(&mut hub, 0x0005, &[1], 1),
        "LE alone" => {
            must(&mut hub, 0x002A, &[0], 0);
            must(&mut hub, 0x002B, &[0x0A, 0x22, 0x33, 0x44, 0x55, 0xC6], 0);
        }
        _ => {
            must(&mut hub, 0x0005, &[1], 1);
            assert_eq!(hub.report(0, 0, 1024).answer, 0);
            for k in 1..=32 {
                must(&mut hub, 0x0010, &[[k; 16].as_slice(), &[0]].concat(), 0);
            }
            must(&mut hub, 0x0026, &[0x0A, 0x22, 0x33, 0x44, 0x55, 0x66, 0], 0);
        }
    }
    hub
}

#[test]
fn every_example_is_told_as_the_page_says() {
    let examples = examples();
    for (name, packet, text) in &examples {
        let hub = state(name);
        let (reply, status) = hub.why(packet, 256);
        let told = String::from_utf8_lossy(&reply.octets).into_owned();
        assert_eq!((reply.answer, told.as_str()), (0, text.as_str()), "{name} {packet:02X?}");
        let came = hub.clone().command(packet, 1024);
        assert_eq!(if came.answer == 2 { came.octets[8] } else { 0 }, status);
    }
    let told = |wording: &str, ending: &str| {
        examples.iter().any(|(_, _, text)| *text == format!("{wording}{ending}"))
            || (ending.is_empty()
                && examples.iter().any(|(_, _, text)| text.starts_with(&format!("{wording},"))))
    };
    for (wording, form) in whys::expected() {
        let ending = if form.starts_with("octet") { format!(", {form}") } else { String::new() };
        assert!(told(&wording, &ending), "{wording} ({form}) has no example");
    }
}

#[test]
fn every_wording_is_there_once_under_its_status() {
    let mut found: Vec<(String, u8)> =
        rows().iter().map(|row| (format!("{}: {}", row.status.0, row.cells[0]), row.status.1)).collect();
    found.sort_unstable();
    let mut expected: Vec<(String, u8)> =
        Reason::ALL.iter().map(|reason| (whys::wording(*reason), reason.status())).collect();
    expected.sort_unstable();
    expected.dedup();
    assert_eq!(found, expected);
    assert!(Reason::ALL
        .iter()
        .all(|reason| PAGE.contains(&format!("### {} (", status_name(reason.status())))));
    assert!(PAGE.contains(&format!("\n    {TAKEN}\n")));
}

/// The forms of place that a cell names.
fn forms(cell: &str) -> BTreeSet<String> {
    let octets = cell.split("; in a list").next().expect("a cell has a beginning");
    let mut out: BTreeSet<String> = match octets.strip_prefix("octet ") {
        Some(numbers) => {
            numbers.replace(" or ", ", ").split(", ").map(|number| format!("octet {number}")).collect()
        }
        None if cell == "none" => BTreeSet::from(["no place".into()]),
        None => BTreeSet::new(),
    };
    let listed = ["record K, octet N", "records A and B"].into_iter().filter(|form| cell.contains(form));
    out.extend(listed.map(String::from));
    out
}

#[test]
fn places_are_those_that_come() {
    for row in rows() {
        let wording = format!("{}: {}", row.status.0, row.cells[0]);
        let told = whys::expected().into_iter().filter(|(other, _)| *other == wording);
        assert_eq!(forms(&row.cells[1]), told.map(|(_, form)| form).collect(), "{wording}");
    }
}

/// The codes that a cell names, or none if it names all or all others.
fn codes(cell: &str) -> Option<BTreeSet<String>> {
    let is_code = |word: &&str| word.starts_with("0x");
    let words = cell.split(|letter: char| !letter.is_ascii_alphanumeric());
    (!cell.starts_with("all")).then(|| words.filter(is_code).map(String::from).collect())
}

#[test]
fn commands_are_those_that_are_refused_so() {
    let upper = |call: &str| call.strip_prefix("0x").map(|digits| format!("0x{}", digits.to_uppercase()));
    for row in rows() {
        let Some(codes) = codes(&row.cells[2]) else { continue };
        let same = |name: &str| {
            let reason = Reason::ALL.iter().find(|reason| format!("{reason:?}") == name);
            reason.is_some_and(|reason| condition(*reason) == row.cells[0] && reason.status() == row.status.1)
        };
        let refused = expected_refusals().into_iter().filter(|(_, reason)| same(reason));
        assert_eq!(codes, refused.filter_map(|(call, _)| upper(&call)).collect(), "{}", row.cells[0]);
    }
}
