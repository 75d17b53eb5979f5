//! What look-ups come to, by table: where the key was found, how far the table was walked, and why a question was none.

use crate::look_ups::{Question, Source};
use reference::codes::{CONTROLLERS, SLOTS};
use reference::look_up::{key_length, slot_keys, TABLES};
use reference::reason::ArgumentFault;
use reference::{Hub, LookUp};
use std::collections::BTreeMap;

/// Counts by table and by what came.
pub type Walks = BTreeMap<(&'static str, &'static str), usize>;

/// What stands for a table that is none of the six.
const NO_TABLE: &str = "no table";

/// The name of a table.
fn name(table: u64) -> &'static str {
    usize::try_from(table).ok().and_then(|table| TABLES.get(table)).copied().unwrap_or(NO_TABLE)
}

/// Counts what a look-up comes to.
pub fn note(walks: &mut Walks, hub: &Hub, question: &Question) {
    let mut see = |what: &'static str, holds: bool| {
        if holds {
            *walks.entry((name(question.table), what)).or_default() += 1;
        }
    };
    match hub.look_up(question.index, question.table, &question.key) {
        Err(fault) => see(refusal(question, fault), true),
        Ok(found) => {
            let controller = hub.state().controller(question.index);
            let keys =
                controller.and_then(|controller| slot_keys(controller, question.table)).unwrap_or_default();
            match found.slot {
                Some(slot) => at_found(&keys, slot, &question.key, &mut see),
                None => at_absent(&keys, found, question.source, &mut see),
            }
        }
    }
}

/// Why a question is answered 6.
fn refusal(question: &Question, fault: ArgumentFault) -> &'static str {
    match fault {
        ArgumentFault::Absent if question.index < CONTROLLERS as u64 => "6: no controller has this index",
        ArgumentFault::Absent => "6: the index is above 3",
        ArgumentFault::Table => "6: the table is above 5",
        _ if key_length(question.table) > Some(question.key.len()) => "6: the key is too short",
        _ => "6: the key is too long",
    }
}

/// The key is in a slot.
fn at_found(keys: &[Option<Vec<u8>>], slot: usize, key: &[u8], see: &mut dyn FnMut(&'static str, bool)) {
    let gap = keys[..slot].iter().any(|held| held.is_none());
    let last = keys.iter().rposition(|held| held.is_some()) == Some(slot);
    let twice = keys[slot + 1..].iter().any(|held| held.as_deref() == Some(key));
    see("found in the first slot", slot == 0);
    see("found in the middle", slot > 0 && !last);
    see("found in the last slot in use", last);
    see("found in slot 31", slot == SLOTS - 1);
    see("found, closed up", !gap);
    see("found behind a gap", gap);
    see("found in slot 31 behind a gap", gap && slot == SLOTS - 1);
    see("found in a full table", keys.iter().all(|held| held.is_some()));
    see("found, the first of two", twice);
}

/// The key is in no slot.
fn at_absent(
    keys: &[Option<Vec<u8>>],
    found: LookUp,
    source: Source,
    see: &mut dyn FnMut(&'static str, bool),
) {
    let used = keys.iter().flatten().count();
    if used == 0 {
        return see("absent, the table is empty", true);
    }
    see("absent, the table is full", used == SLOTS);
    see("absent, closed up", found.walked == used);
    see("absent, with a gap", found.walked > used);
    see("absent, with a gap before slot 31", found.walked == SLOTS && used < SLOTS);
    let what = match source {
        Source::Held => "absent, held", // never: no run is expected to come to it
        Source::Elsewhere => "absent, held elsewhere",
        Source::Freed => "absent, freed",
        Source::Bit => "absent, one bit off",
        Source::Octet => "absent, one octet off",
        Source::Zeros => "absent, zeros",
        Source::Anywhere => "absent, from anywhere",
    };
    see(what, true);
}

/// What each table should come to.
const EACH: [&str; 24] = [
    "6: no controller has this index",
    "6: the index is above 3",
    "6: the key is too long",
    "6: the key is too short",
    "absent, closed up",
    "absent, freed",
    "absent, from anywhere",
    "absent, held elsewhere",
    "absent, one bit off",
    "absent, one octet off",
    "absent, the table is empty",
    "absent, the table is full",
    "absent, with a gap",
    "absent, with a gap before slot 31",
    "absent, zeros",
    "found behind a gap",
    "found in a full table",
    "found in slot 31",
    "found in slot 31 behind a gap",
    "found in the first slot",
    "found in the last slot in use",
    "found in the middle",
    "found, closed up",
    "found, the first of two",
];

/// Everything that a long enough run comes to: of each table all of these, but two of a key among long term keys alone.
pub fn expected() -> Vec<(&'static str, &'static str)> {
    let of_table = |table: &&'static str| {
        let all = EACH.into_iter().filter(|what| *what != "found, the first of two" || *table == TABLES[2]);
        all.map(|what| (*table, what)).collect::<Vec<_>>()
    };
    let mut out: Vec<(&str, &str)> = TABLES.iter().flat_map(of_table).collect();
    let none = ["6: no controller has this index", "6: the index is above 3", "6: the table is above 5"];
    out.extend(none.map(|what| (NO_TABLE, what)));
    out
}
