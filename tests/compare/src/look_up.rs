//! Look-ups: asked of a target and of the reference hub, and compared number for number.

use crate::lent::{Difference, Lent};
use crate::mirror::look_up_number;
use crate::target::Target;
use calls::look_ups::Question;
use reference::codes::answer;
use reference::look_up::{key_length, slot_keys, TABLES, UUID};
use reference::records::{Peer, Record};
use reference::Hub;

/// Tables that are asked for: the six, and some that none is.
const NUMBERS: [u64; 10] = [0, 1, 2, 3, 4, 5, 6, 256, 1 << 32, u64::MAX];
/// Lengths of a key: those of the six tables, and some that no table has.
const LENGTHS: [usize; 7] = [0, Peer::LEN - 1, Peer::LEN, Peer::LEN + 1, UUID - 1, UUID, UUID + 1];

/// A number in words.
fn shown(number: u64) -> String {
    let (answer, count, extra) = (number & 0xFF, number >> 8 & 0xFF_FFFF, number >> 32);
    format!("answer {answer}, count {count}, slot {}, {} slots walked", extra & 0xFF, extra >> 8)
}

/// An error that tells the question and both numbers, unless these are the same.
fn same(index: u64, table: u64, key: &[u8], expected: u64, found: u64) -> Result<(), Difference> {
    if expected == found {
        return Ok(());
    }
    let asked = format!("look-up at index {index} in table {table} of {key:02X?}");
    Err(format!("{asked}\n  expected {}\n  found    {}", shown(expected), shown(found)))
}

/// Asks both where a key stands.
pub fn look_up_agrees<T: Target>(
    lent: &mut Lent<T>,
    hub: &Hub,
    index: u64,
    table: u64,
    key: &[u8],
) -> Result<(), Difference> {
    let found = lent.look_up(index, table, key, T::STATE_LEN)?;
    same(index, table, key, look_up_number(hub.look_up(index, table, key)), found)
}

/// The same of a question that was drawn.
pub fn question_agrees<T: Target>(
    lent: &mut Lent<T>,
    hub: &Hub,
    question: &Question,
) -> Result<(), Difference> {
    look_up_agrees(lent, hub, question.index, question.table, &question.key)
}

/// Asks both for the first and the last key of every table and for zeros; then at every index and in every table, also where there is
/// none, for keys of a length that goes round.
pub fn look_ups_agree<T: Target>(lent: &mut Lent<T>, hub: &Hub, indexes: &[u64]) -> Result<(), Difference> {
    for index in hub.state().present() {
        for table in 0..TABLES.len() as u64 {
            for key in edge_keys(hub, index as u64, table) {
                look_up_agrees(lent, hub, index as u64, table, &key)?;
            }
        }
    }
    for (place, index) in indexes.iter().enumerate() {
        for (number, table) in NUMBERS.iter().enumerate() {
            let length = LENGTHS[(place + number) % LENGTHS.len()];
            look_up_agrees(lent, hub, *index, *table, &vec![1; length])?;
        }
    }
    Ok(())
}

/// The first and the last key of a table, as far as there are any, and zeros.
pub fn edge_keys(hub: &Hub, index: u64, table: u64) -> Vec<Vec<u8>> {
    let controller = hub.state().controller(index);
    let held = controller.and_then(|controller| slot_keys(controller, table)).unwrap_or_default();
    let mut keys: Vec<Vec<u8>> = held.iter().flatten().next().cloned().into_iter().collect();
    keys.extend(held.iter().flatten().last().cloned());
    keys.push(vec![0; key_length(table).unwrap_or(0)]);
    keys
}

/// A state that is none is answered 5, whatever is looked for.
pub fn look_up_refused<T: Target>(
    lent: &mut Lent<T>,
    index: u64,
    table: u64,
    key: &[u8],
) -> Result<(), Difference> {
    same(index, table, key, answer::STATE.into(), lent.look_up(index, table, key, T::STATE_LEN)?)
}

/// State buffers of a wrong length, and one that no state can be, are answered 5, however wrong the question is.
pub fn look_up_of_no_state<T: Target>(lent: &mut Lent<T>) -> Result<(), Difference> {
    lent.fill_state(0xFF);
    for (index, table, key) in
        [(0, 0, 16), (3, 5, 7), (4, 0, 16), (0, 6, 7), (0, 1, 6), (u64::MAX, u64::MAX, 0)]
    {
        let key = vec![0xFF; key];
        for length in [0, T::STATE_LEN - 1, T::STATE_LEN, T::STATE_LEN + 1] {
            let found = lent.look_up(index, table, &key, length)?;
            let result = same(index, table, &key, answer::STATE.into(), found);
            result.map_err(|difference| format!("{difference} (a state of {length})"))?;
        }
    }
    Ok(())
}
