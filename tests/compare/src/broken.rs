//! States with a table that is not well formed: a record whose slot is free by the word, or an octet in a free slot. A look-up answers 5,
//! whatever it looks for.

use crate::layout::block;
use crate::lent::{Difference, Lent};
use crate::look_up::{edge_keys, look_up_agrees, look_up_refused};
use crate::target::Target;
use calls::Random;
use reference::codes::SLOTS;
use reference::look_up::{slot_keys, TABLES};
use reference::Hub;

/// Where the word of each table stands in a block; the slots stand behind it.
pub const WORDS: [usize; 6] = [293, 841, 1_645, 2_801, 3_541, 3_769];
/// The octets of a record in each table.
pub const RECORDS: [usize; 6] = [17, 25, 36, 23, 7, 8];

/// Breaks a table of a block at a slot: one in use is told to be free, and where its octets are all zero, as those of a free one are and those of a link key
/// may be, it gets an octet.
fn break_slot(random: &mut Random, block: &mut [u8], table: usize, slot: usize) {
    block[WORDS[table] + slot / 8] &= !(1 << (slot % 8));
    let record = &mut block[WORDS[table] + 4 + RECORDS[table] * slot..][..RECORDS[table]];
    if record.iter().all(|&octet| octet == 0) {
        record[random.below(RECORDS[table])] = 1 << random.below(8);
    }
}

/// Lends states with one broken table each, and looks up in that table and in another one; tells how many there were. The state is put
/// back, and looked up in again.
pub fn broken_tables_agree<T: Target>(
    lent: &mut Lent<T>,
    hub: &Hub,
    random: &mut Random,
) -> Result<usize, Difference> {
    let state = lent.state().to_vec();
    let mut broken = 0;
    for (index, table) in
        hub.state().present().flat_map(|index| (0..TABLES.len()).map(move |table| (index, table)))
    {
        let (at, other) = (index as u64, random.below(TABLES.len()) as u64);
        let slot = random.below(SLOTS);
        let mut octets = state.clone();
        break_slot(random, &mut octets[block(index)], table, slot);
        lent.put_state(&octets);
        let controller = hub.state().controller(at);
        let held = controller.and_then(|controller| slot_keys(controller, table as u64)).unwrap_or_default();
        let mut asked: Vec<(u64, Vec<u8>)> =
            held[slot].iter().map(|key| (table as u64, key.clone())).collect();
        asked.extend(edge_keys(hub, at, other).into_iter().map(|key| (other, key)));
        for (table, key) in asked {
            let result = look_up_refused(lent, at, table, &key);
            result.map_err(|difference| format!("{difference} (a state broken at slot {slot})"))?;
        }
        broken += 1;
        lent.put_state(&state);
        look_up_agrees(lent, hub, at, other, &edge_keys(hub, at, other)[0])?;
    }
    Ok(broken)
}
