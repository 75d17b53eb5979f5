//! The static address and the two tables of LE keys in a block: read back where they fit the rest of the controller.

use crate::layout::{slot, table, IDENTITY_KEYS, LONG_TERM_KEYS, STATIC_ADDRESS};
use reference::codes::SLOTS;
use reference::controller::Controller;
use reference::records::{is_static_random, list_fault, Record};
use reference::table::Table;

/// A controller with the static address and the LE keys of a block's octets, the rest as it is; none if that is not well
/// formed. The caller looks at power and at a command under way itself.
pub fn read(block: &[u8], controller: &Controller) -> Option<Controller> {
    let mut read = controller.clone();
    read.static_address.copy_from_slice(&block[STATIC_ADDRESS]);
    read.long_term_keys = keys(&block[LONG_TERM_KEYS])?;
    read.identity_keys = keys(&block[IDENTITY_KEYS])?;
    keeps_rules(&read).then_some(read)
}

/// A static address is zero or a static random one; it and keys need LE support.
fn keeps_rules(controller: &Controller) -> bool {
    let has_static = controller.static_address != [0; 6];
    let keyed = !controller.long_term_keys.is_empty() || !controller.identity_keys.is_empty();
    let supported = controller.hardware.supports_low_energy() || !(has_static || keyed);
    supported && (!has_static || is_static_random(&controller.static_address))
}

/// The table that octets stand for; none if a record breaks a rule, two name one thing, or a free slot is not zero.
fn keys<R: Record>(octets: &[u8]) -> Option<Table<R>> {
    let word = u32::from_le_bytes(octets[..4].try_into().ok()?);
    let read = |place: usize| (word >> place & 1 == 1).then(|| R::read(&octets[slot::<R>(place)]));
    let keys = Table::of_slots((0..SLOTS).map(read).collect());
    let mut written = vec![0; octets.len()];
    table(&mut written, &keys);
    let entries: Vec<R> = keys.entries().cloned().collect();
    (written == octets && list_fault(&entries).is_none()).then_some(keys)
}
