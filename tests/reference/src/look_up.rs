//! Where a key stands in a table of a controller, and how many slots are walked to tell.

use crate::codes::SLOTS;
use crate::controller::Controller;
use crate::reason::ArgumentFault;
use crate::records::{Peer, Record};
use crate::table::Table;

/// The tables of a controller, by their numbers.
pub const TABLES: [&str; 6] =
    ["UUIDs", "link keys", "long term keys", "identity resolving keys", "blocked devices", "devices"];
/// The octets of a UUID, which is the key of the first table.
pub const UUID: usize = 16;

/// What a look-up tells.
#[derive(Clone, Copy, PartialEq, Eq, Hash, Debug)]
pub struct LookUp {
    /// The first slot whose record has the key, if one has.
    pub slot: Option<usize>,
    /// The slots up to that one, else up to the last one in use.
    pub walked: usize,
}

impl LookUp {
    /// Both in one number: the slot, 32 for none, and 256 times the slots walked.
    pub fn number(self) -> u64 {
        (self.slot.unwrap_or(SLOTS) + 256 * self.walked) as u64
    }
}

/// The octets of a key in a table: a UUID has 16, address and type have 7. None if there is no such table.
pub fn key_length(table: u64) -> Option<usize> {
    match table {
        0 => Some(UUID),
        1..=5 => Some(Peer::LEN),
        _ => None,
    }
}

/// The first octets of each slot's record, as many as a key has; none of a free slot.
fn keys<R: Record>(table: &Table<R>, length: usize) -> Vec<Option<Vec<u8>>> {
    let key = |record: &R| {
        let mut octets = Vec::with_capacity(R::LEN);
        record.write(&mut octets);
        octets.truncate(length);
        octets
    };
    table.slots().iter().map(|slot| slot.as_ref().map(key)).collect()
}

/// The key in each of the 32 slots of a table, none where the slot is free; none at all if there is no such table.
pub fn slot_keys(controller: &Controller, table: u64) -> Option<Vec<Option<Vec<u8>>>> {
    let length = key_length(table)?;
    Some(match table {
        0 => keys(&controller.services, length),
        1 => keys(&controller.link_keys, length),
        2 => keys(&controller.long_term_keys, length),
        3 => keys(&controller.identity_keys, length),
        4 => keys(&controller.blocked, length),
        _ => keys(&controller.devices, length),
    })
}

/// Looks for a key in a table of a controller.
pub fn look_up(controller: &Controller, table: u64, key: &[u8]) -> Result<LookUp, ArgumentFault> {
    let keys = slot_keys(controller, table).ok_or(ArgumentFault::Table)?;
    if key_length(table) != Some(key.len()) {
        return Err(ArgumentFault::KeyLength);
    }
    let slot = keys.iter().position(|held| held.as_deref() == Some(key));
    let end = slot.or_else(|| keys.iter().rposition(|held| held.is_some()));
    Ok(LookUp { slot, walked: end.map_or(0, |end| end + 1) })
}
