//! Look-ups: an index, a table and a key, chosen with the hub in view, so that most keys are in the table or nearly are.

use crate::pools;
use crate::random::Random;
use reference::codes::{CONTROLLERS, SLOTS};
use reference::look_up::{key_length, slot_keys, TABLES, UUID};
use reference::records::{Peer, Record};
use reference::Hub;

/// How many look-ups a run makes after each list; it makes one after each call too.
pub const LOOK_UPS: usize = 48;

/// Indexes that no controller can have, some of them right in their lowest 8, 16 or 32 bits.
const STRAY_INDEXES: [u64; 8] = [4, 5, 0xFF, 0x100, 0x1_0000, 1 << 32, 1 << 63, u64::MAX];
/// The same of tables.
const STRAY_TABLES: [u64; 9] = [6, 7, 0xFF, 0x100, 0x101, 0x1_0005, 1 << 32, 1 << 63, u64::MAX];
/// Lengths that are wrong in one table at least.
const LENGTHS: [usize; 12] = [0, 1, 6, 7, 8, 15, 16, 17, 32, 263, 272, 300];

/// Where a key comes from.
#[derive(Clone, Copy, PartialEq, Eq, Debug)]
pub enum Source {
    /// A slot of the table.
    Held,
    /// A slot of another table or of another controller.
    Elsewhere,
    /// A slot that was freed since.
    Freed,
    /// One that is held, but for one bit.
    Bit,
    /// One that is held, but for one octet.
    Octet,
    /// Zeros, as free slots have them.
    Zeros,
    /// Anywhere.
    Anywhere,
}

/// A look-up.
#[derive(Clone, PartialEq, Eq, Debug)]
pub struct Question {
    /// The controller.
    pub index: u64,
    /// The table's number.
    pub table: u64,
    /// The key.
    pub key: Vec<u8>,
    /// Where the key comes from.
    pub source: Source,
}

/// The keys in the slots of a table.
type Keys = Vec<Option<Vec<u8>>>;

/// A source of look-ups.
#[derive(Clone, Debug)]
pub struct LookUps {
    /// Where its choices come from.
    random: Random,
    /// The last key that was seen in each slot, by index and table.
    seen: Vec<Keys>,
}

impl LookUps {
    /// A source for a seed.
    pub fn new(seed: u64) -> LookUps {
        let mut look_ups = LookUps { random: Random::new(seed.rotate_left(17) ^ 0x10C), seen: Vec::new() };
        look_ups.start();
        look_ups
    }

    /// A new list begins: what was seen in the last one is forgotten.
    pub fn start(&mut self) {
        self.seen = vec![vec![None; SLOTS]; CONTROLLERS * TABLES.len()];
    }

    /// The next look-up.
    pub fn next(&mut self, hub: &Hub) -> Question {
        let index = self.index(hub);
        let table = match self.random.below(24) {
            0 => self.random.pick(&STRAY_TABLES),
            _ => self.random.below(TABLES.len()) as u64,
        };
        let held = hub.state().controller(index).and_then(|controller| slot_keys(controller, table));
        let (source, mut key) = match held {
            Some(held) => self.key(hub, index as usize, table, &held),
            None => {
                let length = key_length(table).unwrap_or(self.random.pick(&[Peer::LEN, UUID]));
                (Source::Anywhere, self.any_key(length))
            }
        };
        if self.random.percent(8) {
            let length = match self.random.below(3) {
                0 => key.len() - 1,
                1 => key.len() + 1,
                _ => self.random.pick(&LENGTHS),
            };
            key.resize(length, 0);
        }
        Question { index, table, key, source }
    }

    /// An index, mostly a present one.
    fn index(&mut self, hub: &Hub) -> u64 {
        let present: Vec<usize> = hub.state().present().collect();
        match self.random.below(20) {
            0 => self.random.pick(&STRAY_INDEXES),
            1 => self.random.below(CONTROLLERS) as u64 + self.random.pick(&[0, 0x100, 1 << 32]),
            2 => self.random.below(CONTROLLERS) as u64,
            _ if present.is_empty() => self.random.below(CONTROLLERS) as u64,
            _ => self.random.pick(&present) as u64,
        }
    }

    /// A key for a table whose slots hold these, and where it comes from.
    fn key(&mut self, hub: &Hub, index: usize, table: u64, held: &[Option<Vec<u8>>]) -> (Source, Vec<u8>) {
        let freed = self.freed(index, table, held);
        let used: Vec<&Vec<u8>> = held.iter().flatten().collect();
        let length = key_length(table).unwrap_or(UUID);
        match self.random.below(20) {
            0..=7 if !used.is_empty() => (Source::Held, self.one_of(&used).clone()),
            8 | 9 if !freed.is_empty() => (Source::Freed, freed[self.random.below(freed.len())].clone()),
            10..=12 => self.elsewhere(hub, index, table),
            13 | 14 if !used.is_empty() => {
                let mut key = self.one_of(&used).clone();
                key[self.random.below(length)] ^= 1 << self.random.below(8);
                (Source::Bit, key)
            }
            15 | 16 if !used.is_empty() => {
                let mut key = self.one_of(&used).clone();
                key[self.random.below(length)] = self.random.octet();
                (Source::Octet, key)
            }
            17 => (Source::Zeros, vec![0; length]),
            _ => (Source::Anywhere, self.any_key(length)),
        }
    }

    /// The first, the last or any.
    fn one_of<'a>(&mut self, keys: &[&'a Vec<u8>]) -> &'a Vec<u8> {
        match self.random.below(5) {
            0 => keys[0],
            1 | 2 => keys[keys.len() - 1],
            _ => self.random.pick(keys),
        }
    }

    /// The keys that were seen in slots which are free now. What the slots hold now is kept for the next time.
    fn freed(&mut self, index: usize, table: u64, held: &[Option<Vec<u8>>]) -> Vec<Vec<u8>> {
        let seen = &mut self.seen[index * TABLES.len() + table as usize];
        let freed = seen.iter().zip(held).filter(|(_, now)| now.is_none());
        let freed = freed.filter_map(|(before, _)| before.clone()).collect();
        for (before, now) in seen.iter_mut().zip(held) {
            if now.is_some() {
                before.clone_from(now);
            }
        }
        freed
    }

    /// A key of another table of the controller, or of this table of another controller; any key where these are empty.
    fn elsewhere(&mut self, hub: &Hub, index: usize, table: u64) -> (Source, Vec<u8>) {
        let other_table = self.random.between(1, TABLES.len() - 1) as u64;
        let other_index = (index + self.random.between(1, CONTROLLERS - 1)) % CONTROLLERS;
        let (index, other) = match table {
            0 => (other_index, 0),
            _ if self.random.percent(60) => (index, other_table),
            _ => (other_index, table),
        };
        let held = hub.state().controller(index as u64).and_then(|controller| slot_keys(controller, other));
        let held = held.unwrap_or_default();
        let used: Vec<&Vec<u8>> = held.iter().flatten().collect();
        match used.is_empty() {
            true => (Source::Anywhere, self.any_key(key_length(table).unwrap_or(UUID))),
            false => (Source::Elsewhere, self.one_of(&used).clone()),
        }
    }

    /// A key of a length: of the pools, or any octets.
    fn any_key(&mut self, length: usize) -> Vec<u8> {
        match length {
            _ if self.random.percent(20) => self.random.octets(length),
            UUID => pools::uuid(self.random.below(pools::UUIDS)).to_vec(),
            _ => pools::peer(&mut self.random).octets(),
        }
    }
}
