//! The reference hub with a slip in its look-up, to try the comparison of it.

use crate::broken::{RECORDS, WORDS};
use crate::layout::block;
use crate::mirror::{look_up_number, Mirror};
use crate::target::{Move, Target};
use reference::codes::{answer, CONTROLLERS, SLOTS};
use reference::look_up::{key_length, slot_keys, TABLES};
use reference::{Call, Hub, LookUp};

/// What a hub looks up wrong.
#[derive(Clone, Copy, PartialEq, Eq, Debug)]
pub enum Slip {
    /// The walk stops one used slot early.
    OneEarly,
    /// The walk stops at the first free slot.
    AtGap,
    /// The walk never comes to slot 31.
    LastSlot,
    /// What a slot held before it was freed is found there.
    FreedSlot,
    /// The zeros of a free slot are found.
    FreeZeros,
    /// The last record with the key is found.
    LastMatch,
    /// The last octet of a key is not compared.
    LastOctet,
    /// No more than seven octets of a key are compared.
    SevenOctets,
    /// The slots walked are the used ones.
    UsedWalked,
    /// The slots walked for a key that is absent are the used ones.
    UsedWalkedAbsent,
    /// One slot too few is told to be walked.
    OneLess,
    /// All 32 slots are told to be walked for a key that is absent.
    AllWalked,
    /// An empty table is walked for one slot.
    EmptyWalked,
    /// A full table is not walked for a key that is absent.
    FullNotWalked,
    /// Slot 31 is told for none.
    NoneIs31,
    /// Slots are counted from 1.
    FromOne,
    /// Long term keys and identity resolving keys are exchanged.
    OtherTable,
    /// The table of the first controller that is there.
    OtherIndex,
    /// The index is cut to eight bits.
    IndexCut,
    /// The table is cut to 32 bits.
    TableCut,
    /// Every table above the last is the last.
    TableAbove,
    /// A key that is too short is compared as far as it goes.
    ShortKey,
    /// A key that is too long is cut.
    LongKey,
    /// A question that is none is answered before the state.
    ArgumentFirst,
    /// A state that is not well formed is looked up in.
    StateTaken,
    /// An octet is counted.
    Counts,
}

/// All slips.
pub const SLIPS: [Slip; 26] = [
    Slip::OneEarly,
    Slip::AtGap,
    Slip::LastSlot,
    Slip::FreedSlot,
    Slip::FreeZeros,
    Slip::LastMatch,
    Slip::LastOctet,
    Slip::SevenOctets,
    Slip::UsedWalked,
    Slip::UsedWalkedAbsent,
    Slip::OneLess,
    Slip::AllWalked,
    Slip::EmptyWalked,
    Slip::FullNotWalked,
    Slip::NoneIs31,
    Slip::FromOne,
    Slip::OtherTable,
    Slip::OtherIndex,
    Slip::IndexCut,
    Slip::TableCut,
    Slip::TableAbove,
    Slip::ShortKey,
    Slip::LongKey,
    Slip::ArgumentFirst,
    Slip::StateTaken,
    Slip::Counts,
];

/// A hub with such a slip.
pub struct WrongLookUp {
    /// The hub that is right.
    inner: Mirror,
    /// The slip.
    slip: Slip,
    /// The state, with what each free slot held last.
    last: Vec<u8>,
}

/// The keys in the slots of a table.
type Keys = Vec<Option<Vec<u8>>>;

/// A walk over slots until as many used ones were seen, or a record has the key.
fn walk(keys: &[Option<Vec<u8>>], seen: usize, has: impl Fn(&[u8]) -> bool) -> LookUp {
    let mut left = seen;
    for (slot, held) in keys.iter().enumerate() {
        if left == 0 {
            return LookUp { slot: None, walked: slot };
        }
        if let Some(held) = held {
            if has(held) {
                return LookUp { slot: Some(slot), walked: slot + 1 };
            }
            left -= 1;
        }
    }
    LookUp { slot: None, walked: keys.len() }
}

impl WrongLookUp {
    /// A hub with this slip.
    pub fn new(slip: Slip) -> WrongLookUp {
        WrongLookUp { inner: Mirror::default(), slip, last: vec![0; Mirror::STATE_LEN] }
    }

    /// Keeps the records that are in use, over what their slots held before.
    fn keep(&mut self, state: &[u8]) {
        for (index, table) in
            (0..CONTROLLERS).flat_map(|index| (0..TABLES.len()).map(move |table| (index, table)))
        {
            let (kept, now) = (&mut self.last[block(index)], &state[block(index)]);
            for slot in 0..SLOTS {
                let at = WORDS[table] + 4 + RECORDS[table] * slot;
                if now[WORDS[table] + slot / 8] >> (slot % 8) & 1 == 1 {
                    kept[at..at + RECORDS[table]].copy_from_slice(&now[at..at + RECORDS[table]]);
                }
            }
        }
    }

    /// The keys of a table, with what the free slots held last.
    fn last_keys(&self, index: u64, table: usize) -> Keys {
        let block = &self.last[block(index as usize)];
        let length = key_length(table as u64).unwrap_or(0);
        let key = |slot: usize| {
            let at = WORDS[table] + 4 + RECORDS[table] * slot;
            Some(block[at..at + length].to_vec()).filter(|key| key.iter().any(|octet| *octet != 0))
        };
        (0..SLOTS).map(key).collect()
    }

    /// The keys that are looked at.
    fn keys(&self, hub: &Hub, index: u64, table: u64) -> Option<Keys> {
        let first = hub.state().present().next()? as u64;
        let (from, of) = match (self.slip, table) {
            (Slip::OtherTable, 2 | 3) => (index, 5 - table),
            (Slip::OtherIndex, _) => (first, table),
            _ => (index, table),
        };
        let mut keys = slot_keys(hub.state().controller(from)?, of)?;
        match self.slip {
            Slip::FreedSlot => {
                for (key, last) in keys.iter_mut().zip(self.last_keys(index, table as usize)) {
                    *key = key.take().or(last);
                }
            }
            Slip::FreeZeros => {
                let zeros = vec![0; key_length(table)?];
                keys.iter_mut().for_each(|key| *key = key.take().or(Some(zeros.clone())));
            }
            _ => {}
        }
        Some(keys)
    }

    /// How much of a key is compared.
    fn compared(&self, key: &[u8]) -> usize {
        match self.slip {
            Slip::LastOctet => key.len() - 1,
            Slip::SevenOctets => key.len().min(7),
            _ => key.len(),
        }
    }

    /// What is told of a key.
    fn told(&self, keys: &[Option<Vec<u8>>], key: &[u8]) -> LookUp {
        let used = keys.iter().flatten().count();
        let compared = self.compared(key);
        let has = |held: &[u8]| held[..compared] == key[..compared];
        let gap = keys.iter().position(|held| held.is_none()).unwrap_or(SLOTS);
        match self.slip {
            Slip::OneEarly => walk(keys, used.saturating_sub(1), has),
            Slip::AtGap => walk(&keys[..gap], gap + 1, has),
            Slip::LastSlot => walk(&keys[..SLOTS - 1], used, has),
            Slip::LastMatch => {
                let last = keys.iter().rposition(|held| held.as_deref().is_some_and(has));
                last.map_or(walk(keys, used, has), |slot| LookUp { slot: Some(slot), walked: slot + 1 })
            }
            _ => self.told_of(keys, walk(keys, used, has)),
        }
    }

    /// The same of a walk that is right.
    fn told_of(&self, keys: &[Option<Vec<u8>>], right: LookUp) -> LookUp {
        let used = keys.iter().flatten().count();
        let seen = keys[..right.walked].iter().flatten().count();
        let (walked, slot) = match (self.slip, right.slot) {
            (Slip::UsedWalked, slot) => (seen, slot),
            (Slip::UsedWalkedAbsent, None) => (used, None),
            (Slip::OneLess, slot) => (right.walked.saturating_sub(1), slot),
            (Slip::AllWalked, None) => (SLOTS, None),
            (Slip::EmptyWalked, None) if used == 0 => (1, None),
            (Slip::FullNotWalked, None) if used == SLOTS => (0, None),
            (Slip::NoneIs31, None) => (right.walked, Some(SLOTS - 1)),
            (Slip::FromOne, Some(slot)) => (right.walked, Some(slot + 1)),
            (_, slot) => (right.walked, slot),
        };
        LookUp { slot, walked }
    }

    /// The question as the hub takes it: index, table and key.
    fn taken(&self, index: u64, table: u64, key: &[u8]) -> (u64, u64, Vec<u8>) {
        let length = key_length(table).unwrap_or(0);
        match self.slip {
            Slip::IndexCut => (index & 0xFF, table, key.to_vec()),
            Slip::TableCut => (index, table & 0xFFFF_FFFF, key.to_vec()),
            Slip::TableAbove => (index, table.min(5), key.to_vec()),
            Slip::LongKey => (index, table, key[..length.min(key.len())].to_vec()),
            _ => (index, table, key.to_vec()),
        }
    }

    /// Whether the question is one.
    fn is_right(&self, table: u64, key: &[u8]) -> bool {
        match key_length(table) {
            Some(length) => key.len() == length || self.slip == Slip::ShortKey && key.len() < length,
            None => false,
        }
    }
}

impl Target for WrongLookUp {
    const STATE_LEN: usize = Mirror::STATE_LEN;

    fn call(&mut self, state: &mut [u8], call: &Call, reply: &mut [u8]) -> u64 {
        let number = self.inner.call(state, call, reply);
        if state.len() == Self::STATE_LEN && number & 0xFF == 0 {
            self.keep(state);
        }
        number
    }

    fn name(&mut self, state: &[u8], index: u64, which: u64, reply: &mut [u8]) -> u64 {
        self.inner.name(state, index, which, reply)
    }

    fn on_air(&mut self, state: &[u8], index: u64, reply: &mut [u8]) -> u64 {
        self.inner.on_air(state, index, reply)
    }

    fn why(&mut self, state: &[u8], packet: &[u8], text: &mut [u8]) -> u64 {
        self.inner.why(state, packet, text)
    }

    fn look_up(&self, state: &[u8], index: u64, table: u64, key: &[u8]) -> u64 {
        let (index, table, key) = self.taken(index, table, key);
        let right = self.is_right(table, &key);
        let Some(hub) = self.inner.read(state) else {
            return match self.slip {
                Slip::ArgumentFirst if !right => answer::ARGUMENT.into(),
                Slip::StateTaken if state.len() == Self::STATE_LEN => {
                    LookUp { slot: None, walked: 0 }.number() << 32
                }
                _ => answer::STATE.into(),
            };
        };
        match hub.state().controller(index).and_then(|_| self.keys(&hub, index, table)) {
            Some(keys) if right => {
                look_up_number(Ok(self.told(&keys, &key))) + u64::from(self.slip == Slip::Counts) * 256
            }
            _ => answer::ARGUMENT.into(),
        }
    }

    fn load(&mut self, state: &mut [u8], image: &[u8]) -> u64 {
        let number = self.inner.load(state, image);
        if number == 0 {
            self.last.copy_from_slice(state);
        }
        number
    }

    fn moved(&self, way: Move, image: &[u8], out: &mut [u8]) -> u64 {
        self.inner.moved(way, image, out)
    }
}
