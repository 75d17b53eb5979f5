//! Key records in packet order: valid lists of any length, and ways to spoil a record.

use crate::pools::{
    high_address, inside_address, low_address, outside_address, some_outside, HIGH, LOW, OUTSIDE,
};
use crate::random::Random;

/// The kinds of table entry, in the order of the image.
#[derive(Clone, Copy, PartialEq, Eq, Debug)]
pub enum Kind {
    /// UUID and hint.
    Service,
    /// Link key.
    LinkKey,
    /// Long term key.
    LongTermKey,
    /// Identity resolving key.
    IdentityKey,
    /// Blocked device.
    Blocked,
    /// Device of the action list.
    Device,
}

/// All kinds, in the order of the image.
pub const KINDS: [Kind; 6] =
    [Kind::Service, Kind::LinkKey, Kind::LongTermKey, Kind::IdentityKey, Kind::Blocked, Kind::Device];

impl Kind {
    /// Octets of a record.
    pub fn length(self) -> usize {
        match self {
            Kind::Service => 17,
            Kind::LinkKey => 25,
            Kind::LongTermKey => 36,
            Kind::IdentityKey => 23,
            Kind::Blocked => 7,
            Kind::Device => 8,
        }
    }

    /// Octets that name the thing.
    fn name_length(self) -> usize {
        if self == Kind::Service {
            16
        } else {
            7
        }
    }
}

/// The bits in which LE Random keys have neighbours of the addresses just outside the rule.
const KEY_BITS: [usize; (OUTSIDE + LOW) / 2] = [0, 7, 20, 39, 40, 44, 45];

/// A different address and type for each number below 40 for each type. LE Random
/// has some just inside the rule of static random addresses; the other types have
/// some just outside it, some with a low sixth octet, and the zero address.
fn key_peer(number: usize, types: &[u8]) -> Vec<u8> {
    let address_type = types[number % types.len()];
    let place = number / types.len() % HIGH;
    let address = match place.checked_sub(HIGH - LOW - OUTSIDE) {
        None => high_address(place),
        Some(edge) if address_type == 2 => inside_address(2 * KEY_BITS[edge / 2] + edge % 2),
        Some(edge) if edge < OUTSIDE => outside_address(edge),
        Some(edge) if edge < OUTSIDE + LOW - 1 => low_address(edge - OUTSIDE),
        _ => [0; 6],
    };
    [&address[..], &[address_type]].concat()
}

/// A valid link key; different numbers below 40 name different devices.
pub fn link_key(random: &mut Random, number: usize) -> Vec<u8> {
    let mut record = key_peer(number, &[0]);
    record.push(random.below(9) as u8);
    record.extend(random.octets(17));
    record
}

/// A valid long term key; different numbers below 160 have different names.
pub fn long_term_key(random: &mut Random, number: usize) -> Vec<u8> {
    let mut record = key_peer(number / 2, &[1, 2]);
    record.push(random.below(5) as u8);
    record.push((number % 2) as u8);
    record.push(random.between(7, 16) as u8);
    record.extend(random.octets(26));
    record
}

/// A valid identity resolving key; different numbers below 80 name different devices.
pub fn identity_key(random: &mut Random, number: usize) -> Vec<u8> {
    let mut record = key_peer(number, &[1, 2]);
    record.extend(random.octets(16));
    record
}

/// Makes a valid record for a number.
type Maker = fn(&mut Random, usize) -> Vec<u8>;

/// A list of valid key records that name different things, as far as the pool goes.
pub fn key_list(random: &mut Random, kind: Kind, count: usize) -> Vec<Vec<u8>> {
    let (record, pool): (Maker, usize) = match kind {
        Kind::LinkKey => (link_key, HIGH),
        Kind::LongTermKey => (long_term_key, 4 * HIGH),
        _ => (identity_key, 2 * HIGH),
    };
    let numbers = random.sample(pool, count.min(pool));
    (0..count).map(|place| record(random, numbers[place % pool])).collect()
}

/// Makes one record break one of its rules by itself.
pub fn spoil(random: &mut Random, kind: Kind, record: &mut [u8]) {
    let high_types = [3, 4, 0x80, 0xFF];
    match (kind, random.below(5)) {
        (Kind::Service, _) => record[..16].fill(0),
        (Kind::LinkKey, 0..=2) => record[6] = random.pick(&[1, 2, 3, 0xFF]),
        (Kind::LinkKey, _) => record[7] = random.pick(&[9, 10, 0xFF]),
        (Kind::LongTermKey, 0) => record[6] = random.pick(&[0, 3, 0xFF]),
        (Kind::LongTermKey, 1) => record[7] = random.pick(&[5, 6, 0xFF]),
        (Kind::LongTermKey, 2) => record[8] = random.pick(&[2, 3, 0xFF]),
        (Kind::LongTermKey, 3) => record[9] = random.pick(&[0, 6, 17, 0xFF]),
        (Kind::IdentityKey, 0..=1) => record[6] = random.pick(&[0, 3, 0xFF]),
        (Kind::LongTermKey | Kind::IdentityKey, _) if random.percent(50) => {
            put_outside_address(random, record)
        }
        (Kind::LongTermKey | Kind::IdentityKey, _) => {
            record[6] = 2;
            record[5] = random.pick(&[0, 0x3F, 0x7F, 0xBF]);
        }
        (Kind::Blocked | Kind::Device, 0..=1) => record[6] = random.pick(&high_types),
        (Kind::Blocked, _) | (Kind::Device, 2) => record[..6].fill(0),
        (Kind::Device, 3) => record[7] = random.pick(&high_types),
        (Kind::Device, _) => {
            record[6] = 0;
            record[7] = random.pick(&[0, 2]);
        }
    }
}

/// Gives a key an LE Random address just outside the rule of static random ones.
pub fn put_outside_address(random: &mut Random, record: &mut [u8]) {
    record[..6].copy_from_slice(&some_outside(random));
    record[6] = 2;
}

/// Lets a later record name the same thing as an earlier one; false if there
/// are fewer than two whole ones.
pub fn repeat(random: &mut Random, kind: Kind, records: &mut [Vec<u8>]) -> bool {
    if records.len() < 2 || records.iter().any(|record| record.len() != kind.length()) {
        return false;
    }
    let last = records.len() - 1;
    let later = if random.percent(35) { last } else { random.between(1, last) };
    let earlier = random.below(later);
    let name = kind.name_length();
    let (head, tail) = records.split_at_mut(later);
    tail[0][..name].copy_from_slice(&head[earlier][..name]);
    match kind {
        Kind::LongTermKey => tail[0][8] = head[earlier][8],
        Kind::Device => tail[0][7] = head[earlier][7],
        _ => {}
    }
    true
}
