//! One thing wrong in parameters that were right.

use crate::instances;
use crate::pools;
use crate::random::Random;
use crate::records::{repeat, spoil, Kind};
use reference::codes::command as code;

/// Spoils the parameters of a command in one place.
pub fn spoil_parameters(random: &mut Random, code: u16, parameters: &mut Vec<u8>) {
    if parameters.is_empty() || random.percent(20) {
        wrong_length(random, parameters);
        return;
    }
    match code {
        code::SET_DISCOVERABLE => discoverable(random, parameters),
        code::SET_STATIC_ADDRESS => {
            let low = pools::low_address(random.below(pools::LOW));
            let outside = pools::some_outside(random);
            parameters.splice(.., random.pick(&[low, outside]));
        }
        code::SET_LOCAL_NAME => set(parameters, random.pick(&[248, 259]), random.octet() | 1),
        code::ADD_UUID => fill(parameters, 16),
        code::REMOVE_UUID => parameters.fill(random.octet()),
        code::LOAD_LINK_KEYS => list(random, parameters, 3, Kind::LinkKey),
        code::LOAD_LONG_TERM_KEYS => list(random, parameters, 2, Kind::LongTermKey),
        code::LOAD_IDENTITY_KEYS => list(random, parameters, 2, Kind::IdentityKey),
        code::UNPAIR | code::BLOCK | code::UNBLOCK | code::ADD_DEVICE | code::REMOVE_DEVICE => {
            device(random, code, parameters)
        }
        code::ADD_ADVERTISING | code::REMOVE_ADVERTISING => instances::spoil(random, code, parameters),
        _ => set(parameters, 0, random.pick(&[2, 3, 0x80, 0xFF])),
    }
}

/// Changes an octet that is there.
fn set(parameters: &mut [u8], at: usize, value: u8) {
    if let Some(octet) = parameters.get_mut(at) {
        *octet = value;
    }
}

/// Makes the first octets zero.
fn fill(parameters: &mut [u8], count: usize) {
    let count = count.min(parameters.len());
    parameters[..count].fill(0);
}

/// Some octets more or fewer.
fn wrong_length(random: &mut Random, parameters: &mut Vec<u8>) {
    match random.below(6) {
        0 => parameters.clear(),
        1 => parameters.truncate(random.below(parameters.len() + 1)),
        2 => parameters.extend(random.octets(40)),
        3 => {
            parameters.pop();
        }
        _ => parameters.push(random.below(2) as u8),
    }
}

/// A mode too high, off with a timeout, or limited without.
fn discoverable(random: &mut Random, parameters: &mut Vec<u8>) {
    let timeout = random.pick(&[[1, 0], [0, 1], [0xFF, 0xFF]]);
    let (mode, timeout) = match random.below(3) {
        0 => (random.pick(&[3, 4, 0xFF]), timeout),
        1 => (0, timeout),
        _ => (2, [0, 0]),
    };
    parameters.splice(.., [mode, timeout[0], timeout[1]]);
}

/// An address type, a flag, an action or the address that the command refuses.
fn device(random: &mut Random, code: u16, parameters: &mut [u8]) {
    match random.below(4) {
        0 => set(parameters, 6, random.pick(&[3, 4, 0xFF])),
        1 if code == code::REMOVE_DEVICE => {
            fill(parameters, 6);
            set(parameters, 6, random.pick(&[1, 2]));
        }
        2 if code == code::ADD_DEVICE => {
            set(parameters, 6, 0);
            set(parameters, 7, random.pick(&[0, 2]));
        }
        3 if code == code::ADD_DEVICE || code == code::UNPAIR => {
            set(parameters, 7, random.pick(&[2, 3, 0xFF]))
        }
        _ => fill(parameters, 6),
    }
}

/// A list with a wrong count, flag or record, or with a repeat.
fn list(random: &mut Random, parameters: &mut Vec<u8>, before: usize, kind: Kind) {
    let mut records: Vec<Vec<u8>> = parameters[before.min(parameters.len())..]
        .chunks(kind.length())
        .map(|record| record.to_vec())
        .collect();
    match random.below(8) {
        0 => return wrong_count(random, parameters, before, kind),
        1 if before == 3 => return set(parameters, 0, random.pick(&[2, 0xFF])),
        1..=3 => {
            repeat(random, kind, &mut records);
        }
        _ if records.is_empty() => return wrong_count(random, parameters, before, kind),
        _ => {
            let last = records.len() - 1;
            let place = if random.percent(40) { last } else { random.below(last + 1) };
            if records[place].len() == kind.length() {
                spoil(random, kind, &mut records[place]);
            }
        }
    }
    parameters.truncate(before);
    parameters.extend(records.concat());
}

/// A count field that is not the number of records.
fn wrong_count(random: &mut Random, parameters: &mut Vec<u8>, before: usize, kind: Kind) {
    if parameters.len() < before {
        return;
    }
    let at = before - 2;
    let count = u16::from_le_bytes([parameters[at], parameters[at + 1]]);
    let (count, length) = match random.below(5) {
        0 => wrapped_count(random, before, kind),
        1 => (count.wrapping_add(1), parameters.len()),
        2 => (count.wrapping_sub(1), parameters.len()),
        3 => (count ^ 0x0100, parameters.len()),
        _ => (random.pick(&[33, 0xFFFF]), parameters.len()),
    };
    parameters[at..before].copy_from_slice(&count.to_le_bytes());
    parameters.resize(length, 0);
}

/// A count whose length comes out small when it is summed in sixteen bits, with
/// the octets that such a sum would want.
fn wrapped_count(random: &mut Random, before: usize, kind: Kind) -> (u16, usize) {
    let rounds = random.between(1, kind.length() - 1);
    let count = (rounds * 0x1_0000 - before).div_ceil(kind.length());
    let length = before + count * kind.length() - rounds * 0x1_0000;
    (count as u16, length)
}
