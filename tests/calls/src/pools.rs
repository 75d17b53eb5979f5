//! Small pools of addresses, UUIDs and names, so that the same ones come again.

use crate::random::Random;
use reference::records::{Address, Peer};

/// Static random addresses far from the edge of the rule: of their lower 46 bits many are 0 and many are 1.
pub const HIGH: usize = 40;
/// Static random addresses just inside the rule.
pub const INSIDE: usize = 92;
/// Addresses just outside the rule of static random ones.
pub const OUTSIDE: usize = 6;
/// Addresses with a lower sixth octet.
pub const LOW: usize = 8;
/// UUIDs of the pool.
pub const UUIDS: usize = 64;
/// Supported settings that plug takes with any address.
pub const LE_ONLY: [u32; 4] = [0x0200, 0x8200, 0xFF7F, 0x0E13];
/// Supported settings that plug takes with a public address.
pub const BR_EDR: [u32; 7] = [0x0280, 0x0280, 0x0080, 0x00FF, 0xFFFF, 0xFDFF, 0x0290];

/// The two addresses with both top bits set and the 46 bits below them alike; they are no static random ones.
pub const ALIKE: [Address; 2] = [[0, 0, 0, 0, 0, 0xC0], [0xFF; 6]];

/// An address with one of its 48 bits changed.
fn neighbour(mut address: Address, bit: usize) -> Address {
    address[bit / 8] ^= 1 << (bit % 8);
    address
}

/// An address just inside the rule: one of the two with one of its 46 lower bits changed, which are counted by the half of
/// the number.
pub fn inside_address(number: usize) -> Address {
    neighbour(ALIKE[number % 2], number / 2)
}

/// An address just outside the rule: one of the two as it is, then with either top bit changed.
pub fn outside_address(number: usize) -> Address {
    let alike = ALIKE[number % 2];
    match number / 2 {
        0 => alike,
        top => neighbour(alike, 45 + top),
    }
}

/// An address just outside the rule, every other time one of the two.
pub fn some_outside(random: &mut Random) -> Address {
    let most = if random.percent(50) { ALIKE.len() } else { OUTSIDE };
    outside_address(random.below(most))
}

/// An address of the first kind; each differs from most others in two octets only.
pub fn high_address(number: usize) -> Address {
    let mut address = [0x11, 0x22, 0x33, 0x44, 0x55, 0xC6];
    let place = number % 6;
    address[place] = if place == 5 { 0xC0 + (number / 6) as u8 } else { 0xA0 + (number / 6) as u8 };
    address
}

/// An address with a low sixth octet: some with one octet alone, some with a sixth
/// octet just too low.
pub fn low_address(number: usize) -> Address {
    let mut address = [0; 6];
    match number {
        0..=4 => address[number] = 1,
        5 => address[5] = 0x3F,
        6 => address = [0x11, 0x22, 0x33, 0x44, 0x55, 0xBF],
        _ => address = [0x11, 0x22, 0x33, 0x44, 0x55, 0x7F],
    }
    address
}

/// An address of a device, not zero; the first few come most often.
pub fn address(random: &mut Random) -> Address {
    match random.below(20) {
        0 | 1 => low_address(random.below(LOW)),
        2 => some_outside(random),
        3..=5 => high_address(random.below(HIGH)),
        _ => high_address(random.below(13)),
    }
}

/// A device with any of the three address types.
pub fn peer(random: &mut Random) -> Peer {
    Peer { address: address(random), address_type: random.below(3) as u8 }
}

/// A static random address, now and then one just inside the rule.
pub fn static_address(random: &mut Random) -> Address {
    match random.below(8) {
        0..=2 => inside_address(random.below(INSIDE)),
        _ => high_address(random.below(HIGH)),
    }
}

/// A public address, zero now and then.
pub fn public_address(random: &mut Random) -> Address {
    match random.below(12) {
        0 | 1 => [0; 6],
        2 => low_address(random.below(LOW)),
        3 => some_outside(random),
        _ => high_address(random.below(HIGH)),
    }
}

/// A UUID of the pool; some differ in one octet from zero, the others in one or
/// two from each other.
pub fn uuid(number: usize) -> [u8; 16] {
    let mut uuid = [0; 16];
    if number >= 8 {
        uuid = [0x5F; 16];
    }
    uuid[(number * 5) % 16] = 1 + (number / 16) as u8;
    uuid
}

/// A hint for the class of device; few bits, shared by many.
pub fn hint(random: &mut Random) -> u8 {
    match random.below(12) {
        0 => random.octet(),
        1 => 0xFF,
        _ => random.pick(&[0, 0x01, 0x04, 0x20, 0x24]),
    }
}

/// Names of 249 and 11 octets, with octets behind the first zero now and then.
pub fn names(random: &mut Random) -> Vec<u8> {
    let mut names = vec![0; 260];
    let used = random.pick(&[0, 1, 5, 20, 247, 248]);
    names[..used].copy_from_slice(&random.octets(used));
    let short = random.pick(&[0, 1, 9, 10]);
    names[249..249 + short].copy_from_slice(&random.octets(short));
    if random.percent(20) {
        names[random.pick(&[100, 246, 247, 255, 258])] = random.octet();
    }
    names
}

/// Supported settings and a public address that plug takes.
pub fn hardware(random: &mut Random) -> (u32, Address) {
    let address = public_address(random);
    if address == [0; 6] || random.percent(10) {
        (random.pick(&LE_ONLY), address)
    } else {
        (random.pick(&BR_EDR), address)
    }
}
