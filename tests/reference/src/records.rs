//! The entries of the six tables: what they hold, their octets in packets and
//! images, and which of them are acceptable.

use crate::reason::Reason;
use crate::why::{found, Fault, Place};

/// A Bluetooth device address in packet order: the sixth octet is the highest.
pub type Address = [u8; 6];

/// Address type BR/EDR.
pub const BR_EDR: u8 = 0;
/// Address type LE Public.
pub const LE_PUBLIC: u8 = 1;
/// Address type LE Random.
pub const LE_RANDOM: u8 = 2;

/// An entry of a table.
pub trait Record: Clone {
    /// Octets of an entry.
    const LEN: usize;

    /// The entry that stands in these octets, exactly `LEN` of them.
    fn read(octets: &[u8]) -> Self;

    /// Adds the octets of the entry.
    fn write(&self, out: &mut Vec<u8>);

    /// The first rule that the entry breaks by itself, in the order of its octets.
    fn fault(&self) -> Option<Fault>;

    /// Whether both entries name the same thing.
    fn names_same(&self, other: &Self) -> bool;
}

/// A fixed number of octets from a place on.
fn part<const N: usize>(octets: &[u8], at: usize) -> [u8; N] {
    let mut out = [0; N];
    out.copy_from_slice(&octets[at..at + N]);
    out
}

/// The random part of an address: its 46 bits below the top two.
const RANDOM_PART: u64 = (1 << 46) - 1;

/// Whether the address is a static random one: both top bits are set, and its
/// random part is neither all 0 nor all 1.
pub fn is_static_random(address: &Address) -> bool {
    let number = address.iter().rev().fold(0, |number, octet| number << 8 | u64::from(*octet));
    let random = number & RANDOM_PART;
    number >> 46 == 0b11 && random != 0 && random != RANDOM_PART
}

/// A device by address and address type; also the entry of the blocked table.
#[derive(Clone, Copy, PartialEq, Eq, Hash, Debug)]
pub struct Peer {
    /// The device's address.
    pub address: Address,
    /// One of the three types above, in what is accepted.
    pub address_type: u8,
}

impl Peer {
    /// The octet of the type, behind the address.
    pub const TYPE: usize = 6;

    /// Whether the address is zero.
    pub fn is_zero(&self) -> bool {
        self.address == [0; 6]
    }

    /// The seven octets of address and type.
    pub fn octets(&self) -> Vec<u8> {
        let mut out = Vec::with_capacity(7);
        self.write(&mut out);
        out
    }

    /// What an LE key list takes: an identity address, public or static random.
    fn identity_fault(&self) -> Option<Fault> {
        let reason = match self.address_type {
            LE_PUBLIC => return None,
            LE_RANDOM if is_static_random(&self.address) => return None,
            LE_RANDOM => Reason::RandomAddress,
            _ => Reason::LowEnergyType,
        };
        Some(Fault::at(reason, Peer::TYPE))
    }

    /// What every command about one device takes: a type of 0 to 2.
    pub fn type_fault(&self) -> Option<Fault> {
        found(self.address_type > LE_RANDOM, Reason::AddressType, Peer::TYPE)
    }
}

impl Record for Peer {
    const LEN: usize = 7;

    fn read(octets: &[u8]) -> Peer {
        Peer { address: part(octets, 0), address_type: octets[6] }
    }

    fn write(&self, out: &mut Vec<u8>) {
        out.extend_from_slice(&self.address);
        out.push(self.address_type);
    }

    fn fault(&self) -> Option<Fault> {
        found(self.is_zero(), Reason::ZeroAddress, 0).or(self.type_fault())
    }

    fn names_same(&self, other: &Peer) -> bool {
        self == other
    }
}

/// A service UUID with its hint for the class of device.
#[derive(Clone, PartialEq, Eq, Hash, Debug)]
pub struct Service {
    /// The 16 octets of the UUID.
    pub uuid: [u8; 16],
    /// The service class bits that it asks for.
    pub hint: u8,
}

impl Record for Service {
    const LEN: usize = 17;

    fn read(octets: &[u8]) -> Service {
        Service { uuid: part(octets, 0), hint: octets[16] }
    }

    fn write(&self, out: &mut Vec<u8>) {
        out.extend_from_slice(&self.uuid);
        out.push(self.hint);
    }

    fn fault(&self) -> Option<Fault> {
        found(self.uuid == [0; 16], Reason::ZeroUuid, 0)
    }

    fn names_same(&self, other: &Service) -> bool {
        self.uuid == other.uuid
    }
}

/// A link key of a BR/EDR device.
#[derive(Clone, PartialEq, Eq, Hash, Debug)]
pub struct LinkKey {
    /// The device.
    pub peer: Peer,
    /// Key type, 0 to 8.
    pub key_type: u8,
    /// The key itself.
    pub value: [u8; 16],
    /// Length of the PIN, any.
    pub pin_length: u8,
}

impl Record for LinkKey {
    const LEN: usize = 25;

    fn read(octets: &[u8]) -> LinkKey {
        LinkKey {
            peer: Peer::read(&octets[..7]),
            key_type: octets[7],
            value: part(octets, 8),
            pin_length: octets[24],
        }
    }

    fn write(&self, out: &mut Vec<u8>) {
        self.peer.write(out);
        out.push(self.key_type);
        out.extend_from_slice(&self.value);
        out.push(self.pin_length);
    }

    fn fault(&self) -> Option<Fault> {
        found(self.peer.address_type != BR_EDR, Reason::BrEdrType, Peer::TYPE).or(found(
            self.key_type > 8,
            Reason::LinkKeyType,
            7,
        ))
    }

    fn names_same(&self, other: &LinkKey) -> bool {
        self.peer == other.peer
    }
}

/// A long term key of an LE device.
#[derive(Clone, PartialEq, Eq, Hash, Debug)]
pub struct LongTermKey {
    /// The device's identity.
    pub peer: Peer,
    /// Key type, 0 to 4.
    pub key_type: u8,
    /// 0 or 1; a device may have a key for each.
    pub master: u8,
    /// Encryption size, 7 to 16.
    pub size: u8,
    /// Encryption diversifier.
    pub diversifier: [u8; 2],
    /// Random number.
    pub random: [u8; 8],
    /// The key itself.
    pub value: [u8; 16],
}

impl Record for LongTermKey {
    const LEN: usize = 36;

    fn read(octets: &[u8]) -> LongTermKey {
        LongTermKey {
            peer: Peer::read(&octets[..7]),
            key_type: octets[7],
            master: octets[8],
            size: octets[9],
            diversifier: part(octets, 10),
            random: part(octets, 12),
            value: part(octets, 20),
        }
    }

    fn write(&self, out: &mut Vec<u8>) {
        self.peer.write(out);
        out.extend_from_slice(&[self.key_type, self.master, self.size]);
        out.extend_from_slice(&self.diversifier);
        out.extend_from_slice(&self.random);
        out.extend_from_slice(&self.value);
    }

    fn fault(&self) -> Option<Fault> {
        let peer = self.peer.identity_fault();
        peer.or(found(self.key_type > 4, Reason::LongTermKeyType, 7))
            .or(found(self.master > 1, Reason::Master, 8))
            .or(found(!(7..=16).contains(&self.size), Reason::KeySize, 9))
    }

    fn names_same(&self, other: &LongTermKey) -> bool {
        self.peer == other.peer && self.master == other.master
    }
}

/// An identity resolving key of an LE device.
#[derive(Clone, PartialEq, Eq, Hash, Debug)]
pub struct IdentityKey {
    /// The device's identity.
    pub peer: Peer,
    /// The key itself.
    pub value: [u8; 16],
}

impl Record for IdentityKey {
    const LEN: usize = 23;

    fn read(octets: &[u8]) -> IdentityKey {
        IdentityKey { peer: Peer::read(&octets[..7]), value: part(octets, 7) }
    }

    fn write(&self, out: &mut Vec<u8>) {
        self.peer.write(out);
        out.extend_from_slice(&self.value);
    }

    fn fault(&self) -> Option<Fault> {
        self.peer.identity_fault()
    }

    fn names_same(&self, other: &IdentityKey) -> bool {
        self.peer == other.peer
    }
}

/// A device of the action list.
#[derive(Clone, PartialEq, Eq, Hash, Debug)]
pub struct Device {
    /// The device.
    pub peer: Peer,
    /// 0 background scan, 1 allow incoming, 2 auto-connect.
    pub action: u8,
}

impl Record for Device {
    const LEN: usize = 8;

    fn read(octets: &[u8]) -> Device {
        Device { peer: Peer::read(&octets[..7]), action: octets[7] }
    }

    fn write(&self, out: &mut Vec<u8>) {
        self.peer.write(out);
        out.push(self.action);
    }

    fn fault(&self) -> Option<Fault> {
        let clash = self.peer.address_type == BR_EDR && self.action != 1;
        let peer = self.peer.fault();
        peer.or(found(self.action > 2, Reason::Action, 7)).or(found(clash, Reason::ActionForType, 7))
    }

    fn names_same(&self, other: &Device) -> bool {
        self.peer == other.peer
    }
}

/// The first rule that a list of entries breaks: one by itself, or two that
/// name the same thing. Octets are counted from the first entry on.
pub fn list_fault<R: Record>(records: &[R]) -> Option<Fault> {
    let of_record = |(place, record): (usize, &R)| Some(record.fault()?.in_record(place, R::LEN));
    let alone = records.iter().enumerate().find_map(of_record);
    alone.or_else(|| {
        let (earlier, later) = first_pair(records)?;
        Some(Fault { reason: Reason::Repeated, place: Place::Records(earlier, later) })
    })
}

/// The first entry that a later one repeats, with the first that does.
fn first_pair<R: Record>(records: &[R]) -> Option<(usize, usize)> {
    let repeated = |earlier: usize| {
        let later =
            (earlier + 1..records.len()).find(|later| records[earlier].names_same(&records[*later]))?;
        Some((earlier, later))
    };
    (0..records.len()).find_map(repeated)
}
