//! The reference hub with a slip in what it tells of packets, to try the comparison of it.

use crate::mirror::{number, Mirror};
use crate::target::{Move, Target};
use reference::codes::{answer, command as code, status, REPLY_ROOM};
use reference::packet::{Packet, HEADER};
use reference::reason::Reason;
use reference::records::{IdentityKey, LinkKey, LongTermKey, Record, LE_RANDOM};
use reference::why::{text, Fault, Place, LENGTH, TEXT_ROOM};
use reference::{Call, Hub, Reply};

/// What a hub tells wrong.
#[derive(Clone, Copy, PartialEq, Eq, Debug)]
pub enum Slip {
    /// The second check that fails is named.
    SecondCheck,
    /// Busy is forgotten.
    Busy,
    /// A command that waits for the radio would not be taken.
    Started,
    /// The two records of a pair are exchanged.
    PairExchanged,
    /// Of all pairs the one whose later record comes first is named.
    PairByLater,
    /// A repeat is named before the wrong value of a record.
    RepeatFirst,
    /// Records are counted from 1.
    RecordsFromOne,
    /// Octets are counted from the record's first.
    OctetInRecord,
    /// Octets are counted from the first parameter.
    OctetInParameters,
    /// The type's octet where type and action clash.
    TypeForAction,
    /// The address's octet where it clashes with the type.
    AddressForType,
    /// The mode's octet where it clashes with the timeout.
    ModeForTimeout,
    /// The order of writing before that of octets: the type before the address.
    OrderOfWriting,
    /// The length field for every wrong length.
    LengthField,
    /// A wrong length goes by a count that is cut.
    CutCount,
    /// The status is that of another refusal.
    Status,
    /// A zero ends the text, behind the count.
    Terminated,
    /// A buffer that is too short is taken.
    Room,
    /// A packet that is none is taken for an unknown one.
    NoPacket,
}

/// All slips.
pub const SLIPS: [Slip; 19] = [
    Slip::SecondCheck,
    Slip::Busy,
    Slip::Started,
    Slip::PairExchanged,
    Slip::PairByLater,
    Slip::RepeatFirst,
    Slip::RecordsFromOne,
    Slip::OctetInRecord,
    Slip::OctetInParameters,
    Slip::TypeForAction,
    Slip::AddressForType,
    Slip::ModeForTimeout,
    Slip::OrderOfWriting,
    Slip::LengthField,
    Slip::CutCount,
    Slip::Status,
    Slip::Terminated,
    Slip::Room,
    Slip::NoPacket,
];

/// A hub with such a slip.
pub struct WrongWhy {
    /// The hub that is right.
    inner: Mirror,
    /// The slip.
    slip: Slip,
}

/// Of the pairs of entries that name one thing the one whose later entry comes first.
fn pair_by_later<R: Record>(records: &[R]) -> Option<(usize, usize)> {
    let repeats = |later: usize| {
        let earlier = (0..later).find(|earlier| records[*earlier].names_same(&records[later]))?;
        Some((earlier, later))
    };
    (1..records.len()).find_map(repeats)
}

/// A pair that a key list has, its records' own values left aside.
fn some_pair(packet: &Packet) -> Option<Fault> {
    let (before, length) = match packet.code {
        code::LOAD_LINK_KEYS => (3, LinkKey::LEN),
        code::LOAD_LONG_TERM_KEYS => (2, LongTermKey::LEN),
        _ => (2, IdentityKey::LEN),
    };
    let records = packet.parameters.get(before..)?.chunks_exact(length);
    let pair = match packet.code {
        code::LOAD_LINK_KEYS => pair_by_later(&records.map(LinkKey::read).collect::<Vec<_>>()),
        code::LOAD_LONG_TERM_KEYS => pair_by_later(&records.map(LongTermKey::read).collect::<Vec<_>>()),
        code::LOAD_IDENTITY_KEYS => pair_by_later(&records.map(IdentityKey::read).collect::<Vec<_>>()),
        _ => None,
    };
    pair.map(|(earlier, later)| Fault { reason: Reason::Repeated, place: Place::Records(earlier, later) })
}

/// The octets before the record that a fault is in.
fn record_start(fault: &Fault, packet: &Packet) -> usize {
    match (fault.place, packet.code) {
        (Place::Record { record, .. }, code::LOAD_LINK_KEYS) => HEADER + 3 + LinkKey::LEN * record,
        (Place::Record { record, .. }, code::LOAD_LONG_TERM_KEYS) => HEADER + 2 + LongTermKey::LEN * record,
        (Place::Record { record, .. }, _) => HEADER + 2 + IdentityKey::LEN * record,
        _ => 0,
    }
}

/// A place with its octet counted from another one on.
fn from(place: Place, first: usize) -> Place {
    match place {
        Place::Octet(octet) if octet >= first => Place::Octet(octet - first),
        Place::Record { record, octet } => Place::Record { record, octet: octet - first },
        place => place,
    }
}

impl WrongWhy {
    /// A hub with this slip.
    pub fn new(slip: Slip) -> WrongWhy {
        WrongWhy { inner: Mirror::default(), slip }
    }

    /// Which fault is told of a packet.
    fn told(&self, packet: &Packet, faults: &[Fault]) -> Option<Fault> {
        let first = faults.first().copied();
        let fault = first?;
        match (self.slip, fault.reason) {
            (Slip::SecondCheck, _) => faults.get(1).copied().or(first),
            (Slip::Busy, Reason::Busy) => faults.get(1).copied(),
            (Slip::PairByLater, Reason::Repeated) => some_pair(packet),
            (Slip::RepeatFirst, _) if matches!(fault.place, Place::Record { .. }) => {
                some_pair(packet).or(first)
            }
            (Slip::OrderOfWriting, Reason::ZeroAddress) if packet.parameters[6] > LE_RANDOM => {
                Some(Fault::at(Reason::AddressType, 12))
            }
            _ => Some(Fault { place: self.place(&fault, packet), ..fault }),
        }
    }

    /// Where a fault is told to be.
    fn place(&self, fault: &Fault, packet: &Packet) -> Place {
        match (self.slip, fault.reason, fault.place) {
            (Slip::PairExchanged, _, Place::Records(earlier, later)) => Place::Records(later, earlier),
            (Slip::RecordsFromOne, _, Place::Record { record, octet }) => {
                Place::Record { record: record + 1, octet }
            }
            (Slip::OctetInRecord, _, place) => from(place, record_start(fault, packet)),
            (Slip::OctetInParameters, _, place) => from(place, HEADER),
            (Slip::TypeForAction, Reason::ActionForType, _) => Place::Octet(12),
            (Slip::AddressForType, Reason::ZeroForAll, _) => Place::Octet(6),
            (Slip::ModeForTimeout, Reason::TimeoutGiven | Reason::TimeoutMissing, _) => Place::Octet(6),
            (Slip::LengthField, Reason::WrongLength, _) => Place::Octet(LENGTH),
            (Slip::CutCount, Reason::WrongLength, _) if packet.code == code::LOAD_LINK_KEYS => {
                Place::Octet(7)
            }
            (_, _, place) => place,
        }
    }

    /// Tells of a packet, and gives the number for it.
    fn write(&self, hub: &Hub, octets: &[u8], packet: &Packet, buffer: &mut [u8]) -> u64 {
        let started = || hub.clone().command(octets, REPLY_ROOM).answer == answer::STARTED;
        let told = match self.slip {
            Slip::Started if started() => Some(Fault::new(Reason::Busy)),
            _ => self.told(packet, &hub.faults(octets)),
        };
        let status = match told {
            Some(_) if self.slip == Slip::Status => status::FAILED,
            told => told.map_or(status::SUCCESS, |fault| fault.reason.status()),
        };
        let reply = Reply::new(answer::DONE, text(told).into_bytes());
        if self.slip == Slip::Terminated {
            buffer[reply.octets.len()] = 0;
        }
        number(&reply, buffer) + (u64::from(status) << 32)
    }
}

impl Target for WrongWhy {
    const STATE_LEN: usize = Mirror::STATE_LEN;

    fn call(&mut self, state: &mut [u8], call: &Call, reply: &mut [u8]) -> u64 {
        self.inner.call(state, call, reply)
    }

    fn name(&mut self, state: &[u8], index: u64, which: u64, reply: &mut [u8]) -> u64 {
        self.inner.name(state, index, which, reply)
    }

    fn on_air(&mut self, state: &[u8], index: u64, reply: &mut [u8]) -> u64 {
        self.inner.on_air(state, index, reply)
    }

    fn why(&mut self, state: &[u8], packet: &[u8], text: &mut [u8]) -> u64 {
        let fits = text.len() >= TEXT_ROOM;
        match (self.inner.read(state), Packet::read(packet)) {
            (Some(hub), Some(read)) if fits => self.write(&hub, packet, &read, text),
            (Some(_), _) if !fits && self.slip == Slip::Room => answer::DONE.into(),
            (Some(_), None) if fits && self.slip == Slip::NoPacket => answer::DONE.into(),
            _ => self.inner.why(state, packet, text),
        }
    }

    fn look_up(&self, state: &[u8], index: u64, table: u64, key: &[u8]) -> u64 {
        self.inner.look_up(state, index, table, key)
    }

    fn load(&mut self, state: &mut [u8], image: &[u8]) -> u64 {
        self.inner.load(state, image)
    }

    fn moved(&self, way: Move, image: &[u8], out: &mut [u8]) -> u64 {
        self.inner.moved(way, image, out)
    }
}
