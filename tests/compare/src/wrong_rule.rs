//! The reference hub with another rule for static random addresses in one place, to try the sweep over addresses.

use crate::addresses::{Carrier, Field};
use crate::layout::{block, slot, IDENTITY_KEYS, LONG_TERM_KEYS, STATIC_ADDRESS};
use crate::mirror::Mirror;
use crate::target::{Move, Target};
use calls::draft::Draft;
use reference::codes::{answer, command as code, CONTROLLERS, SLOTS};
use reference::packet::Packet;
use reference::records::{is_static_random, Address, IdentityKey, LongTermKey, Peer, Record, LE_RANDOM};
use reference::Call;

/// A rule: whether it takes an address.
pub type Rule = fn(&Address) -> bool;

/// A hub with such a rule.
pub struct WrongRule {
    /// The hub that is right.
    inner: Mirror,
    /// The rule.
    takes: Rule,
    /// Where the rule stands; everywhere else the right one does.
    place: (Carrier, Field),
}

/// The address of a key record, if it is LE Random.
fn random_one(record: &[u8]) -> Option<Address> {
    let peer = Peer::read(&record[..Peer::LEN]);
    (peer.address_type == LE_RANDOM).then_some(peer.address)
}

/// The addresses of a field in a packet.
fn in_packet(packet: &[u8], field: Field) -> Vec<Address> {
    let Some(packet) = Packet::read(packet) else { return Vec::new() };
    let length = match (field, packet.code) {
        (Field::StaticAddress, code::SET_STATIC_ADDRESS) => {
            return packet.parameters.try_into().into_iter().collect();
        }
        (Field::LongTermKey, code::LOAD_LONG_TERM_KEYS) => LongTermKey::LEN,
        (Field::IdentityKey, code::LOAD_IDENTITY_KEYS) => IdentityKey::LEN,
        _ => return Vec::new(),
    };
    packet.parameters.get(2..).unwrap_or_default().chunks_exact(length).filter_map(random_one).collect()
}

/// The addresses of a field in an image.
fn in_image(image: &[u8], field: Field) -> Vec<Address> {
    let draft = Draft::of(image);
    let controllers = draft.iter().flat_map(|draft| &draft.controllers);
    let table = match field {
        Field::StaticAddress => return controllers.map(|controller| controller.static_address).collect(),
        Field::LongTermKey => 2,
        Field::IdentityKey => 3,
    };
    let records = controllers.flat_map(|controller| &controller.tables[table].records);
    records.filter_map(|record| random_one(record)).collect()
}

/// The addresses of a field in a state.
fn in_state(state: &[u8], field: Field) -> Vec<Address> {
    let blocks = (0..CONTROLLERS).filter_map(|index| state.get(block(index)));
    let of_block = |block: &[u8]| -> Vec<Address> {
        let keys = |table: &[u8], slot: fn(usize) -> std::ops::Range<usize>| {
            (0..SLOTS).filter_map(|place| random_one(&table[slot(place)])).collect()
        };
        match field {
            Field::StaticAddress => block[STATIC_ADDRESS].try_into().into_iter().collect(),
            Field::LongTermKey => keys(&block[LONG_TERM_KEYS], slot::<LongTermKey>),
            Field::IdentityKey => keys(&block[IDENTITY_KEYS], slot::<IdentityKey>),
        }
    };
    blocks.flat_map(of_block).collect()
}

impl WrongRule {
    /// A hub with this rule in a place.
    pub fn new(takes: Rule, place: (Carrier, Field)) -> WrongRule {
        WrongRule { inner: Mirror::default(), takes, place }
    }

    /// What this hub answers where its rule judges otherwise than the right one: done without an octet, or this refusal.
    fn otherwise(&self, carrier: Carrier, octets: &[u8], refusal: u8) -> Option<u64> {
        let (in_force, field) = self.place;
        if carrier != in_force {
            return None;
        }
        let mut addresses = match carrier {
            Carrier::Command => in_packet(octets, field),
            Carrier::Image => in_image(octets, field),
            Carrier::State => in_state(octets, field),
        };
        addresses.retain(|address| *address != [0; 6]);
        let right = addresses.iter().all(is_static_random);
        let found = addresses.iter().all(self.takes);
        (right != found).then_some(if found { answer::DONE } else { refusal }.into())
    }
}

impl Target for WrongRule {
    const STATE_LEN: usize = Mirror::STATE_LEN;

    fn call(&mut self, state: &mut [u8], call: &Call, reply: &mut [u8]) -> u64 {
        let in_packet = || match call {
            Call::Command { packet, .. } => self.otherwise(Carrier::Command, packet, answer::REFUSED),
            _ => None,
        };
        let otherwise = self.otherwise(Carrier::State, state, answer::STATE).or_else(in_packet);
        otherwise.unwrap_or_else(|| self.inner.call(state, call, reply))
    }

    fn name(&mut self, state: &[u8], index: u64, which: u64, reply: &mut [u8]) -> u64 {
        let otherwise = self.otherwise(Carrier::State, state, answer::STATE);
        otherwise.unwrap_or_else(|| self.inner.name(state, index, which, reply))
    }

    fn on_air(&mut self, state: &[u8], index: u64, reply: &mut [u8]) -> u64 {
        let otherwise = self.otherwise(Carrier::State, state, answer::STATE);
        otherwise.unwrap_or_else(|| self.inner.on_air(state, index, reply))
    }

    fn why(&mut self, state: &[u8], packet: &[u8], text: &mut [u8]) -> u64 {
        let otherwise = self.otherwise(Carrier::State, state, answer::STATE);
        otherwise.unwrap_or_else(|| self.inner.why(state, packet, text))
    }

    fn look_up(&self, state: &[u8], index: u64, table: u64, key: &[u8]) -> u64 {
        let otherwise = self.otherwise(Carrier::State, state, answer::STATE);
        otherwise.unwrap_or_else(|| self.inner.look_up(state, index, table, key))
    }

    fn load(&mut self, state: &mut [u8], image: &[u8]) -> u64 {
        let otherwise = self.otherwise(Carrier::Image, image, answer::IMAGE_FIELD);
        otherwise.unwrap_or_else(|| self.inner.load(state, image))
    }

    fn moved(&self, way: Move, image: &[u8], out: &mut [u8]) -> u64 {
        let otherwise = self.otherwise(Carrier::Image, image, answer::IMAGE_FIELD);
        otherwise.unwrap_or_else(|| self.inner.moved(way, image, out))
    }
}
