//! Packets to ask about: commands of all kinds, most of them damaged in more than one way, so that several checks stand against them.

use crate::generator::Generator;
use crate::random::Random;
use crate::records::Kind;
use crate::spoiling::spoil_parameters;
use reference::codes::command as code;
use reference::packet::{frame, Packet};
use reference::{Call, Hub};

/// How many packets a run asks about after each list.
pub const PACKETS: usize = 24;

/// Values at the edge of some rule.
const EDGES: [u8; 16] = [0, 1, 2, 3, 4, 5, 6, 7, 8, 9, 16, 17, 31, 32, 0xC0, 0xFF];

/// A source of packets.
#[derive(Clone, Debug)]
pub struct Packets {
    /// Where they come from.
    generator: Generator,
}

impl Packets {
    /// A source for a seed.
    pub fn new(seed: u64) -> Packets {
        Packets { generator: Generator::new(seed.rotate_left(32) ^ 0x57) }
    }

    /// The next packet, chosen with the hub in view.
    pub fn next(&mut self, hub: &Hub) -> Vec<u8> {
        loop {
            if let Call::Command { packet, .. } = self.generator.next(hub) {
                return damaged(self.generator.random(), packet);
            }
        }
    }
}

/// A packet with other parameters; one that is none stays as it is.
fn damaged(random: &mut Random, octets: Vec<u8>) -> Vec<u8> {
    let Some(packet) = Packet::read(&octets) else { return octets };
    let mut parameters = packet.parameters.to_vec();
    match random.below(8) {
        0 | 1 => {}
        2 => {
            let length = random.below(parameters.len() + 2);
            parameters.resize(length, random.octet());
        }
        3 => repeat_records(random, packet.code, &mut parameters),
        4 | 5 => {
            for _ in 0..random.between(1, 3) {
                spoil_parameters(random, packet.code, &mut parameters);
            }
        }
        _ => put_edges(random, &mut parameters),
    }
    frame(packet.code, packet.index, &parameters)
}

/// Puts values at the edge of some rule into one to three octets, mostly among the first ones.
fn put_edges(random: &mut Random, parameters: &mut [u8]) {
    if parameters.is_empty() {
        return;
    }
    for _ in 0..random.between(1, 3) {
        let most = if random.percent(70) { parameters.len().min(20) } else { parameters.len() };
        parameters[random.below(most)] = random.pick(&EDGES);
    }
}

/// The octets before the records of a key list, and those of a record.
fn shape(code: u16) -> Option<(usize, usize)> {
    match code {
        code::LOAD_LINK_KEYS => Some((3, Kind::LinkKey.length())),
        code::LOAD_LONG_TERM_KEYS => Some((2, Kind::LongTermKey.length())),
        code::LOAD_IDENTITY_KEYS => Some((2, Kind::IdentityKey.length())),
        _ => None,
    }
}

/// Copies records of a key list over others, one to four times: three of a kind, and pairs one inside or beside the other.
fn repeat_records(random: &mut Random, code: u16, parameters: &mut [u8]) {
    let Some((before, length)) = shape(code) else { return };
    let count = parameters.len().saturating_sub(before) / length;
    if count < 2 {
        return;
    }
    for _ in 0..random.between(1, 4) {
        let (from, to) = (before + length * random.below(count), before + length * random.below(count));
        parameters.copy_within(from..from + length, to);
    }
}
