//! The serial line: packets that are on it, and the lumps that they come off it in.

use crate::random::Random;
use reference::codes::{command as code, NON_CONTROLLER};
use reference::packet::{frame, little_endian};
use reference::stream::WHOLE;
use reference::Waiting;

/// More octets than this wait on the line only for a moment.
const MANY: usize = 400;
/// A packet that lacks more octets than this beyond those on the line is mostly ended at once: the stream is out of step.
const FAR: usize = 200;

/// What was sent and is not taken yet.
#[derive(Clone, Debug, Default)]
pub struct Line {
    /// The octets, the next one first.
    octets: Vec<u8>,
}

/// A packet that is too long to be kept: lists whose count fits their length or not, and any other code.
fn long_packet(random: &mut Random, index: u16) -> Vec<u8> {
    let (code, before, size) = random.pick(&[
        (code::LOAD_LINK_KEYS, 3, 25),
        (code::LOAD_LONG_TERM_KEYS, 2, 36),
        (code::LOAD_IDENTITY_KEYS, 2, 23),
    ]);
    let most = random.pick(&[60, 300, 1_820]);
    let count = random.between(51, most);
    let length = match random.below(6) {
        0 | 1 => before + size * count,
        2 => WHOLE - 5,
        3 => 0xFFFF,
        4 => random.between(WHOLE - 5, 2_000),
        _ => random.between(WHOLE - 5, 0xFFFF),
    };
    let mut parameters = random.octets(length);
    parameters[..before - 2].fill(0);
    parameters[before - 2..before].copy_from_slice(&(count as u16).to_le_bytes());
    match random.below(8) {
        0 => frame(random.below(0x60) as u16, index, &parameters),
        1 => frame(code, random.pick(&[4, 0x100, NON_CONTROLLER]), &parameters),
        2 => frame(random.between(1, 3) as u16, NON_CONTROLLER, &parameters),
        _ => frame(code, index, &parameters),
    }
}

impl Line {
    /// Whether the next call is a lump of what is on the line already.
    pub fn goes_on(&self, random: &mut Random) -> bool {
        !self.octets.is_empty() && (self.octets.len() > MANY || random.percent(60))
    }

    /// Sends a packet; now and then a long one or noise before it.
    pub fn put(&mut self, random: &mut Random, packet: &[u8]) {
        match random.below(100) {
            0..3 => {
                let index = if packet.len() < 4 { 0 } else { little_endian(packet, 2) };
                self.octets.extend(long_packet(random, index));
            }
            3 => {
                let count = random.between(1, 12);
                self.octets.extend(random.octets(count));
            }
            _ => {}
        }
        self.octets.extend_from_slice(packet);
    }

    /// The next lump for a hub where this waits. Where the stream is out of step the packet is ended with zeros or noise, at the
    /// latest after a while, and the next one begins behind it.
    pub fn lump(&mut self, random: &mut Random, waiting: &Waiting) -> Vec<u8> {
        let missing = waiting.length() - waiting.taken;
        if random.percent(if missing > self.octets.len() + FAR { 50 } else { 2 }) {
            self.octets.clear();
            if waiting.taken > 0 {
                self.octets = if random.percent(50) { vec![0; missing] } else { random.octets(missing) };
            }
        }
        let on_line = self.octets.len();
        let to_end = waiting.clone().take(&self.octets).0;
        let length = match random.below(24) {
            0 => 0,
            1..4 => 1,
            4..6 => random.between(1, 6),
            6..10 => to_end,
            10..12 => to_end.saturating_sub(1),
            12 => to_end + random.below(8),
            13..19 => on_line,
            19 => to_end / 2,
            _ => random.between(0, on_line),
        };
        self.octets[..length.min(on_line)].to_vec()
    }

    /// So many octets were taken of a lump: they are off the line, and the rest comes again. Now and then the rest is lost, or
    /// something comes twice.
    pub fn took(&mut self, random: &mut Random, taken: usize, lump: usize) {
        let gone = match random.below(150) {
            0 => lump,
            1 => taken.saturating_sub(random.between(1, 3)),
            _ => taken,
        };
        self.octets.drain(..gone);
    }
}
