//! Packets off a serial line: what is there of the packet that is coming in, and how octets finish it.

use crate::packet::HEADER;

/// The octets of the longest packet that is kept whole: a list of 32 long term keys.
pub const WHOLE: usize = 1_160;
/// What is kept of a longer packet: its header and the first four parameter octets, which decide how it is refused.
pub const HEAD: usize = HEADER + 4;

/// The octets taken so far of the packet that is coming in; none if nothing waits.
#[derive(Clone, PartialEq, Eq, Hash, Debug, Default)]
pub struct Waiting {
    /// How many octets were taken, fewer than the packet has.
    pub taken: usize,
    /// Those of them that are kept.
    pub kept: Vec<u8>,
}

impl Waiting {
    /// An octet that is kept; one that has not come yet reads as zero.
    fn octet(&self, place: usize) -> usize {
        self.kept.get(place).copied().unwrap_or(0).into()
    }

    /// How many octets the packet has by its header, as far as that has come.
    pub fn length(&self) -> usize {
        HEADER + self.octet(4) + 256 * self.octet(5)
    }

    /// Whether the packet is too long to be kept.
    pub fn is_long(&self) -> bool {
        self.length() > WHOLE
    }

    /// Takes one octet.
    fn push(&mut self, octet: u8) {
        let most = if self.is_long() { HEAD } else { WHOLE };
        if self.kept.len() < most {
            self.kept.push(octet);
        }
        self.taken += 1;
    }

    /// Takes octets up to the end of the packet. Tells how many, and gives the packet if that is finished: the next one has nothing
    /// then. Of a long packet the octets that were not kept are given as zeros: whatever they were, the refusal is the same.
    pub fn take(&mut self, octets: &[u8]) -> (usize, Option<Vec<u8>>) {
        for (place, octet) in octets.iter().enumerate() {
            self.push(*octet);
            if self.taken == self.length() {
                let Waiting { taken, kept: mut packet } = std::mem::take(self);
                packet.resize(taken, 0);
                return (place + 1, Some(packet));
            }
        }
        (octets.len(), None)
    }
}
