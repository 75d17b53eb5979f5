//! Command packets as they come in, replies and events as they go out.

use crate::codes::{event, status};

/// Octets of a packet's header.
pub const HEADER: usize = 6;

/// A command packet whose length field is right.
#[derive(Clone, Copy, PartialEq, Eq, Hash, Debug)]
pub struct Packet<'a> {
    /// The command code.
    pub code: u16,
    /// The index field.
    pub index: u16,
    /// What stands after the header.
    pub parameters: &'a [u8],
}

/// Two octets, the lower first.
pub fn little_endian(octets: &[u8], at: usize) -> u16 {
    u16::from_le_bytes([octets[at], octets[at + 1]])
}

impl Packet<'_> {
    /// Reads a packet; none if it is under 6 octets or its length field is not
    /// the number of octets after the header.
    pub fn read(octets: &[u8]) -> Option<Packet<'_>> {
        if octets.len() < HEADER {
            return None;
        }
        let parameters = &octets[HEADER..];
        let fits = usize::from(little_endian(octets, 4)) == parameters.len();
        fits.then(|| Packet { code: little_endian(octets, 0), index: little_endian(octets, 2), parameters })
    }
}

/// The octets of an event, or of a command packet: both have one layout.
pub fn frame(code: u16, index: u16, parameters: &[u8]) -> Vec<u8> {
    let mut out = Vec::with_capacity(HEADER + parameters.len());
    out.extend_from_slice(&code.to_le_bytes());
    out.extend_from_slice(&index.to_le_bytes());
    out.extend_from_slice(&(parameters.len() as u16).to_le_bytes());
    out.extend_from_slice(parameters);
    out
}

/// A Command Status event.
pub fn command_status(index: u16, code: u16, status: u8) -> Vec<u8> {
    let [low, high] = code.to_le_bytes();
    frame(event::COMMAND_STATUS, index, &[low, high, status])
}

/// A Command Complete event with any status.
pub fn command_complete(index: u16, code: u16, status: u8, returned: &[u8]) -> Vec<u8> {
    let mut parameters = code.to_le_bytes().to_vec();
    parameters.push(status);
    parameters.extend_from_slice(returned);
    frame(event::COMMAND_COMPLETE, index, &parameters)
}

/// The Command Complete of a command that was done.
pub fn success(index: u16, code: u16, returned: &[u8]) -> Vec<u8> {
    command_complete(index, code, status::SUCCESS, returned)
}
