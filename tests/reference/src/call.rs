//! Calls with their arguments, what they answer, and lists of both.

use crate::reason::Diagnosis;

/// What a call answers: the number, the octets written, how many octets of a lump were taken, and where an image is at fault.
#[derive(Clone, PartialEq, Eq, Hash, Debug)]
pub struct Reply {
    /// One number of the table of answers.
    pub answer: u8,
    /// The octets at the start of the reply buffer.
    pub octets: Vec<u8>,
    /// The octets taken off the serial line; 0 for every call that is no lump.
    pub taken: usize,
    /// Where the first thing at fault of an image begins; 0 for every answer but 71 to 77.
    pub offset: usize,
}

impl Reply {
    /// An answer with the octets that it writes.
    pub fn new(answer: u8, octets: Vec<u8>) -> Reply {
        Reply { answer, octets, taken: 0, offset: 0 }
    }

    /// An answer that writes nothing.
    pub fn bare(answer: u8) -> Reply {
        Reply::new(answer, Vec::new())
    }

    /// The refusal of an image.
    pub fn bad_image(diagnosis: Diagnosis) -> Reply {
        Reply { offset: diagnosis.offset, ..Reply::bare(diagnosis.fault.answer()) }
    }
}

/// A call with its arguments; `room` is the length of the reply buffer.
#[derive(Clone, PartialEq, Eq, Hash, Debug)]
pub enum Call {
    /// A command packet.
    Command {
        /// The packet's octets, of any number.
        packet: Vec<u8>,
        /// Length of the reply buffer.
        room: usize,
    },
    /// A lump of octets off the serial line.
    Stream {
        /// The octets, of any number.
        octets: Vec<u8>,
        /// Length of the reply buffer.
        room: usize,
    },
    /// A radio report.
    Report {
        /// The controller.
        index: u64,
        /// 0 for success.
        status: u64,
        /// Length of the reply buffer.
        room: usize,
    },
    /// A clock reading.
    Clock {
        /// Seconds.
        reading: u32,
        /// Length of the reply buffer.
        room: usize,
    },
    /// A controller comes.
    Plug {
        /// Its index.
        index: u64,
        /// Its public address.
        address: Vec<u8>,
        /// Its Bluetooth version octet.
        version: u8,
        /// Its manufacturer.
        manufacturer: u16,
        /// Its supported settings.
        supported: u32,
        /// Length of the reply buffer.
        room: usize,
    },
    /// A controller goes.
    Unplug {
        /// Its index.
        index: u64,
        /// Length of the reply buffer.
        room: usize,
    },
    /// The image is asked for.
    Save {
        /// Length of the reply buffer.
        room: usize,
    },
}

impl Call {
    /// The length of the reply buffer.
    pub fn room(&self) -> usize {
        match self {
            Call::Command { room, .. }
            | Call::Stream { room, .. }
            | Call::Report { room, .. }
            | Call::Clock { room, .. }
            | Call::Plug { room, .. }
            | Call::Unplug { room, .. }
            | Call::Save { room } => *room,
        }
    }
}

/// A call of a list with what came back.
#[derive(Clone, PartialEq, Eq, Hash, Debug)]
pub struct Traced {
    /// The call.
    pub call: Call,
    /// Its answer.
    pub answer: u8,
    /// The octets it wrote.
    pub octets: Vec<u8>,
    /// The octets it took off the serial line.
    pub taken: usize,
}

impl Traced {
    /// A call and its reply as one.
    pub fn new(call: Call, reply: Reply) -> Traced {
        Traced { call, answer: reply.answer, octets: reply.octets, taken: reply.taken }
    }
}
