//! The reference hub behind a state buffer, to try the comparison itself.
//!
//! The buffer holds the octets of the state; they are not read back, but looked
//! for among those of the last states, which are kept aside. Open commands, what plug told, the
//! settings, the LE keys, the advertising parts and what waits alone may be others, and are read.

use crate::layout::{
    block, encode, ADVERTISING, IDENTITY_KEYS, LONG_TERM_KEYS, OPEN, STATE, STATIC_ADDRESS, WAITING,
};
use crate::switches;
use crate::target::{Move, Target};
use crate::waiting;
use reference::codes::answer;
use reference::reason::ArgumentFault;
use reference::{downgrade, upgrade, Call, Hub, LookUp, Reply};
use std::collections::VecDeque;

/// How many states are kept: more than come from altered states between two uses of a list's own.
const KEPT: usize = 64;

/// The last states.
#[derive(Default)]
pub struct Mirror {
    /// Their octets, with the hubs that they stand for.
    kept: VecDeque<(Vec<u8>, Hub)>,
}

/// The number that a C host gets for a reply, its octets written.
pub fn number(reply: &Reply, buffer: &mut [u8]) -> u64 {
    buffer[..reply.octets.len()].copy_from_slice(&reply.octets);
    let second = (reply.taken + reply.offset) as u64;
    u64::from(reply.answer) + 256 * reply.octets.len() as u64 + (second << 32)
}

/// What a move of an image gives.
pub fn moved(way: Move, image: &[u8], room: usize) -> Reply {
    match way {
        Move::Upgrade => upgrade(image, room),
        Move::Downgrade => downgrade(image, room),
    }
}

/// The number that a C host gets for a look-up.
pub fn look_up_number(found: Result<LookUp, ArgumentFault>) -> u64 {
    match found {
        Ok(found) => u64::from(answer::DONE) + (found.number() << 32),
        Err(_) => answer::ARGUMENT.into(),
    }
}

impl Mirror {
    /// The hub that a buffer stands for.
    pub fn read(&self, state: &[u8]) -> Option<Hub> {
        let same = self.kept.iter().rev().find(|(kept, _)| kept == state);
        same.map(|(_, hub)| hub.clone()).or_else(|| self.read_altered(state))
    }

    /// The hub that a buffer stands for which differs from a kept state in the parts alone that are read.
    fn read_altered(&self, state: &[u8]) -> Option<Hub> {
        let like = |octets: &[u8], hub: &Hub| {
            let mut octets = octets.to_vec();
            for index in hub.state().present() {
                let (kept, found) = (&mut octets[block(index)], state.get(block(index))?);
                let settings = OPEN..STATIC_ADDRESS.end;
                for part in [settings, LONG_TERM_KEYS, IDENTITY_KEYS, ADVERTISING..found.len()] {
                    kept[part.clone()].copy_from_slice(&found[part]);
                }
            }
            octets[WAITING].copy_from_slice(&state[WAITING]);
            (octets == state).then_some(())
        };
        if state.len() != STATE {
            return None;
        }
        let (_, kept) = self.kept.iter().rev().find(|(octets, hub)| like(octets, hub).is_some())?;
        let mut hub = kept.with_waiting(waiting::read(&state[WAITING])?);
        for index in kept.state().present() {
            let (controller, open) =
                switches::read(&state[block(index)], kept.state().controller(index as u64)?)?;
            hub = hub.with_controller(index, controller).with_open(index, open);
        }
        Some(hub)
    }

    /// Puts the octets of a hub into a buffer.
    pub fn write(&mut self, state: &mut [u8], hub: Hub) {
        let octets = encode(&hub);
        state.copy_from_slice(&octets);
        self.keep(octets, hub);
    }

    /// Keeps a state as the last one used; the one that was not used for longest goes.
    fn keep(&mut self, octets: Vec<u8>, hub: Hub) {
        self.kept.retain(|(kept, _)| *kept != octets);
        self.kept.push_back((octets, hub));
        if self.kept.len() > KEPT {
            self.kept.pop_front();
        }
    }
}

impl Target for Mirror {
    const STATE_LEN: usize = STATE;

    fn call(&mut self, state: &mut [u8], call: &Call, reply: &mut [u8]) -> u64 {
        let Some(mut hub) = self.read(state) else {
            return answer::STATE.into();
        };
        self.keep(state.to_vec(), hub.clone());
        let given = hub.call(call);
        if given.answer <= answer::STARTED || given.taken > 0 {
            self.write(state, hub);
        }
        number(&given, reply)
    }

    fn name(&mut self, state: &[u8], index: u64, which: u64, reply: &mut [u8]) -> u64 {
        match self.read(state) {
            Some(hub) => number(&hub.name(index, which, reply.len()), reply),
            None => answer::STATE.into(),
        }
    }

    fn on_air(&mut self, state: &[u8], index: u64, reply: &mut [u8]) -> u64 {
        match self.read(state) {
            Some(hub) => number(&hub.on_air(index, reply.len()), reply),
            None => answer::STATE.into(),
        }
    }

    fn why(&mut self, state: &[u8], packet: &[u8], text: &mut [u8]) -> u64 {
        match self.read(state) {
            Some(hub) => {
                let (reply, status) = hub.why(packet, text.len());
                number(&reply, text) + (u64::from(status) << 32)
            }
            None => answer::STATE.into(),
        }
    }

    fn look_up(&self, state: &[u8], index: u64, table: u64, key: &[u8]) -> u64 {
        match self.read(state) {
            Some(hub) => look_up_number(hub.look_up(index, table, key)),
            None => answer::STATE.into(),
        }
    }

    fn load(&mut self, state: &mut [u8], image: &[u8]) -> u64 {
        if state.len() != Mirror::STATE_LEN {
            return answer::STATE.into();
        }
        let mut hub = Hub::new();
        let given = hub.load(image);
        if given.answer == answer::DONE {
            self.write(state, hub);
        }
        number(&given, &mut [])
    }

    fn moved(&self, way: Move, image: &[u8], out: &mut [u8]) -> u64 {
        number(&moved(way, image, out.len()), out)
    }
}
