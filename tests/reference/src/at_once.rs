//! The at-once hub: it knows no radio, so nothing is ever under way and a
//! command that would be started is done at once.

use crate::call::{Call, Reply};
use crate::codes::{answer, CONTROLLERS, REPLY_ROOM};
use crate::hub::{clock, done, room_fault, save};
use crate::image;
use crate::packet::Packet;
use crate::state::{State, Verdict};

/// The at-once hub.
#[derive(Clone, PartialEq, Eq, Hash, Debug, Default)]
pub struct AtOnceHub {
    /// Clock and controllers.
    state: State,
}

impl AtOnceHub {
    /// The fresh hub: no controllers, clock 0.
    pub fn new() -> AtOnceHub {
        AtOnceHub::default()
    }

    /// The whole state.
    pub fn state(&self) -> &State {
        &self.state
    }

    /// Any call but load and lumps. A report finds nothing under way. What a list reduces to has packets for lumps.
    pub fn call(&mut self, call: &Call) -> Reply {
        match call {
            Call::Command { packet, room } => self.command(packet, *room),
            Call::Stream { .. } => panic!("the at-once hub is fed no lumps"),
            Call::Report { room, .. } => {
                room_fault(*room, REPLY_ROOM).unwrap_or(Reply::bare(answer::ARGUMENT))
            }
            Call::Clock { reading, room } => clock(&mut self.state, *reading, *room),
            Call::Plug { index, address, version, manufacturer, supported, room } => {
                if let Some(reply) = room_fault(*room, REPLY_ROOM) {
                    return reply;
                }
                match self.state.plugged(*index, address, *version, *manufacturer, *supported) {
                    Ok(controller) => done(self.state.add(*index as usize, controller)),
                    Err(_) => Reply::bare(answer::ARGUMENT),
                }
            }
            Call::Unplug { index, room } => self.unplug(*index, *room),
            Call::Save { room } => save(&self.state, *room),
        }
    }

    /// A command packet: refused or done, never Busy, never started.
    fn command(&mut self, packet: &[u8], room: usize) -> Reply {
        if let Some(reply) = room_fault(room, REPLY_ROOM) {
            return reply;
        }
        let Some(packet) = Packet::read(packet) else {
            return Reply::bare(answer::PACKET);
        };
        match self.state.judge(&packet, [false; CONTROLLERS]) {
            Verdict::Refused(_, octets) => Reply::new(answer::REFUSED, octets),
            Verdict::Answered(octets) => done(octets),
            Verdict::Accepted { index, command, .. } => done(self.state.act(index, &command)),
        }
    }

    /// A controller goes.
    fn unplug(&mut self, index: u64, room: usize) -> Reply {
        if let Some(reply) = room_fault(room, REPLY_ROOM) {
            return reply;
        }
        match self.state.controller(index) {
            Some(_) => done(self.state.remove(index as usize)),
            None => Reply::bare(answer::ARGUMENT),
        }
    }

    /// Makes the hub from an image; a refused image leaves it as it was.
    pub fn load(&mut self, image: &[u8]) -> Reply {
        match image::load(image) {
            Ok(state) => {
                self.state = state;
                Reply::bare(answer::DONE)
            }
            Err(diagnosis) => Reply::bad_image(diagnosis),
        }
    }
}
