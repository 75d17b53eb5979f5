//! The hub: commands may wait for the radio, and one under way makes others Busy.

use crate::call::{Call, Reply};
use crate::codes::{answer, status, CONTROLLERS, IMAGE_ROOM, REPLY_ROOM};
use crate::command::Command;
use crate::controller::Controller;
use crate::image;
use crate::look_up::{look_up, LookUp};
use crate::packet::{command_status, Packet};
use crate::reason::{ArgumentFault, Reason};
use crate::state::{State, Verdict};
use crate::stream::Waiting;
use crate::why::{self, Fault, TEXT_ROOM};

/// The reference hub.
#[derive(Clone, PartialEq, Eq, Hash, Debug, Default)]
pub struct Hub {
    /// Clock and controllers.
    state: State,
    /// The command under way at each index.
    open: [Option<Command>; CONTROLLERS],
    /// What is there of the packet that is coming in off the serial line.
    waiting: Waiting,
}

/// The answer 4, where the reply buffer is too small.
pub(crate) fn room_fault(room: usize, least: usize) -> Option<Reply> {
    (room < least).then(|| Reply::bare(answer::ROOM))
}

/// The answer 0 with its octets.
pub(crate) fn done(octets: Vec<u8>) -> Reply {
    Reply::new(answer::DONE, octets)
}

impl Hub {
    /// The fresh hub: no controllers, clock 0.
    pub fn new() -> Hub {
        Hub::default()
    }

    /// Clock and controllers, open commands and waiting octets aside.
    pub fn state(&self) -> &State {
        &self.state
    }

    /// The command under way at an index of any size.
    pub fn open(&self, index: u64) -> Option<&Command> {
        let index = usize::try_from(index).ok()?;
        self.open.get(index)?.as_ref()
    }

    /// The same hub with another controller at an index.
    pub fn with_controller(&self, index: usize, controller: Controller) -> Hub {
        let mut hub = self.clone();
        hub.state.controllers[index] = Some(controller);
        hub
    }

    /// The same hub with another command under way at an index, or none.
    pub fn with_open(&self, index: usize, command: Option<Command>) -> Hub {
        let mut hub = self.clone();
        hub.open[index] = command;
        hub
    }

    /// What is there of the packet that is coming in.
    pub fn waiting(&self) -> &Waiting {
        &self.waiting
    }

    /// The same hub with other octets waiting, or none.
    pub fn with_waiting(&self, waiting: Waiting) -> Hub {
        Hub { waiting, ..self.clone() }
    }

    /// Where a command is under way.
    fn busy(&self) -> [bool; CONTROLLERS] {
        std::array::from_fn(|index| self.open[index].is_some())
    }

    /// Any call but load.
    pub fn call(&mut self, call: &Call) -> Reply {
        match call {
            Call::Command { packet, room } => self.command(packet, *room),
            Call::Stream { octets, room } => self.stream(octets, *room),
            Call::Report { index, status, room } => self.report(*index, *status, *room),
            Call::Clock { reading, room } => self.clock(*reading, *room),
            Call::Plug { index, address, version, manufacturer, supported, room } => {
                self.plug(*index, address, *version, *manufacturer, *supported, *room)
            }
            Call::Unplug { index, room } => self.unplug(*index, *room),
            Call::Save { room } => self.save(*room),
        }
    }

    /// A command packet.
    pub fn command(&mut self, packet: &[u8], room: usize) -> Reply {
        if let Some(reply) = room_fault(room, REPLY_ROOM) {
            return reply;
        }
        let Some(packet) = Packet::read(packet) else {
            return Reply::bare(answer::PACKET);
        };
        match self.state.judge(&packet, self.busy()) {
            Verdict::Refused(_, octets) => Reply::new(answer::REFUSED, octets),
            Verdict::Answered(octets) => done(octets),
            Verdict::Accepted { index, command, started: true } => {
                self.open[index] = Some(command);
                Reply::bare(answer::STARTED)
            }
            Verdict::Accepted { index, command, started: false } => done(self.state.act(index, &command)),
        }
    }

    /// A lump of octets off the serial line: they are taken up to the end of the packet that is coming in, and a packet that is
    /// finished is a command. With too little room nothing is taken.
    pub fn stream(&mut self, octets: &[u8], room: usize) -> Reply {
        if let Some(reply) = room_fault(room, REPLY_ROOM) {
            return reply;
        }
        let (taken, packet) = self.waiting.take(octets);
        let reply = match packet {
            Some(packet) => self.command(&packet, room),
            None => Reply::bare(answer::INCOMPLETE),
        };
        Reply { taken, ..reply }
    }

    /// What each check has against a packet, the one that answers first; none
    /// for a packet that is done, started or answered 3.
    pub fn faults(&self, packet: &[u8]) -> Vec<Fault> {
        match Packet::read(packet) {
            Some(packet) => self.state.faults(&packet, self.busy()),
            None => Vec::new(),
        }
    }

    /// The reasons of these.
    pub fn reasons(&self, packet: &[u8]) -> Vec<Reason> {
        self.faults(packet).iter().map(|fault| fault.reason).collect()
    }

    /// Why a command would be refused, in words, and the status of the refusal, 0 if it would be taken. A host asks
    /// for this; nothing changes.
    pub fn why(&self, packet: &[u8], room: usize) -> (Reply, u8) {
        if let Some(reply) = room_fault(room, TEXT_ROOM) {
            return (reply, 0);
        }
        if Packet::read(packet).is_none() {
            return (Reply::bare(answer::PACKET), 0);
        }
        let fault = self.faults(packet).first().copied();
        let status = fault.map_or(status::SUCCESS, |fault| fault.reason.status());
        (done(why::text(fault).into_bytes()), status)
    }

    /// Why a report is refused, if it is.
    pub fn report_fault(&self, index: u64, status: u64) -> Option<ArgumentFault> {
        if self.open(index).is_none() {
            Some(ArgumentFault::NothingUnderWay)
        } else {
            (status > status::LAST.into()).then_some(ArgumentFault::ReportStatus)
        }
    }

    /// A radio report: the command under way acts, or fails with the status.
    pub fn report(&mut self, index: u64, status: u64, room: usize) -> Reply {
        if let Some(reply) = room_fault(room, REPLY_ROOM) {
            return reply;
        }
        if self.report_fault(index, status).is_some() {
            return Reply::bare(answer::ARGUMENT);
        }
        let place = index as usize;
        match self.open[place].take() {
            Some(command) if status == 0 => done(self.state.act(place, &command)),
            Some(command) => done(command_status(index as u16, command.code(), status as u8)),
            None => Reply::bare(answer::ARGUMENT),
        }
    }

    /// A clock reading: timers run, ended ones turn discoverable off; advertising goes round.
    pub fn clock(&mut self, reading: u32, room: usize) -> Reply {
        clock(&mut self.state, reading, room)
    }

    /// A controller comes.
    pub fn plug(
        &mut self,
        index: u64,
        address: &[u8],
        version: u8,
        manufacturer: u16,
        supported: u32,
        room: usize,
    ) -> Reply {
        if let Some(reply) = room_fault(room, REPLY_ROOM) {
            return reply;
        }
        match self.state.plugged(index, address, version, manufacturer, supported) {
            Ok(controller) => done(self.state.add(index as usize, controller)),
            Err(_) => Reply::bare(answer::ARGUMENT),
        }
    }

    /// A controller goes; a command under way is told so first.
    pub fn unplug(&mut self, index: u64, room: usize) -> Reply {
        if let Some(reply) = room_fault(room, REPLY_ROOM) {
            return reply;
        }
        if self.state.controller(index).is_none() {
            return Reply::bare(answer::ARGUMENT);
        }
        let place = index as usize;
        let mut octets = Vec::new();
        if let Some(command) = self.open[place].take() {
            octets = command_status(index as u16, command.code(), status::INVALID_INDEX);
        }
        octets.extend(self.state.remove(place));
        done(octets)
    }

    /// The image of the hub.
    pub fn save(&self, room: usize) -> Reply {
        save(&self.state, room)
    }

    /// The used part of a name, which a host asks for; nothing changes.
    pub fn name(&self, index: u64, which: u64, room: usize) -> Reply {
        if let Some(reply) = room_fault(room, REPLY_ROOM) {
            return reply;
        }
        match self.state.controller(index).and_then(|controller| controller.local_name.used(which)) {
            Some(octets) => done(octets.to_vec()),
            None => Reply::bare(answer::ARGUMENT),
        }
    }

    /// What the instance on air sends, which a host asks for; nothing changes.
    pub fn on_air(&self, index: u64, room: usize) -> Reply {
        if let Some(reply) = room_fault(room, REPLY_ROOM) {
            return reply;
        }
        match self.state.controller(index) {
            Some(controller) => done(controller.advertising.on_air()),
            None => Reply::bare(answer::ARGUMENT),
        }
    }

    /// Where a key stands in a table, which a host asks for; nothing changes. The fault is the first of index, table and length.
    pub fn look_up(&self, index: u64, table: u64, key: &[u8]) -> Result<LookUp, ArgumentFault> {
        look_up(self.state.controller(index).ok_or(ArgumentFault::Absent)?, table, key)
    }

    /// Makes the hub from an image; a refused image leaves it as it was.
    pub fn load(&mut self, image: &[u8]) -> Reply {
        match image::load(image) {
            Ok(state) => {
                *self = Hub { state, ..Hub::default() };
                Reply::bare(answer::DONE)
            }
            Err(diagnosis) => Reply::bad_image(diagnosis),
        }
    }
}

/// A clock call on either hub.
pub(crate) fn clock(state: &mut State, reading: u32, room: usize) -> Reply {
    if let Some(reply) = room_fault(room, REPLY_ROOM) {
        reply
    } else if state.clock_fault(reading).is_some() {
        Reply::bare(answer::ARGUMENT)
    } else {
        done(state.tick(reading))
    }
}

/// A save call on either hub.
pub(crate) fn save(state: &State, room: usize) -> Reply {
    room_fault(room, IMAGE_ROOM).unwrap_or_else(|| done(image::save(state)))
}
