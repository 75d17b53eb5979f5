//! The clock and the controllers: what both hubs share, open commands aside.

use crate::checks::{all_faults, is_started, refusal, Case};
use crate::codes::{command as code, event, CONTROLLERS, NON_CONTROLLER};
use crate::command::{is_global, is_known, length_fault, Command};
use crate::controller::{Controller, Hardware};
use crate::effects::{act, advertising_removed, new_settings};
use crate::packet::{command_complete, command_status, frame, success, Packet};
use crate::reason::{ArgumentFault, Reason};
use crate::why::{found, Fault, CODE, INDEX};

/// The last clock reading and up to four controllers.
#[derive(Clone, PartialEq, Eq, Hash, Debug, Default)]
pub struct State {
    /// The last clock reading in seconds.
    pub clock: u32,
    /// The controller of each index, where one is present.
    pub controllers: [Option<Controller>; CONTROLLERS],
}

/// What a command packet comes to.
#[derive(Debug)]
pub enum Verdict {
    /// Refused, with this one reply.
    Refused(Fault, Vec<u8>),
    /// Answered at once, about no controller.
    Answered(Vec<u8>),
    /// Nothing stands against it.
    Accepted {
        /// The controller's index.
        index: usize,
        /// The command.
        command: Command,
        /// Whether it waits for the radio.
        started: bool,
    },
}

impl State {
    /// The controller at an index of any size.
    pub fn controller(&self, index: u64) -> Option<&Controller> {
        let index = usize::try_from(index).ok()?;
        self.controllers.get(index)?.as_ref()
    }

    /// The present indexes, ascending.
    pub fn present(&self) -> impl Iterator<Item = usize> + '_ {
        (0..CONTROLLERS).filter(|index| self.controllers[*index].is_some())
    }

    /// The checks before the values: code, index, length.
    fn early_refusal(&self, packet: &Packet) -> Option<Fault> {
        let (reason, there) = if is_global(packet.code) {
            (Reason::HubIndex, packet.index == NON_CONTROLLER)
        } else {
            (Reason::ControllerIndex, self.controller(packet.index.into()).is_some())
        };
        found(!is_known(packet.code), Reason::UnknownCommand, CODE)
            .or(found(!there, reason, INDEX))
            .or_else(|| length_fault(packet))
    }

    /// Judges a packet. `busy` tells at which indexes a command is under way.
    pub fn judge(&self, packet: &Packet, busy: [bool; CONTROLLERS]) -> Verdict {
        if let Some(fault) = self.early_refusal(packet) {
            let reply = command_status(packet.index, packet.code, fault.reason.status());
            return Verdict::Refused(fault, reply);
        }
        let Some(controller) = self.controller(packet.index.into()) else {
            return Verdict::Answered(self.answer_global(packet.code));
        };
        let command = Command::read(packet);
        let index = usize::from(packet.index);
        let case = Case { controller, busy: busy[index], command: &command };
        match refusal(&case) {
            Some(fault) => Verdict::Refused(fault, refusal_reply(packet, &command, fault.reason)),
            None => {
                let started = is_started(controller, &command);
                Verdict::Accepted { index, command, started }
            }
        }
    }

    /// What each check has against a packet, the one that answers first.
    pub fn faults(&self, packet: &Packet, busy: [bool; CONTROLLERS]) -> Vec<Fault> {
        if let Some(fault) = self.early_refusal(packet) {
            return vec![fault];
        }
        match self.controller(packet.index.into()) {
            Some(controller) => {
                let busy = busy[usize::from(packet.index)];
                all_faults(&Case { controller, busy, command: &Command::read(packet) })
            }
            None => Vec::new(),
        }
    }

    /// The replies of the three commands about no controller.
    fn answer_global(&self, code: u16) -> Vec<u8> {
        let numbers: Vec<u16> = match code {
            code::READ_VERSION => return success(NON_CONTROLLER, code, &[1, 10, 0]),
            code::READ_COMMANDS => {
                let codes = &code::KNOWN[2..];
                let counts = [codes.len() as u16, event::LISTED.len() as u16];
                [&counts[..], codes, &event::LISTED].concat()
            }
            _ => {
                let count = self.present().count() as u16;
                std::iter::once(count).chain(self.present().map(|index| index as u16)).collect()
            }
        };
        let octets: Vec<u8> = numbers.iter().flat_map(|number| number.to_le_bytes()).collect();
        success(NON_CONTROLLER, code, &octets)
    }

    /// Does an accepted command at a present index.
    pub fn act(&mut self, index: usize, command: &Command) -> Vec<u8> {
        match &mut self.controllers[index] {
            Some(controller) => act(controller, index as u16, command),
            None => Vec::new(),
        }
    }

    /// Whether a controller has BR/EDR off though it is supported.
    pub fn has_br_edr_off(&self) -> bool {
        self.controllers.iter().flatten().any(Controller::has_br_edr_off)
    }

    /// Why a clock reading is refused, if it is.
    pub fn clock_fault(&self, reading: u32) -> Option<ArgumentFault> {
        let step = reading.wrapping_sub(self.clock);
        (step >= 1 << 31).then_some(ArgumentFault::ClockStep)
    }

    /// Takes a new clock reading and gives, for each index, New Settings if its timer ended, then Advertising Removed for
    /// each instance whose timeout ran out.
    pub fn tick(&mut self, reading: u32) -> Vec<u8> {
        let step = reading.wrapping_sub(self.clock);
        self.clock = reading;
        let mut out = Vec::new();
        for (index, slot) in self.controllers.iter_mut().enumerate() {
            if let Some(controller) = slot {
                if controller.count_down(step) {
                    out.extend(new_settings(controller, index as u16));
                }
                out.extend(advertising_removed(index as u16, &controller.advertising.pass(step)));
            }
        }
        out
    }

    /// Why a plug is refused, if it is; else the controller to plug.
    pub fn plugged(
        &self,
        index: u64,
        address: &[u8],
        version: u8,
        manufacturer: u16,
        supported: u32,
    ) -> Result<Controller, ArgumentFault> {
        if index >= CONTROLLERS as u64 {
            return Err(ArgumentFault::IndexRange);
        }
        if self.controller(index).is_some() {
            return Err(ArgumentFault::Present);
        }
        let public_address = address.try_into().map_err(|_| ArgumentFault::AddressLength)?;
        let hardware = Hardware { public_address, version, manufacturer, supported };
        match hardware.fault() {
            Some(fault) => Err(fault),
            None => Ok(Controller::plugged(hardware)),
        }
    }

    /// Puts a controller in and gives Index Added.
    pub fn add(&mut self, index: usize, controller: Controller) -> Vec<u8> {
        self.controllers[index] = Some(controller);
        frame(event::INDEX_ADDED, index as u16, &[])
    }

    /// Takes a controller out and gives Index Removed.
    pub fn remove(&mut self, index: usize) -> Vec<u8> {
        self.controllers[index] = None;
        frame(event::INDEX_REMOVED, index as u16, &[])
    }
}

/// The reply to a command that is refused after the length check.
fn refusal_reply(packet: &Packet, command: &Command, reason: Reason) -> Vec<u8> {
    match command.echoed() {
        Some(peer) => command_complete(packet.index, packet.code, reason.status(), &peer.octets()),
        None => command_status(packet.index, packet.code, reason.status()),
    }
}
