//! A block's open command, what plug told and the settings: read back, with the LE keys and the advertising part, where all of
//! it fits the rest of the controller.

use crate::identities;
use crate::layout::{ADVERTISING, HARDWARE, OPEN, OPEN_OCTETS, SETTINGS};
use crate::schedule;
use reference::checks::{is_started, refusal, Case};
use reference::codes::command as code;
use reference::command::Command;
use reference::controller::{Controller, Hardware};
use reference::packet::{little_endian, Packet};

/// Where power stands in a block.
pub const POWERED: usize = SETTINGS;
/// Where connectable stands.
pub const CONNECTABLE: usize = 20;
/// Where discoverable stands.
pub const DISCOVERABLE: usize = 21;
/// Where BR/EDR stands.
pub const BR_EDR: usize = 23;
/// Where LE stands.
pub const LOW_ENERGY: usize = 24;
/// Where the discoverable timer stands.
const TIMER: usize = 25;

/// Whether an octet is a flag, and which.
fn flag(octet: u8) -> Option<bool> {
    match octet {
        0 => Some(false),
        1 => Some(true),
        _ => None,
    }
}

/// A controller as a block's octets tell it, and its open command; names, UUIDs, link keys, blocked devices and the action
/// list are those of the controller given. None if that is not well formed.
pub fn read(block: &[u8], controller: &Controller) -> Option<(Controller, Option<Command>)> {
    let timer = little_endian(block, TIMER);
    let mut read = Controller {
        hardware: hardware(block)?,
        powered: flag(block[POWERED])?,
        connectable: flag(block[CONNECTABLE])?,
        discoverable: flag(block[DISCOVERABLE])?,
        bondable: flag(block[DISCOVERABLE + 1])?,
        br_edr: flag(block[BR_EDR])?,
        low_energy: flag(block[LOW_ENERGY])?,
        timer: (timer != 0).then_some(timer),
        ..controller.clone()
    };
    read = identities::read(block, &read)?;
    read.advertising = schedule::read(&block[ADVERTISING..], &read)?;
    let open = under_way(&block[OPEN..OPEN + OPEN_OCTETS])?;
    let starts = open.as_ref().is_none_or(|command| would_start(&read, command));
    (keeps_rules(&read) && starts).then_some((read, open))
}

/// What plug told, where it takes that.
fn hardware(block: &[u8]) -> Option<Hardware> {
    let supported = block[HARDWARE + 3..HARDWARE + 7].try_into().ok()?;
    let hardware = Hardware {
        version: block[HARDWARE],
        manufacturer: little_endian(block, HARDWARE + 1),
        supported: u32::from_le_bytes(supported),
        public_address: block[HARDWARE + 7..SETTINGS].try_into().ok()?,
    };
    hardware.fault().is_none().then_some(hardware)
}

/// The command that octets tell to be under way, or that there is none; none of both if they are no such command.
fn under_way(octets: &[u8]) -> Option<Option<Command>> {
    let code = little_endian(octets, 0);
    let length = match code {
        code::SET_POWERED | code::SET_CONNECTABLE | code::SET_LOW_ENERGY | code::SET_BR_EDR => 1,
        code::SET_DISCOVERABLE => 3,
        _ => return octets.iter().all(|octet| *octet == 0).then_some(None),
    };
    let (parameters, rest) = octets[2..].split_at(length);
    let command = Command::read(&Packet { code, index: 0, parameters });
    rest.iter().all(|octet| *octet == 0).then_some(Some(command))
}

/// Whether a command would be started at a controller, Busy aside.
fn would_start(controller: &Controller, command: &Command) -> bool {
    let case = Case { controller, busy: false, command };
    refusal(&case).is_none() && is_started(controller, command)
}

/// BR/EDR and LE are on only where they are supported, and one of them is. Discoverable needs connectable and BR/EDR, its
/// timer needs power and itself, power needs an address; link keys need BR/EDR support.
fn keeps_rules(controller: &Controller) -> bool {
    let hardware = &controller.hardware;
    let supported = (hardware.supports_br_edr() || !controller.br_edr)
        && (hardware.supports_low_energy() || !controller.low_energy);
    let radio = controller.br_edr || controller.low_energy;
    let shown = !controller.discoverable || (controller.connectable && controller.br_edr);
    let timed = controller.timer.is_none() || (controller.powered && controller.discoverable);
    let power = !controller.powered || controller.has_address();
    let keyed = hardware.supports_br_edr() || controller.link_keys.is_empty();
    supported && radio && shown && timed && power && keyed
}
