//! The checks on a command whose length fits, in the order of the rules.

use crate::advertising::{DATA, INSTANCES};
use crate::codes::{NAME, SLOTS};
use crate::command::{count_octet, Command, NewInstance};
use crate::controller::{Controller, LocalName};
use crate::packet::HEADER;
use crate::reason::Reason;
use crate::records::{is_static_random, list_fault, Peer, Record, Service, BR_EDR};
use crate::why::{found, Fault};

/// What a check looks at.
#[derive(Clone, Copy)]
pub struct Case<'a> {
    /// The controller that is spoken to.
    pub controller: &'a Controller,
    /// Whether a command is under way there.
    pub busy: bool,
    /// The command.
    pub command: &'a Command,
}

/// One check: what it refuses, if it does.
type Check = fn(&Case) -> Option<Fault>;

/// All checks; the first that applies answers.
const CHECKS: [Check; 7] = [too_many, wrong_value, unsupported, unpowered, busy, rejected, table_answer];

/// What the command is refused for, if it is.
pub fn refusal(case: &Case) -> Option<Fault> {
    CHECKS.iter().find_map(|check| check(case))
}

/// What each check refuses, in their order.
pub fn all_faults(case: &Case) -> Vec<Fault> {
    CHECKS.iter().filter_map(|check| check(case)).collect()
}

/// Whether a command that no check refuses waits for the radio.
pub fn is_started(controller: &Controller, command: &Command) -> bool {
    match command {
        Command::SetPowered(value) => (*value == 1) != controller.powered,
        Command::SetDiscoverable { .. }
        | Command::SetConnectable(_)
        | Command::SetLowEnergy(_)
        | Command::SetBrEdr(_) => controller.powered,
        _ => false,
    }
}

/// A list of more records than slots.
fn too_many(case: &Case) -> Option<Fault> {
    let count = match case.command {
        Command::LoadLinkKeys { keys, .. } => keys.len(),
        Command::LoadLongTermKeys(keys) => keys.len(),
        Command::LoadIdentityKeys(keys) => keys.len(),
        _ => 0,
    };
    found(count > SLOTS, Reason::TooManyRecords, count_octet(case.command.code())?)
}

/// A value that the command does not take: the first in the order of the octets, repeats in a list behind them.
fn wrong_value(case: &Case) -> Option<Fault> {
    parameter_fault(case.command).map(|fault| fault.behind(HEADER))
}

/// The same, with octets counted from the first parameter on.
fn parameter_fault(command: &Command) -> Option<Fault> {
    match command {
        Command::SetPowered(value)
        | Command::SetConnectable(value)
        | Command::SetBondable(value)
        | Command::SetLowEnergy(value)
        | Command::SetBrEdr(value) => found(*value > 1, Reason::SettingValue, 0),
        Command::SetDiscoverable { mode, timeout } => wrong_discoverable(*mode, *timeout),
        Command::SetStaticAddress(address) => {
            let fits = *address == [0; 6] || is_static_random(address);
            found(!fits, Reason::StaticAddress, 0)
        }
        Command::SetLocalName(names) => wrong_name(names),
        Command::AddUuid(service) => service.fault(),
        Command::LoadLinkKeys { debug, keys } => {
            let list = || list_fault(keys).map(|fault| fault.behind(3));
            found(*debug > 1, Reason::DebugFlag, 0).or_else(list)
        }
        Command::LoadLongTermKeys(keys) => list_fault(keys).map(|fault| fault.behind(2)),
        Command::LoadIdentityKeys(keys) => list_fault(keys).map(|fault| fault.behind(2)),
        Command::Unpair { peer, disconnect } => {
            peer.type_fault().or(found(*disconnect > 1, Reason::Disconnect, Peer::LEN))
        }
        Command::Block(peer) | Command::Unblock(peer) => peer.fault(),
        Command::AddDevice(device) => device.fault(),
        Command::RemoveDevice(peer) => wrong_removal(peer),
        Command::AddAdvertising(new) => wrong_instance(new),
        Command::ReadInformation | Command::RemoveUuid(_) | Command::RemoveAdvertising(_) => None,
    }
}

/// Off takes no timeout, limited needs one. What clashes with the mode is the timeout, behind it.
fn wrong_discoverable(mode: u8, timeout: u16) -> Option<Fault> {
    found(mode > 2, Reason::DiscoverableValue, 0)
        .or(found(mode == 0 && timeout != 0, Reason::TimeoutGiven, 1))
        .or(found(mode == 2 && timeout == 0, Reason::TimeoutMissing, 1))
}

/// Both names end in zero.
fn wrong_name(names: &LocalName) -> Option<Fault> {
    let (name, short_name) = (names.name.last(), names.short_name.last());
    found(name != Some(&0), Reason::NameEnd, 0).or(found(short_name != Some(&0), Reason::ShortNameEnd, NAME))
}

/// A zero address means all devices, but only as a BR/EDR one. What clashes with it is the type, behind it.
fn wrong_removal(peer: &Peer) -> Option<Fault> {
    let zero = peer.is_zero() && peer.address_type != BR_EDR;
    peer.type_fault().or(found(zero, Reason::ZeroForAll, Peer::TYPE))
}

/// An instance of 1 to 5, no flags, and at most 31 octets of each data.
fn wrong_instance(new: &NewInstance) -> Option<Fault> {
    let known = (1..=INSTANCES).contains(&new.instance.into());
    let (data, scan_response) = (new.data.len(), new.scan_response.len());
    found(!known, Reason::Instance, 0)
        .or(found(new.flags != 0, Reason::AdvertisingFlags, 1))
        .or(found(data > DATA, Reason::AdvertisingLength, NewInstance::DATA_LENGTH))
        .or(found(scan_response > DATA, Reason::ScanResponseLength, NewInstance::SCAN_LENGTH))
}

/// The controller lacks what the command is about.
fn unsupported(case: &Case) -> Option<Fault> {
    let hardware = &case.controller.hardware;
    let (supported, reason) = match case.command {
        Command::SetBrEdr(_) if hardware.supports_br_edr() => {
            (hardware.supports_low_energy(), Reason::NoLowEnergy)
        }
        Command::SetBrEdr(_) => (false, Reason::NoBrEdr),
        Command::SetDiscoverable { .. } | Command::LoadLinkKeys { .. } => {
            (hardware.supports_br_edr(), Reason::NoBrEdr)
        }
        Command::SetLowEnergy(_)
        | Command::SetStaticAddress(_)
        | Command::LoadLongTermKeys(_)
        | Command::LoadIdentityKeys(_) => (hardware.supports_low_energy(), Reason::NoLowEnergy),
        _ => return None,
    };
    (!supported).then_some(Fault::new(reason))
}

/// The command needs power: a discoverable timeout or an unpairing.
fn unpowered(case: &Case) -> Option<Fault> {
    let reason = match case.command {
        Command::SetDiscoverable { timeout: 1.., .. } => Reason::DiscoverableUnpowered,
        Command::Unpair { .. } => Reason::NotPowered,
        _ => return None,
    };
    (!case.controller.powered).then_some(Fault::new(reason))
}

/// Another command is under way at this index, and this one has to wait for it.
fn busy(case: &Case) -> Option<Fault> {
    let waits = matches!(
        case.command,
        Command::SetPowered(_)
            | Command::SetDiscoverable { .. }
            | Command::SetConnectable(_)
            | Command::SetLowEnergy(_)
            | Command::SetBrEdr(_)
            | Command::SetStaticAddress(_)
    );
    (case.busy && waits).then_some(Fault::new(Reason::Busy))
}

/// The controller's settings stand against it.
fn rejected(case: &Case) -> Option<Fault> {
    let controller = case.controller;
    let reason = match case.command {
        Command::SetPowered(1) => (!controller.has_address()).then_some(Reason::NoAddress),
        Command::SetDiscoverable { mode: 1 | 2, .. } if !controller.connectable => {
            Some(Reason::NotConnectable)
        }
        Command::SetLowEnergy(0) if !controller.hardware.supports_br_edr() => Some(Reason::OnlyLowEnergy),
        Command::SetDiscoverable { mode: 1 | 2, .. } | Command::SetLowEnergy(0) => {
            (!controller.br_edr).then_some(Reason::BrEdrOff)
        }
        Command::SetBrEdr(value) => rejected_br_edr(controller, *value),
        Command::SetStaticAddress(_) => controller.powered.then_some(Reason::Powered),
        Command::AddAdvertising(_) if !controller.low_energy => Some(Reason::LowEnergyOff),
        Command::AddAdvertising(new) => {
            (new.timeout != 0 && !controller.powered).then_some(Reason::TimeoutUnpowered)
        }
        _ => None,
    };
    reason.map(Fault::new)
}

/// BR/EDR goes off without power only and comes on without a static address only, and LE has to be on for both.
fn rejected_br_edr(controller: &Controller, value: u8) -> Option<Reason> {
    if value == 0 && controller.powered {
        Some(Reason::BrEdrPowered)
    } else if value == 1 && controller.static_address != [0; 6] {
        Some(Reason::StaticAddressSet)
    } else {
        (!controller.low_energy).then_some(Reason::LowEnergyOff)
    }
}

/// What the tables hold or lack.
fn table_answer(case: &Case) -> Option<Fault> {
    let controller = case.controller;
    let reason = match case.command {
        Command::AddUuid(service) => {
            let taken = controller.services.is_full() && !controller.services.has(service);
            taken.then_some(Reason::NoFreeSlot)
        }
        Command::RemoveUuid(uuid) => {
            let wanted = Service { uuid: *uuid, hint: 0 };
            let absent = *uuid != [0; 16] && !controller.services.has(&wanted);
            absent.then_some(Reason::AbsentUuid)
        }
        Command::Unpair { peer, .. } => (!controller.is_paired(peer)).then_some(Reason::NotPaired),
        Command::Block(peer) if controller.blocked.has(peer) => Some(Reason::AlreadyBlocked),
        Command::Block(_) => controller.blocked.is_full().then_some(Reason::NoFreeSlot),
        Command::Unblock(peer) => (!controller.blocked.has(peer)).then_some(Reason::NotBlocked),
        Command::AddDevice(device) => {
            let taken = controller.devices.is_full() && !controller.devices.has(device);
            taken.then_some(Reason::NoFreeSlot)
        }
        Command::RemoveDevice(peer) => {
            let absent = !controller.devices.entries().any(|device| device.peer == *peer);
            (absent && !peer.is_zero()).then_some(Reason::AbsentDevice)
        }
        Command::RemoveAdvertising(0) => None,
        Command::RemoveAdvertising(which) => {
            controller.advertising.instance(*which).is_none().then_some(Reason::AbsentInstance)
        }
        _ => None,
    };
    reason.map(Fault::new)
}
