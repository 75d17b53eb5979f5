//! What a command does once nothing stands against it: the new controller, the
//! reply and the events.

use crate::advertising::Instance;
use crate::codes::event;
use crate::command::{Command, NewInstance};
use crate::controller::{Controller, LocalName};
use crate::packet::{frame, success};
use crate::records::{Device, Peer};
use crate::table::Table;

/// Does the command and gives the reply with the events after it.
pub fn act(controller: &mut Controller, index: u16, command: &Command) -> Vec<u8> {
    match command {
        Command::ReadInformation => success(index, command.code(), &controller.information()),
        Command::SetPowered(_)
        | Command::SetDiscoverable { .. }
        | Command::SetConnectable(_)
        | Command::SetBondable(_)
        | Command::SetLowEnergy(_)
        | Command::SetBrEdr(_)
        | Command::SetStaticAddress(_) => change_settings(controller, index, command),
        Command::SetLocalName(names) => change_name(controller, index, command.code(), names),
        Command::AddUuid(_) | Command::RemoveUuid(_) => change_services(controller, index, command),
        Command::LoadLinkKeys { keys, .. } => {
            controller.link_keys = Table::of(keys);
            success(index, command.code(), &[])
        }
        Command::LoadLongTermKeys(keys) => {
            controller.long_term_keys = Table::of(keys);
            success(index, command.code(), &[])
        }
        Command::LoadIdentityKeys(keys) => {
            controller.identity_keys = Table::of(keys);
            success(index, command.code(), &[])
        }
        Command::AddAdvertising(new) => add_advertising(controller, index, command.code(), new),
        Command::RemoveAdvertising(which) => remove_advertising(controller, index, command.code(), *which),
        _ => change_devices(controller, index, command),
    }
}

/// New Settings of a controller.
pub fn new_settings(controller: &Controller, index: u16) -> Vec<u8> {
    frame(event::NEW_SETTINGS, index, &controller.settings().to_le_bytes())
}

/// Advertising Removed for each of these instances.
pub fn advertising_removed(index: u16, gone: &[u8]) -> Vec<u8> {
    gone.iter().flat_map(|which| frame(event::ADVERTISING_REMOVED, index, &[*which])).collect()
}

/// A settings command: the reply shows the new settings, New Settings follows
/// if they differ from the old, then what it removed of the advertising instances.
fn change_settings(controller: &mut Controller, index: u16, command: &Command) -> Vec<u8> {
    let before = controller.settings();
    let gone = apply_setting(controller, command);
    let mut out = success(index, command.code(), &controller.settings().to_le_bytes());
    if controller.settings() != before {
        out.extend(new_settings(controller, index));
    }
    out.extend(advertising_removed(index, &gone));
    out
}

/// Power is turned on or off; gives the advertising instances that go.
fn set_power(controller: &mut Controller, on: bool) -> Vec<u8> {
    if controller.powered == on {
        return Vec::new();
    }
    controller.powered = on;
    if on {
        controller.advertising.power_on();
        return Vec::new();
    }
    if controller.timer.take().is_some() {
        controller.discoverable = false;
    }
    controller.advertising.power_off()
}

/// The change that a settings command makes; gives the advertising instances that go.
fn apply_setting(controller: &mut Controller, command: &Command) -> Vec<u8> {
    match command {
        Command::SetPowered(value) => return set_power(controller, *value == 1),
        Command::SetDiscoverable { mode, timeout } => {
            controller.discoverable = *mode != 0;
            controller.timer = (*timeout != 0).then_some(*timeout);
        }
        Command::SetConnectable(value) => {
            controller.connectable = *value == 1;
            if !controller.connectable {
                controller.end_discoverable();
            }
        }
        Command::SetBondable(value) => controller.bondable = *value == 1,
        Command::SetLowEnergy(value) => {
            controller.low_energy = *value == 1;
            if !controller.low_energy {
                return controller.advertising.remove(|_, _| true);
            }
        }
        Command::SetBrEdr(value) => {
            controller.br_edr = *value == 1;
            if !controller.br_edr {
                controller.end_discoverable();
            }
        }
        Command::SetStaticAddress(address) => controller.static_address = *address,
        _ => {}
    }
    Vec::new()
}

/// Set Local Name: the reply shows both names, the event follows if an octet differs.
fn change_name(controller: &mut Controller, index: u16, code: u16, names: &LocalName) -> Vec<u8> {
    let mut out = success(index, code, &names.octets());
    if controller.local_name != *names {
        controller.local_name = names.clone();
        out.extend(frame(event::NAME_CHANGED, index, &names.octets()));
    }
    out
}

/// Add and Remove UUID: the reply shows the class, the event follows if it differs.
fn change_services(controller: &mut Controller, index: u16, command: &Command) -> Vec<u8> {
    let before = controller.class();
    match command {
        Command::AddUuid(service) => {
            controller.services.put(service.clone());
        }
        Command::RemoveUuid(uuid) => {
            let all = *uuid == [0; 16];
            controller.services.remove(|service| all || service.uuid == *uuid);
        }
        _ => {}
    }
    let class = controller.class();
    let mut out = success(index, command.code(), &class);
    if class != before {
        out.extend(frame(event::CLASS_CHANGED, index, &class));
    }
    out
}

/// The five address commands: the reply echoes address and type, then come the
/// events, whatever changed.
fn change_devices(controller: &mut Controller, index: u16, command: &Command) -> Vec<u8> {
    let echo = command.echoed().map(|peer| peer.octets()).unwrap_or_default();
    let mut out = success(index, command.code(), &echo);
    match command {
        Command::Unpair { peer, .. } => {
            forget_keys(controller, peer);
            out.extend(frame(event::DEVICE_UNPAIRED, index, &echo));
        }
        Command::Block(peer) => {
            controller.blocked.put(*peer);
            out.extend(frame(event::DEVICE_BLOCKED, index, &echo));
        }
        Command::Unblock(peer) => {
            controller.blocked.remove(|entry| entry == peer);
            out.extend(frame(event::DEVICE_UNBLOCKED, index, &echo));
        }
        Command::AddDevice(device) => {
            controller.devices.put(device.clone());
            let parameters = [&echo[..], &[device.action]].concat();
            out.extend(frame(event::DEVICE_ADDED, index, &parameters));
        }
        Command::RemoveDevice(peer) => out.extend(remove_devices(controller, index, peer)),
        _ => {}
    }
    out
}

/// Add Advertising: an event follows if the instance is new.
fn add_advertising(controller: &mut Controller, index: u16, code: u16, new: &NewInstance) -> Vec<u8> {
    let instance = Instance::new(new.duration, new.timeout, &new.data, &new.scan_response);
    let added = controller.advertising.put(new.instance, instance, controller.powered);
    let mut out = success(index, code, &[new.instance]);
    if added {
        out.extend(frame(event::ADVERTISING_ADDED, index, &[new.instance]));
    }
    out
}

/// Remove Advertising of one instance, or of all for 0: an event follows for each.
fn remove_advertising(controller: &mut Controller, index: u16, code: u16, which: u8) -> Vec<u8> {
    let gone = controller.advertising.remove(|other, _| which == 0 || other == which);
    [success(index, code, &[which]), advertising_removed(index, &gone)].concat()
}

/// Drops the keys of all three kinds.
fn forget_keys(controller: &mut Controller, peer: &Peer) {
    controller.link_keys.remove(|key| key.peer == *peer);
    controller.long_term_keys.remove(|key| key.peer == *peer);
    controller.identity_keys.remove(|key| key.peer == *peer);
}

/// Removes one device, or all for the zero address, with an event for each in
/// slot order.
fn remove_devices(controller: &mut Controller, index: u16, peer: &Peer) -> Vec<u8> {
    let goes = |device: &Device| peer.is_zero() || device.peer == *peer;
    let gone = controller.devices.entries().filter(|device| goes(device));
    let events = gone.flat_map(|device| frame(event::DEVICE_REMOVED, index, &device.peer.octets()));
    let out = events.collect();
    controller.devices.remove(goes);
    out
}
