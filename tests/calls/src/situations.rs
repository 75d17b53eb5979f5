//! Situations that a run should reach although no refusal by itself shows them.

use crate::addresses;
use crate::br_edr;
use crate::moves;
use crate::on_air;
use reference::codes::{command as code, status, CONTROLLERS, SLOTS};
use reference::command::Command;
use reference::controller::Controller;
use reference::packet::Packet;
use reference::records::{Peer, Record};
use reference::table::Table;
use reference::{Call, Hub};

/// What is special about a call that has room for its reply.
pub fn situations(hub: &Hub, call: &Call) -> Vec<&'static str> {
    let mut found = Vec::new();
    let mut see = |name: &'static str, holds: bool| {
        if holds {
            found.push(name);
        }
    };
    match call {
        Call::Command { packet, .. } => match hub.reasons(packet).first() {
            None => at_command(hub, packet, &mut see),
            Some(reason) => {
                addresses::at_refusal(packet, *reason, &mut see);
                br_edr::at_refusal(hub, packet, *reason, &mut see);
            }
        },
        Call::Report { index, status: 0, .. } => at_report(hub, *index, &mut see),
        Call::Report { index, status, .. } if *status <= status::LAST.into() => {
            br_edr::at_end(hub, *index, "Set BR/EDR fails", &mut see);
            see("failed report beside another open command", hub.open(*index).is_some() && open(hub) > 1)
        }
        Call::Clock { reading, .. } if hub.state().clock_fault(*reading).is_none() => {
            at_clock(hub, *reading, &mut see)
        }
        Call::Unplug { index, .. } => {
            br_edr::at_end(hub, *index, "Set BR/EDR cut off by an unplug", &mut see);
            see("unplug during a command", hub.open(*index).is_some());
            see("unplug beside another open command", hub.open(*index).is_some() && open(hub) > 1);
            see("unplug with instances", advertises(hub.state().controller(*index)));
        }
        Call::Save { .. } => at_save(hub, &mut see),
        _ => {}
    }
    found
}

/// A save.
fn at_save(hub: &Hub, see: &mut See) {
    see("save during a command", open(hub) > 0);
    br_edr::at_save(hub, open(hub) > 0, see);
    moves::at_save(hub, see);
    see("save with instances", (0..CONTROLLERS as u64).any(|k| advertises(hub.state().controller(k))));
}

/// Whether a controller is there and has an advertising instance.
fn advertises(controller: Option<&Controller>) -> bool {
    controller.is_some_and(|controller| controller.advertising.present().next().is_some())
}

/// How many commands are under way.
fn open(hub: &Hub) -> usize {
    (0..CONTROLLERS as u64).filter(|index| hub.open(*index).is_some()).count()
}

/// Notes a name if it holds.
pub type See<'a> = dyn FnMut(&'static str, bool) + 'a;

/// Whether a free slot comes before a taken one.
fn has_gap<R: Record>(table: &Table<R>) -> bool {
    let first_free = table.slots().iter().position(|slot| slot.is_none());
    first_free.is_some_and(|free| free < table.len())
}

/// A clock reading that is accepted.
fn at_clock(hub: &Hub, reading: u32, see: &mut See) {
    let step = reading.wrapping_sub(hub.state().clock);
    let timers: Vec<(usize, u32)> = hub
        .state()
        .present()
        .filter_map(|index| Some((index, hub.state().controllers[index].as_ref()?.timer?.into())))
        .collect();
    let ended = timers.iter().filter(|(_, seconds)| *seconds <= step).count();
    let busy = timers.iter().filter(|(index, _)| hub.open(*index as u64).is_some());
    see("clock wraps", reading < hub.state().clock);
    see("timer ends at its second", timers.iter().any(|(_, seconds)| *seconds == step));
    see("timer has a second left", timers.iter().any(|(_, seconds)| *seconds == step + 1));
    see("two timers end", ended >= 2);
    see("one timer ends, one goes on", ended >= 1 && ended < timers.len());
    see("timer ends during a command", busy.clone().any(|(_, seconds)| *seconds <= step));
    see("timer goes on during a command", busy.clone().any(|(_, seconds)| *seconds > step && step > 0));
    on_air::at_clock(hub, step, see);
}

/// A report of success.
fn at_report(hub: &Hub, index: u64, see: &mut See) {
    let (Some(command), Some(controller)) = (hub.open(index), hub.state().controller(index)) else {
        return;
    };
    see("report beside another open command", open(hub) > 1);
    let timed = controller.timer.is_some();
    let shown = controller.discoverable;
    br_edr::at_report(controller, command, see);
    match command {
        Command::SetPowered(0) => {
            see("power off ends a timer", timed);
            see("power off leaves discoverable", shown && !timed);
            on_air::at_setting(controller, Some(false), see);
        }
        Command::SetPowered(_) => on_air::at_setting(controller, Some(true), see),
        Command::SetLowEnergy(0) => on_air::at_setting(controller, None, see),
        Command::SetConnectable(0) => {
            see("connectable off ends a timer", timed);
            see("connectable off ends discoverable", shown && !timed);
        }
        Command::SetDiscoverable { mode: 0, .. } => see("discoverable off ends a timer", timed),
        Command::SetDiscoverable { timeout: 0, .. } => see("discoverable on drops the timer", timed),
        Command::SetDiscoverable { .. } => see("timeout replaces the timer", timed),
        _ => {}
    }
}

/// A command that no check refuses.
fn at_command(hub: &Hub, packet: &[u8], see: &mut See) {
    let Some(packet) = Packet::read(packet) else { return };
    let Some(controller) = hub.state().controller(packet.index.into()) else { return };
    let busy = hub.open(packet.index.into()).is_some();
    see("command beside an open one at its index", busy);
    see("started beside another open command", packet.code == code::SET_POWERED && open(hub) > 0);
    let command = Command::read(&packet);
    addresses::at_command(&command, see);
    br_edr::at_command(controller, &command, see);
    match command {
        Command::AddUuid(service) => {
            added(&controller.services, &service, see);
            let others = hints_beside(controller, &service.uuid);
            let changes = controller.class()[2] != others | service.hint;
            see("class changed by a replaced hint", controller.services.has(&service) && changes);
        }
        Command::SetLocalName(names) => {
            let same = used(&names.name) == used(&controller.local_name.name)
                && used(&names.short_name) == used(&controller.local_name.short_name);
            see("name changed behind its end", same && *names != controller.local_name);
        }
        Command::Block(peer) => {
            see("blocked into a gap", !controller.blocked.has(&peer) && has_gap(&controller.blocked))
        }
        Command::AddDevice(device) => added(&controller.devices, &device, see),
        Command::RemoveUuid(uuid) => removed_uuid(controller, &uuid, see),
        Command::RemoveDevice(peer) if peer.is_zero() => {
            see("all devices removed with gaps", has_gap(&controller.devices));
            see("all of a full action list removed", controller.devices.is_full());
        }
        Command::Unpair { peer, .. } => unpaired(controller, &peer, see),
        Command::AddAdvertising(new) => on_air::at_add(controller, busy, &new, see),
        Command::RemoveAdvertising(which) => on_air::at_remove(controller, which, see),
        Command::SetLowEnergy(0) if !controller.powered => on_air::at_setting(controller, None, see),
        command => at_other(controller, &command, see),
    }
}

/// A key list replaces a table, or the static address is set.
fn at_other(controller: &Controller, command: &Command, see: &mut See) {
    match command {
        Command::LoadLinkKeys { keys, .. } => {
            see("full link key list", keys.len() == SLOTS);
            see("link keys emptied", keys.is_empty() && !controller.link_keys.is_empty());
        }
        Command::LoadLongTermKeys(keys) => see("full long term key list", keys.len() == SLOTS),
        Command::LoadIdentityKeys(keys) => see("full identity key list", keys.len() == SLOTS),
        Command::SetStaticAddress(_) => {
            see("static address beside a public one", controller.hardware.public_address != [0; 6])
        }
        _ => {}
    }
}

/// An entry is added or replaced.
fn added<R: Record>(table: &Table<R>, record: &R, see: &mut See) {
    see("entry added into a gap", !table.has(record) && has_gap(table));
    see("entry replaced", table.has(record));
    see("entry replaced in a full table", table.has(record) && table.is_full());
}

/// The hints of all other UUIDs.
fn hints_beside(controller: &Controller, uuid: &[u8; 16]) -> u8 {
    let others = controller.services.entries().filter(|service| service.uuid != *uuid);
    others.fold(0, |hints, service| hints | service.hint)
}

/// The part of a name before the first zero.
fn used(name: &[u8]) -> &[u8] {
    let end = name.iter().position(|octet| *octet == 0).unwrap_or(name.len());
    &name[..end]
}

/// A UUID goes.
fn removed_uuid(controller: &Controller, uuid: &[u8; 16], see: &mut See) {
    let joined = hints_beside(controller, uuid);
    let gone = controller.services.entries().find(|service| service.uuid == *uuid);
    see("a shared hint stays", gone.is_some_and(|service| service.hint & joined != 0));
    see("all UUIDs removed", *uuid == [0; 16] && !controller.services.is_empty());
}

/// The keys of a device go.
fn unpaired(controller: &Controller, peer: &Peer, see: &mut See) {
    let long_terms = controller.long_term_keys.entries().filter(|key| key.peer == *peer).count();
    let identity = controller.identity_keys.entries().any(|key| key.peer == *peer);
    see("link key forgotten", controller.link_keys.entries().any(|key| key.peer == *peer));
    see("both long term keys forgotten", long_terms == 2);
    see("long term and identity key forgotten", long_terms > 0 && identity);
    see("identity key alone forgotten", long_terms == 0 && identity);
    see("zero address unpaired", peer.is_zero());
}

/// All names that a run should come to, those of advertising, of addresses, of BR/EDR, of images and of lumps aside.
pub const EXPECTED: [&str; 41] = [
    "failed report beside another open command",
    "unplug during a command",
    "unplug beside another open command",
    "save during a command",
    "clock wraps",
    "timer ends at its second",
    "timer has a second left",
    "two timers end",
    "one timer ends, one goes on",
    "timer ends during a command",
    "timer goes on during a command",
    "report beside another open command",
    "power off ends a timer",
    "power off leaves discoverable",
    "connectable off ends a timer",
    "connectable off ends discoverable",
    "discoverable off ends a timer",
    "discoverable on drops the timer",
    "timeout replaces the timer",
    "command beside an open one at its index",
    "started beside another open command",
    "blocked into a gap",
    "all devices removed with gaps",
    "all of a full action list removed",
    "full link key list",
    "link keys emptied",
    "full long term key list",
    "full identity key list",
    "static address beside a public one",
    "entry added into a gap",
    "entry replaced",
    "entry replaced in a full table",
    "a shared hint stays",
    "all UUIDs removed",
    "link key forgotten",
    "both long term keys forgotten",
    "long term and identity key forgotten",
    "identity key alone forgotten",
    "zero address unpaired",
    "class changed by a replaced hint",
    "name changed behind its end",
];
