//! Set BR/EDR: how a controller comes back to BR/EDR on, and the situations that a run should reach.

use crate::situations::See;
use reference::codes::command as code;
use reference::command::Command;
use reference::controller::Controller;
use reference::packet::{little_endian, Packet};
use reference::reason::Reason;
use reference::Hub;

/// Whether a controller can be without BR/EDR though it has it.
pub fn can_be_off(controller: &Controller) -> bool {
    controller.hardware.supports_br_edr() && controller.hardware.supports_low_energy()
}

/// The next command on the way back to BR/EDR on, where it is off though it is supported: it wants a zero static address,
/// and that wants power off.
pub fn back(controller: &Controller) -> Option<(u16, Vec<u8>)> {
    let plain = controller.static_address == [0; 6];
    controller.has_br_edr_off().then_some(match (plain, controller.powered) {
        (true, _) => (code::SET_BR_EDR, vec![1]),
        (false, true) => (code::SET_POWERED, vec![0]),
        (false, false) => (code::SET_STATIC_ADDRESS, vec![0; 6]),
    })
}

/// The next command on the way to BR/EDR off, where it can be: that wants power off and LE on.
pub fn away(controller: &Controller) -> Option<(u16, Vec<u8>)> {
    can_be_off(controller).then_some(match (controller.powered, controller.low_energy) {
        (true, _) => (code::SET_POWERED, vec![0]),
        (false, false) => (code::SET_LOW_ENERGY, vec![1]),
        (false, true) => (code::SET_BR_EDR, vec![0]),
    })
}

/// A command that no check refuses.
pub fn at_command(controller: &Controller, command: &Command, see: &mut See) {
    match command {
        Command::SetBrEdr(0) => at_off(controller, see),
        Command::SetBrEdr(_) => {
            let (powered, changes) = (controller.powered, !controller.br_edr);
            see("BR/EDR on at once", !powered && changes);
            see("BR/EDR on at once without a change", !powered && !changes);
            see("BR/EDR on started", powered && changes);
            see("BR/EDR on started without a change", powered && !changes);
        }
        _ if controller.has_br_edr_off() => beside_off(controller, command, see),
        Command::SetStaticAddress(address) => {
            let public = !controller.br_edr && controller.hardware.public_address != [0; 6];
            see("static address of an LE-only controller with a public one", public && *address != [0; 6]);
        }
        _ => {}
    }
}

/// BR/EDR goes off.
fn at_off(controller: &Controller, see: &mut See) {
    let on = controller.br_edr;
    see("BR/EDR off", on);
    see("BR/EDR off without a change", !on);
    see("BR/EDR off ends discoverable", controller.discoverable);
    see("BR/EDR off leaves connectable and bondable", on && controller.connectable && controller.bondable);
    see("BR/EDR off leaves link keys", on && !controller.link_keys.is_empty());
    see("BR/EDR off leaves instances", on && controller.advertising.present().next().is_some());
    see("BR/EDR off brings bit 15", on && controller.static_address != [0; 6]);
}

/// Another command where BR/EDR is off though it is supported.
fn beside_off(controller: &Controller, command: &Command, see: &mut See) {
    let has_static = controller.static_address != [0; 6];
    match command {
        Command::ReadInformation => {
            see("information with BR/EDR off", !has_static);
            see("information with BR/EDR off and bit 15", has_static);
        }
        Command::SetPowered(1) => see("power on with BR/EDR off", !controller.powered),
        Command::SetDiscoverable { .. } => see("discoverable off with BR/EDR off", true),
        Command::SetConnectable(_) => see("connectable set with BR/EDR off", true),
        Command::SetLowEnergy(_) => see("LE on with BR/EDR off", true),
        Command::SetStaticAddress(address) => {
            let (comes, goes) = (!has_static && *address != [0; 6], has_static && *address == [0; 6]);
            see("static address brings bit 15 with BR/EDR off", comes);
            see("static address takes bit 15 away with BR/EDR off", goes);
        }
        Command::LoadLinkKeys { keys, .. } => see("link keys loaded with BR/EDR off", !keys.is_empty()),
        Command::AddAdvertising(_) => see("instance on air with BR/EDR off", controller.powered),
        _ => {}
    }
}

/// A report of success.
pub fn at_report(controller: &Controller, command: &Command, see: &mut See) {
    let waits = matches!(command, Command::SetBrEdr(_));
    see("BR/EDR on at a report", waits && !controller.br_edr);
    see("BR/EDR on at a report without a change", waits && controller.br_edr);
    let off = controller.has_br_edr_off();
    see("power off with BR/EDR off", off && matches!(command, Command::SetPowered(0)));
}

/// What ends a command otherwise: a failed report, or an unplug.
pub fn at_end(hub: &Hub, index: u64, name: &'static str, see: &mut See) {
    see(name, matches!(hub.open(index), Some(Command::SetBrEdr(_))));
}

/// A save with room enough.
pub fn at_save(hub: &Hub, open: bool, see: &mut See) {
    let off = |index: &usize| hub.state().controller(*index as u64).is_some_and(Controller::has_br_edr_off);
    let (count, present) = (hub.state().present().filter(off).count(), hub.state().present().count());
    see("save with BR/EDR off", count > 0);
    see("save with BR/EDR off at one of several", count == 1 && present > 1);
    see("save with BR/EDR off at several", count > 1);
    see("save with BR/EDR off during a command", count > 0 && open);
    see("save with BR/EDR on beside a static address", count == 0 && on_beside_static(hub));
}

/// Whether a controller has BR/EDR on and a static address.
fn on_beside_static(hub: &Hub) -> bool {
    let mut controllers = hub.state().controllers.iter().flatten();
    controllers.any(|controller| controller.br_edr && controller.static_address != [0; 6])
}

/// The commands that are Busy while Set BR/EDR is under way.
const BEHIND: [(u16, &str); 6] = [
    (code::SET_POWERED, "0x0005 Busy behind Set BR/EDR"),
    (code::SET_DISCOVERABLE, "0x0006 Busy behind Set BR/EDR"),
    (code::SET_CONNECTABLE, "0x0007 Busy behind Set BR/EDR"),
    (code::SET_LOW_ENERGY, "0x000D Busy behind Set BR/EDR"),
    (code::SET_BR_EDR, "0x002A Busy behind Set BR/EDR"),
    (code::SET_STATIC_ADDRESS, "0x002B Busy behind Set BR/EDR"),
];
/// The commands that make Set BR/EDR Busy, beside itself.
const BEFORE: [(u16, &str); 4] = [
    (code::SET_POWERED, "Set BR/EDR Busy behind 0x0005"),
    (code::SET_DISCOVERABLE, "Set BR/EDR Busy behind 0x0006"),
    (code::SET_CONNECTABLE, "Set BR/EDR Busy behind 0x0007"),
    (code::SET_LOW_ENERGY, "Set BR/EDR Busy behind 0x000D"),
];

/// A command that is refused for this reason first.
pub fn at_refusal(hub: &Hub, packet: &[u8], reason: Reason, see: &mut See) {
    let Some(packet) = Packet::read(packet) else { return };
    let Some(controller) = hub.state().controller(packet.index.into()) else { return };
    let (static_address, low_energy) = (controller.static_address != [0; 6], controller.low_energy);
    match reason {
        Reason::Busy => at_busy(hub, &packet, see),
        Reason::BrEdrPowered => {
            see("BR/EDR off refused for power with LE off", !low_energy);
            see("BR/EDR off refused for power where it is off already", !controller.br_edr);
            see("BR/EDR off refused for power beside a static address", static_address);
        }
        Reason::StaticAddressSet => {
            see("BR/EDR on refused for a static address with LE off", !low_energy);
            see("BR/EDR on refused for a static address where it is on already", controller.br_edr);
            see("BR/EDR on refused for a static address where it is off", !controller.br_edr);
            see("BR/EDR on refused for a static address with power", controller.powered);
        }
        Reason::LowEnergyOff if packet.code == code::SET_BR_EDR => {
            see("BR/EDR off refused for LE", packet.parameters == [0]);
            see("BR/EDR on refused for LE", packet.parameters == [1]);
        }
        Reason::NotConnectable => {
            see("discoverable refused for connectable with BR/EDR off", !controller.br_edr)
        }
        Reason::BrEdrOff => {
            let timed = packet.parameters.len() == 3 && little_endian(packet.parameters, 1) != 0;
            see("discoverable with a timeout refused for BR/EDR", timed);
            see("LE off refused for BR/EDR with power", packet.parameters == [0] && controller.powered);
            see("LE off refused for BR/EDR without power", packet.parameters == [0] && !controller.powered);
        }
        _ => {}
    }
}

/// A command that has to wait.
fn at_busy(hub: &Hub, packet: &Packet, see: &mut See) {
    let open = hub.open(packet.index.into()).map(Command::code);
    for (code, name) in BEHIND {
        see(name, open == Some(code::SET_BR_EDR) && packet.code == code);
    }
    for (code, name) in BEFORE {
        see(name, open == Some(code) && packet.code == code::SET_BR_EDR);
    }
}

/// What a run should come to beside Busy.
const EXPECTED: [&str; 45] = [
    "BR/EDR on at once",
    "BR/EDR on at once without a change",
    "BR/EDR on started",
    "BR/EDR on started without a change",
    "static address of an LE-only controller with a public one",
    "BR/EDR off",
    "BR/EDR off without a change",
    "BR/EDR off ends discoverable",
    "BR/EDR off leaves connectable and bondable",
    "BR/EDR off leaves link keys",
    "BR/EDR off leaves instances",
    "BR/EDR off brings bit 15",
    "information with BR/EDR off",
    "information with BR/EDR off and bit 15",
    "power on with BR/EDR off",
    "discoverable off with BR/EDR off",
    "connectable set with BR/EDR off",
    "LE on with BR/EDR off",
    "static address brings bit 15 with BR/EDR off",
    "static address takes bit 15 away with BR/EDR off",
    "link keys loaded with BR/EDR off",
    "instance on air with BR/EDR off",
    "BR/EDR on at a report",
    "BR/EDR on at a report without a change",
    "power off with BR/EDR off",
    "Set BR/EDR fails",
    "Set BR/EDR cut off by an unplug",
    "save with BR/EDR off",
    "save with BR/EDR off at one of several",
    "save with BR/EDR off at several",
    "save with BR/EDR off during a command",
    "save with BR/EDR on beside a static address",
    "BR/EDR off refused for power with LE off",
    "BR/EDR off refused for power where it is off already",
    "BR/EDR off refused for power beside a static address",
    "BR/EDR on refused for a static address with LE off",
    "BR/EDR on refused for a static address where it is on already",
    "BR/EDR on refused for a static address where it is off",
    "BR/EDR on refused for a static address with power",
    "BR/EDR off refused for LE",
    "BR/EDR on refused for LE",
    "discoverable refused for connectable with BR/EDR off",
    "discoverable with a timeout refused for BR/EDR",
    "LE off refused for BR/EDR with power",
    "LE off refused for BR/EDR without power",
];

/// All names that a run should come to.
pub fn expected() -> impl Iterator<Item = &'static str> {
    let busy = BEHIND.into_iter().chain(BEFORE).map(|(_, name)| name);
    EXPECTED.into_iter().chain(busy)
}
