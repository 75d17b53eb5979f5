//! Advertising instances: parameters of the two commands, right and spoiled, and steps of the clock that matter to turns.

use crate::random::Random;
use reference::advertising::{Advertising, INSTANCES};
use reference::codes::command as code;
use reference::controller::Controller;
use reference::Hub;

/// Where the instance stands in both commands.
const INSTANCE: usize = 0;
/// Where the flags stand in Add Advertising.
const FLAGS: usize = 1;
/// Where the length of Adv_Data stands; that of Scan_Rsp is behind it.
const LENGTHS: usize = 9;
/// Where Adv_Data begins.
const DATA_AT: usize = 11;

/// Parameters with valid values for one of the two commands.
pub fn valid(random: &mut Random, code: u16, controller: &Controller) -> Vec<u8> {
    let present: Vec<u8> = controller.advertising.present().collect();
    if code == code::ADD_ADVERTISING {
        return added(random, controller, &present);
    }
    let which = match random.below(10) {
        0 => 0,
        1 => random.between(1, INSTANCES) as u8,
        _ if present.is_empty() => random.between(0, INSTANCES) as u8,
        2 | 3 => controller.advertising.turn.map_or(present[0], |turn| turn.instance),
        _ => random.pick(&present),
    };
    vec![which]
}

/// Whether a controller can have instances at all.
pub fn can_have(controller: &Controller) -> bool {
    controller.hardware.supports_low_energy()
}

/// The switch that a controller lacks before one of its instances can be on air, turned on: LE, then power.
pub fn ready(controller: &Controller) -> Option<(u16, Vec<u8>)> {
    if !can_have(controller) {
        None
    } else if !controller.low_energy {
        Some((code::SET_LOW_ENERGY, vec![1]))
    } else {
        (!controller.powered && controller.has_address()).then_some((code::SET_POWERED, vec![1]))
    }
}

/// Instance, flags, duration, timeout and data of an instance; a timeout mostly where there is power.
fn added(random: &mut Random, controller: &Controller, present: &[u8]) -> Vec<u8> {
    let on_air = controller.advertising.turn.map_or(1, |turn| turn.instance);
    let which = match random.below(10) {
        0 => on_air,
        1 | 2 if !present.is_empty() => random.pick(present),
        _ => random.between(1, INSTANCES) as u8,
    };
    let duration = match random.below(12) {
        0 => 0,
        1 => random.pick(&[255, 256, 257, 0x7FFF, 0x8000, 0xFFFF]),
        2 => random.bits() as u16,
        3..=5 => 1,
        _ => random.between(1, 9) as u16,
    };
    let timed = random.percent(if controller.powered { 45 } else { 25 });
    let timeout = match random.below(8) {
        _ if !timed => 0,
        0 => random.bits() as u16 | 1,
        1 => random.pick(&[255, 256, 257, 0xFFFF]),
        2 | 3 => duration.max(1).saturating_mul(random.between(1, 3) as u16),
        _ => random.between(1, 12) as u16,
    };
    let mut out = vec![which, 0, 0, 0, 0];
    out.extend(duration.to_le_bytes());
    out.extend(timeout.to_le_bytes());
    let (data, scan_response) = (data(random), data(random));
    out.extend([data.len() as u8, scan_response.len() as u8]);
    [out, data, scan_response].concat()
}

/// Up to 31 octets.
fn data(random: &mut Random) -> Vec<u8> {
    let length = match random.below(6) {
        0 | 1 => 0,
        2 => random.between(30, 31),
        _ => random.between(1, 31),
    };
    random.octets(length)
}

/// Makes one value of the parameters wrong.
pub fn spoil(random: &mut Random, code: u16, parameters: &mut Vec<u8>) {
    if code == code::REMOVE_ADVERTISING {
        parameters[INSTANCE] = random.pick(&[1, 5, 6, 7, 0x80, 0xFF]);
        return;
    }
    if parameters.len() < DATA_AT {
        return;
    }
    match random.below(6) {
        0 => parameters[INSTANCE] = random.pick(&[0, 6, 7, 0x80, 0xFF]),
        1 => parameters[FLAGS + random.below(4)] |= 1 << random.below(8),
        2 => longer(random, parameters, 0),
        3 => longer(random, parameters, 1),
        4 => {
            longer(random, parameters, 0);
            longer(random, parameters, 1);
        }
        _ => {
            let which = LENGTHS + random.below(2);
            parameters[which] = random.pick(&[0, 1, 31, 32, parameters[which].wrapping_add(1), 0xFF]);
        }
    }
}

/// Makes Adv_Data (0) or Scan_Rsp (1) longer than the most, so that the whole has the length it says.
fn longer(random: &mut Random, parameters: &mut Vec<u8>, which: usize) {
    let length = random.pick(&[32, 32, 33, 62, 255]);
    let before = usize::from(parameters[LENGTHS + which]);
    let at = (DATA_AT + which * usize::from(parameters[LENGTHS])).min(parameters.len());
    let end = (at + before).min(parameters.len());
    parameters.splice(at..end, random.octets(length));
    parameters[LENGTHS + which] = length as u8;
}

/// Steps that matter to the turns of a hub: to the end of a turn, of a timeout, of a round, of many rounds.
pub fn steps(random: &mut Random, hub: &Hub) -> Vec<u32> {
    let controllers = hub.state().controllers.iter().flatten();
    controllers.flat_map(|controller| steps_of(random, &controller.advertising)).collect()
}

/// The same of one controller.
fn steps_of(random: &mut Random, advertising: &Advertising) -> Vec<u32> {
    let Some(turn) = advertising.turn else { return Vec::new() };
    let present = || advertising.instances.iter().flatten();
    let round: u32 = present().map(|instance| u32::from(instance.duration)).sum();
    let rounds = random.pick(&[2, 3, 7, 1000, 0x7FFF_FFFF / round]);
    let mut out = vec![turn.left.into(), turn.left.into(), round, round.saturating_mul(rounds)];
    out.extend(present().filter_map(|instance| instance.timeout).map(u32::from));
    out
}
