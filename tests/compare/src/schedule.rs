//! The advertising part of a block, which ends it: written, and read back where it is well formed.

use reference::advertising::{Advertising, Instance, Turn, DATA, INSTANCES};
use reference::controller::Controller;

/// Its octets.
pub const OCTETS: usize = 343;
/// Where the durations stand.
pub const DURATIONS: usize = 0;
/// Where the timeouts left stand.
pub const TIMEOUTS: usize = DURATIONS + 2 * INSTANCES;
/// Where the instance on air stands, and behind it the seconds left of its turn.
pub const TURN: usize = TIMEOUTS + 2 * INSTANCES;
/// Where Adv_Data of each instance stands.
pub const ADV_DATA: usize = TURN + 3;
/// Where Scan_Rsp of each instance stands.
pub const SCAN_RSP: usize = ADV_DATA + EACH * INSTANCES;
/// The octets of one data: its length and the most it can have.
pub const EACH: usize = 1 + DATA;

/// Writes two octets, the lower first.
fn put(out: &mut [u8], at: usize, number: u16) {
    out[at..at + 2].copy_from_slice(&number.to_le_bytes());
}

/// Writes a length octet and as many octets.
fn put_data(out: &mut [u8], at: usize, octets: &[u8]) {
    out[at] = octets.len() as u8;
    out[at + 1..at + 1 + octets.len()].copy_from_slice(octets);
}

/// Writes the octets; they are zero before.
pub fn write(out: &mut [u8], advertising: &Advertising) {
    for (place, instance) in advertising.instances.iter().enumerate() {
        if let Some(instance) = instance {
            put(out, DURATIONS + 2 * place, instance.duration);
            put(out, TIMEOUTS + 2 * place, instance.timeout.unwrap_or(0));
            put_data(out, ADV_DATA + EACH * place, &instance.data);
            put_data(out, SCAN_RSP + EACH * place, &instance.scan_response);
        }
    }
    if let Some(turn) = advertising.turn {
        out[TURN] = turn.instance;
        put(out, TURN + 1, turn.left);
    }
}

/// What the octets mean at a controller, whose own instances are not looked at; none if they are not well formed there.
pub fn read(octets: &[u8], controller: &Controller) -> Option<Advertising> {
    let number = |at: usize| u16::from_le_bytes([octets[at], octets[at + 1]]);
    let data = |at: usize| octets[at + 1..at + EACH].get(..octets[at].into());
    let mut advertising = Advertising::default();
    for (place, instance) in advertising.instances.iter_mut().enumerate() {
        let (adv_data, scan_rsp) = (data(ADV_DATA + EACH * place)?, data(SCAN_RSP + EACH * place)?);
        let (duration, timeout) = (number(DURATIONS + 2 * place), number(TIMEOUTS + 2 * place));
        *instance = (duration != 0).then(|| Instance::new(duration, timeout, adv_data, scan_rsp));
    }
    if octets[TURN] != 0 {
        advertising.turn = Some(Turn { instance: octets[TURN], left: number(TURN + 1) });
    }
    let mut again = vec![0; OCTETS];
    write(&mut again, &advertising);
    (again == octets && keeps_rules(&advertising, controller)).then_some(advertising)
}

/// Without LE there is no instance, without power no timeout. With power and an instance there is one on air, whose turn has a
/// second or more left, up to its duration; else there is none.
fn keeps_rules(advertising: &Advertising, controller: &Controller) -> bool {
    let present = || advertising.instances.iter().flatten();
    let any = present().next().is_some();
    let timed = present().any(|instance| instance.timeout.is_some());
    let turn_fits = match advertising.turn {
        None => !(controller.powered && any),
        Some(turn) => {
            let fits = |instance: &Instance| (1..=instance.duration).contains(&turn.left);
            controller.powered && advertising.instance(turn.instance).is_some_and(fits)
        }
    };
    (controller.low_energy || !any) && (controller.powered || !timed) && turn_fits
}
