//! States with other octets in their advertising part, or for the switches above it: answered 5 exactly where they are not well formed, and else a hub like any.

use crate::layout::{block, ADVERTISING, SETTINGS, STATIC_ADDRESS};
use crate::lent::{Difference, Lent};
use crate::look_up::{edge_keys, look_up_agrees, look_up_refused};
use crate::run::{same, step};
use crate::schedule::{write, ADV_DATA, DURATIONS, EACH, OCTETS, SCAN_RSP, TIMEOUTS, TURN};
use crate::switches::{read, BR_EDR, CONNECTABLE, DISCOVERABLE, LOW_ENERGY, POWERED};
use crate::target::Target;
use crate::why::why_agrees;
use calls::instances::steps;
use calls::Random;
use reference::advertising::{Advertising, Instance, Turn, INSTANCES};
use reference::codes::{answer, command as code, REPLY_ROOM};
use reference::controller::Controller;
use reference::look_up::{key_length, TABLES};
use reference::packet::frame;
use reference::why::TEXT_ROOM;
use reference::{Call, Hub, Reply};

/// How many states are altered at each controller.
const ALTERED: usize = 6;

/// How many altered states were lent, and how many of them were well formed.
#[derive(Clone, Copy, Debug, Default)]
pub struct Altered {
    /// All of them.
    pub lent: usize,
    /// The well-formed ones.
    pub well_formed: usize,
}

/// Seconds: mostly few, now and then any.
fn seconds(random: &mut Random) -> u16 {
    match random.below(6) {
        0 => random.pick(&[1, 0x00FF, 0x0100, 0xFFFF]),
        1 => random.bits() as u16 | 1,
        _ => random.between(1, 9) as u16,
    }
}

/// Random instances, mostly such as the controller can have, with anyone on air in the middle of a turn.
fn schedule(random: &mut Random, controller: &Controller) -> Advertising {
    let mut advertising = Advertising::default();
    let strict = random.percent(80);
    for instance in advertising.instances.iter_mut() {
        if random.percent(60) && (controller.low_energy || !strict) {
            let timed = random.percent(40) && (controller.powered || !strict);
            let timeout = if timed { seconds(random) } else { 0 };
            let (adv_data, scan_rsp) = (random.between(0, 31), random.between(0, 31));
            let (adv_data, scan_rsp) = (random.octets(adv_data), random.octets(scan_rsp));
            *instance = Some(Instance::new(seconds(random), timeout, &adv_data, &scan_rsp));
        }
    }
    let present: Vec<u8> = advertising.present().collect();
    if !present.is_empty() && (controller.powered || !strict) {
        let instance = random.pick(&present);
        let duration = advertising.instance(instance).map_or(1, |instance| instance.duration);
        let any = random.between(1, duration.into()) as u16;
        let left = random.pick(&[1, duration, any]);
        advertising.turn = Some(Turn { instance, left });
    }
    advertising
}

/// Changes one field or one octet.
fn change(random: &mut Random, part: &mut [u8]) {
    let place = random.below(INSTANCES);
    let mut put = |at: usize, number: u16| part[at..at + 2].copy_from_slice(&number.to_le_bytes());
    match random.below(9) {
        0 => put(DURATIONS + 2 * place, random.pick(&[0, 0, 1, 0xFFFF])),
        1 => put(TIMEOUTS + 2 * place, random.pick(&[0, 1, 0xFFFF])),
        2 => part[TURN] = random.pick(&[0, 1, 2, 3, 4, 5, 6, 0x80, 0xFF]),
        3 => put(TURN + 1, random.pick(&[0, 1, 0xFFFF])),
        4 => {
            let on_air = usize::from(part[TURN]).clamp(1, INSTANCES) - 1;
            let low = part[DURATIONS + 2 * on_air];
            part[TURN + 1] = low.wrapping_add(random.pick(&[0, 1, 0xFF]));
        }
        5 => part[ADV_DATA + EACH * place] = random.pick(&[0, 1, 30, 31, 32, 0xFF]),
        6 => part[SCAN_RSP + EACH * place] = random.pick(&[0, 1, 30, 31, 32, 0xFF]),
        7 => part[ADV_DATA + EACH * place + random.pick(&[1, 2, 30, 31])] = random.pick(&[0, 1, 0xFF]),
        _ => part[random.below(OCTETS)] ^= 1 << random.below(8),
    }
}

/// Other octets for the advertising part of a controller: now and then the same with a change, else made anew, changed or not.
fn alter(random: &mut Random, controller: &Controller, part: &mut [u8]) {
    if random.percent(70) {
        part.fill(0);
        write(part, &schedule(random, controller));
    }
    for _ in 0..random.pick(&[0, 1, 1, 2]) {
        change(random, part);
    }
}

/// Another octet for one or two switches, mostly the other value; the advertising part is kept.
fn switch(random: &mut Random, block: &mut [u8]) {
    for _ in 0..random.between(1, 2) {
        let at = random.pick(&[POWERED, POWERED, CONNECTABLE, DISCOVERABLE, BR_EDR, BR_EDR, LOW_ENERGY]);
        block[at] = random.pick(&[block[at] ^ 1, block[at] ^ 1, block[at] ^ 1, block[at] ^ 1, 2, 0x80, 0xFF]);
    }
}

/// A clock call on a hub: to the end of a turn, a timeout or a round, or as far as a step goes.
fn clock(random: &mut Random, hub: &Hub) -> Call {
    let mut choices = steps(random, hub);
    choices.extend([1, 2, 0x7FFF_FFFF, random.bits() as u32 >> 1]);
    let seconds = random.pick(&choices);
    Call::Clock { reading: hub.state().clock.wrapping_add(seconds.min(0x7FFF_FFFF)), room: REPLY_ROOM }
}

/// Lends altered states of a hub: what is on air and a clock step agree, or 5 is answered. The state is put back.
pub fn altered_states_agree<T: Target>(
    lent: &mut Lent<T>,
    hub: &Hub,
    random: &mut Random,
    counts: &mut Altered,
) -> Result<(), Difference> {
    let state = lent.state().to_vec();
    for index in hub.state().present().flat_map(|index| [index; ALTERED]) {
        let Some(controller) = &hub.state().controllers[index] else { continue };
        let mut octets = state.clone();
        let block = &mut octets[block(index)];
        match random.below(4) {
            0 => switch(random, block),
            _ => alter(random, controller, &mut block[ADVERTISING..]),
        }
        let meant = read(block, controller);
        let (settings, part) = (&block[SETTINGS..STATIC_ADDRESS.start], &block[ADVERTISING..]);
        let what = format!(
            "an altered state at index {index}: settings {settings:02X?}, advertising part {part:02X?}"
        );
        lent.put_state(&octets);
        counts.lent += 1;
        counts.well_formed += usize::from(meant.is_some());
        let result = match meant {
            Some((controller, _)) => {
                let mut meant = hub.with_controller(index, controller);
                let call = clock(random, &meant);
                taken(lent, &mut meant, index, &call)
            }
            None => refused(lent, index, &clock(random, hub)),
        };
        result.map_err(|difference| format!("{what}: {difference}"))?;
    }
    lent.put_state(&state);
    Ok(())
}

/// A well-formed state: the questions and a call agree.
pub fn taken<T: Target>(
    lent: &mut Lent<T>,
    hub: &mut Hub,
    index: usize,
    call: &Call,
) -> Result<(), Difference> {
    let index = index as u64;
    let found = lent.on_air(index, REPLY_ROOM, T::STATE_LEN)?;
    same("on air", &hub.on_air(index, REPLY_ROOM), &found)?;
    let found = lent.name(index, 0, REPLY_ROOM, T::STATE_LEN)?;
    same("name", &hub.name(index, 0, REPLY_ROOM), &found)?;
    why_agrees(lent, hub, &some_packet(index))?;
    for table in 0..TABLES.len() as u64 {
        look_up_agrees(lent, hub, index, table, &edge_keys(hub, index, table)[0])?;
    }
    step(lent, hub, call).map(|_| ()).map_err(|difference| format!("{call:?}: {difference}"))
}

/// A state that is none: 5 from the questions and from a call.
pub fn refused<T: Target>(lent: &mut Lent<T>, index: usize, call: &Call) -> Result<(), Difference> {
    let expected = Reply::bare(answer::STATE);
    same("on air", &expected, &lent.on_air(index as u64, REPLY_ROOM, T::STATE_LEN)?)?;
    same("name", &expected, &lent.name(index as u64, 0, REPLY_ROOM, T::STATE_LEN)?)?;
    same("why", &expected, &lent.why(&some_packet(index as u64), TEXT_ROOM, T::STATE_LEN)?.0)?;
    for table in 0..TABLES.len() as u64 {
        look_up_refused(lent, index as u64, table, &vec![0; key_length(table).unwrap_or(0)])?;
    }
    same("the call", &expected, &lent.call(call)?)
}

/// A packet to ask about: Set Powered, on.
fn some_packet(index: u64) -> Vec<u8> {
    frame(code::SET_POWERED, index as u16, &[1])
}
