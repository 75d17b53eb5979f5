//! Turns counted second by second: the reference's count of a long step, and how long an instance waits for its turn.

mod common;

use common::*;
use reference::advertising::{Advertising, Instance, Turn, INSTANCES};
use reference::Hub;

impl Dice {
    /// A number of seconds, mostly small: 1 to the bound.
    fn seconds(&mut self, bound: u64) -> u16 {
        let most = if self.below(3) > 0 { bound.min(4) } else { bound };
        1 + self.below(most) as u16
    }
}

/// The plain count: durations and timeouts by instance, who is on air, how long still. A duration of 0 is an absent one.
#[derive(Clone, PartialEq, Debug)]
struct Plain {
    durations: [u32; INSTANCES + 1],
    timeouts: [u32; INSTANCES + 1],
    on_air: usize,
    left: u32,
}

impl Plain {
    /// One second. Gives the instance that went, if one did.
    fn second(&mut self) -> Option<usize> {
        let k = self.on_air;
        if k == 0 {
            return None;
        }
        self.left -= 1;
        let timed = self.timeouts[k] > 0;
        self.timeouts[k] -= u32::from(timed);
        let ends = timed && self.timeouts[k] == 0;
        if ends {
            self.durations[k] = 0;
        }
        if ends || self.left == 0 {
            let round = (k + 1..=INSTANCES).chain(1..=k);
            self.on_air = round.into_iter().find(|next| self.durations[*next] > 0).unwrap_or(0);
            self.left = self.durations[self.on_air];
        }
        ends.then_some(k)
    }

    /// The same as the reference has it.
    fn advertising(&self) -> Advertising {
        let instance = |place: usize| {
            let (duration, timeout) = (self.durations[place + 1] as u16, self.timeouts[place + 1] as u16);
            (duration > 0).then(|| Instance::new(duration, timeout, &[], &[]))
        };
        let turn = Turn { instance: self.on_air as u8, left: self.left as u16 };
        Advertising { instances: std::array::from_fn(instance), turn: (self.on_air > 0).then_some(turn) }
    }
}

/// A schedule with anyone on air in the middle of a turn; durations up to a bound, timeouts up to ten times that.
fn schedule(dice: &mut Dice, bound: u64) -> Plain {
    let mut plain = Plain { durations: [0; INSTANCES + 1], timeouts: [0; INSTANCES + 1], on_air: 0, left: 0 };
    for which in 1..=INSTANCES {
        if dice.below(3) > 0 {
            plain.durations[which] = dice.seconds(bound).into();
            plain.timeouts[which] = if dice.below(2) == 0 { 0 } else { dice.seconds(10 * bound).into() };
        }
    }
    let present: Vec<usize> = (1..=INSTANCES).filter(|which| plain.durations[*which] > 0).collect();
    if let Some(last) = present.len().checked_sub(1) {
        plain.on_air = present[dice.below(last as u64 + 1) as usize];
        plain.left = 1 + dice.below(plain.durations[plain.on_air].into()) as u32;
    }
    plain
}

#[test]
fn a_step_is_its_single_seconds() {
    let mut dice = Dice(1);
    let (mut with_removal, mut to_nothing) = (0, 0);
    for round in 0..20_000 {
        let mut plain = schedule(&mut dice, [3, 12, 200][round % 3]);
        let mut advertising = plain.advertising();
        for _ in 0..3 {
            let step = match dice.below(4) {
                0 => dice.below(4),
                1 => plain.durations.iter().map(|duration| u64::from(*duration)).sum(),
                2 => dice.below(100),
                _ => dice.below(5000),
            };
            let mut gone: Vec<u8> =
                (0..step).filter_map(|_| plain.second()).map(|which| which as u8).collect();
            gone.sort_unstable();
            assert_eq!(advertising.pass(step as u32), gone);
            assert_eq!(advertising, plain.advertising());
            with_removal += usize::from(!gone.is_empty());
            to_nothing += usize::from(!gone.is_empty() && advertising.turn.is_none());
        }
    }
    assert!(with_removal > 5_000 && to_nothing > 500, "{with_removal} {to_nothing}");
}

#[test]
fn the_longest_timeouts_and_durations_are_counted_too() {
    let mut dice = Dice(2);
    for round in 0..40 {
        let mut plain = schedule(&mut dice, 6500);
        plain.durations[1 + round % INSTANCES] = 1;
        plain.timeouts[1 + round % INSTANCES] = 0xFFFF;
        if plain.on_air == 0 || plain.on_air == 1 + round % INSTANCES {
            (plain.on_air, plain.left) = (1 + round % INSTANCES, 1);
        }
        let mut advertising = plain.advertising();
        for step in [65_534, 1, 100_000, 1 << 20] {
            let mut gone: Vec<u8> =
                (0..step).filter_map(|_| plain.second()).map(|which| which as u8).collect();
            gone.sort_unstable();
            assert_eq!(advertising.pass(step), gone);
            assert_eq!(advertising, plain.advertising());
        }
    }
}

#[test]
fn the_longest_step_leaves_what_its_parts_leave() {
    const LONGEST: u32 = (1 << 31) - 1;
    let mut dice = Dice(3);
    for round in 0..2_000 {
        let mut whole = schedule(&mut dice, [1, 9, 6500][round % 3]).advertising();
        let mut parts = whole.clone();
        let mut left = LONGEST;
        let mut gone = Vec::new();
        while left > 0 {
            let most = 1 << (7 + dice.below(24));
            let part = left.min(1 + dice.below(most) as u32);
            gone.extend(parts.pass(part));
            left -= part;
        }
        gone.sort_unstable();
        assert_eq!(whole.pass(LONGEST), gone);
        assert_eq!(whole, parts);
    }
    let lone = Plain { durations: [0, 0, 1, 0, 0, 0], timeouts: [0; 6], on_air: 2, left: 1 };
    let mut lone = lone.advertising();
    assert_eq!(lone.pass(LONGEST), []);
    assert_eq!(lone.turn, Some(Turn { instance: 2, left: 1 }));
}

/// How long one instance has waited for its turn, from the first moment at which it is there and not on air, and the
/// longest duration of each instance meanwhile.
#[derive(Clone, Copy, Default)]
struct Wait {
    seconds: u32,
    longest: [u32; INSTANCES],
}

/// Looks at one moment: whoever is present, with power and LE on, and not on air has waited for fewer seconds than the
/// longest durations of the others make up. Gives the longest wait of this moment beside its bound.
fn look(hub: &Hub, waits: &mut [Option<Wait>; INSTANCES]) -> Option<(u32, u32)> {
    let controller = hub.state().controller(0)?;
    let advertising = &controller.advertising;
    let mut worst = None;
    for (place, wait) in waits.iter_mut().enumerate() {
        let on_air = advertising.turn.is_some_and(|turn| usize::from(turn.instance) == place + 1);
        let there = advertising.instances[place].is_some();
        if on_air || !there || !controller.powered || !controller.low_energy {
            *wait = None;
            continue;
        }
        let wait = wait.get_or_insert_default();
        for (longest, other) in wait.longest.iter_mut().zip(&advertising.instances) {
            *longest = (*longest).max(other.as_ref().map_or(0, |other| other.duration.into()));
        }
        let bound = wait.longest.iter().sum::<u32>() - wait.longest[place];
        assert!(wait.seconds < bound, "instance {} waits {} of {bound}", place + 1, wait.seconds);
        worst = worst.max(Some((wait.seconds, bound)));
    }
    worst
}

/// Gives a command to index 0, every other time in two lumps off the serial line.
fn give(dice: &mut Dice, hub: &mut Hub, code: u16, parameters: &[u8]) {
    let packet = frame(code, 0, parameters);
    if dice.below(2) == 0 {
        hub.command(&packet, 1024);
        return;
    }
    let place = dice.below(packet.len() as u64) as usize;
    assert_eq!(hub.stream(&packet[..place], 1024).answer, 9);
    assert_ne!(hub.stream(&packet[place..], 1024).answer, 9);
}

/// A random call to index 0 that changes who is there, or power and LE.
fn change(dice: &mut Dice, hub: &mut Hub) {
    let which = 1 + dice.below(5) as u8;
    match dice.below(40) {
        0 => {
            let on = u8::from(dice.below(4) > 0);
            give(dice, hub, 0x0005, &[on]);
        }
        1 => {
            let on = u8::from(dice.below(4) > 0);
            give(dice, hub, 0x000D, &[on]);
        }
        2..=12 => give(dice, hub, 0x003F, &[which]),
        13 => give(dice, hub, 0x0007, &[1]),
        _ => {
            let timeout = if dice.below(3) == 0 { dice.seconds(30) } else { 0 };
            let parameters = instance(which, dice.seconds(9) - 1, timeout, &[], &[]);
            give(dice, hub, 0x003E, &parameters);
        }
    }
    hub.report(0, 0, 1024);
}

#[test]
fn nobody_waits_longer_than_the_others_longest_turns() {
    let mut dice = Dice(4);
    let (mut longest, mut tight) = (0, 0);
    for _ in 0..300 {
        let mut hub = powered_hub(DUAL);
        let mut waits = [None; INSTANCES];
        for _ in 0..200 {
            change(&mut dice, &mut hub);
            look(&hub, &mut waits);
            let step = if dice.below(3) == 0 { dice.below(12) } else { dice.below(3) } as u32;
            let mut whole = hub.clone();
            wait(&mut whole, step);
            for _ in 0..step {
                wait(&mut hub, 1);
                waits.iter_mut().flatten().for_each(|wait: &mut Wait| wait.seconds += 1);
                if let Some((seconds, bound)) = look(&hub, &mut waits) {
                    longest = longest.max(seconds);
                    tight += usize::from(seconds + 1 == bound);
                }
            }
            assert_eq!(hub, whole);
        }
    }
    assert!(longest > 15 && tight > 100, "longest wait {longest}, {tight} a second before the bound");
}
