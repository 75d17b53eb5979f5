//! Situations of advertising instances that a run should reach.

use crate::situations::See;
use reference::advertising::{Advertising, DATA};
use reference::command::NewInstance;
use reference::controller::Controller;
use reference::Hub;

/// How many turns of a step are looked at one by one.
const TURNS: usize = 300;

/// The instances that go in a step, in the order of time, as far as the turns are looked at.
fn gone_in_time(advertising: &Advertising, step: u32) -> Vec<u8> {
    let mut advertising = advertising.clone();
    let (mut left, mut gone) = (step, Vec::new());
    for _ in 0..TURNS {
        let Some(turn) = advertising.turn.filter(|_| left > 0) else { break };
        let timeout = advertising.instance(turn.instance).and_then(|instance| instance.timeout);
        let part = left.min(timeout.unwrap_or(u16::MAX).min(turn.left).into());
        gone.extend(advertising.pass(part));
        left -= part;
    }
    gone
}

/// A clock reading that is accepted: what its step does to the turns of one index.
fn at_index(controller: &Controller, step: u32, see: &mut See) {
    let advertising = &controller.advertising;
    let Some(turn) = advertising.turn.filter(|_| step > 0) else { return };
    let Some(instance) = advertising.instance(turn.instance) else { return };
    let left = u32::from(turn.left);
    let (timeout, present) = (instance.timeout.map(u32::from), advertising.present().count());
    let round = || advertising.instances.iter().flatten().map(|one| u32::from(one.duration)).sum::<u32>();
    see("turn ends at its second", step == left && timeout.is_none_or(|timeout| timeout > left));
    see("turn has a second left", step + 1 == left && timeout.is_none_or(|timeout| timeout > step));
    see(
        "turn goes round to a lower instance",
        present > 1 && step == left && advertising.present().last() == Some(turn.instance),
    );
    see("lone instance begins anew", present == 1 && timeout.is_none() && step == left);
    see("lone instance with a timeout begins anew", present == 1 && timeout > Some(step) && step >= left);
    see("timeout ends at its second", timeout == Some(step) && step < left);
    see("timeout has a second left", timeout == Some(step + 1) && step < left);
    see("timeout and turn end together", timeout == Some(left) && step == left);
    see("a round passes", present > 1 && step == round());
    see("many rounds pass", present > 1 && step / 10 >= round());
    see(
        "many rounds pass beside a timeout that lasts",
        present > 1 && step / 10 >= round() && lasts(advertising, step),
    );
    see("longest steps with one on air", step >= 0x7FFF_FFFE);
}

/// Whether an instance with a timeout is still there after a step, and none went.
fn lasts(advertising: &Advertising, step: u32) -> bool {
    let timed = advertising.instances.iter().flatten().any(|instance| instance.timeout.is_some());
    timed && advertising.clone().pass(step).is_empty()
}

/// A clock reading that is accepted.
pub fn at_clock(hub: &Hub, step: u32, see: &mut See) {
    let mut indexes = 0;
    for index in hub.state().present() {
        let Some(controller) = hub.state().controllers[index].as_ref() else { continue };
        at_index(controller, step, see);
        let gone = gone_in_time(&controller.advertising, step);
        if gone.is_empty() {
            continue;
        }
        indexes += 1;
        let ends = controller.timer.is_some_and(|timer| u32::from(timer) <= step);
        let busy = hub.open(index as u64).is_some();
        see("timer and timeout end in one step", ends);
        see("instance goes during a command", busy);
        see("instances go in another order than told", !gone.is_sorted());
        see("the last instance goes by the clock", gone.len() == controller.advertising.present().count());
    }
    see("instances of two indexes go", indexes > 1);
}

/// An instance is added or changed.
pub fn at_add(controller: &Controller, busy: bool, new: &NewInstance, see: &mut See) {
    let advertising = &controller.advertising;
    let on_air = advertising.turn.map(|turn| turn.instance);
    let before = advertising.instance(new.instance);
    let present = advertising.present().count();
    see("instance comes on air at once", controller.powered && on_air.is_none());
    see("instance added beside the one on air", before.is_none() && on_air.is_some());
    see("instance added without power", before.is_none() && !controller.powered);
    see("instance changed without power", before.is_some() && !controller.powered);
    see("instance on air changed, the turn passes on", on_air == Some(new.instance) && present > 1);
    see("lone instance on air changed", on_air == Some(new.instance) && present == 1);
    see("waiting instance changed", before.is_some() && on_air.is_some_and(|which| which != new.instance));
    see("change takes a timeout away", new.timeout == 0 && before.is_some_and(|old| old.timeout.is_some()));
    see("change gives a timeout", new.timeout != 0 && before.is_some_and(|old| old.timeout.is_none()));
    see("duration of 0", new.duration == 0);
    see("timeout shorter than a turn", new.timeout != 0 && new.timeout < new.duration);
    see("all data used", new.data.len() == DATA && new.scan_response.len() == DATA);
    see("instance added during a command", busy);
}

/// Instances are removed, all of them for 0.
pub fn at_remove(controller: &Controller, which: u8, see: &mut See) {
    let advertising = &controller.advertising;
    let present = advertising.present().count();
    let on_air = advertising.turn.map(|turn| turn.instance);
    see("instance on air removed, the turn passes on", on_air == Some(which) && present > 1);
    see("last instance removed", which != 0 && present == 1);
    see("waiting instance removed", which != 0 && on_air.is_some_and(|other| other != which));
    see("all instances removed", which == 0 && present > 1);
    see("no instance to remove", which == 0 && present == 0);
    see("instance removed without power", which != 0 && !controller.powered);
}

/// Power is turned on or off, or LE off, and acts.
pub fn at_setting(controller: &Controller, power: Option<bool>, see: &mut See) {
    let instances = || controller.advertising.instances.iter().flatten();
    let timed = instances().filter(|instance| instance.timeout.is_some()).count();
    let present = instances().count();
    match power {
        Some(true) => see("power on puts one on air", present > 0 && !controller.powered),
        Some(false) => {
            see("power off removes some instances", timed > 0 && timed < present);
            see("power off removes two instances", timed > 1);
            see("power off leaves all instances", present > 0 && timed == 0);
        }
        None if controller.powered => see("LE off removes instances at its report", present > 1),
        None => see("LE off removes instances at once", present > 0),
    }
}

/// All names that a run should come to.
pub const EXPECTED: [&str; 44] = [
    "turn ends at its second",
    "turn has a second left",
    "turn goes round to a lower instance",
    "lone instance begins anew",
    "lone instance with a timeout begins anew",
    "timeout ends at its second",
    "timeout has a second left",
    "timeout and turn end together",
    "a round passes",
    "many rounds pass",
    "many rounds pass beside a timeout that lasts",
    "longest steps with one on air",
    "timer and timeout end in one step",
    "instance goes during a command",
    "instances go in another order than told",
    "the last instance goes by the clock",
    "instances of two indexes go",
    "instance comes on air at once",
    "instance added beside the one on air",
    "instance added without power",
    "instance changed without power",
    "instance on air changed, the turn passes on",
    "lone instance on air changed",
    "waiting instance changed",
    "change takes a timeout away",
    "change gives a timeout",
    "duration of 0",
    "timeout shorter than a turn",
    "all data used",
    "instance added during a command",
    "instance on air removed, the turn passes on",
    "last instance removed",
    "waiting instance removed",
    "all instances removed",
    "no instance to remove",
    "instance removed without power",
    "power on puts one on air",
    "power off removes some instances",
    "power off removes two instances",
    "power off leaves all instances",
    "LE off removes instances at its report",
    "LE off removes instances at once",
    "unplug with instances",
    "save with instances",
];
