//! Every state of a controller's switches, with and without a command under way, lent to a target and to the reference hub:
//! BR/EDR, what stands against it and what it stands against. Then a slow radio, saves, plugs and images.

use crate::altered::refused;
use crate::images::{image_agrees, tried_agrees};
use crate::layout::{block, encode, STATIC_ADDRESS};
use crate::lent::{Difference, Lent};
use crate::run::{same, step};
use crate::switches;
use crate::target::Target;
use calls::draft::Draft;
use calls::pools::high_address;
use reference::codes::{answer, command as code, setting, CONTROLLERS, IMAGE_ROOM, REPLY_ROOM};
use reference::command::Command;
use reference::controller::{Controller, Hardware};
use reference::packet::frame;
use reference::{downgrade, Call, Hub, Reply};
use std::fmt::{Display, Formatter};

/// The index that is looked at.
const AT: usize = 2;
/// BR/EDR only, LE only and dual mode, with a bit that has nothing to do with it.
const SUPPORTED: [u32; 3] = [0x0081, 0x0201, 0x0281];
/// How many yes and no a state of the switches is made of, support aside.
const BITS: usize = 8;
/// A public address.
const PUBLIC: [u8; 6] = [7; 6];

/// What a sweep came to.
#[derive(Clone, Copy, PartialEq, Eq, Debug, Default)]
pub struct Sweep {
    /// States lent, with and without a command under way.
    pub states: usize,
    /// Those of them that are well formed.
    pub well_formed: usize,
    /// Calls on well-formed states.
    pub calls: usize,
    /// Those of them that were started, each ended in three ways.
    pub started: usize,
    /// Saves with BR/EDR off somewhere.
    pub off: usize,
    /// Images loaded and moved.
    pub images: usize,
}

impl Display for Sweep {
    fn fmt(&self, out: &mut Formatter<'_>) -> std::fmt::Result {
        let Sweep { states, well_formed, calls, started, off, images } = self;
        write!(out, "{states} states of the switches ({well_formed} well formed), {calls} calls on them, ")?;
        write!(out, "{started} started, {off} saves with BR/EDR off, {images} images")
    }
}

/// A command to the index that is looked at.
fn send(code: u16, parameters: &[u8]) -> Call {
    Call::Command { packet: frame(code, AT as u16, parameters), room: REPLY_ROOM }
}

/// A plug of an index.
fn plug(index: usize, supported: u32, address: [u8; 6]) -> Call {
    Call::Plug {
        index: index as u64,
        address: address.to_vec(),
        version: 9,
        manufacturer: 15,
        supported,
        room: REPLY_ROOM,
    }
}

/// A controller of this support with its switches, in the order of the bits of the number: power, connectable, discoverable, its
/// timer, BR/EDR, LE, static address, public address.
fn switched(base: &Controller, supported: u32, number: usize) -> Controller {
    let on = |bit: usize| number >> bit & 1 == 1;
    let public_address = if on(7) { PUBLIC } else { [0; 6] };
    Controller {
        hardware: Hardware { supported, public_address, ..base.hardware.clone() },
        powered: on(0),
        connectable: on(1),
        discoverable: on(2),
        timer: on(3).then_some(60),
        br_edr: on(4),
        low_energy: on(5),
        static_address: if on(6) { high_address(1) } else { [0; 6] },
        ..base.clone()
    }
}

/// The commands that may be under way, and none; some can never be.
fn open_commands() -> Vec<Option<Command>> {
    let timed = |mode, timeout| Command::SetDiscoverable { mode, timeout };
    let switches = (0..=1).flat_map(|value| {
        [Command::SetPowered(value), Command::SetConnectable(value), Command::SetLowEnergy(value)]
    });
    let shown = [timed(0, 0), timed(1, 0), timed(1, 5), timed(2, 9)];
    let br_edr = (0..=2).map(Command::SetBrEdr);
    std::iter::once(None).chain(switches.chain(shown).chain(br_edr).map(Some)).collect()
}

/// What is sent in each well-formed state.
fn questions() -> Vec<Call> {
    let mut out = vec![send(code::READ_INFORMATION, &[]), Call::Save { room: IMAGE_ROOM }];
    out.push(Call::Save { room: IMAGE_ROOM - 1 });
    for code in [code::SET_BR_EDR, code::SET_LOW_ENERGY, code::SET_POWERED, code::SET_CONNECTABLE] {
        out.extend((0..=2).map(|value| send(code, &[value])));
    }
    let shown: [[u8; 3]; 7] = [[0, 0, 0], [0, 5, 0], [1, 0, 0], [1, 5, 0], [2, 0, 0], [2, 5, 0], [3, 0, 0]];
    out.extend(shown.map(|parameters| send(code::SET_DISCOVERABLE, &parameters)));
    out.extend([[0; 6], high_address(1), high_address(2)].map(|to| send(code::SET_STATIC_ADDRESS, &to)));
    out.extend([send(code::SET_BONDABLE, &[1]), send(code::LOAD_LINK_KEYS, &[0; 3])]);
    out.extend([send(code::LOAD_LONG_TERM_KEYS, &[0; 2]), send(code::SET_BR_EDR, &[])]);
    out.push(Call::Clock { reading: 60, room: REPLY_ROOM });
    out
}

/// What ends a command under way: success, failure, and that its controller goes.
fn endings() -> [Call; 3] {
    let report = |status| Call::Report { index: AT as u64, status, room: REPLY_ROOM };
    [report(0), report(0x0B), Call::Unplug { index: AT as u64, room: REPLY_ROOM }]
}

/// Lends the state of a hub and makes calls on it one after the other; gives the last reply.
fn play<T: Target>(
    lent: &mut Lent<T>,
    hub: &Hub,
    calls: &[&Call],
    sweep: &mut Sweep,
) -> Result<Reply, Difference> {
    lent.put_state(&encode(hub));
    let mut hub = hub.clone();
    let mut last = Reply::bare(answer::DONE);
    for call in calls {
        last = step(lent, &mut hub, call).map_err(|difference| format!("{call:02X?}: {difference}"))?;
        sweep.calls += 1;
        let saved = matches!(call, Call::Save { .. }) && last.answer == answer::DONE;
        sweep.off += usize::from(saved && hub.state().has_br_edr_off());
    }
    Ok(last)
}

/// A well-formed state: every call agrees, and how each ends that was started, or that is under way.
fn in_state<T: Target>(lent: &mut Lent<T>, hub: &Hub, sweep: &mut Sweep) -> Result<(), Difference> {
    for call in questions() {
        if play(lent, hub, &[&call], sweep)?.answer == answer::STARTED {
            sweep.started += 1;
            for ending in endings() {
                play(lent, hub, &[&call, &ending, &send(code::READ_INFORMATION, &[])], sweep)?;
            }
        }
    }
    for ending in endings() {
        play(lent, hub, &[&ending, &Call::Save { room: IMAGE_ROOM }], sweep)?;
    }
    Ok(())
}

/// A state that is not well formed: 5 from every question and call.
fn in_no_state<T: Target>(lent: &mut Lent<T>, hub: &Hub) -> Result<(), Difference> {
    lent.put_state(&encode(hub));
    let others = [send(code::SET_BR_EDR, &[1]), Call::Save { room: IMAGE_ROOM }, Call::Save { room: 0 }];
    for call in others.iter().chain(&endings()) {
        same(&format!("{call:02X?}"), &Reply::bare(answer::STATE), &lent.call(call)?)?;
    }
    refused(lent, AT, &Call::Clock { reading: 60, room: REPLY_ROOM })
}

/// Dual-mode controllers come at 0 and at the index that is looked at.
fn plugs() -> [Call; 2] {
    [0, AT].map(|index| plug(index, SUPPORTED[2], PUBLIC))
}

/// Every state of the switches at the index that is looked at, well formed or not: without a command under way, then with each
/// that may be.
pub fn switched_hubs() -> impl Iterator<Item = Hub> {
    let mut base = Hub::new();
    for call in plugs() {
        base.call(&call);
    }
    let controller = base.state().controllers[AT].clone().expect("it is plugged");
    let all = || SUPPORTED.into_iter().flat_map(|s| (0..1_usize << BITS).map(move |n| (s, n)));
    let cases = open_commands().into_iter().flat_map(move |open| all().map(move |case| (open.clone(), case)));
    cases.map(move |(open, (supported, number))| {
        base.with_controller(AT, switched(&controller, supported, number)).with_open(AT, open)
    })
}

/// Lends each of them.
fn states_agree<T: Target>(lent: &mut Lent<T>, base: &Hub, sweep: &mut Sweep) -> Result<(), Difference> {
    let controller = base.state().controllers[AT].as_ref().expect("it is plugged");
    for hub in switched_hubs() {
        let octets = &encode(&hub)[block(AT)];
        let well_formed = switches::read(octets, controller).is_some();
        sweep.states += 1;
        sweep.well_formed += usize::from(well_formed);
        let result = if well_formed { in_state(lent, &hub, sweep) } else { in_no_state(lent, &hub) };
        let shown = &octets[..STATIC_ADDRESS.end];
        result.map_err(|difference| format!("a block that begins with {shown:02X?}: {difference}"))?;
    }
    Ok(())
}

/// What may be sent while the radio is slow: every command, and the other calls.
fn meanwhile() -> Vec<Call> {
    let peer = [&high_address(3)[..], &[1]].concat();
    let others: [(u16, Vec<u8>); 16] = [
        (code::READ_VERSION, vec![]),
        (code::READ_INDEX_LIST, vec![]),
        (code::SET_LOCAL_NAME, [&b"gate"[..], &[0; 256]].concat()),
        (code::ADD_UUID, [&[9; 16][..], &[1]].concat()),
        (code::REMOVE_UUID, vec![0; 16]),
        (code::LOAD_IDENTITY_KEYS, vec![0; 2]),
        (code::UNPAIR, [&peer[..], &[0]].concat()),
        (code::BLOCK, peer.clone()),
        (code::UNBLOCK, peer.clone()),
        (code::ADD_DEVICE, [&peer[..], &[2]].concat()),
        (code::REMOVE_DEVICE, vec![0; 7]),
        (code::ADD_ADVERTISING, vec![1, 0, 0, 0, 0, 5, 0, 9, 0, 0, 0]),
        (code::REMOVE_ADVERTISING, vec![0]),
        (code::SET_LOCAL_NAME, vec![1; 260]),
        (code::SET_BR_EDR, vec![0xFF]),
        (0x0029, vec![0]),
    ];
    let mut out = questions();
    out.extend(others.map(|(code, parameters)| send(code, &parameters)));
    out.extend((1..=3).map(|code| Call::Command { packet: frame(code, 0xFFFF, &[]), room: REPLY_ROOM }));
    out.extend([plug(3, 0x0281, PUBLIC), Call::Unplug { index: 0, room: REPLY_ROOM }]);
    out.push(Call::Command { packet: frame(code::SET_BR_EDR, 0, &[0]), room: REPLY_ROOM });
    out
}

/// Set BR/EDR waits for a slow radio, where it was off and where it was on: each call meanwhile, then each ending.
fn slow_radio_agrees<T: Target>(lent: &mut Lent<T>, base: &Hub, sweep: &mut Sweep) -> Result<(), Difference> {
    let controller = base.state().controllers[AT].as_ref().expect("it is plugged");
    for br_edr in [false, true] {
        let powered = Controller { powered: true, br_edr, ..controller.clone() };
        let hub = base.with_controller(AT, powered);
        for call in meanwhile() {
            for ending in endings() {
                let keys =
                    send(code::LOAD_LINK_KEYS, &[&[0, 1, 0, 5, 6, 7, 8, 9, 1, 0, 4][..], &[3; 17]].concat());
                let (on, save) = (send(code::SET_BR_EDR, &[1]), Call::Save { room: IMAGE_ROOM });
                let calls = [&keys, &on, &call, &ending, &save];
                let result = play(lent, &hub, &calls, sweep);
                result
                    .map_err(|difference| format!("a slow radio, {call:02X?}, {ending:?}: {difference}"))?;
                sweep.started += 1;
            }
        }
    }
    Ok(())
}

/// A fresh hub on both, with controllers plugged.
fn plugged<T: Target>(lent: &mut Lent<T>, plugs: &[Call]) -> Result<Hub, Difference> {
    let mut hub = Hub::new();
    image_agrees(lent, &mut hub, &calls::lists::EMPTY)?;
    for call in plugs {
        step(lent, &mut hub, call).map_err(|difference| format!("{call:02X?}: {difference}"))?;
    }
    Ok(hub)
}

/// Plugs of each support, the settings shown behind.
fn plugs_agree<T: Target>(lent: &mut Lent<T>) -> Result<(), Difference> {
    let information = send(code::READ_INFORMATION, &[]);
    for (supported, address) in SUPPORTED.into_iter().flat_map(|s| [(s, PUBLIC), (s, [0; 6])]) {
        plugged(lent, &[plug(AT, supported, address), information.clone()])?;
    }
    Ok(())
}

/// Four dual-mode controllers are saved with BR/EDR off at each set of them.
fn saves_agree<T: Target>(lent: &mut Lent<T>, sweep: &mut Sweep) -> Result<(), Difference> {
    let plugs: Vec<Call> = (0..CONTROLLERS).map(|index| plug(index, SUPPORTED[2], PUBLIC)).collect();
    let hub = plugged(lent, &plugs)?;
    for off in 0..1_usize << CONTROLLERS {
        let mut turned = hub.clone();
        for index in (0..CONTROLLERS).filter(|index| off >> index & 1 == 1) {
            turned.command(&frame(code::SET_BR_EDR, index as u16, &[0]), REPLY_ROOM);
        }
        for room in [0, REPLY_ROOM, IMAGE_ROOM - 1, IMAGE_ROOM, IMAGE_ROOM + 1] {
            let result = play(lent, &turned, &[&Call::Save { room }], sweep);
            let result = result.and_then(|_| tried_agrees(lent, &turned.save(room).octets, room));
            result.map_err(|difference| format!("BR/EDR off at {off:04b}: {difference}"))?;
        }
    }
    Ok(())
}

/// Images of the version of this one with every flag that there is, for each support, with and without a static address.
fn loads_agree<T: Target>(lent: &mut Lent<T>, image: &[u8], sweep: &mut Sweep) -> Result<(), Difference> {
    let bits = [setting::CONNECTABLE, setting::BONDABLE, setting::BR_EDR, setting::LOW_ENERGY];
    for (supported, number) in SUPPORTED.into_iter().flat_map(|s| (0..32_usize).map(move |n| (s, n))) {
        let mut draft = Draft::read(image);
        for controller in &mut draft.controllers {
            let chosen = bits.iter().enumerate().filter(|(place, _)| number >> place & 1 == 1);
            controller.flags = chosen.map(|(_, bit)| bit).sum();
            controller.supported = supported;
            controller.static_address = if number >= 16 { high_address(4) } else { [0; 6] };
        }
        sweep.images += 1;
        let result = tried_agrees(lent, &draft.octets(), IMAGE_ROOM);
        result.map_err(|difference| {
            let version = draft.version;
            format!("an image of version {version}, supported {supported:#06x}, {number:05b}: {difference}")
        })?;
    }
    Ok(())
}

/// Tries all of it.
pub fn br_edr_agrees<T: Target>(lent: &mut Lent<T>) -> Result<Sweep, Difference> {
    let mut sweep = Sweep::default();
    plugs_agree(lent)?;
    saves_agree(lent, &mut sweep)?;
    let base = plugged(lent, &plugs())?;
    let image = base.save(IMAGE_ROOM).octets;
    loads_agree(lent, &image, &mut sweep)?;
    loads_agree(lent, &downgrade(&image, IMAGE_ROOM).octets, &mut sweep)?;
    plugged(lent, &plugs())?;
    slow_radio_agrees(lent, &base, &mut sweep)?;
    states_agree(lent, &base, &mut sweep)?;
    Ok(sweep)
}
