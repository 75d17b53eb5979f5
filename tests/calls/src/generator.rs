//! Random lists of calls that follow a hub, so that most calls mean something.

use crate::br_edr;
use crate::images;
use crate::instances;
use crate::line::Line;
use crate::parameters;
use crate::pools;
use crate::random::Random;
use crate::spoiling::spoil_parameters;
use reference::codes::{command as code, CONTROLLERS, NON_CONTROLLER, REPLY_ROOM};
use reference::controller::Controller;
use reference::packet::frame;
use reference::{Call, Hub};

/// What a stretch of calls is mostly about.
#[derive(Clone, Copy, PartialEq, Eq, Debug)]
enum Mood {
    /// Settings, and reports soon after.
    Settings,
    /// Settings, and reports late: many are Busy.
    Waiting,
    /// Discoverable with a timeout, on every controller, and the clock.
    Timers,
    /// Entries are added.
    Filling,
    /// Entries are removed.
    Draining,
    /// Key lists are loaded and devices unpaired.
    Keys,
    /// Advertising instances come, change and go, and the clock.
    Advertising,
    /// BR/EDR goes off and on, with what stands against it and what it stands against, and saves.
    BrEdr,
    /// Everything alike.
    Mixed,
}

/// All moods.
const MOODS: [Mood; 9] = [
    Mood::Settings,
    Mood::Waiting,
    Mood::Timers,
    Mood::Filling,
    Mood::Draining,
    Mood::Keys,
    Mood::Advertising,
    Mood::BrEdr,
    Mood::Mixed,
];

/// The commands to a controller, in the order of the weights below.
const CODES: [u16; 21] = [
    code::READ_INFORMATION,
    code::SET_POWERED,
    code::SET_DISCOVERABLE,
    code::SET_CONNECTABLE,
    code::SET_BONDABLE,
    code::SET_LOW_ENERGY,
    code::SET_STATIC_ADDRESS,
    code::SET_LOCAL_NAME,
    code::ADD_UUID,
    code::REMOVE_UUID,
    code::LOAD_LINK_KEYS,
    code::LOAD_LONG_TERM_KEYS,
    code::LOAD_IDENTITY_KEYS,
    code::UNPAIR,
    code::BLOCK,
    code::UNBLOCK,
    code::ADD_DEVICE,
    code::REMOVE_DEVICE,
    code::ADD_ADVERTISING,
    code::REMOVE_ADVERTISING,
    code::SET_BR_EDR,
];

impl Mood {
    /// How often each command comes.
    fn weights(self) -> [usize; 21] {
        match self {
            Mood::Settings => [3, 12, 16, 7, 3, 6, 5, 2, 1, 1, 1, 1, 1, 2, 1, 1, 1, 1, 5, 1, 7],
            Mood::Waiting => [3, 8, 8, 8, 4, 8, 8, 3, 3, 3, 2, 2, 2, 3, 3, 3, 3, 3, 6, 2, 8],
            Mood::Timers => [1, 12, 40, 8, 1, 1, 1, 1, 1, 1, 1, 1, 1, 1, 1, 1, 1, 1, 6, 1, 1],
            Mood::Filling => [1, 2, 2, 1, 1, 1, 1, 1, 16, 1, 1, 1, 1, 1, 16, 1, 16, 1, 1, 1, 1],
            Mood::Draining => [1, 2, 1, 1, 1, 1, 1, 1, 5, 12, 1, 1, 1, 6, 5, 12, 5, 12, 1, 1, 1],
            Mood::Keys => [1, 6, 1, 1, 1, 1, 1, 1, 1, 1, 8, 8, 8, 16, 1, 1, 1, 1, 1, 1, 1],
            Mood::Advertising => [1, 6, 2, 2, 1, 3, 1, 1, 1, 1, 1, 1, 1, 1, 1, 1, 1, 1, 50, 18, 2],
            Mood::BrEdr => [4, 12, 14, 6, 2, 10, 10, 1, 1, 1, 3, 1, 1, 1, 1, 1, 1, 1, 6, 1, 24],
            Mood::Mixed => [1; 21],
        }
    }
}

/// What kind of call comes next.
#[derive(Clone, Copy)]
enum Next {
    /// A radio report.
    Report,
    /// A clock reading.
    Clock,
    /// A controller comes.
    Plug,
    /// A controller goes.
    Unplug,
    /// The image is asked for.
    Save,
    /// A packet that is none.
    Broken,
    /// A command that is none of the 24.
    Unknown,
    /// A command about no controller.
    Global,
    /// A command to a controller.
    Controller,
}

/// A source of calls.
#[derive(Clone, Debug)]
pub struct Generator {
    /// Where its choices come from.
    random: Random,
    /// What the present stretch is about.
    mood: Mood,
    /// The index that most calls of the stretch go to.
    focus: usize,
    /// How many calls the stretch still has.
    left: usize,
    /// Whether most commands of the stretch come off the serial line.
    serial: bool,
    /// The line.
    line: Line,
}

/// Of a hundred stretches so many have their commands off the serial line.
const SERIAL: usize = 35;

impl Generator {
    /// A source for a seed.
    pub fn new(seed: u64) -> Generator {
        let (random, line) = (Random::new(seed), Line::default());
        Generator { random, mood: Mood::Mixed, focus: 0, left: 0, serial: false, line }
    }

    /// The random numbers behind it.
    pub fn random(&mut self) -> &mut Random {
        &mut self.random
    }

    /// A list begins: nothing is on the serial line.
    pub fn start(&mut self) {
        self.line = Line::default();
    }

    /// The next call, chosen with the hub in view.
    pub fn next(&mut self, hub: &Hub) -> Call {
        if self.left == 0 {
            self.mood = self.random.pick(&MOODS);
            self.focus = self.random.below(CONTROLLERS);
            self.left = self.random.between(30, 300);
            self.serial = self.random.percent(SERIAL);
        }
        self.left -= 1;
        if self.serial && self.line.goes_on(&mut self.random) {
            return self.lump(hub);
        }
        match self.whole(hub) {
            Call::Command { packet, .. } if self.serial && self.random.percent(85) => {
                self.line.put(&mut self.random, &packet);
                self.lump(hub)
            }
            call => call,
        }
    }

    /// A lump of what is on the line.
    fn lump(&mut self, hub: &Hub) -> Call {
        let octets = self.line.lump(&mut self.random, hub.waiting());
        let room = self.room();
        if room >= REPLY_ROOM {
            let taken = hub.waiting().clone().take(&octets).0;
            self.line.took(&mut self.random, taken, octets.len());
        }
        Call::Stream { octets, room }
    }

    /// The next call that is no lump.
    fn whole(&mut self, hub: &Hub) -> Call {
        match self.kind(hub) {
            Next::Report => self.report(hub),
            Next::Clock => self.clock(hub),
            Next::Plug => self.plug(hub),
            Next::Unplug => Call::Unplug { index: self.some_index(hub), room: self.room() },
            Next::Save => self.save(),
            Next::Broken => self.broken(hub),
            Next::Unknown => self.unknown(hub),
            Next::Global => self.global(),
            Next::Controller => self.command(hub),
        }
    }

    /// The kind of the next call.
    fn kind(&mut self, hub: &Hub) -> Next {
        let present = hub.state().present().count();
        let open = (0..CONTROLLERS as u64).filter(|index| hub.open(*index).is_some()).count();
        let (waiting, br_edr) = (self.mood == Mood::Waiting, self.mood == Mood::BrEdr);
        let weights = [
            (Next::Report, 12 + open * if waiting { 15 } else { 150 - 90 * usize::from(br_edr) }),
            (Next::Clock, if matches!(self.mood, Mood::Timers | Mood::Advertising) { 160 } else { 40 }),
            (Next::Plug, 10 + 400 / (1 + 10 * present * present)),
            (Next::Unplug, 5 + open * if br_edr { 3 } else { 1 }),
            (Next::Save, if br_edr { 40 } else { 8 }),
            (Next::Broken, 12),
            (Next::Unknown, 8),
            (Next::Global, 15),
            (Next::Controller, 870),
        ];
        weights[self.random.weighted(&weights.map(|(_, weight)| weight))].0
    }

    /// A reply buffer: mostly just enough.
    fn room(&mut self) -> usize {
        match self.random.below(60) {
            0 => 1023,
            1 => self.random.pick(&[0, 1, 9, 512, 1000]),
            2 | 3 => self.random.pick(&[1025, 2000, 16_013, 16_014, 20_000]),
            _ => 1024,
        }
    }

    /// A save: the room is mostly just enough.
    fn save(&mut self) -> Call {
        Call::Save { room: images::room(&mut self.random) }
    }

    /// A present index, mostly the one in focus.
    fn present_index(&mut self, hub: &Hub) -> Option<usize> {
        let mut present: Vec<usize> = hub.state().present().collect();
        if self.mood == Mood::Advertising && self.random.percent(90) {
            present.retain(|index| hub.state().controller(*index as u64).is_some_and(instances::can_have));
        }
        let dual = |index: &usize| hub.state().controller(*index as u64).is_some_and(br_edr::can_be_off);
        if self.mood == Mood::BrEdr && present.iter().any(dual) && self.random.percent(85) {
            present.retain(dual);
        }
        let spread = matches!(self.mood, Mood::Timers | Mood::BrEdr);
        if present.is_empty() {
            None
        } else if present.contains(&self.focus) && !spread && self.random.percent(70) {
            Some(self.focus)
        } else {
            Some(self.random.pick(&present))
        }
    }

    /// An index that no controller has, or any at all.
    fn stray_index(&mut self) -> u64 {
        match self.random.below(4) {
            0 => self.random.pick(&[4, 5, 0xFF, 0xFFFF, 0x100, 0x1_0000, 1 << 32, 1 << 63, u64::MAX]),
            1 => self.random.below(4) as u64 + self.random.pick(&[0x100, 0x1_0000, 1 << 32]),
            _ => self.random.below(4) as u64,
        }
    }

    /// An index, mostly a present one.
    fn some_index(&mut self, hub: &Hub) -> u64 {
        match self.present_index(hub) {
            Some(index) if self.random.percent(80) => index as u64,
            _ => self.stray_index(),
        }
    }

    /// A report, mostly of success and where a command is under way.
    fn report(&mut self, hub: &Hub) -> Call {
        let open: Vec<u64> = (0..CONTROLLERS as u64).filter(|index| hub.open(*index).is_some()).collect();
        let index = if open.is_empty() || self.random.percent(10) {
            self.stray_index()
        } else {
            self.random.pick(&open)
        };
        let status = match self.random.below(20) {
            0..=2 => self.random.between(1, 0x14) as u64,
            3 => self.random.pick(&[0x0A, 0x14]),
            4 => self.random.pick(&[0x15, 0x16, 0xFF, 0x100, 0x10000, 1 << 32, 1 << 63, u64::MAX]),
            _ => 0,
        };
        Call::Report { index, status, room: self.room() }
    }

    /// A clock reading: short steps, steps to the end of a timer or of a turn, and far ones.
    fn clock(&mut self, hub: &Hub) -> Call {
        let timers = hub.state().controllers.iter().flatten().filter_map(|controller| controller.timer);
        let timers: Vec<u32> = timers.map(u32::from).collect();
        let turns = instances::steps(&mut self.random, hub);
        let to_wrap = hub.state().clock.wrapping_neg();
        let step = match self.random.below(20) {
            0 => self.random.pick(&[0x7FFF_FFFF, 0x8000_0000, 0xFFFF_FFFF, 0x1_0000, 0x1_0001]),
            1 => self.random.bits() as u32,
            2 => to_wrap.wrapping_add(self.random.pick(&[0, 1, 0xFFFF_FFFF])),
            3..=9 if !turns.is_empty() => {
                let end = self.random.pick(&turns);
                end.wrapping_add(self.random.pick(&[0, 0, 1, 0xFFFF_FFFF]))
            }
            6..=15 if !timers.is_empty() => {
                let end = self.random.pick(&timers);
                end.wrapping_add(self.random.pick(&[0, 0, 1, 0xFFFF_FFFF]))
            }
            _ => self.random.below(8) as u32,
        };
        Call::Clock { reading: hub.state().clock.wrapping_add(step), room: self.room() }
    }

    /// A plug, mostly of an absent index with fitting settings.
    fn plug(&mut self, hub: &Hub) -> Call {
        let absent: Vec<u64> =
            (0..CONTROLLERS as u64).filter(|index| hub.state().controller(*index).is_none()).collect();
        let index = if absent.is_empty() || self.random.percent(10) {
            self.stray_index()
        } else {
            self.random.pick(&absent)
        };
        let (mut supported, address) = pools::hardware(&mut self.random);
        let mut address = address.to_vec();
        match self.random.below(25) {
            0 => supported |= 1 << self.random.between(16, 31),
            1 => supported &= !0x0280,
            2 => address = vec![0; 6],
            3 => address.resize(self.random.pick(&[0, 5, 7, 12]), 1),
            _ => {}
        }
        let (version, manufacturer) = (self.random.octet(), self.random.bits() as u16);
        Call::Plug { index, address, version, manufacturer, supported, room: self.room() }
    }

    /// A packet that is too short or has a wrong length field.
    fn broken(&mut self, hub: &Hub) -> Call {
        let mut packet = match self.command(hub) {
            Call::Command { packet, .. } => packet,
            _ => Vec::new(),
        };
        match self.random.below(8) {
            0..=2 => packet.truncate(self.random.below(packet.len().min(6) + 1)),
            3 => packet.extend([0]),
            4 => {
                packet.pop();
            }
            5 if self.random.percent(15) => packet.resize(packet.len() + 0x1_0000, 0),
            _ if packet.len() >= 6 => packet[self.random.pick(&[4, 5])] ^= self.random.octet(),
            _ => {}
        }
        Call::Command { packet, room: self.room() }
    }

    /// A code that is none of the 24.
    fn unknown(&mut self, hub: &Hub) -> Call {
        let code = match self.random.below(3) {
            0 => self
                .random
                .pick(&[0, 8, 0x0E, 0x28, 0x29, 0x2C, 0x35, 0x3D, 0x40, 0x100, 0x101, 0x105, 0xFFFF]),
            1 => self.random.below(0x60) as u16,
            _ => self.random.bits() as u16,
        };
        let index = if self.random.percent(20) { NON_CONTROLLER } else { self.some_index(hub) as u16 };
        let length = self.random.below(20);
        let parameters = self.random.octets(length);
        Call::Command { packet: frame(code, index, &parameters), room: self.room() }
    }

    /// A command about no controller, mostly right.
    fn global(&mut self) -> Call {
        let code = self.random.between(1, 3) as u16;
        let index = match self.random.below(6) {
            0 => self.random.pick(&[0, 1, 0xFFFE, 0xFF, 0xFF00]),
            _ => NON_CONTROLLER,
        };
        let length = if self.random.percent(15) { self.random.between(1, 4) } else { 0 };
        let parameters = self.random.octets(length);
        Call::Command { packet: frame(code, index, &parameters), room: self.room() }
    }

    /// A command to a controller, mostly a present one, mostly valid.
    fn command(&mut self, hub: &Hub) -> Call {
        let code = CODES[self.random.weighted(&self.mood.weights())];
        let Some(index) = self.present_index(hub) else {
            return self.command_to(code, hub, 0, self.focus as u16);
        };
        let field = if self.random.percent(3) { self.stray_index() as u16 } else { index as u16 };
        match hub.state().controller(index as u64).and_then(|controller| self.lead(controller)) {
            Some((code, parameters)) => {
                Call::Command { packet: frame(code, field, &parameters), room: self.room() }
            }
            None => self.command_to(code, hub, index, field),
        }
    }

    /// Now and then a command that leads somewhere: back to BR/EDR on, or, where that is the mood, to BR/EDR off or to an
    /// instance on air.
    fn lead(&mut self, controller: &Controller) -> Option<(u16, Vec<u8>)> {
        let (leads, percent) = match self.mood {
            Mood::BrEdr if controller.br_edr => (br_edr::away(controller), 12),
            Mood::BrEdr => (br_edr::back(controller), 2),
            _ if controller.has_br_edr_off() => (br_edr::back(controller), 12),
            Mood::Advertising => (instances::ready(controller), 60),
            _ => (None, 0),
        };
        leads.filter(|_| self.random.percent(percent))
    }

    /// A command with parameters for one controller and any index field.
    fn command_to(&mut self, code: u16, hub: &Hub, index: usize, field: u16) -> Call {
        let mut parameters = match hub.state().controller(index as u64) {
            Some(controller) => parameters::valid(&mut self.random, code, controller),
            None => self.random.octets(7),
        };
        let many_values = matches!(
            code,
            code::LOAD_LINK_KEYS
                | code::LOAD_LONG_TERM_KEYS
                | code::LOAD_IDENTITY_KEYS
                | code::ADD_ADVERTISING
        );
        if self.random.percent(if many_values { 30 } else { 14 }) {
            spoil_parameters(&mut self.random, code, &mut parameters);
            if self.random.percent(15) {
                spoil_parameters(&mut self.random, code, &mut parameters);
            }
        }
        Call::Command { packet: frame(code, field, &parameters), room: self.room() }
    }
}
