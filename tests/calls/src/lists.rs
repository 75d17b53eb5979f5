//! Whole lists of calls: where they start, how long they are, and calls at the
//! end that show what is left in the hub.

use crate::draft::Draft;
use crate::generator::Generator;
use crate::images;
use crate::pools;
use crate::random::Random;
use reference::codes::{command as code, status, CONTROLLERS, IMAGE_ROOM, REPLY_ROOM};
use reference::packet::frame;
use reference::{Call, Hub};

/// How many images a run loads and moves after each list.
pub const IMAGES: usize = 12;
/// An image of the fresh hub.
pub const EMPTY: [u8; 6] = [0, 0, 0, 6, 1, 0];

/// An image for a list to start from: the empty one, the last list's, or one
/// made from scratch.
pub fn start(random: &mut Random, last: &[u8]) -> Vec<u8> {
    match random.below(4) {
        0 => EMPTY.to_vec(),
        1 => last.to_vec(),
        _ => Draft::random(random).octets(),
    }
}

/// How many calls a list has: mostly some hundred, now and then a few.
pub fn length(random: &mut Random) -> usize {
    match random.below(10) {
        0 => random.between(0, 20),
        1 => random.between(1000, 3000),
        _ => random.between(100, 800),
    }
}

/// Calls that end a list: what is under way fails, the timers are run to their
/// ends, the settings are shown, free slots are used in each table that can be
/// filled one by one, and an advertising instance comes and all go.
pub struct Closing {
    /// How many calls there were, reports aside.
    step: usize,
}

impl Closing {
    /// The end of a list.
    pub fn new() -> Closing {
        Closing { step: 0 }
    }

    /// The next call, or none if all is shown.
    pub fn next(&mut self, hub: &Hub) -> Option<Call> {
        const CLOCKS: usize = 2 * CONTROLLERS;
        const SHOWN: usize = 10;
        if let Some(index) = (0..CONTROLLERS as u64).find(|index| hub.open(*index).is_some()) {
            let status = if self.step == 0 { status::FAILED.into() } else { 0 };
            return Some(Call::Report { index, status, room: REPLY_ROOM });
        }
        let step = self.step;
        self.step += 1;
        match step {
            0..CLOCKS => Some(next_second(hub, step)),
            CLOCKS => Some(Call::Save { room: IMAGE_ROOM }),
            _ => {
                let (index, shown) = ((step - CLOCKS - 1) / SHOWN, (step - CLOCKS - 1) % SHOWN);
                (index < CONTROLLERS).then(|| show(index as u16, shown))
            }
        }
    }
}

impl Default for Closing {
    fn default() -> Self {
        Closing::new()
    }
}

/// The reading one second before the first timer ends, then the one at its end.
fn next_second(hub: &Hub, step: usize) -> Call {
    let timers = hub.state().controllers.iter().flatten().filter_map(|controller| controller.timer);
    let first = u32::from(timers.min().unwrap_or(1));
    let seconds = if step.is_multiple_of(2) { first - 1 } else { 1 };
    Call::Clock { reading: hub.state().clock.wrapping_add(seconds), room: REPLY_ROOM }
}

/// One of the calls that show a controller.
fn show(index: u16, shown: usize) -> Call {
    let peer = |number: usize| [&pools::high_address(number)[..], &[1]].concat();
    let (code, parameters) = match shown {
        0 => (code::READ_INFORMATION, vec![]),
        1 | 2 => (code::ADD_UUID, [&pools::uuid(pools::UUIDS - shown)[..], &[0x40]].concat()),
        3 | 4 => (code::BLOCK, peer(30 + shown)),
        5 => (code::ADD_DEVICE, [peer(30), vec![2]].concat()),
        6 => return Call::Save { room: IMAGE_ROOM },
        7 => (code::ADD_ADVERTISING, [&[3, 0, 0, 0, 0, 9, 0, 0, 0, 1, 0][..], &[0xAD]].concat()),
        8 => (code::REMOVE_ADVERTISING, vec![0]),
        _ => (code::REMOVE_DEVICE, vec![0; 7]),
    };
    Call::Command { packet: frame(code, index, &parameters), room: REPLY_ROOM }
}

/// A command to an index that is started there, where nothing is under way yet; none where nothing can be started.
fn starts(random: &mut Random, hub: &Hub, index: usize) -> Option<Call> {
    let controller = hub.state().controllers[index].as_ref()?;
    let hardware = &controller.hardware;
    if hub.open(index as u64).is_some() || !(controller.powered || controller.has_address()) {
        return None;
    }
    let br_edr_on = frame(code::SET_BR_EDR, index as u16, &[1]);
    let (code, parameters) = match random.below(5) {
        _ if !controller.powered => (code::SET_POWERED, vec![1]),
        0 if controller.br_edr && controller.connectable => {
            (code::SET_DISCOVERABLE, vec![random.between(1, 2) as u8, 1 + random.octet() / 2, random.octet()])
        }
        1 if hardware.supports_low_energy() => {
            let off = controller.br_edr && random.percent(50);
            (code::SET_LOW_ENERGY, vec![u8::from(!off)])
        }
        2 => (code::SET_CONNECTABLE, vec![random.below(2) as u8]),
        3 if hub.reasons(&br_edr_on).is_empty() => (code::SET_BR_EDR, vec![1]),
        _ => (code::SET_POWERED, vec![0]),
    };
    Some(Call::Command { packet: frame(code, index as u16, &parameters), room: REPLY_ROOM })
}

/// How a list ends.
enum End {
    /// What is under way fails, and all is shown.
    Closed(Closing),
    /// A command is left under way at each index where that can be; those from this one on are still to be tried.
    Open(usize),
}

/// A source of whole lists for one seed.
pub struct Lists {
    /// Where the calls come from.
    generator: Generator,
    /// The image that the last list left.
    last: Vec<u8>,
    /// How many calls the list still has before its end.
    left: usize,
    /// The calls at its end.
    end: End,
}

impl Lists {
    /// Lists for a seed.
    pub fn new(seed: u64) -> Lists {
        let end = End::Closed(Closing::new());
        Lists { generator: Generator::new(seed), last: EMPTY.to_vec(), left: 0, end }
    }

    /// Starts a list: the image, and the hub made from it.
    pub fn start(&mut self) -> (Vec<u8>, Hub) {
        self.generator.start();
        let random = self.generator.random();
        let image = start(random, &self.last);
        self.left = length(random);
        self.end = End::Closed(Closing::new());
        let mut hub = Hub::new();
        let reply = hub.load(&image);
        assert_eq!(reply.answer, 0, "lists start from acceptable images");
        (image, hub)
    }

    /// Starts a list that ends with commands under way.
    pub fn start_open(&mut self) -> (Vec<u8>, Hub) {
        let started = self.start();
        self.end = End::Open(0);
        started
    }

    /// The next of the calls that end the list.
    fn next_of_end(&mut self, hub: &Hub) -> Option<Call> {
        match &mut self.end {
            End::Closed(closing) => closing.next(hub),
            End::Open(index) => {
                let random = self.generator.random();
                let found = (*index..CONTROLLERS).find_map(|k| Some((k + 1, starts(random, hub, k)?)));
                let (next, call) = found?;
                *index = next;
                Some(call)
            }
        }
    }

    /// The next call of the list, chosen with the hub in view, or none at its end.
    pub fn next(&mut self, hub: &Hub) -> Option<Call> {
        if self.left == 0 {
            return self.next_of_end(hub);
        }
        self.left -= 1;
        let call = self.generator.next(hub);
        if self.left == 0 {
            self.last = hub.save(IMAGE_ROOM).octets;
        }
        Some(call)
    }

    /// Whether only the calls that end the list are left.
    pub fn is_closing(&self) -> bool {
        self.left == 0
    }

    /// An image to load and to move, seldom valid, and the room for what a move gives.
    pub fn image(&mut self) -> (Vec<u8>, usize) {
        let random = self.generator.random();
        (images::image(random, &self.last), images::room(random))
    }
}
