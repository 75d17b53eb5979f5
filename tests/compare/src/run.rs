//! Random lists and images on a target and on the reference hub side by side.

use crate::altered::{altered_states_agree, Altered};
use crate::broken::broken_tables_agree;
use crate::images::{image_agrees, images_agree, tried_agrees};
use crate::layout::{cleared, encode, encode_at_once, same_state};
use crate::lent::{Difference, Lent};
use crate::look_up::{look_up_of_no_state, question_agrees};
use crate::questions::questions_agree;
use crate::target::Target;
use crate::waiting_states::altered_waiting_agrees;
use crate::why::{why_agrees, why_agrees_in_any_room, why_of_no_state};
use calls::lists::{Lists, IMAGES};
use calls::look_ups::{LookUps, Question, LOOK_UPS};
use calls::packets::{Packets, PACKETS};
use calls::Random;
use reference::codes::{answer, CONTROLLERS, IMAGE_ROOM, REPLY_ROOM};
use reference::packet::Packet;
use reference::{reduce, AtOnceHub, Call, Hub, Reply, Traced};

/// How many calls lie between two comparisons of saved images.
const SAVES: usize = 50;
/// Of so many lists one ends with commands under way.
const OPEN_ENDS: usize = 3;

/// A comparison with what it has done so far.
pub struct Comparison<T: Target> {
    /// Where the lists come from.
    lists: Lists,
    /// Where the packets that are asked about come from.
    packets: Packets,
    /// Where the look-ups come from.
    look_ups: LookUps,
    /// Where the altered states come from.
    random: Random,
    /// The state buffer that the lists run on.
    lent: Lent<T>,
    /// The state buffer that the reduced lists run on.
    at_once: Lent<T>,
    /// Calls compared.
    pub calls: usize,
    /// Lists run.
    pub runs: usize,
    /// Images loaded and moved beside those that lists start from.
    pub images: usize,
    /// Calls left over by the reduction and fed to the at-once hub.
    pub reduced: usize,
    /// Commands that were under way at the end of a list.
    pub left_open: usize,
    /// Packets asked about at the end of a list.
    pub asked: usize,
    /// Look-ups drawn, after each call and at the end of a list.
    pub looked_up: usize,
    /// States lent with a broken table.
    pub broken: usize,
    /// States lent with another advertising part or other switches.
    pub altered: Altered,
    /// States lent with other octets waiting.
    pub altered_waiting: Altered,
    /// Lumps among the calls.
    pub lumps: usize,
    /// Lists at whose end something waited.
    pub left_waiting: usize,
}

/// A list that the hubs differ on.
pub struct Failure {
    /// The image that the list starts from.
    pub image: Vec<u8>,
    /// The calls up to the difference.
    pub calls: Vec<Call>,
    /// The look-up behind them, if that is what they differ on.
    pub look_up: Option<Question>,
    /// The difference.
    pub difference: Difference,
}

/// A reply in words, long ones cut.
fn shown(reply: &Reply) -> String {
    let octets: Vec<String> = reply.octets.iter().take(80).map(|octet| format!("{octet:02X}")).collect();
    let Reply { answer, taken, offset, .. } = reply;
    let count = reply.octets.len();
    format!(
        "answer {answer}, {taken} octets taken, at fault at {offset}, {count} octets: {}",
        octets.join(" ")
    )
}

/// An error that tells both replies, unless they are the same.
pub fn same(what: &str, expected: &Reply, found: &Reply) -> Result<(), Difference> {
    if expected == found {
        return Ok(());
    }
    Err(format!("{what}\n  expected {}\n  found    {}", shown(expected), shown(found)))
}

/// Makes a call on both and compares what they give and their states, octet for octet. Of a command it is asked first why it
/// would be refused.
pub fn step<T: Target>(lent: &mut Lent<T>, hub: &mut Hub, call: &Call) -> Result<Reply, Difference> {
    if let Call::Command { packet, .. } = call {
        why_agrees(lent, hub, packet)?;
    }
    let expected = hub.call(call);
    let found = lent.call(call)?;
    same("the reply differs", &expected, &found)?;
    same_state("the state differs", &encode(hub), lent.state())?;
    Ok(found)
}

impl<T: Target> Comparison<T> {
    /// A comparison of two targets alike, one for the lists and one for the
    /// reduced lists.
    pub fn new(seed: u64, target: T, other: T) -> Comparison<T> {
        Comparison {
            lists: Lists::new(seed),
            packets: Packets::new(seed),
            look_ups: LookUps::new(seed),
            random: Random::new(!seed),
            lent: Lent::new(target),
            at_once: Lent::new(other),
            calls: 0,
            runs: 0,
            images: 0,
            reduced: 0,
            left_open: 0,
            asked: 0,
            looked_up: 0,
            broken: 0,
            altered: Altered::default(),
            altered_waiting: Altered::default(),
            lumps: 0,
            left_waiting: 0,
        }
    }

    /// The target, with its state buffer.
    pub fn lent(&mut self) -> &mut Lent<T> {
        &mut self.lent
    }

    /// Runs lists until there are enough calls.
    pub fn run(&mut self, count: usize) -> Result<(), Failure> {
        while self.calls < count {
            self.run_list()?;
            self.runs += 1;
            for _ in 0..IMAGES {
                let (image, room) = self.lists.image();
                self.images += 1;
                let result = tried_agrees(&mut self.lent, &image, room).map(|_| ());
                let failure = |difference| Failure { image, calls: Vec::new(), look_up: None, difference };
                result.map_err(failure)?;
            }
        }
        Ok(())
    }

    /// Runs one list, and what it reduces to.
    fn run_list(&mut self) -> Result<(), Failure> {
        let (image, mut hub) =
            if self.runs % OPEN_ENDS == 1 { self.lists.start_open() } else { self.lists.start() };
        self.look_ups.start();
        let mut list = Vec::new();
        let mut look_up = None;
        let mut result = self.begin(&image);
        while result.is_ok() {
            let Some(call) = self.lists.next(&hub) else { break };
            let reply = step(&mut self.lent, &mut hub, &call);
            result = reply.as_ref().map(|_| ()).map_err(|difference| difference.clone());
            list.push(Traced::new(call, reply.unwrap_or(Reply::bare(answer::STATE))));
            self.calls += 1;
            self.lumps += usize::from(matches!(list.last(), Some(Traced { call: Call::Stream { .. }, .. })));
            result = result.and_then(|()| self.look(&hub, 1, &mut look_up));
            if result.is_ok() && list.len() % SAVES == 0 {
                result = images_agree(&mut self.lent, &hub.save(IMAGE_ROOM));
                result = result.and_then(|()| questions_agree(&mut self.lent, &hub));
            }
        }
        let result = result.and_then(|()| self.finish(&image, &hub, &list));
        let result = result.and_then(|()| self.look(&hub, LOOK_UPS, &mut look_up));
        let mut calls: Vec<Call> = list.into_iter().map(|traced| traced.call).collect();
        let asked = result.is_ok().then(|| self.ask(&hub)).flatten();
        let result = match asked {
            None => result,
            Some((packet, difference)) => {
                calls.push(Call::Command { packet, room: REPLY_ROOM });
                Err(difference)
            }
        };
        result.map_err(|difference| Failure { image, calls, look_up, difference })
    }

    /// Makes so many look-ups on both; the first that they differ on is kept.
    fn look(&mut self, hub: &Hub, count: usize, kept: &mut Option<Question>) -> Result<(), Difference> {
        for _ in 0..count {
            let question = self.look_ups.next(hub);
            self.looked_up += 1;
            if let Err(difference) = question_agrees(&mut self.lent, hub, &question) {
                *kept = Some(question);
                return Err(difference);
            }
        }
        Ok(())
    }

    /// Asks why packets would be refused; gives the first that the two differ on, with the difference.
    fn ask(&mut self, hub: &Hub) -> Option<(Vec<u8>, Difference)> {
        for _ in 0..PACKETS {
            let packet = self.packets.next(hub);
            self.asked += 1;
            if let Err(difference) = why_agrees_in_any_room(&mut self.lent, hub, &packet) {
                return Some((packet, difference));
            }
        }
        None
    }

    /// Loads the image that a list starts from, over whatever is there.
    fn begin(&mut self, image: &[u8]) -> Result<(), Difference> {
        self.lent_states()?;
        self.lent.fill_state([0x00, 0xFF, 0x5A][self.runs % 3]);
        self.at_once.fill_state(0xFF);
        for lent in [&mut self.lent, &mut self.at_once] {
            if !image_agrees(lent, &mut Hub::new(), image)? {
                return Err("the image to start from is not taken".into());
            }
        }
        Ok(())
    }

    /// Compares images, and the reduced list with both at-once hubs: what they give, and their states with that of the list, whose open
    /// commands and waiting octets are cleared.
    fn finish(&mut self, image: &[u8], hub: &Hub, list: &[Traced]) -> Result<(), Difference> {
        images_agree(&mut self.lent, &hub.save(IMAGE_ROOM))?;
        questions_agree(&mut self.lent, hub)?;
        let mut plain = AtOnceHub::new();
        plain.load(image);
        for expected in reduce(list) {
            self.reduced += 1;
            let expected_reply = Reply::new(expected.answer, expected.octets);
            let what = format!("reduced, at once: {:?}", expected.call);
            same(&what, &expected_reply, &plain.call(&expected.call))?;
            let found = call_at_once(&mut self.at_once, &expected.call)?;
            same(&format!("reduced, reported at once: {:?}", expected.call), &expected_reply, &found)?;
        }
        images_agree(&mut self.lent, &plain.call(&Call::Save { room: IMAGE_ROOM }))?;
        self.left_open += (0..CONTROLLERS as u64).filter(|index| hub.open(*index).is_some()).count();
        self.left_waiting += usize::from(hub.waiting().taken > 0);
        let expected = encode_at_once(plain.state());
        same_state("the state of the reduced list, reported at once", &expected, self.at_once.state())?;
        let found = cleared(self.lent.state());
        same_state("the state, open commands and what waits cleared", &expected, &found)?;
        altered_states_agree(&mut self.lent, hub, &mut self.random, &mut self.altered)?;
        altered_waiting_agrees(&mut self.lent, hub, &mut self.random, &mut self.altered_waiting)?;
        self.broken += broken_tables_agree(&mut self.lent, hub, &mut self.random)?;
        Ok(())
    }

    /// State buffers of a wrong length, and one that no state can be, are answered 5.
    fn lent_states(&mut self) -> Result<(), Difference> {
        for call in one_of_each() {
            for length in [0, T::STATE_LEN - 1, T::STATE_LEN + 1] {
                let found = self.lent.call_with_length(&call, length)?;
                same(&format!("a state of {length}: {call:?}"), &Reply::bare(answer::STATE), &found)?;
            }
            self.lent.fill_state(0xFF);
            let found = self.lent.call(&call)?;
            same(&format!("a state of 0xFF: {call:?}"), &Reply::bare(answer::STATE), &found)?;
        }
        why_of_no_state(&mut self.lent)?;
        look_up_of_no_state(&mut self.lent)?;
        for length in [0, T::STATE_LEN - 1, T::STATE_LEN + 1] {
            for image in [&calls::lists::EMPTY[..], &[0, 0, 0, 6, 3, 0]] {
                let found = self.lent.load_with_length(image, length)?;
                same(&format!("load into a state of {length}"), &Reply::bare(answer::STATE), &found)?;
            }
        }
        Ok(())
    }
}

/// One call of each kind, some with too little room.
fn one_of_each() -> Vec<Call> {
    let address = vec![1; 6];
    vec![
        Call::Command { packet: vec![1, 0, 0xFF, 0xFF, 0, 0], room: REPLY_ROOM },
        Call::Command { packet: vec![], room: 0 },
        Call::Stream { octets: vec![1, 0, 0xFF, 0xFF, 0, 0], room: REPLY_ROOM },
        Call::Stream { octets: vec![1], room: REPLY_ROOM },
        Call::Stream { octets: vec![], room: 0 },
        Call::Report { index: 0, status: 0, room: REPLY_ROOM },
        Call::Clock { reading: 1, room: REPLY_ROOM },
        Call::Plug { index: 0, address, version: 1, manufacturer: 1, supported: 0x80, room: REPLY_ROOM },
        Call::Unplug { index: 0, room: REPLY_ROOM - 1 },
        Call::Save { room: IMAGE_ROOM },
    ]
}

/// A call on a hub that is to do everything at once: a started command gets its
/// report straight away.
fn call_at_once<T: Target>(lent: &mut Lent<T>, call: &Call) -> Result<Reply, Difference> {
    let reply = lent.call(call)?;
    match call {
        Call::Command { packet, room } if reply.answer == answer::STARTED => {
            let index = Packet::read(packet).map_or(u64::MAX, |packet| packet.index.into());
            lent.call(&Call::Report { index, status: 0, room: *room })
        }
        _ => Ok(reply),
    }
}
