//! Packets of every form off the serial line, cut at every place and in lumps of one length: what a target gives is what the reference hub
//! gives, and what its own command call gives for the whole packet. Then what waits beside every other call, and lumps without room.

use crate::images::image_agrees;
use crate::layout::{encode, same_state};
use crate::lent::{Difference, Lent};
use crate::questions::questions_agree;
use crate::run::{same, step};
use crate::target::Target;
use crate::waiting_states::waiting_states_agree;
use calls::pools::high_address;
use reference::codes::{answer, command as code, IMAGE_ROOM, NON_CONTROLLER, REPLY_ROOM};
use reference::packet::frame;
use reference::stream::WHOLE;
use reference::{Call, Hub, Reply};
use std::fmt::{Display, Formatter};

/// A dual-mode controller with power, where nothing is under way.
const POWERED: u16 = 1;
/// One with power and Set Connectable under way.
const BUSY: u16 = 2;
/// One of LE alone, without power.
const LE_ONLY: u16 = 3;

/// What a sweep came to.
#[derive(Clone, Copy, PartialEq, Eq, Debug, Default)]
pub struct Sweep {
    /// Packets, each cut in many ways.
    pub packets: usize,
    /// Ways to cut one of them.
    pub cuts: usize,
    /// Lumps of these.
    pub lumps: usize,
    /// Calls beside something that waits.
    pub beside: usize,
    /// States lent with other octets waiting.
    pub states: usize,
    /// Those of them that are well formed.
    pub well_formed: usize,
}

impl Display for Sweep {
    fn fmt(&self, out: &mut Formatter<'_>) -> std::fmt::Result {
        let Sweep { packets, cuts, lumps, beside, states, well_formed } = self;
        write!(
            out,
            "{packets} packets off the line, cut in {cuts} ways into {lumps} lumps, {beside} calls beside "
        )?;
        write!(
            out,
            "something that waits, {states} states with something waiting ({well_formed} well formed)"
        )
    }
}

/// A packet as a call of its own.
pub fn whole(packet: &[u8]) -> Call {
    Call::Command { packet: packet.to_vec(), room: REPLY_ROOM }
}

/// A lump with just enough room.
pub fn lump(octets: &[u8]) -> Call {
    Call::Stream { octets: octets.to_vec(), room: REPLY_ROOM }
}

/// The calls that make the hub that the packets are sent to.
fn made_by() -> Vec<Call> {
    let plug = |(index, supported): (u16, u32)| Call::Plug {
        index: index.into(),
        address: vec![index as u8; 6],
        version: 9,
        manufacturer: 15,
        supported,
        room: REPLY_ROOM,
    };
    let mut out: Vec<Call> = [(POWERED, 0x0281), (BUSY, 0x0281), (LE_ONLY, 0x0201)].map(plug).to_vec();
    for index in [POWERED, BUSY] {
        out.push(whole(&frame(code::SET_POWERED, index, &[1])));
        out.push(Call::Report { index: index.into(), status: 0, room: REPLY_ROOM });
    }
    out.push(whole(&frame(code::SET_CONNECTABLE, BUSY, &[1])));
    out
}

/// The hub that the packets are sent to.
pub fn base() -> Hub {
    let mut hub = Hub::new();
    let answers = made_by().iter().map(|call| hub.call(call).answer).collect::<Vec<_>>();
    assert_eq!(answers, [0, 0, 0, 1, 0, 1, 0, 1]);
    hub
}

/// The same made by the target's own calls.
fn make<T: Target>(lent: &mut Lent<T>) -> Result<Hub, Difference> {
    let mut hub = Hub::new();
    image_agrees(lent, &mut hub, &calls::lists::EMPTY)?;
    for call in made_by() {
        step(lent, &mut hub, &call)?;
    }
    Ok(hub)
}

/// A list of keys with a count of its own: records that count up, each for a device of LE Public.
fn list(code: u16, index: u16, count: usize, records: usize, more: usize) -> Vec<u8> {
    let (before, size) = match code {
        code::LOAD_LINK_KEYS => (vec![0], 25),
        code::LOAD_LONG_TERM_KEYS => (vec![], 36),
        _ => (vec![], 23),
    };
    let mut parameters = [before, (count as u16).to_le_bytes().to_vec()].concat();
    for number in 0..records {
        let mut record = vec![0; size];
        record[..6].copy_from_slice(&[number as u8, (number >> 8) as u8, 3, 4, 5, 6]);
        record[6] = u8::from(code != code::LOAD_LINK_KEYS);
        if code == code::LOAD_LONG_TERM_KEYS {
            record[9] = 16;
        }
        parameters.extend(record);
    }
    parameters.extend(vec![7; more]);
    frame(code, index, &parameters)
}

/// Short packets: done, started, and refused by each form.
fn short_packets() -> Vec<Vec<u8>> {
    let device = |kind| [&high_address(3)[..], &[kind]].concat();
    vec![
        frame(code::READ_VERSION, NON_CONTROLLER, &[]),
        frame(code::READ_INDEX_LIST, NON_CONTROLLER, &[]),
        frame(code::READ_INDEX_LIST, POWERED, &[]),
        frame(code::READ_INFORMATION, POWERED, &[]),
        frame(code::SET_BONDABLE, BUSY, &[1]),
        frame(code::SET_POWERED, POWERED, &[0]),
        frame(code::SET_POWERED, BUSY, &[0]),
        frame(code::SET_POWERED, POWERED, &[2]),
        frame(code::SET_POWERED, 0, &[1]),
        frame(code::SET_POWERED, POWERED, &[]),
        frame(code::SET_STATIC_ADDRESS, POWERED, &high_address(1)),
        frame(code::SET_DISCOVERABLE, LE_ONLY, &[1, 0, 0]),
        frame(code::BLOCK, POWERED, &device(1)),
        frame(code::BLOCK, POWERED, &[0; 7]),
        frame(code::UNPAIR, POWERED, &[device(1), vec![1]].concat()),
        frame(code::UNPAIR, LE_ONLY, &[device(1), vec![1]].concat()),
        frame(0x0008, POWERED, &[]),
        frame(0x0008, 0x0102, &[3; 40]),
        frame(0x0500, POWERED, &[0]),
        frame(code::ADD_ADVERTISING, POWERED, &[2, 0, 0, 0, 0, 9, 0, 0, 0, 1, 1, 0xAD, 0x5C]),
        list(code::LOAD_LINK_KEYS, POWERED, 2_622, 0, 14),
    ]
}

/// Packets up to 1,160 octets that have more than one octet's worth of parameters.
fn middle_packets() -> Vec<Vec<u8>> {
    let name = [&b"line"[..], &[0; 256]].concat();
    let mut out: Vec<Vec<u8>> = [254, 255, 256, 257, 511, 512]
        .into_iter()
        .map(|length| frame(code::SET_LOCAL_NAME, POWERED, &vec![1; length]))
        .collect();
    out.push(frame(code::SET_LOCAL_NAME, POWERED, &name));
    out.push(list(code::LOAD_LINK_KEYS, POWERED, 32, 32, 0));
    out.push(list(code::LOAD_IDENTITY_KEYS, LE_ONLY, 33, 33, 0));
    out.push(list(code::LOAD_LONG_TERM_KEYS, LE_ONLY, 32, 32, 0));
    out.push(list(code::LOAD_LONG_TERM_KEYS, LE_ONLY, 33, 32, 0));
    out
}

/// Packets that are not kept: with counts that fit and with others, up to the longest.
fn long_packets() -> Vec<Vec<u8>> {
    let longest = |code, index| frame(code, index, &vec![0x21; 0xFFFF]);
    vec![
        list(code::LOAD_LONG_TERM_KEYS, LE_ONLY, 32, 32, 1),
        frame(code::LOAD_IDENTITY_KEYS, POWERED, &vec![1; WHOLE - 5]),
        list(code::LOAD_LONG_TERM_KEYS, POWERED, 33, 33, 0),
        list(code::LOAD_LINK_KEYS, POWERED, 47, 47, 0),
        list(code::LOAD_LINK_KEYS, POWERED, 46, 47, 0),
        list(code::LOAD_LINK_KEYS, LE_ONLY, 256, 256, 0),
        list(code::LOAD_IDENTITY_KEYS, POWERED, 51, 51, 0),
        list(code::LOAD_LINK_KEYS, POWERED, 2_621, 2_621, 0),
        list(code::LOAD_IDENTITY_KEYS, BUSY, 2_849, 2_849, 0),
        frame(code::SET_POWERED, BUSY, &vec![1; 0x0801]),
        frame(code::SET_LOCAL_NAME, POWERED, &vec![0; 0x0504]),
        frame(code::BLOCK, POWERED, &vec![5; 0xFFFA]),
        longest(code::READ_VERSION, NON_CONTROLLER),
        longest(code::LOAD_LONG_TERM_KEYS, POWERED),
        longest(code::LOAD_LINK_KEYS, 0),
        longest(0x2121, 0x2121),
    ]
}

/// Every packet.
pub fn packets() -> impl Iterator<Item = Vec<u8>> {
    short_packets().into_iter().chain(middle_packets()).chain(long_packets())
}

/// Where a packet is cut in two: everywhere, or, of a packet that is not kept, at its ends, where it is too long, and here and there.
fn places(length: usize) -> Vec<usize> {
    let near = |place: usize| place < 16 || place + 16 > length || (WHOLE - 6..=WHOLE + 6).contains(&place);
    (0..=length).filter(|place| length <= WHOLE || near(*place) || place % 4_099 == 0).collect()
}

/// The lumps of a packet, cut in one way.
type Cut = Vec<Vec<u8>>;

/// A packet cut in two at each place.
fn in_two(packet: &[u8]) -> Vec<Cut> {
    let two = |place: usize| vec![packet[..place].to_vec(), packet[place..].to_vec()];
    places(packet.len()).into_iter().map(two).collect()
}

/// A packet cut into parts of one length, as long as these are not too many, and in and behind its header with empty lumps between.
fn in_parts(packet: &[u8]) -> Vec<Cut> {
    let sizes = [1, 7, 64, 4_096].into_iter().filter(|size| packet.len() / size <= 2_000);
    let mut out: Vec<Cut> = sizes.map(|size| packet.chunks(size).map(<[u8]>::to_vec).collect()).collect();
    out.push([&packet[..3], &[], &packet[3..6], &[], &packet[6..]].map(<[u8]>::to_vec).to_vec());
    out
}

/// Feeds the lumps of a packet, octets of another packet behind the last: the last lump gives what the command call gives, the others 9.
fn cut_agrees<T: Target>(
    lent: &mut Lent<T>,
    hub: &Hub,
    lumps: &[Vec<u8>],
    behind: &[u8],
    expected: &(Reply, Vec<u8>),
) -> Result<(), Difference> {
    lent.put_state(&encode(hub));
    let mut hub = hub.clone();
    let length: usize = lumps.iter().map(Vec::len).sum();
    let (mut fed, mut finished) = (0, false);
    for octets in lumps {
        if finished {
            break;
        }
        let ends = fed + octets.len() == length;
        let octets = if ends { [octets, behind].concat() } else { octets.clone() };
        let reply = step(lent, &mut hub, &lump(&octets))?;
        fed += reply.taken;
        finished = reply.answer != answer::INCOMPLETE;
        if finished {
            same("a lump for a command", &expected.0, &Reply { taken: 0, ..reply })?;
        }
        if finished != ends {
            return Err(format!(
                "{fed} octets of {length} are taken, answer {}",
                if finished { "0 to 2" } else { "9" }
            ));
        }
    }
    same_state("the state behind a packet off the line", &expected.1, lent.state())?;
    (finished && fed == length).then_some(()).ok_or_else(|| format!("{fed} octets of {length} are taken"))
}

/// Every packet, cut in each of some ways.
fn cuts_agree<T: Target>(
    lent: &mut Lent<T>,
    ways: fn(&[u8]) -> Vec<Cut>,
    sweep: &mut Sweep,
) -> Result<(), Difference> {
    let hub = base();
    sweep.packets = packets().count();
    for packet in packets() {
        lent.put_state(&encode(&hub));
        let given = step(lent, &mut hub.clone(), &whole(&packet))?;
        let expected = (given, lent.state().to_vec());
        for lumps in ways(&packet) {
            sweep.cuts += 1;
            sweep.lumps += lumps.len();
            let behind = &short_packets()[4][..sweep.cuts % 8];
            let result = cut_agrees(lent, &hub, &lumps, behind, &expected);
            let head = &packet[..packet.len().min(10)];
            let sizes: Vec<usize> = lumps.iter().map(Vec::len).take(6).collect();
            result.map_err(|difference| format!("{head:02X?}, cut {sizes:?}: {difference}"))?;
        }
    }
    Ok(())
}

/// All short packets as one stream in lumps of one length, each rest fed again; a direct command, the clock and lumps without room come between. The
/// same packets one by one lead to the same state.
fn streams_agree<T: Target>(lent: &mut Lent<T>, sweep: &mut Sweep) -> Result<(), Difference> {
    let packets = [short_packets(), short_packets()].concat();
    let line = packets.concat();
    for size in [1, 2, 5, 6, 7, 13, 64, 1_000, line.len()] {
        let (mut hub, mut alone) = (make(lent)?, base());
        let (mut fed, mut next) = (0, packets.iter());
        while fed < line.len() {
            let end = (fed + size).min(line.len());
            let reply = step(lent, &mut hub, &lump(&line[fed..end]))?;
            sweep.lumps += 1;
            fed += reply.taken;
            if reply.answer != answer::INCOMPLETE {
                let packet = next.next().ok_or("more packets than were sent")?;
                same("one by one", &alone.command(packet, REPLY_ROOM), &Reply { taken: 0, ..reply })?;
            }
            for call in between(fed as u32) {
                step(lent, &mut hub, &call)?;
                alone.call(&call);
            }
            let empty = step(lent, &mut hub, &Call::Stream { octets: vec![1; size], room: REPLY_ROOM - 1 })?;
            same("a lump without room", &Reply::bare(answer::ROOM), &empty)?;
        }
        same_state("packets one by one", &encode(&alone), lent.state())?;
    }
    Ok(())
}

/// What comes between two lumps.
fn between(seconds: u32) -> [Call; 2] {
    [
        Call::Clock { reading: seconds, room: REPLY_ROOM },
        whole(&frame(code::SET_BONDABLE, LE_ONLY, &[(seconds % 2) as u8])),
    ]
}

/// Starts of packets that wait.
pub fn starts() -> Vec<Vec<u8>> {
    let (list, long) = (middle_packets().swap_remove(9), long_packets().swap_remove(13));
    let lengths = [0, 1, 4, 5, 6, 7, 10, 11, 259, 1_153, 1_159];
    let mut out: Vec<Vec<u8>> = lengths.iter().map(|length| list[..*length].to_vec()).collect();
    out.extend(
        [6, 9, 10, 11, 1_160, 1_161, 65_535, 65_536, 65_540].map(|length: usize| long[..length].to_vec()),
    );
    out
}

/// Every call but a lump, some refused; none has to do with what waits.
fn others() -> Vec<Call> {
    let report = |index, status| Call::Report { index, status, room: REPLY_ROOM };
    let plug = |index, room| Call::Plug {
        index,
        address: vec![4; 6],
        version: 1,
        manufacturer: 2,
        supported: 0x0281,
        room,
    };
    let mut out: Vec<Call> = short_packets().iter().map(|packet| whole(packet)).collect();
    out.extend([whole(&[]), whole(&[1, 0, 0xFF, 0xFF, 1, 0]), Call::Command { packet: vec![1; 9], room: 9 }]);
    out.extend([report(2, 0), report(2, 3), report(2, 0x15), report(1, 0)]);
    out.extend([1, 0x7FFF_FFFF, 0x8000_0000].map(|reading| Call::Clock { reading, room: REPLY_ROOM }));
    out.extend([plug(0, REPLY_ROOM), plug(1, REPLY_ROOM), plug(0, 0)]);
    out.extend([1, 2, 0].map(|index| Call::Unplug { index, room: REPLY_ROOM }));
    out.extend([IMAGE_ROOM, IMAGE_ROOM - 1].map(|room| Call::Save { room }));
    out
}

/// A hub where something waits gives and keeps the same as one where nothing does, but for what waits; lumps without room take nothing,
/// empty lumps neither. An image is loaded over it at last.
fn beside_agrees<T: Target>(lent: &mut Lent<T>, sweep: &mut Sweep) -> Result<(), Difference> {
    for start in starts() {
        let mut hub = base();
        hub.stream(&start, REPLY_ROOM);
        let mut lumps = vec![lump(&[])];
        for room in [0, 1, REPLY_ROOM - 1] {
            lumps.extend([vec![], vec![0], vec![0; 70_000]].map(|octets| Call::Stream { octets, room }));
        }
        for call in others().into_iter().chain(lumps) {
            lent.put_state(&encode(&hub));
            sweep.beside += 1;
            let mut after = hub.clone();
            let result =
                step(lent, &mut after, &call).and_then(|_| step(lent, &mut after, &lump(&[0, 0, 0])));
            result.map_err(|difference| format!("{} octets wait, {call:02X?}: {difference}", start.len()))?;
        }
        lent.put_state(&encode(&hub));
        questions_agree(lent, &hub)?;
        let image = base().save(IMAGE_ROOM).octets;
        for image in [&calls::lists::EMPTY[..5], &image, &calls::lists::EMPTY] {
            lent.put_state(&encode(&hub));
            image_agrees(lent, &mut hub.clone(), image)?;
        }
    }
    Ok(())
}

/// Tries all of it.
pub fn stream_agrees<T: Target>(lent: &mut Lent<T>) -> Result<Sweep, Difference> {
    let mut sweep = Sweep::default();
    streams_agree(lent, &mut sweep)?;
    make(lent)?;
    beside_agrees(lent, &mut sweep)?;
    waiting_states_agree(lent, &base(), &mut sweep)?;
    cuts_agree(lent, in_parts, &mut sweep)?;
    cuts_agree(lent, in_two, &mut sweep)?;
    Ok(sweep)
}
