//! A stream of whole packets, cut in any way and with other calls between the lumps, gives what the packets give one by one; the
//! reduction makes packets of lumps.

mod common;

use common::*;
use reference::{reduce, AtOnceHub, Call, Hub, Reply, Traced};

/// A lump with just enough room.
fn lump(octets: &[u8]) -> Call {
    Call::Stream { octets: octets.to_vec(), room: 1024 }
}

/// A packet as a call of its own, with a room.
fn whole(packet: &[u8], room: usize) -> Call {
    Call::Command { packet: packet.to_vec(), room }
}

/// A packet, mostly short and to a controller that is there; now and then one with any header, or a long one.
fn some_packet(dice: &mut Dice) -> Vec<u8> {
    let choices: [(u16, &[u8]); 9] = [
        (0x0003, &[]),
        (0x0004, &[]),
        (0x0005, &[1]),
        (0x0005, &[0]),
        (0x0006, &[1, 9, 0]),
        (0x0007, &[1]),
        (0x0009, &[1]),
        (0x003E, &[1, 0, 0, 0, 0, 3, 0, 0, 0, 1, 0, 7]),
        (0x003F, &[0]),
    ];
    match dice.below(12) {
        0 => {
            let length = dice.below(40) as usize;
            let parameters = dice.octets(length);
            frame(dice.below(0x50) as u16, dice.below(3) as u16, &parameters)
        }
        1 => {
            let length = [1154, 1155, 1300, 40_000, 0xFFFF][dice.below(5) as usize];
            let parameters = dice.octets(length);
            frame([0x0012, 0x0013, 0x0030, 9][dice.below(4) as usize], dice.below(2) as u16, &parameters)
        }
        _ => {
            let (code, parameters) = choices[dice.below(9) as usize];
            let index = if code == 0x0003 { 0xFFFF } else { dice.below(2) as u16 };
            frame(code, index, parameters)
        }
    }
}

/// Another call between two lumps, if there is one.
fn between(dice: &mut Dice, hub: &Hub) -> Option<Call> {
    let index = dice.below(2);
    Some(match dice.below(30) {
        0 => Call::Report { index, status: dice.below(2), room: 1024 },
        1 => Call::Clock { reading: hub.state().clock.wrapping_add(dice.below(9) as u32), room: 1024 },
        2 => Call::Unplug { index, room: 1024 },
        3 => Call::Plug {
            index,
            address: vec![7; 6],
            version: 1,
            manufacturer: 1,
            supported: DUAL,
            room: 1024,
        },
        4 => Call::Save { room: 16_014 },
        5 => whole(&frame(0x0007, index as u16, &[dice.below(2) as u8]), 1024),
        6 => Call::Stream { octets: dice.octets(9), room: 1023 },
        _ => return None,
    })
}

/// How long the next lump is, where so much is on the line.
fn cut(dice: &mut Dice, line: usize) -> usize {
    match dice.below(6) {
        0 => 0,
        1 => 1,
        2 => 7,
        3 => 64,
        4 => line,
        _ => dice.below(line as u64 + 1) as usize,
    }
    .min(line)
}

// The one hub gets lumps, the other one each packet where its last octet was taken; both get the calls between them.
#[test]
fn a_stream_cut_in_any_way_gives_what_its_packets_give() {
    let mut answers = [0; 10];
    for seed in 0..400 {
        let mut dice = Dice(seed);
        let (mut hub, mut other) = (hub_with(DUAL), hub_with(DUAL));
        let packets: Vec<Vec<u8>> = (0..30).map(|_| some_packet(&mut dice)).collect();
        let line = packets.concat();
        let (mut fed, mut next) = (0, packets.iter());
        while fed < line.len() {
            if let Some(call) = between(&mut dice, &hub) {
                let expected = if call.room() < 1024 { bare(4) } else { other.call(&call) };
                assert_eq!(hub.call(&call), expected);
            }
            let end = fed + cut(&mut dice, line.len() - fed);
            let reply = hub.stream(&line[fed..end], 1024);
            fed += reply.taken;
            answers[usize::from(reply.answer)] += 1;
            if reply.answer == 9 {
                assert_eq!((fed, reply.octets), (end, vec![]));
            } else {
                let expected = other.command(next.next().expect("a packet is left"), 1024);
                assert_eq!(reply, Reply { taken: reply.taken, ..expected });
            }
            assert_eq!(hub.with_waiting(Default::default()), other);
        }
        assert_eq!((next.next(), hub.waiting().taken), (None, 0));
    }
    assert!([0, 1, 2, 9].iter().all(|answer| answers[*answer] > 400), "{answers:?}");
}

/// Runs the list on a fresh hub, and what is left of it on a fresh at-once hub.
fn calls_left(calls: &[Call]) -> Vec<Call> {
    let mut hub = Hub::new();
    let list: Vec<_> = calls.iter().map(|call| Traced::new(call.clone(), hub.call(call))).collect();
    let left = reduce(&list);
    let mut at_once = AtOnceHub::new();
    for expected in &left {
        assert_eq!(Traced::new(expected.call.clone(), at_once.call(&expected.call)), *expected);
    }
    assert_eq!(at_once.state(), hub.state());
    left.into_iter().map(|traced| traced.call).collect()
}

/// A plug of a dual-mode controller.
fn plugged() -> Call {
    let address = PUBLIC.to_vec();
    Call::Plug { index: 0, address, version: 6, manufacturer: 9, supported: DUAL, room: 1024 }
}

#[test]
fn a_packet_counts_where_its_last_octet_is_taken_with_the_room_of_that_lump() {
    let bond = frame(0x0009, 0, &[1]);
    let clock = Call::Clock { reading: 5, room: 1024 };
    let calls = [
        lump(&bond[..4]),
        plugged(),
        Call::Stream { octets: bond[4..].to_vec(), room: 1023 },
        lump(&[]),
        Call::Stream { octets: bond[4..6].to_vec(), room: 4000 },
        clock.clone(),
        Call::Stream { octets: [&bond[6..], &bond].concat(), room: 3000 },
    ];
    assert_eq!(calls_left(&calls), [plugged(), clock, whole(&bond, 3000)]);
}

#[test]
fn a_started_command_of_lumps_moves_to_its_report() {
    let power = frame(0x0005, 0, &[1]);
    let report = Call::Report { index: 0, status: 0, room: 2000 };
    let version = frame(0x0001, 0xFFFF, &[]);
    let calls = [plugged(), lump(&power[..5]), lump(&power[5..]), lump(&version), report.clone()];
    assert_eq!(calls_left(&calls), [plugged(), whole(&version, 1024), whole(&power, 2000)]);
    // One that fails, is cut off or is refused Busy is struck, and what still waits at the end is no call.
    let busy = frame(0x0007, 0, &[1]);
    let failed = Call::Report { index: 0, status: 3, room: 1024 };
    let calls = [plugged(), lump(&power), lump(&busy), failed, lump(&power), lump(&busy[..6])];
    assert_eq!(calls_left(&calls), [plugged()]);
}

#[test]
fn a_direct_command_between_two_lumps_stays_where_it_is() {
    let (name, bond) = (frame(0x0004, 0, &[]), frame(0x0009, 0, &[1]));
    let calls = [plugged(), lump(&bond[..3]), whole(&name, 1024), lump(&bond[3..])];
    assert_eq!(calls_left(&calls), [plugged(), whole(&name, 1024), whole(&bond, 1024)]);
}

// The list shows every octet of a long packet, the state does not.
#[test]
fn a_long_packet_is_whole_in_the_reduced_list() {
    let packet = frame(0x0030, 0, &Dice(3).octets(3_000));
    let calls: Vec<Call> = packet.chunks(700).map(lump).collect();
    assert_eq!(calls_left(&calls), [whole(&packet, 1024)]);
}

// A host that does not feed a rest again is out of step: the next packet begins in the middle of what was one.
#[test]
fn octets_that_were_not_taken_are_in_no_packet() {
    let (version, bond) = (frame(0x0001, 0xFFFF, &[]), frame(0x0009, 0, &[1]));
    let calls = [plugged(), lump(&[&version[..], &bond[..2]].concat()), lump(&bond[2..]), lump(&[0, 0])];
    let other = whole(&[0, 0, 1, 0, 1, 0, 0], 1024);
    assert_eq!(calls_left(&calls), [plugged(), whole(&version, 1024), other]);
}
