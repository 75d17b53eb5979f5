//! Packets off a serial line, rule by rule: what a lump takes and answers, what waits, and what is kept of a long packet.

mod common;

use common::*;
use reference::stream::{HEAD, WHOLE};
use reference::{Hub, Reply, Waiting};

/// Read Management Version Information.
const VERSION: [u8; 6] = [1, 0, 0xFF, 0xFF, 0, 0];

/// Feeds a lump with just enough room.
fn feed(hub: &mut Hub, octets: &[u8]) -> Reply {
    hub.stream(octets, 1024)
}

/// No packet is finished, and so many octets are taken.
fn incomplete(taken: usize) -> Reply {
    Reply { taken, ..bare(9) }
}

/// What a command gives, as the reply to a lump of which so many octets are taken.
fn finished(taken: usize, reply: Reply) -> Reply {
    Reply { taken, ..reply }
}

/// How many octets were taken and how many of them are kept.
fn waits(hub: &Hub) -> (usize, usize) {
    (hub.waiting().taken, hub.waiting().kept.len())
}

/// A packet with so many octets in all; the parameters count up from a number.
fn packet_of(code: u16, length: usize, from: u8) -> Vec<u8> {
    let parameters: Vec<u8> = (0..length - 6).map(|place| from.wrapping_add(place as u8)).collect();
    frame(code, 0, &parameters)
}

/// A full list of long term keys: the longest packet that is ever taken.
fn longest() -> Vec<u8> {
    let keys: Vec<Vec<u8>> = (0..32).map(|number| long_term_key(number, 1, 0)).collect();
    frame(0x0013, 0, &le_list(&keys))
}

#[test]
fn a_packet_without_parameters_is_finished_with_its_sixth_octet() {
    let mut hub = Hub::new();
    for (place, octet) in VERSION[..5].iter().enumerate() {
        assert_eq!(feed(&mut hub, &[*octet]), incomplete(1));
        assert_eq!(waits(&hub), (place + 1, place + 1));
    }
    let expected = Hub::new().command(&VERSION, 1024);
    assert_eq!(expected.octets.len(), 12);
    assert_eq!(feed(&mut hub, &VERSION[5..]), finished(1, expected));
    assert_eq!(hub, Hub::new());
}

#[test]
fn a_packet_in_one_lump_is_the_command() {
    for packet in [frame(0x0005, 0, &[1]), frame(0x0009, 0, &[1]), frame(0x0008, 7, &[1, 2]), longest()] {
        let (mut hub, mut other) = (hub_with(DUAL), hub_with(DUAL));
        let expected = other.command(&packet, 1024);
        assert_eq!(feed(&mut hub, &packet), finished(packet.len(), expected));
        assert_eq!(hub, other);
    }
}

#[test]
fn a_lump_is_taken_to_the_end_of_the_packet_and_no_further() {
    let packets = [frame(0x0007, 0, &[1]), VERSION.to_vec(), frame(0x0005, 0, &[1]), frame(0x0007, 0, &[0])];
    let (mut hub, mut other) = (hub_with(DUAL), hub_with(DUAL));
    let line = packets.concat();
    let mut rest = &line[..];
    for (packet, answer) in packets.iter().zip([0, 0, 1, 2]) {
        let expected = other.command(packet, 1024);
        assert_eq!(expected.answer, answer);
        assert_eq!(feed(&mut hub, rest), finished(packet.len(), expected));
        assert_eq!(hub, other);
        rest = &rest[packet.len()..];
    }
    assert_eq!(feed(&mut hub, rest), incomplete(0));
    // What was not taken is not kept: a host that does not feed it again has lost it.
    assert_eq!(feed(&mut hub, &line), finished(7, other.command(&packets[0], 1024)));
    assert_eq!(feed(&mut hub, &VERSION[..3]), incomplete(3));
}

#[test]
fn empty_lumps_take_and_change_nothing() {
    let mut hub = hub_with(DUAL);
    assert_eq!(feed(&mut hub, &[]), incomplete(0));
    assert_eq!(hub, hub_with(DUAL));
    feed(&mut hub, &VERSION[..4]);
    let before = hub.clone();
    assert_eq!(feed(&mut hub, &[]), incomplete(0));
    assert_eq!(hub, before);
}

#[test]
fn with_too_little_room_nothing_is_taken() {
    let mut hub = hub_with(DUAL);
    for before in 0..6 {
        let waiting = hub.clone();
        for (lump, room) in [(&VERSION[before..], 1023), (&VERSION[before..before + 1], 0), (&[], 1023)] {
            assert_eq!(hub.stream(lump, room), bare(4));
            assert_eq!(hub, waiting);
        }
        feed(&mut hub, &VERSION[before..before + 1]);
    }
    assert_eq!(waits(&hub), (0, 0));
}

#[test]
fn a_packet_of_1160_octets_is_kept_and_a_longer_one_is_not() {
    let mut hub = hub_with(DUAL);
    let list = longest();
    assert_eq!((list.len(), WHOLE, HEAD), (1160, 1160, 10));
    assert_eq!(feed(&mut hub, &list[..1159]), incomplete(1159));
    assert_eq!(hub.waiting(), &Waiting { taken: 1159, kept: list[..1159].to_vec() });
    let expected = done(complete(0x0013, 0, 0, &[]));
    assert_eq!(feed(&mut hub, &list[1159..]), finished(1, expected));
    assert_eq!(hub.state().controller(0).expect("it is plugged").long_term_keys.len(), 32);
    let longer = packet_of(0x0013, 1161, 32);
    for (cut, kept) in [(5, 5), (6, 6), (9, 9), (10, 10), (11, 10), (1160, 10)] {
        let mut hub = hub_with(DUAL);
        assert_eq!(feed(&mut hub, &longer[..cut]), incomplete(cut));
        assert_eq!(hub.waiting(), &Waiting { taken: cut, kept: longer[..kept].to_vec() });
        let expected = refused(status(0x0013, 0, INVALID));
        assert_eq!(feed(&mut hub, &longer[cut..]), finished(1161 - cut, expected));
        assert_eq!(hub, hub_with(DUAL));
    }
}

#[test]
fn until_the_length_is_whole_its_octets_read_as_zero() {
    let mut hub = Hub::new();
    // The low octet alone says 255 parameters; the high one makes them 65,535.
    feed(&mut hub, &[0x13, 0, 0, 0, 0xFF]);
    assert_eq!((hub.waiting().length(), hub.waiting().is_long()), (261, false));
    feed(&mut hub, &[0xFF]);
    assert_eq!((hub.waiting().length(), hub.waiting().is_long(), waits(&hub)), (65_541, true, (6, 6)));
}

#[test]
fn the_longest_packet_is_finished_with_its_last_octet_wherever_it_is_cut() {
    let mut dice = Dice(29);
    let parameters = dice.octets(0xFFFF);
    let packet = frame(0x0030, 0, &parameters);
    let expected = hub_with(DUAL).command(&packet, 1024);
    assert_eq!(expected, refused(status(0x0030, 0, INVALID)));
    let cuts = (0..12).chain((12..65_541).step_by(977)).chain(65_530..65_541);
    for cut in cuts {
        let mut hub = hub_with(DUAL);
        assert_eq!(feed(&mut hub, &packet[..cut]), incomplete(cut));
        assert_eq!(waits(&hub), (cut, cut.min(10)));
        let lump = [&packet[cut..], &VERSION].concat();
        assert_eq!(feed(&mut hub, &lump), finished(65_541 - cut, expected.clone()));
        assert_eq!(hub, hub_with(DUAL));
    }
}

/// A packet fed in two lumps gives what the command gives, whatever stands behind the first four parameter octets.
fn long_one(code: u16, index: u16, count: &[u8], length: usize, octet: u8) {
    let mut parameters = vec![octet; length];
    parameters[..count.len()].copy_from_slice(count);
    let packet = frame(code, index, &parameters);
    let (mut hub, mut other) = (hub_with(DUAL), hub_with(DUAL));
    let expected = other.command(&packet, 1024);
    assert_eq!(expected.answer, 2);
    feed(&mut hub, &packet[..length / 2]);
    let found = feed(&mut hub, &packet[length / 2..]);
    assert_eq!(found, finished(packet.len() - length / 2, expected), "{code:#06x}, {length}");
    assert_eq!(hub, other);
}

#[test]
fn a_long_packet_is_refused_as_the_command_is() {
    // Lists whose count fits their length are No Resources, all others Invalid Parameters.
    for (code, before, size) in [(0x0012, 3, 25), (0x0013, 2, 36), (0x0030, 2, 23)] {
        for count in [47_u16, 51, 100, 256, 1820, 2621, 2849, 0xFFFF] {
            let [low, high] = count.to_le_bytes();
            let head = if code == 0x0012 { vec![0, low, high] } else { vec![low, high] };
            let fitting = before + size * usize::from(count);
            for length in [fitting, fitting + 1, 1155, 0xFFFF] {
                if (1155..=0xFFFF).contains(&length) {
                    [0, 1, 0xFF].into_iter().for_each(|octet| long_one(code, 0, &head, length, octet));
                }
            }
        }
    }
    for code in 0..0x60 {
        for (index, length) in [(0, 1155), (3, 1155), (0xFFFF, 1155), (0, 40_000), (0xFFFF, 0xFFFF)] {
            long_one(code, index, &[], length, 0);
            long_one(code, index, &[], length, 0xFF);
        }
    }
}

#[test]
fn answer_3_never_comes() {
    let mut dice = Dice(5);
    let mut hub = powered_hub(DUAL);
    for _ in 0..3_000 {
        let count = [1, 3, 40, 3000, 70_000][dice.below(5) as usize];
        let lump = dice.octets(count);
        let (before, reply) = (hub.waiting().clone(), feed(&mut hub, &lump));
        assert!([0, 1, 2, 9].contains(&reply.answer), "{reply:?}");
        assert!(reply.taken <= lump.len() && hub.waiting().taken < hub.waiting().length());
        assert_eq!(reply.answer == 9, hub.waiting().taken == before.taken + lump.len());
    }
}

#[test]
fn no_other_call_touches_what_waits_or_is_told_of_it() {
    let (mut hub, mut other) = (powered_hub(DUAL), powered_hub(DUAL));
    feed(&mut hub, &frame(0x0005, 0, &[0])[..6]);
    let waiting = hub.waiting().clone();
    for hub in [&mut hub, &mut other] {
        assert_eq!(send(hub, 0x0009, 0, &[1]), done(changed(0x0009, 0, 0x0293)));
        assert_eq!(send(hub, 0x0005, 0, &[0]), bare(1));
        assert_eq!(hub.report(0, 3, 1024), done(status(0x0005, 0, 3)));
        assert_eq!(hub.clock(9, 1024), done(vec![]));
        assert_eq!(hub.plug(1, &PUBLIC, 6, 1, DUAL, 1024), done(frame(4, 1, &[])));
        assert_eq!(hub.unplug(1, 1024), done(frame(5, 1, &[])));
        assert_eq!(hub.command(&VERSION[..5], 1024), bare(3));
        assert_eq!(hub.load(&[0, 0, 0, 6, 3, 0]), bad_image(72, 4));
    }
    assert_eq!((hub.save(16_014), hub.state()), (other.save(16_014), other.state()));
    assert_eq!(hub.waiting(), &waiting);
    assert_eq!(feed(&mut hub, &[0]), finished(1, bare(1)));
}

#[test]
fn no_image_has_what_waits_and_a_loaded_hub_has_none() {
    let mut hub = hub_with(DUAL);
    let image = image(&hub);
    feed(&mut hub, &VERSION[..5]);
    assert_eq!(hub.save(16_014).octets, image);
    assert_eq!(hub.load(&image), bare(0));
    assert_eq!(hub.waiting(), &Waiting::default());
    assert_eq!(feed(&mut hub, &VERSION[..5]), incomplete(5));
}
