//! What is told of random packets, held to plain statements about their octets.

use calls::lists::Lists;
use calls::packets::Packets;
use calls::Random;
use reference::packet::HEADER;
use reference::reason::Reason::{self, *};
use reference::why::{Fault, Place};
use reference::Hub;

/// Calls `look` with the hub, the packet and what is told of it, for packets asked about in many states.
fn over_packets(seed: u64, count: usize, mut look: impl FnMut(&Hub, &[u8], Fault)) {
    let (mut lists, mut packets) = (Lists::new(seed), Packets::new(seed));
    let mut asked = 0;
    while asked < count {
        let (_, mut hub) = lists.start();
        while let Some(call) = lists.next(&hub) {
            let packet = packets.next(&hub);
            if let Some(fault) = hub.faults(&packet).first() {
                look(&hub, &packet, *fault);
            }
            asked += 1;
            hub.call(&call);
        }
    }
}

/// The octets before the records of a list, and those of a record.
fn shape(packet: &[u8]) -> (usize, usize) {
    match packet[0] {
        0x12 => (HEADER + 3, 25),
        0x13 => (HEADER + 2, 36),
        _ => (HEADER + 2, 23),
    }
}

/// The octets of the field that a wrong value is in.
fn width(reason: Reason) -> usize {
    match reason {
        TimeoutGiven | TimeoutMissing => 2,
        AdvertisingFlags => 4,
        StaticAddress | ZeroAddress => 6,
        ShortNameEnd => 11,
        ZeroUuid => 16,
        NameEnd => 249,
        _ => 1,
    }
}

/// Where the field of a wrong value ends, for the checks of values alone.
fn end_of_value(fault: Fault) -> Option<usize> {
    let checked_before = [UnknownCommand, HubIndex, ControllerIndex, WrongLength, TooManyRecords];
    match fault.place {
        Place::Octet(octet) if !checked_before.contains(&fault.reason) => Some(octet + width(fault.reason)),
        Place::Record { octet, .. } => Some(octet + 1),
        _ => None,
    }
}

#[test]
fn nothing_behind_a_wrong_value_matters() {
    let mut random = Random::new(77);
    let mut held = 0;
    over_packets(21, 60_000, |hub, packet, fault| {
        let Some(end) = end_of_value(fault) else { return };
        let mut other = packet.to_vec();
        for (place, octet) in other.iter_mut().enumerate().skip(end) {
            // A list's count and the lengths of advertising data say how long the packet is.
            let counts = packet[0] == 0x3E && (15..=16).contains(&place) || packet[0] == 0x12 && place <= 8;
            *octet = if counts { *octet } else { random.octet() };
        }
        assert_eq!(hub.faults(&other).first(), Some(&fault), "{packet:02X?} and {other:02X?}");
        held += 1;
    });
    assert!(held > 5_000, "{held}");
}

#[test]
fn the_record_of_an_octet_is_the_one_that_it_lies_in() {
    let mut held = 0;
    over_packets(22, 60_000, |_, packet, fault| {
        if let Place::Record { record, octet } = fault.place {
            let (before, length) = shape(packet);
            assert_eq!((octet - before) / length, record, "{packet:02X?}");
            held += 1;
        }
    });
    assert!(held > 500, "{held}");
}

#[test]
fn a_pair_is_the_first_of_all_pairs_by_lower_then_higher_record() {
    let (mut held, mut beside) = (0, 0);
    over_packets(23, 60_000, |_, packet, fault| {
        let Place::Records(earlier, later) = fault.place else { return };
        let (before, length) = shape(packet);
        let records: Vec<&[u8]> = packet[before..].chunks(length).collect();
        let master = |record: &[u8]| if packet[0] == 0x13 { record[8] } else { 0 };
        let same = |a: usize, b: usize| {
            records[a][..7] == records[b][..7] && master(records[a]) == master(records[b])
        };
        let all = (0..records.len()).flat_map(|a| (0..records.len()).map(move |b| (a, b)));
        let pairs: Vec<(usize, usize)> = all.filter(|(a, b)| a < b && same(*a, *b)).collect();
        assert_eq!(pairs.iter().min(), Some(&(earlier, later)), "{packet:02X?}");
        held += 1;
        beside += usize::from(pairs.iter().min_by_key(|(a, b)| (b, a)) != Some(&(earlier, later)));
    });
    assert!(held > 500 && beside > 20, "{held} pairs, {beside} where the later record would choose another");
}
