//! Why a command is refused, in words: each condition, its place, and which is named where several are broken.

mod common;

use common::*;
use reference::reason::Reason;
use reference::why::{condition, status_name};
use reference::Hub;

/// What is said of a command to index 0, held to what the hub itself answers.
fn why(hub: &Hub, code: u16, parameters: &[u8]) -> String {
    why_packet(hub, &frame(code, 0, parameters))
}

/// What is said of a packet, held to what the hub itself answers.
fn why_packet(hub: &Hub, packet: &[u8]) -> String {
    let (reply, status) = hub.why(packet, 256);
    assert_eq!(reply.answer, 0);
    let text = String::from_utf8(reply.octets).expect("ASCII");
    assert!(text.is_ascii() && text.len() < 256 && !text.contains('\n'));
    let came = hub.clone().command(packet, 1024);
    assert_eq!(came.answer <= 1, text == "would be taken");
    assert_eq!(if came.answer <= 1 { 0 } else { came.octets[8] }, status, "{text}");
    assert!(status == 0 || text.starts_with(&format!("{}: ", status_name(status))), "{text}");
    text
}

/// Holds what is said of many commands to index 0 of one hub.
fn all(hub: &Hub, cases: &[(u16, Vec<u8>, &str)]) {
    for (code, parameters, text) in cases {
        assert_eq!(why(hub, *code, parameters), *text, "{code:#06x} {parameters:02X?}");
    }
}

/// Octets with some of them replaced from a place on.
fn with(mut octets: Vec<u8>, at: usize, new: &[u8]) -> Vec<u8> {
    octets[at..at + new.len()].copy_from_slice(new);
    octets
}

/// A hub with Set Powered under way at index 0.
fn busy_hub(supported: u32) -> Hub {
    let mut hub = hub_with(supported);
    assert_eq!(send(&mut hub, 0x0005, 0, &[1]), bare(1));
    hub
}

#[test]
fn room_comes_before_the_packet() {
    let hub = hub_with(DUAL);
    let packet = frame(0x0005, 0, &[1]);
    for room in [0, 1, 255] {
        assert_eq!(hub.why(&packet, room), (bare(4), 0));
        assert_eq!(hub.why(&packet[..5], room), (bare(4), 0));
    }
    for room in [256, 300] {
        assert_eq!(hub.why(&packet, room), (done(b"would be taken".to_vec()), 0));
        for broken in [&packet[..0], &packet[..5], &packet[..6], &[&packet[..], &[0]].concat()] {
            assert_eq!(hub.why(broken, room), (bare(3), 0));
        }
    }
}

#[test]
fn every_reason_has_its_words() {
    let mut texts: Vec<String> = Reason::ALL
        .iter()
        .map(|reason| format!("{}: {}", status_name(reason.status()), condition(*reason)))
        .collect();
    let longest = texts.iter().map(String::len).max();
    assert!(longest < Some(256 - ", record 31, octet 1165".len()));
    texts.sort_unstable();
    texts.dedup();
    // A static address and an LE Random one in a list are refused in the same words.
    assert_eq!(texts.len(), Reason::ALL.len() - 1);
    assert_eq!(texts.len(), 52);
}

#[test]
fn taken_is_said_of_what_is_done_or_started() {
    let hub = powered_hub(DUAL);
    let cases = [
        (0x0004, vec![]),
        (0x0005, vec![0]),
        (0x0005, vec![1]),
        (0x0006, vec![2, 1, 0]),
        (0x0007, vec![0]),
        (0x0009, vec![1]),
        (0x000D, vec![0]),
        (0x000F, vec![0; 260]),
        (0x0010, service(1, 1)),
        (0x0011, vec![0; 16]),
        (0x0012, link_list(&[link_key(1)])),
        (0x0013, le_list(&[long_term_key(1, 2, 0), long_term_key(1, 2, 1)])),
        (0x0030, le_list(&[identity_key(1, 1)])),
        (0x0026, peer(1, 1)),
        (0x0033, [peer(1, 0), vec![1]].concat()),
        (0x0034, vec![0; 7]),
        (0x003E, instance(1, 2, 3, &[1], &[2])),
        (0x003F, vec![0]),
    ];
    for (code, parameters) in cases {
        assert_eq!(why(&hub, code, &parameters), "would be taken", "{code:#06x}");
    }
    assert_eq!(why(&hub, 0x002A, &[1]), "would be taken");
    for (code, parameters) in [(0x002A, vec![0]), (0x002A, vec![1]), (0x002B, STATIC.to_vec())] {
        assert_eq!(why(&hub_with(DUAL), code, &parameters), "would be taken");
    }
    for code in 1..=3 {
        assert_eq!(why_packet(&Hub::new(), &frame(code, 0xFFFF, &[])), "would be taken");
    }
}

#[test]
fn code_then_index_then_length() {
    let hub = hub_with(DUAL);
    let unknown = "Unknown Command: the hub has no command of this code, octet 0";
    for code in [0, 8, 0x35, 0x40, 0xFFFF] {
        assert_eq!(why_packet(&hub, &frame(code, 9, &[1, 2])), unknown);
    }
    let to_hub = "Invalid Index: the command is to the hub itself, and the index is not 65535, octet 2";
    let absent = "Invalid Index: no controller has this index, octet 2";
    for code in 1..=3 {
        assert_eq!(why_packet(&hub, &frame(code, 0, &[1])), to_hub);
    }
    for index in [1, 4, 0x0100, 0xFFFF] {
        assert_eq!(why_packet(&hub, &frame(0x0005, index, &[9, 9])), absent);
    }
    let length = "Invalid Parameters: the length does not fit the command or the count in it, octet 4";
    for code in 1..=3 {
        assert_eq!(why_packet(&hub, &frame(code, 0xFFFF, &[1])), length);
    }
    for code in
        [0x04, 0x05, 0x06, 0x07, 0x09, 0x0D, 0x0F, 0x10, 0x11, 0x1B, 0x26, 0x27, 0x2A, 0x2B, 0x33, 0x34, 0x3F]
    {
        assert_eq!(why(&hub, code, &[9; 20]), length);
    }
}

#[test]
fn a_wrong_length_goes_by_the_last_field_that_tells_it() {
    let hub = hub_with(DUAL);
    let at = |octet| {
        format!("Invalid Parameters: the length does not fit the command or the count in it, octet {octet}")
    };
    for (code, before, each) in [(0x0012, 3, 25), (0x0013, 2, 36), (0x0030, 2, 23)] {
        for length in 0..before {
            assert_eq!(why(&hub, code, &vec![0; length]), at(4), "{code:#06x} of {length}");
        }
        for length in [before + 1, before + each - 1, before + each] {
            assert_eq!(why(&hub, code, &vec![0; length]), at(6 + before - 2), "{code:#06x} of {length}");
        }
        let high = with(vec![0; before], before - 2, &[0xFF, 0xFF]);
        assert_eq!(why(&hub, code, &high), at(6 + before - 2));
    }
    assert_eq!(why(&hub, 0x003E, &[9; 10]), at(4));
    assert_eq!(why(&hub, 0x003E, &[]), at(4));
    assert_eq!(why(&hub, 0x003E, &[9; 11]), at(16));
    assert_eq!(why(&hub, 0x003E, &[0; 12]), at(16));
    assert_eq!(why(&hub, 0x003E, &with(vec![0; 11], 9, &[1, 0])), at(16));
}

#[test]
fn values_of_settings() {
    let name = |at: usize| with(vec![0; 260], at, &[1]);
    let not_static = "Invalid Parameters: the address is not a static random one, octet 6";
    all(
        &hub_with(DUAL),
        &[
            (0x0005, vec![2], "Invalid Parameters: the value is not 0 or 1, octet 6"),
            (0x0007, vec![3], "Invalid Parameters: the value is not 0 or 1, octet 6"),
            (0x0009, vec![0x80], "Invalid Parameters: the value is not 0 or 1, octet 6"),
            (0x002A, vec![2], "Invalid Parameters: the value is not 0 or 1, octet 6"),
            (0x000D, vec![0xFF], "Invalid Parameters: the value is not 0 or 1, octet 6"),
            (0x0006, vec![3, 0, 0], "Invalid Parameters: the value is not 0, 1 or 2, octet 6"),
            (0x0006, vec![0xFF, 1, 1], "Invalid Parameters: the value is not 0, 1 or 2, octet 6"),
            (0x0006, vec![0, 0, 1], "Invalid Parameters: value 0 takes no timeout, octet 7"),
            (0x0006, vec![2, 0, 0], "Invalid Parameters: value 2 needs a timeout, octet 7"),
            (0x002B, vec![1, 2, 3, 4, 5, 0xBF], not_static),
            (0x002B, vec![0, 0, 0, 0, 0, 0xC0], not_static),
            (0x002B, vec![0xFF; 6], not_static),
            (0x000F, name(248), "Invalid Parameters: the name does not end with a zero, octet 6"),
            (0x000F, name(259), "Invalid Parameters: the short name does not end with a zero, octet 255"),
            (0x000F, vec![1; 260], "Invalid Parameters: the name does not end with a zero, octet 6"),
            (0x0010, vec![0; 17], "Invalid Parameters: the UUID is zero, octet 6"),
        ],
    );
}

#[test]
fn values_of_device_commands_go_by_octets_and_not_by_the_order_of_writing() {
    let zero_type = [vec![0; 6], vec![3]].concat();
    let device = |kind, action| [peer(1, kind), vec![action]].concat();
    let zero = "Invalid Parameters: the address is zero, octet 6";
    let high = "Invalid Parameters: the address type is above 2, octet 12";
    let clash = "Invalid Parameters: a BR/EDR device takes only action 1, octet 13";
    let all_devices = "Invalid Parameters: address zero (all devices) takes only address type 0, octet 12";
    all(
        &hub_with(DUAL),
        &[
            (0x0026, vec![0; 7], zero),
            (0x0026, zero_type.clone(), zero),
            (0x0027, zero_type.clone(), zero),
            (0x0033, [&zero_type[..], &[9]].concat(), zero),
            (0x0033, vec![0; 8], zero),
            (0x0026, peer(1, 3), high),
            (0x0027, peer(1, 0xFF), high),
            (0x001B, device(3, 2), high),
            (0x001B, [vec![0; 6], vec![4, 0]].concat(), high),
            (0x0033, device(3, 3), high),
            (0x0034, peer(1, 3), high),
            (0x0034, zero_type, high),
            (0x0034, vec![0, 0, 0, 0, 0, 0, 1], all_devices),
            (0x0034, vec![0, 0, 0, 0, 0, 0, 2], all_devices),
            (0x001B, device(2, 2), "Invalid Parameters: the disconnect flag is not 0 or 1, octet 13"),
            (0x0033, device(1, 3), "Invalid Parameters: the action is above 2, octet 13"),
            (0x0033, device(0, 3), "Invalid Parameters: the action is above 2, octet 13"),
            (0x0033, device(0, 0), clash),
            (0x0033, device(0, 2), clash),
        ],
    );
}

#[test]
fn values_of_an_advertising_instance() {
    let right = instance(1, 2, 0, &[1; 31], &[2; 31]);
    let long = instance(1, 2, 0, &[1; 32], &[2; 32]);
    let flags = "Invalid Parameters: the advertising flags are not zero, octet 7";
    all(
        &hub_with(DUAL),
        &[
            (0x003E, right.clone(), "would be taken"),
            (
                0x003E,
                with(long.clone(), 0, &[0, 1]),
                "Invalid Parameters: the advertising instance is not 1 to 5, octet 6",
            ),
            (
                0x003E,
                with(right.clone(), 0, &[6]),
                "Invalid Parameters: the advertising instance is not 1 to 5, octet 6",
            ),
            (0x003E, with(long.clone(), 4, &[0x80]), flags),
            (0x003E, with(right, 1, &[1]), flags),
            (0x003E, long, "Invalid Parameters: the advertising data are over 31 octets, octet 15"),
            (
                0x003E,
                instance(5, 0, 0, &[], &[2; 32]),
                "Invalid Parameters: the scan response data are over 31 octets, octet 16",
            ),
        ],
    );
}

/// What is said of a list where one octet, counted from its first record on, has another value. `before` octets stand in
/// front of the records.
fn record_why(code: u16, list: Vec<u8>, before: usize, at: usize, value: u8) -> String {
    let text = why(&hub_with(DUAL), code, &with(list, before + at, &[value]));
    text.strip_prefix("Invalid Parameters: ").expect("a wrong value").to_string()
}

#[test]
fn records_of_link_keys_have_a_number_and_their_octets_are_the_packets() {
    let list = || link_list(&[link_key(1), link_key(2), link_key(3)]);
    let link = |place: usize, at: usize, value: u8| record_why(0x0012, list(), 3, 25 * place + at, value);
    assert_eq!(link(0, 6, 1), "the address type is not 0 (BR/EDR), record 0, octet 15");
    assert_eq!(link(2, 6, 9), "the address type is not 0 (BR/EDR), record 2, octet 65");
    assert_eq!(link(0, 7, 9), "the key type is above 8, record 0, octet 16");
    assert_eq!(link(2, 7, 9), "the key type is above 8, record 2, octet 66");
    let flag = why(&hub_with(DUAL), 0x0012, &[2, 0, 0]);
    assert_eq!(flag, "Invalid Parameters: the debug flag is not 0 or 1, octet 6");
}

#[test]
fn records_of_low_energy_keys_too() {
    let list = || le_list(&[long_term_key(1, 1, 0), long_term_key(2, 2, 1)]);
    let long_term =
        |place: usize, at: usize, value: u8| record_why(0x0013, list(), 2, 36 * place + at, value);
    assert_eq!(long_term(0, 6, 0), "the address type is not 1 or 2 (Low Energy), record 0, octet 14");
    assert_eq!(long_term(1, 6, 3), "the address type is not 1 or 2 (Low Energy), record 1, octet 50");
    assert_eq!(long_term(1, 5, 0xBF), "the address is not a static random one, record 1, octet 50");
    assert_eq!(long_term(1, 7, 5), "the key type is above 4, record 1, octet 51");
    assert_eq!(long_term(0, 8, 2), "Master is not 0 or 1, record 0, octet 16");
    assert_eq!(long_term(1, 9, 6), "the encryption key size is not 7 to 16, record 1, octet 53");
    assert_eq!(long_term(1, 9, 17), "the encryption key size is not 7 to 16, record 1, octet 53");
    let list = || le_list(&[identity_key(1, 2), identity_key(2, 1)]);
    let identity = |place: usize, at: usize, value: u8| record_why(0x0030, list(), 2, 23 * place + at, value);
    assert_eq!(identity(1, 6, 0), "the address type is not 1 or 2 (Low Energy), record 1, octet 37");
    assert_eq!(identity(0, 5, 0x3F), "the address is not a static random one, record 0, octet 14");
}

#[test]
fn the_last_of_32_records_has_its_place() {
    let hub = hub_with(DUAL);
    let mut keys: Vec<_> = (0..32).map(|k| long_term_key(k, 2, 1)).collect();
    assert_eq!(why(&hub, 0x0013, &le_list(&keys)), "would be taken");
    keys[31][9] = 0;
    let last = "Invalid Parameters: the encryption key size is not 7 to 16, record 31, octet 1133";
    assert_eq!(why(&hub, 0x0013, &le_list(&keys)), last);
    keys[31] = keys[30].clone();
    let pair = "Invalid Parameters: two keys are for one device (long term keys: and the same Master), records 30 and 31";
    assert_eq!(why(&hub, 0x0013, &le_list(&keys)), pair);
}

#[test]
fn of_two_wrong_values_the_one_in_front_is_named() {
    let hub = hub_with(DUAL);
    let mut keys = vec![long_term_key(1, 1, 0), long_term_key(2, 1, 0), long_term_key(3, 1, 0)];
    keys[2][7] = 9;
    keys[1][8] = 2;
    keys[1][9] = 99;
    let text = "Invalid Parameters: Master is not 0 or 1, record 1, octet 52";
    assert_eq!(why(&hub, 0x0013, &le_list(&keys)), text);
    let mut links = vec![link_key(1), link_key(1), link_key(2)];
    links[2][7] = 9;
    let late = "Invalid Parameters: the key type is above 8, record 2, octet 66";
    assert_eq!(why(&hub, 0x0012, &link_list(&links)), late);
    let flag = "Invalid Parameters: the debug flag is not 0 or 1, octet 6";
    assert_eq!(why(&hub, 0x0012, &with(link_list(&links), 0, &[2])), flag);
}

/// What is said of a list of link keys of these devices.
fn pair_of(devices: &[u8]) -> String {
    let keys: Vec<_> = devices.iter().map(|device| link_key(*device)).collect();
    why(&hub_with(DUAL), 0x0012, &link_list(&keys))
}

#[test]
fn the_first_pair_has_the_lowest_record_and_the_lowest_that_repeats_it() {
    let pair = |a, b| {
        let words = "two keys are for one device (long term keys: and the same Master)";
        format!("Invalid Parameters: {words}, records {a} and {b}")
    };
    assert_eq!(pair_of(&[7, 7]), pair(0, 1));
    assert_eq!(pair_of(&[7, 7, 7]), pair(0, 1));
    assert_eq!(pair_of(&[1, 7, 7, 7]), pair(1, 2));
    assert_eq!(pair_of(&[1, 2, 2, 1]), pair(0, 3));
    assert_eq!(pair_of(&[1, 2, 1, 2]), pair(0, 2));
    assert_eq!(pair_of(&[3, 1, 2, 2, 1]), pair(1, 4));
    let hub = hub_with(DUAL);
    let long_term = |masters: &[u8]| {
        let keys: Vec<_> = masters.iter().map(|master| long_term_key(5, 2, *master)).collect();
        why(&hub, 0x0013, &le_list(&keys))
    };
    assert_eq!(long_term(&[0, 1]), "would be taken");
    assert_eq!(long_term(&[0, 1, 1]), pair(1, 2));
    assert_eq!(long_term(&[0, 1, 1, 0]), pair(0, 3));
    assert_eq!(long_term(&[1, 0, 1, 0]), pair(0, 2));
    let identity = |kinds: &[u8]| {
        let keys: Vec<_> = kinds.iter().map(|kind| identity_key(5, *kind)).collect();
        why(&hub, 0x0030, &le_list(&keys))
    };
    assert_eq!(identity(&[1, 2]), "would be taken");
    assert_eq!(identity(&[1, 2, 2]), pair(1, 2));
}

#[test]
fn a_long_list_goes_by_its_count_before_its_values() {
    let classic = hub_with(CLASSIC);
    let many: Vec<_> = (0..33).map(|_| long_term_key(1, 0, 9)).collect();
    assert_eq!(
        why(&classic, 0x0013, &le_list(&many)),
        "No Resources: the list has more than 32 records, octet 6"
    );
    let many: Vec<_> = (0..33).map(|_| identity_key(1, 0)).collect();
    assert_eq!(
        why(&classic, 0x0030, &le_list(&many)),
        "No Resources: the list has more than 32 records, octet 6"
    );
    let many: Vec<_> = (0..33).map(|_| link_key(1)).collect();
    let list = with(link_list(&many), 0, &[9]);
    assert_eq!(
        why(&hub_with(LE_ONLY), 0x0012, &list),
        "No Resources: the list has more than 32 records, octet 7"
    );
}

#[test]
fn support_and_power_stand_behind_values() {
    let no_br_edr = "Not Supported: the controller does not support BR/EDR";
    let no_low_energy = "Not Supported: the controller does not support Low Energy";
    all(
        &hub_with(LE_ONLY),
        &[
            (0x0006, vec![0, 0, 0], no_br_edr),
            (0x0006, vec![1, 1, 0], no_br_edr),
            (0x0006, vec![2, 0, 0], "Invalid Parameters: value 2 needs a timeout, octet 7"),
            (0x0012, vec![0, 0, 0], no_br_edr),
            (0x0012, vec![2, 0, 0], "Invalid Parameters: the debug flag is not 0 or 1, octet 6"),
            (0x000D, vec![0], "Rejected: without BR/EDR support Low Energy stays on"),
            (0x002A, vec![0], no_br_edr),
            (0x002A, vec![1], no_br_edr),
            (0x002A, vec![2], "Invalid Parameters: the value is not 0 or 1, octet 6"),
        ],
    );
    all(
        &hub_with(CLASSIC),
        &[
            (0x000D, vec![0], no_low_energy),
            (0x000D, vec![1], no_low_energy),
            (0x002A, vec![0], no_low_energy),
            (0x002A, vec![1], no_low_energy),
            (0x002B, vec![0; 6], no_low_energy),
            (0x0013, vec![0, 0], no_low_energy),
            (0x0030, vec![0, 0], no_low_energy),
            (0x003E, instance(1, 0, 0, &[], &[]), "Rejected: Low Energy is off"),
        ],
    );
    all(
        &hub_with(DUAL),
        &[
            (0x0006, vec![1, 1, 0], "Not Powered: a discoverable timeout needs power"),
            (0x0006, vec![1, 0, 0], "Rejected: connectable is off"),
            (0x001B, [peer(1, 0), vec![0]].concat(), "Not Powered: the controller is not powered"),
            (0x003E, instance(1, 0, 1, &[], &[]), "Rejected: an advertising timeout needs power"),
        ],
    );
}

#[test]
fn busy_stands_behind_power_and_before_rejected() {
    let busy = "Busy: another settings command is under way at this index";
    let hub = busy_hub(DUAL);
    all(
        &hub,
        &[
            (0x0005, vec![0], busy),
            (0x0005, vec![1], busy),
            (0x0005, vec![2], "Invalid Parameters: the value is not 0 or 1, octet 6"),
            (0x0006, vec![1, 0, 0], busy),
            (0x0006, vec![1, 1, 0], "Not Powered: a discoverable timeout needs power"),
            (0x0007, vec![0], busy),
            (0x000D, vec![0], busy),
            (0x002A, vec![0], busy),
            (0x002A, vec![1], busy),
            (0x002A, vec![2], "Invalid Parameters: the value is not 0 or 1, octet 6"),
            (0x002B, STATIC.to_vec(), busy),
            (0x0009, vec![1], "would be taken"),
            (0x003E, instance(1, 0, 0, &[], &[]), "would be taken"),
        ],
    );
    let mut other = hub.clone();
    plug(&mut other, 1, DUAL);
    assert_eq!(why_packet(&other, &frame(0x0005, 1, &[1])), "would be taken");
    let mut powered = powered_hub(DUAL);
    assert_eq!(
        why(&powered, 0x002B, &STATIC),
        "Rejected: the static address cannot be set while power is on"
    );
    assert_eq!(send(&mut powered, 0x0007, 0, &[0]), bare(1));
    assert_eq!(why(&powered, 0x002B, &STATIC), busy);
}

#[test]
fn busy_stands_behind_support() {
    let busy = "Busy: another settings command is under way at this index";
    let mut le = hub_with(LE_ONLY);
    carry_out(&mut le, 0x0005, 0, &[1]);
    assert_eq!(send(&mut le, 0x000D, 0, &[1]), bare(1));
    assert_eq!(why(&le, 0x000D, &[0]), busy);
    assert_eq!(why(&le, 0x0006, &[1, 0, 0]), "Not Supported: the controller does not support BR/EDR");
    let mut bare_le = Hub::new();
    assert_eq!(bare_le.plug(0, &[0; 6], 6, 1, LE_ONLY, 1024).answer, 0);
    assert_eq!(why(&bare_le, 0x0005, &[1]), "Rejected: the controller has no public and no static address");
    assert_eq!(why(&bare_le, 0x0005, &[0]), "would be taken");
}

#[test]
fn table_answers_come_last_and_have_no_place() {
    let mut hub = powered_hub(DUAL);
    all(
        &hub,
        &[
            (0x0011, vec![7; 16], "Invalid Parameters: the table does not hold this UUID"),
            (0x001B, [peer(1, 2), vec![1]].concat(), "Not Paired: no key of this device is held"),
            (0x0027, peer(1, 2), "Invalid Parameters: the device is not blocked"),
            (0x0034, peer(1, 2), "Invalid Parameters: the table does not hold this device"),
            (0x003F, vec![1], "Invalid Parameters: there is no such advertising instance"),
            (0x003F, vec![0xFF], "Invalid Parameters: there is no such advertising instance"),
        ],
    );
    for k in 1..=32 {
        assert_eq!(send(&mut hub, 0x0010, 0, &service(k, k)).answer, 0);
        assert_eq!(send(&mut hub, 0x0026, 0, &peer(k, 0)).answer, 0);
        assert_eq!(send(&mut hub, 0x0033, 0, &[peer(k, 0), vec![1]].concat()).answer, 0);
    }
    let full = "No Resources: the table has no free slot";
    all(
        &hub,
        &[
            (0x0010, service(33, 0), full),
            (0x0010, service(32, 0), "would be taken"),
            (0x0026, peer(33, 0), full),
            (0x0026, peer(32, 0), "Failed: the device is blocked already"),
            (0x0033, [peer(33, 0), vec![1]].concat(), full),
            (0x0033, [peer(32, 0), vec![1]].concat(), "would be taken"),
        ],
    );
}
