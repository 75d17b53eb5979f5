//! Which refusal answers where more than one would.

mod common;

use common::*;
use reference::reason::Reason;
use reference::Hub;

/// A hub with Set Powered under way at index 0.
fn busy_hub(supported: u32) -> Hub {
    let mut hub = hub_with(supported);
    assert_eq!(send(&mut hub, 0x0005, 0, &[1]), bare(1));
    hub
}

/// The status octet of a refusal.
fn refusal(hub: &mut Hub, code: u16, index: u16, parameters: &[u8]) -> u8 {
    let reply = send(hub, code, index, parameters);
    assert_eq!(reply.answer, 2, "{code:#06x}");
    reply.octets[8]
}

#[test]
fn room_before_packet_and_arguments() {
    let mut hub = busy_hub(DUAL);
    assert_eq!(hub.command(&[0; 3], 1023), bare(4));
    assert_eq!(hub.report(7, 99, 1023), bare(4));
    assert_eq!(hub.clock(1 << 31, 1023), bare(4));
    assert_eq!(hub.plug(9, &[], 0, 0, 0, 1023), bare(4));
    assert_eq!(hub.unplug(9, 0), bare(4));
    assert_eq!(hub.report(0, 0, 1023), bare(4));
    assert_eq!(hub.report(0, 0, 1024).answer, 0);
}

#[test]
fn length_field_counts_all_octets_after_the_header() {
    let mut hub = hub_with(DUAL);
    assert_eq!(hub.command(&[0x05, 0, 0, 0, 2, 0, 1], 1024), bare(3));
    assert_eq!(hub.command(&[0x05, 0, 0, 0, 0, 0, 1], 1024), bare(3));
    assert_eq!(hub.command(&[0x05, 0, 0, 0, 1, 1, 1], 1024), bare(3));
    let mut long = vec![0; 6 + 65_536];
    long[0] = 1;
    assert_eq!(hub.command(&long, 1024), bare(3));
}

#[test]
fn unknown_before_index_before_length() {
    let mut hub = hub_with(DUAL);
    for code in [0x0000, 0x0008, 0x000A, 0x000E, 0x0014, 0x0035, 0x0105, 0xFFFF] {
        assert_eq!(send(&mut hub, code, 0xABCD, &[1, 2]), refused(status(code, 0xABCD, 0x01)));
    }
    assert_eq!(send(&mut hub, 0x0001, 0, &[1]), refused(status(0x0001, 0, 0x11)));
    assert_eq!(send(&mut hub, 0x0001, 0xFFFF, &[1]), refused(status(0x0001, 0xFFFF, INVALID)));
    for index in [1, 4, 0x0100, 0xFFFF] {
        assert_eq!(send(&mut hub, 0x0005, index, &[]), refused(status(0x0005, index, 0x11)));
    }
    assert_eq!(send(&mut hub, 0x0004, 0, &[0]), refused(status(0x0004, 0, INVALID)));
}

#[test]
fn each_command_takes_its_length_only() {
    let lengths = [
        (0x0004, 0),
        (0x0005, 1),
        (0x0006, 3),
        (0x0007, 1),
        (0x0009, 1),
        (0x000D, 1),
        (0x002A, 1),
        (0x002B, 6),
        (0x000F, 260),
        (0x0010, 17),
        (0x0011, 16),
        (0x0012, 3),
        (0x0013, 2),
        (0x0030, 2),
        (0x001B, 8),
        (0x0026, 7),
        (0x0027, 7),
        (0x0033, 8),
        (0x0034, 7),
        (0x003E, 11),
        (0x003F, 1),
    ];
    let mut hub = hub_with(DUAL);
    for (code, length) in lengths {
        let wrong = status(code, 0, INVALID);
        assert_eq!(send(&mut hub, code, 0, &vec![0; length + 1]), refused(wrong.clone()));
        if length > 0 {
            assert_eq!(send(&mut hub, code, 0, &vec![0; length - 1]), refused(wrong.clone()));
        }
        let right = frame(code, 0, &vec![0; length]);
        assert!(!hub.reasons(&right).contains(&Reason::WrongLength), "{code:#06x}");
    }
}

#[test]
fn count_before_values_before_support() {
    let bad: Vec<_> = (0..33).map(|k| [peer(k, 7), vec![0xFF; 18]].concat()).collect();
    let mut hub = hub_with(LE_ONLY);
    let mut parameters = link_list(&bad);
    parameters[0] = 9;
    assert_eq!(refusal(&mut hub, 0x0012, 0, &parameters), 0x07);
    assert_eq!(refusal(&mut hub, 0x0012, 0, &link_list(&bad[..1])), INVALID);
    assert_eq!(refusal(&mut hub, 0x0012, 0, &[2, 0, 0]), INVALID);
    assert_eq!(refusal(&mut hub, 0x0012, 0, &[0, 0, 0]), 0x0C);
    let twice = [link_key(1), link_key(1)];
    assert_eq!(refusal(&mut hub, 0x0012, 0, &link_list(&twice)), INVALID);
    let mut classic = hub_with(CLASSIC);
    let many: Vec<_> = (0..33).map(|_| long_term_key(1, 0, 2)).collect();
    assert_eq!(refusal(&mut classic, 0x0013, 0, &le_list(&many)), 0x07);
    assert_eq!(refusal(&mut classic, 0x0013, 0, &le_list(&many[..1])), INVALID);
    assert_eq!(refusal(&mut classic, 0x0013, 0, &[0, 0]), 0x0C);
    assert_eq!(refusal(&mut classic, 0x0030, 0, &[0, 0]), 0x0C);
}

#[test]
fn values_before_support_before_power() {
    let mut hub = hub_with(LE_ONLY);
    assert_eq!(refusal(&mut hub, 0x0006, 0, &[0, 1, 0]), INVALID);
    assert_eq!(refusal(&mut hub, 0x0006, 0, &[2, 0, 0]), INVALID);
    assert_eq!(refusal(&mut hub, 0x0006, 0, &[3, 0, 0]), INVALID);
    assert_eq!(refusal(&mut hub, 0x0006, 0, &[1, 1, 0]), 0x0C);
    let mut classic = hub_with(CLASSIC);
    assert_eq!(refusal(&mut classic, 0x000D, 0, &[2]), INVALID);
    assert_eq!(refusal(&mut classic, 0x000D, 0, &[0]), 0x0C);
    assert_eq!(refusal(&mut classic, 0x002B, 0, &address(1).map(|_| 0xBF)), INVALID);
    assert_eq!(refusal(&mut classic, 0x002B, 0, &STATIC), 0x0C);
    assert_eq!(refusal(&mut classic, 0x002B, 0, &[0; 6]), 0x0C);
}

#[test]
fn power_before_busy_before_rejected() {
    let mut hub = busy_hub(DUAL);
    assert_eq!(refusal(&mut hub, 0x0006, 0, &[1, 1, 0]), 0x0F);
    assert_eq!(refusal(&mut hub, 0x0006, 0, &[1, 0, 0]), 0x0A);
    assert_eq!(refusal(&mut hub, 0x0006, 0, &[3, 0, 0]), INVALID);
    assert_eq!(hub.report(0, 0, 1024).answer, 0);
    assert_eq!(refusal(&mut hub, 0x0006, 0, &[1, 0, 0]), 0x0B);
    assert_eq!(send(&mut hub, 0x0005, 0, &[0]), bare(1));
    assert_eq!(refusal(&mut hub, 0x002B, 0, &STATIC), 0x0A);
    assert_eq!(refusal(&mut hub, 0x0005, 0, &[1]), 0x0A);
    assert_eq!(refusal(&mut hub, 0x0005, 0, &[0]), 0x0A);
}

#[test]
fn unpair_order() {
    let mut hub = hub_with(DUAL);
    let unpair = |kind: u8, disconnect: u8| [peer(1, kind), vec![disconnect]].concat();
    assert_eq!(refusal(&mut hub, 0x001B, 0, &unpair(3, 0)), INVALID);
    assert_eq!(refusal(&mut hub, 0x001B, 0, &unpair(2, 2)), INVALID);
    assert_eq!(refusal(&mut hub, 0x001B, 0, &unpair(2, 1)), 0x0F);
    let mut hub = powered_hub(DUAL);
    assert_eq!(refusal(&mut hub, 0x001B, 0, &unpair(2, 1)), 0x06);
}

#[test]
fn blocked_comes_before_no_slot() {
    let mut hub = hub_with(DUAL);
    for k in 0..32 {
        assert_eq!(send(&mut hub, 0x0026, 0, &peer(k, 1)).answer, 0);
    }
    assert_eq!(refusal(&mut hub, 0x0026, 0, &peer(5, 1)), 0x03);
    assert_eq!(refusal(&mut hub, 0x0026, 0, &peer(5, 0)), 0x07);
    assert_eq!(refusal(&mut hub, 0x0026, 0, &peer(5, 3)), INVALID);
}

#[test]
fn argument_answers() {
    let mut hub = hub_with(DUAL);
    let plugs: [(u64, &[u8], u32); 9] = [
        (4, &PUBLIC, DUAL),
        (1 << 32 | 1, &PUBLIC, DUAL),
        (u64::MAX, &PUBLIC, DUAL),
        (0, &PUBLIC, DUAL),
        (1, &PUBLIC[..5], DUAL),
        (1, &[1; 7], DUAL),
        (1, &PUBLIC, DUAL | 1 << 16),
        (1, &PUBLIC, 0xFFFF & !DUAL),
        (1, &[0; 6], DUAL),
    ];
    let before = hub.clone();
    for (index, address, supported) in plugs {
        assert_eq!(hub.plug(index, address, 1, 1, supported, 1024), bare(6));
    }
    for index in [1, 4, 1 << 16, 1 << 32, u64::MAX] {
        assert_eq!(hub.unplug(index, 1024), bare(6));
        assert_eq!(hub.report(index, 0, 1024), bare(6));
    }
    assert_eq!(hub.report(0, 0, 1024), bare(6));
    assert_eq!(hub, before);
    assert_eq!(hub.plug(1, &[0; 6], 1, 1, LE_ONLY, 1024).answer, 0);
    assert_eq!(hub.plug(3, &PUBLIC, 1, 1, 0xFFFF, 1024).answer, 0);
}
