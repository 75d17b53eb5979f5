//! UUIDs, keys, blocked devices and the action list.

mod common;

use common::*;
use reference::Hub;

/// The reply of an address command with its echo.
fn echo(code: u16, result: u8, peer: &[u8]) -> Vec<u8> {
    complete(code, 0, result, &peer[..7])
}

/// Adds a device and expects Device Added.
fn add_device(hub: &mut Hub, peer: &[u8], action: u8) {
    let parameters = [peer, &[action]].concat();
    let expected = [echo(0x0033, 0, peer), frame(0x1A, 0, &parameters)].concat();
    assert_eq!(send(hub, 0x0033, 0, &parameters), done(expected));
}

#[test]
fn class_event_only_on_change() {
    let mut hub = hub_with(DUAL);
    let class = |code: u16, hints: u8| complete(code, 0, 0, &[0, 0, hints]);
    let event = |hints: u8| frame(7, 0, &[0, 0, hints]);
    assert_eq!(send(&mut hub, 0x0010, 0, &service(1, 0)), done(class(0x0010, 0)));
    assert_eq!(send(&mut hub, 0x0010, 0, &service(2, 6)), done([class(0x0010, 6), event(6)].concat()));
    assert_eq!(send(&mut hub, 0x0010, 0, &service(3, 2)), done(class(0x0010, 6)));
    assert_eq!(send(&mut hub, 0x0011, 0, &[2; 16]), done([class(0x0011, 2), event(2)].concat()));
    assert_eq!(send(&mut hub, 0x0010, 0, &service(3, 8)), done([class(0x0010, 8), event(8)].concat()));
    assert_eq!(send(&mut hub, 0x0011, 0, &[9; 16]), refused(status(0x0011, 0, INVALID)));
    assert_eq!(send(&mut hub, 0x0010, 0, &service(0, 9)), refused(status(0x0010, 0, INVALID)));
    assert_eq!(send(&mut hub, 0x0011, 0, &[0; 16]), done([class(0x0011, 0), event(0)].concat()));
    assert_eq!(send(&mut hub, 0x0011, 0, &[0; 16]), done(class(0x0011, 0)));
}

#[test]
fn class_is_shown_whether_powered_or_not() {
    let mut hub = powered_hub(DUAL);
    send(&mut hub, 0x0010, 0, &service(1, 0x10));
    let class = |hub: &mut Hub| send(hub, 0x0004, 0, &[]).octets[26..29].to_vec();
    assert_eq!(class(&mut hub), [0, 0, 0x10]);
    carry_out(&mut hub, 0x0005, 0, &[0]);
    assert_eq!(class(&mut hub), [0, 0, 0x10]);
}

#[test]
fn full_service_table_still_replaces() {
    let mut hub = hub_with(DUAL);
    for k in 1..=32 {
        assert_eq!(send(&mut hub, 0x0010, 0, &service(k, 1)).answer, 0);
    }
    assert_eq!(send(&mut hub, 0x0010, 0, &service(33, 1)), refused(status(0x0010, 0, 7)));
    let replaced = [complete(0x0010, 0, 0, &[0, 0, 3]), frame(7, 0, &[0, 0, 3])].concat();
    assert_eq!(send(&mut hub, 0x0010, 0, &service(9, 2)), done(replaced));
    send(&mut hub, 0x0011, 0, &[4; 16]);
    assert_eq!(send(&mut hub, 0x0010, 0, &service(33, 1)).answer, 0);
    let order: Vec<u8> = services(&hub);
    assert_eq!(order[3], 33);
    assert_eq!(order[8], 9);
}

/// The first octet of each UUID in slot order.
fn services(hub: &Hub) -> Vec<u8> {
    let table = &hub.state().controller(0).expect("present").services;
    table.entries().map(|service| service.uuid[0]).collect()
}

#[test]
fn removed_devices_are_told_in_slot_order() {
    let mut hub = hub_with(DUAL);
    for k in 1..=4 {
        add_device(&mut hub, &peer(k, 1), 2);
    }
    let gone = [echo(0x0034, 0, &peer(2, 1)), frame(0x1B, 0, &peer(2, 1))].concat();
    assert_eq!(send(&mut hub, 0x0034, 0, &peer(2, 1)), done(gone));
    add_device(&mut hub, &peer(9, 0), 1);
    add_device(&mut hub, &peer(8, 2), 0);
    add_device(&mut hub, &peer(3, 1), 0);
    let mut expected = echo(0x0034, 0, &[0; 7]);
    for (number, kind) in [(1, 1), (9, 0), (3, 1), (4, 1), (8, 2)] {
        expected.extend(frame(0x1B, 0, &peer(number, kind)));
    }
    assert_eq!(send(&mut hub, 0x0034, 0, &[0; 7]), done(expected));
    assert_eq!(send(&mut hub, 0x0034, 0, &[0; 7]), done(echo(0x0034, 0, &[0; 7])));
}

#[test]
fn device_refusals_echo_address_and_type() {
    let mut hub = hub_with(DUAL);
    let refuse = |code: u16, parameters: Vec<u8>, hub: &mut Hub| {
        let expected = refused(echo(code, INVALID, &parameters));
        assert_eq!(send(hub, code, 0, &parameters), expected, "{code:#06x} {parameters:?}");
    };
    refuse(0x0033, [peer(1, 3), vec![1]].concat(), &mut hub);
    refuse(0x0033, [peer(1, 1), vec![3]].concat(), &mut hub);
    refuse(0x0033, [peer(1, 0), vec![0]].concat(), &mut hub);
    refuse(0x0033, [peer(1, 0), vec![2]].concat(), &mut hub);
    refuse(0x0033, vec![0, 0, 0, 0, 0, 0, 1, 1], &mut hub);
    refuse(0x0034, peer(1, 1), &mut hub);
    refuse(0x0034, peer(1, 3), &mut hub);
    refuse(0x0034, vec![0, 0, 0, 0, 0, 0, 1], &mut hub);
    refuse(0x0034, vec![0, 0, 0, 0, 0, 0, 2], &mut hub);
    refuse(0x0034, vec![0, 0, 0, 0, 0, 0, 3], &mut hub);
    refuse(0x0026, peer(1, 3), &mut hub);
    refuse(0x0026, vec![0; 7], &mut hub);
    refuse(0x0027, peer(1, 2), &mut hub);
    refuse(0x0027, vec![0; 7], &mut hub);
    refuse(0x001B, [peer(1, 0xFF), vec![0]].concat(), &mut hub);
    let unpowered = refused(echo(0x001B, 0x0F, &[0, 0, 0, 0, 0, 0, 2]));
    assert_eq!(send(&mut hub, 0x001B, 0, &[0, 0, 0, 0, 0, 0, 2, 1]), unpowered);
    for code in [0x001B, 0x0026, 0x0027, 0x0033, 0x0034] {
        assert_eq!(send(&mut hub, code, 0, &[0; 6]), refused(status(code, 0, INVALID)));
        assert_eq!(send(&mut hub, code, 1, &[0; 7]), refused(status(code, 1, 0x11)));
    }
}

#[test]
fn full_action_list_still_replaces() {
    let mut hub = hub_with(DUAL);
    for k in 0..32 {
        add_device(&mut hub, &peer(k, 2), 1);
    }
    let full = refused(echo(0x0033, 7, &peer(0, 1)));
    assert_eq!(send(&mut hub, 0x0033, 0, &[peer(0, 1), vec![1]].concat()), full);
    add_device(&mut hub, &peer(31, 2), 0);
    let mut expected = echo(0x0034, 0, &[0; 7]);
    (0..32).for_each(|k| expected.extend(frame(0x1B, 0, &peer(k, 2))));
    assert_eq!(send(&mut hub, 0x0034, 0, &[0; 7]), done(expected));
}

#[test]
fn block_and_unblock() {
    let mut hub = hub_with(CLASSIC);
    let blocked = [echo(0x0026, 0, &peer(1, 1)), frame(0x14, 0, &peer(1, 1))].concat();
    assert_eq!(send(&mut hub, 0x0026, 0, &peer(1, 1)), done(blocked));
    assert_eq!(send(&mut hub, 0x0026, 0, &peer(1, 1)), refused(echo(0x0026, 3, &peer(1, 1))));
    assert_eq!(send(&mut hub, 0x0027, 0, &peer(1, 2)), refused(echo(0x0027, INVALID, &peer(1, 2))));
    let unblocked = [echo(0x0027, 0, &peer(1, 1)), frame(0x15, 0, &peer(1, 1))].concat();
    assert_eq!(send(&mut hub, 0x0027, 0, &peer(1, 1)), done(unblocked));
    assert_eq!(hub, hub_with(CLASSIC));
}

#[test]
fn unpair_takes_all_three_kinds() {
    let mut hub = powered_hub(DUAL);
    let long_terms =
        [long_term_key(1, 2, 0), long_term_key(2, 2, 0), long_term_key(1, 2, 1), long_term_key(1, 1, 1)];
    send(&mut hub, 0x0012, 0, &link_list(&[link_key(1), link_key(2)]));
    send(&mut hub, 0x0013, 0, &le_list(&long_terms));
    send(&mut hub, 0x0030, 0, &le_list(&[identity_key(1, 1), identity_key(1, 2)]));
    let left = |hub: &Hub| {
        let controller = hub.state().controller(0).expect("present");
        (controller.link_keys.len(), controller.long_term_keys.len(), controller.identity_keys.len())
    };
    for (kind, expected) in [(2, (2, 2, 1)), (0, (1, 2, 1)), (1, (1, 1, 0))] {
        let octets = [echo(0x001B, 0, &peer(1, kind)), frame(0x16, 0, &peer(1, kind))].concat();
        assert_eq!(send(&mut hub, 0x001B, 0, &[peer(1, kind), vec![1]].concat()), done(octets));
        assert_eq!(left(&hub), expected);
        let gone = refused(echo(0x001B, 6, &peer(1, kind)));
        assert_eq!(send(&mut hub, 0x001B, 0, &[peer(1, kind), vec![0]].concat()), gone);
    }
}

#[test]
fn zero_address_can_be_paired() {
    let mut hub = powered_hub(DUAL);
    let mut key = link_key(0);
    key[..6].fill(0);
    assert_eq!(send(&mut hub, 0x0012, 0, &link_list(&[key])).answer, 0);
    assert_eq!(send(&mut hub, 0x001B, 0, &[0; 8]).answer, 0);
}

/// Loads one good key, then refuses the bad list and keeps the good key.
fn refuse_list(code: u16, good: Vec<u8>, bad: Vec<u8>) {
    let mut hub = hub_with(DUAL);
    assert_eq!(send(&mut hub, code, 0, &good), done(complete(code, 0, 0, &[])));
    let before = hub.clone();
    assert_eq!(send(&mut hub, code, 0, &bad), refused(status(code, 0, INVALID)), "{bad:?}");
    assert_eq!(hub, before);
}

#[test]
fn link_key_rules() {
    let good = link_list(&[link_key(7)]);
    for (at, value) in [(6, 1), (6, 2), (7, 9)] {
        let mut last = link_key(3);
        last[at] = value;
        refuse_list(0x0012, good.clone(), link_list(&[link_key(1), link_key(2), last]));
    }
    let mut again = link_key(1);
    again[7..].fill(3);
    refuse_list(0x0012, good.clone(), link_list(&[link_key(1), link_key(2), again]));
    refuse_list(0x0012, good.clone(), vec![2, 0, 0]);
    refuse_list(0x0012, good.clone(), vec![0, 0]);
    refuse_list(0x0012, good, [link_list(&[link_key(1)]), vec![0]].concat());
}

#[test]
fn long_term_key_rules() {
    let good = le_list(&[long_term_key(7, 1, 0), long_term_key(7, 1, 1), long_term_key(7, 2, 0)]);
    for (at, value) in [(6, 0), (6, 3), (7, 5), (8, 2), (9, 6), (9, 17), (9, 0), (5, 0xBF)] {
        let mut last = long_term_key(3, 2, 1);
        last[at] = value;
        refuse_list(0x0013, good.clone(), le_list(&[long_term_key(1, 1, 0), last]));
    }
    let mut again = long_term_key(1, 1, 1);
    again[9..].fill(9);
    refuse_list(0x0013, good.clone(), le_list(&[long_term_key(1, 1, 1), long_term_key(1, 1, 0), again]));
    let mut hub = hub_with(DUAL);
    let mut low = long_term_key(1, 1, 0);
    low[5] = 0x01;
    low[9] = 7;
    assert_eq!(send(&mut hub, 0x0013, 0, &le_list(&[low])).answer, 0);
}

#[test]
fn identity_key_rules() {
    let good = le_list(&[identity_key(7, 1), identity_key(7, 2)]);
    for (at, value) in [(6, 0), (6, 3), (5, 0x7F)] {
        let mut last = identity_key(3, 2);
        last[at] = value;
        refuse_list(0x0030, good.clone(), le_list(&[identity_key(1, 1), last]));
    }
    let mut again = identity_key(1, 1);
    again[7..].fill(9);
    refuse_list(0x0030, good.clone(), le_list(&[identity_key(1, 1), identity_key(2, 1), again]));
    refuse_list(0x0030, good, vec![1, 0]);
}

#[test]
fn load_replaces_the_whole_table() {
    let mut hub = hub_with(DUAL);
    send(&mut hub, 0x0012, 0, &link_list(&[link_key(1), link_key(2), link_key(3)]));
    send(&mut hub, 0x0012, 0, &link_list(&[link_key(4)]));
    let table = |hub: &Hub| hub.state().controller(0).expect("present").link_keys.clone();
    assert_eq!(table(&hub).entries().map(|key| key.peer.address[0]).collect::<Vec<_>>(), [4]);
    assert_eq!(send(&mut hub, 0x0012, 0, &[1, 0, 0]), done(complete(0x0012, 0, 0, &[])));
    assert!(table(&hub).is_empty());
}

#[test]
fn list_count_has_two_octets() {
    let mut hub = hub_with(DUAL);
    let records: Vec<_> = (0..=255u16).map(|k| link_key(k as u8)).collect();
    let parameters = [vec![0, 0, 1], records.concat()].concat();
    assert_eq!(send(&mut hub, 0x0012, 0, &parameters), refused(status(0x0012, 0, 7)));
}
