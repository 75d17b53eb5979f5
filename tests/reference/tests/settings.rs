//! Settings commands, what is under way, and the static address.

mod common;

use common::*;
use reference::Hub;

#[test]
fn same_power_is_done_at_once() {
    let mut hub = hub_with(DUAL);
    assert_eq!(send(&mut hub, 0x0005, 0, &[0]), done(unchanged(0x0005, 0, 0x0280)));
    let mut hub = powered_hub(DUAL);
    assert_eq!(send(&mut hub, 0x0005, 0, &[1]), done(unchanged(0x0005, 0, 0x0283)));
    assert_eq!(send(&mut hub, 0x0005, 0, &[2]), refused(status(0x0005, 0, INVALID)));
}

#[test]
fn power_needs_an_address() {
    let mut hub = Hub::new();
    hub.plug(2, &[0; 6], 1, 2, LE_ONLY, 1024);
    assert_eq!(send(&mut hub, 0x0005, 2, &[1]), refused(status(0x0005, 2, 0x0B)));
    assert_eq!(send(&mut hub, 0x0005, 2, &[0]), done(unchanged(0x0005, 2, 0x0200)));
    assert_eq!(send(&mut hub, 0x002B, 2, &STATIC), done(changed(0x002B, 2, 0x8200)));
    assert_eq!(carry_out(&mut hub, 0x0005, 2, &[1]), changed(0x0005, 2, 0x8201));
    assert_eq!(send(&mut hub, 0x002B, 2, &[0; 6]), refused(status(0x002B, 2, 0x0B)));
}

#[test]
fn bit_15_wants_a_zero_public_address_where_br_edr_is_on() {
    let mut hub = hub_with(DUAL);
    assert_eq!(send(&mut hub, 0x002B, 0, &STATIC), done(unchanged(0x002B, 0, 0x0280)));
    assert_eq!(hub.state().controller(0).map(|controller| controller.static_address), Some(STATIC));
    assert_eq!(send(&mut hub, 0x002B, 0, &[0; 6]), done(unchanged(0x002B, 0, 0x0280)));
    hub.plug(1, &[0; 6], 1, 2, LE_ONLY | 0x8000, 1024);
    assert_eq!(settings(&mut hub, 1), 0x0200);
    assert_eq!(send(&mut hub, 0x002B, 1, &STATIC), done(changed(0x002B, 1, 0x8200)));
    assert_eq!(send(&mut hub, 0x002B, 1, &address(4)), done(unchanged(0x002B, 1, 0x8200)));
    assert_eq!(send(&mut hub, 0x002B, 1, &[0; 6]), done(changed(0x002B, 1, 0x0200)));
    let low = [9, 8, 7, 6, 5, 0xBF];
    assert_eq!(send(&mut hub, 0x002B, 1, &low), refused(status(0x002B, 1, INVALID)));
    assert_eq!(send(&mut hub, 0x002B, 1, &[1, 0, 0, 0, 0, 0xC0]), done(changed(0x002B, 1, 0x8200)));
}

#[test]
fn set_static_address_waits_for_what_is_under_way() {
    let mut hub = hub_with(DUAL);
    assert_eq!(send(&mut hub, 0x0005, 0, &[1]), bare(1));
    assert_eq!(send(&mut hub, 0x002B, 0, &STATIC), refused(status(0x002B, 0, 0x0A)));
    assert_eq!(hub.report(0, 3, 1024), done(status(0x0005, 0, 3)));
    assert_eq!(send(&mut hub, 0x002B, 0, &STATIC).answer, 0);
}

#[test]
fn busy_only_at_that_index_and_only_six_commands() {
    let mut hub = hub_with(DUAL);
    plug(&mut hub, 1, DUAL);
    assert_eq!(send(&mut hub, 0x0005, 0, &[1]), bare(1));
    for (code, parameters) in WAITING {
        assert_eq!(send(&mut hub, code, 0, parameters), refused(status(code, 0, 0x0A)));
    }
    for (code, parameters) in &WAITING[1..] {
        assert_eq!(send(&mut hub, *code, 1, parameters).answer, 0);
    }
    assert_eq!(send(&mut hub, 0x0005, 1, &[1]), bare(1));
    let others: [(u16, Vec<u8>); 15] = [
        (0x0004, vec![]),
        (0x0009, vec![1]),
        (0x000F, vec![0; 260]),
        (0x0010, service(1, 1)),
        (0x0011, vec![0; 16]),
        (0x0012, vec![0; 3]),
        (0x0013, vec![0; 2]),
        (0x0030, vec![0; 2]),
        (0x0026, peer(1, 1)),
        (0x0027, peer(1, 1)),
        (0x0033, [peer(1, 1), vec![2]].concat()),
        (0x0034, peer(1, 1)),
        (0x0034, vec![0; 7]),
        (0x003E, [vec![1], vec![0; 10]].concat()),
        (0x003F, vec![1]),
    ];
    for (code, parameters) in others {
        assert_eq!(send(&mut hub, code, 0, &parameters).answer, 0, "{code:#06x}");
    }
    assert_eq!(hub.report(1, 0, 1024).answer, 0);
    assert_eq!(hub.report(0, 0, 1024).answer, 0);
}

#[test]
fn powered_settings_are_started_even_without_a_change() {
    let mut hub = powered_hub(DUAL);
    assert_eq!(carry_out(&mut hub, 0x0007, 0, &[1]), unchanged(0x0007, 0, 0x0283));
    assert_eq!(carry_out(&mut hub, 0x000D, 0, &[1]), unchanged(0x000D, 0, 0x0283));
    assert_eq!(carry_out(&mut hub, 0x0006, 0, &[0, 0, 0]), unchanged(0x0006, 0, 0x0283));
    assert_eq!(send(&mut hub, 0x0009, 0, &[1]), done(changed(0x0009, 0, 0x0293)));
    assert_eq!(send(&mut hub, 0x0009, 0, &[1]), done(unchanged(0x0009, 0, 0x0293)));
}

#[test]
fn started_command_acts_at_the_report() {
    let mut hub = powered_hub(DUAL);
    assert_eq!(send(&mut hub, 0x000D, 0, &[0]), bare(1));
    assert_eq!(settings(&mut hub, 0), 0x0283);
    assert_eq!(send(&mut hub, 0x0009, 0, &[1]), done(changed(0x0009, 0, 0x0293)));
    assert_eq!(hub.report(0, 0, 1024), done(changed(0x000D, 0, 0x0093)));
    assert_eq!(hub.report(0, 0, 1024), bare(6));
}

#[test]
fn failed_report_drops_the_command() {
    let mut hub = powered_hub(DUAL);
    for failure in 1..=0x14u8 {
        assert_eq!(send(&mut hub, 0x0005, 0, &[0]), bare(1));
        let before = hub.clone();
        for above in [0x15, 0x100, 1 << 32, u64::MAX] {
            assert_eq!(hub.report(0, above, 1024), bare(6));
        }
        assert_eq!(hub, before);
        assert_eq!(hub.report(0, failure.into(), 1024), done(status(0x0005, 0, failure)));
        assert!(hub.open(0).is_none());
    }
    assert_eq!(settings(&mut hub, 0), 0x0283);
}

#[test]
fn unplug_tells_the_command_under_way() {
    let mut hub = powered_hub(DUAL);
    assert_eq!(send(&mut hub, 0x0007, 0, &[0]), bare(1));
    let expected = [status(0x0007, 0, 0x11), frame(5, 0, &[])].concat();
    assert_eq!(hub.unplug(0, 1024), done(expected));
    assert_eq!(hub, Hub::new());
    plug(&mut hub, 0, DUAL);
    assert_eq!(hub.report(0, 0, 1024), bare(6));
    assert_eq!(hub.unplug(0, 1024), done(frame(5, 0, &[])));
}

#[test]
fn low_energy_off_needs_br_edr() {
    let mut hub = hub_with(LE_ONLY);
    assert_eq!(send(&mut hub, 0x000D, 0, &[0]), refused(status(0x000D, 0, 0x0B)));
    assert_eq!(send(&mut hub, 0x000D, 0, &[1]), done(unchanged(0x000D, 0, 0x0200)));
    let mut hub = hub_with(DUAL);
    assert_eq!(send(&mut hub, 0x000D, 0, &[0]), done(changed(0x000D, 0, 0x0080)));
    assert_eq!(send(&mut hub, 0x000D, 0, &[1]), done(changed(0x000D, 0, 0x0280)));
}

#[test]
fn discoverable_needs_connectable() {
    let mut hub = hub_with(DUAL);
    assert_eq!(send(&mut hub, 0x0006, 0, &[1, 0, 0]), refused(status(0x0006, 0, 0x0B)));
    assert_eq!(send(&mut hub, 0x0006, 0, &[0, 0, 0]), done(unchanged(0x0006, 0, 0x0280)));
    assert_eq!(send(&mut hub, 0x0007, 0, &[1]), done(changed(0x0007, 0, 0x0282)));
    assert_eq!(send(&mut hub, 0x0006, 0, &[1, 0, 0]), done(changed(0x0006, 0, 0x028A)));
    assert_eq!(send(&mut hub, 0x0006, 0, &[1, 1, 0]), refused(status(0x0006, 0, 0x0F)));
    assert_eq!(send(&mut hub, 0x0006, 0, &[2, 1, 0]), refused(status(0x0006, 0, 0x0F)));
    assert_eq!(send(&mut hub, 0x0007, 0, &[0]), done(changed(0x0007, 0, 0x0280)));
    assert_eq!(send(&mut hub, 0x0007, 0, &[1]), done(changed(0x0007, 0, 0x0282)));
}

#[test]
fn local_name_event_only_on_change() {
    let mut hub = hub_with(DUAL);
    let mut names = vec![0; 260];
    assert_eq!(send(&mut hub, 0x000F, 0, &names), done(complete(0x000F, 0, 0, &names)));
    names[247] = 7;
    let both = [complete(0x000F, 0, 0, &names), frame(8, 0, &names)].concat();
    assert_eq!(send(&mut hub, 0x000F, 0, &names), done(both));
    assert_eq!(send(&mut hub, 0x000F, 0, &names), done(complete(0x000F, 0, 0, &names)));
    for end in [248, 259] {
        let mut wrong = names.clone();
        wrong[end] = 1;
        assert_eq!(send(&mut hub, 0x000F, 0, &wrong), refused(status(0x000F, 0, INVALID)));
    }
    assert_eq!(send(&mut hub, 0x000F, 0, &names), done(complete(0x000F, 0, 0, &names)));
}
