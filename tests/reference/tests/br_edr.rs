//! Set BR/EDR: when it is taken, what it does, and what else asks whether BR/EDR is on.

mod common;

use common::*;
use reference::{downgrade, Call, Hub};

/// What is said of a command to index 0.
fn why(hub: &Hub, code: u16, parameters: &[u8]) -> String {
    let (reply, _) = hub.why(&frame(code, 0, parameters), 256);
    String::from_utf8(reply.octets).expect("ASCII")
}

/// A dual-mode controller at index 0 with BR/EDR turned off.
fn le_hub() -> Hub {
    let mut hub = hub_with(DUAL);
    assert_eq!(send(&mut hub, 0x002A, 0, &[0]), done(changed(0x002A, 0, 0x0200)));
    hub
}

/// The same with power.
fn powered_le_hub() -> Hub {
    let mut hub = le_hub();
    carry_out(&mut hub, 0x0005, 0, &[1]);
    hub
}

#[test]
fn without_power_it_is_done_at_once() {
    let mut hub = hub_with(DUAL);
    assert_eq!(send(&mut hub, 0x002A, 0, &[1]), done(unchanged(0x002A, 0, 0x0280)));
    assert_eq!(send(&mut hub, 0x002A, 0, &[0]), done(changed(0x002A, 0, 0x0200)));
    assert_eq!(settings(&mut hub, 0), 0x0200);
    assert_eq!(send(&mut hub, 0x002A, 0, &[0]), done(unchanged(0x002A, 0, 0x0200)));
    assert_eq!(send(&mut hub, 0x002A, 0, &[1]), done(changed(0x002A, 0, 0x0280)));
    assert_eq!(hub, hub_with(DUAL));
}

#[test]
fn with_power_on_is_started_and_off_rejected() {
    let mut hub = powered_le_hub();
    assert_eq!(send(&mut hub, 0x002A, 0, &[1]), bare(1));
    assert_eq!(settings(&mut hub, 0), 0x0201);
    assert_eq!(hub.report(0, 0, 1024), done(changed(0x002A, 0, 0x0281)));
    assert_eq!(carry_out(&mut hub, 0x002A, 0, &[1]), unchanged(0x002A, 0, 0x0281));
    assert_eq!(send(&mut hub, 0x002A, 0, &[0]), refused(status(0x002A, 0, 0x0B)));
    let mut off = powered_le_hub();
    assert_eq!(send(&mut off, 0x002A, 0, &[0]), refused(status(0x002A, 0, 0x0B)));
}

#[test]
fn a_failed_report_and_an_unplug_drop_it() {
    let mut hub = powered_le_hub();
    let before = hub.clone();
    assert_eq!(send(&mut hub, 0x002A, 0, &[1]), bare(1));
    assert_eq!(hub.report(0, 0x14, 1024), done(status(0x002A, 0, 0x14)));
    assert_eq!(hub, before);
    assert_eq!(send(&mut hub, 0x002A, 0, &[1]), bare(1));
    let expected = [status(0x002A, 0, 0x11), frame(5, 0, &[])].concat();
    assert_eq!(hub.unplug(0, 1024), done(expected));
    plug(&mut hub, 0, DUAL);
    assert_eq!(settings(&mut hub, 0), 0x0280);
}

#[test]
fn while_it_is_under_way_the_other_five_are_busy() {
    let mut hub = powered_le_hub();
    plug(&mut hub, 1, DUAL);
    assert_eq!(send(&mut hub, 0x002A, 0, &[1]), bare(1));
    for (code, parameters) in WAITING {
        assert_eq!(send(&mut hub, code, 0, parameters), refused(status(code, 0, 0x0A)));
    }
    assert_eq!(send(&mut hub, 0x002A, 1, &[0]).answer, 0);
    for (code, parameters) in [(0x0004, vec![]), (0x0009, vec![1]), (0x003E, instance(1, 0, 0, &[], &[]))] {
        assert_eq!(send(&mut hub, code, 0, &parameters).answer, 0, "{code:#06x}");
    }
    assert_eq!(hub.report(0, 0, 1024).answer, 0);
}

#[test]
fn off_ends_discoverable_and_nothing_else() {
    let mut hub = hub_with(DUAL);
    assert_eq!(send(&mut hub, 0x0007, 0, &[1]).answer, 0);
    assert_eq!(send(&mut hub, 0x0009, 0, &[1]).answer, 0);
    assert_eq!(send(&mut hub, 0x0012, 0, &link_list(&[link_key(1)])).answer, 0);
    assert_eq!(send(&mut hub, 0x0006, 0, &[1, 0, 0]), done(changed(0x0006, 0, 0x029A)));
    advertise(&mut hub, 3, 1, 0);
    assert_eq!(send(&mut hub, 0x002A, 0, &[0]), done(changed(0x002A, 0, 0x0212)));
    assert_eq!(send(&mut hub, 0x002A, 0, &[1]), done(changed(0x002A, 0, 0x0292)));
    let controller = hub.state().controller(0).expect("it is plugged");
    assert_eq!((controller.link_keys.len(), controller.advertising.present().count()), (1, 1));
}

#[test]
fn on_wants_a_zero_static_address_whatever_it_was() {
    let mut hub = hub_with(DUAL);
    assert_eq!(send(&mut hub, 0x002B, 0, &STATIC).answer, 0);
    assert_eq!(send(&mut hub, 0x002A, 0, &[1]), refused(status(0x002A, 0, 0x0B)));
    assert_eq!(send(&mut hub, 0x002A, 0, &[0]), done(changed(0x002A, 0, 0x8200)));
    assert_eq!(send(&mut hub, 0x002A, 0, &[1]), refused(status(0x002A, 0, 0x0B)));
    carry_out(&mut hub, 0x0005, 0, &[1]);
    assert_eq!(send(&mut hub, 0x002A, 0, &[1]), refused(status(0x002A, 0, 0x0B)));
    assert_eq!(carry_out(&mut hub, 0x0005, 0, &[0]), changed(0x0005, 0, 0x8200));
    assert_eq!(send(&mut hub, 0x002B, 0, &[0; 6]), done(changed(0x002B, 0, 0x0200)));
    assert_eq!(send(&mut hub, 0x002A, 0, &[1]), done(changed(0x002A, 0, 0x0280)));
}

#[test]
fn bit_15_is_set_by_a_static_address_where_br_edr_is_off() {
    let mut hub = le_hub();
    assert_eq!(send(&mut hub, 0x002B, 0, &STATIC), done(changed(0x002B, 0, 0x8200)));
    assert_eq!(send(&mut hub, 0x002B, 0, &[0; 6]), done(changed(0x002B, 0, 0x0200)));
    plug(&mut hub, 1, LE_ONLY);
    assert_eq!(send(&mut hub, 0x002B, 1, &STATIC), done(changed(0x002B, 1, 0x8200)));
    assert_eq!(hub.plug(2, &[0; 6], 1, 2, LE_ONLY, 1024).answer, 0);
    assert_eq!(send(&mut hub, 0x002B, 2, &STATIC), done(changed(0x002B, 2, 0x8200)));
}

#[test]
fn support_comes_before_busy_before_rejected() {
    for (supported, reason) in [(LE_ONLY, "BR/EDR"), (CLASSIC, "Low Energy")] {
        let mut hub = hub_with(supported);
        let expected = format!("Not Supported: the controller does not support {reason}");
        for value in [0, 1] {
            assert_eq!(why(&hub, 0x002A, &[value]), expected);
            assert_eq!(send(&mut hub, 0x002A, 0, &[value]), refused(status(0x002A, 0, 0x0C)));
        }
        assert_eq!(send(&mut hub, 0x002A, 0, &[2]), refused(status(0x002A, 0, INVALID)));
        assert_eq!(send(&mut hub, 0x0005, 0, &[1]), bare(1));
        assert_eq!(why(&hub, 0x002A, &[0]), expected);
    }
}

#[test]
fn of_several_reasons_the_first_written_is_named() {
    let powered = "Rejected: BR/EDR cannot be turned off while power is on";
    let address = "Rejected: BR/EDR cannot be turned on with a static address set";
    let le_off = "Rejected: Low Energy is off";
    let mut hub = hub_with(DUAL);
    assert_eq!(send(&mut hub, 0x000D, 0, &[0]).answer, 0);
    assert_eq!(why(&hub, 0x002A, &[0]), le_off);
    assert_eq!(why(&hub, 0x002A, &[1]), le_off);
    assert_eq!(send(&mut hub, 0x002B, 0, &STATIC).answer, 0);
    assert_eq!(why(&hub, 0x002A, &[0]), le_off);
    assert_eq!(why(&hub, 0x002A, &[1]), address);
    carry_out(&mut hub, 0x0005, 0, &[1]);
    assert_eq!(why(&hub, 0x002A, &[0]), powered);
    assert_eq!(why(&hub, 0x002A, &[1]), address);
    assert_eq!(send(&mut hub, 0x0007, 0, &[1]), bare(1));
    for value in [0, 1] {
        assert_eq!(why(&hub, 0x002A, &[value]), "Busy: another settings command is under way at this index");
    }
}

#[test]
fn discoverable_on_and_low_energy_off_need_br_edr_on() {
    let (off, connectable) = ("Rejected: BR/EDR is off", "Rejected: connectable is off");
    let mut hub = le_hub();
    assert_eq!(why(&hub, 0x0006, &[1, 0, 0]), connectable);
    assert_eq!(why(&hub, 0x000D, &[0]), off);
    assert_eq!(send(&mut hub, 0x000D, 0, &[0]), refused(status(0x000D, 0, 0x0B)));
    assert_eq!(send(&mut hub, 0x000D, 0, &[1]), done(unchanged(0x000D, 0, 0x0200)));
    assert_eq!(send(&mut hub, 0x0007, 0, &[1]), done(changed(0x0007, 0, 0x0202)));
    assert_eq!(why(&hub, 0x0006, &[1, 0, 0]), off);
    assert_eq!(why(&hub, 0x0006, &[2, 1, 0]), "Not Powered: a discoverable timeout needs power");
    assert_eq!(send(&mut hub, 0x0006, 0, &[1, 0, 0]), refused(status(0x0006, 0, 0x0B)));
    assert_eq!(send(&mut hub, 0x0006, 0, &[0, 0, 0]), done(unchanged(0x0006, 0, 0x0202)));
    carry_out(&mut hub, 0x0005, 0, &[1]);
    assert_eq!(why(&hub, 0x0006, &[2, 1, 0]), off);
    assert_eq!(why(&hub, 0x000D, &[0]), off);
    assert_eq!(why(&hub_with(LE_ONLY), 0x000D, &[0]), "Rejected: without BR/EDR support Low Energy stays on");
}

#[test]
fn keys_go_by_support() {
    let mut hub = le_hub();
    assert_eq!(send(&mut hub, 0x0012, 0, &link_list(&[link_key(1)])).answer, 0);
    assert_eq!(send(&mut hub, 0x0013, 0, &le_list(&[long_term_key(1, 2, 0)])).answer, 0);
    assert_eq!(send(&mut hub, 0x0030, 0, &le_list(&[identity_key(1, 2)])).answer, 0);
}

#[test]
fn a_saved_image_says_that_it_is_off() {
    let mut hub = le_hub();
    plug(&mut hub, 1, DUAL);
    plug(&mut hub, 2, LE_ONLY);
    for room in [0, 1024, 16_013] {
        assert_eq!(hub.save(room), bare(4));
    }
    let saved = image(&hub);
    assert_eq!(hub.save(20_000), done(saved.clone()));
    let mut again = Hub::new();
    assert_eq!(again.load(&saved), bare(0));
    assert_eq!([0, 1, 2].map(|index| settings(&mut again, index)), [0x0200, 0x0280, 0x0200]);
    assert_eq!(image(&again), saved);
    assert_eq!(downgrade(&saved, 16_014), bare(8));
    assert_eq!(send(&mut hub, 0x002A, 0, &[1]).answer, 0);
    assert_eq!(downgrade(&image(&hub), 16_014).answer, 0);
}

#[test]
fn the_at_once_hub_answers_alike() {
    let mut hub = at_once_hub();
    assert_eq!(hub.call(&command(0x002A, &[0])), done(changed(0x002A, 0, 0x0200)));
    assert_eq!(hub.call(&Call::Save { room: 16_013 }), bare(4));
    let off = hub.call(&Call::Save { room: 16_014 });
    assert_eq!((off.answer, &off.octets[20..24]), (0, &[0, 0, 0x02, 0][..]));
    assert_eq!(hub.call(&command(0x0005, &[1])), done(changed(0x0005, 0, 0x0201)));
    assert_eq!(hub.call(&command(0x002A, &[0])), refused(status(0x002A, 0, 0x0B)));
    assert_eq!(hub.call(&command(0x002A, &[1])), done(changed(0x002A, 0, 0x0281)));
    let on = hub.call(&Call::Save { room: 16_014 });
    assert_eq!((on.answer, &on.octets[20..24]), (0, &[0, 0, 0x02, 0x80][..]));
}

#[test]
fn version_1_has_no_flag_for_it() {
    let mut hub = Hub::new();
    for flags in [0x0080, 0x0280, 0x0092] {
        assert_eq!(hub.load(&image_of(1, [DUAL, flags], [0; 6], &[0; 260], &no_tables())), bad_image(74, 20));
    }
    for (supported, flags, address, read) in [
        (DUAL, 0, [0; 6], 0x0080),
        (DUAL, 0x0200, STATIC, 0x0280),
        (CLASSIC, 0, [0; 6], 0x0080),
        (LE_ONLY, 0x0200, STATIC, 0x8200),
    ] {
        assert_eq!(hub.load(&image_in(1, supported, flags, address, &no_tables())), bare(0));
        assert_eq!(settings(&mut hub, 1), read);
    }
}

#[test]
fn version_2_has_a_flag_for_it() {
    let mut hub = Hub::new();
    for (supported, flags, address, read) in [
        (DUAL, 0x0080, [0; 6], 0x0080),
        (DUAL, 0x0280, STATIC, 0x0280),
        (DUAL, 0x0200, STATIC, 0x8200),
        (DUAL, 0x0212, [0; 6], 0x0212),
        (CLASSIC, 0x0080, [0; 6], 0x0080),
        (LE_ONLY, 0x0200, STATIC, 0x8200),
    ] {
        assert_eq!(hub.load(&image_of(2, [supported, flags], address, &[0; 2], &no_tables())), bare(0));
        assert_eq!(settings(&mut hub, 1), read);
    }
}
