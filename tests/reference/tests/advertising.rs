//! Advertising instances: the two commands, who is on air, and what removes an instance.

mod common;

use common::*;
use reference::reason::Reason;
use reference::{Call, Hub};

/// Rejected.
const REJECTED: u8 = 0x0B;

/// The reply to Add Advertising, with Advertising Added behind it if the instance is new.
fn added(which: u8, new: bool) -> Vec<u8> {
    let event = if new { frame(0x0023, 0, &[which]) } else { Vec::new() };
    [complete(0x003E, 0, 0, &[which]), event].concat()
}

/// A powered hub with instances without data: instance, duration, timeout.
fn hub_of(instances: &[(u8, u16, u16)]) -> Hub {
    let mut hub = powered_hub(DUAL);
    for (which, duration, timeout) in instances {
        assert_eq!(advertise(&mut hub, *which, *duration, *timeout), added(*which, true));
    }
    hub
}

/// An Add Advertising to index 0 that must be refused with a status, for a reason; the hub stays as it was.
fn refuse(hub: &mut Hub, code: u16, parameters: &[u8], octet: u8, reason: Reason) {
    let before = hub.clone();
    assert_eq!(hub.reasons(&frame(code, 0, parameters)).first(), Some(&reason));
    assert_eq!(send(hub, code, 0, parameters), refused(status(code, 0, octet)));
    assert_eq!(*hub, before);
}

#[test]
fn the_reply_has_the_instance_and_a_new_one_an_event() {
    let mut hub = hub_with(DUAL);
    for which in 1..=5 {
        assert_eq!(advertise(&mut hub, which, 0, 0), added(which, true));
        assert_eq!(advertise(&mut hub, which, 7, 0), added(which, false));
    }
    assert_eq!(settings(&mut hub, 0), 0x0280);
}

#[test]
fn a_length_is_that_of_both_data() {
    let mut hub = powered_hub(DUAL);
    for (adv, scan) in [(0, 0), (31, 0), (0, 31), (31, 31), (3, 5), (255, 255)] {
        let right = instance(1, 2, 0, &vec![1; adv], &vec![2; scan]);
        assert!(!hub.reasons(&frame(0x003E, 0, &right)).contains(&Reason::WrongLength));
        let short = &right[..right.len() - 1];
        refuse(&mut hub, 0x003E, short, INVALID, Reason::WrongLength);
        refuse(&mut hub, 0x003E, &[&right[..], &[0]].concat(), INVALID, Reason::WrongLength);
    }
    for length in 0..11 {
        refuse(&mut hub, 0x003E, &vec![0; length], INVALID, Reason::WrongLength);
    }
    let mut high = instance(1, 2, 0, &[], &[]);
    high[9] = 1;
    refuse(&mut hub, 0x003E, &high, INVALID, Reason::WrongLength);
    refuse(&mut hub, 0x003F, &[], INVALID, Reason::WrongLength);
    refuse(&mut hub, 0x003F, &[0, 0], INVALID, Reason::WrongLength);
}

#[test]
fn each_limit_and_one_beyond() {
    let mut hub = powered_hub(DUAL);
    for which in [0, 6, 7, 0x80, 255] {
        refuse(&mut hub, 0x003E, &instance(which, 2, 0, &[], &[]), INVALID, Reason::Instance);
    }
    for at in 1..5 {
        for bit in 0..8 {
            let mut flags = instance(1, 2, 0, &[], &[]);
            flags[at] = 1 << bit;
            refuse(&mut hub, 0x003E, &flags, INVALID, Reason::AdvertisingFlags);
        }
    }
    for length in [32, 33, 255] {
        let octets = vec![0; length];
        refuse(&mut hub, 0x003E, &instance(5, 1, 1, &octets, &[]), INVALID, Reason::AdvertisingLength);
        refuse(&mut hub, 0x003E, &instance(5, 1, 1, &[], &octets), INVALID, Reason::ScanResponseLength);
    }
    for (which, duration, timeout) in [(1, 0, 0), (5, 1, 1), (3, 0xFFFF, 0xFFFF)] {
        let full = instance(which, duration, timeout, &[0xAA; 31], &[0xBB; 31]);
        assert_eq!(send(&mut hub, 0x003E, 0, &full), done(added(which, true)));
    }
}

#[test]
fn values_stand_in_the_order_of_their_octets() {
    let mut hub = hub_with(DUAL);
    assert_eq!(send(&mut hub, 0x000D, 0, &[0]).answer, 0);
    let mut wrong = instance(6, 2, 9, &[1; 32], &[2; 32]);
    wrong[4] = 1;
    let cases = [
        (Reason::Instance, 0, 5),
        (Reason::AdvertisingFlags, 4, 0),
        (Reason::AdvertisingLength, 9, 31),
        (Reason::ScanResponseLength, 10, 31),
    ];
    for (reason, at, right) in cases {
        refuse(&mut hub, 0x003E, &wrong, INVALID, reason);
        wrong[at] = right;
        wrong.truncate(11 + usize::from(wrong[9]) + usize::from(wrong[10]));
    }
    refuse(&mut hub, 0x003E, &wrong, REJECTED, Reason::LowEnergyOff);
    assert_eq!(send(&mut hub, 0x000D, 0, &[1]).answer, 0);
    refuse(&mut hub, 0x003E, &wrong, REJECTED, Reason::TimeoutUnpowered);
    carry_out(&mut hub, 0x0005, 0, &[1]);
    assert_eq!(send(&mut hub, 0x003E, 0, &wrong), done(added(5, true)));
}

#[test]
fn low_energy_off_is_rejected_also_where_it_is_not_supported() {
    let mut classic = powered_hub(CLASSIC);
    refuse(&mut classic, 0x003E, &instance(1, 2, 0, &[], &[]), REJECTED, Reason::LowEnergyOff);
    refuse(&mut classic, 0x003F, &[1], INVALID, Reason::AbsentInstance);
    assert_eq!(send(&mut classic, 0x003F, 0, &[0]), done(complete(0x003F, 0, 0, &[0])));
    let mut hub = hub_with(DUAL);
    refuse(&mut hub, 0x003E, &instance(1, 2, 1, &[], &[]), REJECTED, Reason::TimeoutUnpowered);
    assert_eq!(advertise(&mut hub, 1, 2, 0), added(1, true));
    refuse(&mut hub, 0x003E, &instance(1, 2, 1, &[], &[]), REJECTED, Reason::TimeoutUnpowered);
}

#[test]
fn index_and_code_come_first() {
    let mut hub = hub_with(DUAL);
    for code in [0x003E, 0x003F] {
        for index in [1, 4, 0xFFFF] {
            assert_eq!(send(&mut hub, code, index, &[]), refused(status(code, index, 0x11)));
        }
    }
    for code in [0x003D, 0x0040, 0x0023, 0x0024] {
        assert_eq!(send(&mut hub, code, 0, &[1]), refused(status(code, 0, 0x01)));
    }
}

#[test]
fn neither_command_is_ever_busy() {
    let mut hub = hub_of(&[(1, 2, 0)]);
    for (code, parameters) in [(0x0005, vec![0]), (0x000D, vec![0]), (0x0006, vec![0; 3])] {
        assert_eq!(send(&mut hub, code, 0, &parameters), bare(1));
        assert_eq!(advertise(&mut hub, 2, 2, 9), added(2, true));
        assert_eq!(
            send(&mut hub, 0x003F, 0, &[2]),
            done([complete(0x003F, 0, 0, &[2]), removed(&[2])].concat())
        );
        assert_eq!(hub.report(0, 3, 1024).answer, 0);
    }
}

#[test]
fn removal_of_one_of_all_and_of_none() {
    let mut hub = hub_of(&[(4, 2, 0), (1, 2, 9), (3, 2, 0)]);
    for absent in [2, 5, 6, 0xFF] {
        refuse(&mut hub, 0x003F, &[absent], INVALID, Reason::AbsentInstance);
    }
    assert_eq!(send(&mut hub, 0x003F, 0, &[3]), done([complete(0x003F, 0, 0, &[3]), removed(&[3])].concat()));
    refuse(&mut hub, 0x003F, &[3], INVALID, Reason::AbsentInstance);
    let all = [complete(0x003F, 0, 0, &[0]), removed(&[1, 4])].concat();
    assert_eq!(send(&mut hub, 0x003F, 0, &[0]), done(all));
    assert_eq!(send(&mut hub, 0x003F, 0, &[0]), done(complete(0x003F, 0, 0, &[0])));
    assert_eq!(turn(&hub), (0, 0));
}

#[test]
fn a_duration_of_0_is_2_seconds() {
    let mut hub = hub_of(&[(1, 0, 0), (2, 3, 0)]);
    assert_eq!(turn(&hub), (1, 2));
    assert_eq!(seconds_on_air(&mut hub, 10), [1, 1, 2, 2, 2, 1, 1, 2, 2, 2]);
    let mut same = hub_of(&[(1, 2, 0), (2, 3, 0)]);
    wait(&mut same, 10);
    assert_eq!(hub, same);
}

#[test]
fn the_first_one_is_on_air_at_once_and_the_others_wait() {
    let mut hub = powered_hub(DUAL);
    assert_eq!(turn(&hub), (0, 0));
    advertise(&mut hub, 3, 4, 0);
    assert_eq!(turn(&hub), (3, 4));
    wait(&mut hub, 1);
    advertise(&mut hub, 5, 1, 0);
    advertise(&mut hub, 1, 2, 0);
    assert_eq!(turn(&hub), (3, 3));
    assert_eq!(seconds_on_air(&mut hub, 9), [3, 3, 3, 5, 1, 1, 3, 3, 3]);
}

#[test]
fn a_lone_instance_begins_anew() {
    let mut hub = hub_of(&[(2, 3, 0)]);
    for left in [2, 1, 3, 2, 1, 3] {
        assert_eq!(wait(&mut hub, 1), []);
        assert_eq!(turn(&hub), (2, left));
    }
}

#[test]
fn a_timeout_of_5_in_turns_of_2_seconds() {
    let mut hub = hub_of(&[(1, 2, 5), (2, 3, 0)]);
    assert_eq!(seconds_on_air(&mut hub, 10), [1, 1, 2, 2, 2, 1, 1, 2, 2, 2]);
    assert_eq!((turn(&hub), timeouts(&hub)), ((1, 2), vec![(1, 1), (2, 0)]));
    assert_eq!(wait(&mut hub, 1), removed(&[1]));
    assert_eq!(turn(&hub), (2, 3));
    assert_eq!(seconds_on_air(&mut hub, 6), [2; 6]);
}

#[test]
fn a_timeout_of_a_lone_instance_counts_over_its_turns() {
    let mut hub = hub_of(&[(4, 2, 5)]);
    assert_eq!(wait(&mut hub, 4), []);
    assert_eq!((turn(&hub), timeouts(&hub)), ((4, 2), vec![(4, 1)]));
    assert_eq!(wait(&mut hub, 1), removed(&[4]));
    assert_eq!((turn(&hub), timeouts(&hub)), ((0, 0), vec![]));
    assert_eq!(wait(&mut hub, 100), []);
}

#[test]
fn a_timeout_counts_only_on_air() {
    let mut hub = hub_of(&[(1, 100, 0), (2, 1, 1)]);
    assert_eq!(wait(&mut hub, 100), []);
    assert_eq!((turn(&hub), timeouts(&hub)), ((2, 1), vec![(1, 0), (2, 1)]));
    assert_eq!(wait(&mut hub, 1), removed(&[2]));
    assert_eq!(turn(&hub), (1, 100));
}

#[test]
fn the_turn_ends_where_the_one_on_air_is_changed() {
    let mut hub = hub_of(&[(2, 5, 0), (3, 4, 0), (5, 3, 0)]);
    assert_eq!(advertise(&mut hub, 2, 5, 0), added(2, false));
    assert_eq!(turn(&hub), (3, 4));
    advertise(&mut hub, 3, 9, 0);
    assert_eq!(turn(&hub), (5, 3));
    advertise(&mut hub, 5, 8, 0);
    assert_eq!(turn(&hub), (2, 5));
    wait(&mut hub, 2);
    advertise(&mut hub, 3, 1, 0);
    assert_eq!(turn(&hub), (2, 3));
    assert_eq!(seconds_on_air(&mut hub, 13), [2, 2, 2, 3, 5, 5, 5, 5, 5, 5, 5, 5, 2]);
}

#[test]
fn a_change_of_a_lone_one_begins_its_turn_anew() {
    let mut hub = hub_of(&[(2, 5, 9)]);
    wait(&mut hub, 4);
    assert_eq!((turn(&hub), timeouts(&hub)), ((2, 1), vec![(2, 5)]));
    assert_eq!(advertise(&mut hub, 2, 7, 3), added(2, false));
    assert_eq!((turn(&hub), timeouts(&hub)), ((2, 7), vec![(2, 3)]));
    advertise(&mut hub, 2, 1, 0);
    assert_eq!((turn(&hub), timeouts(&hub)), ((2, 1), vec![(2, 0)]));
}

#[test]
fn a_change_begins_the_timeout_anew() {
    let mut hub = hub_of(&[(1, 2, 5), (2, 2, 0)]);
    wait(&mut hub, 2);
    assert_eq!(timeouts(&hub), [(1, 3), (2, 0)]);
    advertise(&mut hub, 1, 2, 5);
    assert_eq!((turn(&hub), timeouts(&hub)), ((2, 2), vec![(1, 5), (2, 0)]));
    advertise(&mut hub, 1, 2, 0);
    assert_eq!(timeouts(&hub), [(1, 0), (2, 0)]);
}

#[test]
fn the_turn_ends_where_the_one_on_air_is_removed() {
    let mut hub = hub_of(&[(1, 2, 0), (3, 4, 0), (4, 5, 0)]);
    wait(&mut hub, 1);
    send(&mut hub, 0x003F, 0, &[3]);
    assert_eq!(turn(&hub), (1, 1));
    send(&mut hub, 0x003F, 0, &[1]);
    assert_eq!(turn(&hub), (4, 5));
    wait(&mut hub, 1);
    advertise(&mut hub, 2, 6, 0);
    assert_eq!(turn(&hub), (4, 4));
    send(&mut hub, 0x003F, 0, &[4]);
    assert_eq!(turn(&hub), (2, 6));
    send(&mut hub, 0x003F, 0, &[2]);
    assert_eq!(turn(&hub), (0, 0));
    let mut hub = hub_of(&[(3, 2, 0), (1, 4, 0), (4, 5, 0)]);
    send(&mut hub, 0x003F, 0, &[3]);
    assert_eq!(turn(&hub), (4, 5));
}

#[test]
fn power_off_removes_those_with_a_timeout_and_takes_the_rest_off_air() {
    let mut hub = hub_of(&[(5, 2, 7), (3, 2, 0), (1, 2, 8), (2, 2, 0)]);
    wait(&mut hub, 3);
    assert_eq!(send(&mut hub, 0x0005, 0, &[0]), bare(1));
    assert_ne!(turn(&hub), (0, 0));
    let gone = [changed(0x0005, 0, 0x0282), removed(&[1, 5])].concat();
    assert_eq!(hub.report(0, 0, 1024), done(gone));
    assert_eq!((turn(&hub), timeouts(&hub)), ((0, 0), vec![(2, 0), (3, 0)]));
    assert_eq!(wait(&mut hub, 1000), []);
    assert_eq!(send(&mut hub, 0x0005, 0, &[0]), done(unchanged(0x0005, 0, 0x0282)));
    advertise(&mut hub, 4, 9, 0);
    assert_eq!(turn(&hub), (0, 0));
    assert_eq!(carry_out(&mut hub, 0x0005, 0, &[1]), changed(0x0005, 0, 0x0283));
    assert_eq!(turn(&hub), (2, 2));
    wait(&mut hub, 1);
    assert_eq!(send(&mut hub, 0x0005, 0, &[1]), done(unchanged(0x0005, 0, 0x0283)));
    assert_eq!(turn(&hub), (2, 1));
}

#[test]
fn a_failed_report_removes_nothing() {
    for (code, value) in [(0x0005, 0), (0x000D, 0)] {
        let mut hub = hub_of(&[(1, 2, 7), (3, 2, 0)]);
        let before = hub.clone();
        assert_eq!(send(&mut hub, code, 0, &[value]), bare(1));
        assert_eq!(hub.report(0, 3, 1024), done(status(code, 0, 3)));
        assert_eq!(hub, before);
    }
}

#[test]
fn low_energy_off_removes_all() {
    let mut hub = hub_of(&[(4, 2, 7), (3, 2, 0)]);
    let gone = [changed(0x000D, 0, 0x0083), removed(&[3, 4])].concat();
    assert_eq!(carry_out(&mut hub, 0x000D, 0, &[0]), gone);
    assert_eq!(turn(&hub), (0, 0));
    assert_eq!(carry_out(&mut hub, 0x000D, 0, &[0]), unchanged(0x000D, 0, 0x0083));
    assert_eq!(carry_out(&mut hub, 0x000D, 0, &[1]), changed(0x000D, 0, 0x0283));
    assert_eq!(turn(&hub), (0, 0));
    let mut hub = hub_with(DUAL);
    advertise(&mut hub, 2, 2, 0);
    let gone = [changed(0x000D, 0, 0x0080), removed(&[2])].concat();
    assert_eq!(send(&mut hub, 0x000D, 0, &[0]), done(gone));
}

#[test]
fn low_energy_on_again_leaves_them() {
    let mut hub = hub_of(&[(4, 2, 7), (3, 2, 0)]);
    let before = hub.clone();
    assert_eq!(carry_out(&mut hub, 0x000D, 0, &[1]), unchanged(0x000D, 0, 0x0283));
    assert_eq!(hub, before);
}

#[test]
fn a_step_tells_new_settings_then_removals_ascending_by_instance() {
    let mut hub = timed_hub(30);
    for (which, duration, timeout) in [(3, 1, 1), (2, 1, 2), (5, 1, 1), (1, 1, 0)] {
        advertise(&mut hub, which, duration, timeout);
    }
    let expected = [frame(6, 0, &[0x83, 2, 0, 0]), removed(&[2, 3, 5])].concat();
    assert_eq!(hub.clone().clock(30, 1024), done(expected.clone()));
    let single: Vec<u8> = (1..=30).flat_map(|second| hub.clock(second, 1024).octets).collect();
    let mut sorted: Vec<&[u8]> = single.chunks(7).take(3).collect();
    assert_eq!(sorted.concat(), removed(&[3, 5, 2]));
    sorted.sort_by_key(|event| event[6]);
    assert_eq!([frame(6, 0, &[0x83, 2, 0, 0]), sorted.concat()].concat(), expected);
}

#[test]
fn indexes_ascend_and_each_has_its_own_turns() {
    let mut hub = Hub::new();
    for index in [2, 0] {
        plug(&mut hub, index, DUAL);
        let index = index as u16;
        send(&mut hub, 0x0007, index, &[1]);
        carry_out(&mut hub, 0x0005, index, &[1]);
        carry_out(&mut hub, 0x0006, index, &[1, 4, 0]);
        for which in [2, 1] {
            let timed = instance(which, 1, u16::from(which), &[], &[]);
            assert_eq!(send(&mut hub, 0x003E, index, &timed).answer, 0);
        }
    }
    let of_one = |index: u16| {
        let events = [1, 2].map(|which| frame(0x0024, index, &[which])).concat();
        [frame(6, index, &[0x83, 2, 0, 0]), events].concat()
    };
    assert_eq!(hub.clock(4, 1024), done([of_one(0), of_one(2)].concat()));
}

#[test]
fn unplug_drops_them_with_no_event_of_theirs() {
    let mut hub = hub_of(&[(1, 2, 9), (2, 2, 0)]);
    assert_eq!(hub.unplug(0, 1024), done(frame(5, 0, &[])));
    plug(&mut hub, 0, DUAL);
    assert_eq!((turn(&hub), timeouts(&hub)), ((0, 0), vec![]));
}

#[test]
fn an_image_has_none() {
    let bare_image = image(&powered_hub(DUAL));
    let hub = hub_of(&[(1, 2, 9), (2, 2, 0)]);
    assert_eq!(image(&hub), bare_image);
    let mut again = hub.clone();
    assert_eq!(again.load(&image(&hub)), bare(0));
    assert_eq!((turn(&again), timeouts(&again)), ((0, 0), vec![]));
    assert_eq!(again.on_air(0, 1024), done(vec![]));
}

#[test]
fn the_host_is_told_what_is_on_air() {
    let mut hub = powered_hub(DUAL);
    assert_eq!(hub.on_air(0, 1024), done(vec![]));
    send(&mut hub, 0x003E, 0, &instance(2, 1, 0, &[7, 8, 9], &[]));
    send(&mut hub, 0x003E, 0, &instance(4, 1, 0, &[], &[5; 31]));
    assert_eq!(hub.on_air(0, 1024), done(vec![2, 3, 0, 7, 8, 9]));
    wait(&mut hub, 1);
    assert_eq!(hub.on_air(0, 1024), done([&[4, 0, 31][..], &[5; 31]].concat()));
    send(&mut hub, 0x003E, 0, &instance(2, 1, 0, &[1; 31], &[2; 31]));
    wait(&mut hub, 1);
    assert_eq!(hub.on_air(0, 2000), done([&[2, 31, 31][..], &[1; 31], &[2; 31]].concat()));
    carry_out(&mut hub, 0x0005, 0, &[0]);
    assert_eq!(hub.on_air(0, 1024), done(vec![]));
    for index in [1, 3, 4, 256, 1 << 32, u64::MAX] {
        assert_eq!(hub.on_air(index, 1024), bare(6));
        assert_eq!(hub.on_air(index, 1023), bare(4));
    }
    assert_eq!(hub.on_air(0, 0), bare(4));
}

#[test]
fn the_at_once_hub_has_the_same_turns() {
    let mut hub = at_once_hub();
    let mut give = |call: Call| hub.call(&call).octets;
    assert_eq!(give(command(0x003E, &instance(3, 2, 0, &[], &[]))), added(3, true));
    give(command(0x0005, &[1]));
    give(command(0x003E, &instance(1, 2, 5, &[], &[])));
    give(Call::Clock { reading: 3, room: 1024 });
    let gone = [changed(0x0005, 0, 0x0280), removed(&[1])].concat();
    assert_eq!(give(command(0x0005, &[0])), gone);
    let gone = [changed(0x000D, 0, 0x0080), removed(&[3])].concat();
    assert_eq!(give(command(0x000D, &[0])), gone);
    let refusal = status(0x003E, 0, REJECTED);
    assert_eq!(give(command(0x003E, &instance(1, 2, 0, &[], &[]))), refusal);
}
