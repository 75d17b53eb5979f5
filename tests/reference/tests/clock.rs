//! The clock and the discoverable timer.

mod common;

use common::*;
use reference::Hub;

/// The timer of index 0.
fn timer(hub: &Hub) -> Option<u16> {
    hub.state().controller(0).and_then(|controller| controller.timer)
}

#[test]
fn timer_ends_at_its_second() {
    let mut hub = timed_hub(10);
    assert_eq!(settings(&mut hub, 0), 0x028B);
    assert_eq!(hub.clock(0, 1024), done(vec![]));
    assert_eq!(timer(&hub), Some(10));
    assert_eq!(hub.clock(9, 1024), done(vec![]));
    assert_eq!(timer(&hub), Some(1));
    assert_eq!(hub.clock(10, 1024), done(frame(6, 0, &[0x83, 2, 0, 0])));
    assert_eq!(timer(&hub), None);
    assert_eq!(hub.clock(11, 1024), done(vec![]));
}

#[test]
fn step_of_half_the_range_is_refused() {
    let mut hub = timed_hub(0xFFFF);
    let before = hub.clone();
    assert_eq!(hub.clock(1 << 31, 1024), bare(6));
    assert_eq!(hub.clock(0xFFFF_FFFF, 1024), bare(6));
    assert_eq!(hub, before);
    assert_eq!(hub.clock(0xFFFE, 1024), done(vec![]));
    assert_eq!(timer(&hub), Some(1));
    assert_eq!(hub.clock(0xFFFD, 1024), bare(6));
    assert_eq!(hub.clock(0x8000_FFFD, 1024).octets.len(), 10);
}

#[test]
fn long_steps_are_not_cut_to_sixteen_bits() {
    let mut hub = timed_hub(5);
    assert_eq!(hub.clock(0x0001_0000, 1024).octets.len(), 10);
    assert_eq!(timer(&hub), None);
}

#[test]
fn timers_end_in_order_of_index() {
    let mut hub = Hub::new();
    for index in [3, 1, 2, 0] {
        plug(&mut hub, index, DUAL);
        let index = index as u16;
        send(&mut hub, 0x0007, index, &[1]);
        carry_out(&mut hub, 0x0005, index, &[1]);
        let seconds = if index == 2 { 8 } else { 7 };
        carry_out(&mut hub, 0x0006, index, &[2, seconds, 0]);
    }
    let ended: Vec<u8> = [0, 1, 3].iter().flat_map(|index| frame(6, *index, &[0x83, 2, 0, 0])).collect();
    assert_eq!(hub.clock(7, 1024), done(ended));
    assert_eq!(hub.clock(8, 1024), done(frame(6, 2, &[0x83, 2, 0, 0])));
}

#[test]
fn timer_starts_at_the_report() {
    let mut hub = powered_hub(DUAL);
    assert_eq!(send(&mut hub, 0x0006, 0, &[2, 5, 0]), bare(1));
    assert_eq!(hub.clock(100, 1024), done(vec![]));
    assert_eq!(hub.report(0, 0, 1024), done(changed(0x0006, 0, 0x028B)));
    assert_eq!(hub.clock(104, 1024), done(vec![]));
    assert_eq!(hub.clock(105, 1024).octets.len(), 10);
}

#[test]
fn refused_and_failed_commands_leave_the_timer() {
    let mut hub = timed_hub(10);
    hub.clock(4, 1024);
    assert_eq!(send(&mut hub, 0x0006, 0, &[2, 0, 0]).answer, 2);
    assert_eq!(send(&mut hub, 0x0006, 0, &[0, 9, 0]).answer, 2);
    assert_eq!(send(&mut hub, 0x0006, 0, &[1, 99, 0]), bare(1));
    assert_eq!(send(&mut hub, 0x0006, 0, &[1, 98, 0]).answer, 2);
    assert_eq!(hub.report(0, 8, 1024).answer, 0);
    assert_eq!(timer(&hub), Some(6));
}

#[test]
fn new_timeouts_replace_the_timer() {
    let mut hub = timed_hub(10);
    assert_eq!(carry_out(&mut hub, 0x0006, 0, &[2, 0xFF, 0xFF]), unchanged(0x0006, 0, 0x028B));
    assert_eq!(timer(&hub), Some(0xFFFF));
    assert_eq!(carry_out(&mut hub, 0x0006, 0, &[1, 0, 0]), unchanged(0x0006, 0, 0x028B));
    assert_eq!(timer(&hub), None);
    carry_out(&mut hub, 0x0006, 0, &[1, 3, 0]);
    assert_eq!(carry_out(&mut hub, 0x0006, 0, &[0, 0, 0]), changed(0x0006, 0, 0x0283));
    assert_eq!(timer(&hub), None);
}

#[test]
fn power_off_ends_only_timed_discoverable() {
    let mut hub = timed_hub(10);
    assert_eq!(carry_out(&mut hub, 0x0005, 0, &[0]), changed(0x0005, 0, 0x0282));
    assert_eq!(timer(&hub), None);
    let mut hub = powered_hub(DUAL);
    carry_out(&mut hub, 0x0006, 0, &[1, 0, 0]);
    assert_eq!(carry_out(&mut hub, 0x0005, 0, &[0]), changed(0x0005, 0, 0x028A));
    assert_eq!(carry_out(&mut hub, 0x0005, 0, &[1]), changed(0x0005, 0, 0x028B));
}

#[test]
fn connectable_off_ends_discoverable_and_timer() {
    let mut hub = timed_hub(10);
    assert_eq!(carry_out(&mut hub, 0x0007, 0, &[0]), changed(0x0007, 0, 0x0281));
    assert_eq!(timer(&hub), None);
    assert_eq!(hub.clock(10, 1024), done(vec![]));
}

#[test]
fn timer_may_end_while_a_command_is_under_way() {
    let mut hub = timed_hub(10);
    assert_eq!(send(&mut hub, 0x0005, 0, &[0]), bare(1));
    assert_eq!(hub.clock(10, 1024), done(frame(6, 0, &[0x83, 2, 0, 0])));
    assert_eq!(hub.report(0, 0, 1024), done(changed(0x0005, 0, 0x0282)));
}
