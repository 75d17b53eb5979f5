//! The reduction of a list to what the at-once hub is fed.

mod common;

use common::*;
use reference::{reduce, AtOnceHub, Call, Hub, Traced};

/// A command with just enough room.
fn command(code: u16, index: u16, parameters: &[u8]) -> Call {
    Call::Command { packet: frame(code, index, parameters), room: 1024 }
}

/// A report with a room of its own.
fn report(index: u64, status: u64, room: usize) -> Call {
    Call::Report { index, status, room }
}

/// A plug of a dual-mode controller.
fn plugged(index: u64) -> Call {
    let address = PUBLIC.to_vec();
    Call::Plug { index, address, version: 6, manufacturer: 9, supported: DUAL, room: 1024 }
}

/// An unplug with just enough room.
fn unplugged(index: u64) -> Call {
    Call::Unplug { index, room: 1024 }
}

/// Runs the list on a fresh hub, and what is left of it on a fresh at-once hub.
fn left_of(calls: &[Call]) -> Vec<Traced> {
    let mut hub = Hub::new();
    let list: Vec<_> = calls.iter().map(|call| Traced::new(call.clone(), hub.call(call))).collect();
    let left = reduce(&list);
    let mut at_once = AtOnceHub::new();
    for expected in &left {
        let found = Traced::new(expected.call.clone(), at_once.call(&expected.call));
        assert_eq!(found, *expected);
    }
    assert_eq!(at_once.state(), hub.state());
    left
}

/// The calls left.
fn calls_left(calls: &[Call]) -> Vec<Call> {
    left_of(calls).into_iter().map(|traced| traced.call).collect()
}

#[test]
fn finished_command_moves_to_its_report() {
    let power = command(0x0005, 0, &[1]);
    let bond = command(0x0009, 0, &[1]);
    let left = left_of(&[plugged(0), power, bond.clone(), report(0, 0, 2000)]);
    assert_eq!(left.len(), 3);
    assert_eq!(left[1].call, bond);
    let Call::Command { packet, room } = &left[2].call else { panic!("a command") };
    assert_eq!((packet, *room), (&frame(0x0005, 0, &[1]), 2000));
    assert_eq!((left[2].answer, &left[2].octets), (0, &changed(0x0005, 0, 0x0291)));
}

#[test]
fn refused_reports_close_nothing() {
    let power = command(0x0005, 0, &[1]);
    let reports = [report(0, 0x15, 1024), report(0, 0, 1023), report(1, 0, 1024), report(0, 0, 1024)];
    let calls = [&[plugged(0), report(0, 0, 1024), power.clone()][..], &reports].concat();
    assert_eq!(calls_left(&calls), [plugged(0), power]);
}

#[test]
fn failed_busy_and_open_commands_are_struck() {
    let power = command(0x0005, 0, &[1]);
    let busy = command(0x002B, 0, &STATIC);
    let calls = [plugged(0), power.clone(), busy, report(0, 0x0A, 1024), power];
    assert_eq!(calls_left(&calls), [plugged(0)]);
}

#[test]
fn unplug_cuts_off() {
    let power = command(0x0005, 1, &[1]);
    let left = left_of(&[plugged(1), power, unplugged(0), unplugged(1), plugged(1), report(1, 0, 1024)]);
    let expected = [plugged(1), unplugged(0), unplugged(1), plugged(1)];
    assert_eq!(left.iter().map(|traced| traced.call.clone()).collect::<Vec<_>>(), expected);
    assert_eq!(left[2].octets, frame(5, 1, &[]));
}

#[test]
fn refused_unplug_closes_nothing() {
    let power = command(0x0005, 0, &[1]);
    let small = Call::Unplug { index: 0, room: 1023 };
    let calls = [plugged(0), power.clone(), small.clone(), report(0, 0, 1024)];
    assert_eq!(calls_left(&calls), [plugged(0), small, power]);
}

#[test]
fn each_index_has_its_own_open_command() {
    let calls = [
        plugged(0),
        plugged(1),
        command(0x0005, 0, &[1]),
        command(0x0005, 1, &[1]),
        report(1, 0, 1024),
        Call::Clock { reading: 5, room: 1024 },
        report(0, 0, 1024),
        Call::Save { room: 16_014 },
    ];
    let left = calls_left(&calls);
    assert_eq!(left[2..], [calls[3].clone(), calls[5].clone(), calls[2].clone(), calls[7].clone()]);
}

#[test]
fn other_refusals_stay() {
    let wrong = [
        command(0x0005, 0, &[2]),
        command(0x0008, 0, &[]),
        Call::Command { packet: vec![1], room: 1024 },
        Call::Command { packet: vec![1], room: 0 },
        Call::Clock { reading: 1 << 31, room: 1024 },
        plugged(9),
        unplugged(2),
        Call::Save { room: 16_013 },
    ];
    assert_eq!(calls_left(&wrong), wrong);
}
