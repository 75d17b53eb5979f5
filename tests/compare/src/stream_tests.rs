//! The sweep over packets off the serial line finds nothing between the reference hub and itself, and finds each slip. What waits is laid
//! out as the document says.

use crate::layout::{cleared, encode, encode_at_once, WAITING};
use crate::lent::Lent;
use crate::mirror::Mirror;
use crate::run::Comparison;
use crate::shrink::shrink;
use crate::stream::{base, stream_agrees};
use crate::waiting::read;
use crate::wrong_stream::{Slip, WrongStream, SLIPS};
use reference::packet::frame;
use reference::{Call, Waiting};

#[test]
fn lumps_agree_on_the_reference_hub() {
    let sweep = stream_agrees(&mut Lent::new(Mirror::default()));
    let sweep = sweep.unwrap_or_else(|difference| panic!("{difference}"));
    assert_eq!((sweep.packets, sweep.cuts, sweep.beside), (48, 7_539, 980), "{sweep}");
    assert!(sweep.lumps > 40_000 && sweep.states > 2_000 && sweep.well_formed > 300, "{sweep}");
}

#[test]
fn every_slip_is_found() {
    for slip in SLIPS {
        let found = stream_agrees(&mut Lent::new(WrongStream::new(slip)));
        assert!(found.is_err(), "{slip:?} is not found");
    }
}

#[test]
fn random_lists_find_every_slip_too() {
    for slip in SLIPS {
        let found = Comparison::new(3, WrongStream::new(slip), WrongStream::new(slip)).run(100_000);
        assert!(found.is_err(), "{slip:?} is not found by random lists");
    }
}

#[test]
fn a_slip_about_lumps_shrinks_to_few_calls() {
    for (slip, most) in [(Slip::Stays, 2), (Slip::EmptyDrops, 2), (Slip::ZeroCount, 4), (Slip::ClockDrops, 2)]
    {
        let mut comparison = Comparison::new(3, WrongStream::new(slip), WrongStream::new(slip));
        let found = comparison.run(100_000).expect_err("it is found");
        let small = shrink(comparison.lent(), found);
        assert!(small.calls.len() <= most, "{slip:?}: {} calls, {}", small.calls.len(), small.difference);
        assert!(small.calls.iter().any(|call| matches!(call, Call::Stream { .. })), "{slip:?}");
    }
}

#[test]
fn random_lists_have_lumps_and_leave_something_waiting() {
    let mut comparison = Comparison::new(6, Mirror::default(), Mirror::default());
    assert!(comparison.run(30_000).is_ok());
    assert!(comparison.lumps > 3_000 && comparison.left_waiting > 3, "{} lumps", comparison.lumps);
    let altered = comparison.altered_waiting;
    assert!(altered.well_formed > 40 && altered.lent - altered.well_formed > 40, "{altered:?}");
}

/// The state of the hub that packets are sent to, when these octets were taken.
fn state_behind(octets: &[u8]) -> Vec<u8> {
    let mut hub = base();
    assert_eq!(hub.stream(octets, 1024).answer, 9);
    encode(&hub)
}

#[test]
fn what_waits_stands_behind_the_blocks() {
    let (short, long) = (frame(0x0005, 1, &[1, 2, 3]), frame(0x0013, 1, &[7; 0xFFFF]));
    let before = encode(&base());
    assert_eq!((before.len(), &before[WAITING], WAITING), (18_656, &[0; 1_164][..], 17_492..18_656));
    let mut expected = before.clone();
    expected[17_492..17_504].copy_from_slice(&[8, 0, 0, 0, 5, 0, 1, 0, 3, 0, 1, 2]);
    assert_eq!(state_behind(&short[..8]), expected);
    let mut expected = before.clone();
    let head = [0x04, 0x00, 0x01, 0x00, 0x13, 0, 1, 0, 0xFF, 0xFF, 7, 7, 7, 7];
    expected[17_492..17_506].copy_from_slice(&head);
    assert_eq!(state_behind(&long[..65_540]), expected);
    assert_eq!(cleared(&expected), cleared(&before));
    assert_eq!(cleared(&expected), encode_at_once(base().state()));
}

/// A change of octets by hand.
type Edit = fn(&mut [u8]);

#[test]
fn what_waits_is_read_only_where_it_is_well_formed() {
    let part = state_behind(&frame(0x0005, 1, &[1, 2, 3])[..8])[WAITING].to_vec();
    assert_eq!(read(&part), Some(Waiting { taken: 8, kept: vec![5, 0, 1, 0, 3, 0, 1, 2] }));
    let well_formed: [Edit; 7] = [
        |part| part.fill(0),
        |part| part[11] = 0,
        |part| part[4..8].fill(0xFF),
        |part| part[9] = 4,
        |part| part[9] = 0xFF,
        |part| (part[0] = 9, part[8] = 4).1,
        |part| (part[0] = 5, part[9..12].fill(0)).1,
    ];
    let malformed: [Edit; 14] = [
        |part| part.fill(0xFF),
        |part| part[0] = 9,
        |part| part[0] = 10,
        |part| part[0] = 7,
        |part| part[0] = 0,
        |part| part[1] = 1,
        |part| part[2] = 1,
        |part| part[3] = 0x80,
        |part| part[8] = 2,
        |part| part[8] = 0,
        |part| part[12] = 1,
        |part| part[1_163] = 1,
        |part| (part[9] = 4, part[14] = 1).1,
        |part| (part[0] = 5, part[10..12].fill(0), part[9] = 1).2,
    ];
    let reads = |edit: &Edit| {
        let mut part = part.clone();
        edit(&mut part);
        read(&part).is_some()
    };
    assert_eq!(well_formed.iter().map(reads).collect::<Vec<_>>(), [true; 7]);
    assert_eq!(malformed.iter().map(reads).collect::<Vec<_>>(), [false; 14]);
}
