//! The comparison of look-ups finds nothing between the reference hub and itself, and finds each slip.

use crate::broken::{broken_tables_agree, RECORDS, WORDS};
use crate::layout::{block, encode, ADVERTISING};
use crate::lent::Lent;
use crate::look_up::{look_up_agrees, look_up_of_no_state, look_ups_agree};
use crate::mirror::Mirror;
use crate::run::{Comparison, Failure};
use crate::shrink::shrink;
use crate::wrong_look_up::{Slip, WrongLookUp, SLIPS};
use calls::look_ups::LOOK_UPS;
use calls::Random;
use reference::codes::command as code;
use reference::packet::frame;
use reference::{Call, Hub, Reply};

/// The failure that a slip leads to.
fn failure(slip: Slip) -> Failure {
    let mut comparison = Comparison::new(3, WrongLookUp::new(slip), WrongLookUp::new(slip));
    comparison.run(50_000).expect_err(&format!("{slip:?} is not found"))
}

#[test]
fn every_slip_is_found() {
    for slip in SLIPS {
        let difference = failure(slip).difference;
        assert!(difference.starts_with("look-up at index "), "{slip:?}: {difference}");
    }
}

#[test]
fn a_slip_shrinks_to_few_calls() {
    for slip in [Slip::FreedSlot, Slip::UsedWalkedAbsent, Slip::LastMatch] {
        let found = failure(slip);
        assert!(found.look_up.is_some() || slip != Slip::FreedSlot, "{}", found.difference);
        let mut comparison = Comparison::new(3, WrongLookUp::new(slip), WrongLookUp::new(slip));
        let small = shrink(comparison.lent(), found);
        assert!(small.calls.len() <= 5, "{slip:?}: {:?}", small.calls);
        assert!(small.difference.starts_with("look-up at index "), "{slip:?}: {}", small.difference);
    }
}

#[test]
fn look_ups_are_drawn_after_each_call_and_after_each_list() {
    let mut comparison = Comparison::new(6, Mirror::default(), Mirror::default());
    if let Err(failure) = comparison.run(8_000) {
        panic!("{}", failure.difference);
    }
    assert_eq!(comparison.looked_up, comparison.calls + comparison.runs * LOOK_UPS);
    assert!(comparison.broken > 100, "{}", comparison.broken);
}

#[test]
fn a_state_that_is_none_is_answered_before_all_else() {
    assert_eq!(look_up_of_no_state(&mut Lent::new(Mirror::default())), Ok(()));
}

#[test]
fn the_tables_stand_one_behind_the_other() {
    let ends: Vec<usize> = (0..6).map(|table| WORDS[table] + 4 + 32 * RECORDS[table]).collect();
    assert_eq!(ends[..5], WORDS[1..]);
    assert_eq!(ends[5], ADVERTISING);
}

/// A target and the reference hub with a controller at 2 and devices in slots 0 and 2 of its last table.
fn with_a_gap() -> (Lent<Mirror>, Hub) {
    let (mut lent, mut hub) = (Lent::new(Mirror::default()), Hub::new());
    assert_eq!(lent.load(&calls::lists::EMPTY), Ok(Reply::bare(0)));
    let room = 1024;
    let device = |number: u8, length: usize| [&[number, 2, 3, 4, 5, 6, 1, 2][..length]].concat();
    let command = |code, parameters: Vec<u8>| Call::Command { packet: frame(code, 2, &parameters), room };
    let address = vec![1; 6];
    let calls = [
        Call::Plug { index: 2, address, version: 6, manufacturer: 15, supported: 0x0281, room },
        command(code::ADD_DEVICE, device(10, 8)),
        command(code::ADD_DEVICE, device(11, 8)),
        command(code::ADD_DEVICE, device(12, 8)),
        command(code::REMOVE_DEVICE, device(11, 7)),
    ];
    for call in calls {
        assert_eq!(lent.call(&call).map(|reply| reply.answer), Ok(0), "{call:?}");
        assert_eq!(hub.call(&call).answer, 0);
    }
    (lent, hub)
}

#[test]
fn the_number_is_answer_slot_and_slots_walked() {
    let (mut lent, hub) = with_a_gap();
    let length = lent.state().len();
    for (first, number) in [(10, 0x0100_u64), (12, 0x0302), (11, 0x0320)] {
        let key = [first, 2, 3, 4, 5, 6, 1];
        assert_eq!(lent.look_up(2, 5, &key, length), Ok(number << 32));
        assert_eq!(look_up_agrees(&mut lent, &hub, 2, 5, &key), Ok(()));
    }
    assert_eq!(lent.look_up(2, 4, &[10, 2, 3, 4, 5, 6, 1], length), Ok(0x20 << 32));
    assert_eq!(lent.look_up(1, 4, &[10, 2, 3, 4, 5, 6, 1], length), Ok(6));
    assert_eq!(look_ups_agree(&mut lent, &hub, &[0, 2, 4]), Ok(()));
    assert_eq!(lent.state(), encode(&hub));
}

#[test]
fn a_broken_table_is_answered_5_and_put_back() {
    let (mut lent, hub) = with_a_gap();
    for seed in 0..20 {
        assert_eq!(broken_tables_agree(&mut lent, &hub, &mut Random::new(seed)), Ok(6));
        assert_eq!(lent.state(), encode(&hub));
    }
    let mut octets = encode(&hub);
    octets[block(2)][WORDS[5]] = 0b001;
    lent.put_state(&octets);
    assert_eq!(lent.look_up(2, 5, &[12, 2, 3, 4, 5, 6, 1], octets.len()), Ok(5));
}
