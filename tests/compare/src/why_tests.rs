//! The comparison of what is told of packets finds nothing between the reference hub and itself, and finds each slip.

use crate::lent::Lent;
use crate::mirror::Mirror;
use crate::run::{Comparison, Failure};
use crate::shrink::shrink;
use crate::why::{why_agrees, why_agrees_in_any_room, why_of_no_state};
use crate::wrong_why::{Slip, WrongWhy, SLIPS};
use reference::codes::command as code;
use reference::packet::frame;
use reference::{Call, Hub, Reply};

/// The failure that a slip leads to.
fn failure(slip: Slip) -> Failure {
    let mut comparison = Comparison::new(3, WrongWhy::new(slip), WrongWhy::new(slip));
    comparison.run(100_000).expect_err(&format!("{slip:?} is not found"))
}

#[test]
fn every_slip_is_found() {
    for slip in SLIPS {
        let difference = failure(slip).difference;
        let past_count = slip == Slip::Terminated && difference.starts_with("octets past the count");
        assert!(difference.starts_with("why ") || past_count, "{slip:?}: {difference}");
    }
}

#[test]
fn a_slip_shrinks_to_few_calls() {
    for slip in [Slip::PairByLater, Slip::TypeForAction, Slip::Busy] {
        let found = failure(slip);
        let mut comparison = Comparison::new(3, WrongWhy::new(slip), WrongWhy::new(slip));
        let small = shrink(comparison.lent(), found);
        assert!(small.calls.len() <= 4, "{slip:?}: {:?}", small.calls);
        assert!(matches!(small.calls.last(), Some(Call::Command { .. })), "{slip:?}");
    }
}

#[test]
fn packets_are_asked_about_after_each_list() {
    let mut comparison = Comparison::new(6, Mirror::default(), Mirror::default());
    if let Err(failure) = comparison.run(5_000) {
        panic!("{}", failure.difference);
    }
    assert_eq!(comparison.asked, comparison.runs * calls::packets::PACKETS);
}

#[test]
fn a_state_that_is_none_is_answered_before_all_else() {
    assert_eq!(why_of_no_state(&mut Lent::new(Mirror::default())), Ok(()));
}

#[test]
fn the_state_is_the_same_after_the_question() {
    let mut lent = Lent::new(Mirror::default());
    let mut hub = Hub::new();
    assert_eq!(lent.load(&calls::lists::EMPTY), Ok(Reply::bare(0)));
    let room = 1024;
    let plug =
        Call::Plug { index: 2, address: vec![1; 6], version: 6, manufacturer: 15, supported: 0x0281, room };
    assert_eq!(lent.call(&plug).map(|reply| reply.answer), Ok(0));
    assert_eq!(hub.call(&plug).answer, 0);
    let before = lent.state().to_vec();
    for packet in [frame(code::SET_POWERED, 2, &[1]), frame(code::SET_BONDABLE, 2, &[1]), vec![1, 2, 3]] {
        assert_eq!(why_agrees(&mut lent, &hub, &packet), Ok(()));
        assert_eq!(why_agrees_in_any_room(&mut lent, &hub, &packet), Ok(()));
        assert_eq!(lent.state(), before);
    }
}

#[test]
fn the_examples_have_every_wording() {
    let text = include_str!("../../examples/why.txt");
    for (wording, form) in calls::whys::expected() {
        let ending = if form.starts_with("octet") { format!(", {form}\n") } else { String::new() };
        assert!(text.contains(&format!(" {wording}{ending}")), "{wording} ({form})");
    }
}
