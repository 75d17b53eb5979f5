//! The used part of a name, as a host asks for it.

mod common;

use common::*;
use reference::Hub;

/// Name and short name of so many octets each, the rest zero.
fn names(name: usize, short_name: usize) -> Vec<u8> {
    let mut octets = vec![0; 260];
    octets[..name].fill(b'n');
    octets[249..249 + short_name].fill(b's');
    octets
}

#[test]
fn a_name_ends_before_its_first_zero() {
    let mut hub = hub_with(DUAL);
    assert_eq!(hub.name(0, 0, 1024), done(vec![]));
    for (name, short_name) in [(1, 0), (0, 1), (17, 3), (248, 10)] {
        assert_eq!(send(&mut hub, 0x000F, 0, &names(name, short_name)).answer, 0);
        assert_eq!(hub.name(0, 0, 1024), done(vec![b'n'; name]));
        assert_eq!(hub.name(0, 1, 1024), done(vec![b's'; short_name]));
    }
}

#[test]
fn octets_behind_the_first_zero_are_not_told() {
    let mut hub = hub_with(DUAL);
    let mut octets = names(248, 10);
    octets[5] = 0;
    octets[249] = 0;
    assert_eq!(send(&mut hub, 0x000F, 0, &octets).answer, 0);
    assert_eq!(hub.name(0, 0, 1024), done(vec![b'n'; 5]));
    assert_eq!(hub.name(0, 1, 1024), done(vec![]));
}

#[test]
fn wrong_questions_are_answered_4_before_6() {
    let mut hub = Hub::new();
    plug(&mut hub, 2, DUAL);
    for (index, which) in [(0, 0), (3, 1), (4, 0), (u64::MAX, 0), (2, 2), (2, 256), (2, u64::MAX)] {
        assert_eq!(hub.name(index, which, 1024), bare(6));
        assert_eq!(hub.name(index, which, 1023), bare(4));
    }
    assert_eq!(hub.name(2, 1, 1024), done(vec![]));
    assert_eq!(hub.name(2, 1, 0), bare(4));
}
