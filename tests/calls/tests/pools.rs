//! The pools of addresses hold what they say, and no address twice.

use calls::pools::{
    high_address, inside_address, low_address, outside_address, some_outside, static_address,
};
use calls::pools::{HIGH, INSIDE, LOW, OUTSIDE};
use calls::Random;
use reference::records::{is_static_random, Address};

#[test]
fn pools_are_inside_or_outside_the_rule() {
    let high: Vec<Address> = (0..HIGH).map(high_address).collect();
    let inside: Vec<Address> = (0..INSIDE).map(inside_address).collect();
    let outside: Vec<Address> = (0..OUTSIDE).map(outside_address).collect();
    let low: Vec<Address> = (0..LOW).map(low_address).collect();
    assert!(high.iter().chain(&inside).all(is_static_random));
    assert!(!outside.iter().chain(&low).any(is_static_random));
    let mut all = [high, inside, outside, low].concat();
    all.sort_unstable();
    all.dedup();
    assert_eq!(all.len(), HIGH + INSIDE + OUTSIDE + LOW);
}

#[test]
fn picks_keep_to_their_pools() {
    let mut random = Random::new(31);
    assert!((0..2_000).all(|_| is_static_random(&static_address(&mut random))));
    assert!((0..2_000).all(|_| !is_static_random(&some_outside(&mut random))));
}
