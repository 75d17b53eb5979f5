//! A run of 200,000 calls reaches every refusal, every wording of why with each form of place, every kind of look-up in each table, and every situation.

use calls::coverage::{expected_orders, expected_refusals};
use calls::histogram::Histogram;
use calls::{addresses, br_edr, diagnoses, lumps, moves, on_air, situations, walks, whys};

#[test]
fn every_refusal_and_situation_is_reached() {
    for seed in 1..=3 {
        let run = Histogram::of_run(200_000, seed);
        for pair in expected_refusals() {
            assert!(run.reasons.contains_key(&pair), "seed {seed}: {pair:?} is missing");
        }
        for order in expected_orders() {
            assert!(run.behind.contains_key(&order), "seed {seed}: {order:?} is missing");
        }
        for told in whys::expected() {
            assert!(run.whys.contains_key(&told), "seed {seed}: {told:?} is missing");
        }
        for walk in walks::expected() {
            assert!(run.walks.contains_key(&walk), "seed {seed}: {walk:?} is missing");
        }
        let situations = situations::EXPECTED.into_iter().chain(on_air::EXPECTED);
        let situations = situations.chain(addresses::expected()).chain(br_edr::expected());
        let situations =
            situations.chain(moves::expected()).chain(diagnoses::expected()).chain(lumps::expected());
        for situation in situations {
            assert!(run.situations.contains_key(situation), "seed {seed}: {situation} is missing");
        }
    }
}

#[test]
fn no_refusal_is_reached_that_is_not_expected() {
    let run = Histogram::of_run(200_000, 4);
    let expected = expected_refusals();
    for pair in run.reasons.keys() {
        assert!(expected.contains(pair), "{pair:?} is not expected");
    }
    let expected = whys::expected();
    for told in run.whys.keys() {
        assert!(expected.contains(told), "{told:?} is not expected");
    }
    let expected = walks::expected();
    for walk in run.walks.keys() {
        assert!(expected.contains(walk), "{walk:?} is not expected");
    }
}

#[test]
fn the_same_seed_gives_the_same_run() {
    let (one, two) = (Histogram::of_run(5_000, 9), Histogram::of_run(5_000, 9));
    assert_eq!(one.to_string(), two.to_string());
    assert_ne!(one.to_string(), Histogram::of_run(5_000, 10).to_string());
}
