//! The sweep over both versions finds nothing between the reference hub and itself, and finds each slip; so do random images.

use crate::lent::Lent;
use crate::mirror::Mirror;
use crate::run::Comparison;
use crate::versions::{versions_agree, Sweep};
use crate::wrong_images::{WrongImages, SLIPS};

#[test]
fn the_versions_agree_on_the_reference_hub() {
    let sweep = versions_agree(&mut Lent::new(Mirror::default())).expect("no difference");
    let expected = Sweep { first: 5_925, second: 1_700, refused: 13_745, moved: 7_548, beyond: 87 };
    assert_eq!(sweep, expected);
}

#[test]
fn every_slip_is_found() {
    for slip in SLIPS {
        let found = versions_agree(&mut Lent::new(WrongImages::new(slip)));
        assert!(found.is_err(), "{slip:?} is not found");
    }
}

#[test]
fn random_images_find_every_slip_too() {
    for slip in SLIPS {
        let found = Comparison::new(3, WrongImages::new(slip), WrongImages::new(slip)).run(200_000);
        assert!(found.is_err(), "{slip:?} is not found by random images");
    }
}
