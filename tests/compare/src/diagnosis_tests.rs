//! The sweep over refused images finds nothing between the reference hub and itself, and finds each slip; so do random images.

use crate::diagnosis::{diagnosis_agrees, Answers, Sweep};
use crate::diagnosis_slips::{Slip, SLIPS};
use crate::lent::Lent;
use crate::mirror::Mirror;
use crate::run::Comparison;
use crate::wrong_diagnosis::WrongDiagnosis;

#[test]
fn the_diagnosis_agrees_on_the_reference_hub() {
    let sweep = diagnosis_agrees(&mut Lent::new(Mirror::default())).expect("no difference");
    let load = [70_674, 2_121, 6_628, 24_452, 15_721, 34_324, 9_305];
    let upgrade = [34_536, 213_490, 2_947, 9_489, 6_537, 14_468, 4_691];
    let downgrade = [36_158, 199_421, 3_681, 14_963, 9_184, 19_856, 4_614];
    let expected = Sweep {
        load: Answers { done: 247_585, refused: load, beyond: 0 },
        upgrade: Answers { done: 124_652, refused: upgrade, beyond: 0 },
        downgrade: Answers { done: 122_855, refused: downgrade, beyond: 78 },
    };
    assert_eq!(sweep, expected, "{sweep}");
}

#[test]
fn every_slip_is_found() {
    for slip in SLIPS {
        let found = diagnosis_agrees(&mut Lent::new(WrongDiagnosis::new(slip)));
        assert!(found.is_err(), "{slip:?} is not found");
    }
}

#[test]
fn random_images_find_every_slip_too() {
    let is_missed = |slip: &Slip| {
        let mut comparison = Comparison::new(3, WrongDiagnosis::new(*slip), WrongDiagnosis::new(*slip));
        comparison.run(200_000).is_ok()
    };
    let missed: Vec<Slip> = SLIPS.into_iter().filter(is_missed).collect();
    assert!(missed.is_empty(), "{missed:?} are not found by random images");
}
