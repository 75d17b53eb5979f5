//! The sweep over the switches finds nothing between the reference hub and itself, and finds each slip.

use crate::br_edr::br_edr_agrees;
use crate::lent::Lent;
use crate::mirror::Mirror;
use crate::run::Comparison;
use crate::wrong_br_edr::{Slip, WrongBrEdr, SLIPS};

// Without a command under way 57 states are well formed: 36 dual-mode ones, 14 of LE alone and 7 of BR/EDR alone.
#[test]
fn the_switches_agree_on_the_reference_hub() {
    let sweep = br_edr_agrees(&mut Lent::new(Mirror::default())).expect("no difference");
    assert_eq!((sweep.states, sweep.well_formed, sweep.images), (3 * 256 * 14, 289, 192));
    assert!(sweep.started > 500 && sweep.calls > 13_000 && sweep.off > 150, "{sweep}");
}

#[test]
fn every_slip_is_found() {
    for slip in SLIPS {
        let found = br_edr_agrees(&mut Lent::new(WrongBrEdr::new(slip)));
        assert!(found.is_err(), "{slip:?} is not found");
    }
}

#[test]
fn random_lists_find_slips_too() {
    let slips = [
        Slip::OffWhilePowered,
        Slip::OnWithStatic,
        Slip::OnAgainWithStatic,
        Slip::LowEnergyOff,
        Slip::DiscoverableStays,
        Slip::BitByPublic,
        Slip::LowEnergyOffTaken,
        Slip::DiscoverableTaken,
        Slip::SaveRefused,
        Slip::SaveSaysOn,
        Slip::NotBusy,
        Slip::MakesNotBusy,
        Slip::KeysGo,
        Slip::PlugOn,
        Slip::FlagTaken,
    ];
    for slip in slips {
        let found = Comparison::new(3, WrongBrEdr::new(slip), WrongBrEdr::new(slip)).run(100_000);
        assert!(found.is_err(), "{slip:?} is not found by random lists");
    }
}
