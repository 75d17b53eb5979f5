//! The comparison finds nothing between the reference hub and itself, and finds
//! each fault that is put in.

use crate::addresses::{addresses_agree, Carrier, Field, Sweep};
use crate::identities;
use crate::layout::{block, cleared, encode, encode_at_once, same_state, ADVERTISING, STATE, WAITING};
use crate::lent::Lent;
use crate::mirror::Mirror;
use crate::run::{Comparison, Failure};
use crate::schedule::read;
use crate::shrink::shrink;
use crate::switches;
use crate::target::{Move, Target};
use crate::wrong_rule::{Rule, WrongRule};
use reference::codes::command as code;
use reference::controller::Controller;
use reference::packet::frame;
use reference::records::is_static_random;
use reference::{Call, Hub};

/// The octets of a block.
const BLOCK: usize = 4_372;

/// What a faulty hub does wrong.
#[derive(Clone, Copy, Debug)]
enum Fault {
    /// An octet of the reply is wrong.
    Octet,
    /// One octet past the count is written.
    PastCount,
    /// One octet too few is counted.
    Count,
    /// A started command is answered 0.
    Answer,
    /// A refused call changes the state.
    State,
    /// Set Bondable only replies.
    Forgets,
    /// A failed report leaves the command open.
    StaysOpen,
    /// A started command is kept with another parameter.
    Kept,
    /// A controller's version is stored in the wrong place, where no reply shows it.
    Place,
    /// The zero that ends a name is told too.
    Name,
    /// The two lengths of what is on air are told in the wrong order.
    OnAir,
    /// The clock leaves a second more of a turn.
    Turn,
    /// A state that is not well formed is taken.
    Takes,
    /// Images are taken that should not be.
    Image,
    /// A state buffer that is too long is taken.
    Length,
}

/// The reference hub with a fault.
struct Faulty {
    inner: Mirror,
    fault: Fault,
}

impl Faulty {
    /// A hub with this fault.
    fn new(fault: Fault) -> Faulty {
        Faulty { inner: Mirror::default(), fault }
    }
}

/// Whether a call is a command of this code.
fn is_command(call: &Call, code: u16) -> bool {
    matches!(call, Call::Command { packet, .. } if packet.starts_with(&code.to_le_bytes()))
}

/// The index at which a command is under way that was not before.
fn open_index(before: &[u8], after: &[u8]) -> u8 {
    let opened = |index: &usize| before[4 + BLOCK * index + 1] != after[4 + BLOCK * index + 1];
    (0..4).find(opened).expect("a command is started") as u8
}

/// Leaves a second more of the first turn that there is.
fn longer_turn(state: &mut [u8]) {
    let turns = (0..4).map(|index| 4 + BLOCK * index + 4049);
    if let Some(at) = turns.into_iter().find(|at| state[*at] != 0) {
        state[at + 1] = state[at + 1].wrapping_add(1);
    }
}

impl Target for Faulty {
    const STATE_LEN: usize = Mirror::STATE_LEN;

    fn call(&mut self, state: &mut [u8], call: &Call, reply: &mut [u8]) -> u64 {
        let before = state.to_vec();
        let length =
            if matches!(self.fault, Fault::Length) { Self::STATE_LEN.min(state.len()) } else { state.len() };
        let number = self.inner.call(&mut state[..length], call, reply);
        let (answer, count) = (number & 0xFF, (number as u32 >> 8) as usize);
        match self.fault {
            Fault::Octet if is_command(call, code::UNPAIR) && count > 0 => reply[count - 1] ^= 1,
            Fault::PastCount if count > 0 && count < reply.len() => reply[count] ^= 1,
            Fault::Count if count > 9 => return number - 256,
            Fault::Answer if answer == 1 => return number - 1,
            Fault::State if answer == 2 => state[10] ^= 1,
            Fault::Forgets if is_command(call, code::SET_BONDABLE) => state.copy_from_slice(&before),
            Fault::Kept if answer == 1 => state[4 + BLOCK * usize::from(open_index(&before, state)) + 4] ^= 1,
            Fault::Place if matches!(call, Call::Plug { .. }) && answer == 0 => state[WAITING.start - 1] ^= 1,
            Fault::Turn if matches!(call, Call::Clock { .. }) && state != before => longer_turn(state),
            Fault::StaysOpen if matches!(call, Call::Report { status: 1.., .. }) => {
                state.copy_from_slice(&before)
            }
            _ => {}
        }
        number
    }

    fn name(&mut self, state: &[u8], index: u64, which: u64, reply: &mut [u8]) -> u64 {
        let number = self.inner.name(state, index, which, reply);
        let count = (number >> 8) as usize;
        match self.fault {
            Fault::Name if count > 0 => {
                reply[count] = 0;
                number + 256
            }
            _ => number,
        }
    }

    fn on_air(&mut self, state: &[u8], index: u64, reply: &mut [u8]) -> u64 {
        let number = self.inner.on_air(state, index, reply);
        match self.fault {
            Fault::OnAir if number > 255 => reply.swap(1, 2),
            Fault::Takes if number == 5 && state.len() == Self::STATE_LEN => return 0,
            _ => {}
        }
        number
    }

    fn why(&mut self, state: &[u8], packet: &[u8], text: &mut [u8]) -> u64 {
        self.inner.why(state, packet, text)
    }

    fn look_up(&self, state: &[u8], index: u64, table: u64, key: &[u8]) -> u64 {
        self.inner.look_up(state, index, table, key)
    }

    fn load(&mut self, state: &mut [u8], image: &[u8]) -> u64 {
        let number = self.inner.load(state, image);
        match self.fault {
            Fault::Image if number & 0xFF == 72 && image.get(4).is_some_and(|version| *version > 2) => 0,
            _ => number,
        }
    }

    fn moved(&self, way: Move, image: &[u8], out: &mut [u8]) -> u64 {
        self.inner.moved(way, image, out)
    }
}

/// The failure that a fault leads to.
fn failure(fault: Fault) -> Failure {
    let mut comparison = Comparison::new(3, Faulty::new(fault), Faulty::new(fault));
    comparison.run(20_000).expect_err(&format!("{fault:?} is not found"))
}

#[test]
fn the_reference_hub_agrees_with_itself() {
    let mut comparison = Comparison::new(5, Mirror::default(), Mirror::default());
    if let Err(failure) = comparison.run(20_000) {
        panic!("{}", failure.difference);
    }
    assert!(comparison.calls >= 20_000 && comparison.reduced > 10_000 && comparison.images > 100);
    assert!(comparison.left_open > 10, "{} commands under way at an end", comparison.left_open);
    let altered = comparison.altered;
    assert!(altered.well_formed > 100 && altered.lent - altered.well_formed > 100, "{altered:?}");
}

#[test]
fn a_difference_that_no_reply_shows_is_found_by_its_octet() {
    let kept = failure(Fault::Kept).difference;
    assert!(kept.starts_with("the state differs: octet 4 of block "), "{kept}");
    let takes = failure(Fault::Takes).difference;
    assert!(takes.starts_with("an altered state at index "), "{takes}");
    let place = failure(Fault::Place).difference;
    assert!(place.starts_with("the state differs: octet 4371 of block 3 "), "{place}");
}

/// Makes a call that must be answered so.
fn must(hub: &mut Hub, call: Call, answer: u8) {
    assert_eq!(hub.call(&call).answer, answer, "{call:?}");
}

/// A hub with a controller at 1, a device in its table, and Set Discoverable under way.
fn small_hub() -> Hub {
    let room = 1024;
    let command = |code, parameters: &[u8]| Call::Command { packet: frame(code, 1, parameters), room };
    let report = || Call::Report { index: 1, status: 0, room };
    let mut hub = Hub::new();
    must(&mut hub, Call::Clock { reading: 0x0403_0201, room }, 0);
    let address = vec![0x11, 0x22, 0x33, 0x44, 0x55, 0x66];
    must(
        &mut hub,
        Call::Plug { index: 1, address, version: 9, manufacturer: 0x0A0B, supported: 0x02DB, room },
        0,
    );
    must(&mut hub, command(code::SET_CONNECTABLE, &[1]), 0);
    must(&mut hub, command(code::ADD_DEVICE, &[1, 2, 3, 4, 5, 6, 1, 2]), 0);
    must(&mut hub, command(code::SET_POWERED, &[1]), 1);
    must(&mut hub, report(), 0);
    must(&mut hub, command(code::SET_DISCOVERABLE, &[2, 0x34, 0x12]), 1);
    hub
}

#[test]
fn the_state_is_laid_out_as_the_document_says() {
    let hub = small_hub();
    let mut expected = vec![0; STATE];
    expected[..4].copy_from_slice(&[1, 2, 3, 4]);
    let block = &mut expected[4376..8748];
    block[..6].copy_from_slice(&[1, 0x06, 0x00, 2, 0x34, 0x12]);
    let given = [9, 0x0B, 0x0A, 0xDB, 0x02, 0, 0, 0x11, 0x22, 0x33, 0x44, 0x55, 0x66];
    block[6..19].copy_from_slice(&given);
    block[19..25].copy_from_slice(&[1, 1, 0, 0, 1, 1]);
    block[3769..3781].copy_from_slice(&[1, 0, 0, 0, 1, 2, 3, 4, 5, 6, 1, 2]);
    assert_eq!(same_state("", &expected, &encode(&hub)), Ok(()));
    expected[4377..4382].fill(0);
    assert_eq!(encode_at_once(hub.state()), expected);
    assert_eq!(cleared(&encode(&hub)), expected);
    assert_eq!(encode(&Hub::new()), vec![0; STATE]);
}

#[test]
fn advertising_ends_the_block_as_the_document_says() {
    let command = |code, parameters: &[u8]| Call::Command { packet: frame(code, 1, parameters), room: 1024 };
    let mut hub = small_hub();
    let five = [&[5, 0, 0, 0, 0, 0x34, 0x12, 0xBC, 0x0A, 2, 31][..], &[0xA1, 0xA2], &[0xB0; 31]].concat();
    must(&mut hub, command(code::ADD_ADVERTISING, &five), 0);
    must(&mut hub, command(code::ADD_ADVERTISING, &[2, 0, 0, 0, 0, 0, 0, 0, 0, 1, 0, 0xAD]), 0);
    let before = encode(&small_hub());
    let mut expected = before.clone();
    let block = &mut expected[4376..8748];
    block[4029..4039].copy_from_slice(&[0, 0, 2, 0, 0, 0, 0, 0, 0x34, 0x12]);
    block[4039..4049].copy_from_slice(&[0, 0, 0, 0, 0, 0, 0, 0, 0xBC, 0x0A]);
    block[4049..4052].copy_from_slice(&[5, 0x34, 0x12]);
    block[4084..4086].copy_from_slice(&[1, 0xAD]);
    block[4180..4183].copy_from_slice(&[2, 0xA1, 0xA2]);
    block[4340] = 31;
    block[4341..4372].fill(0xB0);
    assert_eq!(same_state("", &expected, &encode(&hub)), Ok(()));
    must(&mut hub, command(code::REMOVE_ADVERTISING, &[0]), 0);
    assert_eq!(encode(&hub), before);
}

/// A change of octets by hand.
type Edit = fn(&mut [u8]);

/// Octets are read with each of the first changes in them, and with none of the others.
fn tell_apart(octets: &[u8], well_formed: &[Edit], malformed: &[Edit], reads: impl Fn(&[u8]) -> bool) {
    let changed = |edit: &Edit| {
        let mut octets = octets.to_vec();
        edit(&mut octets);
        reads(&octets)
    };
    for (place, edit) in well_formed.iter().enumerate() {
        assert!(changed(edit), "well formed {place}");
    }
    for (place, edit) in malformed.iter().enumerate() {
        assert!(!changed(edit), "malformed {place}");
    }
}

/// `small_hub` with instance 2, and with instance 5 on air.
fn hub_on_air() -> Hub {
    let command = |parameters: &[u8]| frame(code::ADD_ADVERTISING, 1, parameters);
    let mut hub = small_hub();
    for packet in
        [command(&[5, 0, 0, 0, 0, 9, 0, 3, 0, 1, 1, 0xAD, 0x5C]), command(&[2, 0, 0, 0, 0, 4, 0, 0, 0, 0, 0])]
    {
        must(&mut hub, Call::Command { packet, room: 1024 }, 0);
    }
    hub
}

#[test]
fn power_and_low_energy_decide_what_the_advertising_part_may_be() {
    let hub = hub_on_air();
    let mut controller = hub.state().controller(1).expect("it is plugged").clone();
    let part = encode(&hub)[block(1)][ADVERTISING..].to_vec();
    let mut off_air = part.clone();
    off_air[20..23].fill(0);
    let mut untimed = off_air.clone();
    untimed[10..20].fill(0);
    let zeros = vec![0; part.len()];
    let well_formed = |controller: &Controller| {
        [&part, &off_air, &untimed, &zeros].map(|part| read(part, controller).is_some())
    };
    assert_eq!(well_formed(&controller), [true, false, false, true]);
    controller.powered = false;
    assert_eq!(well_formed(&controller), [false, false, true, true]);
    controller.low_energy = false;
    assert_eq!(well_formed(&controller), [false, false, false, true]);
    controller.powered = true;
    assert_eq!(well_formed(&controller), [false, false, false, true]);
}

#[test]
fn power_and_low_energy_have_to_fit_the_other_settings() {
    const LE_ONLY: u32 = 0x0201;
    let mut hub = Hub::new();
    let plug = |index, supported| {
        let address = vec![0x11 * u8::from(supported != LE_ONLY); 6];
        Call::Plug { index, address, version: 9, manufacturer: 15, supported, room: 1024 }
    };
    for (index, supported) in [(0, 0x0281), (1, 0x0081), (2, LE_ONLY)] {
        must(&mut hub, plug(index, supported), 0);
    }
    let well_formed = |index: usize, power: u8, low_energy: u8, open: bool| {
        let mut octets = encode(&hub)[block(index)].to_vec();
        (octets[switches::POWERED], octets[switches::LOW_ENERGY]) = (power, low_energy);
        octets[1..6].copy_from_slice(&if open { [5, 0, 1, 0, 0] } else { [0; 5] });
        let controller = hub.state().controller(index as u64).expect("it is plugged");
        switches::read(&octets, controller).is_some()
    };
    let all = |index, open| [(0, 0), (0, 1), (1, 0), (1, 1)].map(|(p, le)| well_formed(index, p, le, open));
    assert_eq!(all(0, false), [true; 4]);
    assert_eq!(all(0, true), [true, true, false, false]);
    assert_eq!(all(1, false), [true, false, true, false]);
    assert_eq!(all(2, false), [false, true, false, false]);
    assert!(!well_formed(0, 2, 1, false) && !well_formed(0, 0, 0xFF, false));
}

#[test]
fn addresses_and_keys_are_read_only_where_they_are_well_formed() {
    let mut hub = small_hub();
    let keys = [&[1, 0, 9, 8, 7, 6, 5, 0xC0, 2][..], &[0xAB; 16]].concat();
    let packet = frame(code::LOAD_IDENTITY_KEYS, 1, &keys);
    must(&mut hub, Call::Command { packet, room: 1024 }, 0);
    let controller = hub.state().controller(1).expect("it is plugged");
    let part = encode(&hub)[block(1)].to_vec();
    assert_eq!(identities::read(&part, controller).as_ref(), Some(controller));
    let well_formed: [Edit; 4] = [
        |block| block[27..33].copy_from_slice(&[1, 0, 0, 0, 0, 0xC0]),
        |block| block[2805..2811].copy_from_slice(&[0xFF, 0xFF, 0xFF, 0xFF, 0xFF, 0xFE]),
        |block| (block[2805..2811].fill(0), block[2811] = 1).1,
        |block| block[2801..2828].fill(0),
    ];
    let malformed: [Edit; 7] = [
        |block| block[32] = 0xC0,
        |block| block[27..33].fill(0xFF),
        |block| block[27] = 1,
        |block| block[2805..2810].fill(0),
        |block| block[2811] = 0,
        |block| block[2801] = 3,
        |block| block[2828] = 1,
    ];
    tell_apart(&part, &well_formed, &malformed, |part| identities::read(part, controller).is_some());
}

#[test]
fn the_advertising_part_is_read_only_where_it_is_well_formed() {
    let hub = hub_on_air();
    let controller = hub.state().controller(1).expect("it is plugged");
    let part = encode(&hub)[block(1)][ADVERTISING..].to_vec();
    assert_eq!(read(&part, controller).as_ref(), Some(&controller.advertising));
    let well_formed: [Edit; 6] = [
        |part| part[21] = 1,
        |part| part[20..23].copy_from_slice(&[2, 4, 0]),
        |part| part[8..10].fill(0xFF),
        |part| part[18..20].fill(0),
        |part| part[23 + 32] = 31,
        |part| part.fill(0),
    ];
    let malformed: [Edit; 13] = [
        |part| part[20..23].fill(0),
        |part| part[20] = 0,
        |part| part[20] = 1,
        |part| part[20] = 6,
        |part| part[20] = 0xFF,
        |part| part[21] = 0,
        |part| part[21] = 10,
        |part| part[8] = 0,
        |part| part[10] = 1,
        |part| part[23] = 1,
        |part| part[23 + 32] = 32,
        |part| part[23 + 4 * 32 + 2] = 1,
        |part| part[23 + 4 * 32] = 0,
    ];
    tell_apart(&part, &well_formed, &malformed, |part| read(part, controller).is_some());
}

#[test]
fn every_fault_is_found() {
    let faults = [
        Fault::Octet,
        Fault::PastCount,
        Fault::Count,
        Fault::Answer,
        Fault::State,
        Fault::Forgets,
        Fault::StaysOpen,
        Fault::Kept,
        Fault::Place,
        Fault::Name,
        Fault::OnAir,
        Fault::Turn,
        Fault::Takes,
        Fault::Image,
        Fault::Length,
    ];
    for fault in faults {
        assert!(!failure(fault).difference.is_empty());
    }
}

/// Every part of every place that wants a static random address.
fn address_places() -> impl Iterator<Item = (Carrier, Field)> {
    let fields = [Field::StaticAddress, Field::LongTermKey, Field::IdentityKey];
    let carriers = [Carrier::Command, Carrier::Image, Carrier::State].into_iter();
    carriers.flat_map(move |carrier| fields.map(|field| (carrier, field)))
}

#[test]
fn the_addresses_agree_on_the_reference_hub() {
    let sweep = addresses_agree(&mut Lent::new(Mirror::default()));
    let expected = Sweep { addresses: 101, places: 25, taken: 25 * 92, refused: 25 * 9 };
    assert_eq!(sweep, Ok(expected));
}

/// Document 01's rule, which looks at the top two bits alone.
const TOP_BITS: Rule = |address| address[5] >= 0xC0;

// Each wrong rule stands in one place alone, the right one in all others: the sweep has to look at every place.
#[test]
fn a_rule_that_refuses_other_addresses_is_found_wherever_it_stands() {
    const ZEROS: [u8; 6] = [0, 0, 0, 0, 0, 0xC0];
    let rules: [(&str, Rule); 7] = [
        ("the top two bits alone", TOP_BITS),
        ("zeros below them alone", |address| TOP_BITS(address) && *address != ZEROS),
        ("ones below them alone", |address| TOP_BITS(address) && *address != [0xFF; 6]),
        ("D0:00:00:00:00:00 too", |address| is_static_random(address) && *address != [0, 0, 0, 0, 0, 0xD0]),
        ("zeros in five octets", |address| is_static_random(address) && address[..5] != [0; 5]),
        ("ones in five octets", |address| is_static_random(address) && address[..5] != [0xFF; 5]),
        ("the bits below the top two alone", |&[a, b, c, d, e, f]| {
            is_static_random(&[a, b, c, d, e, f | 0xC0])
        }),
    ];
    for (name, takes) in rules {
        for place in address_places() {
            let sweep = addresses_agree(&mut Lent::new(WrongRule::new(takes, place)));
            let difference = sweep.expect_err(&format!("{name} at {place:?} is not found"));
            assert!(
                difference.contains(&format!("carrier: {:?}, field: {:?}", place.0, place.1)),
                "{difference}"
            );
        }
    }
}

#[test]
fn random_lists_and_images_find_the_top_bits_rule_too() {
    for place in address_places().filter(|(carrier, _)| *carrier != Carrier::State) {
        let target = || WrongRule::new(TOP_BITS, place);
        let found = Comparison::new(3, target(), target()).run(100_000);
        assert!(found.is_err(), "the top two bits alone at {place:?} are not found");
    }
}

#[test]
fn a_difference_shrinks_to_few_calls() {
    let found = failure(Fault::Forgets);
    let mut comparison = Comparison::new(3, Faulty::new(Fault::Forgets), Faulty::new(Fault::Forgets));
    let small = shrink(comparison.lent(), found);
    assert!(small.calls.len() <= 3, "{:?}", small.calls);
    assert!(small.calls.iter().any(|call| is_command(call, code::SET_BONDABLE)));
}

#[test]
fn a_wrong_answer_to_a_question_shrinks_too() {
    let found = failure(Fault::OnAir);
    assert!(found.difference.starts_with("on air at index "), "{}", found.difference);
    let mut comparison = Comparison::new(3, Faulty::new(Fault::OnAir), Faulty::new(Fault::OnAir));
    let small = shrink(comparison.lent(), found);
    // A plug, a static address where there is no public one, an instance, power and its report.
    assert!(small.calls.len() <= 5, "{:?}", small.calls);
    assert!(small.calls.iter().any(|call| is_command(call, code::ADD_ADVERTISING)));
}
