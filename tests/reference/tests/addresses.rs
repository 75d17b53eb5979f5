//! Static random addresses: which are taken, at each place that wants one, and where any address is taken.

mod common;

use common::*;
use reference::image::load;
use reference::reason::{ImageFault, Reason};
use reference::Hub;

/// The addresses with both top bits set and the 46 bits below them alike: C0:00:00:00:00:00 and FF:FF:FF:FF:FF:FF.
const ALIKE: [[u8; 6]; 2] = [[0, 0, 0, 0, 0, 0xC0], [0xFF; 6]];
/// D0:00:00:00:00:00.
const D0: [u8; 6] = [0, 0, 0, 0, 0, 0xD0];
/// Address types LE Public and LE Random.
const PUBLIC_TYPE: u8 = 1;
const RANDOM_TYPE: u8 = 2;

/// An address with one of its 48 bits changed.
fn neighbour(mut address: [u8; 6], bit: usize) -> [u8; 6] {
    address[bit / 8] ^= 1 << (bit % 8);
    address
}

/// Both addresses and their neighbours, each with whether it is taken: a neighbour in one of the 46 lower bits has both a
/// 0 and a 1 there, one in a top bit has lost that. Then three that have both there, but not both top bits.
fn cases() -> Vec<([u8; 6], bool)> {
    let around = |address| (0..48).map(move |bit| (neighbour(address, bit), bit < 46));
    let alike = ALIKE.into_iter().flat_map(|address| [(address, false)].into_iter().chain(around(address)));
    let low = [0x06, 0x46, 0x86].map(|sixth| ([0x11, 0x22, 0x33, 0x44, 0x55, sixth], false));
    alike.chain(low).collect()
}

/// Puts every address into a place, which tells whether it was taken.
fn sweep(takes: fn([u8; 6]) -> bool) {
    for (address, taken) in cases() {
        assert_eq!(takes(address), taken, "{address:02X?}");
    }
}

/// Whether a command to index 0 is done with this reply; else it is refused with Invalid Parameters, and the hub is as it was.
fn is_done(hub: &mut Hub, code: u16, parameters: &[u8], reply: Vec<u8>) -> bool {
    let before = hub.clone();
    let found = send(hub, code, 0, parameters);
    if found == refused(status(code, 0, INVALID)) {
        assert_eq!(*hub, before);
        return false;
    }
    assert_eq!(found, done(reply));
    true
}

/// Whether a key list loads into a table that has other keys.
fn list_loads(code: u16, records: &[Vec<u8>]) -> bool {
    let mut hub = hub_with(DUAL);
    send(&mut hub, 0x0013, 0, &le_list(&[long_term_key(9, 1, 0)]));
    send(&mut hub, 0x0030, 0, &le_list(&[identity_key(9, 1)]));
    is_done(&mut hub, code, &le_list(records), complete(code, 0, 0, &[]))
}

/// Whether an image of two versions loads, and is then the one of version 2 that is saved; else both are refused with 74 or 76, and the hub
/// is as it was.
fn image_loads([first, second]: [Vec<u8>; 2]) -> bool {
    let mut hub = timed_hub(9);
    let before = hub.clone();
    let reply = hub.load(&first);
    if [74, 76].contains(&reply.answer) {
        assert_eq!(hub.load(&second).answer, reply.answer);
        assert_eq!(hub, before);
        return false;
    }
    assert_eq!(reply, bare(0));
    assert_eq!(common::image(&hub), second);
    assert_eq!(hub.load(&second), bare(0));
    assert_eq!(common::image(&hub), second);
    true
}

/// A long term key of a device.
fn long_term_key_of(address: [u8; 6], kind: u8) -> Vec<u8> {
    [&address[..], &[kind], &long_term_key(1, kind, 1)[7..]].concat()
}

/// An identity resolving key of a device.
fn identity_key_of(address: [u8; 6], kind: u8) -> Vec<u8> {
    [&address[..], &[kind], &identity_key(1, kind)[7..]].concat()
}

/// An image with this static address, these long term and these identity resolving keys, in both versions.
fn image_of(static_address: [u8; 6], long_term_keys: &[Vec<u8>], identity_keys: &[Vec<u8>]) -> [Vec<u8>; 2] {
    let mut tables = no_tables();
    tables[2] = long_term_keys.to_vec();
    tables[3] = identity_keys.to_vec();
    [1, 2].map(|version| image_in(version, DUAL, 0x0200, static_address, &tables))
}

#[test]
fn nine_of_the_101_addresses_are_refused() {
    let cases = cases();
    let mut different: Vec<[u8; 6]> = cases.iter().map(|(address, _)| *address).collect();
    different.sort_unstable();
    different.dedup();
    assert_eq!(different.len(), 101);
    let mut refused: Vec<[u8; 6]> =
        cases.iter().filter(|(_, taken)| !taken).map(|(address, _)| *address).collect();
    refused.sort_unstable();
    let zeros = [0x40, 0x80, 0xC0].map(|top| [0, 0, 0, 0, 0, top]);
    let low = [0x06, 0x46, 0x86].map(|top| [0x11, 0x22, 0x33, 0x44, 0x55, top]);
    let ones = [0x7F, 0xBF, 0xFF].map(|top| [0xFF, 0xFF, 0xFF, 0xFF, 0xFF, top]);
    assert_eq!(refused, [zeros, low, ones].concat());
    assert!(cases.contains(&(D0, true)));
}

#[test]
fn set_static_address() {
    sweep(|address| {
        let mut hub = Hub::new();
        hub.plug(0, &[0; 6], 6, 0x1234, LE_ONLY, 1024);
        let taken = is_done(&mut hub, 0x002B, &address, changed(0x002B, 0, 0x8200));
        let kept = if taken { address } else { [0; 6] };
        assert_eq!(hub.state().controller(0).map(|controller| controller.static_address), Some(kept));
        taken
    });
}

#[test]
fn zero_clears_an_address_that_was_set() {
    let mut hub = Hub::new();
    hub.plug(0, &[0; 6], 6, 0x1234, LE_ONLY, 1024);
    for address in [D0, neighbour(ALIKE[0], 0), neighbour(ALIKE[1], 45)] {
        assert_eq!(send(&mut hub, 0x002B, 0, &address), done(changed(0x002B, 0, 0x8200)));
        for alike in ALIKE {
            assert_eq!(send(&mut hub, 0x002B, 0, &alike), refused(status(0x002B, 0, INVALID)));
        }
        assert_eq!(send(&mut hub, 0x002B, 0, &[0; 6]), done(changed(0x002B, 0, 0x0200)));
    }
    assert_eq!(send(&mut hub, 0x002B, 0, &[0; 6]), done(unchanged(0x002B, 0, 0x0200)));
}

#[test]
fn the_value_is_checked_before_support_and_power() {
    let mut powered = powered_hub(DUAL);
    let mut classic = hub_with(CLASSIC);
    for address in ALIKE {
        for hub in [&mut powered, &mut classic] {
            assert_eq!(send(hub, 0x002B, 0, &address), refused(status(0x002B, 0, INVALID)));
        }
        let lists = [(0x0013, long_term_key_of(address, 2)), (0x0030, identity_key_of(address, 2))];
        for (code, record) in lists {
            assert_eq!(send(&mut classic, code, 0, &le_list(&[record])), refused(status(code, 0, INVALID)));
        }
    }
}

#[test]
fn long_term_key_lists() {
    sweep(|address| list_loads(0x0013, &[long_term_key_of(address, RANDOM_TYPE)]));
    sweep(|address| {
        let others = [long_term_key(1, 1, 0), long_term_key(1, 2, 0), long_term_key(2, 2, 1)];
        list_loads(0x0013, &[&others[..], &[long_term_key_of(address, RANDOM_TYPE)]].concat())
    });
}

#[test]
fn identity_key_lists() {
    sweep(|address| list_loads(0x0030, &[identity_key_of(address, RANDOM_TYPE)]));
    sweep(|address| {
        let others = [identity_key(1, 1), identity_key(1, 2), identity_key(2, 2)];
        list_loads(0x0030, &[&others[..], &[identity_key_of(address, RANDOM_TYPE)]].concat())
    });
}

#[test]
fn images() {
    sweep(|address| image_loads(image_of(address, &[], &[])));
    sweep(|address| image_loads(image_of(STATIC, &[long_term_key_of(address, RANDOM_TYPE)], &[])));
    sweep(|address| image_loads(image_of(STATIC, &[], &[identity_key_of(address, RANDOM_TYPE)])));
    sweep(|address| {
        let (long_term, identity) = (long_term_key(3, 2, 0), identity_key(3, 2));
        let records = [long_term, long_term_key_of(address, RANDOM_TYPE)];
        image_loads(image_of([0; 6], &records, &[identity]))
    });
}

#[test]
fn images_with_either_address_are_refused_where_it_stands() {
    for address in ALIKE {
        let long_term = image_of([0; 6], &[long_term_key_of(address, RANDOM_TYPE)], &[]);
        let identity = image_of([0; 6], &[], &[identity_key_of(address, RANDOM_TYPE)]);
        for (images, fault, answer, offsets) in [
            (image_of(address, &[], &[]), ImageFault::StaticAddress, 74, [24, 24]),
            (long_term, ImageFault::Record(2, Reason::RandomAddress), 76, [293, 35]),
            (identity, ImageFault::Record(3, Reason::RandomAddress), 76, [294, 36]),
        ] {
            for (image, offset) in images.iter().zip(offsets) {
                assert_eq!(load(image).err(), Some(fault.at(offset)));
                assert_eq!(Hub::new().load(image), bad_image(answer, offset));
            }
            assert!(!image_loads(images));
        }
    }
}

#[test]
fn any_address_is_taken_as_le_public_or_br_edr() {
    for (address, _) in cases() {
        let (long_term, identity) =
            (long_term_key_of(address, PUBLIC_TYPE), identity_key_of(address, PUBLIC_TYPE));
        assert!(list_loads(0x0013, std::slice::from_ref(&long_term)));
        assert!(list_loads(0x0030, std::slice::from_ref(&identity)));
        assert!(image_loads(image_of(STATIC, &[long_term], &[identity])));
        let mut hub = hub_with(DUAL);
        let link = [&address[..], &link_key(1)[6..]].concat();
        assert_eq!(send(&mut hub, 0x0012, 0, &link_list(&[link])), done(complete(0x0012, 0, 0, &[])));
        assert_eq!(Hub::new().plug(0, &address, 6, 0x1234, DUAL, 1024), done(frame(4, 0, &[])));
    }
}

#[test]
fn a_device_may_have_any_random_address() {
    let mut hub = powered_hub(DUAL);
    for (address, _) in cases() {
        let peer = [&address[..], &[RANDOM_TYPE]].concat();
        for (code, event, rest) in
            [(0x0026, 0x0014, &[][..]), (0x0027, 0x0015, &[]), (0x0033, 0x001A, &[2]), (0x0034, 0x001B, &[])]
        {
            let parameters = [&peer[..], rest].concat();
            let expected = [complete(code, 0, 0, &peer), frame(event, 0, &parameters)].concat();
            assert_eq!(send(&mut hub, code, 0, &parameters), done(expected), "{code:#06x} {address:02X?}");
        }
        let unpair = [&peer[..], &[0]].concat();
        assert_eq!(send(&mut hub, 0x001B, 0, &unpair), refused(complete(0x001B, 0, 6, &peer)));
    }
}

#[test]
fn a_device_of_any_public_address_is_unpaired() {
    let mut hub = powered_hub(DUAL);
    for address in ALIKE {
        send(&mut hub, 0x0013, 0, &le_list(&[long_term_key_of(address, PUBLIC_TYPE)]));
        send(&mut hub, 0x0030, 0, &le_list(&[identity_key_of(address, PUBLIC_TYPE)]));
        let peer = [&address[..], &[PUBLIC_TYPE]].concat();
        let expected = [complete(0x001B, 0, 0, &peer), frame(0x0016, 0, &peer)].concat();
        assert_eq!(send(&mut hub, 0x001B, 0, &[&peer[..], &[0]].concat()), done(expected));
    }
}
