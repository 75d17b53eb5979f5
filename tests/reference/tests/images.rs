//! Which images load, in both versions, and what a saved one brings back.

mod common;

use common::*;
use reference::image::load;
use reference::reason::{ArgumentFault, ImageFault, Reason};
use reference::Hub;

/// Where the first controller's fields start.
const INDEX: usize = 6;
const ADDRESS: usize = 7;
const SUPPORTED: usize = 16;
const FLAGS: usize = 20;
const STATIC_AT: usize = 24;
const NAMES: usize = 30;
/// The versions.
const VERSIONS: [u8; 2] = [1, 2];

/// Where the tables start in an image of a version without a name.
fn tables_at(version: u8) -> usize {
    NAMES + if version == 1 { 260 } else { 2 }
}

/// Two entries in each table.
fn some_tables() -> [Vec<Vec<u8>>; 6] {
    [
        vec![service(1, 1), service(2, 2)],
        vec![link_key(1), link_key(2)],
        vec![long_term_key(1, 2, 0), long_term_key(1, 2, 1)],
        vec![identity_key(1, 1), identity_key(1, 2)],
        vec![peer(1, 0), peer(1, 2)],
        vec![[peer(1, 0), vec![1]].concat(), [peer(1, 1), vec![2]].concat()],
    ]
}

/// A dual-mode controller with entries in each table.
fn good(version: u8) -> Vec<u8> {
    image_in(version, DUAL, 0x0212, STATIC, &some_tables())
}

/// An image of version 2 with these names as they are written there, and nothing else.
fn named(names: &[u8]) -> Vec<u8> {
    image_of(2, [DUAL, 0x0280], [0; 6], names, &no_tables())
}

/// The image is refused for this reason, whatever the place, and the hub stays as it was.
fn refuse(image: &[u8], fault: ImageFault) {
    let found = load(image).expect_err("the image is refused");
    assert_eq!(found.fault, fault);
    let mut hub = timed_hub(9);
    let before = hub.clone();
    assert_eq!(hub.load(image), bad_image(fault.answer(), found.offset));
    assert_eq!(hub, before);
}

/// The good image of a version with octets from a place on replaced.
fn damaged(version: u8, at: usize, octets: &[u8]) -> Vec<u8> {
    let mut image = good(version);
    image[at..at + octets.len()].copy_from_slice(octets);
    image
}

#[test]
fn good_images_load_and_are_saved_in_version_2() {
    let images = |version| {
        [
            good(version),
            image_in(version, CLASSIC, 0x0012, [0; 6], &no_tables()),
            image_in(version, LE_ONLY, 0x0200, STATIC, &no_tables()),
            image_in(version, 0xFFFF, 0, [0; 6], &no_tables()),
        ]
    };
    for (first, second) in images(1).into_iter().zip(images(2)) {
        for image in [&first, &second] {
            let mut hub = Hub::new();
            assert_eq!(hub.load(image), bare(0));
            assert_eq!(common::image(&hub), second);
        }
    }
}

#[test]
fn head_rules() {
    refuse(&[], ImageFault::Short);
    for version in [0, 3, 0x10, 0xFF] {
        refuse(&[0, 0, 0, 6, version, 0], ImageFault::Version);
    }
    for version in VERSIONS {
        refuse(&[0, 0, 0, 5, version], ImageFault::Short);
        refuse(&[0, 0, 0, 7, version, 0], ImageFault::Length);
        refuse(&[6, 0, 0, 0, version, 0], ImageFault::Length);
        refuse(&[0, 0, 0, 6, version, 1], ImageFault::Short);
        refuse(&[0, 0, 0, 6, version, 5], ImageFault::ControllerCount);
        refuse(&[0, 0, 0, 7, version, 0, 0], ImageFault::LeftOver);
        refuse(&damaged(version, 3, &[0]), ImageFault::Length);
        let whole = good(version);
        refuse(&sized([&whole[..], &[0]].concat()), ImageFault::LeftOver);
        refuse(&sized(whole[..whole.len() - 1].to_vec()), ImageFault::Short);
        refuse(&[&whole[..], &[0]].concat(), ImageFault::Length);
        refuse(&damaged(version, 5, &[0]), ImageFault::LeftOver);
        refuse(&damaged(version, 5, &[2]), ImageFault::Short);
        assert!(load(&damaged(version, 4, &[3 - version])).is_err());
    }
}

#[test]
fn every_cut_is_refused() {
    let named = image_of(2, [DUAL, 0x0280], STATIC, b"\x05north\x01n", &some_tables());
    for image in [good(1), good(2), named] {
        for length in 4..image.len() {
            assert!(load(&sized(image[..length].to_vec())).is_err());
        }
        assert!(load(&image).is_ok());
    }
}

/// Several copies of the good controller under these indexes.
fn with_indexes(version: u8, indexes: &[u8]) -> Vec<u8> {
    let mut out = vec![0, 0, 0, 0, version, indexes.len() as u8];
    for index in indexes {
        let mut controller = good(version)[INDEX..].to_vec();
        controller[0] = *index;
        out.extend(controller);
    }
    sized(out)
}

#[test]
fn indexes_ascend() {
    for version in VERSIONS {
        for fine in [&[0][..], &[3], &[0, 3], &[1, 2, 3], &[0, 1, 2, 3]] {
            assert!(load(&with_indexes(version, fine)).is_ok());
        }
        for wrong in [&[4][..], &[0xFF], &[1, 1], &[2, 1], &[0, 1, 3, 2], &[0, 1, 2, 4]] {
            refuse(&with_indexes(version, wrong), ImageFault::Index);
        }
        refuse(&with_indexes(version, &[0, 1, 2, 3, 4]), ImageFault::ControllerCount);
    }
}

#[test]
fn plug_rules() {
    for version in VERSIONS {
        let refuse =
            |at, octets: &[u8], fault| refuse(&damaged(version, at, octets), ImageFault::Plug(fault));
        refuse(ADDRESS, &[0; 6], ArgumentFault::NoPublicAddress);
        refuse(SUPPORTED, &[0, 1, 2, 0x80], ArgumentFault::HighSettings);
        refuse(SUPPORTED, &[0, 0, 0xFD, 0x7F], ArgumentFault::NoTransport);
        let mut le = image_in(version, LE_ONLY, 0x0200, [0; 6], &no_tables());
        le[ADDRESS..ADDRESS + 6].fill(0);
        assert!(load(&le).is_ok());
    }
}

#[test]
fn flags_that_no_version_has() {
    for version in VERSIONS {
        for bit in (0..32).filter(|bit| ![1, 4, 7, 9].contains(bit)) {
            let flags = 0x0200u32 | 1 << bit;
            refuse(&damaged(version, FLAGS, &flags.to_be_bytes()), ImageFault::Flags);
        }
        refuse(&image_in(version, CLASSIC, 0x0200, [0; 6], &no_tables()), ImageFault::LowEnergyOn);
        refuse(&image_in(version, LE_ONLY, 0x0012, [0; 6], &no_tables()), ImageFault::BothOff);
    }
}

/// A controller of this support with these flags, and no more.
fn flagged(version: u8, supported: u32, flags: u32) -> Vec<u8> {
    let names = if version == 1 { vec![0; 260] } else { vec![0; 2] };
    image_of(version, [supported, flags], [0; 6], &names, &no_tables())
}

#[test]
fn flag_bit_7_is_of_version_2() {
    for kept in [0, 0x0002, 0x0010, 0x0012] {
        assert!(load(&flagged(1, DUAL, kept)).is_ok());
        assert!(load(&flagged(1, CLASSIC, kept)).is_ok());
        for supported in [DUAL, CLASSIC, LE_ONLY] {
            refuse(&flagged(1, supported, kept | 0x0280), ImageFault::Flags);
        }
        for flags in [0x0080, 0x0200, 0x0280] {
            assert!(load(&flagged(2, DUAL, kept | flags)).is_ok());
        }
        assert!(load(&flagged(2, CLASSIC, kept | 0x0080)).is_ok());
        assert!(load(&flagged(2, LE_ONLY, kept | 0x0200)).is_ok());
        for flags in [0x0080, 0x0280] {
            refuse(&flagged(2, LE_ONLY, kept | flags), ImageFault::BrEdrOn);
        }
        for flags in [0x0200, 0x0280] {
            refuse(&flagged(2, CLASSIC, kept | flags), ImageFault::LowEnergyOn);
        }
        for supported in [DUAL, CLASSIC, LE_ONLY] {
            refuse(&flagged(2, supported, kept), ImageFault::BothOff);
        }
    }
}

#[test]
fn static_address_rules() {
    for version in VERSIONS {
        refuse(&damaged(version, STATIC_AT + 5, &[0xBF]), ImageFault::StaticAddress);
        refuse(&damaged(version, STATIC_AT, &[1, 0, 0, 0, 0, 0]), ImageFault::StaticAddress);
        refuse(&image_in(version, CLASSIC, 0, STATIC, &no_tables()), ImageFault::StaticUnsupported);
    }
}

#[test]
fn names_of_version_1_end_in_zero() {
    refuse(&damaged(1, NAMES + 248, &[1]), ImageFault::NameEnd(0));
    refuse(&damaged(1, NAMES + 259, &[1]), ImageFault::NameEnd(1));
    assert!(load(&damaged(1, NAMES, &[0, 7, 0, 7])).is_ok());
    assert!(load(&damaged(1, NAMES + 247, &[7])).is_ok());
}

/// A length octet and that many octets.
fn counted(length: u8) -> Vec<u8> {
    [vec![length], vec![b'n'; length.into()]].concat()
}

#[test]
fn names_of_version_2_have_248_and_10_octets_at_most() {
    for length in 0..=255 {
        let (name, short_name) = (named(&[counted(length), vec![0]].concat()), [vec![0], counted(length)]);
        let short_name = named(&short_name.concat());
        for (image, most, which) in [(name, 248, 0), (short_name, 10, 1)] {
            if length <= most {
                assert!(load(&image).is_ok());
            } else {
                refuse(&image, ImageFault::NameLength(which));
            }
        }
    }
}

#[test]
fn names_of_version_2_have_no_zero() {
    for (which, most) in [(0, 248), (1, 10)] {
        for (length, place) in
            (1..=most).flat_map(|length| [(length, 0), (length, length / 2), (length, length - 1)])
        {
            let mut name = counted(length);
            name[1 + usize::from(place)] = 0;
            let names = if which == 0 { [name, vec![0]] } else { [vec![0], name] };
            refuse(&named(&names.concat()), ImageFault::NameZero(which));
        }
    }
}

#[test]
fn names_of_version_2_are_whole() {
    let cut = |names: &[u8]| sized(named(names)[..NAMES + names.len()].to_vec());
    refuse(&cut(&[]), ImageFault::Short);
    refuse(&cut(&[5, 1, 1, 1, 1]), ImageFault::Short);
    refuse(&cut(&[249, 1, 1]), ImageFault::Short);
    refuse(&cut(&[1, 1]), ImageFault::Short);
    refuse(&cut(&[1, 1, 3, 1, 1]), ImageFault::Short);
    refuse(&named(&[1, 1, 1]), ImageFault::NameZero(1));
    assert!(load(&named(&[1, 1, 1, 1])).is_ok());
}

#[test]
fn names_of_version_2_load_with_zeros_behind_them() {
    let mut hub = Hub::new();
    assert_eq!(hub.load(&named(b"\x05north\x02no")), bare(0));
    let names = &hub.state().controller(1).expect("index 1 is present").local_name;
    assert_eq!(names.octets(), [&b"north"[..], &[0; 244], b"no", &[0; 9]].concat());
}

#[test]
fn table_counts() {
    for version in VERSIONS {
        refuse(&damaged(version, tables_at(version), &[33]), ImageFault::TableCount(0));
        for (place, full) in some_tables().iter().enumerate() {
            let mut tables = no_tables();
            tables[place] = (0..33).map(|_| full[0].clone()).collect();
            let image = image_in(version, DUAL, 0, [0; 6], &tables);
            refuse(&image, ImageFault::TableCount(place as u8));
        }
    }
}

/// These tables are refused for this fault in both versions.
fn refuse_tables(tables: &[Vec<Vec<u8>>; 6], fault: ImageFault) {
    for version in VERSIONS {
        refuse(&image_in(version, DUAL, 0, [0; 6], tables), fault);
    }
}

/// The good tables with one octet of the second record changed.
fn refuse_record(place: usize, at: usize, value: u8, reason: Reason) {
    let mut tables = some_tables();
    tables[place][1][at] = value;
    refuse_tables(&tables, ImageFault::Record(place as u8, reason));
}

#[test]
fn record_rules() {
    refuse_record(1, 6, 1, Reason::BrEdrType);
    refuse_record(1, 7, 9, Reason::LinkKeyType);
    refuse_record(2, 6, 0, Reason::LowEnergyType);
    refuse_record(2, 6, 3, Reason::LowEnergyType);
    refuse_record(2, 5, 0xBF, Reason::RandomAddress);
    refuse_record(2, 7, 5, Reason::LongTermKeyType);
    refuse_record(2, 8, 2, Reason::Master);
    refuse_record(2, 9, 6, Reason::KeySize);
    refuse_record(2, 9, 17, Reason::KeySize);
    refuse_record(3, 6, 0, Reason::LowEnergyType);
    refuse_record(3, 5, 0x3F, Reason::RandomAddress);
    refuse_record(4, 6, 3, Reason::AddressType);
    refuse_record(5, 6, 3, Reason::AddressType);
    refuse_record(5, 6, 0, Reason::ActionForType);
    refuse_record(5, 7, 3, Reason::Action);
    for (place, length) in [(0, 16), (4, 6), (5, 6)] {
        let mut tables = some_tables();
        tables[place][1][..length].fill(0);
        let reason = if place == 0 { Reason::ZeroUuid } else { Reason::ZeroAddress };
        refuse_tables(&tables, ImageFault::Record(place as u8, reason));
    }
}

#[test]
fn repeats() {
    for place in 0..6 {
        let mut tables = some_tables();
        let mut again = tables[place][0].clone();
        match place {
            0 => again[16] ^= 1,
            1..=3 => *again.last_mut().expect("octets") ^= 1,
            _ => {}
        }
        tables[place].push(again);
        refuse_tables(&tables, ImageFault::Repeated(place as u8));
    }
}

#[test]
fn key_tables_need_support() {
    let supports = [(1, LE_ONLY, 0x0200), (2, CLASSIC, 0), (3, CLASSIC, 0)];
    for version in VERSIONS {
        for (place, supported, flags) in supports {
            let mut tables = no_tables();
            tables[place] = some_tables()[place].clone();
            let image = image_in(version, supported, flags, [0; 6], &tables);
            refuse(&image, ImageFault::RecordUnsupported(place as u8));
        }
        let mut tables = no_tables();
        for place in [0, 4, 5] {
            tables[place] = some_tables()[place].clone();
        }
        assert!(load(&image_in(version, LE_ONLY, 0x0200, [0; 6], &tables)).is_ok());
        assert!(load(&image_in(version, CLASSIC, 0, [0; 6], &tables)).is_ok());
    }
}

#[test]
fn link_keys_go_by_support_and_not_by_flag_bit_7() {
    let image = image_of(2, [DUAL, 0x0200], STATIC, &[0; 2], &some_tables());
    let mut hub = Hub::new();
    assert_eq!(hub.load(&image), bare(0));
    assert_eq!(common::image(&hub), image);
    assert_eq!(settings(&mut hub, 1), 0x8200);
}

#[test]
fn loading_a_saved_image_closes_up_and_clears() {
    let mut hub = timed_hub(60);
    hub.clock(7, 1024);
    send(&mut hub, 0x0009, 0, &[1]);
    for k in 1..=3 {
        send(&mut hub, 0x0010, 0, &service(k, k));
    }
    send(&mut hub, 0x0011, 0, &[1; 16]);
    assert_eq!(send(&mut hub, 0x000D, 0, &[0]), bare(1));
    let saved = image(&hub);
    let mut again = Hub::new();
    assert_eq!(again.load(&saved), bare(0));
    assert_eq!(image(&again), saved);
    assert_eq!(settings(&mut again, 0), 0x0292);
    assert_eq!(again.state().clock, 0);
    assert!(again.open(0).is_none());
    let mut expected = hub_with(DUAL);
    send(&mut expected, 0x0007, 0, &[1]);
    send(&mut expected, 0x0009, 0, &[1]);
    send(&mut expected, 0x0010, 0, &service(2, 2));
    send(&mut expected, 0x0010, 0, &service(3, 3));
    assert_eq!(again, expected);
}

#[test]
fn a_saved_image_keeps_no_octet_behind_the_end_of_a_name() {
    let mut hub = hub_with(DUAL);
    let mut names = [b'n'; 260];
    for end in [3, 248, 249, 259] {
        names[end] = 0;
    }
    assert_eq!(send(&mut hub, 0x000F, 0, &names).answer, 0);
    let mut again = Hub::new();
    assert_eq!(again.load(&image(&hub)), bare(0));
    let loaded = &again.state().controller(0).expect("index 0 is present").local_name;
    assert_eq!(loaded.octets(), [&b"nnn"[..], &[0; 257]].concat());
    assert_eq!(again.save(16_014), hub.save(16_014));
}
