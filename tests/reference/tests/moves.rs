//! Images moved from version 1 to version 2 and back.

mod common;

use common::*;
use reference::{downgrade, upgrade, Hub, Reply};

/// Where the names start in an image of one controller.
const NAMES: usize = 30;

/// A move, as the hub offers it.
type Move = fn(&[u8], usize) -> Reply;

/// Two entries in some tables.
fn tables() -> [Vec<Vec<u8>>; 6] {
    let mut tables = no_tables();
    tables[0] = vec![service(1, 1), service(2, 2)];
    tables[3] = vec![identity_key(1, 1), identity_key(1, 2)];
    tables
}

/// An image of version 1 with these 260 octets of names.
fn first(names: &[u8]) -> Vec<u8> {
    image_of(1, [DUAL, 0x0212], STATIC, names, &tables())
}

/// The image of version 2 for it, with these used parts.
fn second(name: &[u8], short_name: &[u8]) -> Vec<u8> {
    let names = [&[name.len() as u8][..], name, &[short_name.len() as u8], short_name].concat();
    image_of(2, [DUAL, 0x0292], STATIC, &names, &tables())
}

/// A name and a short name with zeros behind them.
fn names(name: &[u8], short_name: &[u8]) -> Vec<u8> {
    let mut octets = vec![0; 260];
    octets[..name.len()].copy_from_slice(name);
    octets[249..249 + short_name.len()].copy_from_slice(short_name);
    octets
}

/// The used parts of names, of every length that matters.
fn parts() -> Vec<(Vec<u8>, Vec<u8>)> {
    let some = |length: usize| (1..=length).map(|k| k as u8).collect::<Vec<u8>>();
    [0, 1, 2, 100, 247, 248].iter().flat_map(|k| [0, 1, 9, 10].map(|j| (some(*k), some(j)))).collect()
}

/// What save after load makes of an image.
fn saved(image: &[u8]) -> Vec<u8> {
    let mut hub = Hub::new();
    assert_eq!(hub.load(image), bare(0));
    common::image(&hub)
}

#[test]
fn clean_names_there_and_back() {
    for (name, short_name) in parts() {
        let (old, new) = (first(&names(&name, &short_name)), second(&name, &short_name));
        assert_eq!(upgrade(&old, 16_014), done(new.clone()));
        assert_eq!(downgrade(&new, 16_014), done(old.clone()));
        assert_eq!(saved(&old), new);
        assert_eq!(saved(&new), new);
    }
}

#[test]
fn what_stands_behind_a_name_is_lost() {
    for (name, short_name) in parts() {
        let clean = names(&name, &short_name);
        let mut dirty = clean.clone();
        dirty[(name.len() + 1).min(248)..248].fill(b't');
        dirty[(249 + short_name.len() + 1).min(259)..259].fill(b't');
        let new = second(&name, &short_name);
        assert_eq!(upgrade(&first(&dirty), 16_014), done(new.clone()));
        assert_eq!(downgrade(&new, 16_014), done(first(&clean)));
        assert_eq!(saved(&first(&dirty)), new);
    }
}

#[test]
fn one_octet_anywhere_behind_a_name() {
    let clean = names(b"north", b"no");
    for place in (6..248).chain(252..259) {
        let mut dirty = first(&clean);
        dirty[NAMES + place] = 1;
        let back = downgrade(&upgrade(&dirty, 16_014).octets, 16_014).octets;
        let differing: Vec<_> = (0..dirty.len()).filter(|at| dirty[*at] != back[*at]).collect();
        assert_eq!(differing, [NAMES + place]);
    }
}

#[test]
fn br_edr_goes_with_the_image() {
    for (supported, flags, moved) in [(DUAL, 0, 0x0080), (CLASSIC, 0x0002, 0x0082), (LE_ONLY, 0x0210, 0x0210)]
    {
        let old = image_of(1, [supported, flags], [0; 6], &[0; 260], &no_tables());
        let new = image_of(2, [supported, moved], [0; 6], &[0; 2], &no_tables());
        assert_eq!(upgrade(&old, 16_014), done(new.clone()));
        assert_eq!(downgrade(&new, 16_014), done(old));
    }
}

/// An image of version 2 of these controllers, each told by supported settings and flags.
fn several(controllers: &[[u32; 2]]) -> Vec<u8> {
    let mut out = vec![0, 0, 0, 0, 2, controllers.len() as u8];
    for (index, words) in controllers.iter().enumerate() {
        let one = image_of(2, *words, [0; 6], &[0; 2], &no_tables());
        out.push(index as u8);
        out.extend(&one[7..]);
    }
    sized(out)
}

#[test]
fn back_is_refused_where_a_supported_br_edr_is_off() {
    let (on, off, le, classic) = ([DUAL, 0x0280], [DUAL, 0x0200], [LE_ONLY, 0x0200], [CLASSIC, 0x0080]);
    for fine in [&[on][..], &[le], &[classic], &[on, le, classic, [DUAL, 0x0080]]] {
        assert_eq!(downgrade(&several(fine), 16_014).answer, 0);
    }
    for beyond in [&[off][..], &[off, on], &[on, off], &[le, classic, on, off], &[off; 4]] {
        assert_eq!(downgrade(&several(beyond), 16_014), bare(8));
        assert_eq!(saved(&several(beyond)), several(beyond));
    }
}

#[test]
fn each_move_takes_its_own_version() {
    for (moved, own, other) in [
        (upgrade as Move, first(&[0; 260]), second(&[], &[])),
        (downgrade, second(&[], &[]), first(&[0; 260])),
    ] {
        assert_eq!(moved(&own, 16_014).answer, 0);
        assert_eq!(moved(&other, 16_014), bad_image(72, 4));
        for version in (0..=255).filter(|version| *version != own[4]) {
            let mut image = own.clone();
            image[4] = version;
            assert_eq!(moved(&image, 16_014), bad_image(72, 4));
        }
    }
}

#[test]
fn a_move_is_refused_where_a_load_is() {
    let names = second(b"north", b"no")[NAMES..NAMES + 9].to_vec();
    for (moved, image, answer, offset) in [
        (upgrade as Move, image_of(1, [DUAL, 0x0212], STATIC, &[7; 260], &no_tables()), 74, NAMES),
        (upgrade, image_of(1, [DUAL, 0x0292], STATIC, &[0; 260], &no_tables()), 74, 20),
        (upgrade, image_of(1, [LE_ONLY, 0], [0; 6], &[0; 260], &no_tables()), 74, 20),
        (downgrade, image_of(2, [DUAL, 0x0012], [0; 6], &names, &no_tables()), 74, 20),
        (downgrade, image_of(2, [LE_ONLY, 0x0280], [0; 6], &names, &no_tables()), 74, 20),
        (downgrade, image_of(2, [DUAL, 0x0280], [0; 6], &[249; 252], &no_tables()), 74, NAMES),
        (downgrade, image_of(2, [DUAL, 0x0280], [0; 6], &[1, 0, 0], &no_tables()), 74, NAMES),
        (downgrade, image_of(2, [DUAL, 0x0280], [0; 6], &[0; 3], &no_tables()), 71, 38),
    ] {
        assert_eq!(Hub::new().load(&image), bad_image(answer, offset));
        assert_eq!(moved(&image, 16_014), bad_image(answer, offset));
    }
}

#[test]
fn rooms_come_before_images_and_images_before_flags() {
    let fine = [(upgrade as Move, first(&[0; 260])), (downgrade, second(&[], &[]))];
    for (moved, image) in fine {
        for room in [0, 1, 1024, 16_013] {
            assert_eq!(moved(&image, room), bare(4));
            assert_eq!(moved(&[], room), bare(4));
        }
        assert_eq!(moved(&image, 16_015), moved(&image, 16_014));
        assert_eq!(moved(&[], 16_014), bad_image(71, 0));
    }
    let off = several(&[[DUAL, 0x0200]]);
    assert_eq!(downgrade(&off, 16_013), bare(4));
    assert_eq!(downgrade(&off, 16_014), bare(8));
    assert_eq!(downgrade(&[&off[..], &[0]].concat(), 16_014), bad_image(71, 0));
    assert_eq!(downgrade(&sized([&off[..], &[0]].concat()), 16_014), bad_image(71, off.len()));
    assert_eq!(downgrade(&sized(off[..off.len() - 1].to_vec()), 16_014), bad_image(71, off.len() - 1));
    let faulty_behind = several(&[[DUAL, 0x0200], [DUAL, 0]]);
    assert_eq!(downgrade(&faulty_behind, 16_014), bad_image(74, 38 + 14));
}
