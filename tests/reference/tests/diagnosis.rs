//! What is wrong with an image, and where: each of the seven numbers, in the order of the file.

mod common;

use common::*;
use reference::{downgrade, upgrade, Hub};

/// Where the fields of the only controller start.
const INDEX: usize = 6;
const ADDRESS: usize = 7;
const SUPPORTED: usize = 16;
const FLAGS: usize = 20;
const STATIC_AT: usize = 24;
const NAMES: usize = 30;
/// The versions.
const VERSIONS: [u8; 2] = [1, 2];
/// The octets of a record of each table.
const LENGTHS: [usize; 6] = [17, 25, 36, 23, 7, 8];

/// Three entries in each table.
fn tables() -> [Vec<Vec<u8>>; 6] {
    [
        [1, 2, 3].map(|k| service(k, k)).to_vec(),
        [1, 2, 3].map(link_key).to_vec(),
        vec![long_term_key(1, 2, 0), long_term_key(1, 2, 1), long_term_key(1, 1, 0)],
        vec![identity_key(1, 1), identity_key(1, 2), identity_key(2, 1)],
        vec![peer(1, 0), peer(1, 2), peer(1, 1)],
        [(1, 0, 1), (1, 1, 2), (1, 2, 0)]
            .map(|(k, kind, action)| [peer(k, kind), vec![action]].concat())
            .to_vec(),
    ]
}

/// A dual-mode controller in an image of a version, with these tables.
fn image_with(version: u8, tables: &[Vec<Vec<u8>>; 6]) -> Vec<u8> {
    image_in(version, DUAL, 0x0212, STATIC, tables)
}

/// An image that is fine.
fn good(version: u8) -> Vec<u8> {
    image_with(version, &tables())
}

/// The same with octets from a place on replaced.
fn damaged(version: u8, at: usize, octets: &[u8]) -> Vec<u8> {
    let mut image = good(version);
    image[at..at + octets.len()].copy_from_slice(octets);
    image
}

/// Where the first table of an image without a name starts.
fn tables_at(version: u8) -> usize {
    NAMES + if version == 1 { 260 } else { 2 }
}

/// Where the count of a table stands, behind the tables before it.
fn count_at(version: u8, tables: &[Vec<Vec<u8>>; 6], table: usize) -> usize {
    let before = tables[..table].iter().map(|records| 1 + records.concat().len());
    tables_at(version) + before.sum::<usize>()
}

/// Where a record of a table begins.
fn record_at(version: u8, tables: &[Vec<Vec<u8>>; 6], table: usize, record: usize) -> usize {
    count_at(version, tables, table) + 1 + record * LENGTHS[table]
}

/// Load and the move from the image's own version tell this of it; the other move tells its version.
fn tells(image: &[u8], answer: u8, offset: usize) {
    let told = bad_image(answer, offset);
    let mut hub = timed_hub(9);
    let before = hub.clone();
    assert_eq!(hub.load(image), told, "{image:02X?}");
    assert_eq!(hub, before);
    let (up, down) = (upgrade(image, 16_014), downgrade(image, 16_014));
    let other = if image.len() < 5 { told.clone() } else { bad_image(72, 4) };
    match image.get(4) {
        Some(2) => assert_eq!((up, down), (other, told)),
        _ => assert_eq!((up, down), (told, other)),
    }
}

/// Tables with a change are told this in both versions, of a record.
fn tells_record(tables: &[Vec<Vec<u8>>; 6], answer: u8, table: usize, record: usize) {
    for version in VERSIONS {
        tells(&image_with(version, tables), answer, record_at(version, tables, table, record));
    }
}

#[test]
fn fewer_than_five_octets() {
    for length in 0..5 {
        for octet in [0, 1, 2, 0xFF] {
            tells(&vec![octet; length], 71, length);
        }
    }
}

#[test]
fn the_version_comes_before_the_length_field() {
    for version in (0..=255).filter(|version| !VERSIONS.contains(version)) {
        tells(&[0, 0, 0, 6, version, 0], 72, 4);
        tells(&[0, 0, 0, 9, version, 0], 72, 4);
        tells(&[0xFF, 0xFF, 0xFF, 0xFF, version], 72, 4);
        tells(&damaged(1, 4, &[version]), 72, 4);
    }
    assert_eq!(upgrade(&[0, 0, 0, 9, 2, 0], 16_014), bad_image(72, 4));
    assert_eq!(downgrade(&[0, 0, 0, 9, 1], 16_014), bad_image(72, 4));
}

#[test]
fn the_length_field_comes_before_what_follows() {
    for version in VERSIONS {
        for length in [0u32, 4, 6, 0x0500, 0x0500_0000, 0x0100_0005, u32::MAX] {
            tells(&[&length.to_be_bytes()[..], &[version]].concat(), 71, 0);
        }
        tells(&[0, 0, 0, 5, version, 0], 71, 0);
        tells(&[0, 0, 0, 7, version, 5], 71, 0);
        tells(&[6, 0, 0, 0, version, 0], 71, 0);
        for at in 0..4 {
            tells(&damaged(version, at, &[0x7F]), 71, 0);
        }
        tells(&[&good(version)[..], &[0]].concat(), 71, 0);
    }
}

#[test]
fn the_controller_count() {
    for version in VERSIONS {
        tells(&[0, 0, 0, 5, version], 71, 5);
        for count in 5..=255 {
            tells(&[0, 0, 0, 6, version, count], 73, 5);
            tells(&damaged(version, 5, &[count]), 73, 5);
        }
        for count in 1..=4 {
            tells(&[0, 0, 0, 6, version, count], 71, 6);
        }
        for count in 2..=4 {
            let image = damaged(version, 5, &[count]);
            tells(&image, 71, image.len());
        }
    }
}

/// Several copies of the good controller under these indexes, and where each begins.
fn with_indexes(version: u8, indexes: &[u8]) -> (Vec<u8>, Vec<usize>) {
    let (mut out, mut places) = (vec![0, 0, 0, 0, version, indexes.len() as u8], Vec::new());
    for index in indexes {
        places.push(out.len());
        out.push(*index);
        out.extend(&good(version)[INDEX + 1..]);
    }
    (sized(out), places)
}

#[test]
fn an_index_above_3_or_not_above_the_one_before() {
    for version in VERSIONS {
        for index in 4..=255 {
            tells(&damaged(version, INDEX, &[index]), 73, INDEX);
        }
        for (indexes, wrong) in [
            (&[1, 1][..], 1),
            (&[2, 1], 1),
            (&[3, 0, 1, 2], 1),
            (&[0, 1, 3, 2], 3),
            (&[0, 1, 3, 3], 3),
            (&[0, 1, 2, 4], 3),
            (&[0, 2, 1, 4], 2),
            (&[0, 9, 1, 1], 1),
        ] {
            let (image, places) = with_indexes(version, indexes);
            tells(&image, 73, places[wrong]);
        }
    }
}

#[test]
fn fields_of_a_controller() {
    for version in VERSIONS {
        for bit in 16..32 {
            tells(&damaged(version, SUPPORTED, &(0x0280_u32 | 1 << bit).to_be_bytes()), 74, SUPPORTED);
        }
        tells(&damaged(version, SUPPORTED, &[0, 0, 0xFD, 0x7F]), 74, SUPPORTED);
        for bit in (0..32).filter(|bit| ![1, 4, 7, 9].contains(bit)) {
            tells(&damaged(version, FLAGS, &(0x0200_u32 | 1 << bit).to_be_bytes()), 74, FLAGS);
        }
        for wrong in [[9, 8, 7, 6, 5, 0xBF], [1, 0, 0, 0, 0, 0], [0, 0, 0, 0, 0, 0xC0], [0xFF; 6]] {
            tells(&damaged(version, STATIC_AT, &wrong), 74, STATIC_AT);
        }
    }
    tells(&damaged(1, FLAGS, &[0, 0, 2, 0x80]), 74, FLAGS);
    tells(&damaged(2, FLAGS, &[0, 0, 0, 0x12]), 74, FLAGS);
    tells(&damaged(1, NAMES + 248, &[1]), 74, NAMES);
    tells(&damaged(1, NAMES + 259, &[1]), 74, NAMES + 249);
}

#[test]
fn of_clashing_fields_the_later_one() {
    for version in VERSIONS {
        tells(&damaged(version, ADDRESS, &[0; 6]), 74, SUPPORTED);
        tells(&image_in(version, CLASSIC, 0x0200, [0; 6], &no_tables()), 74, FLAGS);
        tells(&image_in(version, LE_ONLY, 0x0012, [0; 6], &no_tables()), 74, FLAGS);
        tells(&image_in(version, CLASSIC, 0, STATIC, &no_tables()), 74, STATIC_AT);
        for (table, supported, flags) in [(1, LE_ONLY, 0x0200), (2, CLASSIC, 0), (3, CLASSIC, 0)] {
            let mut kept = no_tables();
            kept[table] = tables()[table].clone();
            let image = image_in(version, supported, flags, [0; 6], &kept);
            tells(&image, 76, record_at(version, &kept, table, 0));
        }
    }
    for (supported, flags) in [(LE_ONLY, 0x0280), (DUAL, 0), (CLASSIC, 0)] {
        tells(&image_of(2, [supported, flags], [0; 6], &[0; 2], &no_tables()), 74, FLAGS);
    }
}

/// A controller of version 2 with these names as they are written there, cut behind them or not.
fn named(names: &[u8], cut: bool) -> Vec<u8> {
    let image = image_of(2, [DUAL, 0x0280], [0; 6], names, &no_tables());
    sized(image[..if cut { NAMES + names.len() } else { image.len() }].to_vec())
}

#[test]
fn a_name_of_version_2_is_one_field() {
    let counted = |length: u8| [vec![length], vec![b'n'; length.into()]].concat();
    for length in 249..=255 {
        tells(&named(&[counted(length), vec![0]].concat(), false), 74, NAMES);
    }
    for length in 11..=255 {
        tells(&named(&[counted(3), counted(length)].concat(), false), 74, NAMES + 4);
    }
    for place in 1..=3 {
        let mut name = counted(3);
        name[place] = 0;
        tells(&named(&[name.clone(), vec![0]].concat(), false), 74, NAMES);
        tells(&named(&[counted(7), name].concat(), false), 74, NAMES + 8);
    }
    for (names, end) in [
        (&[][..], 0),
        (&[5, 1, 1, 1, 1], 5),
        (&[5, 0, 0, 0, 0], 5),
        (&[249, 1, 1], 3),
        (&[255, 0], 2),
        (&[1, 1], 2),
        (&[1, 1, 3, 1, 1], 5),
        (&[0, 11, 0], 3),
    ] {
        tells(&named(names, true), 71, NAMES + end);
    }
    tells(&named(&[1, 0], true), 74, NAMES);
}

#[test]
fn cut_anywhere_the_end_is_at_fault() {
    let named = image_of(2, [DUAL, 0x0280], STATIC, b"\x05north\x01n", &tables());
    for image in [good(1), good(2), named, with_indexes(1, &[0, 3]).0, with_indexes(2, &[1, 2]).0] {
        for length in 0..image.len() {
            let cut = image[..length].to_vec();
            tells(&cut, 71, if length < 5 { length } else { 0 });
            if length >= 4 {
                tells(&sized(cut), 71, length);
            }
        }
    }
}

#[test]
fn whole_comes_before_right() {
    for version in VERSIONS {
        for (at, octets) in [(SUPPORTED, &[0xFF; 3][..]), (FLAGS, &[0xFF; 3]), (STATIC_AT, &[0xFF; 5])] {
            let mut image = damaged(version, at, octets);
            image.truncate(at + octets.len());
            let end = image.len();
            tells(&sized(image), 71, end);
        }
        let mut zero = tables();
        zero[0][2].fill(0);
        let at = record_at(version, &zero, 0, 2);
        let image = image_with(version, &zero);
        tells(&sized(image[..at + 16].to_vec()), 71, at + 16);
        tells(&sized(image[..at + 17].to_vec()), 76, at);
        let counted = damaged(version, tables_at(version), &[33])[..tables_at(version) + 1].to_vec();
        tells(&sized(counted), 75, tables_at(version));
    }
    tells(&sized(damaged(1, NAMES + 247, &[1])[..NAMES + 248].to_vec()), 71, NAMES + 248);
    tells(&sized(damaged(1, NAMES + 248, &[1])[..NAMES + 249].to_vec()), 74, NAMES);
}

#[test]
fn a_count_above_32() {
    for version in VERSIONS {
        for table in 0..6 {
            for count in 33..=255 {
                let at = count_at(version, &tables(), table);
                tells(&damaged(version, at, &[count]), 75, at);
            }
            let mut more = no_tables();
            more[table] = vec![tables()[table][0].clone(); 33];
            tells(&image_with(version, &more), 75, count_at(version, &more, table));
        }
    }
}

#[test]
fn a_record_by_itself() {
    for (table, at, value) in [
        (1, 6, 1),
        (1, 7, 9),
        (2, 6, 0),
        (2, 6, 3),
        (2, 7, 5),
        (2, 8, 2),
        (2, 9, 6),
        (2, 9, 17),
        (3, 6, 0),
        (4, 6, 3),
        (5, 6, 3),
        (5, 7, 3),
    ] {
        for record in 0..3 {
            let mut wrong = tables();
            wrong[table][record][at] = value;
            tells_record(&wrong, 76, table, record);
        }
    }
    for (table, length) in [(0, 16), (4, 6), (5, 6)] {
        for record in 0..3 {
            let mut wrong = tables();
            wrong[table][record][..length].fill(0);
            tells_record(&wrong, 76, table, record);
        }
    }
    let mut clash = tables();
    clash[5][0][7] = 2;
    tells_record(&clash, 76, 5, 0);
    let mut random = tables();
    random[2][1][5] = 0xBF;
    tells_record(&random, 76, 2, 1);
}

/// The record of a table that repeats another in what names it, and differs in the rest where it has any.
fn again(table: usize, record: &[u8]) -> Vec<u8> {
    let mut again = record.to_vec();
    match table {
        0..=3 => *again.last_mut().expect("octets") ^= 1,
        5 if again[6] != 0 => again[7] = (again[7] + 1) % 3,
        _ => {}
    }
    again
}

#[test]
fn of_repeated_records_the_later_one() {
    for table in 0..6 {
        for (order, repeated) in
            [(&[0, 0][..], 1), (&[0, 1, 0], 2), (&[0, 1, 2, 1], 3), (&[0, 1, 1, 0], 2), (&[1, 1, 1], 1)]
        {
            let mut wrong = tables();
            let records = tables()[table].clone();
            wrong[table] = order.iter().map(|k| records[*k].clone()).collect();
            let earlier = wrong[table][repeated].clone();
            wrong[table][repeated] = again(table, &earlier);
            tells_record(&wrong, 77, table, repeated);
        }
    }
}

#[test]
fn a_record_by_itself_before_its_repeat() {
    for (table, at) in [(1, 7), (2, 9), (5, 7)] {
        let records = tables()[table].clone();
        let mut bad = records[0].clone();
        bad[at] = 0x30;
        for (list, answer, record) in [
            (vec![records[0].clone(), bad.clone()], 76, 1),
            (vec![records[0].clone(), records[0].clone(), bad.clone()], 77, 1),
            (vec![records[1].clone(), bad.clone(), records[1].clone()], 76, 1),
            (vec![bad.clone(), bad.clone()], 76, 0),
        ] {
            let mut wrong = tables();
            wrong[table] = list;
            tells_record(&wrong, answer, table, record);
        }
    }
    let mut zeros = tables();
    zeros[0] = vec![vec![0; 17], vec![0; 17]];
    tells_record(&zeros, 76, 0, 0);
    let mut kept = no_tables();
    kept[1] = vec![link_key(1), link_key(1)];
    for version in VERSIONS {
        let image = image_in(version, LE_ONLY, 0x0200, [0; 6], &kept);
        tells(&image, 76, record_at(version, &kept, 1, 0));
    }
}

#[test]
fn octets_left_over() {
    for version in VERSIONS {
        for more in [1, 2, 300, 70_000] {
            tells(&sized([&[0, 0, 0, 0, version, 0][..], &vec![0; more]].concat()), 71, 6);
            let whole = good(version);
            tells(&sized([&whole[..], &vec![1; more]].concat()), 71, whole.len());
        }
        let (mut image, places) = with_indexes(version, &[0, 2, 3]);
        image[5] = 2;
        tells(&image, 71, places[2]);
    }
}

#[test]
fn the_first_of_two_faults() {
    for version in VERSIONS {
        let all = tables();
        let record = |table, at| record_at(version, &all, table, 1) + at;
        let faults = [
            (5, 9, 73, 5),
            (INDEX, 4, 73, INDEX),
            (SUPPORTED, 1, 74, SUPPORTED),
            (FLAGS, 1, 74, FLAGS),
            (STATIC_AT + 5, 0x0F, 74, STATIC_AT),
            (count_at(version, &all, 0), 40, 75, count_at(version, &all, 0)),
            (record(1, 6), 1, 76, record(1, 0)),
            (record(2, 9), 1, 76, record(2, 0)),
            (record(3, 6), 9, 76, record(3, 0)),
            (record(4, 6), 0, 77, record(4, 0)),
            (count_at(version, &all, 5), 99, 75, count_at(version, &all, 5)),
        ];
        for (place, (at, value, answer, offset)) in faults.iter().enumerate() {
            let mut image = damaged(version, *at, &[*value]);
            tells(&image, *answer, *offset);
            for (at, value, ..) in &faults[place + 1..] {
                image[*at] = *value;
                tells(&image, *answer, *offset);
            }
        }
    }
}

#[test]
fn other_answers_have_no_offset() {
    for version in VERSIONS {
        assert_eq!(Hub::new().load(&good(version)), bare(0));
        for moved in [upgrade, downgrade] {
            assert_eq!(moved(&damaged(version, INDEX, &[9]), 16_013), bare(4));
        }
    }
    let off = image_of(2, [DUAL, 0x0200], [0; 6], &[0; 2], &no_tables());
    assert_eq!(downgrade(&off, 16_014), bare(8));
}
