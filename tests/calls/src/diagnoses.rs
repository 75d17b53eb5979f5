//! What random images are refused for, and where: each number for load and for each move, each thing that can be at fault, what stands
//! before what.

use crate::records::KINDS;
use crate::situations::See;
use crate::things::{parts, Part, Thing};
use reference::codes::{answer, SLOTS};
use reference::image::load;
use reference::reason::{Diagnosis, ImageFault};
use reference::records::{Device, IdentityKey, LinkKey, LongTermKey, Peer, Record, Service};
use reference::{downgrade, upgrade, Reply};

/// The names of the seven numbers as the answers of a call.
macro_rules! numbers {
    ($call:literal) => {
        [
            concat!($call, " answered 71"),
            concat!($call, " answered 72"),
            concat!($call, " answered 73"),
            concat!($call, " answered 74"),
            concat!($call, " answered 75"),
            concat!($call, " answered 76"),
            concat!($call, " answered 77"),
        ]
    };
}

/// The names of a number in each table.
macro_rules! tables {
    ($number:literal) => {
        [
            concat!($number, " in the UUIDs"),
            concat!($number, " in the link keys"),
            concat!($number, " in the long term keys"),
            concat!($number, " in the identity resolving keys"),
            concat!($number, " in the blocked devices"),
            concat!($number, " in the action list"),
        ]
    };
}

/// The seven numbers as the answers of the moves.
const MOVES: [[&str; 7]; 2] = [numbers!("upgrade"), numbers!("downgrade")];
/// The same of load, by the version octet: 1, 2 and any other.
const LOADS: [[&str; 7]; 3] = [
    numbers!("load of version 1"),
    numbers!("load of version 2"),
    numbers!("load of another version or none"),
];
/// The fields of a controller, in version 1 and in version 2.
const FIELDS: [[&str; 5]; 2] = [
    [
        "74 at the supported settings of version 1",
        "74 at the flags of version 1",
        "74 at the static address of version 1",
        "74 at the name of version 1",
        "74 at the short name of version 1",
    ],
    [
        "74 at the supported settings of version 2",
        "74 at the flags of version 2",
        "74 at the static address of version 2",
        "74 at the name of version 2",
        "74 at the short name of version 2",
    ],
];
/// A count, a record by itself, a key without support, one that is repeated.
const COUNTS: [&str; 6] = tables!("75");
const RECORDS: [&str; 6] = tables!("76");
const UNSUPPORTED: [&str; 6] = tables!("76 without support");
const REPEATED: [&str; 6] = tables!("77");
/// A record that is wrong by itself and repeated too, where there can be one.
const BEFORE_REPEAT: [&str; 6] = tables!("76 before a repeat");
/// The parts that an image ends in.
const CUT: [&str; 10] = [
    "cut before the controller count",
    "cut before an index",
    "cut in what plug gave",
    "cut in the flags",
    "cut in a static address",
    "cut in a name",
    "cut in a short name",
    "cut before the count of a table",
    "cut before a record",
    "cut in a record",
];

/// An image with what load and both moves answer, room aside.
pub fn at_image(image: &[u8], see: &mut See) {
    let version = image.get(4).copied().unwrap_or(0);
    let by_version = LOADS[[2, 0, 1].get(usize::from(version)).copied().unwrap_or(2)];
    if let Err(diagnosis) = load(image) {
        told(&by_version, &Reply::bad_image(diagnosis), see);
        at_diagnosis(image, diagnosis, see);
    }
}

/// A move with what it answers.
pub fn at_moves(image: &[u8], room: usize, see: &mut See) {
    told(&MOVES[0], &upgrade(image, room), see);
    told(&MOVES[1], &downgrade(image, room), see);
}

/// Notes the number of a refused image.
fn told(names: &[&'static str; 7], reply: &Reply, see: &mut See) {
    for (name, number) in names.iter().zip(answer::IMAGE_LENGTH..) {
        see(name, reply.answer == number);
    }
}

/// What is at fault first, and what stands behind it.
fn at_diagnosis(image: &[u8], Diagnosis { fault, offset }: Diagnosis, see: &mut See) {
    let parts = parts(image);
    let found = parts.iter().find(|part| part.start == offset).copied();
    let right = image.get(..4) == Some(&(image.len() as u32).to_be_bytes());
    see("71 in no octets", image.is_empty());
    see("71 in fewer than five octets", !image.is_empty() && image.len() < 5);
    see("72 before a wrong length", fault == ImageFault::Version && !right);
    see("72 with the right length", fault == ImageFault::Version && right);
    let count = image.get(5).copied().unwrap_or(0);
    see("71 at 0", fault == ImageFault::Length && count <= 4);
    see("71 at 0 before too many controllers", fault == ImageFault::Length && count > 4);
    see("73 at the controller count", fault == ImageFault::ControllerCount);
    see("71 left over behind no controller", fault == ImageFault::LeftOver && count == 0);
    see("71 left over behind the last controller", fault == ImageFault::LeftOver && count > 0);
    see("71 left over behind all four", fault == ImageFault::LeftOver && count == 4);
    match (fault, found, parts.last()) {
        (ImageFault::Short, _, Some(part)) if image.len() >= 5 => at_cut(image, part, see),
        (ImageFault::Short, ..) => {}
        (_, Some(part), _) => at_part(image, fault, &part, see),
        _ => {}
    }
}

/// The part that is not whole.
fn at_cut(image: &[u8], part: &Part, see: &mut See) {
    let name = match part.thing {
        Thing::Length | Thing::Version | Thing::ControllerCount => CUT[0],
        Thing::Index => CUT[1],
        Thing::PublicAddress | Thing::BluetoothVersion | Thing::Manufacturer | Thing::Supported => CUT[2],
        Thing::Flags => CUT[3],
        Thing::StaticAddress => CUT[4],
        Thing::Name(which) => CUT[5 + which],
        Thing::TableCount(_) => CUT[7],
        Thing::Record(..) if part.start == image.len() => CUT[8],
        Thing::Record(..) => CUT[9],
    };
    see(name, true);
    see("cut in a later controller", part.controller > 0);
    let long = image.get(part.start).is_some_and(|length| usize::from(*length) > 248);
    see("cut in a name that is too long", part.thing == Thing::Name(0) && image[4] == 2 && long);
}

/// The part at fault, whole but not right.
fn at_part(image: &[u8], fault: ImageFault, part: &Part, see: &mut See) {
    let (later, version) = (part.controller > 0, image[4]);
    let field = match part.thing {
        Thing::Supported => 0,
        Thing::Flags => 1,
        Thing::StaticAddress => 2,
        Thing::Name(which) => 3 + which,
        _ => FIELDS[0].len(),
    };
    if let Some(name) = FIELDS.get(usize::from(version.saturating_sub(1))).and_then(|names| names.get(field))
    {
        see(name, fault.answer() == answer::IMAGE_FIELD);
        see("74 in a later controller", fault.answer() == answer::IMAGE_FIELD && later);
    }
    let high = image[part.start] > 3;
    see("73 for an index above 3", fault == ImageFault::Index && high);
    see("73 for the order of indexes", fault == ImageFault::Index && !high);
    match fault {
        ImageFault::TableCount(table) => {
            see(COUNTS[usize::from(table)], true);
            see("75 for a count of 33", image[part.start] == 33);
            see("75 in a later controller", later);
        }
        ImageFault::Record(table, _) => {
            see(RECORDS[usize::from(table)], true);
            see("76 in a later controller", later);
            see("76 for the first record", matches!(part.thing, Thing::Record(_, 0)));
            see("76 for a later record", matches!(part.thing, Thing::Record(_, 1..)));
            see("76 for record 31", matches!(part.thing, Thing::Record(_, 31)));
            at_wrong_record(image, part, see);
        }
        ImageFault::RecordUnsupported(table) => see(UNSUPPORTED[usize::from(table)], true),
        ImageFault::Repeated(table) => {
            see(REPEATED[usize::from(table)], true);
            see("77 in a later controller", later);
            at_repeat(image, part, see);
        }
        _ => {}
    }
}

/// The number of a record's table, its own number there, and the whole records of the table.
pub fn table_of<'a>(image: &'a [u8], part: &Part) -> Option<(usize, usize, Vec<&'a [u8]>)> {
    let Thing::Record(table, number) = part.thing else { return None };
    let length = KINDS[table].length();
    let first = part.start - number * length;
    let records = image[first..].chunks_exact(length).take(image[first - 1].into());
    Some((table, number, records.collect()))
}

/// The first record of a list that is wrong by itself, and the first that names the same as one before it.
fn judged<R: Record>(records: &[&[u8]]) -> [Option<usize>; 2] {
    let records: Vec<R> = records.iter().map(|octets| R::read(octets)).collect();
    let again = |at: &usize| records[..*at].iter().any(|earlier| earlier.names_same(&records[*at]));
    [records.iter().position(|record| record.fault().is_some()), (0..records.len()).find(again)]
}

/// The same of the records of a table.
pub fn judged_in(table: usize, records: &[&[u8]]) -> [Option<usize>; 2] {
    match table {
        0 => judged::<Service>(records),
        1 => judged::<LinkKey>(records),
        2 => judged::<LongTermKey>(records),
        3 => judged::<IdentityKey>(records),
        4 => judged::<Peer>(records),
        _ => judged::<Device>(records),
    }
}

/// A record that is wrong by itself: whether it is repeated too, or others are.
fn at_wrong_record(image: &[u8], part: &Part, see: &mut See) {
    let Some((table, number, records)) = table_of(image, part) else { return };
    let again = judged_in(table, &records)[1];
    see(BEFORE_REPEAT[table], again == Some(number));
    see("76 before a repeat behind it", again.is_some_and(|again| again > number));
}

/// A repeated record: what it repeats, and what stands behind it.
fn at_repeat(image: &[u8], part: &Part, see: &mut See) {
    let Some((table, number, records)) = table_of(image, part) else { return };
    let same = |at: &usize| judged_in(table, &[records[*at], records[number]])[1].is_some();
    let earlier = (0..number).find(same).unwrap_or(number);
    see("77 for the record behind the one it repeats", earlier + 1 == number);
    see("77 for a record further behind", earlier + 1 < number);
    see("77 for record 31", number + 1 == SLOTS);
    see("77 for a record with the same octets", records[earlier] == records[number]);
    see("77 for a record with other octets", records[earlier] != records[number]);
    see("77 before a wrong record behind it", judged_in(table, &records)[0].is_some());
}

/// What a run should come to beside the numbers, the parts and the tables.
const EXPECTED: [&str; 29] = [
    "71 in no octets",
    "71 in fewer than five octets",
    "72 before a wrong length",
    "72 with the right length",
    "71 at 0",
    "71 at 0 before too many controllers",
    "73 at the controller count",
    "71 left over behind no controller",
    "71 left over behind the last controller",
    "71 left over behind all four",
    "cut in a later controller",
    "cut in a name that is too long",
    "73 for an index above 3",
    "73 for the order of indexes",
    "74 in a later controller",
    "75 for a count of 33",
    "75 in a later controller",
    "76 in a later controller",
    "76 for the first record",
    "76 for a later record",
    "76 for record 31",
    "77 in a later controller",
    "77 for the record behind the one it repeats",
    "77 for a record further behind",
    "77 for record 31",
    "77 for a record with the same octets",
    "77 for a record with other octets",
    "76 before a repeat behind it",
    "77 before a wrong record behind it",
];

/// All names that a run should come to. Load answers 72 for no version that it takes.
pub fn expected() -> impl Iterator<Item = &'static str> {
    let loads = LOADS[..2].iter().flatten().copied().filter(|name| !name.ends_with("72"));
    let others = LOADS[2].into_iter().take(2);
    let moves = MOVES.into_iter().flatten();
    let tables = COUNTS.into_iter().chain(RECORDS).chain(REPEATED);
    let keys = [1, 2, 3].map(|table| UNSUPPORTED[table]).into_iter();
    let before = [1, 2, 5].map(|table| BEFORE_REPEAT[table]).into_iter();
    let fields = FIELDS.into_iter().flatten();
    let all = loads.chain(others).chain(moves).chain(tables).chain(keys).chain(before);
    all.chain(fields).chain(CUT).chain(EXPECTED)
}
