//! Damage to one place of an image, for each rule that images keep.

use crate::draft::{records, ControllerDraft, Draft, NameDraft, NamesDraft};
use crate::pools;
use crate::random::Random;
use crate::records::{put_outside_address, repeat, spoil, KINDS};
use crate::things::{parts, Thing};
use reference::codes::{setting, NAME, SHORT_NAME, SLOTS};

/// A rule that an image is made to break.
#[derive(Clone, Copy, PartialEq, Eq, PartialOrd, Ord, Debug)]
pub enum Damage {
    /// The length field.
    Length,
    /// The version octet: no version.
    Version,
    /// The version octet: the other version.
    OtherVersion,
    /// The controller count.
    ControllerCount,
    /// An index too high, or not above the one before.
    Index,
    /// BR/EDR without a public address.
    PublicAddress,
    /// Supported bits above 15.
    HighSettings,
    /// Neither BR/EDR nor LE.
    NoTransport,
    /// Flags that no version has.
    Flags,
    /// The flag for BR/EDR in version 1.
    OldBrEdr,
    /// BR/EDR on without support, in version 2.
    BrEdrOn,
    /// LE on without support.
    LowEnergyOn,
    /// LE off without BR/EDR, or with BR/EDR off.
    LowEnergyOff,
    /// A static address with a low sixth octet.
    StaticAddress,
    /// A static address just outside the rule of static random ones.
    StaticOutside,
    /// A static address without LE support.
    StaticUnsupported,
    /// The end of the name, number 0, or of the short name, number 1, in version 1.
    NameEnd(usize),
    /// A name of too many octets, in version 2.
    NameLength(usize),
    /// A zero in a name, in version 2.
    NameZero(usize),
    /// A length octet that is not the number of octets, in version 2.
    NameCount(usize),
    /// A name of too many octets that are not there, in version 2.
    NameCut(usize),
    /// A count octet of a table, the tables counted from 0.
    TableCount(usize),
    /// More records than slots.
    TooManyRecords(usize),
    /// A record of a table.
    Record(usize),
    /// A key with an LE Random address just outside the rule of static random ones.
    KeyOutside(usize),
    /// Two records of a table.
    Repeat(usize),
    /// Two records of a table, the later of which is wrong by itself too.
    SpoiltRepeat(usize),
    /// Three records of a table: a repeat before or behind one that is wrong by itself.
    RepeatAndRecord(usize),
    /// Keys without support.
    KeysUnsupported(usize),
    /// Octets left over.
    Tail,
    /// Octets missing.
    Cut,
    /// Octets missing that the length field counts.
    CutAlone,
    /// A record, and octets missing behind it in its table.
    RecordAndCut,
    /// Two of the length field, the version octet and the controller count.
    Head,
}

/// The kinds of damage to what the versions do not have in common.
pub fn of_versions() -> Vec<Damage> {
    use Damage::*;
    let mut kinds = vec![OtherVersion, OldBrEdr, BrEdrOn, LowEnergyOff];
    for which in 0..2 {
        kinds.extend([NameEnd(which), NameLength(which), NameZero(which), NameCount(which), NameCut(which)]);
    }
    kinds
}

/// The kinds of damage to where an image ends, and to what tells it.
pub fn of_ends() -> Vec<Damage> {
    use Damage::*;
    vec![Length, Head, Tail, Cut, Cut, Cut, CutAlone, RecordAndCut]
}

/// All kinds of damage.
pub fn all() -> Vec<Damage> {
    use Damage::*;
    let mut kinds = of_versions();
    kinds.extend([Length, Version, ControllerCount, Index, PublicAddress, HighSettings, NoTransport]);
    kinds.extend([Flags, LowEnergyOn, StaticAddress, StaticOutside, StaticUnsupported, Tail, Cut]);
    kinds.extend([CutAlone, RecordAndCut, Head]);
    kinds.extend([1, 2, 5].map(SpoiltRepeat));
    for place in 0..KINDS.len() {
        kinds.extend([TableCount(place), TooManyRecords(place), Record(place), Repeat(place)]);
        kinds.push(RepeatAndRecord(place));
    }
    kinds.extend([1, 2, 3].map(KeysUnsupported));
    kinds.extend([2, 3].map(KeyOutside));
    kinds
}

/// Damages a valid image; false if it has no place for this damage.
pub fn damage(random: &mut Random, draft: &mut Draft, kind: Damage) -> bool {
    match kind {
        Damage::Length => draft.length = Some(wrong_length(random, draft.octets().len() as u32)),
        Damage::Version => draft.version = random.pick(&[0, 3, 0x10, 0x81, 0xFF]),
        Damage::OtherVersion if draft.controllers.is_empty() || draft.version > 2 => return false,
        Damage::OtherVersion => draft.version = 3 - draft.version,
        Damage::ControllerCount => {
            let count = draft.controllers.len() as u8;
            draft.count = Some(random.pick(&[count + 1, count.wrapping_sub(1), count + 4, count | 0x80]));
        }
        Damage::Tail => {
            let length = random.between(1, 5);
            draft.tail = random.octets(length);
        }
        Damage::Cut => draft.cut = missing(random, draft),
        Damage::CutAlone => {
            draft.length = Some(draft.octets().len() as u32);
            draft.cut = missing(random, draft);
        }
        Damage::Head => damage_head(random, draft),
        Damage::Index => return damage_index(random, draft),
        Damage::NameCut(which) => return cut_name(random, draft, which),
        Damage::RecordAndCut => return cut_table(random, draft),
        _ => return damage_controller(random, draft, kind),
    }
    true
}

/// How many octets are missing: one or two, so many that a part is not there, or a part that is no record not whole, or any number.
fn missing(random: &mut Random, draft: &Draft) -> usize {
    let octets = draft.octets();
    let mut parts = parts(&octets);
    parts.retain(|part| part.start > 4 && part.end <= octets.len());
    if parts.is_empty() {
        return 1;
    }
    match random.below(5) {
        0 => random.between(1, 2),
        1 => random.between(1, octets.len() - 4),
        2 => octets.len() - random.pick(&parts).start,
        _ => {
            parts.retain(|part| !matches!(part.thing, Thing::Record(..)));
            let part = random.pick(&parts);
            octets.len() - random.between(part.start, part.end - 1)
        }
    }
}

/// Lets an image of version 2 end in a name whose length octet says more octets than there are, and than there can be.
fn cut_name(random: &mut Random, draft: &mut Draft, which: usize) -> bool {
    let Some(controller) = draft.controllers.last_mut() else { return false };
    let NamesDraft::Used(names) = &mut controller.names else { return false };
    names[which].octets.truncate(random.below(3));
    names[which].length = Some(random.pick(&[249, 250, 255]));
    controller.tables = Default::default();
    true
}

/// Lets an image end in the last record of a table that has a wrong one before.
fn cut_table(random: &mut Random, draft: &mut Draft) -> bool {
    let Some(controller) = draft.controllers.last_mut() else { return false };
    let several = |place: &usize| controller.tables[*place].records.len() >= 2;
    let places: Vec<usize> = (0..KINDS.len()).filter(several).collect();
    if places.is_empty() {
        return false;
    }
    let place = random.pick(&places);
    let behind = controller.tables[place + 1..].iter().map(|table| 1 + table.records.concat().len());
    draft.cut = behind.sum::<usize>() + random.between(1, KINDS[place].length());
    let records = &mut controller.tables[place].records;
    let chosen = random.below(records.len() - 1);
    spoil(random, KINDS[place], &mut records[chosen]);
    true
}

/// Two faults before the first controller.
fn damage_head(random: &mut Random, draft: &mut Draft) {
    let good = random.below(3);
    if good != 0 {
        draft.length = Some(wrong_length(random, draft.octets().len() as u32));
    }
    if good != 1 {
        draft.version = random.pick(&[0, 3, 0xFF]);
    }
    if good != 2 {
        draft.count = Some(random.pick(&[5, 6, 0xFF]));
    }
}

/// A length field that is not the number of octets.
fn wrong_length(random: &mut Random, length: u32) -> u32 {
    let bit = 1 << random.below(32);
    random.pick(&[length + 1, length - 1, length.swap_bytes(), length ^ bit, length + 0x1_0000, 0])
}

/// An index above 3, the same index twice, or two out of order.
fn damage_index(random: &mut Random, draft: &mut Draft) -> bool {
    let count = draft.controllers.len();
    if count == 0 {
        return false;
    }
    let place = random.below(count);
    if place == 0 || random.percent(30) {
        draft.controllers[place].index = random.pick(&[4, 5, 0x80, 0xFF]);
    } else if random.percent(50) {
        draft.controllers[place].index = draft.controllers[place - 1].index;
    } else {
        draft.controllers.swap(place, place - 1);
    }
    true
}

/// Damages one of the controllers that has a place for it.
fn damage_controller(random: &mut Random, draft: &mut Draft, kind: Damage) -> bool {
    let version = draft.version;
    let fits = |controller: &&mut ControllerDraft| fits(controller, version, kind);
    let mut fitting: Vec<_> = draft.controllers.iter_mut().filter(fits).collect();
    if fitting.is_empty() {
        return false;
    }
    let chosen = random.below(fitting.len());
    let controller = &mut fitting[chosen];
    match kind {
        Damage::TableCount(place)
        | Damage::TooManyRecords(place)
        | Damage::Record(place)
        | Damage::KeyOutside(place)
        | Damage::Repeat(place)
        | Damage::SpoiltRepeat(place)
        | Damage::RepeatAndRecord(place)
        | Damage::KeysUnsupported(place) => damage_table(random, controller, kind, place),
        Damage::NameEnd(which)
        | Damage::NameLength(which)
        | Damage::NameZero(which)
        | Damage::NameCount(which) => damage_name(random, &mut controller.names, kind, which),
        _ => damage_field(random, controller, kind),
    }
    true
}

/// Whether a controller of an image of this version has a place for the damage.
fn fits(controller: &ControllerDraft, version: u8, kind: Damage) -> bool {
    match kind {
        Damage::PublicAddress => controller.has_br_edr(),
        Damage::OldBrEdr => version == 1,
        Damage::BrEdrOn => version == 2 && !controller.has_br_edr(),
        Damage::LowEnergyOn | Damage::StaticUnsupported => !controller.has_low_energy(),
        Damage::LowEnergyOff => version == 2 || !controller.has_br_edr(),
        Damage::NameEnd(_) => version == 1,
        Damage::NameLength(_) | Damage::NameCount(_) => version == 2,
        Damage::NameZero(which) => match &controller.names {
            NamesDraft::Whole(_) => false,
            NamesDraft::Used(names) => !names[which].octets.is_empty(),
        },
        Damage::StaticAddress | Damage::StaticOutside => controller.has_low_energy(),
        Damage::TooManyRecords(place) => controller.takes(KINDS[place]),
        Damage::Record(place) | Damage::KeyOutside(place) => !controller.tables[place].records.is_empty(),
        Damage::Repeat(place) | Damage::SpoiltRepeat(place) => controller.tables[place].records.len() >= 2,
        Damage::RepeatAndRecord(place) => controller.tables[place].records.len() >= 3,
        Damage::KeysUnsupported(place) => !controller.takes(KINDS[place]),
        _ => true,
    }
}

/// Damages a field before the tables.
fn damage_field(random: &mut Random, controller: &mut ControllerDraft, kind: Damage) {
    match kind {
        Damage::PublicAddress => controller.public_address = [0; 6],
        Damage::HighSettings => controller.supported |= 1 << random.between(16, 31),
        Damage::NoTransport => {
            controller.supported &= !(setting::BR_EDR | setting::LOW_ENERGY);
        }
        Damage::Flags => {
            let others: Vec<u32> = (0..32).filter(|bit| ![1, 4, 7, 9].contains(bit)).collect();
            controller.flags |= 1 << random.pick(&others);
        }
        Damage::OldBrEdr | Damage::BrEdrOn => controller.flags |= setting::BR_EDR,
        Damage::LowEnergyOn => controller.flags |= setting::LOW_ENERGY,
        Damage::LowEnergyOff => controller.flags &= !(setting::BR_EDR | setting::LOW_ENERGY),
        Damage::StaticAddress => {
            controller.static_address = pools::low_address(random.below(pools::LOW));
        }
        Damage::StaticOutside => controller.static_address = pools::some_outside(random),
        _ => controller.static_address = pools::static_address(random),
    }
}

/// Damages the name, number 0, or the short name, number 1.
fn damage_name(random: &mut Random, names: &mut NamesDraft, kind: Damage, which: usize) {
    let end = [NAME, SHORT_NAME][which];
    match names {
        NamesDraft::Whole(octets) => octets[[NAME, NAME + SHORT_NAME][which] - 1] = random.octet() | 1,
        NamesDraft::Used(names) => damage_used(random, &mut names[which], kind, end),
    }
}

/// Damages a name of version 2 that would have a zero at this place.
fn damage_used(random: &mut Random, name: &mut NameDraft, kind: Damage, end: usize) {
    let length = name.octets.len();
    match kind {
        Damage::NameLength(_) => {
            let most = random.pick(&[end, end + 1, 255]).min(255);
            name.octets = (0..most).map(|_| random.octet().max(1)).collect();
        }
        Damage::NameZero(_) => {
            let place = random.below(length);
            name.octets[random.pick(&[0, place, length - 1])] = 0;
        }
        _ => {
            let (more, less) = ((length as u8).wrapping_add(1), (length as u8).wrapping_sub(1));
            name.length = Some(random.pick(&[more, less, length as u8 ^ 0x80, end as u8 ^ 0x80]));
        }
    }
}

/// Damages a table.
fn damage_table(random: &mut Random, controller: &mut ControllerDraft, kind: Damage, place: usize) {
    let table = &mut controller.tables[place];
    let count = table.records.len();
    match kind {
        Damage::TableCount(_) => {
            let wrong = if count == SLOTS { 33 } else { count as u8 + 1 };
            table.count = Some(random.pick(&[wrong, 33, 0x80 | count as u8, 0xFF]));
        }
        Damage::TooManyRecords(_) => table.records = records(random, KINDS[place], SLOTS + 1),
        Damage::Record(_) => {
            let chosen = if random.percent(30) { count - 1 } else { random.below(count) };
            spoil(random, KINDS[place], &mut table.records[chosen]);
        }
        Damage::KeyOutside(_) => {
            let chosen = random.below(count);
            put_outside_address(random, &mut table.records[chosen]);
        }
        _ => damage_records(random, &mut table.records, kind, place),
    }
}

/// Damages several records of a table, or puts some where there can be none.
fn damage_records(random: &mut Random, list: &mut Vec<Vec<u8>>, kind: Damage, place: usize) {
    let count = list.len();
    match kind {
        Damage::Repeat(_) => _ = repeat(random, KINDS[place], list),
        Damage::RepeatAndRecord(_) => {
            let first = random.below(count - 2);
            let (again, wrong) = if random.percent(50) { (first + 1, first + 2) } else { (first + 2, first) };
            list[again] = list[again - 1].clone();
            spoil(random, KINDS[place], &mut list[wrong]);
        }
        Damage::SpoiltRepeat(_) => {
            let later = random.between(1, count - 1);
            list[later] = list[random.below(later)].clone();
            list[later][if place == 2 { 9 } else { 7 }] = random.pick(&[0x20, 0xFF]);
        }
        _ => {
            let length = random.between(1, 3);
            *list = records(random, KINDS[place], length);
            match random.below(4) {
                0 => spoil(random, KINDS[place], &mut list[length - 1]),
                1 => _ = repeat(random, KINDS[place], list),
                _ => {}
            }
        }
    }
}
