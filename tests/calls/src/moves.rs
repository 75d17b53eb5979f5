//! What random images come to where they are loaded and moved: by version and answer, by names, and by flag bit 7.

use crate::draft::{ControllerDraft, Draft, NamesDraft};
use crate::situations::See;
use reference::codes::{answer, setting, IMAGE_ROOM, NAME, SHORT_NAME};
use reference::controller::{Controller, LocalName};
use reference::image::load;
use reference::reason::{Diagnosis, ImageFault};
use reference::{downgrade, upgrade, Hub};

/// Names of no octets, of some and of as many as there can be: name and short name, in version 1 and in version 2.
const LENGTHS: [[[&str; 3]; 2]; 2] = [
    [
        ["version 1 name, empty", "version 1 name", "version 1 name of 248 octets"],
        ["version 1 short name, empty", "version 1 short name", "version 1 short name of 10 octets"],
    ],
    [
        ["version 2 name, empty", "version 2 name", "version 2 name of 248 octets"],
        ["version 2 short name, empty", "version 2 short name", "version 2 short name of 10 octets"],
    ],
];
/// Octets behind the end of a name and of a short name, empty or not.
const TAILS: [[&str; 2]; 2] = [
    ["octets behind an empty name", "octets behind a name"],
    ["octets behind an empty short name", "octets behind a short name"],
];
/// Names that are too long: by one octet, by more.
const TOO_LONG: [[&str; 2]; 2] = [
    ["name of 249 octets, refused", "name of 250 octets or more, refused"],
    ["short name of 11 octets, refused", "short name of 12 octets or more, refused"],
];
/// A zero at the start of a name, inside it, at its end.
const ZEROS: [[&str; 3]; 2] = [
    ["name with a zero first, refused", "name with a zero inside, refused", "name with a zero last, refused"],
    [
        "short name with a zero first, refused",
        "short name with a zero inside, refused",
        "short name with a zero last, refused",
    ],
];

/// An image that is loaded, and moved with this room.
pub fn at_image(image: &[u8], room: usize, see: &mut See) {
    let version = image.get(4).copied().unwrap_or(0);
    match load(image) {
        Ok(state) => {
            see("version 1 image, loaded", version == 1);
            see("version 2 image, loaded", version == 2);
            for controller in state.controllers.iter().flatten() {
                at_names(version, &controller.local_name, see);
                at_br_edr(version, controller, see);
            }
        }
        Err(Diagnosis { fault, .. }) => {
            see("version 1 image, refused", version == 1);
            see("version 2 image, refused", version == 2);
            see("image of another version, refused", fault == ImageFault::Version);
            if let Some(draft) = Draft::of(image) {
                at_refusal(&draft, fault, see);
            }
        }
    }
    at_upgrade(image, room, see);
    at_downgrade(image, room, see);
}

/// How many octets of each name are used, and how many it can have.
fn lengths(names: &LocalName) -> [(usize, usize); 2] {
    let used = |which| names.used(which).map_or(0, <[u8]>::len);
    [(used(0), NAME - 1), (used(1), SHORT_NAME - 1)]
}

/// Which names have octets behind their end.
fn tails(names: &LocalName) -> [bool; 2] {
    let [(name, _), (short_name, _)] = lengths(names);
    [&names.name[name..], &names.short_name[short_name..]]
        .map(|behind| behind.iter().any(|octet| *octet != 0))
}

/// The names of a controller of an image of this version.
fn at_names(version: u8, names: &LocalName, see: &mut See) {
    for (which, (used, most)) in lengths(names).into_iter().enumerate() {
        let [empty, some, all] = LENGTHS[usize::from(version - 1)][which];
        see(empty, used == 0);
        see(some, used > 0 && used < most);
        see(all, used == most);
        let [behind_empty, behind] = TAILS[which];
        see(behind_empty, tails(names)[which] && used == 0);
        see(behind, tails(names)[which] && used > 0);
    }
}

/// BR/EDR of a controller of an image of this version.
fn at_br_edr(version: u8, controller: &Controller, see: &mut See) {
    let (on, off) = (controller.br_edr, controller.has_br_edr_off());
    see("version 1, BR/EDR on as supported", version == 1 && on);
    see("version 1, BR/EDR not supported", version == 1 && !on);
    see("version 2, BR/EDR on", version == 2 && on && controller.low_energy);
    see("BR/EDR on beside a static address", on && controller.static_address != [0; 6]);
    see("version 2, BR/EDR on alone", version == 2 && on && !controller.low_energy);
    see("version 2, BR/EDR not supported", version == 2 && !on && !off);
    see("version 2, BR/EDR off", off);
    see("version 2, BR/EDR off beside a static address", off && controller.static_address != [0; 6]);
    see("version 2, BR/EDR off beside link keys", off && !controller.link_keys.is_empty());
}

/// An image that is refused for flags or a name.
fn at_refusal(draft: &Draft, fault: ImageFault, see: &mut See) {
    let version = draft.version;
    for controller in &draft.controllers {
        let (flag, supported) = (controller.flags & setting::BR_EDR != 0, controller.has_br_edr());
        let low_energy = controller.flags & setting::LOW_ENERGY != 0;
        let both_off = fault == ImageFault::BothOff && !flag && !low_energy;
        let old = fault == ImageFault::Flags && version == 1 && flag;
        see("version 1 with flag bit 7, refused", old && supported);
        see("version 1 with flag bit 7, not supported, refused", old && !supported);
        see("version 2 with flag bit 7, not supported, refused", fault == ImageFault::BrEdrOn && flag);
        let dual = supported && controller.has_low_energy();
        see("version 2 with both off, refused", both_off && version == 2 && dual);
        see(
            "version 2 with BR/EDR off and no other, refused",
            both_off && version == 2 && supported && !dual,
        );
        see("version 2 with LE off and no other, refused", both_off && version == 2 && !supported);
        if let NamesDraft::Used(names) = &controller.names {
            names.iter().enumerate().for_each(|(which, name)| at_used(&name.octets, which, fault, see));
        }
    }
}

/// A name of an image of version 2 that is refused for this fault.
fn at_used(name: &[u8], which: usize, fault: ImageFault, see: &mut See) {
    let end = [NAME, SHORT_NAME][which];
    if fault == ImageFault::NameLength(which as u8) {
        let [one, more] = TOO_LONG[which];
        see(one, name.len() == end);
        see(more, name.len() > end);
    }
    let zero = name.iter().position(|octet| *octet == 0);
    if let Some(place) = zero.filter(|_| fault == ImageFault::NameZero(which as u8)) {
        let [first, inside, last] = ZEROS[which];
        see(first, place == 0);
        see(inside, place > 0 && place + 1 < name.len());
        see(last, place > 0 && place + 1 == name.len());
    }
}

/// A move to version 2.
fn at_upgrade(image: &[u8], room: usize, see: &mut See) {
    let moved = upgrade(image, room);
    let roomy = upgrade(image, IMAGE_ROOM);
    see("upgrade answered 0", moved.answer == answer::DONE);
    see("upgrade answered 4", moved.answer == answer::ROOM && roomy.answer == answer::DONE);
    let bad = answer::is_bad_image(roomy.answer);
    see("upgrade answered 4 before 71 to 77", moved.answer == answer::ROOM && bad);
    see("upgrade answered 72 for version 2", moved.answer == answer::IMAGE_VERSION && load(image).is_ok());
    let back = downgrade(&moved.octets, IMAGE_ROOM).octets;
    see("upgrade and back, the same octets", back == image);
    see("upgrade and back, other octets behind a name", moved.answer == answer::DONE && back != image);
}

/// A move back to version 1.
fn at_downgrade(image: &[u8], room: usize, see: &mut See) {
    let moved = downgrade(image, room).answer;
    let roomy = downgrade(image, IMAGE_ROOM).answer;
    see("downgrade answered 0", moved == answer::DONE);
    see("downgrade answered 4", moved == answer::ROOM && roomy == answer::DONE);
    see("downgrade answered 4 before 71 to 77", moved == answer::ROOM && answer::is_bad_image(roomy));
    see("downgrade answered 4 before 8", moved == answer::ROOM && roomy == answer::NOT_IN_IMAGE);
    see("downgrade answered 72 for version 1", moved == answer::IMAGE_VERSION && load(image).is_ok());
    let Some(draft) = Draft::of(image).filter(|draft| draft.version == 2) else { return };
    let off =
        |controller: &ControllerDraft| controller.has_br_edr() && controller.flags & setting::BR_EDR == 0;
    let off: Vec<bool> = draft.controllers.iter().map(off).collect();
    let (count, several) = (off.iter().filter(|off| **off).count(), off.len() > 1);
    see("downgrade answered 71 to 77 before 8", answer::is_bad_image(moved) && count > 0);
    let beyond = moved == answer::NOT_IN_IMAGE;
    see("downgrade answered 8", beyond);
    see("downgrade answered 8 for the first alone", beyond && several && count == 1 && off[0]);
    see("downgrade answered 8 for the last alone", beyond && several && count == 1 && off[off.len() - 1]);
    see("downgrade answered 8 for several", beyond && count > 1);
}

/// A save with room enough.
pub fn at_save(hub: &Hub, see: &mut See) {
    for controller in hub.state().controllers.iter().flatten() {
        let [(name, most), (short_name, short_most)] = lengths(&controller.local_name);
        let [behind, behind_short] = tails(&controller.local_name);
        see("save without a name", name == 0 && short_name == 0);
        see("save of a name of 248 octets", name == most);
        see("save of a short name of 10 octets", short_name == short_most);
        see("save drops octets behind a name", behind);
        see("save drops octets behind a short name", behind_short);
    }
}

/// What a run should come to beside the lengths and ends of names.
const EXPECTED: [&str; 41] = [
    "version 1 image, loaded",
    "version 2 image, loaded",
    "version 1 image, refused",
    "version 2 image, refused",
    "image of another version, refused",
    "version 1, BR/EDR on as supported",
    "version 1, BR/EDR not supported",
    "version 2, BR/EDR on",
    "BR/EDR on beside a static address",
    "version 2, BR/EDR on alone",
    "version 2, BR/EDR not supported",
    "version 2, BR/EDR off",
    "version 2, BR/EDR off beside a static address",
    "version 2, BR/EDR off beside link keys",
    "version 1 with flag bit 7, refused",
    "version 1 with flag bit 7, not supported, refused",
    "version 2 with flag bit 7, not supported, refused",
    "version 2 with both off, refused",
    "version 2 with BR/EDR off and no other, refused",
    "version 2 with LE off and no other, refused",
    "upgrade answered 0",
    "upgrade answered 4",
    "upgrade answered 4 before 71 to 77",
    "upgrade answered 72 for version 2",
    "upgrade and back, the same octets",
    "upgrade and back, other octets behind a name",
    "downgrade answered 0",
    "downgrade answered 4",
    "downgrade answered 4 before 71 to 77",
    "downgrade answered 4 before 8",
    "downgrade answered 72 for version 1",
    "downgrade answered 71 to 77 before 8",
    "downgrade answered 8",
    "downgrade answered 8 for the first alone",
    "downgrade answered 8 for the last alone",
    "downgrade answered 8 for several",
    "save without a name",
    "save of a name of 248 octets",
    "save of a short name of 10 octets",
    "save drops octets behind a name",
    "save drops octets behind a short name",
];

/// All names that a run should come to.
pub fn expected() -> impl Iterator<Item = &'static str> {
    let lengths = LENGTHS.into_iter().flatten().flatten();
    let ends = TAILS.into_iter().flatten().chain(TOO_LONG.into_iter().flatten());
    EXPECTED.into_iter().chain(lengths).chain(ends).chain(ZEROS.into_iter().flatten())
}
