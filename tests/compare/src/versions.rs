//! Images of both versions, loaded, saved and moved on a target and on the reference hub: names of every kind, every flag for each
//! support, what is cut off or left over, every octet changed, rooms, and BR/EDR off anywhere.

use crate::images::{move_agrees, tried_agrees, Tried};
use crate::lent::{Difference, Lent};
use crate::target::{Move, Target};
use calls::draft::{records, ControllerDraft, Draft, NameDraft, NamesDraft, TableDraft};
use calls::pools::high_address;
use calls::records::KINDS;
use calls::Random;
use reference::codes::{answer, setting, CONTROLLERS, IMAGE_ROOM, NAME, SHORT_NAME, SLOTS};
use std::fmt::{Display, Formatter};

/// BR/EDR only, LE only and dual mode, with a bit that has nothing to do with it.
const SUPPORTED: [u32; 3] = [0x0081, 0x0201, 0x0281];
/// The dual-mode one.
const DUAL: u32 = SUPPORTED[2];
/// The lengths of names and of short names.
const LENGTHS: [[usize; 5]; 2] = [[0, 1, 2, 247, 248], [0, 1, 2, 9, 10]];
/// Rooms for an image.
const ROOMS: [usize; 5] = [0, 1, IMAGE_ROOM - 1, IMAGE_ROOM, IMAGE_ROOM + 1];

/// What a sweep came to.
#[derive(Clone, Copy, PartialEq, Eq, Debug, Default)]
pub struct Sweep {
    /// Images of version 1 that load.
    pub first: usize,
    /// Images of version 2 that load.
    pub second: usize,
    /// Images that are refused.
    pub refused: usize,
    /// Moves that are done.
    pub moved: usize,
    /// Moves that are refused because version 1 has no place for what the image says.
    pub beyond: usize,
}

impl Display for Sweep {
    fn fmt(&self, out: &mut Formatter<'_>) -> std::fmt::Result {
        let Sweep { first, second, refused, moved, beyond } = self;
        write!(out, "{first} images of version 1, {second} of version 2, {refused} that do not load, ")?;
        write!(out, "{moved} moves done, {beyond} answered 8")
    }
}

/// A name of so many octets and the zeros behind it, as version 1 has it, with octets behind the first zero if it is to be dirty.
fn whole(used: usize, all: usize, dirty: bool) -> Vec<u8> {
    let tail = if dirty { b't' } else { 0 };
    let octet = |place: usize| match place {
        place if place < used => b'a' + (place % 26) as u8,
        place if place == used || place + 1 == all => 0,
        _ => tail,
    };
    (0..all).map(octet).collect()
}

/// Names of these lengths as a version has them.
pub fn names(version: u8, [name, short_name]: [usize; 2], dirty: bool) -> NamesDraft {
    let (name, short_name) = (whole(name, NAME, dirty), whole(short_name, SHORT_NAME, dirty));
    if version == 1 {
        return NamesDraft::Whole([name, short_name].concat());
    }
    let used = |octets: Vec<u8>| octets.into_iter().take_while(|octet| *octet != 0).collect();
    NamesDraft::Used([name, short_name].map(|octets| NameDraft { length: None, octets: used(octets) }))
}

/// A dual-mode controller with BR/EDR and LE on, short names and a few records.
pub fn controller(version: u8, index: u8, count: usize) -> ControllerDraft {
    let kept = setting::CONNECTABLE | setting::LOW_ENERGY;
    let mut random = Random::new(index.into());
    let table = |kind| TableDraft { count: None, records: records(&mut random, kind, count) };
    ControllerDraft {
        index,
        public_address: [7; 6],
        version: 9,
        manufacturer: 0x000F,
        supported: DUAL,
        flags: if version == 1 { kept } else { kept | setting::BR_EDR },
        static_address: high_address(3),
        names: names(version, [3, 1], false),
        tables: KINDS.map(table),
    }
}

/// An image of these controllers.
pub fn draft(version: u8, controllers: Vec<ControllerDraft>) -> Draft {
    Draft { length: None, version, count: None, controllers, tail: vec![], cut: 0 }
}

/// A small image: one controller with a record in each table, and one that has none and another index.
fn small(version: u8) -> Draft {
    draft(version, vec![controller(version, 1, 1), controller(version, 3, 0)])
}

/// Loads, saves and moves an image on both, and counts what it came to.
fn tried<T: Target>(lent: &mut Lent<T>, image: &[u8], sweep: &mut Sweep) -> Result<Tried, Difference> {
    let tried = tried_agrees(lent, image, IMAGE_ROOM)?;
    let version = image.get(4).copied().unwrap_or(0);
    sweep.first += usize::from(tried.loads() && version == 1);
    sweep.second += usize::from(tried.loads() && version == 2);
    sweep.refused += usize::from(!tried.loads());
    for given in [tried.upgrade, tried.downgrade] {
        sweep.moved += usize::from(given == answer::DONE);
        sweep.beyond += usize::from(given == answer::NOT_IN_IMAGE);
    }
    Ok(tried)
}

/// The same, with words for the difference.
fn try_one<T: Target>(
    lent: &mut Lent<T>,
    what: &str,
    image: &[u8],
    sweep: &mut Sweep,
) -> Result<(), Difference> {
    tried(lent, image, sweep).map(|_| ()).map_err(|difference| format!("{what}: {difference}"))
}

/// Names of each length, with octets behind them and without, at either of two controllers.
fn names_agree<T: Target>(lent: &mut Lent<T>, version: u8, sweep: &mut Sweep) -> Result<(), Difference> {
    for (name, short_name) in LENGTHS[0].into_iter().flat_map(|k| LENGTHS[1].map(|j| (k, j))) {
        for (place, dirty) in [(0, false), (1, false), (0, true), (1, true)] {
            let mut draft = small(version);
            draft.controllers[place].names = names(version, [name, short_name], dirty);
            let what = format!("version {version}, names of {name} and {short_name}, dirty {dirty}");
            try_one(lent, &what, &draft.octets(), sweep)?;
        }
    }
    Ok(())
}

/// One octet behind a name of version 1 at each place, and the last octet of each name.
fn tails_agree<T: Target>(lent: &mut Lent<T>, sweep: &mut Sweep) -> Result<(), Difference> {
    for (used, place) in [0, 3].into_iter().flat_map(|used| (0..NAME + SHORT_NAME).map(move |at| (used, at)))
    {
        let mut draft = small(1);
        let mut octets = [whole(used, NAME, false), whole(used, SHORT_NAME, false)].concat();
        octets[place] = 0x80;
        draft.controllers[1].names = NamesDraft::Whole(octets);
        try_one(lent, &format!("a name of {used}, octet {place}"), &draft.octets(), sweep)?;
    }
    Ok(())
}

/// Every length octet of both names of version 2: with as many octets, with none, and with a zero at each place of the longest and
/// of short ones.
fn lengths_agree<T: Target>(lent: &mut Lent<T>, sweep: &mut Sweep) -> Result<(), Difference> {
    for (which, length) in (0..2).flat_map(|which| (0..=255_u8).map(move |length| (which, length))) {
        let mut try_name = |what: &str, name: NameDraft| {
            let mut draft = small(2);
            let NamesDraft::Used(names) = &mut draft.controllers[0].names else { return Ok(()) };
            names[which] = name;
            try_one(lent, &format!("name {which} of {length}, {what}"), &draft.octets(), sweep)
        };
        let octets = vec![b'n'; length.into()];
        try_name("whole", NameDraft { length: None, octets: octets.clone() })?;
        try_name("with no octets", NameDraft { length: Some(length), octets: vec![] })?;
        if [1, 2, 10, 11, 248, 249].contains(&length) {
            for place in 0..octets.len() {
                let mut octets = octets.clone();
                octets[place] = 0;
                try_name(&format!("a zero at {place}"), NameDraft { length: None, octets })?;
            }
        }
    }
    Ok(())
}

/// Every set of the four flags that an image can have, alone and with each other bit, for each support, with and without a static
/// address, at the first of two controllers and at the last.
fn flags_agree<T: Target>(lent: &mut Lent<T>, version: u8, sweep: &mut Sweep) -> Result<(), Difference> {
    let bits = [setting::CONNECTABLE, setting::BONDABLE, setting::BR_EDR, setting::LOW_ENERGY];
    let set = |number: usize| -> u32 { (0..4).filter(|at| number >> at & 1 == 1).map(|at| bits[at]).sum() };
    let others = (0..32).map(|bit| 1_u32 << bit).filter(|bit| !bits.contains(bit));
    let words: Vec<u32> = std::iter::once(0)
        .chain(others)
        .flat_map(|other| (0..16).map(move |number| (number, other)))
        .map(|(number, other)| set(number) | other)
        .collect();
    for (supported, flags) in SUPPORTED.iter().flat_map(|s| words.iter().map(move |word| (*s, *word))) {
        for (place, address) in [(0, [0; 6]), (1, [0; 6]), (1, high_address(4))] {
            let mut draft = small(version);
            let controller = &mut draft.controllers[place];
            (controller.supported, controller.flags, controller.static_address) = (supported, flags, address);
            controller.tables = Default::default();
            let what = format!("version {version}, supported {supported:#06x}, flags {flags:#x} at {place}");
            try_one(lent, &what, &draft.octets(), sweep)?;
        }
    }
    Ok(())
}

/// An image cut at every octet, with the length field right and as it was; octets left over; every version octet; every bit of every
/// octet flipped.
fn octets_agree<T: Target>(lent: &mut Lent<T>, version: u8, sweep: &mut Sweep) -> Result<(), Difference> {
    let whole = small(version).octets();
    for length in 0..whole.len() + 3 {
        let mut image = [&whole[..], &[0, 0, 0]].concat();
        image.truncate(length);
        try_one(lent, &format!("version {version}, {length} octets"), &image, sweep)?;
        if length >= 4 {
            image[..4].copy_from_slice(&(length as u32).to_be_bytes());
            try_one(lent, &format!("version {version}, cut to {length}"), &image, sweep)?;
        }
    }
    for octet in 0..=255 {
        let mut image = whole.clone();
        image[4] = octet;
        try_one(lent, &format!("version {version} as {octet}"), &image, sweep)?;
        try_one(lent, &format!("empty, version {octet}"), &[0, 0, 0, 6, octet, 0], sweep)?;
    }
    for (place, bit) in (0..whole.len()).flat_map(|place| (0..8).map(move |bit| (place, bit))) {
        let mut image = whole.clone();
        image[place] ^= 1 << bit;
        try_one(lent, &format!("version {version}, bit {bit} of octet {place}"), &image, sweep)?;
    }
    Ok(())
}

/// Four full controllers with the longest names, and one octet more.
fn largest_agrees<T: Target>(lent: &mut Lent<T>, version: u8, sweep: &mut Sweep) -> Result<(), Difference> {
    let full = |index| ControllerDraft {
        names: names(version, [NAME - 1, SHORT_NAME - 1], false),
        ..controller(version, index, SLOTS)
    };
    let mut draft = draft(version, (0..CONTROLLERS as u8).map(full).collect());
    assert_eq!(draft.octets().len(), IMAGE_ROOM, "the largest image");
    try_one(lent, &format!("version {version}, the largest"), &draft.octets(), sweep)?;
    draft.tail = vec![0];
    try_one(lent, &format!("version {version}, an octet more than the largest"), &draft.octets(), sweep)
}

/// BR/EDR off at each set of four controllers of version 2, one of which does not support it, and each of these with a fault behind.
fn off_agrees<T: Target>(lent: &mut Lent<T>, sweep: &mut Sweep) -> Result<(), Difference> {
    for (off, other) in (0..16_usize).flat_map(|off| (0..=CONTROLLERS).map(move |other| (off, other))) {
        let mut draft = draft(2, (0..CONTROLLERS as u8).map(|index| controller(2, index, 0)).collect());
        for (index, controller) in draft.controllers.iter_mut().enumerate() {
            if off >> index & 1 == 1 || index == other {
                controller.flags &= !setting::BR_EDR;
            }
            if index == other {
                controller.supported &= !setting::BR_EDR;
            }
        }
        let what = format!("BR/EDR off at {off:04b}, not supported at {other}");
        try_one(lent, &what, &draft.octets(), sweep)?;
        draft.tail = vec![0];
        try_one(lent, &format!("{what}, an octet left over"), &draft.octets(), sweep)?;
        draft.controllers[CONTROLLERS - 1].tables[5].count = Some(33);
        try_one(lent, &format!("{what}, a count of 33"), &draft.octets(), sweep)?;
    }
    Ok(())
}

/// Both moves of images that are fine, that are not, and that version 1 has no place for, in each room.
fn rooms_agree<T: Target>(lent: &mut Lent<T>, sweep: &mut Sweep) -> Result<(), Difference> {
    let mut off = small(2);
    off.controllers[1].flags &= !setting::BR_EDR;
    let mut both = small(2);
    both.controllers[1].flags = 0;
    let images = [small(1), small(2), off, both].map(|draft| draft.octets());
    for image in
        images.iter().map(|image| &image[..]).chain([&[][..], &[0, 0, 0, 6, 1, 0], &[0, 0, 0, 6, 2, 0]])
    {
        for (room, way) in
            ROOMS.into_iter().flat_map(|r| [Move::Upgrade, Move::Downgrade].map(|way| (r, way)))
        {
            let given = move_agrees(lent, way, image, room)?.answer;
            sweep.moved += usize::from(given == answer::DONE);
            sweep.beyond += usize::from(given == answer::NOT_IN_IMAGE);
        }
    }
    Ok(())
}

/// Tries all of it.
pub fn versions_agree<T: Target>(lent: &mut Lent<T>) -> Result<Sweep, Difference> {
    let mut sweep = Sweep::default();
    for version in [1, 2] {
        names_agree(lent, version, &mut sweep)?;
        flags_agree(lent, version, &mut sweep)?;
        octets_agree(lent, version, &mut sweep)?;
        largest_agrees(lent, version, &mut sweep)?;
    }
    tails_agree(lent, &mut sweep)?;
    lengths_agree(lent, &mut sweep)?;
    off_agrees(lent, &mut sweep)?;
    rooms_agree(lent, &mut sweep)?;
    Ok(sweep)
}
