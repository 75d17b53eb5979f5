//! Images field by field, so that one field can be damaged.

use crate::pools;
use crate::random::Random;
use crate::records::{key_list, Kind, KINDS};
use reference::codes::{setting, CONTROLLERS, NAME, SHORT_NAME, SLOTS};
use reference::controller::LocalName;
use reference::records::Address;

/// An image before it is written out.
#[derive(Clone, PartialEq, Eq, Debug)]
pub struct Draft {
    /// The length field, where it is not the number of octets.
    pub length: Option<u32>,
    /// The version octet.
    pub version: u8,
    /// The controller count, where it is not the number of controllers.
    pub count: Option<u8>,
    /// The controllers.
    pub controllers: Vec<ControllerDraft>,
    /// Octets after the last table.
    pub tail: Vec<u8>,
    /// Octets that are missing at the end.
    pub cut: usize,
}

/// A controller of an image.
#[derive(Clone, PartialEq, Eq, Debug)]
pub struct ControllerDraft {
    /// Its index.
    pub index: u8,
    /// Its public address.
    pub public_address: Address,
    /// Its Bluetooth version.
    pub version: u8,
    /// Its manufacturer.
    pub manufacturer: u16,
    /// Its supported settings.
    pub supported: u32,
    /// The settings that are kept.
    pub flags: u32,
    /// Its static address.
    pub static_address: Address,
    /// Name and short name.
    pub names: NamesDraft,
    /// The six tables.
    pub tables: [TableDraft; 6],
}

/// Name and short name of an image.
#[derive(Clone, PartialEq, Eq, Debug)]
pub enum NamesDraft {
    /// All 260 octets, as in version 1.
    Whole(Vec<u8>),
    /// The used part of each, as in version 2.
    Used([NameDraft; 2]),
}

/// A name of an image of version 2.
#[derive(Clone, PartialEq, Eq, Debug)]
pub struct NameDraft {
    /// The length octet, where it is not the number of octets.
    pub length: Option<u8>,
    /// The octets.
    pub octets: Vec<u8>,
}

/// A table of an image.
#[derive(Clone, PartialEq, Eq, Debug, Default)]
pub struct TableDraft {
    /// The count octet, where it is not the number of records.
    pub count: Option<u8>,
    /// The records.
    pub records: Vec<Vec<u8>>,
}

/// Takes octets from the front, if there are as many.
fn take<'a>(rest: &mut &'a [u8], count: usize) -> Option<&'a [u8]> {
    let (taken, left) = rest.split_at_checked(count)?;
    *rest = left;
    Some(taken)
}

/// Takes a fixed number of octets from the front, if there are as many.
fn array<const N: usize>(rest: &mut &[u8]) -> Option<[u8; N]> {
    take(rest, N)?.try_into().ok()
}

impl Draft {
    /// A valid image of either version, with some controllers at random indexes.
    pub fn random(random: &mut Random) -> Draft {
        let version = random.between(1, 2) as u8;
        let count = random.below(CONTROLLERS + 1);
        let mut indexes = random.sample(CONTROLLERS, count);
        indexes.sort_unstable();
        let controllers = indexes.iter().map(|index| ControllerDraft::random(random, version, *index as u8));
        Draft { length: None, version, count: None, controllers: controllers.collect(), tail: vec![], cut: 0 }
    }

    /// Reads a valid image.
    pub fn read(image: &[u8]) -> Draft {
        Draft::of(image).expect("a valid image is whole")
    }

    /// Reads an image of version 1 or 2 by its counts and lengths, if all that they count is there; no other rule is looked at, and no
    /// octet behind it.
    pub fn of(image: &[u8]) -> Option<Draft> {
        let mut rest = image.get(4..)?;
        let [version, count] = array(&mut rest)?;
        let controller = |_| ControllerDraft::of(&mut rest, version);
        let controllers = (0..count).map(controller).collect::<Option<_>>()?;
        Some(Draft { length: None, version, count: None, controllers, tail: vec![], cut: 0 })
    }

    /// The octets of the image.
    pub fn octets(&self) -> Vec<u8> {
        let count = self.count.unwrap_or(self.controllers.len() as u8);
        let mut out = vec![0, 0, 0, 0, self.version, count];
        for controller in &self.controllers {
            controller.write(&mut out);
        }
        out.extend_from_slice(&self.tail);
        out.truncate(out.len() - self.cut.min(out.len() - 4));
        let length = self.length.unwrap_or(out.len() as u32);
        out[..4].copy_from_slice(&length.to_be_bytes());
        out
    }
}

impl NamesDraft {
    /// Names as a version has them.
    fn random(random: &mut Random, version: u8) -> NamesDraft {
        let whole = pools::names(random);
        if version == 1 {
            return NamesDraft::Whole(whole);
        }
        let names = LocalName::read(&whole);
        let used = |which| names.used(which).unwrap_or_default().to_vec();
        NamesDraft::Used([0, 1].map(|which| NameDraft { length: None, octets: used(which) }))
    }

    /// Reads names as a version has them, if they are whole.
    fn of(rest: &mut &[u8], version: u8) -> Option<NamesDraft> {
        let mut used = || {
            let length = array::<1>(rest)?[0];
            Some(NameDraft { length: None, octets: take(rest, length.into())?.to_vec() })
        };
        match version {
            1 => Some(NamesDraft::Whole(take(rest, NAME + SHORT_NAME)?.to_vec())),
            2 => Some(NamesDraft::Used([used()?, used()?])),
            _ => None,
        }
    }

    /// Adds their octets.
    fn write(&self, out: &mut Vec<u8>) {
        match self {
            NamesDraft::Whole(octets) => out.extend_from_slice(octets),
            NamesDraft::Used(names) => {
                for name in names {
                    out.push(name.length.unwrap_or(name.octets.len() as u8));
                    out.extend_from_slice(&name.octets);
                }
            }
        }
    }
}

impl ControllerDraft {
    /// Whether it supports BR/EDR.
    pub fn has_br_edr(&self) -> bool {
        self.supported & setting::BR_EDR != 0
    }

    /// Whether it supports LE.
    pub fn has_low_energy(&self) -> bool {
        self.supported & setting::LOW_ENERGY != 0
    }

    /// Whether it may have records of a kind.
    pub fn takes(&self, kind: Kind) -> bool {
        match kind {
            Kind::LinkKey => self.has_br_edr(),
            Kind::LongTermKey | Kind::IdentityKey => self.has_low_energy(),
            _ => true,
        }
    }

    /// A valid controller.
    fn random(random: &mut Random, version: u8, index: u8) -> ControllerDraft {
        let (supported, public_address) = pools::hardware(random);
        let mut controller = ControllerDraft {
            index,
            public_address,
            version: random.octet(),
            manufacturer: random.bits() as u16,
            supported,
            flags: random.pick(&[0, 0x0002, 0x0010, 0x0012]),
            static_address: [0; 6],
            names: NamesDraft::random(random, version),
            tables: Default::default(),
        };
        let low_energy = controller.has_low_energy();
        if low_energy && (!controller.has_br_edr() || random.percent(60)) {
            controller.flags |= setting::LOW_ENERGY;
        }
        if low_energy && random.percent(60) {
            controller.static_address = pools::static_address(random);
        }
        if version == 2 && controller.has_br_edr() {
            let off = controller.flags & setting::LOW_ENERGY != 0 && random.percent(40);
            controller.flags |= if off { 0 } else { setting::BR_EDR };
        }
        for (place, kind) in KINDS.iter().enumerate() {
            if controller.takes(*kind) {
                controller.tables[place].records = table(random, *kind);
            }
        }
        controller
    }

    /// Reads a controller by its counts, if it is whole.
    fn of(rest: &mut &[u8], version: u8) -> Option<ControllerDraft> {
        let mut controller = ControllerDraft {
            index: array::<1>(rest)?[0],
            public_address: array(rest)?,
            version: array::<1>(rest)?[0],
            manufacturer: u16::from_be_bytes(array(rest)?),
            supported: u32::from_be_bytes(array(rest)?),
            flags: u32::from_be_bytes(array(rest)?),
            static_address: array(rest)?,
            names: NamesDraft::of(rest, version)?,
            tables: Default::default(),
        };
        for (place, kind) in KINDS.iter().enumerate() {
            let count = array::<1>(rest)?[0];
            let records = (0..count).map(|_| take(rest, kind.length()).map(<[u8]>::to_vec));
            controller.tables[place].records = records.collect::<Option<_>>()?;
        }
        Some(controller)
    }

    /// Adds the octets of the controller.
    fn write(&self, out: &mut Vec<u8>) {
        out.push(self.index);
        out.extend_from_slice(&self.public_address);
        out.push(self.version);
        out.extend_from_slice(&self.manufacturer.to_be_bytes());
        out.extend_from_slice(&self.supported.to_be_bytes());
        out.extend_from_slice(&self.flags.to_be_bytes());
        out.extend_from_slice(&self.static_address);
        self.names.write(out);
        for table in &self.tables {
            out.push(table.count.unwrap_or(table.records.len() as u8));
            out.extend(table.records.concat());
        }
    }
}

/// A valid table: often empty, small or full.
fn table(random: &mut Random, kind: Kind) -> Vec<Vec<u8>> {
    let count = match random.below(6) {
        0 | 1 => 0,
        2 => SLOTS,
        3 => random.between(30, 32),
        _ => random.between(1, 5),
    };
    records(random, kind, count)
}

/// So many different valid records of a kind; there are at least 40 of each.
pub fn records(random: &mut Random, kind: Kind, count: usize) -> Vec<Vec<u8>> {
    match kind {
        Kind::Service => {
            let numbers = random.sample(pools::UUIDS, count);
            let record = |number: &usize| [&pools::uuid(*number)[..], &[pools::hint(random)]].concat();
            numbers.iter().map(record).collect()
        }
        Kind::Blocked | Kind::Device => devices(random, kind, count),
        _ => key_list(random, kind, count),
    }
}

/// Different devices of the three types, with actions for the action list.
fn devices(random: &mut Random, kind: Kind, count: usize) -> Vec<Vec<u8>> {
    let numbers = random.sample(3 * (13 + pools::LOW + pools::OUTSIDE), count);
    let record = |number: &usize| {
        let (place, address_type) = (number / 3, (number % 3) as u8);
        let address = match place.checked_sub(13) {
            Some(low) if low < pools::LOW => pools::low_address(low),
            Some(behind) => pools::outside_address(behind - pools::LOW),
            None => pools::high_address(place),
        };
        let mut record = [&address[..], &[address_type]].concat();
        if kind == Kind::Device {
            record.push(if address_type == 0 { 1 } else { random.below(3) as u8 });
        }
        record
    };
    numbers.iter().map(record).collect()
}
