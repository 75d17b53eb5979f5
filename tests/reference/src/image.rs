//! The image in its two versions: what is written of a state, and which images load.

use crate::advertising::Advertising;
use crate::codes::{setting, CONTROLLERS, SLOTS};
use crate::controller::{Controller, Hardware, LocalName};
use crate::reason::{Diagnosis, ImageFault};
use crate::records::{is_static_random, Address, Record};
use crate::state::State;
use crate::table::Table;

/// The settings that every image keeps.
const FLAGS: u32 = setting::CONNECTABLE | setting::BONDABLE | setting::LOW_ENERGY;

/// Where the version octet stands.
const VERSION_AT: usize = 4;
/// Where the controller count stands.
const COUNT_AT: usize = 5;

/// The version of an image.
#[derive(Clone, Copy, PartialEq, Eq, PartialOrd, Ord, Debug, Hash)]
pub enum Version {
    /// Names whole, and BR/EDR on wherever it is supported.
    One,
    /// The used part of each name, and whether BR/EDR is on.
    Two,
}

impl Version {
    /// The version octet.
    pub fn octet(self) -> u8 {
        match self {
            Version::One => 1,
            Version::Two => 2,
        }
    }

    /// The flags that may be set.
    pub fn flags(self) -> u32 {
        match self {
            Version::One => FLAGS,
            Version::Two => FLAGS | setting::BR_EDR,
        }
    }

    /// Whether images of this version can tell the settings of a state.
    pub fn can_tell(self, state: &State) -> bool {
        self == Version::Two || !state.has_br_edr_off()
    }
}

/// The image of a state.
pub fn save(state: &State) -> Vec<u8> {
    write(state, Version::Two)
}

/// The image of a state in a version that can tell its settings.
pub fn write(state: &State, version: Version) -> Vec<u8> {
    let mut out = vec![0; 4];
    out.push(version.octet());
    out.push(state.present().count() as u8);
    for (index, slot) in state.controllers.iter().enumerate() {
        if let Some(controller) = slot {
            out.push(index as u8);
            write_controller(controller, version, &mut out);
        }
    }
    let length = out.len() as u32;
    out[..4].copy_from_slice(&length.to_be_bytes());
    out
}

/// Adds all of a controller after its index.
fn write_controller(controller: &Controller, version: Version, out: &mut Vec<u8>) {
    out.extend_from_slice(&controller.hardware.public_address);
    out.push(controller.hardware.version);
    out.extend_from_slice(&controller.hardware.manufacturer.to_be_bytes());
    out.extend_from_slice(&controller.hardware.supported.to_be_bytes());
    out.extend_from_slice(&(controller.settings() & version.flags()).to_be_bytes());
    out.extend_from_slice(&controller.static_address);
    match version {
        Version::One => controller.local_name.write(out),
        Version::Two => controller.local_name.write_used(out),
    }
    write_table(&controller.services, out);
    write_table(&controller.link_keys, out);
    write_table(&controller.long_term_keys, out);
    write_table(&controller.identity_keys, out);
    write_table(&controller.blocked, out);
    write_table(&controller.devices, out);
}

/// Adds a count and the entries in slot order.
fn write_table<R: Record>(table: &Table<R>, out: &mut Vec<u8>) {
    out.push(table.len() as u8);
    for entry in table.entries() {
        entry.write(out);
    }
}

/// An image and the place that is reached in it.
struct Reader<'a> {
    /// All octets.
    image: &'a [u8],
    /// The first octet that is still to be read.
    place: usize,
}

impl<'a> Reader<'a> {
    /// The next octets. An image that has fewer is at fault at its end.
    fn take(&mut self, count: usize) -> Result<&'a [u8], Diagnosis> {
        let taken = self.image.get(self.place..self.place + count);
        let taken = taken.ok_or(ImageFault::Short.at(self.image.len()))?;
        self.place += count;
        Ok(taken)
    }

    /// The next octets, as many as the place wants.
    fn array<const N: usize>(&mut self) -> Result<[u8; N], Diagnosis> {
        let mut out = [0; N];
        out.copy_from_slice(self.take(N)?);
        Ok(out)
    }

    /// The next octet.
    fn octet(&mut self) -> Result<u8, Diagnosis> {
        Ok(self.take(1)?[0])
    }

    /// A big-endian number of four octets.
    fn word(&mut self) -> Result<u32, Diagnosis> {
        Ok(u32::from_be_bytes(self.array()?))
    }

    /// Whether every octet is read.
    fn is_at_end(&self) -> bool {
        self.place == self.image.len()
    }
}

/// Turns a broken rule into an error; the thing at fault begins at the offset.
fn need(holds: bool, fault: ImageFault, offset: usize) -> Result<(), Diagnosis> {
    if holds {
        Ok(())
    } else {
        Err(fault.at(offset))
    }
}

/// The state that an image of either version stands for, or what is wrong with it first.
pub fn load(image: &[u8]) -> Result<State, Diagnosis> {
    read(image, &[Version::One, Version::Two])
}

/// The same of an image that has to have one of these versions.
pub fn read(image: &[u8], versions: &[Version]) -> Result<State, Diagnosis> {
    let mut reader = Reader { image, place: 0 };
    let length = reader.word()?;
    let octet = reader.octet()?;
    let found = versions.iter().find(|version| version.octet() == octet);
    let version = *found.ok_or(ImageFault::Version.at(VERSION_AT))?;
    need(usize::try_from(length) == Ok(image.len()), ImageFault::Length, 0)?;
    let count = usize::from(reader.octet()?);
    need(count <= CONTROLLERS, ImageFault::ControllerCount, COUNT_AT)?;
    let mut state = State::default();
    let mut least = 0;
    for _ in 0..count {
        let at = reader.place;
        let index = usize::from(reader.octet()?);
        need(index >= least && index < CONTROLLERS, ImageFault::Index, at)?;
        least = index + 1;
        state.controllers[index] = Some(read_controller(&mut reader, version)?);
    }
    need(reader.is_at_end(), ImageFault::LeftOver, reader.place)?;
    Ok(state)
}

/// Reads what plug gave. The supported settings are the last that a rule is about, and at fault where one is broken.
fn read_hardware(reader: &mut Reader) -> Result<Hardware, Diagnosis> {
    let public_address = reader.array()?;
    let version = reader.octet()?;
    let manufacturer = u16::from_be_bytes(reader.array()?);
    let at = reader.place;
    let supported = reader.word()?;
    let hardware = Hardware { public_address, version, manufacturer, supported };
    match hardware.fault() {
        Some(fault) => Err(ImageFault::Plug(fault).at(at)),
        None => Ok(hardware),
    }
}

/// Reads the flags and gives the settings that they stand for: those that the version has, BR/EDR as supported where it has none for
/// it, each transport on only where it is supported, and one of the two on.
fn read_flags(reader: &mut Reader, version: Version, hardware: &Hardware) -> Result<u32, Diagnosis> {
    let at = reader.place;
    let mut flags = reader.word()?;
    need(flags & !version.flags() == 0, ImageFault::Flags, at)?;
    if version == Version::One {
        flags |= hardware.supported & setting::BR_EDR;
    }
    let (br_edr, low_energy) = (flags & setting::BR_EDR != 0, flags & setting::LOW_ENERGY != 0);
    need(!br_edr || hardware.supports_br_edr(), ImageFault::BrEdrOn, at)?;
    need(!low_energy || hardware.supports_low_energy(), ImageFault::LowEnergyOn, at)?;
    need(br_edr || low_energy, ImageFault::BothOff, at)?;
    Ok(flags)
}

/// Reads a static address: zero, or a static random one with LE support.
fn read_static_address(reader: &mut Reader, hardware: &Hardware) -> Result<Address, Diagnosis> {
    let at = reader.place;
    let address = reader.array()?;
    if address != [0; 6] {
        need(is_static_random(&address), ImageFault::StaticAddress, at)?;
        need(hardware.supports_low_energy(), ImageFault::StaticUnsupported, at)?;
    }
    Ok(address)
}

/// Reads the name, number 0, or the short name, number 1: whole with a zero at its end, or as its length and that many octets, none
/// of them zero, with room for a zero behind them.
fn read_name<const N: usize>(reader: &mut Reader, version: Version, which: u8) -> Result<[u8; N], Diagnosis> {
    let at = reader.place;
    let mut name = [0; N];
    match version {
        Version::One => {
            name = reader.array()?;
            need(name[N - 1] == 0, ImageFault::NameEnd(which), at)?;
        }
        Version::Two => {
            let length = usize::from(reader.octet()?);
            let used = reader.take(length)?;
            need(length < N, ImageFault::NameLength(which), at)?;
            need(!used.contains(&0), ImageFault::NameZero(which), at)?;
            name[..length].copy_from_slice(used);
        }
    }
    Ok(name)
}

/// Reads the table of this place in the order of the six; `supported` tells
/// whether the controller may have entries there.
fn read_table<R: Record>(reader: &mut Reader, place: u8, supported: bool) -> Result<Table<R>, Diagnosis> {
    let at = reader.place;
    let count = usize::from(reader.octet()?);
    need(count <= SLOTS, ImageFault::TableCount(place), at)?;
    let mut records: Vec<R> = Vec::new();
    for _ in 0..count {
        let at = reader.place;
        let record = R::read(reader.take(R::LEN)?);
        if let Some(fault) = record.fault() {
            return Err(ImageFault::Record(place, fault.reason).at(at));
        }
        need(supported, ImageFault::RecordUnsupported(place), at)?;
        let repeated = records.iter().any(|earlier| earlier.names_same(&record));
        need(!repeated, ImageFault::Repeated(place), at)?;
        records.push(record);
    }
    Ok(Table::of(&records))
}

/// Reads all of a controller after its index.
fn read_controller(reader: &mut Reader, version: Version) -> Result<Controller, Diagnosis> {
    let hardware = read_hardware(reader)?;
    let flags = read_flags(reader, version, &hardware)?;
    let static_address = read_static_address(reader, &hardware)?;
    let name = read_name(reader, version, 0)?;
    let short_name = read_name(reader, version, 1)?;
    let (br_edr, low_energy) = (hardware.supports_br_edr(), hardware.supports_low_energy());
    Ok(Controller {
        hardware,
        powered: false,
        connectable: flags & setting::CONNECTABLE != 0,
        discoverable: false,
        bondable: flags & setting::BONDABLE != 0,
        br_edr: flags & setting::BR_EDR != 0,
        low_energy: flags & setting::LOW_ENERGY != 0,
        timer: None,
        static_address,
        local_name: LocalName { name, short_name },
        services: read_table(reader, 0, true)?,
        link_keys: read_table(reader, 1, br_edr)?,
        long_term_keys: read_table(reader, 2, low_energy)?,
        identity_keys: read_table(reader, 3, low_energy)?,
        blocked: read_table(reader, 4, true)?,
        devices: read_table(reader, 5, true)?,
        advertising: Advertising::default(),
    })
}
