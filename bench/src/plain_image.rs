//! Images in plain Rust: the state of one, the image of a state, and the moves between versions 1 and 2. An image is taken apart into slices of itself and
//! looked at whole before anything is written; what is refused is told with its first fault and where that begins.

use crate::plain::{record, same, static_random, well_formed, zero};
use crate::states::{BLOCK, SIZES, WAITING, WORDS};

/// The longest image, and the shortest buffer for one.
pub const IMAGE: usize = 16_014;
/// Where name and short name stand in a block, and the octets of both.
pub const NAMES: [(usize, usize); 2] = [(33, 249), (282, 11)];
/// Connectable, bondable, BR/EDR and Low Energy in the flags, and where each stands in a block.
const FLAGS: [(u32, usize); 4] = [(0x02, 20), (0x10, 22), (BR_EDR, 23), (LOW_ENERGY, 24)];
const BR_EDR: u32 = 0x80;
const LOW_ENERGY: u32 = 0x200;

/// A controller of an image. Public address, version, manufacturer and supported settings are the hardware; a name may have zeros behind it.
#[derive(Clone, Copy)]
struct Part<'a> {
    hardware: &'a [u8],
    flags: u32,
    fixed: &'a [u8],
    names: [&'a [u8]; 2],
    tables: [&'a [u8]; 6],
}

impl Part<'_> {
    fn supported(&self) -> u32 {
        big_endian(&self.hardware[9..])
    }
}

/// The controllers of an image, by index.
type Parts<'a> = [Option<Part<'a>>; 4];

/// The number of a refused image: the answer, and where the first thing at fault begins.
fn fault(answer: u64, at: usize) -> u64 {
    answer | (at as u64) << 32
}

/// An image, and how much of it is read.
struct Rest<'a> {
    image: &'a [u8],
    at: usize,
}

impl<'a> Rest<'a> {
    fn take(&mut self, count: usize) -> Result<&'a [u8], u64> {
        let taken = self.image.get(self.at..self.at + count).ok_or(fault(71, self.image.len()))?;
        self.at += count;
        Ok(taken)
    }

    fn octet(&mut self) -> Result<u8, u64> {
        Ok(self.take(1)?[0])
    }
}

fn big_endian(octets: &[u8]) -> u32 {
    u32::from_be_bytes(octets[..4].try_into().unwrap())
}

/// Takes an image apart that has one of these versions and is acceptable; else the number of its first fault.
fn parts(image: &[u8], versions: std::ops::RangeInclusive<u8>) -> Result<Parts<'_>, u64> {
    let mut rest = Rest { image, at: 0 };
    let head = rest.take(5)?;
    if !versions.contains(&head[4]) {
        return Err(fault(72, 4));
    }
    if big_endian(head) as usize != image.len() {
        return Err(fault(71, 0));
    }
    let count = rest.octet()?;
    if count > 4 {
        return Err(fault(73, 5));
    }
    let (mut parts, mut least) = ([None; 4], 0);
    for _ in 0..count {
        let at = rest.at;
        let index = usize::from(rest.octet()?);
        if index < least || index > 3 {
            return Err(fault(73, at));
        }
        least = index + 1;
        parts[index] = Some(part(&mut rest, head[4])?);
    }
    if rest.at == image.len() {
        Ok(parts)
    } else {
        Err(fault(71, rest.at))
    }
}

/// A controller behind its index, if it keeps the rules.
fn part<'a>(rest: &mut Rest<'a>, version: u8) -> Result<Part<'a>, u64> {
    let hardware = rest.take(13)?;
    let supported = big_endian(&hardware[9..]);
    let (bredr, le) = (supported & BR_EDR, supported & LOW_ENERGY);
    if supported >= 0x10000 || (bredr | le) == 0 || (bredr != 0 && zero(&hardware[..6])) {
        return Err(fault(74, rest.at - 4));
    }
    let written = big_endian(rest.take(4)?);
    let flags = if version == 1 { written | bredr } else { written };
    let allowed = 0x12 | le | if version == 1 { 0 } else { bredr };
    if written & !allowed != 0 || flags & (BR_EDR | LOW_ENERGY) == 0 {
        return Err(fault(74, rest.at - 4));
    }
    let fixed = rest.take(6)?;
    if !zero(fixed) && (le == 0 || !static_random(fixed)) {
        return Err(fault(74, rest.at - 6));
    }
    let names = [name(rest, version, NAMES[0].1)?, name(rest, version, NAMES[1].1)?];
    let mut tables = [&[][..]; 6];
    for (t, records) in tables.iter_mut().enumerate() {
        let kept = match t {
            1 => bredr != 0,
            2 | 3 => le != 0,
            _ => true,
        };
        *records = table(rest, t, kept)?;
    }
    Ok(Part { hardware, flags, fixed, names, tables })
}

/// A name: in version 1 all its octets, the last one zero, in version 2 a length and as many octets, none zero.
fn name<'a>(rest: &mut Rest<'a>, version: u8, room: usize) -> Result<&'a [u8], u64> {
    let at = rest.at;
    let (name, fits) = if version == 1 {
        let name = rest.take(room)?;
        (name, name[room - 1] == 0)
    } else {
        let length = usize::from(rest.octet()?);
        let name = rest.take(length)?;
        (name, length < room && !name.contains(&0))
    };
    if fits {
        Ok(name)
    } else {
        Err(fault(74, at))
    }
}

/// The records of a table that the controller may have, or not: each by its own rule and none for the device or UUID of an earlier one.
fn table<'a>(rest: &mut Rest<'a>, t: usize, kept: bool) -> Result<&'a [u8], u64> {
    let count = usize::from(rest.octet()?);
    if count > 32 {
        return Err(fault(75, rest.at - 1));
    }
    let start = rest.at;
    for _ in 0..count {
        let earlier = &rest.image[start..rest.at];
        let r = rest.take(SIZES[t])?;
        if !kept || !record(t, r) {
            return Err(fault(76, rest.at - SIZES[t]));
        }
        if earlier.chunks_exact(SIZES[t]).any(|q| same(t, r, q)) {
            return Err(fault(77, rest.at - SIZES[t]));
        }
    }
    Ok(&rest.image[start..rest.at])
}

/// The octets of a name up to its first zero.
fn used(name: &[u8]) -> &[u8] {
    name.split(|&x| x == 0).next().unwrap_or(name)
}

/// What is being written, and how much of it there is.
struct Out<'a> {
    octets: &'a mut [u8],
    count: usize,
}

impl Out<'_> {
    fn put(&mut self, octets: &[u8]) {
        self.octets[self.count..][..octets.len()].copy_from_slice(octets);
        self.count += octets.len();
    }

    /// A name as a version has it.
    fn put_name(&mut self, name: &[u8], version: u8, room: usize) {
        let used = used(name);
        if version == 2 {
            self.put(&[used.len() as u8]);
        }
        self.put(used);
        if version == 1 {
            self.octets[self.count..][..room - used.len()].fill(0);
            self.count += room - used.len();
        }
    }

    /// Length, version and count; the length is written last.
    fn head(&mut self, version: u8, count: usize) {
        self.put(&[0, 0, 0, 0, version, count as u8]);
    }

    /// The number that a call gives.
    fn done(self) -> u64 {
        self.octets[..4].copy_from_slice(&(self.count as u32).to_be_bytes());
        (self.count as u64) << 8
    }
}

/// Writes controllers as an image of a version: the number that a call gives.
fn written(parts: &Parts, version: u8, octets: &mut [u8]) -> u64 {
    let mut out = Out { octets, count: 0 };
    out.head(version, parts.iter().flatten().count());
    for (index, part) in parts.iter().enumerate() {
        let Some(part) = part else { continue };
        let flags = if version == 1 { part.flags & !BR_EDR } else { part.flags };
        out.put(&[index as u8]);
        out.put(part.hardware);
        out.put(&flags.to_be_bytes());
        out.put(part.fixed);
        for (name, (_, room)) in part.names.iter().zip(NAMES) {
            out.put_name(name, version, room);
        }
        for (records, size) in part.tables.iter().zip(SIZES) {
            out.put(&[(records.len() / size) as u8]);
            out.put(records);
        }
    }
    out.done()
}

/// Version 1 to 2.
pub fn upgrade(image: &[u8], out: &mut [u8]) -> u64 {
    if out.len() < IMAGE {
        return 4;
    }
    parts(image, 1..=1).map_or_else(|fault| fault, |parts| written(&parts, 2, out))
}

/// Version 2 to 1.
pub fn downgrade(image: &[u8], out: &mut [u8]) -> u64 {
    if out.len() < IMAGE {
        return 4;
    }
    let parts = match parts(image, 2..=2) {
        Ok(parts) => parts,
        Err(fault) => return fault,
    };
    if parts.iter().flatten().any(|part| part.supported() & !part.flags & BR_EDR != 0) {
        return 8;
    }
    written(&parts, 1, out)
}

/// A state is made from an image of either version.
pub fn load(state: &mut [u8], image: &[u8]) -> u64 {
    let parts = match parts(image, 1..=2) {
        Ok(parts) => parts,
        Err(fault) => return fault,
    };
    state.fill(0);
    for (part, block) in parts.iter().zip(state[4..WAITING].chunks_exact_mut(BLOCK)) {
        if let Some(part) = part {
            fill(block, part);
        }
    }
    0
}

/// The block of a controller; its octets are zero before.
fn fill(b: &mut [u8], part: &Part) {
    b[0] = 1;
    b[6] = part.hardware[6];
    (b[7], b[8]) = (part.hardware[8], part.hardware[7]);
    b[9..13].copy_from_slice(&part.supported().to_le_bytes());
    b[13..19].copy_from_slice(&part.hardware[..6]);
    for (flag, at) in FLAGS {
        b[at] = u8::from(part.flags & flag != 0);
    }
    b[27..33].copy_from_slice(part.fixed);
    for (name, (at, _)) in part.names.iter().zip(NAMES) {
        b[at..at + name.len()].copy_from_slice(name);
    }
    for ((records, size), at) in part.tables.iter().zip(SIZES).zip(WORDS) {
        let word = ((1_u64 << (records.len() / size)) - 1) as u32;
        b[at..at + 4].copy_from_slice(&word.to_le_bytes());
        b[at + 4..at + 4 + records.len()].copy_from_slice(records);
    }
}

/// The image of a state, in version 2.
pub fn save(state: &[u8], octets: &mut [u8]) -> u64 {
    if !well_formed(state) {
        return 5;
    }
    if octets.len() < IMAGE {
        return 4;
    }
    let blocks = || state[4..WAITING].chunks_exact(BLOCK).enumerate().filter(|(_, b)| b[0] == 1);
    let mut out = Out { octets, count: 0 };
    out.head(2, blocks().count());
    blocks().for_each(|(index, b)| save_block(&mut out, index, b));
    out.done()
}

/// The controller of a block; its records are closed up.
fn save_block(out: &mut Out, index: usize, b: &[u8]) {
    let flags = FLAGS.iter().filter(|(_, at)| b[*at] == 1).fold(0, |flags, (flag, _)| flags | flag);
    out.put(&[index as u8]);
    out.put(&b[13..19]);
    out.put(&[b[6], b[8], b[7], b[12], b[11], b[10], b[9]]);
    out.put(&flags.to_be_bytes());
    out.put(&b[27..33]);
    for (at, room) in NAMES {
        out.put_name(&b[at..at + room], 2, room);
    }
    for (size, at) in SIZES.into_iter().zip(WORDS) {
        let word = u32::from_le_bytes(b[at..at + 4].try_into().unwrap());
        out.put(&[word.count_ones() as u8]);
        for (_, record) in
            b[at + 4..].chunks_exact(size).take(32).enumerate().filter(|(k, _)| word >> k & 1 == 1)
        {
            out.put(record);
        }
    }
}
