//! What stands where in an image, by its own counts and lengths.

use crate::records::KINDS;
use reference::codes::{NAME, SHORT_NAME};

/// A thing of an image that is whole or not, and right or not.
#[derive(Clone, Copy, PartialEq, Eq, PartialOrd, Ord, Debug)]
pub enum Thing {
    /// The length field.
    Length,
    /// The version octet.
    Version,
    /// The controller count.
    ControllerCount,
    /// The index of a controller.
    Index,
    /// Its public address.
    PublicAddress,
    /// Its Bluetooth version.
    BluetoothVersion,
    /// Its manufacturer.
    Manufacturer,
    /// Its supported settings.
    Supported,
    /// Its flags.
    Flags,
    /// Its static address.
    StaticAddress,
    /// Its name, number 0, or its short name, number 1.
    Name(usize),
    /// The count of a table, the tables counted from 0.
    TableCount(usize),
    /// A record of a table, the records counted from 0.
    Record(usize, usize),
}

/// A thing and where it stands.
#[derive(Clone, Copy, PartialEq, Eq, Debug)]
pub struct Part {
    /// What it is.
    pub thing: Thing,
    /// The controller that it is of, counted from 0; 0 before them.
    pub controller: usize,
    /// Its first octet.
    pub start: usize,
    /// The octet behind it; past the end of the image if it is not whole.
    pub end: usize,
}

/// An image and the parts found in it so far.
struct Walk<'a> {
    /// All octets.
    image: &'a [u8],
    /// The parts, one behind the other.
    parts: Vec<Part>,
    /// The controller that is walked.
    controller: usize,
}

impl Walk<'_> {
    /// Where the next part starts.
    fn place(&self) -> usize {
        self.parts.last().map_or(0, |part| part.end)
    }

    /// Adds a part of so many octets; gives its first octet if it is whole.
    fn part(&mut self, thing: Thing, length: usize) -> Option<u8> {
        let (start, end) = (self.place(), self.place() + length);
        self.parts.push(Part { thing, controller: self.controller, start, end });
        self.image.get(start..end).map(|octets| octets[0])
    }

    /// Walks a name of a version; nothing if it is not whole.
    fn name(&mut self, version: u8, which: usize) -> Option<()> {
        let used = self.image.get(self.place()).copied().unwrap_or(0);
        let length = if version == 1 { [NAME, SHORT_NAME][which] } else { 1 + usize::from(used) };
        self.part(Thing::Name(which), length).map(|_| ())
    }

    /// Walks a controller; nothing if it is not whole.
    fn controller(&mut self, version: u8) -> Option<()> {
        use Thing::*;
        for (thing, length) in [(Index, 1), (PublicAddress, 6), (BluetoothVersion, 1), (Manufacturer, 2)] {
            self.part(thing, length)?;
        }
        for (thing, length) in [(Supported, 4), (Flags, 4), (StaticAddress, 6)] {
            self.part(thing, length)?;
        }
        self.name(version, 0)?;
        self.name(version, 1)?;
        for (table, kind) in KINDS.iter().enumerate() {
            for record in 0..self.part(TableCount(table), 1)?.into() {
                self.part(Record(table, record), kind.length())?;
            }
        }
        self.controller += 1;
        Some(())
    }

    /// Walks all of it; nothing if it is not whole or of no version.
    fn all(&mut self) -> Option<()> {
        self.part(Thing::Length, 4)?;
        let version = self.part(Thing::Version, 1).filter(|version| [1, 2].contains(version))?;
        for _ in 0..self.part(Thing::ControllerCount, 1)? {
            self.controller(version)?;
        }
        Some(())
    }
}

/// The parts of an image, up to the first that is not whole or to a version octet of no version. No rule is looked at.
pub fn parts(image: &[u8]) -> Vec<Part> {
    let mut walk = Walk { image, parts: Vec::new(), controller: 0 };
    let _whole = walk.all();
    walk.parts
}
