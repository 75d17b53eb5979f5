//! One controller: what plug gave, its settings, names, timer, tables and advertising instances.

use crate::advertising::Advertising;
use crate::codes::{setting, NAME, SHORT_NAME};
use crate::reason::ArgumentFault;
use crate::records::{Address, Device, IdentityKey, LinkKey, LongTermKey, Peer, Service};
use crate::table::Table;

/// The name and the short name of a controller, each ended by a zero.
#[derive(Clone, PartialEq, Eq, Hash, Debug)]
pub struct LocalName {
    /// The name.
    pub name: [u8; NAME],
    /// The name for where the other does not fit.
    pub short_name: [u8; SHORT_NAME],
}

impl LocalName {
    /// Reads 260 octets.
    pub fn read(octets: &[u8]) -> LocalName {
        let mut names = LocalName { name: [0; NAME], short_name: [0; SHORT_NAME] };
        names.name.copy_from_slice(&octets[..NAME]);
        names.short_name.copy_from_slice(&octets[NAME..NAME + SHORT_NAME]);
        names
    }

    /// Adds the 260 octets.
    pub fn write(&self, out: &mut Vec<u8>) {
        out.extend_from_slice(&self.name);
        out.extend_from_slice(&self.short_name);
    }

    /// The used part of the name, number 0, or of the short name, number 1: its octets up to the first zero.
    pub fn used(&self, which: u64) -> Option<&[u8]> {
        let octets = match which {
            0 => &self.name[..],
            1 => &self.short_name[..],
            _ => return None,
        };
        octets.split(|octet| *octet == 0).next()
    }

    /// Adds the used part of both, each behind its length.
    pub fn write_used(&self, out: &mut Vec<u8>) {
        for used in [0, 1].into_iter().filter_map(|which| self.used(which)) {
            out.push(used.len() as u8);
            out.extend_from_slice(used);
        }
    }

    /// The 260 octets.
    pub fn octets(&self) -> Vec<u8> {
        let mut out = Vec::with_capacity(NAME + SHORT_NAME);
        self.write(&mut out);
        out
    }
}

/// What plug tells of a controller; it never changes.
#[derive(Clone, PartialEq, Eq, Hash, Debug)]
pub struct Hardware {
    /// The public address, zero if there is none.
    pub public_address: Address,
    /// The Bluetooth version octet.
    pub version: u8,
    /// The manufacturer's number.
    pub manufacturer: u16,
    /// The supported settings.
    pub supported: u32,
}

impl Hardware {
    /// Whether the controller can do BR/EDR.
    pub fn supports_br_edr(&self) -> bool {
        self.supported & setting::BR_EDR != 0
    }

    /// Whether the controller can do LE.
    pub fn supports_low_energy(&self) -> bool {
        self.supported & setting::LOW_ENERGY != 0
    }

    /// The first plug rule that address and settings break.
    pub fn fault(&self) -> Option<ArgumentFault> {
        if self.supported & !setting::ALL != 0 {
            Some(ArgumentFault::HighSettings)
        } else if !self.supports_br_edr() && !self.supports_low_energy() {
            Some(ArgumentFault::NoTransport)
        } else {
            let nameless = self.supports_br_edr() && self.public_address == [0; 6];
            nameless.then_some(ArgumentFault::NoPublicAddress)
        }
    }
}

/// A present controller.
#[derive(Clone, PartialEq, Eq, Hash, Debug)]
pub struct Controller {
    /// What plug told.
    pub hardware: Hardware,
    /// Setting bit 0.
    pub powered: bool,
    /// Setting bit 1.
    pub connectable: bool,
    /// Setting bit 3.
    pub discoverable: bool,
    /// Setting bit 4.
    pub bondable: bool,
    /// Setting bit 7, on only where it is supported.
    pub br_edr: bool,
    /// Setting bit 9.
    pub low_energy: bool,
    /// Seconds until discoverable ends, at least 1, where a timer runs.
    pub timer: Option<u16>,
    /// The static random address, zero if there is none.
    pub static_address: Address,
    /// Name and short name.
    pub local_name: LocalName,
    /// UUIDs and their hints.
    pub services: Table<Service>,
    /// Link keys.
    pub link_keys: Table<LinkKey>,
    /// Long term keys.
    pub long_term_keys: Table<LongTermKey>,
    /// Identity resolving keys.
    pub identity_keys: Table<IdentityKey>,
    /// Blocked devices.
    pub blocked: Table<Peer>,
    /// The action list.
    pub devices: Table<Device>,
    /// The advertising instances and the turn.
    pub advertising: Advertising,
}

impl Controller {
    /// A controller as plug leaves it.
    pub fn plugged(hardware: Hardware) -> Controller {
        Controller {
            br_edr: hardware.supports_br_edr(),
            low_energy: hardware.supports_low_energy(),
            hardware,
            powered: false,
            connectable: false,
            discoverable: false,
            bondable: false,
            timer: None,
            static_address: [0; 6],
            local_name: LocalName { name: [0; NAME], short_name: [0; SHORT_NAME] },
            services: Table::new(),
            link_keys: Table::new(),
            long_term_keys: Table::new(),
            identity_keys: Table::new(),
            blocked: Table::new(),
            devices: Table::new(),
            advertising: Advertising::default(),
        }
    }

    /// Whether the static address is the one in use: there is no public one, or BR/EDR, which goes by it, is off.
    fn uses_static_address(&self) -> bool {
        self.static_address != [0; 6] && (self.hardware.public_address == [0; 6] || !self.br_edr)
    }

    /// Whether the controller has any address of its own.
    pub fn has_address(&self) -> bool {
        self.static_address != [0; 6] || self.hardware.public_address != [0; 6]
    }

    /// The Current_Settings word.
    pub fn settings(&self) -> u32 {
        let bits = [
            (self.powered, setting::POWERED),
            (self.connectable, setting::CONNECTABLE),
            (self.discoverable, setting::DISCOVERABLE),
            (self.bondable, setting::BONDABLE),
            (self.br_edr, setting::BR_EDR),
            (self.low_energy, setting::LOW_ENERGY),
            (self.uses_static_address(), setting::STATIC_ADDRESS),
        ];
        bits.iter().filter(|(on, _)| *on).map(|(_, bit)| bit).sum()
    }

    /// The class of device: two zeros, then all hints joined by or.
    pub fn class(&self) -> [u8; 3] {
        [0, 0, self.services.entries().fold(0, |joined, service| joined | service.hint)]
    }

    /// The 280 octets of Read Controller Information.
    pub fn information(&self) -> Vec<u8> {
        let mut out = Vec::with_capacity(280);
        out.extend_from_slice(&self.hardware.public_address);
        out.push(self.hardware.version);
        out.extend_from_slice(&self.hardware.manufacturer.to_le_bytes());
        out.extend_from_slice(&self.hardware.supported.to_le_bytes());
        out.extend_from_slice(&self.settings().to_le_bytes());
        out.extend_from_slice(&self.class());
        self.local_name.write(&mut out);
        out
    }

    /// Whether any key of the three kinds stands under this address and type.
    pub fn is_paired(&self, peer: &Peer) -> bool {
        self.link_keys.entries().any(|key| key.peer == *peer)
            || self.long_term_keys.entries().any(|key| key.peer == *peer)
            || self.identity_keys.entries().any(|key| key.peer == *peer)
    }

    /// Discoverable goes off, and its timer with it.
    pub fn end_discoverable(&mut self) {
        self.discoverable = false;
        self.timer = None;
    }

    /// Whether BR/EDR is off though it is supported.
    pub fn has_br_edr_off(&self) -> bool {
        self.hardware.supports_br_edr() && !self.br_edr
    }

    /// Lets the discoverable timer run; true if it ended, and discoverable with it.
    pub fn count_down(&mut self, step: u32) -> bool {
        match self.timer {
            Some(seconds) if u32::from(seconds) <= step => {
                self.end_discoverable();
                true
            }
            Some(seconds) => {
                self.timer = Some(seconds - step as u16);
                false
            }
            None => false,
        }
    }
}
