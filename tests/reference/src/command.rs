//! The commands to a controller, read from their parameters.

use crate::codes::command as code;
use crate::controller::LocalName;
use crate::packet::{little_endian, Packet, HEADER};
use crate::reason::Reason;
use crate::records::{Address, Device, IdentityKey, LinkKey, LongTermKey, Peer, Record, Service};
use crate::why::{Fault, LENGTH};

/// A command to one controller, its parameters of the right length. The values
/// are as received: nothing is checked here.
#[derive(Clone, PartialEq, Eq, Hash, Debug)]
pub enum Command {
    /// Read Controller Information.
    ReadInformation,
    /// Set Powered.
    SetPowered(u8),
    /// Set Discoverable.
    SetDiscoverable {
        /// 0 off, 1 general, 2 limited.
        mode: u8,
        /// Seconds, 0 for no timer.
        timeout: u16,
    },
    /// Set Connectable.
    SetConnectable(u8),
    /// Set Bondable.
    SetBondable(u8),
    /// Set Low Energy.
    SetLowEnergy(u8),
    /// Set BR/EDR.
    SetBrEdr(u8),
    /// Set Static Address.
    SetStaticAddress(Address),
    /// Set Local Name.
    SetLocalName(Box<LocalName>),
    /// Add UUID.
    AddUuid(Service),
    /// Remove UUID.
    RemoveUuid([u8; 16]),
    /// Load Link Keys.
    LoadLinkKeys {
        /// The debug flag; it is not kept.
        debug: u8,
        /// The new table.
        keys: Vec<LinkKey>,
    },
    /// Load Long Term Keys.
    LoadLongTermKeys(Vec<LongTermKey>),
    /// Load Identity Resolving Keys.
    LoadIdentityKeys(Vec<IdentityKey>),
    /// Unpair Device.
    Unpair {
        /// Whose keys go.
        peer: Peer,
        /// Whether connections are to end.
        disconnect: u8,
    },
    /// Block Device.
    Block(Peer),
    /// Unblock Device.
    Unblock(Peer),
    /// Add Device.
    AddDevice(Device),
    /// Remove Device.
    RemoveDevice(Peer),
    /// Add Advertising.
    AddAdvertising(Box<NewInstance>),
    /// Remove Advertising: of this instance, or of all for 0.
    RemoveAdvertising(u8),
}

/// The parameters of Add Advertising.
#[derive(Clone, PartialEq, Eq, Hash, Debug)]
pub struct NewInstance {
    /// Which instance.
    pub instance: u8,
    /// Its flags.
    pub flags: u32,
    /// Seconds of a turn, 0 for the default.
    pub duration: u16,
    /// Seconds on air, 0 for no limit.
    pub timeout: u16,
    /// Adv_Data.
    pub data: Vec<u8>,
    /// Scan_Rsp.
    pub scan_response: Vec<u8>,
}

impl NewInstance {
    /// The octets before Adv_Data.
    const FIXED: usize = 11;
    /// The parameter octet that is Adv_Data_Len.
    pub const DATA_LENGTH: usize = 9;
    /// The parameter octet that is Scan_Rsp_Len.
    pub const SCAN_LENGTH: usize = 10;

    /// Whether the octets are as many as the two lengths among them say.
    fn length_fits(octets: &[u8]) -> bool {
        octets.len() >= Self::FIXED
            && octets.len()
                == Self::FIXED
                    + usize::from(octets[Self::DATA_LENGTH])
                    + usize::from(octets[Self::SCAN_LENGTH])
    }

    /// Reads parameters whose length fits.
    fn read(octets: &[u8]) -> NewInstance {
        let (data, scan_response) = octets[Self::FIXED..].split_at(octets[Self::DATA_LENGTH].into());
        NewInstance {
            instance: octets[0],
            flags: u32::from_le_bytes([octets[1], octets[2], octets[3], octets[4]]),
            duration: little_endian(octets, 5),
            timeout: little_endian(octets, 7),
            data: data.to_vec(),
            scan_response: scan_response.to_vec(),
        }
    }
}

/// Whether a code is one of the 24.
pub fn is_known(code: u16) -> bool {
    code::KNOWN.contains(&code)
}

/// Whether a code is about no controller and so wants the index 0xFFFF.
pub fn is_global(code: u16) -> bool {
    code <= code::READ_INDEX_LIST
}

/// The octets before a key list's records, its count last among them, and the
/// octets of each record; none for commands without a list.
fn list_shape(code: u16) -> Option<(usize, usize)> {
    match code {
        code::LOAD_LINK_KEYS => Some((3, LinkKey::LEN)),
        code::LOAD_LONG_TERM_KEYS => Some((2, LongTermKey::LEN)),
        code::LOAD_IDENTITY_KEYS => Some((2, IdentityKey::LEN)),
        _ => None,
    }
}

/// Parameter octets of a known command whose parameters always have one length.
fn fixed_length(code: u16) -> usize {
    match code {
        code::SET_POWERED | code::SET_CONNECTABLE | code::SET_BONDABLE | code::SET_LOW_ENERGY => 1,
        code::SET_BR_EDR | code::REMOVE_ADVERTISING => 1,
        code::SET_DISCOVERABLE => 3,
        code::SET_STATIC_ADDRESS => 6,
        code::SET_LOCAL_NAME => 260,
        code::ADD_UUID => 17,
        code::REMOVE_UUID => 16,
        code::UNPAIR | code::ADD_DEVICE => 8,
        code::BLOCK | code::UNBLOCK | code::REMOVE_DEVICE => 7,
        _ => 0,
    }
}

/// The octet of a packet where the count of a key list begins.
pub fn count_octet(code: u16) -> Option<usize> {
    list_shape(code).map(|(before, _)| HEADER + before - 2)
}

/// What is wrong with the length of a known command, if anything is. Its length field clashes with a count or with the
/// lengths of data, the last of which is at fault where it is in the packet; else the length field itself is.
pub fn length_fault(packet: &Packet) -> Option<Fault> {
    let length = packet.parameters.len();
    let (fixed, last) = match list_shape(packet.code) {
        Some((before, _)) => (before, before - 2),
        None if packet.code == code::ADD_ADVERTISING => (NewInstance::FIXED, NewInstance::SCAN_LENGTH),
        None => (usize::MAX, 0),
    };
    let octet = if length >= fixed { HEADER + last } else { LENGTH };
    (!length_fits(packet)).then_some(Fault::at(Reason::WrongLength, octet))
}

/// Whether the parameters of a known command have the length it takes.
fn length_fits(packet: &Packet) -> bool {
    let length = packet.parameters.len();
    if packet.code == code::ADD_ADVERTISING {
        return NewInstance::length_fits(packet.parameters);
    }
    match list_shape(packet.code) {
        Some((before, each)) if length >= before => {
            let count = usize::from(little_endian(packet.parameters, before - 2));
            length == before + each * count
        }
        Some(_) => false,
        None => length == fixed_length(packet.code),
    }
}

/// All records of a list whose length fits.
fn records<R: Record>(octets: &[u8]) -> Vec<R> {
    octets.chunks_exact(R::LEN).map(R::read).collect()
}

impl Command {
    /// Reads a known command to a controller whose length fits.
    pub fn read(packet: &Packet) -> Command {
        let octets = packet.parameters;
        match packet.code {
            code::LOAD_LINK_KEYS => Command::LoadLinkKeys { debug: octets[0], keys: records(&octets[3..]) },
            code::LOAD_LONG_TERM_KEYS => Command::LoadLongTermKeys(records(&octets[2..])),
            code::LOAD_IDENTITY_KEYS => Command::LoadIdentityKeys(records(&octets[2..])),
            code::UNPAIR => Command::Unpair { peer: Peer::read(&octets[..7]), disconnect: octets[7] },
            code::BLOCK => Command::Block(Peer::read(octets)),
            code::UNBLOCK => Command::Unblock(Peer::read(octets)),
            code::ADD_DEVICE => Command::AddDevice(Device::read(octets)),
            code::REMOVE_DEVICE => Command::RemoveDevice(Peer::read(octets)),
            code::ADD_ADVERTISING => Command::AddAdvertising(Box::new(NewInstance::read(octets))),
            code::REMOVE_ADVERTISING => Command::RemoveAdvertising(octets[0]),
            _ => Command::read_setting(packet.code, octets),
        }
    }

    /// Reads the commands that are about the controller itself.
    fn read_setting(code: u16, octets: &[u8]) -> Command {
        let exact = "the length was checked";
        match code {
            code::SET_POWERED => Command::SetPowered(octets[0]),
            code::SET_DISCOVERABLE => {
                Command::SetDiscoverable { mode: octets[0], timeout: little_endian(octets, 1) }
            }
            code::SET_CONNECTABLE => Command::SetConnectable(octets[0]),
            code::SET_BONDABLE => Command::SetBondable(octets[0]),
            code::SET_LOW_ENERGY => Command::SetLowEnergy(octets[0]),
            code::SET_BR_EDR => Command::SetBrEdr(octets[0]),
            code::SET_STATIC_ADDRESS => Command::SetStaticAddress(octets.try_into().expect(exact)),
            code::SET_LOCAL_NAME => Command::SetLocalName(Box::new(LocalName::read(octets))),
            code::ADD_UUID => Command::AddUuid(Service::read(octets)),
            code::REMOVE_UUID => Command::RemoveUuid(octets.try_into().expect(exact)),
            _ => Command::ReadInformation,
        }
    }

    /// The command's code.
    pub fn code(&self) -> u16 {
        match self {
            Command::ReadInformation => code::READ_INFORMATION,
            Command::SetPowered(_) => code::SET_POWERED,
            Command::SetDiscoverable { .. } => code::SET_DISCOVERABLE,
            Command::SetConnectable(_) => code::SET_CONNECTABLE,
            Command::SetBondable(_) => code::SET_BONDABLE,
            Command::SetLowEnergy(_) => code::SET_LOW_ENERGY,
            Command::SetBrEdr(_) => code::SET_BR_EDR,
            Command::SetStaticAddress(_) => code::SET_STATIC_ADDRESS,
            Command::SetLocalName(_) => code::SET_LOCAL_NAME,
            Command::AddUuid(_) => code::ADD_UUID,
            Command::RemoveUuid(_) => code::REMOVE_UUID,
            Command::LoadLinkKeys { .. } => code::LOAD_LINK_KEYS,
            Command::LoadLongTermKeys(_) => code::LOAD_LONG_TERM_KEYS,
            Command::LoadIdentityKeys(_) => code::LOAD_IDENTITY_KEYS,
            Command::Unpair { .. } => code::UNPAIR,
            Command::Block(_) => code::BLOCK,
            Command::Unblock(_) => code::UNBLOCK,
            Command::AddDevice(_) => code::ADD_DEVICE,
            Command::RemoveDevice(_) => code::REMOVE_DEVICE,
            Command::AddAdvertising(_) => code::ADD_ADVERTISING,
            Command::RemoveAdvertising(_) => code::REMOVE_ADVERTISING,
        }
    }

    /// The address and type that the five address commands echo in every reply.
    pub fn echoed(&self) -> Option<Peer> {
        match self {
            Command::Unpair { peer, .. } => Some(*peer),
            Command::Block(peer) | Command::Unblock(peer) | Command::RemoveDevice(peer) => Some(*peer),
            Command::AddDevice(device) => Some(device.peer),
            _ => None,
        }
    }
}
