//! What stands against a command: the reason, the place in its packet, and both in words.

use crate::codes::status;
use crate::reason::Reason;

/// The octet of a packet where its code begins.
pub const CODE: usize = 0;
/// The octet where its index begins.
pub const INDEX: usize = 2;
/// The octet where its parameter length begins.
pub const LENGTH: usize = 4;
/// The least buffer for the words.
pub const TEXT_ROOM: usize = 256;
/// What is said of a command that no check refuses.
pub const TAKEN: &str = "would be taken";

/// Where a check found what it refuses. Octets and records are counted from 0.
#[derive(Clone, Copy, PartialEq, Eq, PartialOrd, Ord, Debug, Hash)]
pub enum Place {
    /// At no field: the state stands against the command.
    Nowhere,
    /// At the field that begins with this octet.
    Octet(usize),
    /// At the field of a record that begins with this octet.
    Record {
        /// Which record of the list.
        record: usize,
        /// The octet, counted as outside of records.
        octet: usize,
    },
    /// At two records that name the same thing, the earlier one first.
    Records(usize, usize),
}

/// What a check refuses a command for.
#[derive(Clone, Copy, PartialEq, Eq, PartialOrd, Ord, Debug, Hash)]
pub struct Fault {
    /// The condition.
    pub reason: Reason,
    /// Where it is broken.
    pub place: Place,
}

impl Fault {
    /// A fault that has no place.
    pub fn new(reason: Reason) -> Fault {
        Fault { reason, place: Place::Nowhere }
    }

    /// A fault of the field that begins with an octet.
    pub fn at(reason: Reason, octet: usize) -> Fault {
        Fault { reason, place: Place::Octet(octet) }
    }

    /// The same fault where so many octets stand before those that it was found in.
    pub fn behind(self, octets: usize) -> Fault {
        let place = match self.place {
            Place::Octet(octet) => Place::Octet(octets + octet),
            Place::Record { record, octet } => Place::Record { record, octet: octets + octet },
            Place::Nowhere | Place::Records(..) => self.place,
        };
        Fault { place, ..self }
    }

    /// The fault of a record in a list of records of this length.
    pub fn in_record(self, record: usize, length: usize) -> Fault {
        let place = match self.behind(record * length).place {
            Place::Octet(octet) => Place::Record { record, octet },
            place => place,
        };
        Fault { place, ..self }
    }

    /// Status, condition and place in words.
    pub fn text(self) -> String {
        let place = match self.place {
            Place::Nowhere => String::new(),
            Place::Octet(octet) => format!(", octet {octet}"),
            Place::Record { record, octet } => format!(", record {record}, octet {octet}"),
            Place::Records(earlier, later) => format!(", records {earlier} and {later}"),
        };
        format!("{}: {}{place}", status_name(self.reason.status()), condition(self.reason))
    }
}

/// The fault of the field that begins with an octet, if that is wrong.
pub fn found(wrong: bool, reason: Reason, octet: usize) -> Option<Fault> {
    wrong.then_some(Fault::at(reason, octet))
}

/// What is said of a command: why it is refused, or that it would be taken.
pub fn text(fault: Option<Fault>) -> String {
    fault.map_or(TAKEN.into(), Fault::text)
}

/// The name of a status that refuses a command.
pub fn status_name(octet: u8) -> &'static str {
    match octet {
        status::UNKNOWN_COMMAND => "Unknown Command",
        status::FAILED => "Failed",
        status::NOT_PAIRED => "Not Paired",
        status::NO_RESOURCES => "No Resources",
        status::BUSY => "Busy",
        status::REJECTED => "Rejected",
        status::NOT_SUPPORTED => "Not Supported",
        status::INVALID_PARAMETERS => "Invalid Parameters",
        status::NOT_POWERED => "Not Powered",
        status::INVALID_INDEX => "Invalid Index",
        other => panic!("no command is refused with status {other:#04x}"),
    }
}

/// The condition behind a reason.
pub fn condition(reason: Reason) -> &'static str {
    use Reason::*;
    match reason {
        UnknownCommand => "the hub has no command of this code",
        HubIndex => "the command is to the hub itself, and the index is not 65535",
        ControllerIndex => "no controller has this index",
        WrongLength => "the length does not fit the command or the count in it",
        TooManyRecords => "the list has more than 32 records",
        NoBrEdr => "the controller does not support BR/EDR",
        NoLowEnergy => "the controller does not support Low Energy",
        DiscoverableUnpowered => "a discoverable timeout needs power",
        NotPowered => "the controller is not powered",
        Busy => "another settings command is under way at this index",
        NoAddress => "the controller has no public and no static address",
        NotConnectable => "connectable is off",
        OnlyLowEnergy => "without BR/EDR support Low Energy stays on",
        BrEdrOff => "BR/EDR is off",
        BrEdrPowered => "BR/EDR cannot be turned off while power is on",
        StaticAddressSet => "BR/EDR cannot be turned on with a static address set",
        Powered => "the static address cannot be set while power is on",
        LowEnergyOff => "Low Energy is off",
        TimeoutUnpowered => "an advertising timeout needs power",
        NotPaired => "no key of this device is held",
        AlreadyBlocked => "the device is blocked already",
        NoFreeSlot => "the table has no free slot",
        AbsentUuid => "the table does not hold this UUID",
        NotBlocked => "the device is not blocked",
        AbsentDevice => "the table does not hold this device",
        AbsentInstance => "there is no such advertising instance",
        value => value_condition(value),
    }
}

/// The condition behind a reason of the value check.
fn value_condition(reason: Reason) -> &'static str {
    use Reason::*;
    match reason {
        SettingValue => "the value is not 0 or 1",
        DiscoverableValue => "the value is not 0, 1 or 2",
        TimeoutGiven => "value 0 takes no timeout",
        TimeoutMissing => "value 2 needs a timeout",
        StaticAddress | RandomAddress => "the address is not a static random one",
        NameEnd => "the name does not end with a zero",
        ShortNameEnd => "the short name does not end with a zero",
        ZeroUuid => "the UUID is zero",
        DebugFlag => "the debug flag is not 0 or 1",
        BrEdrType => "the address type is not 0 (BR/EDR)",
        LowEnergyType => "the address type is not 1 or 2 (Low Energy)",
        AddressType => "the address type is above 2",
        LinkKeyType => "the key type is above 8",
        LongTermKeyType => "the key type is above 4",
        Master => "Master is not 0 or 1",
        KeySize => "the encryption key size is not 7 to 16",
        Repeated => "two keys are for one device (long term keys: and the same Master)",
        Disconnect => "the disconnect flag is not 0 or 1",
        ZeroAddress => "the address is zero",
        ZeroForAll => "address zero (all devices) takes only address type 0",
        Action => "the action is above 2",
        ActionForType => "a BR/EDR device takes only action 1",
        Instance => "the advertising instance is not 1 to 5",
        AdvertisingFlags => "the advertising flags are not zero",
        AdvertisingLength => "the advertising data are over 31 octets",
        ScanResponseLength => "the scan response data are over 31 octets",
        other => panic!("{other:?} is no reason of the value check"),
    }
}
