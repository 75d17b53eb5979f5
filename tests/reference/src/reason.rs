//! Why a call is refused: one reason for each condition that the rules write.

use crate::codes::{answer, status};

/// Why a command is refused.
#[derive(Clone, Copy, PartialEq, Eq, PartialOrd, Ord, Debug, Hash)]
pub enum Reason {
    /// The code is none of the 24.
    UnknownCommand,
    /// A command about no controller with another index than 0xFFFF.
    HubIndex,
    /// No controller is at the index.
    ControllerIndex,
    /// The parameters have another length than the command takes.
    WrongLength,
    /// A list of more than 32 records.
    TooManyRecords,
    /// A switch that is not 0 or 1.
    SettingValue,
    /// A discoverable mode above 2.
    DiscoverableValue,
    /// Discoverable off with a timeout.
    TimeoutGiven,
    /// Limited discoverable without a timeout.
    TimeoutMissing,
    /// A static address that is neither zero nor a static random one.
    StaticAddress,
    /// The name does not end in zero.
    NameEnd,
    /// The short name does not end in zero.
    ShortNameEnd,
    /// The zero UUID is added.
    ZeroUuid,
    /// A debug flag that is not 0 or 1.
    DebugFlag,
    /// A link key whose address type is not BR/EDR.
    BrEdrType,
    /// An LE key whose address type is not LE Public or LE Random.
    LowEnergyType,
    /// An address type above the last.
    AddressType,
    /// A type of a link key above the last.
    LinkKeyType,
    /// A type of a long term key above the last.
    LongTermKeyType,
    /// A Master octet that is not 0 or 1.
    Master,
    /// An encryption size outside 7 to 16.
    KeySize,
    /// An LE Random address that is not a static one.
    RandomAddress,
    /// Two entries that name one thing.
    Repeated,
    /// A Disconnect octet that is not 0 or 1.
    Disconnect,
    /// A zero address where a device is to be named.
    ZeroAddress,
    /// A zero address, for all devices, with another type than BR/EDR.
    ZeroForAll,
    /// An action above 2.
    Action,
    /// A BR/EDR device with another action than 1.
    ActionForType,
    /// An advertising instance outside 1 to 5.
    Instance,
    /// Advertising flags that are not zero.
    AdvertisingFlags,
    /// Adv_Data of more than 31 octets.
    AdvertisingLength,
    /// Scan_Rsp of more than 31 octets.
    ScanResponseLength,
    /// The controller lacks BR/EDR.
    NoBrEdr,
    /// The controller lacks LE.
    NoLowEnergy,
    /// A discoverable timeout without power.
    DiscoverableUnpowered,
    /// The controller is not powered.
    NotPowered,
    /// A command is under way at this index.
    Busy,
    /// Power on without any address.
    NoAddress,
    /// Discoverable on with connectable off.
    NotConnectable,
    /// LE off where there is no BR/EDR.
    OnlyLowEnergy,
    /// Discoverable on, or LE off, with BR/EDR off.
    BrEdrOff,
    /// BR/EDR off while powered.
    BrEdrPowered,
    /// BR/EDR on beside a static address.
    StaticAddressSet,
    /// A static address set while powered.
    Powered,
    /// An instance is added, or BR/EDR set, with LE off.
    LowEnergyOff,
    /// An instance with a timeout is added without power.
    TimeoutUnpowered,
    /// The device has no key.
    NotPaired,
    /// The device is blocked already.
    AlreadyBlocked,
    /// All 32 slots are taken.
    NoFreeSlot,
    /// No such UUID to remove.
    AbsentUuid,
    /// The device to unblock is not blocked.
    NotBlocked,
    /// No such device to remove.
    AbsentDevice,
    /// No such advertising instance to remove.
    AbsentInstance,
}

impl Reason {
    /// All of them.
    pub const ALL: [Reason; 53] = [
        Reason::UnknownCommand,
        Reason::HubIndex,
        Reason::ControllerIndex,
        Reason::WrongLength,
        Reason::TooManyRecords,
        Reason::SettingValue,
        Reason::DiscoverableValue,
        Reason::TimeoutGiven,
        Reason::TimeoutMissing,
        Reason::StaticAddress,
        Reason::NameEnd,
        Reason::ShortNameEnd,
        Reason::ZeroUuid,
        Reason::DebugFlag,
        Reason::BrEdrType,
        Reason::LowEnergyType,
        Reason::AddressType,
        Reason::LinkKeyType,
        Reason::LongTermKeyType,
        Reason::Master,
        Reason::KeySize,
        Reason::RandomAddress,
        Reason::Repeated,
        Reason::Disconnect,
        Reason::ZeroAddress,
        Reason::ZeroForAll,
        Reason::Action,
        Reason::ActionForType,
        Reason::Instance,
        Reason::AdvertisingFlags,
        Reason::AdvertisingLength,
        Reason::ScanResponseLength,
        Reason::NoBrEdr,
        Reason::NoLowEnergy,
        Reason::DiscoverableUnpowered,
        Reason::NotPowered,
        Reason::Busy,
        Reason::NoAddress,
        Reason::NotConnectable,
        Reason::OnlyLowEnergy,
        Reason::BrEdrOff,
        Reason::BrEdrPowered,
        Reason::StaticAddressSet,
        Reason::Powered,
        Reason::LowEnergyOff,
        Reason::TimeoutUnpowered,
        Reason::NotPaired,
        Reason::AlreadyBlocked,
        Reason::NoFreeSlot,
        Reason::AbsentUuid,
        Reason::NotBlocked,
        Reason::AbsentDevice,
        Reason::AbsentInstance,
    ];

    /// The status octet that tells the host of this reason.
    pub fn status(self) -> u8 {
        use Reason::*;
        match self {
            UnknownCommand => status::UNKNOWN_COMMAND,
            HubIndex | ControllerIndex => status::INVALID_INDEX,
            TooManyRecords | NoFreeSlot => status::NO_RESOURCES,
            NoBrEdr | NoLowEnergy => status::NOT_SUPPORTED,
            DiscoverableUnpowered | NotPowered => status::NOT_POWERED,
            Busy => status::BUSY,
            NoAddress | NotConnectable | OnlyLowEnergy | BrEdrOff => status::REJECTED,
            BrEdrPowered | StaticAddressSet => status::REJECTED,
            Powered | LowEnergyOff | TimeoutUnpowered => status::REJECTED,
            NotPaired => status::NOT_PAIRED,
            AlreadyBlocked => status::FAILED,
            _ => status::INVALID_PARAMETERS,
        }
    }
}

/// Why a plug, unplug, report or clock call or a look-up is answered 6.
#[derive(Clone, Copy, PartialEq, Eq, PartialOrd, Ord, Debug, Hash)]
pub enum ArgumentFault {
    /// An index above 3.
    IndexRange,
    /// Plug of a present index.
    Present,
    /// Unplug of an absent index, or a look-up there.
    Absent,
    /// An address that is not 6 octets long.
    AddressLength,
    /// Supported bits above 15.
    HighSettings,
    /// Neither BR/EDR nor LE supported.
    NoTransport,
    /// BR/EDR with a zero public address.
    NoPublicAddress,
    /// A report to an index without a command under way.
    NothingUnderWay,
    /// A report status above the last.
    ReportStatus,
    /// A clock step that is too long.
    ClockStep,
    /// A look-up in a table above the last.
    Table,
    /// A look-up of a key that is not as long as those of the table.
    KeyLength,
}

/// Why an image is not acceptable.
#[derive(Clone, Copy, PartialEq, Eq, PartialOrd, Ord, Debug, Hash)]
pub enum ImageFault {
    /// The image ends before a field or a record is whole.
    Short,
    /// The length field is not the number of octets.
    Length,
    /// The version octet is none of those that are taken.
    Version,
    /// More than four controllers.
    ControllerCount,
    /// Indexes that do not ascend, or one above 3.
    Index,
    /// What plug would refuse of address and supported settings.
    Plug(ArgumentFault),
    /// Flags that the version does not have.
    Flags,
    /// BR/EDR on without BR/EDR support.
    BrEdrOn,
    /// LE on without LE support.
    LowEnergyOn,
    /// LE off where BR/EDR is off too, or not supported.
    BothOff,
    /// A static address that the command would refuse.
    StaticAddress,
    /// A static address without LE support.
    StaticUnsupported,
    /// The name, number 0, or the short name, number 1, does not end in zero.
    NameEnd(u8),
    /// More octets of a name than it has before its last.
    NameLength(u8),
    /// A zero in the used part of a name.
    NameZero(u8),
    /// A table of more than 32 records; the tables count from 0.
    TableCount(u8),
    /// A record that its command would refuse by itself.
    Record(u8, Reason),
    /// A key of a kind that the controller does not support.
    RecordUnsupported(u8),
    /// A record that names the same thing as an earlier one.
    Repeated(u8),
    /// Octets after the last table.
    LeftOver,
}

impl ImageFault {
    /// The answer that tells the host of this fault.
    pub fn answer(self) -> u8 {
        use ImageFault::*;
        match self {
            Short | Length | LeftOver => answer::IMAGE_LENGTH,
            Version => answer::IMAGE_VERSION,
            ControllerCount | Index => answer::IMAGE_INDEX,
            Plug(_) | Flags | BrEdrOn | LowEnergyOn | BothOff => answer::IMAGE_FIELD,
            StaticAddress | StaticUnsupported => answer::IMAGE_FIELD,
            NameEnd(_) | NameLength(_) | NameZero(_) => answer::IMAGE_FIELD,
            TableCount(_) => answer::IMAGE_COUNT,
            Record(..) | RecordUnsupported(_) => answer::IMAGE_RECORD,
            Repeated(_) => answer::IMAGE_REPEATED,
        }
    }

    /// This fault of what begins at an offset.
    pub fn at(self, offset: usize) -> Diagnosis {
        Diagnosis { fault: self, offset }
    }
}

/// What is wrong with an image: the first thing at fault, and where it begins.
#[derive(Clone, Copy, PartialEq, Eq, PartialOrd, Ord, Debug, Hash)]
pub struct Diagnosis {
    /// What is wrong with it.
    pub fault: ImageFault,
    /// The octets of the image before it.
    pub offset: usize,
}
