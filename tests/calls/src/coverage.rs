//! What a long enough run comes to: every refusal that each call can get.

use reference::codes::command as code;
use reference::command::is_global;
use reference::reason::ArgumentFault as Fault;
use reference::reason::Reason::{self, *};

/// The reasons beside index and length that a command can be refused for.
fn reasons(code: u16) -> &'static [Reason] {
    match code {
        code::SET_POWERED => &[SettingValue, Busy, NoAddress],
        code::SET_DISCOVERABLE => &[
            DiscoverableValue,
            TimeoutGiven,
            TimeoutMissing,
            NoBrEdr,
            DiscoverableUnpowered,
            Busy,
            NotConnectable,
            BrEdrOff,
        ],
        code::SET_CONNECTABLE => &[SettingValue, Busy],
        code::SET_BONDABLE => &[SettingValue],
        code::SET_LOW_ENERGY => &[SettingValue, NoLowEnergy, Busy, OnlyLowEnergy, BrEdrOff],
        code::SET_BR_EDR => {
            &[SettingValue, NoBrEdr, NoLowEnergy, Busy, BrEdrPowered, StaticAddressSet, LowEnergyOff]
        }
        code::SET_STATIC_ADDRESS => &[StaticAddress, NoLowEnergy, Busy, Powered],
        code::SET_LOCAL_NAME => &[NameEnd, ShortNameEnd],
        _ => list_reasons(code),
    }
}

/// The same for the commands that are about tables and instances.
fn list_reasons(code: u16) -> &'static [Reason] {
    match code {
        code::ADD_UUID => &[ZeroUuid, NoFreeSlot],
        code::REMOVE_UUID => &[AbsentUuid],
        code::LOAD_LINK_KEYS => &[TooManyRecords, DebugFlag, BrEdrType, LinkKeyType, Repeated, NoBrEdr],
        code::LOAD_LONG_TERM_KEYS => &[
            TooManyRecords,
            LowEnergyType,
            RandomAddress,
            LongTermKeyType,
            Master,
            KeySize,
            Repeated,
            NoLowEnergy,
        ],
        code::LOAD_IDENTITY_KEYS => &[TooManyRecords, LowEnergyType, RandomAddress, Repeated, NoLowEnergy],
        code::UNPAIR => &[AddressType, Disconnect, NotPowered, NotPaired],
        code::BLOCK => &[AddressType, ZeroAddress, AlreadyBlocked, NoFreeSlot],
        code::UNBLOCK => &[AddressType, ZeroAddress, NotBlocked],
        code::ADD_DEVICE => &[AddressType, ZeroAddress, Action, ActionForType, NoFreeSlot],
        code::REMOVE_DEVICE => &[AddressType, ZeroForAll, AbsentDevice],
        code::ADD_ADVERTISING => &[
            Instance,
            AdvertisingFlags,
            AdvertisingLength,
            ScanResponseLength,
            LowEnergyOff,
            TimeoutUnpowered,
        ],
        code::REMOVE_ADVERTISING => &[AbsentInstance],
        _ => &[],
    }
}

/// Every call with every reason that it can be refused for.
pub fn expected_refusals() -> Vec<(String, String)> {
    let mut out = Vec::new();
    for code in code::KNOWN {
        let index = if is_global(code) { HubIndex } else { ControllerIndex };
        let all = [&[index, WrongLength], reasons(code)].concat();
        out.extend(all.iter().map(|reason| (format!("{code:#06x}"), format!("{reason:?}"))));
        out.push((format!("{code:#06x}"), "Room".into()));
    }
    let plug = [
        Fault::IndexRange,
        Fault::Present,
        Fault::AddressLength,
        Fault::HighSettings,
        Fault::NoTransport,
        Fault::NoPublicAddress,
    ];
    out.extend(plug.map(|fault| ("plug".into(), format!("{fault:?}"))));
    let others = [
        ("report", "NothingUnderWay"),
        ("report", "ReportStatus"),
        ("clock", "ClockStep"),
        ("unplug", "Absent"),
        ("no packet", "Short"),
        ("no packet", "LengthField"),
        ("unknown code", "UnknownCommand"),
    ];
    out.extend(others.map(|(call, reason)| (call.into(), reason.into())));
    for call in ["lump", "plug", "report", "clock", "unplug", "save", "no packet", "unknown code"] {
        out.push((call.into(), "Room".into()));
    }
    out
}

/// Pairs of reasons that stand against one command together, so that their order
/// shows: the first answers.
pub fn expected_orders() -> Vec<(String, String, String)> {
    let values = [Instance, AdvertisingFlags, AdvertisingLength, ScanResponseLength];
    let pairs: [(u16, &[Reason], &[Reason]); 17] = [
        (code::SET_POWERED, &[SettingValue], &[Busy]),
        (code::SET_DISCOVERABLE, &[DiscoverableValue, TimeoutGiven, TimeoutMissing], &[NoBrEdr, Busy]),
        (code::SET_DISCOVERABLE, &[TimeoutMissing, NoBrEdr, DiscoverableUnpowered, Busy], &[NotConnectable]),
        (code::SET_DISCOVERABLE, &[TimeoutMissing, DiscoverableUnpowered, Busy], &[BrEdrOff]),
        (code::SET_DISCOVERABLE, &[DiscoverableValue, TimeoutGiven, NoBrEdr], &[DiscoverableUnpowered]),
        (code::SET_DISCOVERABLE, &[NoBrEdr, DiscoverableUnpowered], &[Busy]),
        (code::SET_LOW_ENERGY, &[SettingValue, NoLowEnergy], &[Busy]),
        (code::SET_LOW_ENERGY, &[Busy], &[OnlyLowEnergy, BrEdrOff]),
        (code::SET_BR_EDR, &[SettingValue, NoBrEdr, NoLowEnergy], &[Busy]),
        (code::SET_BR_EDR, &[NoBrEdr, Busy], &[BrEdrPowered, StaticAddressSet]),
        (code::SET_BR_EDR, &[NoLowEnergy, Busy], &[BrEdrPowered, LowEnergyOff]),
        (code::SET_STATIC_ADDRESS, &[StaticAddress, NoLowEnergy, Busy], &[Powered]),
        (code::SET_STATIC_ADDRESS, &[StaticAddress, NoLowEnergy], &[Busy]),
        (code::LOAD_LINK_KEYS, &[TooManyRecords, DebugFlag, LinkKeyType, Repeated], &[NoBrEdr]),
        (code::LOAD_LINK_KEYS, &[TooManyRecords], &[DebugFlag, BrEdrType, LinkKeyType, Repeated]),
        (code::UNPAIR, &[AddressType, Disconnect, NotPowered], &[NotPaired]),
        (code::ADD_ADVERTISING, &values, &[LowEnergyOff, TimeoutUnpowered]),
    ];
    let mut out = Vec::new();
    for (code, firsts, seconds) in pairs {
        for (first, second) in
            firsts.iter().flat_map(|first| seconds.iter().map(move |second| (first, second)))
        {
            out.push((format!("{code:#06x}"), format!("{first:?}"), format!("{second:?}")));
        }
    }
    out
}
