//! Slips in what is told of a refused image.

/// What a hub tells wrongly.
#[derive(Clone, Copy, PartialEq, Eq, Debug)]
pub enum Slip {
    /// A clash of public address and supported settings is told at the address.
    EarlierAddress,
    /// Flags that clash with the supported settings are told at these.
    EarlierSupported,
    /// A static address without LE support is told at the supported settings.
    EarlierStatic,
    /// A key without support is told at the supported settings.
    EarlierKeys,
    /// Indexes out of order are told at the earlier one.
    EarlierIndex,
    /// A repeat is told at the earlier record.
    EarlierRecord,
    /// A record that is wrong and repeated is told as repeated.
    RepeatFirst,
    /// A wrong record is told before a repeat that stands before it in its table.
    RecordsFirst,
    /// A repeat is told before a wrong record that stands before it in its table.
    RepeatsFirst,
    /// A table has to be whole before a record of it is looked at.
    WholeTableFirst,
    /// A key without support is told behind all other faults of its table.
    SupportLast,
    /// A key without support is told at the count of its table.
    SupportAtCount,
    /// A key without support is told as a field.
    SupportIsField,
    /// The length field is looked at before the version.
    LengthFirst,
    /// The length field is looked at behind all else.
    LengthLast,
    /// A wrong length field is told at the end.
    LengthAtEnd,
    /// Octets left over are told at the end.
    LeftOverAtEnd,
    /// Octets left over are told at the last of them.
    LeftOverAtLast,
    /// Octets left over are told as a wrong controller count.
    LeftOverIsCount,
    /// What is not whole is told where it begins.
    CutAtThing,
    /// What is not whole is told as what it would be if it were wrong.
    CutIsThing,
    /// What is not whole is told an octet behind the end.
    CutBehind,
    /// Fewer than five octets are told as a wrong version.
    ShortIsVersion,
    /// Fewer than five octets are told at 0.
    ShortAtZero,
    /// A missing controller count is told as a wrong one.
    NoCountIsIndex,
    /// Too many controllers are told at the first of them.
    ManyAtFirst,
    /// Too many controllers are told as a count above 32.
    ManyIsCount,
    /// A wrong index is told as a field.
    IndexIsField,
    /// Indexes out of order are told as a field.
    OrderIsField,
    /// A table's count is told as a record.
    CountIsRecord,
    /// A table's count is told at its first record.
    CountAtRecord,
    /// A wrong record is told at the count of its table.
    RecordAtTable,
    /// A repeat is told at the count of its table.
    RepeatAtTable,
    /// A wrong record is told at its octet that is wrong.
    RecordAtOctet,
    /// A repeat is told as a wrong record.
    RepeatIsRecord,
    /// Offsets are counted within the controller.
    WithinController,
    /// Offsets are counted from the first controller on.
    BehindHead,
    /// A name of version 2 is told at its first octet behind the length.
    NameAtOctets,
    /// A name of version 2 is told at the zero in it.
    NameAtZero,
    /// A name of version 1 is told at its last octet.
    NameAtEnd,
    /// A short name is told at the name.
    ShortNameAtName,
    /// The length of a name is looked at before it is whole.
    NameLengthFirst,
    /// A field is told at its last octet.
    FieldAtLast,
    /// The last controller at fault is told, not the first.
    LastController,
    /// An image is refused with 7, and the offset.
    OldNumber,
    /// No offset is told.
    NoOffset,
    /// Load tells no offset.
    LoadWithout,
    /// The moves tell no offset.
    MovesWithout,
    /// Offsets are counted from 1.
    FromOne,
    /// Offsets have eight bits.
    OneOctet,
    /// Offsets have twelve bits.
    TwelveBits,
    /// The offset is told as a count.
    OffsetCounted,
    /// A length comes with 4.
    OffsetWithRoom,
    /// An offset comes with 5.
    OffsetWithState,
    /// An offset comes with 8.
    OffsetWithBeyond,
    /// A length comes with 0.
    LengthWithDone,
    /// A move looks at the version that it takes behind all that load looks at.
    MoveVersionLast,
}

/// All slips.
pub const SLIPS: [Slip; 57] = [
    Slip::EarlierAddress,
    Slip::EarlierSupported,
    Slip::EarlierStatic,
    Slip::EarlierKeys,
    Slip::EarlierIndex,
    Slip::EarlierRecord,
    Slip::RepeatFirst,
    Slip::RecordsFirst,
    Slip::RepeatsFirst,
    Slip::WholeTableFirst,
    Slip::SupportLast,
    Slip::SupportAtCount,
    Slip::SupportIsField,
    Slip::LengthFirst,
    Slip::LengthLast,
    Slip::LengthAtEnd,
    Slip::LeftOverAtEnd,
    Slip::LeftOverAtLast,
    Slip::LeftOverIsCount,
    Slip::CutAtThing,
    Slip::CutIsThing,
    Slip::CutBehind,
    Slip::ShortIsVersion,
    Slip::ShortAtZero,
    Slip::NoCountIsIndex,
    Slip::ManyAtFirst,
    Slip::ManyIsCount,
    Slip::IndexIsField,
    Slip::OrderIsField,
    Slip::CountIsRecord,
    Slip::CountAtRecord,
    Slip::RecordAtTable,
    Slip::RepeatAtTable,
    Slip::RecordAtOctet,
    Slip::RepeatIsRecord,
    Slip::WithinController,
    Slip::BehindHead,
    Slip::NameAtOctets,
    Slip::NameAtZero,
    Slip::NameAtEnd,
    Slip::ShortNameAtName,
    Slip::NameLengthFirst,
    Slip::FieldAtLast,
    Slip::LastController,
    Slip::OldNumber,
    Slip::NoOffset,
    Slip::LoadWithout,
    Slip::MovesWithout,
    Slip::FromOne,
    Slip::OneOctet,
    Slip::TwelveBits,
    Slip::OffsetCounted,
    Slip::OffsetWithRoom,
    Slip::OffsetWithState,
    Slip::OffsetWithBeyond,
    Slip::LengthWithDone,
    Slip::MoveVersionLast,
];
