//! Codes, statuses, answers and sizes of the management interface.

/// Command codes, and which of them the hub knows.
pub mod command {
    /// Read Management Version Information.
    pub const READ_VERSION: u16 = 0x0001;
    /// Read Management Supported Commands.
    pub const READ_COMMANDS: u16 = 0x0002;
    /// Read Controller Index List.
    pub const READ_INDEX_LIST: u16 = 0x0003;
    /// Read Controller Information.
    pub const READ_INFORMATION: u16 = 0x0004;
    /// Set Powered.
    pub const SET_POWERED: u16 = 0x0005;
    /// Set Discoverable.
    pub const SET_DISCOVERABLE: u16 = 0x0006;
    /// Set Connectable.
    pub const SET_CONNECTABLE: u16 = 0x0007;
    /// Set Bondable.
    pub const SET_BONDABLE: u16 = 0x0009;
    /// Set Low Energy.
    pub const SET_LOW_ENERGY: u16 = 0x000D;
    /// Set Local Name.
    pub const SET_LOCAL_NAME: u16 = 0x000F;
    /// Add UUID.
    pub const ADD_UUID: u16 = 0x0010;
    /// Remove UUID.
    pub const REMOVE_UUID: u16 = 0x0011;
    /// Load Link Keys.
    pub const LOAD_LINK_KEYS: u16 = 0x0012;
    /// Load Long Term Keys.
    pub const LOAD_LONG_TERM_KEYS: u16 = 0x0013;
    /// Unpair Device.
    pub const UNPAIR: u16 = 0x001B;
    /// Block Device.
    pub const BLOCK: u16 = 0x0026;
    /// Unblock Device.
    pub const UNBLOCK: u16 = 0x0027;
    /// Set BR/EDR.
    pub const SET_BR_EDR: u16 = 0x002A;
    /// Set Static Address.
    pub const SET_STATIC_ADDRESS: u16 = 0x002B;
    /// Load Identity Resolving Keys.
    pub const LOAD_IDENTITY_KEYS: u16 = 0x0030;
    /// Add Device.
    pub const ADD_DEVICE: u16 = 0x0033;
    /// Remove Device.
    pub const REMOVE_DEVICE: u16 = 0x0034;
    /// Add Advertising.
    pub const ADD_ADVERTISING: u16 = 0x003E;
    /// Remove Advertising.
    pub const REMOVE_ADVERTISING: u16 = 0x003F;

    /// The 24 known codes, ascending.
    pub const KNOWN: [u16; 24] = [
        READ_VERSION,
        READ_COMMANDS,
        READ_INDEX_LIST,
        READ_INFORMATION,
        SET_POWERED,
        SET_DISCOVERABLE,
        SET_CONNECTABLE,
        SET_BONDABLE,
        SET_LOW_ENERGY,
        SET_LOCAL_NAME,
        ADD_UUID,
        REMOVE_UUID,
        LOAD_LINK_KEYS,
        LOAD_LONG_TERM_KEYS,
        UNPAIR,
        BLOCK,
        UNBLOCK,
        SET_BR_EDR,
        SET_STATIC_ADDRESS,
        LOAD_IDENTITY_KEYS,
        ADD_DEVICE,
        REMOVE_DEVICE,
        ADD_ADVERTISING,
        REMOVE_ADVERTISING,
    ];
}

/// Event codes.
pub mod event {
    /// Command Complete.
    pub const COMMAND_COMPLETE: u16 = 0x0001;
    /// Command Status.
    pub const COMMAND_STATUS: u16 = 0x0002;
    /// Index Added.
    pub const INDEX_ADDED: u16 = 0x0004;
    /// Index Removed.
    pub const INDEX_REMOVED: u16 = 0x0005;
    /// New Settings.
    pub const NEW_SETTINGS: u16 = 0x0006;
    /// Class Of Device Changed.
    pub const CLASS_CHANGED: u16 = 0x0007;
    /// Local Name Changed.
    pub const NAME_CHANGED: u16 = 0x0008;
    /// Device Blocked.
    pub const DEVICE_BLOCKED: u16 = 0x0014;
    /// Device Unblocked.
    pub const DEVICE_UNBLOCKED: u16 = 0x0015;
    /// Device Unpaired.
    pub const DEVICE_UNPAIRED: u16 = 0x0016;
    /// Device Added.
    pub const DEVICE_ADDED: u16 = 0x001A;
    /// Device Removed.
    pub const DEVICE_REMOVED: u16 = 0x001B;
    /// Advertising Added.
    pub const ADVERTISING_ADDED: u16 = 0x0023;
    /// Advertising Removed.
    pub const ADVERTISING_REMOVED: u16 = 0x0024;

    /// The events that Read Management Supported Commands lists, ascending.
    pub const LISTED: [u16; 12] = [
        INDEX_ADDED,
        INDEX_REMOVED,
        NEW_SETTINGS,
        CLASS_CHANGED,
        NAME_CHANGED,
        DEVICE_BLOCKED,
        DEVICE_UNBLOCKED,
        DEVICE_UNPAIRED,
        DEVICE_ADDED,
        DEVICE_REMOVED,
        ADVERTISING_ADDED,
        ADVERTISING_REMOVED,
    ];
}

/// Status octets of Command Status and Command Complete.
pub mod status {
    /// Success.
    pub const SUCCESS: u8 = 0x00;
    /// Unknown Command.
    pub const UNKNOWN_COMMAND: u8 = 0x01;
    /// Failed.
    pub const FAILED: u8 = 0x03;
    /// Not Paired.
    pub const NOT_PAIRED: u8 = 0x06;
    /// No Resources.
    pub const NO_RESOURCES: u8 = 0x07;
    /// Busy.
    pub const BUSY: u8 = 0x0A;
    /// Rejected.
    pub const REJECTED: u8 = 0x0B;
    /// Not Supported.
    pub const NOT_SUPPORTED: u8 = 0x0C;
    /// Invalid Parameters.
    pub const INVALID_PARAMETERS: u8 = 0x0D;
    /// Not Powered.
    pub const NOT_POWERED: u8 = 0x0F;
    /// Invalid Index.
    pub const INVALID_INDEX: u8 = 0x11;
    /// Permission Denied, the last status that a report may bring.
    pub const LAST: u8 = 0x14;
}

/// What a call answers.
pub mod answer {
    /// Done: reply, then events.
    pub const DONE: u8 = 0;
    /// Started: the radio owes a report.
    pub const STARTED: u8 = 1;
    /// Refused with a status.
    pub const REFUSED: u8 = 2;
    /// The packet is too short or its length field is wrong.
    pub const PACKET: u8 = 3;
    /// The reply buffer is too small.
    pub const ROOM: u8 = 4;
    /// The lent state is not well formed. The reference hub lends none.
    pub const STATE: u8 = 5;
    /// An argument of plug, unplug, report, clock or a question is wrong.
    pub const ARGUMENT: u8 = 6;
    /// Images of version 1 have no place for what the image says.
    pub const NOT_IN_IMAGE: u8 = 8;
    /// No packet is finished.
    pub const INCOMPLETE: u8 = 9;
    /// The image ends too early, has octets left over, or tells another length.
    pub const IMAGE_LENGTH: u8 = 71;
    /// The image has a version that is not taken.
    pub const IMAGE_VERSION: u8 = 72;
    /// The image has too many controllers, or wrong indexes.
    pub const IMAGE_INDEX: u8 = 73;
    /// Another field of a controller of the image is wrong.
    pub const IMAGE_FIELD: u8 = 74;
    /// A table of the image has more than 32 records.
    pub const IMAGE_COUNT: u8 = 75;
    /// A record of the image is wrong by itself.
    pub const IMAGE_RECORD: u8 = 76;
    /// A record of the image is there already.
    pub const IMAGE_REPEATED: u8 = 77;

    /// Whether an answer says that an image is not acceptable.
    pub fn is_bad_image(answer: u8) -> bool {
        (IMAGE_LENGTH..=IMAGE_REPEATED).contains(&answer)
    }
}

/// Bits of the settings words.
pub mod setting {
    /// Powered.
    pub const POWERED: u32 = 1 << 0;
    /// Connectable.
    pub const CONNECTABLE: u32 = 1 << 1;
    /// Discoverable.
    pub const DISCOVERABLE: u32 = 1 << 3;
    /// Bondable.
    pub const BONDABLE: u32 = 1 << 4;
    /// Basic Rate/Enhanced Data Rate.
    pub const BR_EDR: u32 = 1 << 7;
    /// Low Energy.
    pub const LOW_ENERGY: u32 = 1 << 9;
    /// Static Address.
    pub const STATIC_ADDRESS: u32 = 1 << 15;
    /// The bits that a supported settings word may have.
    pub const ALL: u32 = 0xFFFF;
}

/// The index field of a packet that is about no controller.
pub const NON_CONTROLLER: u16 = 0xFFFF;
/// How many controllers the hub has room for.
pub const CONTROLLERS: usize = 4;
/// Slots of each table.
pub const SLOTS: usize = 32;
/// The least reply buffer of every call but save.
pub const REPLY_ROOM: usize = 1024;
/// The least buffer for an image: the largest one.
pub const IMAGE_ROOM: usize = 16_014;
/// Octets of a local name.
pub const NAME: usize = 249;
/// Octets of a short name.
pub const SHORT_NAME: usize = 11;
