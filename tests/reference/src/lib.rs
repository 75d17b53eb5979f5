//! A Bluetooth management hub for up to four controllers, written plainly from
//! the rules: the hub itself, which takes packets or octets off a serial line,
//! the at-once hub that knows no radio, the reduction of a list of calls on
//! the first to a list for the second, and images moved from version to version.

#![forbid(unsafe_code)]
#![warn(missing_docs)]

pub mod advertising;
pub mod at_once;
pub mod call;
pub mod checks;
pub mod codes;
pub mod command;
pub mod controller;
pub mod effects;
pub mod hub;
pub mod image;
pub mod look_up;
pub mod moves;
pub mod packet;
pub mod reason;
pub mod records;
pub mod reduction;
pub mod state;
pub mod stream;
pub mod table;
pub mod why;

pub use at_once::AtOnceHub;
pub use call::{Call, Reply, Traced};
pub use hub::Hub;
pub use look_up::LookUp;
pub use moves::{downgrade, upgrade};
pub use reduction::reduce;
pub use stream::Waiting;
pub use why::Fault;
