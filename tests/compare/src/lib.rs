//! The comparison of a hub that is called as a C host calls it with the
//! reference hub: answers, octets, states, images, and the at-once hub.

#![forbid(unsafe_code)]
#![warn(missing_docs)]

pub mod addresses;
pub mod altered;
pub mod br_edr;
#[cfg(test)]
mod br_edr_tests;
pub mod broken;
pub mod diagnosis;
#[cfg(test)]
mod diagnosis_slips;
#[cfg(test)]
mod diagnosis_tests;
#[cfg(test)]
mod example_tests;
pub mod identities;
pub mod images;
pub mod layout;
pub mod lent;
pub mod look_up;
#[cfg(test)]
mod look_up_tests;
pub mod mirror;
pub mod playing;
pub mod questions;
pub mod run;
pub mod schedule;
pub mod script;
pub mod shrink;
pub mod stream;
#[cfg(test)]
mod stream_tests;
pub mod switches;
pub mod target;
#[cfg(test)]
mod tests;
pub mod versions;
#[cfg(test)]
mod versions_tests;
pub mod waiting;
pub mod waiting_states;
pub mod why;
#[cfg(test)]
mod why_tests;
#[cfg(test)]
mod wrong_br_edr;
#[cfg(test)]
mod wrong_diagnosis;
#[cfg(test)]
mod wrong_images;
#[cfg(test)]
mod wrong_look_up;
#[cfg(test)]
mod wrong_rule;
#[cfg(test)]
mod wrong_stream;
#[cfg(test)]
mod wrong_why;

pub use lent::Lent;
pub use run::Comparison;
pub use target::Target;
