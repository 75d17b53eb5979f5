//! Random lists of calls and images for the hub, the same for the same seed.

#![forbid(unsafe_code)]
#![warn(missing_docs)]

pub mod addresses;
pub mod br_edr;
pub mod coverage;
pub mod damage;
pub mod diagnoses;
pub mod draft;
pub mod generator;
pub mod histogram;
pub mod images;
pub mod instances;
pub mod line;
pub mod lists;
pub mod look_ups;
pub mod lumps;
pub mod moves;
pub mod on_air;
pub mod packets;
pub mod parameters;
pub mod pools;
pub mod random;
pub mod records;
pub mod situations;
pub mod spoiling;
pub mod things;
pub mod walks;
pub mod whys;

pub use generator::Generator;
pub use random::Random;
pub use reference::Call;
