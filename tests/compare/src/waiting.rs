//! The waiting part of a state, behind the blocks: written, and read back where it is well formed.

use reference::packet::{little_endian, HEADER};
use reference::stream::{HEAD, WHOLE};
use reference::Waiting;
use std::ops::Range;

/// Its octets.
pub const OCTETS: usize = 1_164;
/// Where the octets that are kept stand, behind the number of those that were taken.
pub const KEPT: Range<usize> = 4..OCTETS;

/// Writes the octets; they are zero before.
pub fn write(out: &mut [u8], waiting: &Waiting) {
    out[..KEPT.start].copy_from_slice(&(waiting.taken as u32).to_le_bytes());
    out[KEPT][..waiting.kept.len()].copy_from_slice(&waiting.kept);
}

/// What the octets mean; none if they are not well formed: they are short of the packet that their header tells of, all of a packet of up to
/// 1,160 octets is there, of a longer one the first ten, and zeros stand behind.
pub fn read(octets: &[u8]) -> Option<Waiting> {
    let taken = u32::from_le_bytes(octets[..KEPT.start].try_into().ok()?) as usize;
    let kept = &octets[KEPT];
    let whole = HEADER + usize::from(little_endian(kept, 4));
    let most = if whole > WHOLE { HEAD } else { WHOLE };
    let (there, behind) = kept.split_at(taken.min(most));
    let well_formed = taken < whole && behind.iter().all(|octet| *octet == 0);
    well_formed.then(|| Waiting { taken, kept: there.to_vec() })
}
