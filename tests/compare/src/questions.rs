//! What a host may ask: the names of every index, what is on air there and where keys stand in its tables, asked for on a target and on
//! the reference hub.

use crate::lent::{Difference, Lent};
use crate::look_up::look_ups_agree;
use crate::run::same;
use crate::target::Target;
use reference::codes::{answer, REPLY_ROOM};
use reference::{Hub, Reply};

/// Indexes that are asked for: the four, and some that none can be.
const INDEXES: [u64; 8] = [0, 1, 2, 3, 4, 256, 1 << 32, u64::MAX];
/// Which name is asked for: the name, the short name, and some that are neither.
const NAMES: [u64; 6] = [0, 1, 2, 256, 1 << 32, u64::MAX];

/// Asks both everything.
pub fn questions_agree<T: Target>(lent: &mut Lent<T>, hub: &Hub) -> Result<(), Difference> {
    names_agree(lent, hub)?;
    on_air_agrees(lent, hub)?;
    look_ups_agree(lent, hub, &INDEXES)
}

/// Asks both for all names; then with too little room, and with a state buffer that is too short.
fn names_agree<T: Target>(lent: &mut Lent<T>, hub: &Hub) -> Result<(), Difference> {
    for (index, which) in INDEXES.iter().flat_map(|index| NAMES.iter().map(move |which| (*index, *which))) {
        let what = format!("name {which} of index {index}");
        let found = lent.name(index, which, REPLY_ROOM, T::STATE_LEN)?;
        same(&what, &hub.name(index, which, REPLY_ROOM), &found)?;
        let found = lent.name(index, which, REPLY_ROOM - 1, T::STATE_LEN)?;
        same(&format!("{what}, no room"), &hub.name(index, which, REPLY_ROOM - 1), &found)?;
        let found = lent.name(index, which, 0, T::STATE_LEN - 1)?;
        same(&format!("{what}, a short state"), &Reply::bare(answer::STATE), &found)?;
    }
    Ok(())
}

/// Asks both what is on air at every index; then with too little room, and with a state buffer of another length.
fn on_air_agrees<T: Target>(lent: &mut Lent<T>, hub: &Hub) -> Result<(), Difference> {
    for index in INDEXES {
        let what = format!("on air at index {index}");
        let found = lent.on_air(index, REPLY_ROOM, T::STATE_LEN)?;
        same(&what, &hub.on_air(index, REPLY_ROOM), &found)?;
        let found = lent.on_air(index, REPLY_ROOM - 1, T::STATE_LEN)?;
        same(&format!("{what}, no room"), &hub.on_air(index, REPLY_ROOM - 1), &found)?;
        for length in [0, T::STATE_LEN - 1, T::STATE_LEN + 1] {
            let found = lent.on_air(index, 0, length)?;
            same(&format!("{what}, a state of {length}"), &Reply::bare(answer::STATE), &found)?;
        }
    }
    Ok(())
}
