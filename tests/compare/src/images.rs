//! Images on a target and on the reference hub: loaded, saved, and moved from version to version.

use crate::layout::{encode, same_state};
use crate::lent::{Difference, Lent};
use crate::mirror::moved;
use crate::run::same;
use crate::target::{Move, Target};
use reference::codes::{answer, IMAGE_ROOM};
use reference::{Call, Hub, Reply};

/// What an image came to.
#[derive(Clone, Copy, PartialEq, Eq, Debug)]
pub struct Tried {
    /// The answer of the load.
    pub load: u8,
    /// The answer of the move to version 2.
    pub upgrade: u8,
    /// The answer of the move back to version 1.
    pub downgrade: u8,
}

impl Tried {
    /// Whether it loads.
    pub fn loads(&self) -> bool {
        self.load == answer::DONE
    }
}

/// Loads an image on both and compares what they answer, with the offset of what is at fault, and what it makes if it is taken; gives the
/// answer.
fn load_agrees<T: Target>(lent: &mut Lent<T>, hub: &mut Hub, image: &[u8]) -> Result<u8, Difference> {
    let expected = hub.load(image);
    let found = lent.load(image)?;
    same("what load answers differs", &expected, &found)?;
    if found.answer == answer::DONE {
        same_state("the state of an image", &encode(hub), lent.state())?;
    }
    Ok(found.answer)
}

/// The same; tells whether the image is taken.
pub fn image_agrees<T: Target>(lent: &mut Lent<T>, hub: &mut Hub, image: &[u8]) -> Result<bool, Difference> {
    Ok(load_agrees(lent, hub, image)? == answer::DONE)
}

/// Compares the images of both, and what they are moved to.
pub fn images_agree<T: Target>(lent: &mut Lent<T>, expected: &Reply) -> Result<(), Difference> {
    let found = lent.call(&Call::Save { room: IMAGE_ROOM })?;
    same("the saved image differs", expected, &found)?;
    let back = move_agrees(lent, Move::Downgrade, &found.octets, IMAGE_ROOM)?;
    if back.answer == answer::DONE {
        move_agrees(lent, Move::Upgrade, &back.octets, IMAGE_ROOM)?;
    }
    Ok(())
}

/// Moves an image on both, with this room for it, and compares what that gives.
pub fn move_agrees<T: Target>(
    lent: &mut Lent<T>,
    way: Move,
    image: &[u8],
    room: usize,
) -> Result<Reply, Difference> {
    let found = lent.moved(way, image, room)?;
    same(&format!("{way:?} with a room of {room} differs"), &moved(way, image, room), &found)?;
    Ok(found)
}

/// Loads an image on both and moves it both ways with room enough.
pub fn refusal_agrees<T: Target>(lent: &mut Lent<T>, image: &[u8]) -> Result<Tried, Difference> {
    let load = load_agrees(lent, &mut Hub::new(), image)?;
    let upgrade = move_agrees(lent, Move::Upgrade, image, IMAGE_ROOM)?.answer;
    let downgrade = move_agrees(lent, Move::Downgrade, image, IMAGE_ROOM)?.answer;
    Ok(Tried { load, upgrade, downgrade })
}

/// Loads an image on both, saves it if it is taken, and moves it both ways with this room.
pub fn tried_agrees<T: Target>(lent: &mut Lent<T>, image: &[u8], room: usize) -> Result<Tried, Difference> {
    let mut hub = Hub::new();
    let load = load_agrees(lent, &mut hub, image)?;
    if load == answer::DONE {
        images_agree(lent, &hub.save(IMAGE_ROOM))?;
    }
    let upgrade = move_agrees(lent, Move::Upgrade, image, room)?.answer;
    let downgrade = move_agrees(lent, Move::Downgrade, image, room)?.answer;
    Ok(Tried { load, upgrade, downgrade })
}
