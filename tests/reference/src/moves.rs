//! Moving an image from one version to the other, which a host asks for; no hub has a part in it.

use crate::call::Reply;
use crate::codes::{answer, IMAGE_ROOM};
use crate::hub::{done, room_fault};
use crate::image::{read, write, Version};

/// Moves an image from version 1 to version 2.
pub fn upgrade(image: &[u8], room: usize) -> Reply {
    moved(image, Version::One, Version::Two, room)
}

/// Moves an image from version 2 back to version 1.
pub fn downgrade(image: &[u8], room: usize) -> Reply {
    moved(image, Version::Two, Version::One, room)
}

/// The same image in another version, where that can tell its settings.
fn moved(image: &[u8], from: Version, to: Version, room: usize) -> Reply {
    if let Some(reply) = room_fault(room, IMAGE_ROOM) {
        return reply;
    }
    match read(image, &[from]) {
        Err(diagnosis) => Reply::bad_image(diagnosis),
        Ok(state) if !to.can_tell(&state) => Reply::bare(answer::NOT_IN_IMAGE),
        Ok(state) => done(write(&state, to)),
    }
}
