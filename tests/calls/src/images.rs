//! Random images to load and to move, and rooms for images.

use crate::damage::{all, damage, of_ends, of_versions};
use crate::draft::Draft;
use crate::random::Random;
use reference::codes::{answer, IMAGE_ROOM};
use reference::downgrade;

/// The room for an image: mostly just enough.
pub fn room(random: &mut Random) -> usize {
    match random.below(8) {
        0 => random.pick(&[0, 1023, 1024, IMAGE_ROOM - 1]),
        1 => IMAGE_ROOM - 1,
        2 => random.pick(&[IMAGE_ROOM + 1, 20_000]),
        _ => IMAGE_ROOM,
    }
}

/// An image of either version, seldom valid: a saved one or one from scratch,
/// damaged in one place, now and then in two, or in one octet.
pub fn image(random: &mut Random, saved: &[u8]) -> Vec<u8> {
    let mut draft = if random.percent(40) { of_saved(random, saved) } else { Draft::random(random) };
    match random.below(8) {
        0 | 1 => draft.octets(),
        2 => one_octet(random, draft.octets()),
        3 if random.percent(50) => {
            let most = random.pick(&[6, 40]);
            let length = random.below(most);
            random.octets(length)
        }
        _ => {
            let kinds = match random.below(10) {
                0..=2 => of_versions(),
                3 | 4 => of_ends(),
                _ => all(),
            };
            let mut left = if random.percent(20) { 2 } else { 1 };
            for _ in 0..20 {
                let kind = random.pick(&kinds);
                left -= usize::from(damage(random, &mut draft, kind));
                if left == 0 {
                    break;
                }
            }
            draft.octets()
        }
    }
}

/// A saved image, every other time in version 1 where that has a place for it.
fn of_saved(random: &mut Random, saved: &[u8]) -> Draft {
    let back = downgrade(saved, IMAGE_ROOM);
    let old = back.answer == answer::DONE && random.percent(50);
    Draft::read(if old { &back.octets } else { saved })
}

/// Changes one octet, mostly one before the tables.
fn one_octet(random: &mut Random, mut image: Vec<u8>) -> Vec<u8> {
    let most = if random.percent(60) { image.len().min(300) } else { image.len() };
    let place = random.below(most);
    image[place] = if random.percent(50) { image[place] ^ (1 << random.below(8)) } else { random.octet() };
    image
}
