//! Shorter lists that show the same kind of difference.

use crate::images::{image_agrees, images_agree, tried_agrees};
use crate::lent::{Difference, Lent};
use crate::look_up::question_agrees;
use crate::questions::questions_agree;
use crate::run::{step, Failure};
use crate::target::Target;
use calls::look_ups::Question;
use reference::codes::IMAGE_ROOM;
use reference::reduction::whole_packets;
use reference::{Call, Hub, Traced};

/// Runs a list of fixed calls on both, with a look-up behind them if there is one, and gives the first difference.
pub fn replay<T: Target>(
    lent: &mut Lent<T>,
    image: &[u8],
    calls: &[Call],
    look_up: Option<&Question>,
) -> Option<Difference> {
    let mut hub = Hub::new();
    if let Err(difference) = tried_agrees(lent, image, IMAGE_ROOM) {
        return Some(difference);
    }
    if let Err(difference) = image_agrees(lent, &mut hub, image) {
        return Some(difference);
    }
    for call in calls {
        if let Err(difference) = step(lent, &mut hub, call) {
            return Some(difference);
        }
    }
    if let Some(Err(difference)) = look_up.map(|question| question_agrees(lent, &hub, question)) {
        return Some(difference);
    }
    let images = images_agree(lent, &hub.save(IMAGE_ROOM));
    images.and_then(|()| questions_agree(lent, &hub)).err()
}

/// The same list with packets in place of lumps.
fn without_lumps(image: &[u8], calls: &[Call]) -> Vec<Call> {
    let mut hub = Hub::new();
    hub.load(image);
    let list: Vec<Traced> = calls.iter().map(|call| Traced::new(call.clone(), hub.call(call))).collect();
    whole_packets(&list).into_iter().map(|traced| traced.into_owned().call).collect()
}

/// A list with the lump at a place joined to the one behind it, if both are lumps.
fn joined(calls: &[Call], at: usize) -> Option<Vec<Call>> {
    match calls.get(at..at + 2)? {
        [Call::Stream { octets: first, room }, Call::Stream { octets: second, .. }] => {
            let lump = Call::Stream { octets: [&first[..], second].concat(), room: *room };
            Some([&calls[..at], &[lump], &calls[at + 2..]].concat())
        }
        _ => None,
    }
}

/// Puts packets in place of lumps if a difference stays, and leaves out calls and joins lumps
/// as long as one does; a list whose difference does not come again is left as it is.
pub fn shrink<T: Target>(lent: &mut Lent<T>, failure: Failure) -> Failure {
    let Failure { image, mut calls, look_up, mut difference } = failure;
    let packets = without_lumps(&image, &calls);
    if let Some(found) = replay(lent, &image, &packets, look_up.as_ref()) {
        (calls, difference) = (packets, found);
    }
    let mut chunk = calls.len().div_ceil(2);
    while chunk > 0 && replay(lent, &image, &calls, look_up.as_ref()).is_some() {
        let mut at = 0;
        while at < calls.len() {
            let end = (at + chunk).min(calls.len());
            let shorter = [&calls[..at], &calls[end..]].concat();
            match replay(lent, &image, &shorter, look_up.as_ref()) {
                Some(found) => {
                    difference = found;
                    calls = shorter;
                }
                None => at = end,
            }
        }
        chunk /= 2;
    }
    let mut at = 0;
    while at < calls.len() {
        let shorter = joined(&calls, at);
        match shorter.as_ref().and_then(|calls| replay(lent, &image, calls, look_up.as_ref())) {
            Some(found) => (calls, difference) = (shorter.unwrap_or_default(), found),
            None => at += 1,
        }
    }
    Failure { image, calls, look_up, difference }
}
