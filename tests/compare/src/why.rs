//! Why a packet would be refused: asked of a target and of the reference hub, and held to what the target's own command call does.

use crate::lent::{Difference, Lent};
use crate::target::Target;
use reference::codes::{answer, REPLY_ROOM};
use reference::why::{TAKEN, TEXT_ROOM};
use reference::{Call, Hub, Reply};

/// Lengths of the text buffer: too short, just enough, and more.
const ROOMS: [usize; 4] = [0, TEXT_ROOM - 1, TEXT_ROOM, 300];
/// A packet that every state takes, and one that is none.
const PACKETS: [&[u8]; 2] = [&[1, 0, 0xFF, 0xFF, 0, 0], &[]];

/// What was told, in words.
fn shown((reply, extra): &(Reply, u64)) -> String {
    format!("answer {}, status {extra}, \"{}\"", reply.answer, String::from_utf8_lossy(&reply.octets))
}

/// An error that tells a packet and both texts, unless these are the same.
fn same(packet: &[u8], expected: &(Reply, u64), found: &(Reply, u64)) -> Result<(), Difference> {
    if expected == found {
        return Ok(());
    }
    Err(format!("why {packet:02X?}\n  expected {}\n  found    {}", shown(expected), shown(found)))
}

/// Asks both in a text buffer of a length.
fn told<T: Target>(
    lent: &mut Lent<T>,
    hub: &Hub,
    packet: &[u8],
    room: usize,
) -> Result<(Reply, u64), Difference> {
    let (reply, status) = hub.why(packet, room);
    let found = lent.why(packet, room, T::STATE_LEN)?;
    same(packet, &(reply, status.into()), &found)?;
    Ok(found)
}

/// Asks both why a packet would be refused. What the target tells is what its command call then answers on a copy of the state.
pub fn why_agrees<T: Target>(lent: &mut Lent<T>, hub: &Hub, packet: &[u8]) -> Result<(), Difference> {
    let found = told(lent, hub, packet, TEXT_ROOM)?;
    let state = lent.state().to_vec();
    let call = Call::Command { packet: packet.to_vec(), room: REPLY_ROOM };
    let came = lent.call(&call);
    lent.put_state(&state);
    let came = came?;
    let taken = found.0 == Reply::new(answer::DONE, TAKEN.into());
    let agrees = match came.answer {
        answer::DONE | answer::STARTED => taken && found.1 == 0,
        answer::REFUSED => !taken && found.0.answer == answer::DONE && found.1 == u64::from(came.octets[8]),
        other => found == (Reply::bare(other), 0),
    };
    if agrees {
        return Ok(());
    }
    Err(format!("why {packet:02X?}: {}, but the command is answered {came:02X?}", shown(&found)))
}

/// The same, in text buffers of all lengths.
pub fn why_agrees_in_any_room<T: Target>(
    lent: &mut Lent<T>,
    hub: &Hub,
    packet: &[u8],
) -> Result<(), Difference> {
    for room in ROOMS {
        told(lent, hub, packet, room)?;
    }
    why_agrees(lent, hub, packet)
}

/// State buffers of a wrong length, and one that no state can be, are answered 5, whatever else is wrong.
pub fn why_of_no_state<T: Target>(lent: &mut Lent<T>) -> Result<(), Difference> {
    let expected = (Reply::bare(answer::STATE), 0);
    lent.fill_state(0xFF);
    for (packet, room) in PACKETS.iter().flat_map(|packet| ROOMS.map(|room| (*packet, room))) {
        for length in [0, T::STATE_LEN - 1, T::STATE_LEN, T::STATE_LEN + 1] {
            let found = lent.why(packet, room, length)?;
            let result = same(packet, &expected, &found);
            result.map_err(|difference| format!("a state of {length}: {difference}"))?;
        }
    }
    Ok(())
}
