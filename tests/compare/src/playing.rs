//! Examples made on a hub, call after call.

use crate::script::{Example, Step};
use crate::{Lent, Target};
use calls::lists::EMPTY;
use reference::Reply;

/// Octets in words, sixteen to a line.
fn shown(octets: &[u8]) -> String {
    let lines = octets.chunks(16).map(|line| format!("\n      {line:02X?}"));
    lines.collect()
}

/// What differs between what an example gives and what came, if anything does.
fn difference(gives: &Reply, came: &Reply) -> Option<String> {
    if gives == came {
        return None;
    }
    let place = gives.octets.iter().zip(&came.octets).position(|(a, b)| a != b);
    let place = place.unwrap_or(gives.octets.len().min(came.octets.len()));
    Some(format!(
        "answer {} at {} for {} at {}, {} taken for {}, octets differ from place {place} on\n    came:{}\n    asked for:{}",
        came.answer,
        came.offset,
        gives.answer,
        gives.offset,
        came.taken,
        gives.taken,
        shown(&came.octets),
        shown(&gives.octets)
    ))
}

/// Makes the calls of an example on a hub, from the fresh state; tells how many there are, or the first that gives
/// something else.
pub fn play<T: Target>(example: &Example, target: T) -> Result<usize, String> {
    let mut lent = Lent::new(target);
    lent.load(&EMPTY)?;
    for line in &example.lines {
        let (came, extra) = match &line.step {
            Step::Call(call) => (lent.call(call)?, 0),
            Step::Load(image) => (lent.load(image)?, 0),
            Step::Move { way, image, room } => (lent.moved(*way, image, *room)?, 0),
            Step::OnAir { index, room } => (lent.on_air(*index, *room, T::STATE_LEN)?, 0),
            Step::Why { packet, room } => lent.why(packet, *room, T::STATE_LEN)?,
            Step::LookUp { index, table, key } => {
                let number = lent.look_up(*index, *table, key, T::STATE_LEN)?;
                let answer = u8::try_from(number & 0xFFFF_FFFF).map_err(|_| "a look-up counts octets")?;
                (Reply::bare(answer), number >> 32)
            }
        };
        let at = |difference| format!("line {}: {difference}", line.number);
        if let Some(difference) = difference(&line.gives, &came) {
            let text = String::from_utf8_lossy(&came.octets).into_owned();
            let told = if matches!(line.step, Step::Why { .. }) { text } else { String::new() };
            return Err(at(format!("{told} {difference}")));
        }
        if line.extra != extra {
            return Err(at(format!("the second number is {extra:#x} for {:#x}", line.extra)));
        }
    }
    Ok(example.lines.len())
}
