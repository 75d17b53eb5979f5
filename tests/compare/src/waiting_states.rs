//! States with other octets waiting: answered 5 exactly where these are not well formed, and else a hub like any.

use crate::altered::{refused, Altered};
use crate::layout::{encode, WAITING};
use crate::lent::{Difference, Lent};
use crate::run::{same, step};
use crate::stream::{lump, whole, Sweep};
use crate::target::Target;
use crate::waiting::{read, write, KEPT, OCTETS};
use calls::Random;
use reference::codes::{answer, command as code, IMAGE_ROOM, REPLY_ROOM};
use reference::packet::{frame, HEADER};
use reference::stream::WHOLE;
use reference::{Call, Hub, Reply, Waiting};

/// How many states are altered at the end of a list.
const ALTERED: usize = 4;
/// Lengths of parameters that a header tells.
const FIELDS: [u16; 10] = [0, 1, 2, 255, 256, 1_153, 1_154, 1_155, 0xFFFA, 0xFFFF];

/// The waiting part with so many octets taken of a packet of ones with this length field.
fn part(field: u16, taken: usize) -> Vec<u8> {
    let mut waiting = Waiting::default();
    let packet = frame(0x0101, 0x0101, &vec![1; field.into()]);
    waiting.take(&packet[..taken.min(packet.len() - 1)]);
    let mut out = vec![0; OCTETS];
    write(&mut out, &waiting);
    out[..KEPT.start].copy_from_slice(&(taken as u32).to_le_bytes());
    out
}

/// Numbers of octets taken that are looked at for a length field.
fn numbers(field: u16) -> Vec<usize> {
    let whole = HEADER + usize::from(field);
    let mut out: Vec<usize> = (0..12).collect();
    out.extend([
        whole - 1,
        whole,
        whole + 1,
        WHOLE - 1,
        WHOLE,
        WHOLE + 1,
        65_540,
        65_541,
        0x1_0000,
        0x1_0003,
    ]);
    out.extend([0x0100_0000, 0x0100_0001, 0x8000_0000, 0x8000_0007, 0xFFFF_FFFF]);
    out
}

/// The waiting part as it has to be for this number, with another number, and with an octet more or fewer than the number says.
fn parts() -> Vec<Vec<u8>> {
    let mut out = Vec::new();
    for (field, taken) in
        FIELDS.into_iter().flat_map(|field| numbers(field).into_iter().map(move |n| (field, n)))
    {
        let right = part(field, taken);
        let kept = right[KEPT].iter().rposition(|octet| *octet != 0).map_or(0, |place| place + 1);
        for place in [kept, kept + 1, 4, 5, 6, 10, 11, WHOLE - 1] {
            let mut more = right.clone();
            if let Some(octet) = more[KEPT].get_mut(place).filter(|octet| **octet == 0) {
                *octet = 0x40;
                out.push(more);
            }
        }
        if kept > 0 {
            let mut fewer = right.clone();
            fewer[KEPT][kept - 1] = 0;
            out.push(fewer);
        }
        out.push(right);
    }
    out.push(vec![0xFF; OCTETS]);
    out
}

/// A state that is none: 5 from every question and call, whatever the room.
fn in_no_state<T: Target>(lent: &mut Lent<T>) -> Result<(), Difference> {
    let report = |room| Call::Report { index: 2, status: 0, room };
    let calls = [
        lump(&[1]),
        lump(&[]),
        Call::Stream { octets: vec![0; 9], room: 0 },
        whole(&frame(code::READ_VERSION, 0xFFFF, &[])),
        Call::Command { packet: vec![], room: 0 },
        report(REPLY_ROOM),
        report(0),
        Call::Unplug { index: 1, room: REPLY_ROOM },
        Call::Save { room: IMAGE_ROOM },
    ];
    for call in &calls {
        same(&format!("{call:02X?}"), &Reply::bare(answer::STATE), &lent.call(call)?)?;
    }
    refused(lent, 1, &Call::Clock { reading: 60, room: REPLY_ROOM })
}

/// A well-formed state: a lump with the rest of the packet and more, an octet alone, and other calls agree.
fn in_state<T: Target>(lent: &mut Lent<T>, hub: &Hub) -> Result<(), Difference> {
    let missing = hub.waiting().length() - hub.waiting().taken;
    let calls = [
        lump(&vec![0; missing]),
        lump(&vec![0; missing + 3]),
        lump(&vec![0; missing - 1]),
        lump(&[0]),
        whole(&frame(code::SET_BONDABLE, 1, &[1])),
        Call::Clock { reading: hub.state().clock, room: REPLY_ROOM },
        Call::Save { room: IMAGE_ROOM },
    ];
    for call in &calls {
        lent.put_state(&encode(hub));
        let shown = if call.room() == IMAGE_ROOM { "save" } else { "a call" };
        step(lent, &mut hub.clone(), call).map_err(|difference| format!("{shown}: {difference}"))?;
    }
    Ok(())
}

/// Lends a state with these octets waiting; tells whether it is well formed.
fn lend<T: Target>(lent: &mut Lent<T>, hub: &Hub, part: &[u8]) -> Result<bool, Difference> {
    let mut octets = encode(hub);
    octets[WAITING].copy_from_slice(part);
    lent.put_state(&octets);
    let meant = read(part);
    let result = match &meant {
        Some(waiting) => in_state(lent, &hub.with_waiting(waiting.clone())),
        None => in_no_state(lent),
    };
    let (number, kept) = (&part[..KEPT.start], &part[KEPT][..16]);
    let formed = if meant.is_some() { "well formed" } else { "none" };
    result.map_err(|difference| {
        format!("a state ({formed}), {number:02X?} taken, {kept:02X?} kept: {difference}")
    })?;
    Ok(meant.is_some())
}

/// Lends each of the parts above.
pub fn waiting_states_agree<T: Target>(
    lent: &mut Lent<T>,
    hub: &Hub,
    sweep: &mut Sweep,
) -> Result<(), Difference> {
    for part in parts() {
        sweep.states += 1;
        sweep.well_formed += usize::from(lend(lent, hub, &part)?);
    }
    Ok(())
}

/// Any octets that wait, of a packet of any length; mostly well formed.
fn some_part(random: &mut Random) -> Vec<u8> {
    let any = random.bits() as u16;
    let field = match random.below(3) {
        0 => random.pick(&FIELDS),
        1 => any,
        _ => random.below(1_160) as u16,
    };
    let whole = HEADER + usize::from(field);
    let taken = match random.below(6) {
        0 => random.below(HEADER),
        1 => whole - 1,
        2 => whole.min(WHOLE) - 1,
        _ => random.below(whole),
    };
    let header = [random.octets(4), field.to_le_bytes().to_vec()].concat();
    let mut waiting = Waiting::default();
    waiting.take(&[header, random.octets(usize::from(field) + 1)].concat()[..taken]);
    let mut part = vec![0; OCTETS];
    write(&mut part, &waiting);
    part
}

/// Changes one field or one octet.
fn change(random: &mut Random, part: &mut [u8]) {
    let taken = usize::from(u16::from_le_bytes([part[0], part[1]]));
    match random.below(6) {
        0 => part[0] = part[0].wrapping_add(random.pick(&[1, 0xFF])),
        1 => part[random.pick(&[1, 2, 3])] ^= 1 << random.below(8),
        2 => part[KEPT][random.pick(&[4, 5])] = random.octet(),
        3 => part[KEPT][taken.min(WHOLE - 1)] = random.octet(),
        4 => part[KEPT][random.pick(&[9, 10, 11, WHOLE - 1])] ^= 1 << random.below(8),
        _ => part[random.below(OCTETS)] ^= 1 << random.below(8),
    }
}

/// Lends a hub's state with other octets waiting. The state is put back.
pub fn altered_waiting_agrees<T: Target>(
    lent: &mut Lent<T>,
    hub: &Hub,
    random: &mut Random,
    counts: &mut Altered,
) -> Result<(), Difference> {
    let state = lent.state().to_vec();
    for _ in 0..ALTERED {
        let mut part = if random.percent(20) { state[WAITING].to_vec() } else { some_part(random) };
        for _ in 0..random.pick(&[0, 1, 1, 2]) {
            change(random, &mut part);
        }
        counts.lent += 1;
        counts.well_formed += usize::from(lend(lent, hub, &part)?);
        lent.put_state(&state);
    }
    Ok(())
}
