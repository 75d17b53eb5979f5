//! From a list of calls on the hub to the list that the at-once hub is fed.
//!
//! Struck are: all reports, commands refused Busy, and started commands that
//! failed, were cut off by an unplug or are open at the end. A started command
//! that a report finished moves to the place of that report.
//!
//! Before that, lumps are made packets: one that finished a packet is the command call of that packet, with its own room; all
//! others are no calls.

use crate::call::{Call, Traced};
use crate::codes::{answer, status};
use crate::packet::{little_endian, HEADER};
use std::borrow::Cow;

/// Where the status octet stands in Command Status and Command Complete.
const STATUS_AT: usize = 8;
/// The octets of a Command Status.
const COMMAND_STATUS: usize = 9;

/// The list with packets for lumps. The octets of a packet are those that the list shows to have been taken since the last one was
/// finished.
pub fn whole_packets(list: &[Traced]) -> Vec<Cow<'_, Traced>> {
    let mut out = Vec::with_capacity(list.len());
    let mut so_far: Vec<u8> = Vec::new();
    for traced in list {
        let Call::Stream { octets, room } = &traced.call else {
            out.push(Cow::Borrowed(traced));
            continue;
        };
        so_far.extend(&octets[..traced.taken]);
        if traced.answer <= answer::REFUSED {
            let call = Call::Command { packet: std::mem::take(&mut so_far), room: *room };
            out.push(Cow::Owned(Traced { call, taken: 0, ..traced.clone() }));
        }
    }
    out
}

/// The calls left for the at-once hub, each with the answer and octets expected.
pub fn reduce(list: &[Traced]) -> Vec<Traced> {
    let mut left = Vec::with_capacity(list.len());
    let mut open: Vec<Open> = Vec::new();
    let list = whole_packets(list);
    for traced in list.iter().map(Cow::as_ref) {
        match &traced.call {
            Call::Command { packet, .. } => match traced.answer {
                answer::STARTED => open.push(Open { index: index_of(packet), packet }),
                _ if is_busy(traced) => {}
                _ => left.push(traced.clone()),
            },
            Call::Report { index, status, room } => {
                if traced.answer == answer::DONE {
                    let finished = close(&mut open, *index).into_iter().filter(|_| *status == 0);
                    left.extend(finished.map(|command| moved(command, *room, traced)));
                }
            }
            Call::Unplug { index, .. } if traced.answer == answer::DONE => {
                let owed = close(&mut open, *index).len() * COMMAND_STATUS;
                left.push(without_owed(traced, owed));
            }
            _ => left.push(traced.clone()),
        }
    }
    left
}

/// A started command that nothing has closed yet.
struct Open<'a> {
    /// The index that it was sent to.
    index: u64,
    /// The packet that it came with.
    packet: &'a [u8],
}

/// The index field of a packet; of one too short to have it, no index at all.
fn index_of(packet: &[u8]) -> u64 {
    if packet.len() < HEADER {
        u64::MAX
    } else {
        little_endian(packet, 2).into()
    }
}

/// Whether a command was refused Busy.
fn is_busy(traced: &Traced) -> bool {
    traced.answer == answer::REFUSED && traced.octets.get(STATUS_AT) == Some(&status::BUSY)
}

/// Takes out what is open at an index.
fn close<'a>(open: &mut Vec<Open<'a>>, index: u64) -> Vec<Open<'a>> {
    let (closed, rest) = open.drain(..).partition(|command| command.index == index);
    *open = rest;
    closed
}

/// A finished command in the place of its report, with the report's room,
/// answer and octets.
fn moved(command: Open, room: usize, report: &Traced) -> Traced {
    let call = Call::Command { packet: command.packet.to_vec(), room };
    Traced { call, answer: report.answer, octets: report.octets.clone(), taken: 0 }
}

/// An unplug without the Command Status that it owed to a command under way:
/// that reply goes with the command.
fn without_owed(unplug: &Traced, owed: usize) -> Traced {
    let octets = unplug.octets.get(owed..).unwrap_or_default().to_vec();
    Traced { octets, ..unplug.clone() }
}
