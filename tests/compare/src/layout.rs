//! The octets of the lent state, written from docs/STATE-LAYOUT.md: what a C host finds in its buffer after each call.

use crate::lent::Difference;
use crate::schedule;
use crate::waiting;
use reference::codes::CONTROLLERS;
use reference::command::Command;
use reference::controller::Controller;
use reference::records::Record;
use reference::state::State;
use reference::table::Table;
use reference::Hub;
use std::ops::Range;

/// The octets of a state.
pub const STATE: usize = 18_656;
/// Where the octets stand that wait for the rest of their packet, behind the blocks.
pub const WAITING: Range<usize> = 17_492..STATE;
/// Where the first controller's block begins, behind the clock.
const BLOCKS: usize = 4;
/// The octets of a block.
const BLOCK: usize = 4_372;
/// Where the open command stands in a block, and how many octets it has: its code and up to three parameters.
pub const OPEN: usize = 1;
/// The octets of an open command.
pub const OPEN_OCTETS: usize = 5;
/// Where stands what plug told, and behind it the settings, with which the static address ends.
pub const HARDWARE: usize = 6;
/// Where the settings stand: six flags, the timer, the static address.
pub const SETTINGS: usize = 19;
/// Where the static address stands in a block.
pub const STATIC_ADDRESS: Range<usize> = 27..33;
/// Where the table of long term keys stands in a block.
pub const LONG_TERM_KEYS: Range<usize> = 1_645..2_801;
/// Where the table of identity resolving keys stands in a block.
pub const IDENTITY_KEYS: Range<usize> = 2_801..3_541;
/// Where the advertising instances stand in a block, which they end.
pub const ADVERTISING: usize = 4_029;

/// The state of a hub, its open commands and the octets that wait included.
pub fn encode(hub: &Hub) -> Vec<u8> {
    let mut out = encode_at_once(hub.state());
    for index in 0..CONTROLLERS {
        if let Some(command) = hub.open(index as u64) {
            let at = BLOCKS + BLOCK * index + OPEN;
            out[at..at + OPEN_OCTETS].copy_from_slice(&open(command));
        }
    }
    waiting::write(&mut out[WAITING], hub.waiting());
    out
}

/// The state of a hub where nothing is under way and nothing waits.
pub fn encode_at_once(state: &State) -> Vec<u8> {
    let mut out = vec![0; STATE];
    put(&mut out, 0, &state.clock.to_le_bytes());
    for (index, controller) in state.controllers.iter().enumerate() {
        if let Some(controller) = controller {
            let at = BLOCKS + BLOCK * index;
            fill(&mut out[at..at + BLOCK], controller);
        }
    }
    out
}

/// Where the block of an index stands in a state.
pub fn block(index: usize) -> Range<usize> {
    let at = BLOCKS + BLOCK * index;
    at..at + BLOCK
}

/// A state with its open commands and the octets that wait cleared.
pub fn cleared(state: &[u8]) -> Vec<u8> {
    let mut out = state.to_vec();
    for index in 0..CONTROLLERS {
        let at = BLOCKS + BLOCK * index + OPEN;
        out[at..at + OPEN_OCTETS].fill(0);
    }
    out[WAITING].fill(0);
    out
}

/// An error that tells the first octet in which two states differ, if they do.
pub fn same_state(what: &str, expected: &[u8], found: &[u8]) -> Result<(), Difference> {
    if expected == found {
        return Ok(());
    }
    let place =
        expected.iter().zip(found).position(|(a, b)| a != b).unwrap_or(expected.len().min(found.len()));
    let (block, octet) = match place.checked_sub(BLOCKS) {
        Some(_) if place >= WAITING.start => ("the waiting part".to_string(), place - WAITING.start),
        Some(behind) => (format!("block {}", behind / BLOCK), behind % BLOCK),
        None => ("the clock".to_string(), place),
    };
    let one = |state: &[u8]| state.get(place).map_or("none".into(), |octet| format!("{octet:02X}"));
    let (expected, found) = (one(expected), one(found));
    Err(format!("{what}: octet {octet} of {block} is {found}, expected {expected}"))
}

/// Writes octets at a place.
fn put(out: &mut [u8], at: usize, octets: &[u8]) {
    out[at..at + octets.len()].copy_from_slice(octets);
}

/// Code and parameters of a command that waits; the octets that it has not are zero.
fn open(command: &Command) -> [u8; OPEN_OCTETS] {
    let [low, high] = command.code().to_le_bytes();
    let [first, second, third] = match command {
        Command::SetPowered(value)
        | Command::SetConnectable(value)
        | Command::SetLowEnergy(value)
        | Command::SetBrEdr(value) => [*value, 0, 0],
        Command::SetDiscoverable { mode, timeout } => {
            let [seconds, more] = timeout.to_le_bytes();
            [*mode, seconds, more]
        }
        other => panic!("{other:?} is never under way"),
    };
    [low, high, first, second, third]
}

/// The block of a present controller; its octets are zero before.
fn fill(block: &mut [u8], controller: &Controller) {
    let hardware = &controller.hardware;
    block[0] = 1;
    block[HARDWARE] = hardware.version;
    put(block, 7, &hardware.manufacturer.to_le_bytes());
    put(block, 9, &hardware.supported.to_le_bytes());
    put(block, 13, &hardware.public_address);
    block[SETTINGS] = controller.powered.into();
    block[20] = controller.connectable.into();
    block[21] = controller.discoverable.into();
    block[22] = controller.bondable.into();
    block[23] = controller.br_edr.into();
    block[24] = controller.low_energy.into();
    put(block, 25, &controller.timer.unwrap_or(0).to_le_bytes());
    put(block, STATIC_ADDRESS.start, &controller.static_address);
    put(block, 33, &controller.local_name.name);
    put(block, 282, &controller.local_name.short_name);
    table(&mut block[293..841], &controller.services);
    table(&mut block[841..1645], &controller.link_keys);
    table(&mut block[LONG_TERM_KEYS], &controller.long_term_keys);
    table(&mut block[IDENTITY_KEYS], &controller.identity_keys);
    table(&mut block[3541..3769], &controller.blocked);
    table(&mut block[3769..4029], &controller.devices);
    schedule::write(&mut block[ADVERTISING..], &controller.advertising);
}

/// Where a slot stands in a table, behind the word.
pub fn slot<R: Record>(place: usize) -> Range<usize> {
    let at = 4 + R::LEN * place;
    at..at + R::LEN
}

/// A table: the word of its slots in use, then the slots; its octets are zero before.
pub fn table<R: Record>(out: &mut [u8], table: &Table<R>) {
    let mut word = 0_u32;
    let mut record = Vec::with_capacity(R::LEN);
    for (place, entry) in table.slots().iter().enumerate() {
        if let Some(entry) = entry {
            word |= 1 << place;
            record.clear();
            entry.write(&mut record);
            out[slot::<R>(place)].copy_from_slice(&record);
        }
    }
    put(out, 0, &word.to_le_bytes());
}
