//! What the calls of a run came to: which commands, answers, statuses, reasons
//! and events, and how often.

use crate::addresses;
use crate::diagnoses;
use crate::lists::{Lists, IMAGES};
use crate::look_ups::{LookUps, LOOK_UPS};
use crate::lumps;
use crate::moves;
use crate::packets::{Packets, PACKETS};
use crate::situations::situations;
use crate::walks::{self, Walks};
use crate::whys::{note, Whys};
use reference::codes::{answer, event, IMAGE_ROOM, REPLY_ROOM};
use reference::packet::{little_endian, Packet, HEADER};
use reference::{Call, Hub, Reply};
use std::collections::BTreeMap;
use std::fmt::{Debug, Display, Formatter, Result};

/// The reason that a reply buffer is too short.
const NO_ROOM: &str = "Room";

/// Counts by call, answer and status, and by call and reason.
#[derive(Clone, Debug, Default)]
pub struct Histogram {
    /// By call, answer and status octet.
    pub statuses: BTreeMap<(String, u8, Option<u8>), usize>,
    /// By call and the reason that answered.
    pub reasons: BTreeMap<(String, String), usize>,
    /// By call, the reason that answered and one that stood behind it.
    pub behind: BTreeMap<(String, String, String), usize>,
    /// By call and the events written.
    pub events: BTreeMap<(String, String), usize>,
    /// By situation.
    pub situations: BTreeMap<&'static str, usize>,
    /// By what is told of a packet, before it is given or after a list.
    pub whys: Whys,
    /// By table and what a look-up in it came to, after a call or after a list.
    pub walks: Walks,
    /// All calls.
    pub calls: usize,
    /// Images loaded and moved after the lists.
    pub images: usize,
    /// Packets asked about after the lists.
    pub packets: usize,
    /// Look-ups after the calls and after the lists.
    pub look_ups: usize,
}

/// What is known of a call before it is made.
pub struct Note {
    /// What the call is called.
    what: String,
    /// Why it will be refused, the reason that answers first.
    reasons: Vec<String>,
    /// What is special about it.
    situations: Vec<&'static str>,
}

/// The name of anything that can be printed.
fn name(item: impl Debug) -> String {
    format!("{item:?}")
}

/// What a call is called in the counts: the code of a known command, else its kind.
fn what(call: &Call) -> String {
    match call {
        Call::Command { packet, .. } => match Packet::read(packet) {
            Some(packet) if reference::command::is_known(packet.code) => format!("{:#06x}", packet.code),
            Some(_) => "unknown code".into(),
            None => "no packet".into(),
        },
        Call::Stream { .. } => "lump".into(),
        Call::Report { .. } => "report".into(),
        Call::Clock { .. } => "clock".into(),
        Call::Plug { .. } => "plug".into(),
        Call::Unplug { .. } => "unplug".into(),
        Call::Save { .. } => "save".into(),
    }
}

/// Why a call will be refused, the reason that answers first.
fn reasons(hub: &Hub, call: &Call) -> Vec<String> {
    let least = if matches!(call, Call::Save { .. }) { IMAGE_ROOM } else { REPLY_ROOM };
    let state = hub.state();
    match call {
        _ if call.room() < least => vec![NO_ROOM.into()],
        Call::Command { packet, .. } if Packet::read(packet).is_none() => {
            vec![if packet.len() < HEADER { "Short" } else { "LengthField" }.into()]
        }
        Call::Command { packet, .. } => hub.reasons(packet).iter().map(name).collect(),
        Call::Report { index, status, .. } => hub.report_fault(*index, *status).iter().map(name).collect(),
        Call::Clock { reading, .. } => state.clock_fault(*reading).iter().map(name).collect(),
        Call::Plug { index, address, supported, .. } => {
            state.plugged(*index, address, 0, 0, *supported).err().iter().map(name).collect()
        }
        Call::Unplug { index, .. } if state.controller(*index).is_none() => vec!["Absent".into()],
        _ => Vec::new(),
    }
}

/// The events in a reply, equal neighbours told once.
fn events(octets: &[u8]) -> String {
    let mut codes: Vec<String> = Vec::new();
    let mut rest = octets;
    while rest.len() >= HEADER {
        let code = format!("{:04x}", little_endian(rest, 0));
        match codes.last_mut() {
            Some(last) if last.trim_end_matches('+') == code => *last = code + "+",
            _ => codes.push(code),
        }
        let length = HEADER + usize::from(little_endian(rest, 4));
        rest = rest.get(length..).unwrap_or_default();
    }
    codes.join(" ")
}

impl Note {
    /// Looks at a call before the hub gets it. A lump that finishes a packet is the command of that packet.
    pub fn new(hub: &Hub, call: &Call) -> Note {
        let meant = lumps::meant(hub, call);
        let reasons = reasons(hub, &meant);
        let has_room = reasons.first().is_none_or(|first| first != NO_ROOM);
        let mut situations = if has_room { situations(hub, &meant) } else { Vec::new() };
        lumps::at_call(hub, call, &mut |name, holds| situations.extend(holds.then_some(name)));
        Note { what: what(&meant), reasons, situations }
    }
}

impl Histogram {
    /// Runs so many random calls, with a look-up after each, and with look-ups, packets to ask about and images after each
    /// list, and counts them.
    pub fn of_run(count: usize, seed: u64) -> Histogram {
        let (mut lists, mut packets) = (Lists::new(seed), Packets::new(seed));
        let mut look_ups = LookUps::new(seed);
        let mut histogram = Histogram::default();
        while histogram.calls < count {
            let (_, mut hub) = lists.start();
            look_ups.start();
            while let Some(call) = lists.next(&hub) {
                if let Call::Command { packet, .. } = &call {
                    note(&mut histogram.whys, &hub, packet);
                }
                let note = Note::new(&hub, &call);
                let reply = hub.call(&call);
                histogram.add(note, &call, &reply);
                histogram.look_up(&mut look_ups, &hub, 1);
            }
            histogram.look_up(&mut look_ups, &hub, LOOK_UPS);
            for _ in 0..PACKETS {
                note(&mut histogram.whys, &hub, &packets.next(&hub));
            }
            histogram.packets += PACKETS;
            for _ in 0..IMAGES {
                let (image, room) = lists.image();
                histogram.add_image(&image, room);
            }
        }
        histogram
    }

    /// Makes so many look-ups and counts what they come to.
    fn look_up(&mut self, look_ups: &mut LookUps, hub: &Hub, count: usize) {
        self.look_ups += count;
        for _ in 0..count {
            walks::note(&mut self.walks, hub, &look_ups.next(hub));
        }
    }

    /// Counts what is special about an image, and about moving it with this room.
    fn add_image(&mut self, image: &[u8], room: usize) {
        self.images += 1;
        let mut see = |name: &'static str, holds: bool| {
            if holds {
                *self.situations.entry(name).or_default() += 1;
            }
        };
        addresses::at_image(image, &mut see);
        moves::at_image(image, room, &mut see);
        diagnoses::at_image(image, &mut see);
        diagnoses::at_moves(image, room, &mut see);
    }

    /// Counts a call with its reply.
    pub fn add(&mut self, note: Note, call: &Call, reply: &Reply) {
        self.calls += 1;
        for situation in &note.situations {
            *self.situations.entry(situation).or_default() += 1;
        }
        let replies = !matches!(call, Call::Save { .. }) && reply.octets.len() > HEADER;
        let code = if replies { little_endian(&reply.octets, 0) } else { 0 };
        let told = code == event::COMMAND_COMPLETE || code == event::COMMAND_STATUS;
        let status = told.then(|| reply.octets[8]);
        let key = (note.what.clone(), reply.answer, status);
        *self.statuses.entry(key).or_default() += 1;
        if reply.answer == answer::DONE && !matches!(call, Call::Save { .. }) {
            *self.events.entry((note.what.clone(), events(&reply.octets))).or_default() += 1;
        }
        let Some(first) = note.reasons.first() else { return };
        *self.reasons.entry((note.what.clone(), first.clone())).or_default() += 1;
        for second in &note.reasons[1..] {
            let key = (note.what.clone(), first.clone(), second.clone());
            *self.behind.entry(key).or_default() += 1;
        }
    }
}

impl Display for Histogram {
    fn fmt(&self, out: &mut Formatter<'_>) -> Result {
        let Histogram { calls, packets, look_ups, images, .. } = self;
        writeln!(out, "{calls} calls, {packets} packets, {look_ups} look-ups, {images} images")?;
        writeln!(out, "\ncall, answer, status:")?;
        for ((what, answer, status), count) in &self.statuses {
            let status = status.map(|status| format!("{status:#04x}")).unwrap_or("-".into());
            writeln!(out, "{count:9}  {what}  {answer}  {status}")?;
        }
        writeln!(out, "\ncall, reason:")?;
        for ((what, reason), count) in &self.reasons {
            writeln!(out, "{count:9}  {what}  {reason}")?;
        }
        writeln!(out, "\ncall, reason, reason behind it:")?;
        for ((what, first, second), count) in &self.behind {
            writeln!(out, "{count:9}  {what}  {first}  {second}")?;
        }
        writeln!(out, "\ncall, events written:")?;
        for ((what, events), count) in &self.events {
            writeln!(out, "{count:9}  {what}  {events}")?;
        }
        writeln!(out, "\ntold of a packet, place:")?;
        for ((wording, form), count) in &self.whys {
            writeln!(out, "{count:9}  {wording}  ({form})")?;
        }
        writeln!(out, "\nlooked up in a table:")?;
        for ((table, what), count) in &self.walks {
            writeln!(out, "{count:9}  {table}  {what}")?;
        }
        writeln!(out, "\nsituations:")?;
        for (situation, count) in &self.situations {
            writeln!(out, "{count:9}  {situation}")?;
        }
        Ok(())
    }
}
