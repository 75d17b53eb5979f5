//! Lumps off the serial line: the commands that they come to, and the situations that a run should reach.

use crate::situations::See;
use reference::codes::{answer, status, REPLY_ROOM};
use reference::packet::{little_endian, HEADER};
use reference::stream::WHOLE;
use reference::{Call, Hub, Waiting};
use std::borrow::Cow;

/// The packet that a lump finishes, with how many octets are taken.
fn finished(hub: &Hub, octets: &[u8], room: usize) -> (usize, Option<Vec<u8>>) {
    if room < REPLY_ROOM {
        return (0, None);
    }
    hub.waiting().clone().take(octets)
}

/// The command that a lump comes to, if it finishes a packet; any other call is what it is.
pub fn meant<'a>(hub: &Hub, call: &'a Call) -> Cow<'a, Call> {
    match call {
        Call::Stream { octets, room } => match finished(hub, octets, *room).1 {
            Some(packet) => Cow::Owned(Call::Command { packet, room: *room }),
            None => Cow::Borrowed(call),
        },
        _ => Cow::Borrowed(call),
    }
}

/// What is special about a call because of the serial line.
pub fn at_call(hub: &Hub, call: &Call, see: &mut See) {
    match call {
        Call::Stream { octets, room } => match finished(hub, octets, *room) {
            _ if *room < REPLY_ROOM => at_no_room(hub.waiting(), octets, see),
            (taken, Some(packet)) => {
                at_end(hub.waiting(), &packet, &octets[taken..], see);
                at_command(hub, &packet, *room, see);
            }
            (_, None) => at_incomplete(hub.waiting(), octets, see),
        },
        _ if hub.waiting().taken > 0 => meanwhile(hub, call, see),
        _ => {}
    }
}

/// A lump without room for a reply.
fn at_no_room(waiting: &Waiting, octets: &[u8], see: &mut See) {
    let (before, ends) = (waiting.taken > 0, waiting.clone().take(octets).1.is_some());
    see("lump answered 4 with nothing waiting", !before);
    see("lump answered 4 with something waiting", before);
    see("lump answered 4 that has the end of a packet", before && ends);
    see("empty lump answered 4", octets.is_empty());
}

/// A lump that finishes no packet.
fn at_incomplete(waiting: &Waiting, octets: &[u8], see: &mut See) {
    let mut after = waiting.clone();
    after.take(octets);
    let (before, now) = (waiting.taken, after.taken);
    see("empty lump with nothing waiting", now == 0);
    see("empty lump with something waiting", octets.is_empty() && before > 0);
    if octets.is_empty() {
        return;
    }
    see("answered 9, first octets of a header", before == 0 && now < HEADER);
    see("answered 9, more octets of a header", before > 0 && now < HEADER);
    see("answered 9, low octet of the length alone", now == HEADER - 1);
    see("answered 9, header whole and no more", now == HEADER);
    see("answered 9, header made whole and more", before < HEADER && now > HEADER);
    see("answered 9, more parameters", before >= HEADER && !after.is_long());
    see("answered 9, long packet begun", !waiting.is_long() && after.is_long());
    see("answered 9, long packet goes on", waiting.is_long());
    see("answered 9, long packet with its head not whole", after.is_long() && now < HEADER + 4);
    see("answered 9, one octet missing", now + 1 == after.length());
    see("answered 9, one octet missing of a long packet", now + 1 == after.length() && after.is_long());
    see("answered 9, one octet missing of 1,160", now + 1 == WHOLE && after.length() == WHOLE);
}

/// A lump that finishes a packet, with what it has behind that.
fn at_end(waiting: &Waiting, packet: &[u8], rest: &[u8], see: &mut See) {
    let (before, length) = (waiting.taken, packet.len());
    see("packet finished from nothing waiting", before == 0 && length <= WHOLE);
    see("packet finished from a part of its header", (1..HEADER).contains(&before) && length <= WHOLE);
    see("packet finished from its header", before == HEADER && length <= WHOLE);
    see("packet finished from kept parameters", before > HEADER && length <= WHOLE);
    see("packet finished by its last octet alone", before > 0 && before + 1 == length);
    see("packet without parameters finished by its sixth octet", before == 5 && length == HEADER);
    see("packet of 1,160 octets finished", length == WHOLE);
    see("packet of 1,160 octets finished from kept octets", length == WHOLE && before > 0);
    see("packet of 1,161 octets finished", length == WHOLE + 1);
    see("longest packet finished", length == HEADER + 0xFFFF);
    see("long packet finished in one lump", length > WHOLE && before == 0);
    see("long packet finished from a part of its head", length > WHOLE && (1..10).contains(&before));
    see("long packet finished from its head", length > WHOLE && before >= 10);
    see("nothing behind the packet", rest.is_empty());
    see("octets behind the packet are not taken", !rest.is_empty());
    see("another packet behind it is not taken", Waiting::default().take(rest).1.is_some());
    see("octets behind a long packet are not taken", length > WHOLE && !rest.is_empty());
}

/// Statuses by which a packet off the line is refused.
const REFUSALS: [(u8, &str, Option<&str>); 9] = [
    (status::UNKNOWN_COMMAND, "Unknown Command by a lump", Some("long packet, Unknown Command")),
    (status::FAILED, "Failed by a lump", None),
    (status::NOT_PAIRED, "Not Paired by a lump", None),
    (status::NO_RESOURCES, "No Resources by a lump", Some("long packet, No Resources")),
    (status::REJECTED, "Rejected by a lump", None),
    (status::NOT_SUPPORTED, "Not Supported by a lump", None),
    (status::INVALID_PARAMETERS, "Invalid Parameters by a lump", Some("long packet, Invalid Parameters")),
    (status::NOT_POWERED, "Not Powered by a lump", None),
    (status::INVALID_INDEX, "Invalid Index by a lump", Some("long packet, Invalid Index")),
];
/// Busy has no long packet.
const BUSY: &str = "Busy by a lump";

/// What the packet comes to.
fn at_command(hub: &Hub, packet: &[u8], room: usize, see: &mut See) {
    let reply = hub.clone().command(packet, room);
    let told = reply.octets.get(8).copied();
    let (long, cut) = (packet.len() > WHOLE, hub.waiting().taken > 0);
    see("done by a lump", reply.answer == answer::DONE && cut);
    see("started by a lump", reply.answer == answer::STARTED && cut);
    if reply.answer == answer::REFUSED {
        see("refused by a lump, by Command Status", cut && reply.octets[0] == 2);
        see("refused by a lump, by Command Complete", cut && reply.octets[0] == 1);
        see(BUSY, told == Some(status::BUSY) && cut);
        for (status, short, name) in REFUSALS {
            see(short, told == Some(status) && !long && cut);
            name.into_iter().for_each(|name| see(name, told == Some(status) && long && cut));
        }
    }
    see("room to spare for a lump", room > REPLY_ROOM);
}

/// The index that the packet names which is coming in, if that much has come.
fn index(waiting: &Waiting) -> Option<u64> {
    (waiting.kept.len() >= 4).then(|| little_endian(&waiting.kept, 2).into())
}

/// Another call than a lump while something waits.
fn meanwhile(hub: &Hub, call: &Call, see: &mut See) {
    let (waiting, named) = (hub.waiting(), index(hub.waiting()));
    match call {
        Call::Command { packet, room } => {
            let given = hub.clone().command(packet, *room).answer;
            see("command done while something waits", given == answer::DONE);
            see("command started while something waits", given == answer::STARTED);
            see("command refused while something waits", given == answer::REFUSED);
            see("command answered 3 while something waits", given == answer::PACKET);
            see("command answered 4 while something waits", given == answer::ROOM);
            see("command while a long packet is coming in", waiting.is_long());
        }
        Call::Report { index, status, .. } if hub.report_fault(*index, *status).is_none() => {
            see("report while something waits", true);
        }
        Call::Clock { reading, .. } if hub.state().clock_fault(*reading).is_none() => {
            see("clock while something waits", true);
        }
        Call::Plug { index, .. } if hub.state().controller(*index).is_none() => {
            see("plug while something waits", true);
            see("plug of the index that a waiting packet names", Some(*index) == named);
        }
        Call::Unplug { index, .. } if hub.state().controller(*index).is_some() => {
            see("unplug while something waits", true);
            see("unplug of the index that a waiting packet names", Some(*index) == named);
        }
        Call::Save { .. } => see("save while something waits", true),
        _ => {}
    }
}

/// What a run should come to beside refusals of what a lump finished.
const EXPECTED: [&str; 53] = [
    "lump answered 4 with nothing waiting",
    "lump answered 4 with something waiting",
    "lump answered 4 that has the end of a packet",
    "empty lump answered 4",
    "empty lump with nothing waiting",
    "empty lump with something waiting",
    "answered 9, first octets of a header",
    "answered 9, more octets of a header",
    "answered 9, low octet of the length alone",
    "answered 9, header whole and no more",
    "answered 9, header made whole and more",
    "answered 9, more parameters",
    "answered 9, long packet begun",
    "answered 9, long packet goes on",
    "answered 9, long packet with its head not whole",
    "answered 9, one octet missing",
    "answered 9, one octet missing of a long packet",
    "answered 9, one octet missing of 1,160",
    "packet finished from nothing waiting",
    "packet finished from a part of its header",
    "packet finished from its header",
    "packet finished from kept parameters",
    "packet finished by its last octet alone",
    "packet without parameters finished by its sixth octet",
    "packet of 1,160 octets finished",
    "packet of 1,160 octets finished from kept octets",
    "packet of 1,161 octets finished",
    "longest packet finished",
    "long packet finished in one lump",
    "long packet finished from a part of its head",
    "long packet finished from its head",
    "nothing behind the packet",
    "octets behind the packet are not taken",
    "another packet behind it is not taken",
    "octets behind a long packet are not taken",
    "done by a lump",
    "started by a lump",
    "refused by a lump, by Command Status",
    "refused by a lump, by Command Complete",
    "room to spare for a lump",
    "command done while something waits",
    "command started while something waits",
    "command refused while something waits",
    "command answered 3 while something waits",
    "command answered 4 while something waits",
    "command while a long packet is coming in",
    "report while something waits",
    "clock while something waits",
    "plug while something waits",
    "plug of the index that a waiting packet names",
    "unplug while something waits",
    "unplug of the index that a waiting packet names",
    "save while something waits",
];

/// All names that a run should come to.
pub fn expected() -> impl Iterator<Item = &'static str> {
    let refusals = REFUSALS.into_iter().flat_map(|(_, short, long)| std::iter::once(short).chain(long));
    EXPECTED.into_iter().chain(refusals).chain([BUSY])
}
