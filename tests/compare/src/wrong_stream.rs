//! The reference hub with a slip in what it makes of octets off the serial line, to try the sweep over packets.

use crate::layout::{STATE, WAITING};
use crate::mirror::{number, Mirror};
use crate::target::{Move, Target};
use crate::waiting::{read, KEPT};
use reference::codes::{answer, REPLY_ROOM};
use reference::packet::{little_endian, HEADER};
use reference::stream::{HEAD, WHOLE};
use reference::{Call, Hub, Reply, Waiting};

/// What a hub does wrong.
#[derive(Clone, Copy, PartialEq, Eq, Debug)]
pub enum Slip {
    /// A lump that finishes a packet is taken whole.
    BeyondEnd,
    /// A second packet in a lump is a command too.
    SecondPacket,
    /// Octets behind the packet are kept for the next.
    RestKept,
    /// With too little room octets are taken.
    TakenWithoutRoom,
    /// They are told to be taken, and are not.
    ToldWithoutRoom,
    /// With too little room what waits is dropped.
    DroppedWithoutRoom,
    /// An empty lump wants no room.
    EmptyWithoutRoom,
    /// A lump that finishes no packet wants no room.
    IncompleteWithoutRoom,
    /// What waited stays behind a finished packet.
    Stays,
    /// It stays behind a packet that is refused.
    StaysRefused,
    /// It stays behind a command that is started.
    StaysStarted,
    /// The number goes, and the octets stay.
    OctetsStay,
    /// A packet of 1,160 octets is not kept.
    LongestNotKept,
    /// A packet of 1,161 octets is kept.
    LongerKept,
    /// Of a longer packet nine octets are kept.
    ShortHead,
    /// Of a longer packet eleven octets are kept.
    LongHead,
    /// A longer packet is answered by zeros for its first parameters.
    ZeroCount,
    /// A longer packet is always Invalid Parameters.
    AlwaysInvalid,
    /// A longer packet is answered as soon as its header is whole.
    LongAtOnce,
    /// The octets taken of a packet are counted in sixteen bits.
    CounterWraps,
    /// The length of a packet is counted in sixteen bits.
    LengthWraps,
    /// The low octet of the length alone is read.
    LowOctet,
    /// The length is read with its high octet first.
    BigEndian,
    /// The header is not counted.
    NoHeader,
    /// A packet without parameters wants one octet more.
    SeventhOctet,
    /// A header that comes in two lumps is not put together.
    HeaderAnew,
    /// An empty lump drops what waits.
    EmptyDrops,
    /// An empty lump is answered 3.
    EmptyIsNone,
    /// A lump that finishes nothing is answered 3.
    IncompleteIsNone,
    /// A lump that finishes nothing is told not to be taken.
    IncompleteUntold,
    /// The octets of the whole packet are told, not those of the lump.
    WholeTold,
    /// A packet off the line is never Busy.
    NeverBusy,
    /// A packet off the line that would be started is done at once.
    AtOnce,
    /// A command drops what waits.
    CommandDrops,
    /// A refused command drops what waits.
    RefusedDrops,
    /// A command is refused while something waits.
    CommandWaits,
    /// A clock reading drops what waits.
    ClockDrops,
    /// A report drops what waits.
    ReportDrops,
    /// A plug drops what waits.
    PlugDrops,
    /// An unplug drops what waits.
    UnplugDrops,
    /// A save is answered 8 while something waits.
    SaveWaits,
    /// A load leaves what waits.
    LoadLeaves,
    /// Room is looked at before the state.
    RoomFirst,
    /// A state with a whole packet is taken.
    WholeTaken,
    /// A state with more than a packet is taken.
    MoreTaken,
    /// Octets behind what waits are not looked at.
    BehindTaken,
    /// Of a longer packet, octets behind the first ten are not looked at.
    LongBehindTaken,
    /// The upper half of the number is not looked at.
    UpperHalfTaken,
    /// A state with all but one octet of a packet is refused.
    LastRefused,
    /// A state with more than 1,160 octets taken is refused.
    ManyRefused,
    /// A state with the low octet of a length alone is refused.
    HalfLengthRefused,
    /// Any state where something waits is refused by commands.
    CommandRefuses,
}

/// All slips.
pub const SLIPS: [Slip; 52] = [
    Slip::BeyondEnd,
    Slip::SecondPacket,
    Slip::RestKept,
    Slip::TakenWithoutRoom,
    Slip::ToldWithoutRoom,
    Slip::DroppedWithoutRoom,
    Slip::EmptyWithoutRoom,
    Slip::IncompleteWithoutRoom,
    Slip::Stays,
    Slip::StaysRefused,
    Slip::StaysStarted,
    Slip::OctetsStay,
    Slip::LongestNotKept,
    Slip::LongerKept,
    Slip::ShortHead,
    Slip::LongHead,
    Slip::ZeroCount,
    Slip::AlwaysInvalid,
    Slip::LongAtOnce,
    Slip::CounterWraps,
    Slip::LengthWraps,
    Slip::LowOctet,
    Slip::BigEndian,
    Slip::NoHeader,
    Slip::SeventhOctet,
    Slip::HeaderAnew,
    Slip::EmptyDrops,
    Slip::EmptyIsNone,
    Slip::IncompleteIsNone,
    Slip::IncompleteUntold,
    Slip::WholeTold,
    Slip::NeverBusy,
    Slip::AtOnce,
    Slip::CommandDrops,
    Slip::RefusedDrops,
    Slip::CommandWaits,
    Slip::ClockDrops,
    Slip::ReportDrops,
    Slip::PlugDrops,
    Slip::UnplugDrops,
    Slip::SaveWaits,
    Slip::LoadLeaves,
    Slip::RoomFirst,
    Slip::WholeTaken,
    Slip::MoreTaken,
    Slip::BehindTaken,
    Slip::LongBehindTaken,
    Slip::UpperHalfTaken,
    Slip::LastRefused,
    Slip::ManyRefused,
    Slip::HalfLengthRefused,
    Slip::CommandRefuses,
];

/// A hub with such a slip.
pub struct WrongStream {
    /// The hub that is right.
    inner: Mirror,
    /// The slip.
    slip: Slip,
}

/// What a wrong hub gives for a call: its reply and the hub behind it.
type Given = (Reply, Hub);

/// What a call comes to at a hub.
fn given(hub: &Hub, call: &Call) -> Given {
    let mut hub = hub.clone();
    let reply = hub.call(call);
    (reply, hub)
}

/// A hub where nothing waits.
fn dropped(hub: &Hub) -> Hub {
    hub.with_waiting(Waiting::default())
}

impl WrongStream {
    /// A hub with this slip.
    pub fn new(slip: Slip) -> WrongStream {
        WrongStream { inner: Mirror::default(), slip }
    }

    /// How long a packet is by the octets that are kept of it.
    fn length(&self, kept: &[u8]) -> usize {
        let octet = |place: usize| kept.get(place).copied().map_or(0, usize::from);
        let (low, high) = (octet(4), octet(5));
        match self.slip {
            Slip::LengthWraps => (HEADER + low + 256 * high) & 0xFFFF,
            Slip::LowOctet => HEADER + low,
            Slip::BigEndian => HEADER + 256 * low + high,
            Slip::NoHeader => low + 256 * high,
            Slip::SeventhOctet if low + 256 * high == 0 => HEADER + 1,
            _ => HEADER + low + 256 * high,
        }
    }

    /// How much is kept of a packet of this length.
    fn most(&self, length: usize) -> usize {
        match self.slip {
            Slip::LongestNotKept if length == WHOLE => HEAD,
            Slip::LongerKept if length == WHOLE + 1 => WHOLE,
            Slip::ShortHead if length > WHOLE => HEAD - 1,
            Slip::LongHead if length > WHOLE => HEAD + 1,
            _ if length > WHOLE => HEAD,
            _ => WHOLE,
        }
    }

    /// Takes octets as this hub counts them.
    fn take(&self, waiting: &mut Waiting, octets: &[u8]) -> (usize, Option<Vec<u8>>) {
        for (place, octet) in octets.iter().enumerate() {
            if waiting.kept.len() < self.most(self.length(&waiting.kept)) {
                waiting.kept.push(*octet);
            }
            waiting.taken += 1;
            if self.slip == Slip::CounterWraps {
                waiting.taken &= 0xFFFF;
            }
            let length = self.length(&waiting.kept);
            let at_once = self.slip == Slip::LongAtOnce && waiting.taken == HEAD && length > WHOLE;
            if (waiting.taken >= HEADER && waiting.taken >= length) || at_once {
                let Waiting { mut kept, .. } = std::mem::take(waiting);
                kept.resize(HEADER + usize::from(little_endian(&kept, 4)), 0);
                return (place + 1, Some(kept));
            }
        }
        (octets.len(), None)
    }

    /// A lump with room for its reply, counted as this hub counts.
    fn counted(&self, hub: &Hub, octets: &[u8], room: usize) -> Given {
        let mut waiting = hub.waiting().clone();
        let (taken, packet) = self.take(&mut waiting, octets);
        let mut hub = hub.with_waiting(waiting);
        let reply = match packet {
            Some(packet) => hub.command(&packet, room),
            None => Reply::bare(answer::INCOMPLETE),
        };
        (Reply { taken, ..reply }, hub)
    }

    /// A lump without room for its reply.
    fn without_room(&self, hub: &Hub, octets: &[u8]) -> Given {
        let (right, after) = self.counted(hub, octets, REPLY_ROOM);
        let incomplete = right.answer == answer::INCOMPLETE;
        let told = Reply { taken: right.taken, ..Reply::bare(answer::ROOM) };
        match self.slip {
            Slip::TakenWithoutRoom if incomplete => (told, after),
            Slip::ToldWithoutRoom => (told, hub.clone()),
            Slip::DroppedWithoutRoom => (Reply::bare(answer::ROOM), dropped(hub)),
            Slip::EmptyWithoutRoom if octets.is_empty() => (right, after),
            Slip::IncompleteWithoutRoom if incomplete && !octets.is_empty() => (right, after),
            _ => (Reply::bare(answer::ROOM), hub.clone()),
        }
    }

    /// A lump that finishes no packet.
    fn incomplete(&self, hub: &Hub, octets: &[u8], (reply, after): Given) -> Given {
        match self.slip {
            Slip::EmptyDrops if octets.is_empty() => (reply, dropped(hub)),
            Slip::EmptyIsNone if octets.is_empty() => (Reply::bare(answer::PACKET), hub.clone()),
            Slip::IncompleteIsNone => (Reply { answer: answer::PACKET, ..reply }, after),
            Slip::IncompleteUntold => (Reply { taken: 0, ..reply }, after),
            _ => (reply, after),
        }
    }

    /// A lump that finishes a packet.
    fn finished(&self, hub: &Hub, octets: &[u8], (reply, after): Given) -> Given {
        let (rest, before) = (&octets[reply.taken..], hub.waiting().clone());
        let all = Reply { taken: octets.len(), ..reply.clone() };
        let mut packet = before.clone();
        packet.taken += reply.taken;
        match self.slip {
            Slip::BeyondEnd => (all, after),
            Slip::RestKept => (all, self.counted(&after, &rest[..rest.len().min(5)], REPLY_ROOM).1),
            Slip::SecondPacket => match self.counted(&after, rest, REPLY_ROOM) {
                (second, _) if second.answer == answer::INCOMPLETE => (reply, after),
                (second, behind) => (Reply { taken: reply.taken + second.taken, ..second }, behind),
            },
            Slip::Stays => (reply, after.with_waiting(before)),
            Slip::StaysRefused if reply.answer == answer::REFUSED => (reply, after.with_waiting(before)),
            Slip::StaysStarted if reply.answer == answer::STARTED => (reply, after.with_waiting(before)),
            Slip::OctetsStay => (reply, after.with_waiting(Waiting { taken: 0, ..before })),
            Slip::WholeTold => (Reply { taken: packet.taken, ..reply }, after),
            _ => (reply, after),
        }
    }

    /// What is wrong about the command that a packet off the line comes to.
    fn commanded(&self, hub: &Hub, octets: &[u8]) -> Option<Given> {
        let mut waiting = hub.waiting().clone();
        let (taken, packet) = self.take(&mut waiting, octets);
        let mut packet = packet?;
        let long = packet.len() > WHOLE;
        let mut after = hub.with_waiting(waiting);
        let reply = match self.slip {
            Slip::ZeroCount if long => {
                packet[HEADER..].fill(0);
                after.command(&packet, REPLY_ROOM)
            }
            Slip::AlwaysInvalid if long => {
                let mut reply = after.command(&packet, REPLY_ROOM);
                reply.octets[8] = 0x0D;
                reply
            }
            Slip::AtOnce => {
                let index = little_endian(&packet, 2).into();
                match after.command(&packet, REPLY_ROOM) {
                    reply if reply.answer == answer::STARTED => after.report(index, 0, REPLY_ROOM),
                    reply => reply,
                }
            }
            Slip::NeverBusy => {
                let index = usize::from(little_endian(&packet, 2));
                let open = hub.open(index as u64)?.clone();
                after = after.with_open(index, None);
                let reply = after.command(&packet, REPLY_ROOM);
                let open = after.open(index as u64).cloned().unwrap_or(open);
                after = after.with_open(index, Some(open));
                reply
            }
            _ => return None,
        };
        Some((Reply { taken, ..reply }, after))
    }

    /// A lump.
    fn lump(&self, hub: &Hub, octets: &[u8], room: usize) -> Given {
        if room < REPLY_ROOM {
            return self.without_room(hub, octets);
        }
        let cut_header = (1..HEADER).contains(&hub.waiting().taken) && !octets.is_empty();
        let anew = self.slip == Slip::HeaderAnew && cut_header;
        let hub = if anew { dropped(hub) } else { hub.clone() };
        if let Some(given) = self.commanded(&hub, octets) {
            return given;
        }
        let given = self.counted(&hub, octets, room);
        match given.0.answer {
            answer::INCOMPLETE => self.incomplete(&hub, octets, given),
            _ => self.finished(&hub, octets, given),
        }
    }

    /// Another call than a lump where something waits.
    fn beside(&self, hub: &Hub, call: &Call) -> Given {
        let (reply, after) = given(hub, call);
        let ended = reply.answer <= answer::STARTED;
        match (self.slip, call) {
            (Slip::CommandWaits, Call::Command { .. }) if call.room() >= REPLY_ROOM => {
                (Reply::bare(answer::INCOMPLETE), hub.clone())
            }
            (Slip::CommandRefuses, Call::Command { .. }) => (Reply::bare(answer::STATE), hub.clone()),
            (Slip::SaveWaits, Call::Save { .. }) if ended => (Reply::bare(answer::NOT_IN_IMAGE), after),
            (Slip::CommandDrops, Call::Command { .. }) if ended => (reply, dropped(&after)),
            (Slip::RefusedDrops, Call::Command { .. }) if !ended => (reply, dropped(&after)),
            (Slip::ClockDrops, Call::Clock { .. }) if ended => (reply, dropped(&after)),
            (Slip::ReportDrops, Call::Report { .. }) if ended => (reply, dropped(&after)),
            (Slip::PlugDrops, Call::Plug { .. }) if ended => (reply, dropped(&after)),
            (Slip::UnplugDrops, Call::Unplug { .. }) if ended => (reply, dropped(&after)),
            _ => (reply, after),
        }
    }

    /// The answer where a lent state is judged otherwise than by the right rule.
    fn judged(&self, state: &[u8]) -> Option<u64> {
        let part = state.get(WAITING).filter(|_| state.len() == STATE)?;
        let taken = u32::from_le_bytes([part[0], part[1], part[2], part[3]]) as usize;
        let kept = &part[KEPT];
        let length = HEADER + usize::from(little_endian(kept, 4));
        let behind = |from: usize| kept[from.min(WHOLE)..].iter().any(|octet| *octet != 0);
        let (takes, refuses) = (Some(answer::DONE.into()), Some(answer::STATE.into()));
        let well_formed = read(part).is_some();
        match self.slip {
            Slip::WholeTaken if !well_formed && taken == length && length <= WHOLE => takes,
            Slip::MoreTaken if !well_formed && taken > length => takes,
            Slip::BehindTaken if !well_formed && taken < length && length <= WHOLE && behind(taken) => takes,
            Slip::LongBehindTaken if !well_formed && taken < length && length > WHOLE && behind(HEAD) => {
                takes
            }
            Slip::UpperHalfTaken if !well_formed && taken > 0xFFFF && taken & 0xFFFF < length => takes,
            Slip::LastRefused if well_formed && taken + 1 == length => refuses,
            Slip::ManyRefused if well_formed && taken > WHOLE => refuses,
            Slip::HalfLengthRefused if well_formed && taken == HEADER - 1 && kept[4] != 0 => refuses,
            _ => None,
        }
    }
}

impl Target for WrongStream {
    const STATE_LEN: usize = Mirror::STATE_LEN;

    fn call(&mut self, state: &mut [u8], call: &Call, reply: &mut [u8]) -> u64 {
        if let Some(number) = self.judged(state) {
            return number;
        }
        if self.slip == Slip::RoomFirst && matches!(call, Call::Stream { .. }) && reply.len() < REPLY_ROOM {
            return answer::ROOM.into();
        }
        let Some(hub) = self.inner.read(state) else { return answer::STATE.into() };
        let (given, after) = match call {
            Call::Stream { octets, room } => self.lump(&hub, octets, *room),
            _ if hub.waiting().taken > 0 => self.beside(&hub, call),
            _ => given(&hub, call),
        };
        if state.len() == STATE && after != hub {
            self.inner.write(state, after);
        }
        number(&given, reply)
    }

    fn name(&mut self, state: &[u8], index: u64, which: u64, reply: &mut [u8]) -> u64 {
        self.judged(state).unwrap_or_else(|| self.inner.name(state, index, which, reply))
    }

    fn on_air(&mut self, state: &[u8], index: u64, reply: &mut [u8]) -> u64 {
        self.judged(state).unwrap_or_else(|| self.inner.on_air(state, index, reply))
    }

    fn why(&mut self, state: &[u8], packet: &[u8], text: &mut [u8]) -> u64 {
        self.judged(state).unwrap_or_else(|| self.inner.why(state, packet, text))
    }

    fn look_up(&self, state: &[u8], index: u64, table: u64, key: &[u8]) -> u64 {
        self.judged(state).unwrap_or_else(|| self.inner.look_up(state, index, table, key))
    }

    fn load(&mut self, state: &mut [u8], image: &[u8]) -> u64 {
        let waited = state.get(WAITING).and_then(read);
        let number = self.inner.load(state, image);
        if let (Slip::LoadLeaves, 0, Some(waiting)) = (self.slip, number, waited) {
            if let Some(hub) = self.inner.read(state) {
                self.inner.write(state, hub.with_waiting(waiting));
            }
        }
        number
    }

    fn moved(&self, way: Move, image: &[u8], out: &mut [u8]) -> u64 {
        self.inner.moved(way, image, out)
    }
}
