//! The reference hub with a slip in what it makes of BR/EDR, to try the sweep over the switches.

use crate::layout::{block, encode, HARDWARE, OPEN};
use crate::mirror::{number, Mirror};
use crate::switches::{BR_EDR, DISCOVERABLE, LOW_ENERGY};
use crate::target::{Move, Target};
use calls::draft::{ControllerDraft, Draft};
use reference::codes::{answer, command as code, setting, status, CONTROLLERS, IMAGE_ROOM, REPLY_ROOM};
use reference::command::Command;
use reference::controller::Controller;
use reference::effects::new_settings;
use reference::packet::{command_status, frame, little_endian, Packet};
use reference::reason::Reason;
use reference::table::Table;
use reference::why::{text, Fault, TEXT_ROOM};
use reference::{Call, Hub, Reply};

/// What a hub does wrong.
#[derive(Clone, Copy, PartialEq, Eq, Debug)]
pub enum Slip {
    /// Off is taken while powered.
    OffWhilePowered,
    /// On is taken with a static address.
    OnWithStatic,
    /// On is taken with a static address where it is on already.
    OnAgainWithStatic,
    /// Both are taken with LE off.
    LowEnergyOff,
    /// Off leaves discoverable on.
    DiscoverableStays,
    /// Off takes connectable away too.
    ConnectableGoes,
    /// On forgets the link keys.
    KeysGo,
    /// Bit 15 goes by the public address alone.
    BitByPublic,
    /// Bit 15 is that a static address is there.
    BitByStatic,
    /// Set Low Energy 0 is taken with BR/EDR off.
    LowEnergyOffTaken,
    /// Set Discoverable is taken with BR/EDR off.
    DiscoverableTaken,
    /// Set Discoverable 0 is refused with BR/EDR off.
    DiscoverableOffRefused,
    /// Set Low Energy 0 goes by support alone, and turns BR/EDR on.
    LowEnergyTurnsOn,
    /// A save is answered 8 with BR/EDR off.
    SaveRefused,
    /// A save says that BR/EDR is on as supported.
    SaveSaysOn,
    /// It is not Busy while another command is under way.
    NotBusy,
    /// It does not make others Busy.
    MakesNotBusy,
    /// With power it is done at once.
    AtOnce,
    /// With power it is done at once where nothing changes.
    AtOnceWithoutChange,
    /// Without power it is started.
    StartedUnpowered,
    /// A failed report leaves BR/EDR on.
    FailedActs,
    /// Plug turns it on always.
    PlugOn,
    /// Plug leaves it off.
    PlugOff,
    /// Load leaves it off where LE is on.
    LoadOff,
    /// Load takes flag bit 7 in version 1.
    FlagTaken,
    /// 2 is a value, for on.
    TwoIsOn,
    /// Rejected in place of Not Supported.
    RejectedForSupport,
    /// Link keys are Not Supported with BR/EDR off.
    KeysByBit,
    /// New Settings behind every success.
    AlwaysEvent,
    /// BR/EDR off is named before connectable off.
    OffBeforeConnectable,
    /// BR/EDR off is named before missing support, for Set Low Energy 0.
    OffBeforeSupport,
    /// LE off is named before power and static address.
    LowEnergyFirst,
    /// A state with both off is taken.
    BothOffTaken,
    /// A state with BR/EDR on without support is taken.
    UnsupportedTaken,
    /// A state that is discoverable with BR/EDR off is taken.
    DiscoverableStateTaken,
    /// A state with BR/EDR on beside a static address is refused.
    StaticStateRefused,
    /// A state with any Set BR/EDR under way is taken.
    OpenTaken,
    /// A state with Set BR/EDR under way is refused.
    OpenRefused,
}

/// All slips.
pub const SLIPS: [Slip; 38] = [
    Slip::OffWhilePowered,
    Slip::OnWithStatic,
    Slip::OnAgainWithStatic,
    Slip::LowEnergyOff,
    Slip::DiscoverableStays,
    Slip::ConnectableGoes,
    Slip::KeysGo,
    Slip::BitByPublic,
    Slip::BitByStatic,
    Slip::LowEnergyOffTaken,
    Slip::DiscoverableTaken,
    Slip::DiscoverableOffRefused,
    Slip::LowEnergyTurnsOn,
    Slip::SaveRefused,
    Slip::SaveSaysOn,
    Slip::NotBusy,
    Slip::MakesNotBusy,
    Slip::AtOnce,
    Slip::AtOnceWithoutChange,
    Slip::StartedUnpowered,
    Slip::FailedActs,
    Slip::PlugOn,
    Slip::PlugOff,
    Slip::LoadOff,
    Slip::FlagTaken,
    Slip::TwoIsOn,
    Slip::RejectedForSupport,
    Slip::KeysByBit,
    Slip::AlwaysEvent,
    Slip::OffBeforeConnectable,
    Slip::OffBeforeSupport,
    Slip::LowEnergyFirst,
    Slip::BothOffTaken,
    Slip::UnsupportedTaken,
    Slip::DiscoverableStateTaken,
    Slip::StaticStateRefused,
    Slip::OpenTaken,
    Slip::OpenRefused,
];

/// A hub with such a slip.
pub struct WrongBrEdr {
    /// The hub that is right.
    inner: Mirror,
    /// The slip.
    slip: Slip,
}

/// What a wrong hub gives for a call: its reply and the hub behind it.
type Given = (Reply, Hub);

/// What a call comes to at a hub.
fn given(hub: &Hub, call: &Call) -> Given {
    let mut hub = hub.clone();
    let reply = hub.call(call);
    (reply, hub)
}

/// A hub with a controller changed, if it is there.
fn edited(hub: &Hub, index: usize, edit: impl Fn(&mut Controller)) -> Hub {
    let Some(controller) = hub.state().controller(index as u64) else { return hub.clone() };
    let mut controller = controller.clone();
    edit(&mut controller);
    hub.with_controller(index, controller)
}

/// A call on a hub that takes a controller for another, and puts it right again.
fn mistaken(
    hub: &Hub,
    call: &Call,
    index: usize,
    hide: fn(&mut Controller),
    show: fn(&mut Controller),
) -> Given {
    let (reply, after) = given(&edited(hub, index, hide), call);
    (reply, edited(&after, index, show))
}

/// Whether Set BR/EDR is under way at an index.
fn waits(hub: &Hub, index: u64) -> bool {
    matches!(hub.open(index), Some(Command::SetBrEdr(_)))
}

/// What a command comes to where nothing is under way; what was stays so unless this one is started.
fn not_busy(hub: &Hub, call: &Call, index: usize) -> Given {
    let (reply, after) = given(&hub.with_open(index, None), call);
    let open = after.open(index as u64).or(hub.open(index as u64)).cloned();
    (reply, after.with_open(index, open))
}

/// A started command, done at once.
fn at_once(hub: &Hub, call: &Call, index: usize) -> Given {
    let (_, waiting) = given(hub, call);
    given(&waiting, &Call::Report { index: index as u64, status: 0, room: REPLY_ROOM })
}

/// A done command with bit 15 set or not in the settings that it shows.
fn with_bit(hub: &Hub, call: &Call, index: usize, rule: fn(&Controller) -> bool) -> Option<Given> {
    let (mut reply, after) = given(hub, call);
    let code = reply.octets.get(6..8).map(|octets| little_endian(octets, 0))?;
    let at = match code {
        code::READ_INFORMATION => 22,
        code::SET_BR_EDR | code::SET_STATIC_ADDRESS | code::SET_POWERED => 9,
        _ => return None,
    };
    let bit = rule(after.state().controller(index as u64)?);
    let high = reply.octets.get_mut(at + 1)?;
    *high = *high & 0x7F | u8::from(bit) << 7;
    Some((reply, after))
}

impl WrongBrEdr {
    /// A hub with this slip.
    pub fn new(slip: Slip) -> WrongBrEdr {
        WrongBrEdr { inner: Mirror::default(), slip }
    }

    /// What this hub gives otherwise than the right one, if it does.
    fn slipped(&self, hub: &Hub, call: &Call) -> Option<Given> {
        match call {
            Call::Save { room } => self.saved(hub, *room).map(|reply| (reply, hub.clone())),
            _ if call.room() < REPLY_ROOM => None,
            Call::Command { packet, .. } => {
                let read = Packet::read(packet)?;
                let reason = hub.reasons(packet).first().copied();
                self.refused(hub, call, &read, reason).or_else(|| self.taken(hub, call, &read, reason))
            }
            Call::Plug { index, .. } => {
                let (reply, after) = given(hub, call);
                let on = self.slip == Slip::PlugOn;
                let slips = (on || self.slip == Slip::PlugOff) && reply.answer == answer::DONE;
                slips.then(|| (reply, edited(&after, *index as usize, |controller| controller.br_edr = on)))
            }
            Call::Report { index, status, .. } if waits(hub, *index) => {
                let ((reply, after), at) = (given(hub, call), *index as usize);
                match (self.slip, status) {
                    (Slip::FailedActs, 1..) => Some((reply, edited(&after, at, |it| it.br_edr = true))),
                    (Slip::KeysGo, 0) => Some((reply, edited(&after, at, |it| it.link_keys = Table::new()))),
                    _ => None,
                }
            }
            _ => None,
        }
    }

    /// A command that the right hub refuses.
    fn refused(&self, hub: &Hub, call: &Call, packet: &Packet, reason: Option<Reason>) -> Option<Given> {
        let (index, reason) = (usize::from(packet.index), reason?);
        let controller = hub.state().controller(packet.index.into())?;
        let kept = controller.static_address;
        let plain = || {
            let (reply, after) = given(&edited(hub, index, |it| it.static_address = [0; 6]), call);
            (reply, edited(&after, index, |it| it.static_address = kept))
        };
        let mistaken = |hide, show| mistaken(hub, call, index, hide, show);
        let on_hidden = || mistaken(|it| it.br_edr = true, |it| it.br_edr = false);
        Some(match (self.slip, reason, packet.code) {
            (Slip::OffWhilePowered, Reason::BrEdrPowered, _) => {
                mistaken(|it| it.powered = false, |it| it.powered = true)
            }
            (Slip::OnWithStatic, Reason::StaticAddressSet, _) => plain(),
            (Slip::OnAgainWithStatic, Reason::StaticAddressSet, _) if controller.br_edr => plain(),
            (Slip::LowEnergyOff, Reason::LowEnergyOff, code::SET_BR_EDR) => {
                mistaken(|it| it.low_energy = true, |it| it.low_energy = false)
            }
            (Slip::LowEnergyOffTaken, Reason::BrEdrOff, code::SET_LOW_ENERGY) => on_hidden(),
            (Slip::DiscoverableTaken, Reason::BrEdrOff, code::SET_DISCOVERABLE) => on_hidden(),
            (Slip::LowEnergyTurnsOn, Reason::BrEdrOff, code::SET_LOW_ENERGY) => {
                mistaken(|it| it.br_edr = true, |_| {})
            }
            (Slip::NotBusy, Reason::Busy, code::SET_BR_EDR) => not_busy(hub, call, index),
            (Slip::MakesNotBusy, Reason::Busy, _) if waits(hub, index as u64) => not_busy(hub, call, index),
            (Slip::TwoIsOn, Reason::SettingValue, code::SET_BR_EDR) => {
                let packet = frame(packet.code, packet.index, &[1]);
                given(hub, &Call::Command { packet, room: REPLY_ROOM })
            }
            (Slip::RejectedForSupport, Reason::NoBrEdr | Reason::NoLowEnergy, code::SET_BR_EDR) => {
                (refusal(packet, status::REJECTED), hub.clone())
            }
            _ => return None,
        })
    }

    /// A command that the right hub takes.
    fn taken(&self, hub: &Hub, call: &Call, packet: &Packet, reason: Option<Reason>) -> Option<Given> {
        let index = usize::from(packet.index);
        let before = hub.state().controller(packet.index.into()).filter(|_| reason.is_none())?;
        let off = packet.code == code::SET_BR_EDR && packet.parameters == [0];
        let (reply, after) = given(hub, call);
        let public = |it: &Controller| it.hardware.public_address != [0; 6];
        Some(match (self.slip, packet.code) {
            (Slip::DiscoverableStays, _) if off => {
                (reply, edited(&after, index, |it| it.discoverable = before.discoverable))
            }
            (Slip::ConnectableGoes, _) if off => (reply, edited(&after, index, |it| it.connectable = false)),
            (Slip::DiscoverableOffRefused, code::SET_DISCOVERABLE) if !before.br_edr => {
                (refusal(packet, status::REJECTED), hub.clone())
            }
            (Slip::KeysByBit, code::LOAD_LINK_KEYS) if !before.br_edr => {
                (refusal(packet, status::NOT_SUPPORTED), hub.clone())
            }
            (Slip::AtOnce, code::SET_BR_EDR) if before.powered => at_once(hub, call, index),
            (Slip::AtOnceWithoutChange, code::SET_BR_EDR) if before.powered && before.br_edr => {
                at_once(hub, call, index)
            }
            (Slip::StartedUnpowered, code::SET_BR_EDR) if !before.powered => {
                (Reply::bare(answer::STARTED), hub.with_open(index, Some(Command::read(packet))))
            }
            (Slip::AlwaysEvent, code::SET_BR_EDR) if reply.octets.len() == 13 => {
                let event = new_settings(after.state().controller(index as u64)?, packet.index);
                (Reply { octets: [reply.octets, event].concat(), ..reply }, after)
            }
            (Slip::BitByStatic, _) => return with_bit(hub, call, index, |it| it.static_address != [0; 6]),
            (Slip::BitByPublic, _) if public(before) => return with_bit(hub, call, index, |_| false),
            _ => return None,
        })
    }

    /// A save.
    fn saved(&self, hub: &Hub, room: usize) -> Option<Reply> {
        if room < IMAGE_ROOM || !hub.state().has_br_edr_off() {
            return None;
        }
        match self.slip {
            Slip::SaveRefused => Some(Reply::bare(answer::NOT_IN_IMAGE)),
            Slip::SaveSaysOn => {
                let on = |it: &mut Controller| it.br_edr = it.hardware.supports_br_edr();
                Some((0..CONTROLLERS).fold(hub.clone(), |hub, index| edited(&hub, index, on)).save(room))
            }
            _ => None,
        }
    }

    /// Which reason this hub tells of a packet.
    fn told(&self, hub: &Hub, packet: &[u8]) -> Option<Reason> {
        let reason = hub.reasons(packet).first().copied()?;
        let controller = hub.state().controller(Packet::read(packet)?.index.into())?;
        match (self.slip, reason) {
            (Slip::OffBeforeConnectable, Reason::NotConnectable) if !controller.br_edr => {
                Some(Reason::BrEdrOff)
            }
            (Slip::OffBeforeSupport, Reason::OnlyLowEnergy) => Some(Reason::BrEdrOff),
            (Slip::LowEnergyFirst, Reason::BrEdrPowered | Reason::StaticAddressSet) => {
                (!controller.low_energy).then_some(Reason::LowEnergyOff)
            }
            _ => None,
        }
    }

    /// The answer where a lent state is judged otherwise than by the right rule.
    fn judged(&self, state: &[u8]) -> Option<u64> {
        let blocks = || (0..CONTROLLERS).filter_map(|index| state.get(block(index)));
        let any = |holds: fn(&[u8]) -> bool| blocks().any(|block| block[0] == 1 && holds(block));
        let wrong = match self.slip {
            Slip::BothOffTaken => any(|block| block[BR_EDR] == 0 && block[LOW_ENERGY] == 0),
            Slip::UnsupportedTaken => any(|block| block[BR_EDR] == 1 && block[HARDWARE + 3] & 0x80 == 0),
            Slip::DiscoverableStateTaken => any(|block| block[DISCOVERABLE] == 1 && block[BR_EDR] == 0),
            Slip::OpenTaken => any(|block| little_endian(block, OPEN) == code::SET_BR_EDR),
            Slip::OpenRefused => any(|block| little_endian(block, OPEN) == code::SET_BR_EDR),
            Slip::StaticStateRefused => any(|block| block[BR_EDR] == 1 && block[27..33] != [0; 6]),
            _ => false,
        };
        let refuses = matches!(self.slip, Slip::StaticStateRefused | Slip::OpenRefused);
        let otherwise = wrong && self.inner.read(state).is_some() == refuses;
        otherwise.then_some(if refuses { answer::STATE } else { answer::DONE }.into())
    }
}

/// The refusal of a packet with a status.
fn refusal(packet: &Packet, octet: u8) -> Reply {
    Reply::new(answer::REFUSED, command_status(packet.index, packet.code, octet))
}

impl Target for WrongBrEdr {
    const STATE_LEN: usize = Mirror::STATE_LEN;

    fn call(&mut self, state: &mut [u8], call: &Call, reply: &mut [u8]) -> u64 {
        if let Some(number) = self.judged(state) {
            return number;
        }
        let slipped = self.inner.read(state).and_then(|hub| self.slipped(&hub, call));
        let Some((given, after)) = slipped else { return self.inner.call(state, call, reply) };
        if given.answer <= answer::STARTED {
            state.copy_from_slice(&encode(&after));
        }
        number(&given, reply)
    }

    fn name(&mut self, state: &[u8], index: u64, which: u64, reply: &mut [u8]) -> u64 {
        self.judged(state).unwrap_or_else(|| self.inner.name(state, index, which, reply))
    }

    fn on_air(&mut self, state: &[u8], index: u64, reply: &mut [u8]) -> u64 {
        self.judged(state).unwrap_or_else(|| self.inner.on_air(state, index, reply))
    }

    fn why(&mut self, state: &[u8], packet: &[u8], buffer: &mut [u8]) -> u64 {
        if let Some(number) = self.judged(state) {
            return number;
        }
        match self.inner.read(state).and_then(|hub| self.told(&hub, packet)) {
            Some(reason) if buffer.len() >= TEXT_ROOM => {
                let octets = text(Some(Fault::new(reason))).into_bytes();
                number(&Reply::new(answer::DONE, octets), buffer) + (u64::from(reason.status()) << 32)
            }
            _ => self.inner.why(state, packet, buffer),
        }
    }

    fn look_up(&self, state: &[u8], index: u64, table: u64, key: &[u8]) -> u64 {
        self.judged(state).unwrap_or_else(|| self.inner.look_up(state, index, table, key))
    }

    fn load(&mut self, state: &mut [u8], image: &[u8]) -> u64 {
        let number = self.inner.load(state, image);
        let draft = Draft::of(image);
        let on = |it: &ControllerDraft| it.flags & setting::BR_EDR != 0;
        let flagged = |draft: &Draft| draft.version == 1 && draft.controllers.iter().any(on);
        match self.slip {
            Slip::FlagTaken if draft.as_ref().is_some_and(flagged) => answer::DONE.into(),
            Slip::LoadOff if number == answer::DONE.into() => {
                for index in 0..CONTROLLERS {
                    state[block(index)][BR_EDR] &= 1 - state[block(index)][LOW_ENERGY];
                }
                number
            }
            _ => number,
        }
    }

    fn moved(&self, way: Move, image: &[u8], out: &mut [u8]) -> u64 {
        self.inner.moved(way, image, out)
    }
}
