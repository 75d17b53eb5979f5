//! The reference hub with a slip in what it makes of images, to try the sweep over both versions.

use crate::mirror::{moved, number, Mirror};
use crate::target::{Move, Target};
use calls::draft::{ControllerDraft, Draft, NameDraft, NamesDraft};
use reference::codes::{answer, setting, IMAGE_ROOM, NAME, SHORT_NAME};
use reference::controller::{Controller, LocalName};
use reference::image::{self, load, read, Version};
use reference::reason::{Diagnosis, ImageFault};
use reference::state::State;
use reference::{Call, Hub, Reply};

/// What a hub does wrong.
#[derive(Clone, Copy, PartialEq, Eq, Debug)]
pub enum Slip {
    /// What stands behind the end of a name is kept in version 2.
    TailKept,
    /// The same of a short name alone.
    ShortTailKept,
    /// A length octet counts the zero, which is written too.
    ZeroCounted,
    /// A name of version 2 is written whole behind its length.
    NameWhole,
    /// Flag bit 7 is dropped by an upgrade.
    UpgradeDropsFlag,
    /// An upgrade sets flag bit 7 always.
    UpgradeSetsFlag,
    /// Flag bit 7 is dropped by a save.
    SaveDropsFlag,
    /// Flag bit 7 is left on by a downgrade.
    DowngradeKeepsFlag,
    /// An image with BR/EDR off is moved back.
    OffMovedBack,
    /// A downgrade looks at the first controller alone.
    FirstLookedAt,
    /// A downgrade looks at the last controller alone.
    LastLookedAt,
    /// A downgrade is answered 8 where BR/EDR is not supported.
    UnsupportedBeyond,
    /// A save has version 1.
    SaveOld,
    /// A save has version 1 where that has a place for it.
    SaveOldIfItCan,
    /// A save with BR/EDR off is answered 8.
    SaveRefused,
    /// A name of 249 octets is taken.
    LongTaken,
    /// A short name of 11 octets is taken.
    LongShortTaken,
    /// A name of 248 octets is refused.
    FullRefused,
    /// An empty name is refused in version 2.
    EmptyRefused,
    /// A zero in a name is taken.
    ZeroTaken,
    /// A zero in a short name is taken.
    ShortZeroTaken,
    /// A zero at the end of a name is taken.
    LastZeroTaken,
    /// Flag bit 7 is taken where BR/EDR is not supported.
    UnsupportedTaken,
    /// Both transports off is taken.
    BothOffTaken,
    /// Flag bit 7 is taken in version 1.
    OldFlagTaken,
    /// Flag bit 7 is refused in version 2.
    NewFlagRefused,
    /// BR/EDR off is refused.
    OffRefused,
    /// Another flag is taken in version 2.
    OtherFlagTaken,
    /// A downgrade answers 8 before 71 to 77.
    BeyondFirst,
    /// A move answers 71 to 77 before 4.
    ImageFirst,
    /// A downgrade answers 8 before 4.
    BeyondBeforeRoom,
    /// A move needs no more room than the image that it gives.
    OwnRoom,
    /// A move wants an octet more than the largest image.
    MoreRoom,
    /// Load clears what stands behind a name of version 1.
    TailsCleared,
    /// A name of version 1 with octets behind its end is refused.
    TailsRefused,
    /// Load reads BR/EDR of version 2 as supported.
    ReadsSupported,
    /// Load reads BR/EDR of version 1 as off where LE is on.
    ReadsOff,
    /// Load takes version 2 alone.
    OldRefused,
    /// Load takes version 1 alone.
    NewRefused,
    /// Load takes version 3 for version 2.
    ThirdTaken,
    /// An upgrade gives an image of version 2 as it is.
    UpgradeTakesNew,
    /// A downgrade gives an image of version 1 as it is.
    DowngradeTakesOld,
    /// An upgrade leaves the length field as it was.
    LengthKept,
    /// A move leaves the version octet as it was.
    VersionKept,
    /// A downgrade fills names with spaces.
    Spaces,
    /// A move clears what is behind its count.
    ClearsBehind,
    /// A refused move counts an octet.
    RefusalCounts,
}

/// All slips.
pub const SLIPS: [Slip; 47] = [
    Slip::TailKept,
    Slip::ShortTailKept,
    Slip::ZeroCounted,
    Slip::NameWhole,
    Slip::UpgradeDropsFlag,
    Slip::UpgradeSetsFlag,
    Slip::SaveDropsFlag,
    Slip::DowngradeKeepsFlag,
    Slip::OffMovedBack,
    Slip::FirstLookedAt,
    Slip::LastLookedAt,
    Slip::UnsupportedBeyond,
    Slip::SaveOld,
    Slip::SaveOldIfItCan,
    Slip::SaveRefused,
    Slip::LongTaken,
    Slip::LongShortTaken,
    Slip::FullRefused,
    Slip::EmptyRefused,
    Slip::ZeroTaken,
    Slip::ShortZeroTaken,
    Slip::LastZeroTaken,
    Slip::UnsupportedTaken,
    Slip::BothOffTaken,
    Slip::OldFlagTaken,
    Slip::NewFlagRefused,
    Slip::OffRefused,
    Slip::OtherFlagTaken,
    Slip::BeyondFirst,
    Slip::ImageFirst,
    Slip::BeyondBeforeRoom,
    Slip::OwnRoom,
    Slip::MoreRoom,
    Slip::TailsCleared,
    Slip::TailsRefused,
    Slip::ReadsSupported,
    Slip::ReadsOff,
    Slip::OldRefused,
    Slip::NewRefused,
    Slip::ThirdTaken,
    Slip::UpgradeTakesNew,
    Slip::DowngradeTakesOld,
    Slip::LengthKept,
    Slip::VersionKept,
    Slip::Spaces,
    Slip::ClearsBehind,
    Slip::RefusalCounts,
];

/// A hub with such a slip.
pub struct WrongImages {
    /// The hub that is right.
    inner: Mirror,
    /// The slip.
    slip: Slip,
}

/// Whether a controller of an image of version 2 supports BR/EDR and has it off.
fn is_off(controller: &ControllerDraft) -> bool {
    controller.has_br_edr() && controller.flags & setting::BR_EDR == 0
}

/// Whether a name of an image of version 2 is of a kind.
fn any_name(draft: &Draft, which: usize, kind: fn(&[u8]) -> bool) -> bool {
    draft.controllers.iter().any(|controller| match &controller.names {
        NamesDraft::Used(names) => kind(&names[which].octets),
        NamesDraft::Whole(_) => false,
    })
}

/// Whether a controller of an image has a flag.
fn any_flag(draft: &Draft, flag: u32) -> bool {
    draft.controllers.iter().any(|controller| controller.flags & flag != 0)
}

/// A name without the zeros at its end.
fn trimmed(name: &[u8]) -> Vec<u8> {
    let end = name.iter().rposition(|octet| *octet != 0).map_or(0, |last| last + 1);
    name[..end].to_vec()
}

/// The hub of a state.
fn hub_of(state: &State) -> Hub {
    let present = state.controllers.iter().enumerate().filter_map(|(at, slot)| Some((at, slot.clone()?)));
    present.fold(Hub::new(), |hub, (at, controller)| hub.with_controller(at, controller))
}

/// A state with each controller changed.
fn edited(mut state: State, edit: fn(&mut Controller)) -> State {
    state.controllers.iter_mut().flatten().for_each(edit);
    state
}

impl WrongImages {
    /// A hub with this slip.
    pub fn new(slip: Slip) -> WrongImages {
        WrongImages { inner: Mirror::default(), slip }
    }

    /// Whether it takes an image that the right one refuses for this fault.
    fn takes(&self, draft: &Draft, fault: ImageFault) -> bool {
        match (self.slip, fault) {
            (Slip::LongTaken, ImageFault::NameLength(0)) => any_name(draft, 0, |name| name.len() == NAME),
            (Slip::LongShortTaken, ImageFault::NameLength(1)) => {
                any_name(draft, 1, |name| name.len() == SHORT_NAME)
            }
            (Slip::ZeroTaken, ImageFault::NameZero(0)) | (Slip::ShortZeroTaken, ImageFault::NameZero(1)) => {
                true
            }
            (Slip::LastZeroTaken, ImageFault::NameZero(0)) => any_name(draft, 0, |name| {
                name.iter().position(|octet| *octet == 0) == name.len().checked_sub(1)
            }),
            (Slip::UnsupportedTaken, ImageFault::BrEdrOn) => true,
            (Slip::BothOffTaken, ImageFault::BothOff) => draft.version == 2,
            (Slip::OldFlagTaken, ImageFault::Flags) => draft.version == 1 && any_flag(draft, setting::BR_EDR),
            (Slip::OtherFlagTaken, ImageFault::Flags) => draft.version == 2,
            _ => false,
        }
    }

    /// Whether it refuses an image that the right one takes.
    fn refuses(&self, draft: &Draft) -> bool {
        let new = draft.version == 2;
        match self.slip {
            Slip::FullRefused => any_name(draft, 0, |name| name.len() == NAME - 1),
            Slip::EmptyRefused => any_name(draft, 0, |name| name.is_empty()),
            Slip::NewFlagRefused => new && any_flag(draft, setting::BR_EDR),
            Slip::OffRefused => new && draft.controllers.iter().any(is_off),
            Slip::TailsRefused => draft.controllers.iter().any(|controller| match &controller.names {
                NamesDraft::Whole(octets) => {
                    let names = LocalName::read(octets);
                    trimmed(&names.name).contains(&0) || trimmed(&names.short_name).contains(&0)
                }
                NamesDraft::Used(_) => false,
            }),
            _ => false,
        }
    }

    /// Whether it judges an image otherwise than the right one, of which it is known whether that takes it; then what it says.
    fn judged(&self, image: &[u8], right: Result<(), Diagnosis>) -> Option<bool> {
        let draft = Draft::of(image)?;
        match right {
            Ok(()) => self.refuses(&draft).then_some(false),
            Err(diagnosis) => self.takes(&draft, diagnosis.fault).then_some(true),
        }
    }

    /// What an image loads to where that is something else than what the right one makes of it, or that it is refused.
    fn loaded(&self, image: &[u8]) -> Option<Option<State>> {
        let (right, version) = (load(image), image.get(4).copied().unwrap_or(0));
        match self.judged(image, right.as_ref().map(|_| ()).map_err(|fault| *fault)) {
            Some(true) => return Some(Some(State::default())),
            Some(false) => return Some(None),
            None => {}
        }
        match (self.slip, version) {
            (Slip::OldRefused, 1) | (Slip::NewRefused, 2) => Some(None),
            (Slip::ThirdTaken, 3) => load(&[&image[..4], &[2], &image[5..]].concat()).ok().map(Some),
            (Slip::TailsCleared, 1) => Some(load(&image::save(&right.ok()?)).ok()),
            (Slip::ReadsSupported, 2) => {
                Some(Some(edited(right.ok()?, |it| it.br_edr = it.hardware.supports_br_edr())))
            }
            (Slip::ReadsOff, 1) => Some(Some(edited(right.ok()?, |it| it.br_edr &= !it.low_energy))),
            _ => None,
        }
    }

    /// The image of version 2 that it writes of a state.
    fn written(&self, state: &State) -> Vec<u8> {
        let mut draft = Draft::read(&image::save(state));
        let controllers = state.controllers.iter().flatten();
        for (controller, kept) in draft.controllers.iter_mut().zip(controllers) {
            let NamesDraft::Used(names) = &mut controller.names else { continue };
            let whole = [&kept.local_name.name[..], &kept.local_name.short_name];
            for (which, name) in names.iter_mut().enumerate() {
                match self.slip {
                    Slip::TailKept => name.octets = trimmed(whole[which]),
                    Slip::ShortTailKept if which == 1 => name.octets = trimmed(whole[1]),
                    Slip::ZeroCounted => name.octets.push(0),
                    Slip::NameWhole => {
                        let length = Some(name.octets.len() as u8);
                        *name = NameDraft { length, octets: whole[which].to_vec() };
                    }
                    _ => {}
                }
            }
        }
        draft.octets()
    }

    /// What a save gives.
    fn saved(&self, hub: &Hub, room: usize) -> Reply {
        let (state, right) = (hub.state(), hub.save(room));
        if right.answer != answer::DONE {
            return right;
        }
        let off = state.has_br_edr_off();
        let octets = match self.slip {
            Slip::SaveOld => image::write(state, Version::One),
            Slip::SaveOldIfItCan if !off => image::write(state, Version::One),
            Slip::SaveRefused if off => return Reply::bare(answer::NOT_IN_IMAGE),
            Slip::SaveDropsFlag => {
                let mut draft = Draft::read(&right.octets);
                draft.controllers.iter_mut().for_each(|controller| controller.flags &= !setting::BR_EDR);
                draft.octets()
            }
            _ => self.written(state),
        };
        Reply::new(answer::DONE, octets)
    }

    /// What a move gives, room enough or not.
    fn given(&self, way: Move, image: &[u8], room: usize) -> Reply {
        let (right, roomy) = (moved(way, image, room), moved(way, image, IMAGE_ROOM));
        let any_off = || {
            let draft = Draft::of(image).filter(|draft| draft.version == 2);
            draft.is_some_and(|draft| draft.controllers.iter().any(is_off))
        };
        let back = way == Move::Downgrade;
        match (self.slip, right.answer) {
            (Slip::ImageFirst, answer::ROOM) if answer::is_bad_image(roomy.answer) => roomy,
            (Slip::BeyondBeforeRoom, answer::ROOM) if roomy.answer == answer::NOT_IN_IMAGE => roomy,
            (Slip::OwnRoom, answer::ROOM) if room >= roomy.octets.len().max(6) => roomy,
            (Slip::MoreRoom, answer::DONE) if room == IMAGE_ROOM => Reply::bare(answer::ROOM),
            (Slip::BeyondFirst, given) if answer::is_bad_image(given) && back && any_off() => {
                Reply::bare(answer::NOT_IN_IMAGE)
            }
            (Slip::RefusalCounts, given) if answer::is_bad_image(given) => Reply { octets: vec![0], ..right },
            (_, answer::ROOM) => right,
            _ => self.given_with_room(way, image, right),
        }
    }

    /// What a move gives that has room enough.
    fn given_with_room(&self, way: Move, image: &[u8], right: Reply) -> Reply {
        let from = if way == Move::Upgrade { Version::One } else { Version::Two };
        match self.judged(image, read(image, &[from]).map(|_| ())) {
            Some(true) if image.get(4) == Some(&from.octet()) => {
                return Reply::new(answer::DONE, image.to_vec())
            }
            Some(false) => return Reply::bare(answer::IMAGE_FIELD),
            _ => {}
        }
        let taken = load(image).is_ok();
        match (self.slip, way) {
            (Slip::UpgradeTakesNew, Move::Upgrade) if taken => {
                Reply::new(answer::DONE, if right.answer == 0 { right.octets } else { image.to_vec() })
            }
            (Slip::DowngradeTakesOld, Move::Downgrade) if taken && image[4] == 1 => {
                Reply::new(answer::DONE, image.to_vec())
            }
            (_, Move::Upgrade) => self.upgraded(image, right),
            (_, Move::Downgrade) => self.downgraded(image, right),
        }
    }

    /// What a move to version 2 gives.
    fn upgraded(&self, image: &[u8], right: Reply) -> Reply {
        let Ok(state) = read(image, &[Version::One]) else { return right };
        let mut octets = self.written(&state);
        let mut draft = Draft::read(&octets);
        for controller in &mut draft.controllers {
            match self.slip {
                Slip::UpgradeDropsFlag => controller.flags &= !setting::BR_EDR,
                Slip::UpgradeSetsFlag => controller.flags |= setting::BR_EDR,
                _ => {}
            }
        }
        if matches!(self.slip, Slip::UpgradeDropsFlag | Slip::UpgradeSetsFlag) {
            octets = draft.octets();
        }
        match self.slip {
            Slip::LengthKept => octets[..4].copy_from_slice(&image[..4]),
            Slip::VersionKept => octets[4] = 1,
            _ => {}
        }
        Reply::new(answer::DONE, octets)
    }

    /// What a move back to version 1 gives.
    fn downgraded(&self, image: &[u8], right: Reply) -> Reply {
        let Ok(state) = read(image, &[Version::Two]) else { return right };
        let draft = Draft::read(image);
        let (first, last) = (draft.controllers.first(), draft.controllers.last());
        let beyond = match self.slip {
            Slip::OffMovedBack => false,
            Slip::FirstLookedAt => first.is_some_and(is_off),
            Slip::LastLookedAt => last.is_some_and(is_off),
            Slip::UnsupportedBeyond => {
                state.controllers.iter().flatten().any(|controller| !controller.br_edr)
            }
            _ => right.answer == answer::NOT_IN_IMAGE,
        };
        if beyond {
            return Reply::bare(answer::NOT_IN_IMAGE);
        }
        let mut back = Draft::read(&image::write(&state, Version::One));
        for (controller, old) in back.controllers.iter_mut().zip(&draft.controllers) {
            match (self.slip, &mut controller.names) {
                (Slip::DowngradeKeepsFlag, _) => controller.flags = old.flags,
                (Slip::Spaces, NamesDraft::Whole(octets)) if octets[0] == 0 => octets[1] = b' ',
                _ => {}
            }
        }
        let mut octets = back.octets();
        octets[4] = if self.slip == Slip::VersionKept { 2 } else { 1 };
        Reply::new(answer::DONE, octets)
    }
}

impl Target for WrongImages {
    const STATE_LEN: usize = Mirror::STATE_LEN;

    fn call(&mut self, state: &mut [u8], call: &Call, reply: &mut [u8]) -> u64 {
        match (call, self.inner.read(state)) {
            (Call::Save { room }, Some(hub)) => number(&self.saved(&hub, *room), reply),
            _ => self.inner.call(state, call, reply),
        }
    }

    fn name(&mut self, state: &[u8], index: u64, which: u64, reply: &mut [u8]) -> u64 {
        self.inner.name(state, index, which, reply)
    }

    fn on_air(&mut self, state: &[u8], index: u64, reply: &mut [u8]) -> u64 {
        self.inner.on_air(state, index, reply)
    }

    fn why(&mut self, state: &[u8], packet: &[u8], text: &mut [u8]) -> u64 {
        self.inner.why(state, packet, text)
    }

    fn look_up(&self, state: &[u8], index: u64, table: u64, key: &[u8]) -> u64 {
        self.inner.look_up(state, index, table, key)
    }

    fn load(&mut self, state: &mut [u8], image: &[u8]) -> u64 {
        match self.loaded(image).filter(|_| state.len() == Self::STATE_LEN) {
            None => self.inner.load(state, image),
            Some(None) => answer::IMAGE_FIELD.into(),
            Some(Some(loaded)) => {
                self.inner.write(state, hub_of(&loaded));
                answer::DONE.into()
            }
        }
    }

    fn moved(&self, way: Move, image: &[u8], out: &mut [u8]) -> u64 {
        let given = self.given(way, image, out.len());
        if self.slip == Slip::ClearsBehind && given.answer == answer::DONE {
            out.fill(0);
        }
        number(&given, out)
    }
}
