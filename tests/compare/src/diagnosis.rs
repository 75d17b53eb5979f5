//! Images that are refused, on a target and on the reference hub: each number and its offset, for load and both moves. Full images cut
//! at every octet, every octet of small ones at every value, every count, indexes, clashes, repeats, and faults two by two.

use crate::images::{move_agrees, refusal_agrees, Tried};
use crate::lent::{Difference, Lent};
use crate::run::same;
use crate::target::{Move, Target};
use crate::versions::{controller, draft, names};
use calls::damage::{all, damage};
use calls::draft::{records, ControllerDraft, Draft};
use calls::pools::{high_address, low_address};
use calls::records::KINDS;
use calls::Random;
use reference::codes::{answer, setting, CONTROLLERS, IMAGE_ROOM, NAME, SHORT_NAME, SLOTS};
use reference::Reply;
use std::fmt::{Display, Formatter};

/// How often each pair of damages is drawn.
const DRAWN: usize = 3;

/// How often each answer was given: done, the seven numbers of a refused image, and 8.
#[derive(Clone, Copy, PartialEq, Eq, Debug, Default)]
pub struct Answers {
    /// Images that are taken.
    pub done: usize,
    /// Those that are refused, by number from 71 on.
    pub refused: [usize; 7],
    /// Those that version 1 has no place for.
    pub beyond: usize,
}

impl Answers {
    /// Counts an answer.
    fn add(&mut self, given: u8) {
        match given {
            answer::DONE => self.done += 1,
            answer::NOT_IN_IMAGE => self.beyond += 1,
            _ if answer::is_bad_image(given) => {
                self.refused[usize::from(given - answer::IMAGE_LENGTH)] += 1;
            }
            _ => {}
        }
    }
}

impl Display for Answers {
    fn fmt(&self, out: &mut Formatter<'_>) -> std::fmt::Result {
        write!(out, "{} taken", self.done)?;
        for (count, number) in self.refused.iter().zip(answer::IMAGE_LENGTH..) {
            write!(out, ", {count} answered {number}")?;
        }
        match self.beyond {
            0 => Ok(()),
            beyond => write!(out, ", {beyond} answered 8"),
        }
    }
}

/// What a sweep came to.
#[derive(Clone, Copy, PartialEq, Eq, Debug, Default)]
pub struct Sweep {
    /// What load answered.
    pub load: Answers,
    /// What the move to version 2 answered.
    pub upgrade: Answers,
    /// What the move back to version 1 answered.
    pub downgrade: Answers,
}

impl Display for Sweep {
    fn fmt(&self, out: &mut Formatter<'_>) -> std::fmt::Result {
        write!(out, "load: {}\nupgrade: {}\ndowngrade: {}", self.load, self.upgrade, self.downgrade)
    }
}

/// A target with the count of what it answered.
struct Trial<'a, T: Target> {
    /// The target.
    lent: &'a mut Lent<T>,
    /// What it came to so far.
    sweep: Sweep,
}

/// An image with the length field put right.
fn sized(mut image: Vec<u8>) -> Vec<u8> {
    let length = image.len() as u32;
    image[..4].copy_from_slice(&length.to_be_bytes());
    image
}

/// A controller with the longest names and full tables.
fn full(version: u8, index: u8) -> ControllerDraft {
    let names = names(version, [NAME - 1, SHORT_NAME - 1], false);
    ControllerDraft { names, ..controller(version, index, SLOTS) }
}

/// The same that has one transport alone, with so many records in each table that it takes.
fn single(version: u8, index: u8, off: u32, count: usize) -> ControllerDraft {
    let mut single = controller(version, index, count);
    single.supported &= !off;
    single.flags &= !off;
    if off == setting::LOW_ENERGY {
        single.static_address = [0; 6];
    }
    for (table, kind) in KINDS.iter().enumerate() {
        if !single.takes(*kind) {
            single.tables[table].records.clear();
        }
    }
    single
}

impl<T: Target> Trial<'_, T> {
    /// Loads an image and moves it both ways on both.
    fn image(&mut self, what: impl Fn() -> String, image: &[u8]) -> Result<Tried, Difference> {
        let tried = refusal_agrees(self.lent, image);
        let tried = tried.map_err(|difference| format!("{}: {difference}\n  {image:02X?}", what()))?;
        self.sweep.load.add(tried.load);
        self.sweep.upgrade.add(tried.upgrade);
        self.sweep.downgrade.add(tried.downgrade);
        Ok(tried)
    }

    /// A full image cut at every octet, as it is and with the length field put right.
    fn cuts(&mut self, version: u8) -> Result<(), Difference> {
        let whole =
            draft(version, (0..CONTROLLERS as u8).map(|index| full(version, index)).collect()).octets();
        assert_eq!(whole.len(), IMAGE_ROOM, "the largest image");
        for length in 0..whole.len() {
            let cut = whole[..length].to_vec();
            self.image(|| format!("version {version}, {length} octets"), &cut)?;
            if length >= 4 {
                self.image(|| format!("version {version}, cut to {length}"), &sized(cut))?;
            }
        }
        for more in [1, 2, 255, 300] {
            let longer = sized([&whole[..], &vec![0; more]].concat());
            self.image(|| format!("version {version}, {more} octets left over"), &longer)?;
        }
        Ok(())
    }

    /// Every octet of a small image at every value: two records in each table of one controller, and in version 2 one in each table of two.
    fn octets(&mut self, version: u8) -> Result<(), Difference> {
        let one = draft(version, vec![controller(version, 2, 2)]);
        let two = draft(version, vec![controller(version, 0, 1), controller(version, 3, 1)]);
        for small in [one, two].into_iter().take(version.into()) {
            let whole = small.octets();
            for (place, value) in
                (0..whole.len()).flat_map(|place| (0..=255).map(move |value| (place, value)))
            {
                let mut image = whole.clone();
                image[place] = value;
                self.image(|| format!("version {version}, octet {place} is {value}"), &image)?;
            }
        }
        Ok(())
    }

    /// Every controller count for each number of controllers, and every count of each table at the first and at the last.
    fn counts(&mut self, version: u8) -> Result<(), Difference> {
        for (number, count) in (0..=CONTROLLERS as u8).flat_map(|n| (0..=255).map(move |count| (n, count))) {
            let mut counted =
                draft(version, (0..number).map(|index| controller(version, index, 1)).collect());
            counted.count = Some(count);
            self.image(|| format!("version {version}, {count} for {number} controllers"), &counted.octets())?;
        }
        for (place, table) in (0..2).flat_map(|place| (0..KINDS.len()).map(move |table| (place, table))) {
            for count in 0..=255 {
                let mut counted = draft(version, vec![controller(version, 1, 2), controller(version, 2, 2)]);
                counted.controllers[place].tables[table].count = Some(count);
                self.image(|| format!("version {version}, table {table}, count {count}"), &counted.octets())?;
            }
        }
        Ok(())
    }

    /// Every pair of indexes up to 5 and of some above, and every four of up to 4.
    fn indexes(&mut self, version: u8) -> Result<(), Difference> {
        let pairs = (0..8 * 8)
            .map(|number| [number / 8, number % 8].map(|at| [0, 1, 2, 3, 4, 5, 128, 255][at]).to_vec());
        let fours = (0..625).map(|number| [125, 25, 5, 1].map(|by| (number / by % 5) as u8).to_vec());
        for indexes in pairs.chain(fours) {
            let controllers = indexes.iter().map(|index| controller(version, *index, 0)).collect();
            let indexed = draft(version, controllers).octets();
            self.image(|| format!("version {version}, indexes {indexes:?}"), &indexed)?;
        }
        Ok(())
    }

    /// Public address, supported settings, flags, static address and keys in every mixture, at the first of two controllers.
    fn clashes(&mut self, version: u8) -> Result<(), Difference> {
        let supports = [0x0001, 0x0081, 0x0201, 0x0281, 0x0001_0281];
        let flags = [setting::CONNECTABLE, setting::BONDABLE, setting::BR_EDR, setting::LOW_ENERGY];
        for (number, supported) in
            (0..16 * 3 * 16).flat_map(|number| supports.map(|support| (number, support)))
        {
            let mut mixed = draft(version, vec![controller(version, 0, 1), controller(version, 1, 0)]);
            let first = &mut mixed.controllers[0];
            first.supported = supported;
            first.flags = (0..4).filter(|at| number >> at & 1 == 1).map(|at| flags[at]).sum();
            first.static_address = [[0; 6], high_address(3), low_address(0)][number / 16 % 3];
            let kept = number / 48;
            if kept & 1 == 0 {
                first.public_address = [0; 6];
            }
            for table in (1..4).filter(|table| kept >> table & 1 == 0) {
                first.tables[table].records.clear();
            }
            self.image(|| format!("version {version}, mixture {number} of {supported:#x}"), &mixed.octets())?;
        }
        Ok(())
    }

    /// In each table: every later record of 32 naming what an earlier one names; each record wrong; lists of two records, right and wrong.
    fn repeats(&mut self, version: u8) -> Result<(), Difference> {
        for (table, kind) in KINDS.into_iter().enumerate() {
            let mut try_table = |what: String, list: Vec<Vec<u8>>| {
                let mut image = draft(version, vec![controller(version, 1, 0), controller(version, 3, 0)]);
                image.controllers[1].tables[table].records = list;
                self.image(|| format!("version {version}, table {table}, {what}"), &image.octets())
                    .map(|_| ())
            };
            let list = records(&mut Random::new(7), kind, SLOTS);
            for (earlier, later) in (0..SLOTS).flat_map(|later| (0..=later).map(move |k| (k, later))) {
                let mut list = list.clone();
                list[later] = list[earlier].clone();
                try_table(format!("{later} as {earlier}"), list.clone())?;
                list[earlier] = wrong(table, &list[earlier]);
                try_table(format!("{later} as {earlier} but for a fault of that"), list)?;
            }
            let choice = [list[0].clone(), list[1].clone(), wrong(table, &list[0]), vec![0; kind.length()]];
            for number in 0..256_usize {
                let four = [64, 16, 4, 1].map(|by| choice[number / by % 4].clone()).to_vec();
                try_table(format!("list {number}"), four)?;
            }
        }
        Ok(())
    }

    /// Every two damages in one image of three controllers: of both transports and of each alone.
    fn pairs(&mut self, version: u8) -> Result<(), Difference> {
        let whole = vec![
            single(version, 0, setting::BR_EDR, 2),
            controller(version, 1, 2),
            single(version, 2, setting::LOW_ENERGY, 2),
        ];
        let (whole, mut random) = (draft(version, whole), Random::new(version.into()));
        for (one, other) in all().into_iter().flat_map(|one| all().into_iter().map(move |other| (one, other)))
        {
            for _ in 0..DRAWN {
                let mut damaged: Draft = whole.clone();
                damage(&mut random, &mut damaged, one);
                damage(&mut random, &mut damaged, other);
                self.image(|| format!("version {version}, {one:?} and {other:?}"), &damaged.octets())?;
            }
        }
        Ok(())
    }

    /// An offset comes with 71 to 77 alone: not where the room or the state buffer is answered, nor with 8.
    fn others(&mut self, version: u8) -> Result<(), Difference> {
        let mut wrong = draft(version, vec![controller(version, 3, 1)]);
        wrong.controllers[0].index = 9;
        let mut off = draft(2, vec![controller(2, 0, 0)]);
        off.controllers[0].flags &= !setting::BR_EDR;
        for image in
            [wrong.octets(), off.octets(), vec![], vec![0, 0, 0, 6, 9, 0], vec![0, 0, 0, 9, version, 0]]
        {
            for room in [0, 1, IMAGE_ROOM - 1] {
                move_agrees(self.lent, Move::Upgrade, &image, room)?;
                move_agrees(self.lent, Move::Downgrade, &image, room)?;
            }
            for length in [0, T::STATE_LEN - 1, T::STATE_LEN + 1] {
                let found = self.lent.load_with_length(&image, length)?;
                same(&format!("load into a state of {length}"), &Reply::bare(answer::STATE), &found)?;
            }
            self.image(|| "with room".into(), &image)?;
        }
        Ok(())
    }
}

/// A record with the same name that breaks a rule by itself, where its table has such a rule; else another record that does.
fn wrong(table: usize, record: &[u8]) -> Vec<u8> {
    let mut wrong = record.to_vec();
    match table {
        0 => wrong[..16].fill(0),
        2 => wrong[9] = 17,
        3 => wrong[6] = 0,
        4 => wrong[6] = 3,
        _ => wrong[7] = 9,
    }
    wrong
}

/// Tries all of it.
pub fn diagnosis_agrees<T: Target>(lent: &mut Lent<T>) -> Result<Sweep, Difference> {
    let mut trial = Trial { lent, sweep: Sweep::default() };
    for version in [1, 2] {
        trial.others(version)?;
        trial.indexes(version)?;
        trial.clashes(version)?;
        trial.counts(version)?;
        trial.pairs(version)?;
        trial.repeats(version)?;
        trial.cuts(version)?;
        trial.octets(version)?;
    }
    Ok(trial.sweep)
}
