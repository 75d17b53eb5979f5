//! The reference hub with a slip in what it tells of a refused image, to try the sweep over these.

use crate::diagnosis_slips::Slip;
use crate::mirror::{moved, number, Mirror};
use crate::target::{Move, Target};
use calls::diagnoses::{judged_in, table_of};
use calls::records::KINDS;
use calls::things::{parts, Part, Thing};
use reference::codes::answer;
use reference::image::{load, read, Version};
use reference::reason::{ArgumentFault, Diagnosis, ImageFault};
use reference::{Call, Reply};

/// A hub with such a slip.
pub struct WrongDiagnosis {
    /// The hub that is right.
    inner: Mirror,
    /// The slip.
    slip: Slip,
}

/// A refused image: its octets, what is right to tell of it, and its parts.
struct Case<'a> {
    /// The image.
    image: &'a [u8],
    /// The versions that are taken.
    versions: &'a [Version],
    /// What is wrong with it, and where.
    right: Diagnosis,
    /// What stands where in it.
    parts: Vec<Part>,
}

/// The number and the offset that are told.
type Told = (u8, usize);

impl Case<'_> {
    /// The part at fault, where one begins there.
    fn part(&self) -> Option<Part> {
        self.parts.iter().find(|part| part.start == self.right.offset).copied()
    }

    /// Where the last part of a kind stands that begins at the fault or before it.
    fn last(&self, thing: impl Fn(Thing) -> bool) -> usize {
        let before = self.parts.iter().filter(|part| part.start <= self.right.offset && thing(part.thing));
        before.last().map_or(0, |part| part.start)
    }

    /// The table and the number of the record at fault, and the whole records of its table.
    fn table(&self) -> Option<(usize, usize, Vec<&[u8]>)> {
        table_of(self.image, &self.part().filter(|part| part.end <= self.image.len())?)
    }

    /// Where a record of the table at fault begins.
    fn record_at(&self, table: usize, number: usize) -> usize {
        self.last(|thing| thing == Thing::TableCount(table)) + 1 + number * KINDS[table].length()
    }

    /// The number that a thing would have if it were wrong.
    fn number_of(thing: Thing) -> u8 {
        match thing {
            Thing::ControllerCount | Thing::Index => answer::IMAGE_INDEX,
            Thing::TableCount(_) => answer::IMAGE_COUNT,
            Thing::Record(..) => answer::IMAGE_RECORD,
            _ => answer::IMAGE_FIELD,
        }
    }

    /// What is wrong with the image once its length field is put right.
    fn sized(&self) -> Option<Diagnosis> {
        let length = (self.image.len() as u32).to_be_bytes();
        read(&[&length, &self.image[4..]].concat(), self.versions).err()
    }
}

/// What is told of a diagnosis.
fn told(diagnosis: Diagnosis) -> Told {
    (diagnosis.fault.answer(), diagnosis.offset)
}

impl Slip {
    /// What is told of an image; nothing where the slip does not show.
    fn told(self, case: &Case) -> Option<Told> {
        self.of_head(case)
            .or_else(|| self.of_field(case))
            .or_else(|| self.of_record(case))
            .or_else(|| self.of_all(case))
    }

    /// Slips in the length, the version and the controller count.
    fn of_head(self, case: &Case) -> Option<Told> {
        let (end, offset) = (case.image.len(), case.right.offset);
        let short = case.right.fault == ImageFault::Short;
        let part = case.parts.last().filter(|_| short && end >= 5);
        let length = || case.image[..4] != (end as u32).to_be_bytes();
        match (self, case.right.fault) {
            (Slip::LengthFirst, ImageFault::Version) if length() => Some((answer::IMAGE_LENGTH, 0)),
            (Slip::LengthLast, ImageFault::Length) => case.sized().map(told),
            (Slip::LengthAtEnd, ImageFault::Length) => Some((answer::IMAGE_LENGTH, end)),
            (Slip::LeftOverAtEnd, ImageFault::LeftOver) => Some((answer::IMAGE_LENGTH, end)),
            (Slip::LeftOverAtLast, ImageFault::LeftOver) => Some((answer::IMAGE_LENGTH, end - 1)),
            (Slip::LeftOverIsCount, ImageFault::LeftOver) => Some((answer::IMAGE_INDEX, 5)),
            (Slip::CutAtThing, _) => part.map(|part| (answer::IMAGE_LENGTH, part.start)),
            (Slip::CutIsThing, _) => part.map(|part| (Case::number_of(part.thing), part.start)),
            (Slip::CutBehind, _) => part.map(|_| (answer::IMAGE_LENGTH, end + 1)),
            (Slip::ShortIsVersion, _) if end < 5 => Some((answer::IMAGE_VERSION, end)),
            (Slip::ShortAtZero, _) if end < 5 => Some((answer::IMAGE_LENGTH, 0)),
            (Slip::NoCountIsIndex, ImageFault::Short) if end == 5 => Some((answer::IMAGE_INDEX, 5)),
            (Slip::ManyAtFirst, ImageFault::ControllerCount) => Some((answer::IMAGE_INDEX, 6)),
            (Slip::ManyIsCount, ImageFault::ControllerCount) => Some((answer::IMAGE_COUNT, 5)),
            (Slip::IndexIsField, ImageFault::Index) => Some((answer::IMAGE_FIELD, offset)),
            (Slip::OrderIsField, ImageFault::Index) if case.image[offset] <= 3 => {
                Some((answer::IMAGE_FIELD, offset))
            }
            (Slip::EarlierIndex, ImageFault::Index) if case.image[offset] <= 3 => {
                let before =
                    case.parts.iter().filter(|part| part.start < offset && part.thing == Thing::Index);
                before.last().map(|part| (answer::IMAGE_INDEX, part.start))
            }
            _ => None,
        }
    }

    /// Slips in the fields of a controller.
    fn of_field(self, case: &Case) -> Option<Told> {
        let (fault, offset, first) = (case.right.fault, case.right.offset, case.image.get(4) == Some(&1));
        let supported = || (answer::IMAGE_FIELD, case.last(|thing| thing == Thing::Supported));
        match (self, fault) {
            (Slip::EarlierAddress, ImageFault::Plug(ArgumentFault::NoPublicAddress)) => {
                Some((answer::IMAGE_FIELD, case.last(|thing| thing == Thing::PublicAddress)))
            }
            (Slip::EarlierSupported, ImageFault::BrEdrOn | ImageFault::LowEnergyOn | ImageFault::BothOff) => {
                Some(supported())
            }
            (Slip::EarlierStatic, ImageFault::StaticUnsupported) => Some(supported()),
            (Slip::EarlierKeys, ImageFault::RecordUnsupported(_)) => Some(supported()),
            (Slip::NameAtOctets, ImageFault::NameLength(_) | ImageFault::NameZero(_)) => {
                Some((answer::IMAGE_FIELD, offset + 1))
            }
            (Slip::NameAtZero, ImageFault::NameZero(_)) => {
                let zero = case.image[offset + 1..].iter().position(|octet| *octet == 0)?;
                Some((answer::IMAGE_FIELD, offset + 1 + zero))
            }
            (Slip::NameAtEnd, ImageFault::NameEnd(_)) => Some((answer::IMAGE_FIELD, case.part()?.end - 1)),
            (
                Slip::ShortNameAtName,
                ImageFault::NameEnd(1) | ImageFault::NameLength(1) | ImageFault::NameZero(1),
            ) => Some((answer::IMAGE_FIELD, case.last(|thing| thing == Thing::Name(0)))),
            (Slip::NameLengthFirst, ImageFault::Short) if !first => {
                let part = case.parts.last().filter(|part| matches!(part.thing, Thing::Name(_)))?;
                let most = if part.thing == Thing::Name(0) { 248 } else { 10 };
                (*case.image.get(part.start)? > most).then_some((answer::IMAGE_FIELD, part.start))
            }
            (Slip::FieldAtLast, _) if fault.answer() == answer::IMAGE_FIELD => {
                Some((answer::IMAGE_FIELD, case.part()?.end - 1))
            }
            (Slip::CountIsRecord, ImageFault::TableCount(_)) => Some((answer::IMAGE_RECORD, offset)),
            (Slip::CountAtRecord, ImageFault::TableCount(_)) => Some((answer::IMAGE_COUNT, offset + 1)),
            _ => None,
        }
    }

    /// Slips in the records.
    fn of_record(self, case: &Case) -> Option<Told> {
        let (table, number, records) = case.table()?;
        let count_at = case.last(|thing| thing == Thing::TableCount(table));
        let [wrong, again] = judged_in(table, &records);
        let [_, repeated] = judged_in(table, &records[..=number]);
        let at = |number: u8, record: usize| (number, case.record_at(table, record));
        let unsupported = matches!(case.right.fault, ImageFault::RecordUnsupported(_));
        match (self, case.right.fault) {
            (Slip::EarlierRecord, ImageFault::Repeated(_)) => {
                let earlier =
                    (0..number).find(|at| judged_in(table, &[records[*at], records[number]])[1].is_some())?;
                Some(at(answer::IMAGE_REPEATED, earlier))
            }
            (Slip::RepeatFirst, ImageFault::Record(..)) if repeated == Some(number) => {
                Some(at(answer::IMAGE_REPEATED, number))
            }
            (Slip::RecordsFirst, ImageFault::Repeated(_)) => wrong.map(|it| at(answer::IMAGE_RECORD, it)),
            (Slip::RepeatsFirst, ImageFault::Record(..)) => again.map(|it| at(answer::IMAGE_REPEATED, it)),
            (Slip::WholeTableFirst, _) if records.len() < usize::from(case.image[count_at]) => {
                Some((answer::IMAGE_LENGTH, case.image.len()))
            }
            (Slip::SupportLast, _) if unsupported => match (wrong, again) {
                (Some(it), _) => Some(at(answer::IMAGE_RECORD, it)),
                (None, Some(it)) => Some(at(answer::IMAGE_REPEATED, it)),
                _ => None,
            },
            (Slip::SupportAtCount, _) if unsupported => Some((answer::IMAGE_RECORD, count_at)),
            (Slip::SupportIsField, _) if unsupported => Some((answer::IMAGE_FIELD, case.right.offset)),
            (Slip::RecordAtTable, ImageFault::Record(..)) => Some((answer::IMAGE_RECORD, count_at)),
            (Slip::RepeatAtTable, ImageFault::Repeated(_)) => Some((answer::IMAGE_REPEATED, count_at)),
            (Slip::RecordAtOctet, ImageFault::Record(..)) if table != 0 => {
                Some((answer::IMAGE_RECORD, case.right.offset + 6))
            }
            (Slip::RepeatIsRecord, ImageFault::Repeated(_)) => {
                Some((answer::IMAGE_RECORD, case.right.offset))
            }
            _ => None,
        }
    }

    /// Slips in every offset.
    fn of_all(self, case: &Case) -> Option<Told> {
        let (given, offset) = told(case.right);
        let index = case.last(|thing| thing == Thing::Index);
        match self {
            Slip::WithinController if index > 0 => Some((given, offset - index)),
            Slip::BehindHead if offset >= 6 => Some((given, offset - 6)),
            Slip::LastController => case.last_controller(),
            Slip::OldNumber => Some((7, offset)),
            Slip::NoOffset => Some((given, 0)),
            Slip::FromOne => Some((given, offset + 1)),
            Slip::OneOctet => Some((given, offset & 0xFF)),
            Slip::TwelveBits => Some((given, offset & 0xFFF)),
            _ => None,
        }
    }
}

impl Case<'_> {
    /// What is wrong with the last controller that is at fault by itself, in an image that is whole.
    fn last_controller(&self) -> Option<Told> {
        let starts =
            self.parts.iter().filter(|part| part.thing == Thing::Index && part.start > self.right.offset);
        starts.filter_map(|part| self.alone(part)).last()
    }

    /// What is wrong with a controller by itself.
    fn alone(&self, index: &Part) -> Option<Told> {
        let of_it = self.parts.iter().filter(|part| part.controller == index.controller && part.start >= 6);
        let end = of_it.last()?.end;
        let octets = self.image.get(index.start..end)?;
        let length = (octets.len() as u32 + 6).to_be_bytes();
        let found = read(&[&length[..], &[self.image[4], 1], octets].concat(), self.versions).err();
        let found = found.filter(|found| found.offset >= 6)?;
        Some((found.fault.answer(), found.offset - 6 + index.start))
    }
}

impl WrongDiagnosis {
    /// A hub with this slip.
    pub fn new(slip: Slip) -> WrongDiagnosis {
        WrongDiagnosis { inner: Mirror::default(), slip }
    }

    /// What it gives for a refused image in place of what is right, as load or as a move.
    fn refused(&self, image: &[u8], versions: &[Version], moves: bool) -> Option<u64> {
        let right = read(image, versions).err()?;
        let case = Case { image, versions, right, parts: parts(image) };
        let (given, offset) = match self.slip {
            Slip::LoadWithout if !moves => (right.fault.answer(), 0),
            Slip::MovesWithout if moves => (right.fault.answer(), 0),
            Slip::OffsetCounted => return Some(u64::from(right.fault.answer()) + 256 * right.offset as u64),
            Slip::MoveVersionLast if moves && right.fault == ImageFault::Version => told(load(image).err()?),
            _ => self.slip.told(&case)?,
        };
        Some(number(&Reply { offset, ..Reply::bare(given) }, &mut []))
    }
}

impl Target for WrongDiagnosis {
    const STATE_LEN: usize = Mirror::STATE_LEN;

    fn call(&mut self, state: &mut [u8], call: &Call, reply: &mut [u8]) -> u64 {
        self.inner.call(state, call, reply)
    }

    fn name(&mut self, state: &[u8], index: u64, which: u64, reply: &mut [u8]) -> u64 {
        self.inner.name(state, index, which, reply)
    }

    fn on_air(&mut self, state: &[u8], index: u64, reply: &mut [u8]) -> u64 {
        self.inner.on_air(state, index, reply)
    }

    fn why(&mut self, state: &[u8], packet: &[u8], text: &mut [u8]) -> u64 {
        self.inner.why(state, packet, text)
    }

    fn look_up(&self, state: &[u8], index: u64, table: u64, key: &[u8]) -> u64 {
        self.inner.look_up(state, index, table, key)
    }

    fn load(&mut self, state: &mut [u8], image: &[u8]) -> u64 {
        let right = self.inner.load(state, image);
        match (self.slip, right & 0xFF) {
            (Slip::OffsetWithState, 5) => right | 4 << 32,
            (_, 5) => right,
            (Slip::LengthWithDone, 0) => right | (image.len() as u64) << 32,
            _ => self.refused(image, &[Version::One, Version::Two], false).unwrap_or(right),
        }
    }

    fn moved(&self, way: Move, image: &[u8], out: &mut [u8]) -> u64 {
        let right = moved(way, image, out.len());
        let version = [if way == Move::Upgrade { Version::One } else { Version::Two }];
        let given = number(&right, out);
        match (self.slip, right.answer) {
            (Slip::OffsetWithRoom, answer::ROOM) => given | (out.len() as u64 + 1) << 32,
            (Slip::OffsetWithBeyond, answer::NOT_IN_IMAGE) => given | 20 << 32,
            (Slip::LengthWithDone, answer::DONE) => given | (image.len() as u64) << 32,
            (_, answer::ROOM) => given,
            _ => self.refused(image, &version, true).unwrap_or(given),
        }
    }
}
