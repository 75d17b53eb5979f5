//! The look-up in tables of 1, 8 and 32 records, closed up and with gaps, beside plain Rust over the same lent octets. Only the table looked at has
//! records, and there is one controller, so that the test of the state is small beside it.

use crate::library::Library;
use crate::states::{self, Kind, Lent};
use crate::{cases, least_of, plain, well_formed, Seen};
use compare::Target;
use reference::Call;
use std::cell::RefCell;
use std::hint::black_box;

/// Rounds, and turns in a round: more rounds than of other cases, since a look-up is a few nanoseconds of a call.
pub const ROUNDS: usize = 1000;
pub const TURNS: u32 = 20;

/// A table by its name, its number and the octets of a key, the commands that add and remove a record, and kinds of records.
pub struct Table {
    pub name: &'static str,
    pub number: usize,
    pub key: usize,
    pub add: u16,
    pub remove: u16,
    pub kinds: &'static [(&'static str, Kind)],
}

/// The tables that are looked at. Addresses differ at random, as those of real devices do, or in the last octet alone; UUIDs in the last octet alone.
pub const TABLES: [Table; 2] = [
    Table {
        name: "blocked",
        number: 4,
        key: 7,
        add: 0x0026,
        remove: 0x0027,
        kinds: &[("random", Kind::Random), ("last", Kind::Last)],
    },
    Table { name: "uuids", number: 0, key: 16, add: 0x0010, remove: 0x0011, kinds: &[("last", Kind::Last)] },
];

/// The slots in use, as the occupancy word has them: closed up, and with gaps up to the last slot.
const LAYOUTS: [(&str, u32); 5] =
    [("1", 1), ("1_gaps", 1 << 31), ("8", 0xFF), ("8_gaps", 0x8888_8888), ("32", 0xFFFF_FFFF)];

/// A key that is looked for, and a table to look in.
pub struct Place {
    pub name: String,
    pub table: &'static Table,
    pub kind: Kind,
    /// The slots in use.
    pub word: u32,
    /// Which of the records has the key: its slot, or 32, of which the table has none.
    pub record: usize,
}

impl Place {
    /// The record's octets.
    fn octets(&self) -> Vec<u8> {
        let list = states::list(self.table.number, self.kind, 33);
        let size = states::SIZES[self.table.number];
        list[size * self.record..][..size].to_vec()
    }

    /// The key.
    pub fn key(&self) -> Vec<u8> {
        self.octets()[..self.table.key].to_vec()
    }

    /// The slots that have to be walked.
    fn walked(&self) -> usize {
        match self.record {
            32 => 32 - self.word.leading_zeros() as usize,
            slot => slot + 1,
        }
    }

    /// The state, made by commands: records are added in order, so that each takes the slot of its number, and those that leave gaps are removed.
    pub fn state(&self, library: &Linked) -> Vec<u8> {
        let mut state = vec![0; library.length];
        assert_eq!((library.load)(&mut state, &[0, 0, 0, 6, 1, 0]), 0, "the empty image is loaded");
        let address = vec![1, 2, 3, 4, 5, 6];
        let plug =
            Call::Plug { index: 0, address, version: 9, manufacturer: 0, supported: 0x281, room: 1024 };
        let end = 32 - self.word.leading_zeros() as usize;
        let list = states::list(self.table.number, self.kind, end);
        let records = || list.chunks_exact(states::SIZES[self.table.number]).enumerate();
        let adds = records().map(|(_, r)| cases::command(self.table.add, r));
        let gaps = records().filter(|(k, _)| self.word >> k & 1 == 0);
        let removes = gaps.map(|(_, r)| cases::command(self.table.remove, &r[..self.table.key]));
        for call in [plug].into_iter().chain(adds).chain(removes) {
            let number = (library.call)(&mut state, &call, &mut [0; 1024]);
            assert_eq!(number & 0xFF, 0, "{}: {call:?}", self.name);
        }
        state
    }
}

/// A library that is linked: the length of its state, and its calls.
pub struct Linked {
    pub length: usize,
    pub call: fn(&mut [u8], &Call, &mut [u8]) -> u64,
    pub load: fn(&mut [u8], &[u8]) -> u64,
}

/// The library of this tree.
pub const NOW: Linked = Linked {
    length: states::STATE,
    call: |state, call, reply| Library.call(state, call, reply),
    load: |state, image| Library.load(state, image),
};

/// Every key that is looked for: the first and the last record in use, and one that is absent.
pub fn places() -> Vec<Place> {
    let mut all = Vec::new();
    for table in &TABLES {
        for &(kind_name, kind) in table.kinds {
            for (layout, word) in LAYOUTS {
                let (first, last) = (word.trailing_zeros() as usize, 31 - word.leading_zeros() as usize);
                let sought: &[_] = match first == last {
                    true => &[("present", first), ("absent", 32)],
                    false => &[("present_first", first), ("present_last", last), ("absent", 32)],
                };
                for &(which, record) in sought {
                    let name = format!("{}_{layout}_{kind_name}_{which}", table.name);
                    all.push(Place { name, table, kind, word, record });
                }
            }
        }
    }
    all
}

/// Times a look-up, after library and plain Rust have told the slot and the slots walked that are right. One buffer is lent to the look-up and to the
/// test that is taken off it.
fn time(place: &Place, seen: &mut Seen) {
    let (state, key, table) = (place.state(&NOW), place.key(), place.table.number);
    let (lent, mut other) = (RefCell::new(Lent::new(&state)), Lent::new(&state));
    let octets = &*other.state();
    let ours = || {
        let mut lent = lent.borrow_mut();
        Library.look_up(black_box(lent.state()), 0, black_box(table as u64), black_box(&key))
    };
    let theirs = || plain::look_up(black_box(octets), 0, black_box(table), black_box(&key));
    let find = || plain::find(black_box(octets), 0, black_box(table), black_box(&key));
    let told = plain::told(place.record, place.walked());
    assert_eq!([ours(), theirs(), find()], [told; 3], "{}", place.name);
    let [a, test, b, c] = least_of(
        ROUNDS,
        TURNS,
        [
            &mut || _ = black_box(ours()),
            &mut || assert!(well_formed(black_box(lent.borrow_mut().state()))),
            &mut || _ = black_box(theirs()),
            &mut || _ = black_box(find()),
        ],
    );
    let (walked, alone) = (place.walked(), a - test);
    let more = format!("; walked {walked}; without the test {alone:.1} ns beside {c:.1} ns");
    seen.line(format!("look_up_{}", place.name), a, b, more);
}

/// Times every look-up.
pub fn all(seen: &mut Seen) {
    places().iter().for_each(|place| time(place, seen));
}
