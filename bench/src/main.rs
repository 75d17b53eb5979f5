//! The library beside plain Rust, same calls, same run: a line `NAME ratio X.XX` for each case, our time over plain Rust's, and how many times one
//! memcmp of a state ours is; last the worst of them.
//!
//! The plain hub keeps its state in its own structures. A hub that works on a lent state has to look whether that state is well formed before
//! each call, so the plain hub is timed with a plain test of the same octets. The line also tells both times without the test: ours is
//! what a call takes more than a save without room, which looks at the state and does nothing else.
//!
//! The look-up is timed besides in tables with few and many records, with gaps and without, and tells how many slots it walked.
//!
//! The records of a state differ in the first octet of their identity, in the last, or at random in all. The clock is timed besides on hubs with 20
//! advertising instances, by steps up to the longest, beside plain Rust over the same lent octets, which walks turn by turn: steps above 60 seconds
//! have a line with both times and no ratio.
//!
//! The packets of a shift are timed as commands and off a serial line, whole and in lumps of 64, 7 and 1 octets; a lump of one octet beside the test of
//! the state, of which it may take at most twice the time.
//!
//! Images of both versions are saved, loaded and moved, of a hub without records, of a usual one and of the largest; two lines tell how long they are.

#[cfg(before)]
mod before;
mod cases;
mod images;
#[path = "../../tests/compare/src/library.rs"]
mod library;
mod look_up;
mod plain;
mod plain_image;
mod states;
mod stream;
mod turns;

use cases::Case;
use compare::br_edr::switched_hubs;
use compare::layout::encode;
use compare::Target;
use library::Library;
use reference::Hub;
use states::{Kind, Lent, KINDS};
use std::cell::RefCell;
use std::hint::black_box;
use std::time::Instant;

/// Rounds, and turns of a case in a round.
const ROUNDS: usize = 40;
const TURNS: u32 = 50;
/// How full the tables are: a name, and the records in each table of each of four controllers.
const FILLS: [(&str, usize); 4] = [("empty", 0), ("quarter", 8), ("half", 16), ("full", 32)];

/// A state, and the name of its fill and kind.
struct Data {
    name: String,
    kind: Kind,
    used: usize,
    state: Vec<u8>,
}

/// Every fill in every kind. Without records there is one kind.
fn data() -> Vec<Data> {
    let mut all = Vec::new();
    for (fill, used) in FILLS {
        for (kind_name, kind) in KINDS {
            match used {
                0 if kind_name != KINDS[0].0 => continue,
                0 => all.push(Data { name: fill.into(), kind, used, state: states::state(kind, 0) }),
                _ => {
                    let name = format!("{fill}_{kind_name}");
                    all.push(Data { name, kind, used, state: states::state(kind, used) });
                }
            }
        }
    }
    all
}

/// A hub with 20 advertising instances and no records.
fn instances() -> Data {
    Data { name: "instances".into(), kind: Kind::First, used: 0, state: states::advertising(turns::TIMEOUTS) }
}

/// The least of so many rounds' nanoseconds for one turn of each: the turns of a round follow each other, so that a slow moment hits all of them. Of
/// several turns one more goes before, so that each finds its octets in the cache.
fn least_of<const N: usize>(rounds: usize, turns: u32, mut each: [&mut dyn FnMut(); N]) -> [f64; N] {
    let mut best = [f64::INFINITY; N];
    for _ in 0..rounds {
        for (turn, best) in each.iter_mut().zip(&mut best) {
            if turns > 1 {
                turn();
            }
            let start = Instant::now();
            (0..turns).for_each(|_| turn());
            *best = best.min(start.elapsed().as_nanos() as f64 / f64::from(turns));
        }
    }
    best
}

/// The least of all rounds.
fn least<const N: usize>(each: [&mut dyn FnMut(); N]) -> [f64; N] {
    least_of(ROUNDS, TURNS, each)
}

/// What was timed: the worst ratio with its name, and the least and the most that the test of a full state took.
struct Seen {
    worst: (f64, String),
    full: (f64, f64),
    read: f64,
}

impl Seen {
    /// Prints both times of a case that has no ratio.
    fn times(&self, name: &str, ours: f64, theirs: f64) {
        println!("{name}   ({ours:.0} ns beside {theirs:.0} ns, {:.1} memcmp)", ours / self.read);
    }

    /// Prints the line of a case: our nanoseconds, plain Rust's, and what else there is to say.
    fn line(&mut self, name: String, ours: f64, theirs: f64, more: String) {
        let ratio = ours / theirs;
        let times = ours / self.read;
        println!("{name} ratio {ratio:.2}   ({ours:.0} ns beside {theirs:.0} ns, {times:.1} memcmp{more})");
        if ratio > self.worst.0 {
            self.worst = (ratio, name);
        }
    }
}

/// The image of a state.
fn image_of(state: &[u8]) -> Vec<u8> {
    let mut reply = vec![0; 16_014];
    let number = Library.call(&mut state.to_vec(), &reference::Call::Save { room: reply.len() }, &mut reply);
    assert_eq!(number & 0xFF, 0, "the state is saved");
    reply.truncate((number >> 8) as usize);
    reply
}

/// A hub in plain Rust with the content of a state.
fn plain_hub(state: &[u8]) -> Hub {
    let mut hub = Hub::new();
    assert_eq!(hub.load(&image_of(state)).answer, 0, "the image is loaded");
    hub
}

/// Makes the calls of a case on the library, one after the other.
fn ours(case: &Case, lent: &mut Lent) {
    let (state, reply) = lent.parts();
    for call in &case.calls {
        black_box(Library.call(black_box(state), black_box(call), black_box(&mut reply[..call.room()])));
    }
}

/// Makes them on the plain hub, each after a test of the lent octets if there are any.
fn theirs(case: &Case, hub: &mut Hub, lent: Option<&[u8]>) {
    for call in &case.calls {
        assert!(lent.is_none_or(|state| plain::well_formed(black_box(state))));
        black_box(hub.call(black_box(call)));
    }
}

/// Times every case on a state.
fn calls(data: &Data, seen: &mut Seen) {
    let nothing = cases::nothing();
    let hub = plain_hub(&data.state);
    for case in cases::all(data.kind, &data.state) {
        case.agrees(&data.state, &hub);
        let lent = RefCell::new(Lent::new(&data.state));
        let (mut tested, mut alone) = (hub.clone(), hub.clone());
        let [a, look, b, c] = least([
            &mut || ours(&case, &mut lent.borrow_mut()),
            &mut || ours(&nothing, &mut lent.borrow_mut()),
            &mut || theirs(&case, &mut tested, Some(&data.state)),
            &mut || theirs(&case, &mut alone, None),
        ]);
        let each = case.calls.len() as f64;
        let (a, b, c) = (a / each, b / each, c / each);
        let more = format!("; without the test {:.0} ns beside {c:.0} ns", a - look);
        seen.line(format!("{}_{}", case.name, data.name), a, b, more);
    }
}

/// Times load, which looks at no state before.
fn load(data: &Data, seen: &mut Seen) {
    let image = image_of(&data.state);
    let (mut state, mut hub) = (vec![0; states::STATE], Hub::new());
    let [a, b] =
        least([&mut || assert_eq!(Library.load(black_box(&mut state), black_box(&image)), 0), &mut || {
            assert_eq!(hub.load(black_box(&image)).answer, 0)
        }]);
    seen.line(format!("load_{}", data.name), a, b, format!("; {} octets", image.len()));
}

/// Whether the library takes octets for a well-formed state: a save without room answers 4, and 5 where it does not.
fn well_formed(state: &mut [u8]) -> bool {
    Library.call(state, &reference::Call::Save { room: 0 }, &mut []) == 4
}

/// Times the test of a state alone.
fn test(data: &Data, seen: &mut Seen) {
    let mut state = data.state.clone();
    assert!(well_formed(&mut state) && plain::well_formed(&state), "{}", data.name);
    let [a, b] = least([&mut || assert!(well_formed(black_box(&mut state))), &mut || {
        assert!(plain::well_formed(black_box(&data.state)))
    }]);
    seen.line(format!("well_formed_{}", data.name), a, b, format!("; {} records", 24 * data.used));
    if data.used == 32 {
        seen.full = (seen.full.0.min(a), seen.full.1.max(a));
    }
}

/// The nanoseconds of one memcmp of a state with its copy.
fn read() -> f64 {
    let state = states::state(Kind::Random, 32);
    let copy = state.clone();
    let [a] = least([&mut || assert!(black_box(&state[..]) == black_box(&copy[..]))]);
    a
}

/// Every one-octet change of a state is judged alike.
fn judged_alike(data: &Data) {
    let mut state = data.state.clone();
    for k in 0..state.len() {
        let old = state[k];
        for x in [old ^ 1, old.wrapping_add(0x80), 0] {
            state[k] = x;
            assert_eq!(
                well_formed(&mut state),
                plain::well_formed(&state),
                "{}: octet {k} made {x}",
                data.name
            );
        }
        state[k] = old;
    }
    println!("well_formed agrees on every octet of {} changed", data.name);
}

/// Every state of a controller's switches, with and without a command under way, is judged alike.
fn switches_judged_alike() {
    let mut states = 0;
    for mut state in switched_hubs().map(|hub| encode(&hub)) {
        states += 1;
        assert_eq!(well_formed(&mut state), plain::well_formed(&state), "state {states} of the switches");
    }
    println!("well_formed agrees on {states} states of the switches");
}

/// Everything that is timed beside plain Rust.
fn beside_plain(data: &[Data]) {
    let mut seen = Seen { worst: (0.0, String::new()), full: (f64::INFINITY, 0.0), read: read() };
    println!("one memcmp of a state takes {:.0} ns", seen.read);
    data.iter().for_each(|d| test(d, &mut seen));
    test(&instances(), &mut seen);
    data.iter().for_each(|d| calls(d, &mut seen));
    data.iter().for_each(|d| load(d, &mut seen));
    images::all(&mut seen);
    images::lengths();
    look_up::all(&mut seen);
    turns::all(&mut seen);
    stream::all(&mut seen);
    data.iter().filter(|d| d.used == 32).for_each(judged_alike);
    judged_alike(&instances());
    switches_judged_alike();
    images::judged_alike();
    stream::waiting_judged_alike();
    let (least, most) = seen.full;
    println!(
        "the test of a full state takes {:.1} memcmp; the slowest kind takes {:.2} times as long as the quickest",
        most / seen.read,
        most / least
    );
    println!("worst ratio {:.2}   ({})", seen.worst.0, seen.worst.1);
}

fn main() {
    let data = data();
    match std::env::args().nth(1).as_deref() {
        #[cfg(before)]
        Some("--before") => before::all(&data),
        _ => beside_plain(&data),
    }
}
