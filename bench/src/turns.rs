//! The clock on four controllers with five advertising instances each, beside plain Rust that walks turn by turn: a step's time must not grow with it.

use crate::library::Library;
use crate::states::{self, Numbers, Times, ADVERTISING, BLOCK};
use crate::{least, least_of, plain, Seen};
use compare::Target;
use reference::Call;
use std::hint::black_box;

/// The steps that are timed, in seconds; the last is the longest that is taken.
pub const STEPS: [u32; 4] = [1, 60, 86_400, 0x7FFF_FFFF];
/// The longest step that has a ratio. Plain Rust walks turn by turn, so beside a longer one the ratio would only tell how long the step is.
const COMPARED: u32 = 60;
/// How many times the shortest step's time the longest may take.
const LIMIT: f64 = 20.0;
/// Instances that only take turns, and some whose timeouts end within the longer steps.
const TURNS: Times = Times { durations: [2, 10, 30, 60, 300], timeouts: [0; 5] };
pub const TIMEOUTS: Times = Times { timeouts: [1000, 19_999, 40_000, 65_535, 0], ..TURNS };
/// Both, with their names.
pub const HUBS: [(&str, Times); 2] = [("turns", TURNS), ("timeouts", TIMEOUTS)];

/// The clock and the advertising parts as they were: all that a step changes on these hubs.
pub fn restore(state: &mut [u8], from: &[u8]) {
    state[..4].copy_from_slice(&from[..4]);
    for i in 0..4 {
        let (start, end) = (4 + BLOCK * i + ADVERTISING, 4 + BLOCK * (i + 1));
        state[start..end].copy_from_slice(&from[start..end]);
    }
}

/// A clock reading on the library.
fn ours(state: &mut [u8], reading: u32, reply: &mut [u8]) -> u64 {
    Library.call(state, &Call::Clock { reading, room: reply.len() }, reply)
}

/// Library and plain Rust give the same number, octets and state, which is handed back.
fn agrees(state: &[u8], reading: u32, name: &str) -> Vec<u8> {
    let (mut a, mut b) = (state.to_vec(), state.to_vec());
    let (mut reply, mut other) = (vec![0; 1024], vec![0; 1024]);
    let number = ours(&mut a, reading, &mut reply);
    assert_eq!(number, plain::clock(&mut b, reading, &mut other), "{name}, {reading}");
    assert_eq!(reply, other, "{name}, {reading}");
    assert!(a == b, "{name}, {reading}: another state");
    a
}

/// Times every step on a hub: our nanoseconds, the shortest step's first.
fn steps(name: &str, state: &[u8], seen: &mut Seen) -> Vec<f64> {
    let mut all = Vec::new();
    for step in STEPS {
        agrees(state, step, name);
        let (mut lent, mut walked) = (state.to_vec(), state.to_vec());
        let (mut reply, mut other) = (vec![0; 1024], vec![0; 1024]);
        let mut call = || {
            restore(&mut lent, state);
            black_box(ours(black_box(&mut lent), black_box(step), &mut reply));
        };
        let mut walk = || {
            restore(&mut walked, state);
            black_box(plain::clock(black_box(&mut walked), black_box(step), &mut other));
        };
        // A walk over the longest step takes a good part of a second.
        let [a, b] = match step {
            0..=86_400 => least([&mut call, &mut walk]),
            _ => [least([&mut call])[0], least_of(2, 1, [&mut walk])[0]],
        };
        match step {
            0..=COMPARED => seen.line(format!("clock_{step}_{name}"), a, b, String::new()),
            _ => seen.times(&format!("clock_{step}_{name}"), a, b),
        }
        all.push(a);
    }
    all
}

/// Hubs at random, and three steps on each: some instances absent, turns short and long, timeouts from none to the longest.
fn agrees_at_random(count: usize) {
    const SECONDS: [u16; 8] = [0, 1, 2, 3, 7, 60, 1000, 65_535];
    const LONGEST: [u32; 6] = [2, 12, 100, 1000, 86_400, 1 << 20];
    let mut numbers = Numbers(3);
    let mut pick = |n: usize| (numbers.next() % n as u64) as usize;
    for k in 0..count {
        let durations = [0; 5].map(|_: u16| SECONDS[pick(8)]);
        let timeouts = [0; 5].map(|_: u16| SECONDS[pick(8)]);
        let mut state = states::advertising(Times { durations, timeouts });
        let mut reading = 0;
        for _ in 0..3 {
            reading += pick(LONGEST[k % 6] as usize) as u32;
            state = agrees(&state, reading, &format!("{durations:?} {timeouts:?}"));
        }
    }
    println!("clock agrees on {count} hubs with instances at random");
}

/// Every hub and step; the longest step is held to its limit.
pub fn all(seen: &mut Seen) {
    agrees_at_random(3000);
    for (name, times) in HUBS {
        let took = steps(name, &states::advertising(times), seen);
        let times = took[STEPS.len() - 1] / took[0];
        println!("clock_{}_{name} takes {times:.2} times as long as clock_1_{name}", STEPS[STEPS.len() - 1]);
        assert!(times <= LIMIT, "a long step takes more than {LIMIT} times as long as one second");
    }
}
