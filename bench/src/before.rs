//! The library of an earlier commit beside the library of this tree, in one run: `bench/run --before COMMIT`. The functions of the earlier one are
//! linked as `before_hub_*`.
//!
//! States are made by commands or by the load of an image, in each library its own, since a request may change how a state is laid out. The image is of
//! version 1, which every library takes. Version 2 and the moves are timed where the earlier library has them; `bench/run` looks whether it has the moves.
//! With one library on both sides most lines of the look-up differ by less than 3 ns, and most others by less than 2 in 100: such differences say nothing.

use crate::cases::{self, Case};
use crate::images::version_1_of;
#[cfg(before_moves)]
use crate::images::{self, Move};
use crate::look_up::{self, Linked, Place, NOW};
use crate::states::{self, Lent};
use crate::{image_of, least, least_of, turns, Data};
use reference::Call;
use std::cell::RefCell;
use std::hint::black_box;

extern "C" {
    /// A command packet.
    fn before_hub_command(
        state: *mut u8,
        state_len: usize,
        packet: *const u8,
        packet_len: usize,
        reply: *mut u8,
        reply_len: usize,
    ) -> u64;
    /// A radio report.
    fn before_hub_report(
        state: *mut u8,
        state_len: usize,
        index: u64,
        status: u64,
        reply: *mut u8,
        reply_len: usize,
    ) -> u64;
    /// A clock reading.
    fn before_hub_clock(
        state: *mut u8,
        state_len: usize,
        reading: u32,
        reply: *mut u8,
        reply_len: usize,
    ) -> u64;
    /// A controller comes.
    fn before_hub_plug(
        state: *mut u8,
        state_len: usize,
        index: u64,
        address: *const u8,
        address_len: usize,
        version: u8,
        manufacturer: u16,
        supported: u32,
        reply: *mut u8,
        reply_len: usize,
    ) -> u64;
    /// A controller goes.
    fn before_hub_unplug(
        state: *mut u8,
        state_len: usize,
        index: u64,
        reply: *mut u8,
        reply_len: usize,
    ) -> u64;
    /// The image is asked for.
    fn before_hub_save(state: *mut u8, state_len: usize, reply: *mut u8, reply_len: usize) -> u64;
    /// A state is made from an image.
    fn before_hub_load(state: *mut u8, state_len: usize, image: *const u8, image_len: usize) -> u64;
    /// Version 1 to 2.
    #[cfg(before_moves)]
    fn before_hub_upgrade(image: *const u8, image_len: usize, out: *mut u8, out_len: usize) -> u64;
    /// Version 2 to 1.
    #[cfg(before_moves)]
    fn before_hub_downgrade(image: *const u8, image_len: usize, out: *mut u8, out_len: usize) -> u64;
}

/// Any call but load, of the earlier library.
fn call(state: &mut [u8], call: &Call, reply: &mut [u8]) -> u64 {
    let (s, n) = (state.as_mut_ptr(), state.len());
    let (r, room) = (reply.as_mut_ptr(), reply.len());
    // The pointers come from slices of these lengths that do not overlap and outlive the call; the library keeps none of them.
    unsafe {
        match call {
            Call::Command { packet, .. } => before_hub_command(s, n, packet.as_ptr(), packet.len(), r, room),
            Call::Report { index, status, .. } => before_hub_report(s, n, *index, *status, r, room),
            Call::Clock { reading, .. } => before_hub_clock(s, n, *reading, r, room),
            Call::Plug { index, address, version, manufacturer, supported, .. } => {
                let (a, length) = (address.as_ptr(), address.len());
                before_hub_plug(s, n, *index, a, length, *version, *manufacturer, *supported, r, room)
            }
            Call::Unplug { index, .. } => before_hub_unplug(s, n, *index, r, room),
            Call::Save { .. } => before_hub_save(s, n, r, room),
            #[allow(unreachable_patterns)]
            other => {
                unreachable!("an earlier library may not have this call, and it is not timed: {other:?}")
            }
        }
    }
}

/// A load, of the earlier library.
fn load(state: &mut [u8], image: &[u8]) -> u64 {
    // As above.
    unsafe { before_hub_load(state.as_mut_ptr(), state.len(), image.as_ptr(), image.len()) }
}

/// The earlier library; its header told the length of its state.
fn before() -> Linked {
    let length = std::env::var("HUB_BEFORE_STATE_LEN").expect("bench/run --before sets it");
    Linked { length: length.parse().expect("a number"), call, load }
}

/// Both libraries, each with its state, before and now. Where the octets are the same one buffer is lent to both.
struct Both<'a> {
    libraries: [&'a Linked; 2],
    lent: Vec<RefCell<Lent>>,
}

impl<'a> Both<'a> {
    /// Both libraries with copies of two states.
    fn new(before: &'a Linked, states: &[Vec<u8>; 2]) -> Both<'a> {
        let distinct = if states[0] == states[1] { 1 } else { 2 };
        let lent = states[..distinct].iter().map(|state| RefCell::new(Lent::new(state))).collect();
        Both { libraries: [before, &NOW], lent }
    }

    /// The octets lent to one of them.
    fn lent(&self, which: usize) -> &RefCell<Lent> {
        self.lent.get(which).unwrap_or(&self.lent[0])
    }

    /// Makes the calls of a case on one of them, one after the other.
    fn run(&self, which: usize, case: &Case) {
        let mut lent = self.lent(which).borrow_mut();
        let (state, reply) = lent.parts();
        for call in &case.calls {
            let reply = black_box(&mut reply[..call.room()]);
            black_box((self.libraries[which].call)(black_box(state), black_box(call), reply));
        }
    }

    /// What the calls of a case give on one of them: the numbers, and the octets written.
    fn given(&self, which: usize, case: &Case) -> Vec<(u64, Vec<u8>)> {
        let mut state = self.lent(which).borrow_mut().state().to_vec();
        let give = |call: &Call| {
            let mut reply = vec![0; call.room()];
            let number = (self.libraries[which].call)(&mut state, call, &mut reply);
            (number, reply)
        };
        case.calls.iter().map(give).collect()
    }
}

/// Prints the line of a case: its nanoseconds before and now.
fn line(name: &str, before: f64, now: f64, more: &str) {
    println!("{name}   (before {before:.1} ns, now {now:.1} ns, ratio {:.2}{more})", now / before);
}

/// A command that looks up a key and changes nothing: a present device is blocked again, or what is absent is removed. A present UUID has none.
fn refused(place: &Place) -> Option<Case> {
    let code = match (place.record, place.table.name) {
        (32, _) => place.table.remove,
        (_, "blocked") => place.table.add,
        _ => return None,
    };
    Some(Case { name: "refused", calls: vec![cases::command(code, &place.key())] })
}

/// Times the look-up of a refused command, less the test of the state.
fn look_up(place: &Place, before: &Linked) {
    let Some(case) = refused(place) else { return };
    let nothing = cases::nothing();
    let both = Both::new(before, &[before, &NOW].map(|library| place.state(library)));
    let given = both.given(0, &case);
    assert_eq!(given, both.given(1, &case), "{}", place.name);
    assert_eq!(given[0].0 & 0xFF, 2, "{}: refused", place.name);
    let [a, b, c, d] = least_of(
        look_up::ROUNDS,
        look_up::TURNS,
        [&mut || both.run(0, &case), &mut || both.run(0, &nothing), &mut || both.run(1, &case), &mut || {
            both.run(1, &nothing)
        }],
    );
    line(&format!("look_up_before_{}", place.name), a - b, c - d, "");
}

/// Times a case: whole calls.
fn time(case: &Case, name: &str, both: &Both) {
    let more = if both.given(0, case) == both.given(1, case) { "" } else { "; answered otherwise before" };
    let [a, b] = least([&mut || both.run(0, case), &mut || both.run(1, case)]);
    let each = case.calls.len() as f64;
    line(&format!("before_{}_{name}", case.name), a / each, b / each, more);
}

/// Times the test of a state and every case, on the state that an image makes; then the load of that image in both versions, and the moves.
fn all_cases(data: &Data, before: &Linked) {
    let two = image_of(&data.state);
    let one = version_1_of(&two);
    let mut states = [before, &NOW].map(|library| vec![0; library.length]);
    let [a, b] = &mut states;
    let loaded = [(before.load)(a, &one), (NOW.load)(b, &one)];
    if loaded != [0, 0] {
        return println!("before_{} has no lines: the image is loaded with answers {loaded:?}", data.name);
    }
    time(&cases::nothing(), &data.name, &Both::new(before, &states));
    for case in cases::all(data.kind, &states[1]) {
        time(&case, &data.name, &Both::new(before, &states));
    }
    let both = Both::new(before, &states);
    load_image(&format!("before_load_1_{}", data.name), &both, &one);
    load_image(&format!("before_load_2_{}", data.name), &both, &two);
    moves(&data.name, [&one, &two]);
}

/// Times the load of an image, where both libraries take it.
fn load_image(name: &str, both: &Both, image: &[u8]) {
    let load = |which: usize| {
        let mut lent = both.lent(which).borrow_mut();
        black_box((both.libraries[which].load)(black_box(lent.state()), black_box(image)))
    };
    if [load(0), load(1)] == [0, 0] {
        let [a, b] = least([&mut || _ = load(0), &mut || _ = load(1)]);
        line(name, a, b, "");
    }
}

/// The earlier library without the moves: there is nothing to time.
#[cfg(not(before_moves))]
fn moves(_: &str, _: [&[u8]; 2]) {}

/// Times the moves of an image.
#[cfg(before_moves)]
fn moves(name: &str, [one, two]: [&[u8]; 2]) {
    // As above: slices that do not overlap, for the time of the call.
    let upgrade: Move =
        |image, out| unsafe { before_hub_upgrade(image.as_ptr(), image.len(), out.as_mut_ptr(), out.len()) };
    let downgrade: Move = |image, out| unsafe {
        before_hub_downgrade(image.as_ptr(), image.len(), out.as_mut_ptr(), out.len())
    };
    for (word, image, [before, now]) in
        [("upgrade", one, [upgrade, images::upgrade]), ("downgrade", two, [downgrade, images::downgrade])]
    {
        let (mut a, mut b) = (vec![0; 16_014], vec![0; 16_014]);
        let more = if before(image, &mut a) == now(image, &mut b) && a == b {
            ""
        } else {
            "; answered otherwise before"
        };
        let [a, b] = least([&mut || _ = black_box(before(black_box(image), black_box(&mut a))), &mut || {
            _ = black_box(now(black_box(image), black_box(&mut b)))
        }]);
        line(&format!("before_{word}_{name}"), a, b, more);
    }
}

/// Times clock steps on hubs with instances, if the earlier library takes the same octets for a state, or as many of them as its state has: where nothing
/// waits, the octets behind those are zeros.
fn all_steps(before: &Linked) {
    for (name, times) in turns::HUBS {
        let state = states::advertising(times);
        let shorter = state[..before.length.min(state.len())].to_vec();
        let both = Both::new(before, &[shorter, state.clone()]);
        if both.given(0, &cases::nothing()) != both.given(1, &cases::nothing()) {
            return println!("before_clock_{name} has no lines: a state is laid out otherwise");
        }
        for reading in turns::STEPS {
            let case = Case { name: "clock", calls: vec![Call::Clock { reading, room: 1024 }] };
            let step = |which: usize| {
                turns::restore(both.lent(which).borrow_mut().state(), &state);
                both.run(which, &case);
            };
            let [a, b] = least([&mut || step(0), &mut || step(1)]);
            line(&format!("before_clock_{reading}_{name}"), a, b, "");
        }
    }
}

/// Every look-up, every case and every clock step, before and now.
pub fn all(data: &[Data]) {
    let before = before();
    look_up::places().iter().for_each(|place| look_up(place, &before));
    data.iter().for_each(|data| all_cases(data, &before));
    all_steps(&before);
}
