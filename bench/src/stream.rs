//! The packets of a shift off a serial line, beside plain Rust over the same lent octets: one by one as commands, as one lump each, and as one stream in
//! lumps of 64, 7 and 1 octets. A line tells the time for a packet and how many calls were made. Then a lump of one octet beside the test of the state
//! alone, which is most of it.

use crate::cases::{self, Case};
use crate::states::{self, Kind, Lent, Numbers, KEPT, KEPT_OF_LONGER, WAITING};
use crate::{least, least_of, plain, plain_hub, theirs, well_formed, Seen};
use reference::{Call, Hub};
use std::cell::RefCell;
use std::hint::black_box;

/// Rounds, and shifts in a round: a shift in lumps of one octet has thousands of calls.
const ROUNDS: usize = 20;
const SHIFTS: u32 = 2;
/// The reply buffer of every call.
const ROOM: usize = 1024;
/// How the records of these hubs differ: a list of them has the same records as a hub.
const KIND: Kind = Kind::First;
/// Hubs by the records in each table.
const HUBS: [(&str, usize); 2] = [("empty", 0), ("full", 32)];
/// What waits when a lump of one octet comes: the octets taken, and the length of the packet that is coming in.
const COMING: [(&str, usize, usize); 4] =
    [("first", 0, 1160), ("header", 3, 1160), ("key_list", 600, 1160), ("too_long", 60_000, 65_541)];
/// How many times the test of the state a lump of one octet may take.
const LIMIT: f64 = 2.0;

extern "C" {
    /// Octets off the serial line.
    fn hub_stream(
        state: *mut u8,
        state_len: usize,
        octets: *const u8,
        octets_len: usize,
        reply: *mut u8,
        reply_len: usize,
    ) -> u64;
}

/// Octets off the serial line, lent to the library.
fn ours(state: &mut [u8], octets: &[u8], reply: &mut [u8]) -> u64 {
    let (s, n) = (state.as_mut_ptr(), state.len());
    // The pointers come from slices of these lengths that do not overlap and outlive the call; the library keeps none of them.
    unsafe { hub_stream(s, n, octets.as_ptr(), octets.len(), reply.as_mut_ptr(), reply.len()) }
}

/// What the number of a call says: the answer, the count of octets written, and the octets taken.
fn told(number: u64) -> (u8, usize, usize) {
    (number as u8, (number >> 8) as usize & 0xFF_FFFF, (number >> 32) as usize)
}

/// A packet to index 0, or with none.
fn packet(code: u16, parameters: &[u8]) -> Vec<u8> {
    let Call::Command { mut packet, .. } = cases::command(code, parameters) else { unreachable!() };
    if code < 4 {
        packet[2..4].fill(0xFF);
    }
    packet
}

/// A key list with so many records of a table.
fn keys(code: u16, first: &[u8], table: usize, count: usize) -> Vec<u8> {
    packet(code, &[first, &[count as u8, 0], &states::list(table, KIND, count)].concat())
}

/// The packets of a shift on a hub with so many records in each table, all of them answered at once; after them the hub is as it was, but for its name. A
/// record is added and removed, where the tables are full removed and added.
fn shift(used: usize) -> Vec<Vec<u8>> {
    let both = |table: usize, add: u16, remove: u16, key: usize| {
        let list = states::list(table, KIND, 32);
        let record = &list[31 * states::SIZES[table]..];
        let mut both = [packet(add, record), packet(remove, &record[..key])];
        if used != 0 {
            both.reverse();
        }
        both
    };
    let [plain, name] = [packet(0x0004, &[]), [&b"The plough on line 7"[..], &[0; 240]].concat()];
    let read = [packet(0x0001, &[]), packet(0x0002, &[]), packet(0x0003, &[]), plain.clone()];
    let settings = [(0x0007, 1), (0x0009, 1)].map(|(code, value)| packet(code, &[value]));
    let lists = [keys(0x0012, &[0], 1, used), keys(0x0013, &[], 2, 32), keys(0x0030, &[], 3, used)];
    let instance = [&[1, 0, 0, 0, 0, 0, 0, 0, 0, 13, 0, 2, 1, 6, 9, 9][..], b"Plough 7"].concat();
    [
        &read[..],
        &settings,
        &[packet(0x000F, &name)],
        &lists,
        &both(0, 0x0010, 0x0011, 16),
        &both(4, 0x0026, 0x0027, 7),
        &both(5, 0x0033, 0x0034, 7),
        &[packet(0x003E, &instance), packet(0x003F, &[1]), plain],
        &[packet(0x0007, &[0]), packet(0x0009, &[0]), keys(0x0013, &[], 2, used)],
    ]
    .concat()
}

/// Lends lumps one after the other, the rest of each again from where a call stopped; a call tells how many octets it took. Says how many calls there were.
fn lend(lumps: &[&[u8]], mut call: impl FnMut(&[u8]) -> usize) -> usize {
    let mut calls = 0;
    for mut lump in lumps.iter().copied() {
        loop {
            lump = &lump[call(lump)..];
            calls += 1;
            if lump.is_empty() {
                break;
            }
        }
    }
    calls
}

/// Library and plain Rust give the same for every lump, and the same octets wait after it. Says how many calls there were.
fn agrees(state: &[u8], hub: &Hub, lumps: &[&[u8]], name: &str) -> usize {
    let (mut a, mut b, mut hub) = (state.to_vec(), state.to_vec(), hub.clone());
    let mut reply = [0; ROOM];
    lend(lumps, |lump| {
        let (answer, count, taken) = told(ours(&mut a, lump, &mut reply));
        let (wanted, wanted_taken) = plain::stream(&mut b, &mut hub, lump, ROOM);
        assert_eq!((answer, taken), (wanted.answer, wanted_taken), "{name}");
        assert_eq!(reply[..count], wanted.octets, "{name}");
        assert!(a[WAITING..] == b[WAITING..], "{name}: other octets wait");
        taken
    })
}

/// Times the packets of a shift given in lumps: the time for a packet, and how many calls were made.
fn in_lumps(name: &str, state: &[u8], hub: &Hub, lumps: &[&[u8]], packets: usize, seen: &mut Seen) {
    let calls = agrees(state, hub, lumps, name);
    let (mut lent, mut other, mut hub) = (Lent::new(state), Lent::new(state), hub.clone());
    let [a, b] = least_of(
        ROUNDS,
        SHIFTS,
        [
            &mut || {
                let (state, reply) = lent.parts();
                lend(lumps, |lump| told(ours(black_box(state), black_box(lump), &mut reply[..ROOM])).2);
            },
            &mut || {
                let state = other.state();
                lend(lumps, |lump| {
                    black_box(plain::stream(black_box(state), &mut hub, black_box(lump), ROOM)).1
                });
            },
        ],
    );
    let each = packets as f64;
    seen.line(name.into(), a / each, b / each, format!("; {calls} calls for {packets} packets"));
}

/// Times the packets of a shift given one by one as commands.
fn by_command(name: &str, state: &[u8], hub: &Hub, packets: &[Vec<u8>], seen: &mut Seen) {
    let calls = packets.iter().map(|packet| Call::Command { packet: packet.clone(), room: ROOM });
    let case = Case { name: "shift", calls: calls.collect() };
    case.agrees(state, hub);
    let (mut lent, mut hub) = (Lent::new(state), hub.clone());
    let [a, b] = least_of(
        ROUNDS,
        SHIFTS,
        [&mut || crate::ours(&case, &mut lent), &mut || theirs(&case, &mut hub, Some(state))],
    );
    let each = packets.len() as f64;
    let more = format!("; {} calls for {} packets", packets.len(), packets.len());
    seen.line(name.into(), a / each, b / each, more);
}

/// The state after a shift, which a second one leaves as it is.
fn settled(state: &[u8], packets: &[Vec<u8>]) -> Vec<u8> {
    let lumps: Vec<_> = packets.iter().map(Vec::as_slice).collect();
    let after = |state: &[u8]| {
        let mut state = state.to_vec();
        lend(&lumps, |lump| told(ours(&mut state, lump, &mut [0; ROOM])).2);
        state
    };
    let settled = after(state);
    assert!(after(&settled) == settled, "a shift leaves the hub as it was");
    settled
}

/// Times a shift in every way on a hub.
fn shifts(fill: &str, used: usize, seen: &mut Seen) {
    let packets = shift(used);
    let state = settled(&states::state(KIND, used), &packets);
    let (hub, stream) = (plain_hub(&state), packets.concat());
    by_command(&format!("shift_by_command_{fill}"), &state, &hub, &packets, seen);
    let whole: Vec<_> = packets.iter().map(Vec::as_slice).collect();
    in_lumps(&format!("shift_in_whole_packets_{fill}"), &state, &hub, &whole, packets.len(), seen);
    for length in [64, 7, 1] {
        let lumps: Vec<_> = stream.chunks(length).collect();
        in_lumps(&format!("shift_in_lumps_of_{length}_{fill}"), &state, &hub, &lumps, packets.len(), seen);
    }
}

/// A state in which so many octets of a packet of such a length wait. Those that are kept are no zeros.
fn waiting(state: &[u8], taken: usize, whole: usize) -> Vec<u8> {
    let mut state = state.to_vec();
    let mut packet = vec![0x13; taken.max(6)];
    packet[4..6].copy_from_slice(&((whole - 6) as u16).to_le_bytes());
    let kept = if whole <= KEPT { taken } else { taken.min(KEPT_OF_LONGER) };
    state[WAITING..][..4].copy_from_slice(&(taken as u32).to_le_bytes());
    state[WAITING + 4..][..kept].copy_from_slice(&packet[..kept]);
    state
}

/// Times a lump of one octet beside the test of the state, on hubs where something waits and nothing. Before each call the number of octets taken and the
/// one octet are put back.
fn one_octet(fill: &str, used: usize, seen: &mut Seen) {
    for (coming, taken, whole) in COMING {
        let name = format!("lump_of_one_octet_{coming}_{fill}");
        let state = waiting(&states::state(KIND, used), taken, whole);
        let mut hub = plain_hub(&state);
        agrees(&state, &hub, &[&[0x13]], &name);
        let (lent, mut other) = (RefCell::new(Lent::new(&state)), Lent::new(&state));
        let back = |state: &mut [u8]| {
            state[WAITING..][..4].copy_from_slice(&(taken as u32).to_le_bytes());
            if taken < KEPT {
                state[WAITING + 4 + taken] = 0;
            }
        };
        let [a, test, b] = least([
            &mut || {
                let mut lent = lent.borrow_mut();
                let (state, reply) = lent.parts();
                back(state);
                assert_eq!(ours(black_box(state), black_box(&[0x13]), &mut reply[..ROOM]), 9 + (1 << 32));
            },
            &mut || {
                let mut lent = lent.borrow_mut();
                back(lent.state());
                assert!(well_formed(black_box(lent.state())));
            },
            &mut || {
                back(other.state());
                black_box(plain::stream(black_box(other.state()), &mut hub, black_box(&[0x13]), ROOM));
            },
        ]);
        let more = format!("; the test alone {test:.0} ns, a lump {:.2} times that", a / test);
        seen.line(name, a, b, more);
        assert!(a <= LIMIT * test, "a lump of one octet takes more than {LIMIT} times the test of the state");
    }
}

/// Streams at random, packets too long among them, cut at random, on an empty and a full hub.
fn agrees_at_random(count: usize) {
    let mut numbers = Numbers(4);
    let mut pick = |n: usize| (numbers.next() % n as u64) as usize;
    for k in 0..count {
        let used = HUBS[k % 2].1;
        let (state, packets) = (states::state(KIND, used), shift(used));
        let mut stream = Vec::new();
        for _ in 0..6 {
            match pick(4) {
                0 => stream.extend(packet(0x0013 + pick(2) as u16, &vec![pick(3) as u8; 1150 + pick(12)])),
                _ => stream.extend(&packets[pick(packets.len())]),
            }
        }
        let longest = [1, 5, 40, 1500][pick(4)];
        let mut lumps = Vec::new();
        let mut rest = &stream[..];
        while !rest.is_empty() {
            let (lump, behind) = rest.split_at(pick(longest + 1).min(rest.len()));
            lumps.push(lump);
            rest = behind;
        }
        agrees(&state, &plain_hub(&state), &lumps, &format!("stream {k}"));
    }
    println!("stream agrees on {count} streams at random");
}

/// Every number of octets taken, up to one more than a packet has, is judged alike, as it should be and with an octet too many behind those kept.
pub fn waiting_judged_alike() {
    let mut all = 0;
    let state = states::state(KIND, 0);
    for whole in [6, 7, 10, 11, 500, 1159, 1160, 1161, 1162, 65_541] {
        for taken in (0..1170).chain(whole - 2..whole + 3).chain([65_540, 65_541, 1 << 24, 1 << 31]) {
            let mut state = waiting(&state, taken.min(whole.min(1160)), whole);
            state[WAITING..][..4].copy_from_slice(&(taken as u32).to_le_bytes());
            for behind in [0, taken, taken + 1, KEPT_OF_LONGER, KEPT - 1] {
                let place = (WAITING + 4 + behind).min(states::STATE - 1);
                for x in [state[place], 0, 1] {
                    let old = std::mem::replace(&mut state[place], x);
                    let judged = [well_formed(&mut state), plain::well_formed(&state)];
                    assert_eq!(judged[0], judged[1], "{taken} octets of {whole}, {x} at {place}");
                    state[place] = old;
                    all += 1;
                }
            }
        }
    }
    println!("well_formed agrees on {all} states of what waits");
}

/// Every hub: a shift in every way, and lumps of one octet.
pub fn all(seen: &mut Seen) {
    agrees_at_random(300);
    for (fill, used) in HUBS {
        shifts(fill, used, seen);
        one_octet(fill, used, seen);
    }
}
