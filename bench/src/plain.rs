//! The same test of a state, the same look-up, the same clock and the same stream, in plain Rust over the same octets. The test is what a careful
//! engineer would write, the look-up and the stream too. The clock walks the turns of a step one after the other, the plain way to count them: it skips
//! no rounds, so its time grows with the step.

use crate::states::{
    BLOCK, DATA, DURATIONS, KEPT, KEPT_OF_LONGER, LEFT, ON_AIR, SCAN, SIZES, STATE, TIMEOUTS, WAITING, WORDS,
};
use reference::{Hub, Reply};

/// Where the discoverable timer and the static address stand in a block. The six flags before them are power, connectable, discoverable, bondable, BR/EDR
/// and Low Energy.
const TIMER: usize = 25;
const STATIC: usize = 27;

/// Whether lent octets are a well-formed state.
pub fn well_formed(s: &[u8]) -> bool {
    s.len() == STATE && s[4..WAITING].chunks_exact(BLOCK).all(block) && waiting(&s[WAITING..])
}

/// The octets that wait are short of one packet, as many of them are kept as their number says, and zeros stand behind.
fn waiting(w: &[u8]) -> bool {
    let (taken, kept) = (taken_before(w), &w[4..]);
    match taken {
        0..=5 => zero(&kept[taken..]),
        _ => taken < whole(kept) && zero(&kept[taken.min(kept_of(whole(kept)))..]),
    }
}

/// How many octets were taken of the packet that is coming in.
fn taken_before(w: &[u8]) -> usize {
    u32::from_le_bytes(w[..4].try_into().unwrap()) as usize
}

/// The length of the whole packet, as its header says.
fn whole(kept: &[u8]) -> usize {
    6 + usize::from(number(kept, 4))
}

/// How many octets are kept of a packet of such a length.
fn kept_of(whole: usize) -> usize {
    if whole <= KEPT {
        whole
    } else {
        KEPT_OF_LONGER
    }
}

#[inline(always)]
pub fn zero(o: &[u8]) -> bool {
    o.iter().all(|&x| x == 0)
}

fn block(b: &[u8]) -> bool {
    match b[0] {
        1 => controller(b),
        _ => zero(b),
    }
}

fn controller(b: &[u8]) -> bool {
    let supported = u32::from_le_bytes(b[9..13].try_into().unwrap());
    let (bredr, le) = (supported & 0x80 != 0, supported & 0x200 != 0);
    let (public, fixed) = (zero(&b[13..19]), zero(&b[STATIC..STATIC + 6]));
    let hardware = supported < 0x10000 && (bredr || le) && !(bredr && public);
    let flags = b[19..25].iter().all(|&x| x < 2);
    let [powered, connectable, discoverable, _, classic, low_energy] =
        [19, 20, 21, 22, 23, 24].map(|k| b[k] == 1);
    let timer = number(b, TIMER) != 0;
    let radio = (classic || low_energy)
        && (bredr || !classic)
        && (le || (!low_energy && fixed))
        && (fixed || static_random(&b[STATIC..STATIC + 6]));
    let fit = (!discoverable || (connectable && classic))
        && (!timer || (powered && discoverable))
        && (!powered || !(public && fixed));
    hardware
        && flags
        && radio
        && fit
        && b[281] == 0
        && b[292] == 0
        && open(b, bredr, le)
        && (0..6).all(|t| table(t, &b[WORDS[t]..], bredr, le))
        && advertising(b, powered, low_energy)
}

/// Two octets as a number.
fn number(b: &[u8], at: usize) -> u16 {
    u16::from_le_bytes([b[at], b[at + 1]])
}

/// The advertising instances, the one on air and its turn.
fn advertising(b: &[u8], powered: bool, low_energy: bool) -> bool {
    let duration = |k: usize| number(b, DURATIONS + 2 * k);
    let any = (0..5).any(|k| duration(k) != 0);
    let fit = (0..5).all(|k| {
        let there = duration(k) != 0;
        let timed = number(b, TIMEOUTS + 2 * k) != 0;
        (!timed || (there && powered)) && [DATA, SCAN].iter().all(|at| data(&b[at + 32 * k..][..32], there))
    });
    let (on_air, left) = (usize::from(b[ON_AIR]), number(b, LEFT));
    let turn = match (powered && any, on_air) {
        (true, 1..=5) => left != 0 && left <= duration(on_air - 1),
        (true, _) => false,
        (false, _) => on_air == 0 && left == 0,
    };
    (!any || low_energy) && fit && turn
}

/// A length and its octets, zeros behind; of an instance that is absent all zero.
fn data(d: &[u8], there: bool) -> bool {
    let length = usize::from(d[0]);
    length <= 31 && (there || length == 0) && zero(&d[1 + length..])
}

/// The open command: none, or one that would now be started.
fn open(b: &[u8], bredr: bool, le: bool) -> bool {
    let [powered, connectable, classic, low_energy] = [19, 20, 23, 24].map(|k| b[k] == 1);
    let (fixed, timeout) = (zero(&b[STATIC..STATIC + 6]), number(b, 4));
    let value = b[3] < 2 && timeout == 0;
    match number(b, 1) {
        0 => zero(&b[3..6]),
        0x05 => value && (b[3] == 1) != powered && !(b[3] == 1 && fixed && zero(&b[13..19])),
        0x06 => {
            let value = b[3] < 3 && (b[3] != 0 || timeout == 0) && (b[3] != 2 || timeout != 0);
            value && bredr && powered && (b[3] == 0 || (connectable && classic))
        }
        0x07 => value && powered,
        0x0D => value && le && powered && (b[3] == 1 || classic),
        0x2A => value && b[3] == 1 && bredr && le && powered && fixed && low_energy,
        _ => false,
    }
}

fn table(t: usize, region: &[u8], bredr: bool, le: bool) -> bool {
    let size = SIZES[t];
    let word = u32::from_le_bytes(region[..4].try_into().unwrap());
    let slots = &region[4..4 + 32 * size];
    let supported = match t {
        1 => bredr,
        2 | 3 => le,
        _ => true,
    };
    if word != 0 && !supported {
        return false;
    }
    slots.chunks_exact(size).enumerate().all(|(k, r)| {
        if word >> k & 1 == 0 {
            zero(r)
        } else {
            record(t, r)
                && !slots
                    .chunks_exact(size)
                    .enumerate()
                    .skip(k + 1)
                    .any(|(j, q)| word >> j & 1 == 1 && same(t, r, q))
        }
    })
}

/// An address of six octets with both top bits set and the 46 bits below them not all alike.
#[inline(always)]
pub fn static_random(a: &[u8]) -> bool {
    a[5] >= 0xC0 && a != [0, 0, 0, 0, 0, 0xC0] && a != [0xFF; 6]
}

fn le_address(r: &[u8]) -> bool {
    r[6] == 1 || (r[6] == 2 && static_random(&r[..6]))
}

#[inline(always)]
pub fn record(t: usize, r: &[u8]) -> bool {
    match t {
        0 => !zero(&r[..16]),
        1 => r[6] == 0 && r[7] <= 8,
        2 => le_address(r) && r[7] <= 4 && r[8] <= 1 && (7..=16).contains(&r[9]),
        3 => le_address(r),
        4 => r[6] <= 2 && !zero(&r[..6]),
        _ => r[6] <= 2 && r[7] <= 2 && !zero(&r[..6]) && (r[6] != 0 || r[7] == 1),
    }
}

#[inline(always)]
pub fn same(t: usize, r: &[u8], q: &[u8]) -> bool {
    match t {
        0 => r[..16] == q[..16],
        2 => r[..7] == q[..7] && r[8] == q[8],
        _ => r[..7] == q[..7],
    }
}

/// A key is looked up: the number that a call gives.
pub fn look_up(s: &[u8], index: usize, table: usize, key: &[u8]) -> u64 {
    if !well_formed(s) {
        return 5;
    }
    find(s, index, table, key)
}

/// The same without the test of the state: the slots in use are compared in order, from one of the word to the next.
pub fn find(s: &[u8], index: usize, table: usize, key: &[u8]) -> u64 {
    let length = if table == 0 { 16 } else { 7 };
    if index > 3 || table > 5 || key.len() != length || s[4 + BLOCK * index] == 0 {
        return 6;
    }
    let region = &s[4 + BLOCK * index + WORDS[table]..];
    let mut word = u32::from_le_bytes(region[..4].try_into().unwrap());
    let mut walked = 0;
    while word != 0 {
        let k = word.trailing_zeros() as usize;
        walked = k + 1;
        if region[4 + SIZES[table] * k..][..length] == *key {
            return told(k, walked);
        }
        word &= word - 1;
    }
    told(32, walked)
}

/// Slot and slots walked in the number that a call gives.
pub fn told(slot: usize, walked: usize) -> u64 {
    ((slot + 256 * walked) as u64) << 32
}

/// Octets come off the serial line: what a call answers, and how many it took. They wait in the lent octets, and a packet that they finish is given to a
/// hub that keeps its state in its own structures.
pub fn stream(s: &mut [u8], hub: &mut Hub, octets: &[u8], room: usize) -> (Reply, usize) {
    if !well_formed(s) {
        return (Reply::bare(5), 0);
    }
    if room < 1024 {
        return (Reply::bare(4), 0);
    }
    let w = &mut s[WAITING..];
    let (taken, packet) = take(w, octets);
    let Some(length) = packet else {
        return (Reply::bare(9), taken);
    };
    let reply = match length {
        0..=KEPT => hub.command(&w[4..4 + length], room),
        _ => {
            let mut packet = w[4..4 + KEPT_OF_LONGER].to_vec();
            packet.resize(length, 0);
            hub.command(&packet, room)
        }
    };
    w[..4 + kept_of(length)].fill(0);
    (reply, taken)
}

/// Takes octets up to the end of the packet that is coming in: how many, and the length of the packet if they finish it.
fn take(w: &mut [u8], octets: &[u8]) -> (usize, Option<usize>) {
    let before = taken_before(w);
    let (count, kept) = w.split_at_mut(4);
    let header = octets.len().min(6_usize.saturating_sub(before));
    kept[before.min(6)..][..header].copy_from_slice(&octets[..header]);
    let mut taken = header;
    let mut packet = None;
    if before + header >= 6 {
        let whole = whole(kept);
        taken = octets.len().min(whole - before);
        let (from, to) = (before + header, kept_of(whole).min(before + taken));
        if from < to {
            kept[from..to].copy_from_slice(&octets[header..to - before]);
        }
        packet = (before + taken == whole).then_some(whole);
    }
    count.copy_from_slice(&((before + taken) as u32).to_le_bytes());
    (taken, packet)
}

/// The clock reads so many seconds: the number that a call gives. Timers are counted down, and turns walked one after the other.
pub fn clock(s: &mut [u8], reading: u32, reply: &mut [u8]) -> u64 {
    if !well_formed(s) {
        return 5;
    }
    if reply.len() < 1024 {
        return 4;
    }
    let step = reading.wrapping_sub(u32::from_le_bytes(s[..4].try_into().unwrap()));
    if step >= 1 << 31 {
        return 6;
    }
    s[..4].copy_from_slice(&reading.to_le_bytes());
    let mut count = 0;
    for (i, b) in s[4..WAITING].chunks_exact_mut(BLOCK).enumerate().filter(|(_, b)| b[0] == 1) {
        count += timer(b, i, step, &mut reply[count..]);
        count += turns(b, i, step, &mut reply[count..]);
    }
    (count as u64) << 8
}

/// Writes an event, and gives its length.
fn event(code: u8, index: usize, parameters: &[u8], reply: &mut [u8]) -> usize {
    let length = 6 + parameters.len();
    reply[..6].copy_from_slice(&[code, 0, index as u8, 0, parameters.len() as u8, 0]);
    reply[6..length].copy_from_slice(parameters);
    length
}

/// The discoverable timer: one that ends turns discoverable off and writes New Settings.
fn timer(b: &mut [u8], i: usize, step: u32, reply: &mut [u8]) -> usize {
    let left = u32::from(number(b, TIMER));
    let ends = left != 0 && left <= step;
    if left > step {
        b[TIMER..TIMER + 2].copy_from_slice(&((left - step) as u16).to_le_bytes());
    }
    if !ends {
        return 0;
    }
    b[TIMER..TIMER + 2].fill(0);
    b[21] = 0;
    let fixed = !zero(&b[STATIC..STATIC + 6]) && (zero(&b[13..19]) || b[23] == 0);
    let low = b[19] | b[20] << 1 | b[22] << 4 | b[23] << 7;
    event(6, i, &[low, b[24] << 1 | u8::from(fixed) << 7, 0, 0], reply)
}

/// The instance above, and 1 above 5.
fn above(k: usize) -> usize {
    if k == 5 {
        1
    } else {
        k + 1
    }
}

/// The turns of a controller: each is as long as its seconds left, its timeout or the step lets it be. Writes Advertising Removed of those that went.
fn turns(b: &mut [u8], i: usize, mut step: u32, reply: &mut [u8]) -> usize {
    let (mut durations, mut timeouts) = ([0u32; 6], [0u32; 6]);
    for k in 1..6 {
        durations[k] = u32::from(number(b, DURATIONS + 2 * k - 2));
        timeouts[k] = u32::from(number(b, TIMEOUTS + 2 * k - 2));
    }
    let (mut on_air, mut left) = (usize::from(b[ON_AIR]), u32::from(number(b, LEFT)));
    while on_air != 0 && step != 0 {
        let timed = timeouts[on_air] != 0;
        let run = if timed { left.min(step).min(timeouts[on_air]) } else { left.min(step) };
        step -= run;
        left -= run;
        if timed {
            timeouts[on_air] -= run;
            if timeouts[on_air] == 0 {
                (durations[on_air], left) = (0, 0);
            }
        }
        if left == 0 {
            (on_air, left) = passed_on(&durations, on_air);
        }
    }
    b[ON_AIR] = on_air as u8;
    b[LEFT..LEFT + 2].copy_from_slice(&(left as u16).to_le_bytes());
    (1..6).fold(0, |count, k| count + settled(b, i, k, durations[k], timeouts[k], &mut reply[count..]))
}

/// The next instance that is there, from one on round to itself, and its whole turn; none where there is none.
fn passed_on(durations: &[u32; 6], from: usize) -> (usize, u32) {
    let mut k = above(from);
    while durations[k] == 0 && k != from {
        k = above(k);
    }
    if durations[k] == 0 {
        (0, 0)
    } else {
        (k, durations[k])
    }
}

/// Keeps what the turns left of an instance; one that went is cleared, with its event.
fn settled(b: &mut [u8], i: usize, k: usize, duration: u32, timeout: u32, reply: &mut [u8]) -> usize {
    let went = duration == 0 && number(b, DURATIONS + 2 * k - 2) != 0;
    b[TIMEOUTS + 2 * k - 2..][..2].copy_from_slice(&(timeout as u16).to_le_bytes());
    if !went {
        return 0;
    }
    b[DURATIONS + 2 * k - 2..][..2].fill(0);
    b[DATA + 32 * (k - 1)..][..32].fill(0);
    b[SCAN + 32 * (k - 1)..][..32].fill(0);
    event(0x24, i, &[k as u8], reply)
}
