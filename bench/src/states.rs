//! States laid out by hand (docs/STATE-LAYOUT.md): so many controllers, so many records of a kind in every table of each.

pub const STATE: usize = 18656;
pub const BLOCK: usize = 4372;
/// Where the octets that wait for the rest of their packet begin: how many were taken, four octets, and those that are kept, at most so many.
pub const WAITING: usize = 4 + 4 * BLOCK;
pub const KEPT: usize = 1160;
/// How many are kept of a packet that is longer than that.
pub const KEPT_OF_LONGER: usize = 10;
/// Record sizes of the six tables, in their order.
pub const SIZES: [usize; 6] = [17, 25, 36, 23, 7, 8];
/// Where the word of each table stands in a block.
pub const WORDS: [usize; 6] = [293, 841, 1645, 2801, 3541, 3769];

/// Where advertising begins in a block, and where its parts stand: durations and timeouts of five instances, two octets each, the one on air, the
/// seconds left of its turn, and five times a length and 31 octets of data, then of scan response.
pub const ADVERTISING: usize = 4029;
pub const DURATIONS: usize = 4029;
pub const TIMEOUTS: usize = 4039;
pub const ON_AIR: usize = 4049;
pub const LEFT: usize = 4050;
pub const DATA: usize = 4052;
pub const SCAN: usize = 4212;

/// Durations and timeouts of five instances in seconds; a duration of 0 is an instance that is absent.
#[derive(Clone, Copy)]
pub struct Times {
    pub durations: [u16; 5],
    pub timeouts: [u16; 5],
}

/// A state that begins on a page, and a reply buffer behind it: where all lie alike, a difference of a few nanoseconds is none of where they lie.
pub struct Lent {
    octets: Vec<u8>,
    start: usize,
    length: usize,
}

impl Lent {
    const PAGE: usize = 4096;
    const REPLY: usize = 16_014;

    /// A copy of a state.
    pub fn new(state: &[u8]) -> Lent {
        let octets = vec![0; Lent::PAGE + state.len() + Lent::REPLY];
        let start = octets.as_ptr().align_offset(Lent::PAGE);
        let mut lent = Lent { octets, start, length: state.len() };
        lent.state().copy_from_slice(state);
        lent
    }

    /// The state and the reply buffer.
    pub fn parts(&mut self) -> (&mut [u8], &mut [u8]) {
        self.octets[self.start..].split_at_mut(self.length)
    }

    /// The state.
    pub fn state(&mut self) -> &mut [u8] {
        self.parts().0
    }
}

/// The octets that records of a table share, a UUID's or, of the first six, an address's.
const SAME: [u8; 16] =
    [0xFB, 0x34, 0x9B, 0x5F, 0x80, 0x21, 0x45, 0x80, 0x11, 0x10, 0x33, 0x44, 0x0F, 0x18, 0x55, 0x66];

/// How the identities of a table's records differ: in the first octet only, in the last octet only, or in all, at random.
#[derive(Clone, Copy)]
pub enum Kind {
    First,
    Last,
    Random,
}

/// Every kind, and its name.
pub const KINDS: [(&str, Kind); 3] = [("first", Kind::First), ("last", Kind::Last), ("random", Kind::Random)];

/// Numbers at random, the same in every run (splitmix64).
pub struct Numbers(pub u64);

impl Numbers {
    pub fn next(&mut self) -> u64 {
        self.0 = self.0.wrapping_add(0x9E37_79B9_7F4A_7C15);
        let z = (self.0 ^ (self.0 >> 30)).wrapping_mul(0xBF58_476D_1CE4_E5B9);
        let z = (z ^ (z >> 27)).wrapping_mul(0x94D0_49BB_1331_11EB);
        z ^ (z >> 31)
    }

    fn below(&mut self, n: u8) -> u8 {
        (self.next() % u64::from(n)) as u8
    }

    fn fill(&mut self, out: &mut [u8]) {
        out.iter_mut().for_each(|x| *x = self.next() as u8);
    }
}

/// Record k of a table of valid records, no two with one identity.
fn record(table: usize, kind: Kind, k: usize, numbers: &mut Numbers, out: &mut [u8]) {
    let k = k as u8 + 1;
    if let Kind::Random = kind {
        return random(table, numbers, out);
    }
    let identity = if table == 0 { 16 } else { 6 };
    out[..identity].copy_from_slice(&SAME[..identity]);
    match kind {
        Kind::First => out[0] = k,
        _ => out[identity - 1] = k,
    }
    match table {
        0 => out[16] = 0x20,
        1 => (),
        2 => (out[6], out[9]) = (1, 16),
        3 | 4 => out[6] = 1,
        _ => (out[6], out[7]) = (1, 1),
    }
}

/// A record whose octets are all at random, as far as its table's rule lets them be.
fn random(table: usize, numbers: &mut Numbers, out: &mut [u8]) {
    numbers.fill(out);
    match table {
        0 => (),
        1 => (out[6], out[7]) = (0, numbers.below(9)),
        2 => {
            le_address(numbers, out);
            (out[7], out[8], out[9]) = (numbers.below(5), numbers.below(2), 7 + numbers.below(10));
        }
        3 => le_address(numbers, out),
        4 => out[6] = numbers.below(3),
        _ => {
            out[6] = numbers.below(3);
            out[7] = if out[6] == 0 { 1 } else { numbers.below(3) };
        }
    }
}

/// Type 1, or type 2 with both top bits set; the bits below them, at random, are not all alike.
fn le_address(numbers: &mut Numbers, out: &mut [u8]) {
    out[6] = 1 + numbers.below(2);
    if out[6] == 2 {
        out[5] |= 0xC0;
    }
}

/// So many records of a kind for a table, one behind the other. A longer list begins as a shorter one.
pub fn list(table: usize, kind: Kind, count: usize) -> Vec<u8> {
    let mut numbers = Numbers(2);
    let mut list = vec![0; count * SIZES[table]];
    for (k, out) in list.chunks_exact_mut(SIZES[table]).enumerate() {
        record(table, kind, k, &mut numbers, out);
    }
    list
}

/// Four dual-mode controllers with `used` records of a kind in every table, spread over the slots.
pub fn state(kind: Kind, used: usize) -> Vec<u8> {
    let mut s = vec![0; STATE];
    let mut numbers = Numbers(1);
    for i in 0..4 {
        let b = &mut s[4 + BLOCK * i..][..BLOCK];
        b[0] = 1;
        b[6] = 9;
        b[9..11].copy_from_slice(&[0x81, 0x02]);
        b[13..19].copy_from_slice(&[i as u8 + 1, 2, 3, 4, 5, 6]);
        b[23..25].fill(1);
        for (t, (&size, &at)) in SIZES.iter().zip(&WORDS).enumerate() {
            let mut word = 0u32;
            for n in 0..used {
                let slot = n * 32 / used;
                word |= 1 << slot;
                record(t, kind, n, &mut numbers, &mut b[at + 4 + size * slot..][..size]);
            }
            b[at..at + 4].copy_from_slice(&word.to_le_bytes());
        }
    }
    s
}

/// Four powered controllers without records, each with the same instances: full data, the first one on air at the start of its turn.
pub fn advertising(times: Times) -> Vec<u8> {
    let mut s = state(Kind::First, 0);
    let first = times.durations.iter().position(|&d| d != 0);
    for (i, b) in s[4..WAITING].chunks_exact_mut(BLOCK).enumerate() {
        b[19] = 1;
        for k in (0..5).filter(|&k| times.durations[k] != 0) {
            b[DURATIONS + 2 * k..][..2].copy_from_slice(&times.durations[k].to_le_bytes());
            b[TIMEOUTS + 2 * k..][..2].copy_from_slice(&times.timeouts[k].to_le_bytes());
            for at in [DATA, SCAN] {
                b[at + 32 * k..][..32].fill((16 * i + k + 1) as u8);
                b[at + 32 * k] = 31;
            }
        }
        if let Some(k) = first {
            b[ON_AIR] = k as u8 + 1;
            b[LEFT..LEFT + 2].copy_from_slice(&times.durations[k].to_le_bytes());
        }
    }
    s
}
