//! Images of both versions, beside plain Rust: a save, the load of either version and the moves between them, of a hub without records or names, of a usual
//! one and of the largest. A line tells how long an image of version 2 is beside one of version 1.

use crate::library::Library;
use crate::plain_image::{self, IMAGE, NAMES};
use crate::states::{self, Kind, BLOCK, STATE, WAITING};
use crate::{least, Seen};
use compare::Target;
use reference::Call;
use std::hint::black_box;

/// Hubs of four controllers: how many records each table has, and how long the names are.
const HUBS: [(&str, usize, [usize; 2]); 3] =
    [("empty", 0, [0, 0]), ("usual", 8, [20, 8]), ("full", 32, [248, 10])];

extern "C" {
    /// Version 1 to 2.
    fn hub_upgrade(image: *const u8, image_len: usize, out: *mut u8, out_len: usize) -> u64;
    /// Version 2 to 1.
    fn hub_downgrade(image: *const u8, image_len: usize, out: *mut u8, out_len: usize) -> u64;
}

/// A move from a version to the other one.
pub type Move = fn(&[u8], &mut [u8]) -> u64;

/// Version 1 to 2, by the library.
pub fn upgrade(image: &[u8], out: &mut [u8]) -> u64 {
    // The pointers come from slices of these lengths that do not overlap and outlive the call; the library keeps none of them.
    unsafe { hub_upgrade(image.as_ptr(), image.len(), out.as_mut_ptr(), out.len()) }
}

/// Version 2 to 1, by the library.
pub fn downgrade(image: &[u8], out: &mut [u8]) -> u64 {
    // As above.
    unsafe { hub_downgrade(image.as_ptr(), image.len(), out.as_mut_ptr(), out.len()) }
}

/// Any save, by the library.
fn save(state: &mut [u8], out: &mut [u8]) -> u64 {
    Library.call(state, &Call::Save { room: out.len() }, out)
}

/// The octets that a call writes, which has to answer 0.
fn octets(call: impl FnOnce(&mut [u8]) -> u64) -> Vec<u8> {
    let mut out = vec![0; IMAGE];
    let number = call(&mut out);
    assert_eq!(number & 0xFF, 0, "done");
    out.truncate((number >> 8) as usize);
    out
}

/// The state of a hub, its records closed up.
fn state(used: usize, lengths: [usize; 2]) -> Vec<u8> {
    let mut state = states::state(Kind::Random, used);
    for b in state[4..WAITING].chunks_exact_mut(BLOCK) {
        for ((at, _), length) in NAMES.into_iter().zip(lengths) {
            b[at..at + length].fill(b'P');
        }
    }
    let image = octets(|out| plain_image::save(&state, out));
    assert_eq!(plain_image::load(&mut state, &image), 0);
    state
}

/// A hub: its name, its state and its image in both versions.
struct Hub {
    name: &'static str,
    state: Vec<u8>,
    images: [Vec<u8>; 2],
}

impl Hub {
    /// The hub, on whose octets library and plain Rust agree.
    fn new((name, used, lengths): (&'static str, usize, [usize; 2])) -> Hub {
        let mut state = state(used, lengths);
        let two = octets(|out| plain_image::save(&state, out));
        let one = octets(|out| plain_image::downgrade(&two, out));
        assert!(octets(|out| save(&mut state, out)) == two, "{name}: save");
        assert!(octets(|out| downgrade(&two, out)) == one, "{name}: downgrade");
        assert!(octets(|out| upgrade(&one, out)) == two, "{name}: upgrade");
        assert!(octets(|out| plain_image::upgrade(&one, out)) == two, "{name}: upgrade in plain Rust");
        for image in [&one, &two] {
            let mut loaded = vec![0xFF; STATE];
            assert!(Library.load(&mut loaded, image) == 0 && loaded == state, "{name}: load");
        }
        Hub { name, state, images: [one, two] }
    }

    /// The lengths of its image.
    fn lengths(&self) -> String {
        let [one, two] = [0, 1].map(|version| self.images[version].len());
        format!(
            "ratio {:.2}   ({two} octets in version 2 beside {one} in version 1)",
            two as f64 / one as f64
        )
    }

    /// Times a save.
    fn time_save(&self, seen: &mut Seen) {
        let mut state = self.state.clone();
        let (mut a, mut b) = (vec![0; IMAGE], vec![0; IMAGE]);
        let [ours, theirs] =
            least([&mut || _ = black_box(save(black_box(&mut state), black_box(&mut a))), &mut || {
                _ = black_box(plain_image::save(black_box(&self.state), black_box(&mut b)))
            }]);
        let more = format!("; {} octets", self.images[1].len());
        seen.line(format!("image_save_{}", self.name), ours, theirs, more);
    }

    /// Times the load of a version.
    fn time_load(&self, version: usize, seen: &mut Seen) {
        let image = &self.images[version - 1];
        let (mut a, mut b) = (self.state.clone(), self.state.clone());
        let [ours, theirs] =
            least([&mut || assert_eq!(Library.load(black_box(&mut a), black_box(image)), 0), &mut || {
                assert_eq!(plain_image::load(black_box(&mut b), black_box(image)), 0)
            }]);
        let more = format!("; {} octets", image.len());
        seen.line(format!("image_load_{version}_{}", self.name), ours, theirs, more);
    }

    /// Times a move from a version.
    fn time_move(&self, name: &str, version: usize, [ours, theirs]: [Move; 2], seen: &mut Seen) {
        let image = &self.images[version - 1];
        let (mut a, mut b) = (vec![0; IMAGE], vec![0; IMAGE]);
        let [ours, theirs] =
            least([&mut || _ = black_box(ours(black_box(image), black_box(&mut a))), &mut || {
                _ = black_box(theirs(black_box(image), black_box(&mut b)))
            }]);
        let more = format!("; {} octets", image.len());
        seen.line(format!("image_{name}_{}", self.name), ours, theirs, more);
    }

    /// Every one-octet change of its images is judged alike, and each of them cut at every octet, by load and both moves.
    fn judged_alike(&self) {
        let mut judges = Judges::new();
        for mut image in self.images.clone() {
            for k in 0..image.len() {
                let old = image[k];
                for x in [old ^ 1, old.wrapping_add(0x80), 0] {
                    image[k] = x;
                    judges.agree(&image, || format!("{}: octet {k} made {x}", self.name));
                }
                image[k] = old;
            }
            for length in 0..image.len() {
                let mut cut = image[..length].to_vec();
                judges.agree(&cut, || format!("{}: {length} octets", self.name));
                if length >= 4 {
                    cut[..4].copy_from_slice(&(length as u32).to_be_bytes());
                    judges.agree(&cut, || format!("{}: cut to {length} octets", self.name));
                }
            }
        }
        println!(
            "load, upgrade and downgrade agree on every octet of both images of {} changed, and cut there",
            self.name
        );
    }
}

/// Buffers that both write what they make of an image to.
struct Judges {
    out: [Vec<u8>; 2],
    loaded: [Vec<u8>; 2],
}

impl Judges {
    fn new() -> Judges {
        Judges { out: [vec![0; IMAGE], vec![0; IMAGE]], loaded: [vec![0; STATE], vec![0; STATE]] }
    }

    /// Library and plain Rust give the same numbers, with the offsets of what is at fault, and write the same.
    fn agree(&mut self, image: &[u8], what: impl Fn() -> String) {
        let ([a, b], [loaded, plainly]) = (&mut self.out, &mut self.loaded);
        let ours = [Library.load(loaded, image), upgrade(image, a), downgrade(image, a)];
        let theirs = [
            plain_image::load(plainly, image),
            plain_image::upgrade(image, b),
            plain_image::downgrade(image, b),
        ];
        assert_eq!(ours, theirs, "{}", what());
        assert!(a == b && loaded == plainly, "{}", what());
    }
}

/// Times everything on every hub.
pub fn all(seen: &mut Seen) {
    for hub in HUBS.map(Hub::new) {
        hub.time_save(seen);
        hub.time_load(1, seen);
        hub.time_load(2, seen);
        hub.time_move("upgrade", 1, [upgrade, plain_image::upgrade], seen);
        hub.time_move("downgrade", 2, [downgrade, plain_image::downgrade], seen);
    }
}

/// How long the images of a usual hub are, and the largest.
pub fn lengths() {
    let [_, usual, largest] = HUBS.map(Hub::new);
    assert_eq!(largest.images.each_ref().map(Vec::len), [IMAGE; 2]);
    println!("image_length_usual {}", usual.lengths());
    println!("image_length_largest {}", largest.lengths());
}

/// Images with one octet changed, and cut ones, are judged alike.
pub fn judged_alike() {
    let [empty, usual, _] = HUBS.map(Hub::new);
    empty.judged_alike();
    usual.judged_alike();
}

/// Version 1 of an image of version 2, which every library takes.
#[cfg(before)]
pub fn version_1_of(image: &[u8]) -> Vec<u8> {
    octets(|out| downgrade(image, out))
}
