//! Situations of addresses at the edge of the rule of static random ones: the two with both top bits set and the 46 bits
//! below them alike, and the neighbours of these two in one bit.

use crate::draft::Draft;
use crate::pools::ALIKE;
use crate::situations::See;
use reference::command::Command;
use reference::image::load;
use reference::packet::Packet;
use reference::reason::{ImageFault, Reason};
use reference::records::{Address, Peer, Record, LE_PUBLIC, LE_RANDOM};
use reference::state::State;

/// What addresses at the edge come to in a place, in the order of `edge`: three kinds are refused, two are taken.
type Names = [&'static str; 5];
/// How many of the kinds are refused.
const REFUSED: usize = 3;

/// The names for a place.
macro_rules! names {
    ($place:literal) => {
        [
            concat!($place, ", random part all 0, refused"),
            concat!($place, ", random part all 1, refused"),
            concat!($place, ", a top bit missing, refused"),
            concat!($place, ", random part with a single 1, taken"),
            concat!($place, ", random part with a single 0, taken"),
        ]
    };
}

const STATIC: Names = names!("0x002B");
const LONG_TERM: Names = names!("0x0013");
const IDENTITY: Names = names!("0x0030");
const IMAGE_STATIC: Names = names!("image's static address");
const IMAGE_LONG_TERM: Names = names!("image's long term key");
const IMAGE_IDENTITY: Names = names!("image's identity resolving key");

/// Which kind of address at the edge this is, if it is one.
fn edge(address: &Address) -> Option<usize> {
    let ones = |octets: &[u8]| octets.iter().map(|octet| octet.count_ones()).sum::<u32>();
    let below = ones(&address[..5]) + ones(&[address[5] & 0x3F]);
    match (address[5] >> 6, below) {
        (0b11, 0) => Some(0),
        (0b11, 46) => Some(1),
        (0b01 | 0b10, 0 | 46) => Some(2),
        (0b11, 1) => Some(3),
        (0b11, 45) => Some(4),
        _ => None,
    }
}

/// Notes what an address that is refused was.
fn refused(names: &Names, address: &Address, see: &mut See) {
    if let Some(kind) = edge(address) {
        see(names[kind], kind < REFUSED);
    }
}

/// Notes what there was among addresses that are taken.
fn taken(names: &Names, addresses: &[Address], see: &mut See) {
    for (kind, name) in names.iter().enumerate().skip(REFUSED) {
        see(name, addresses.iter().any(|address| edge(address) == Some(kind)));
    }
}

/// The addresses of the LE Random devices among these.
fn random_ones<'a>(peers: impl Iterator<Item = &'a Peer>) -> Vec<Address> {
    peers.filter(|peer| peer.address_type == LE_RANDOM).map(|peer| peer.address).collect()
}

/// Whether a device has this type and one of the two addresses.
fn is_alike(peer: &Peer, address_type: u8) -> bool {
    peer.address_type == address_type && ALIKE.contains(&peer.address)
}

/// A command that no check refuses.
pub fn at_command(command: &Command, see: &mut See) {
    match command {
        Command::SetStaticAddress(address) => taken(&STATIC, &[*address], see),
        Command::LoadLongTermKeys(keys) => {
            taken(&LONG_TERM, &random_ones(keys.iter().map(|key| &key.peer)), see);
            let public = keys.iter().any(|key| is_alike(&key.peer, LE_PUBLIC));
            see("LE Public long term key, random part all 0 or all 1", public);
        }
        Command::LoadIdentityKeys(keys) => {
            taken(&IDENTITY, &random_ones(keys.iter().map(|key| &key.peer)), see);
            let public = keys.iter().any(|key| is_alike(&key.peer, LE_PUBLIC));
            see("LE Public identity resolving key, random part all 0 or all 1", public);
        }
        Command::Block(peer) => {
            see("LE Random device, random part all 0 or all 1, blocked", is_alike(peer, LE_RANDOM))
        }
        Command::Unblock(peer) => {
            see("LE Random device, random part all 0 or all 1, unblocked", is_alike(peer, LE_RANDOM))
        }
        Command::AddDevice(device) => {
            see("LE Random device, random part all 0 or all 1, added", is_alike(&device.peer, LE_RANDOM))
        }
        Command::RemoveDevice(peer) => {
            see("LE Random device, random part all 0 or all 1, removed", is_alike(peer, LE_RANDOM))
        }
        Command::Unpair { peer, .. } => {
            see("LE Public device, random part all 0 or all 1, unpaired", is_alike(peer, LE_PUBLIC))
        }
        _ => {}
    }
}

/// A command that is refused for this reason first.
pub fn at_refusal(packet: &[u8], reason: Reason, see: &mut See) {
    if !matches!(reason, Reason::StaticAddress | Reason::RandomAddress | Reason::NotPaired) {
        return;
    }
    let Some(packet) = Packet::read(packet) else { return };
    match Command::read(&packet) {
        Command::SetStaticAddress(address) => refused(&STATIC, &address, see),
        Command::LoadLongTermKeys(keys) => refused_key(&LONG_TERM, &keys, |key| &key.peer, see),
        Command::LoadIdentityKeys(keys) => refused_key(&IDENTITY, &keys, |key| &key.peer, see),
        Command::Unpair { peer, .. } => {
            see("LE Random device, random part all 0 or all 1, not paired", is_alike(&peer, LE_RANDOM))
        }
        _ => {}
    }
}

/// Whether a key has an LE Random address that is no static one.
fn is_outside<R: Record>(key: &R) -> bool {
    key.fault().is_some_and(|fault| fault.reason == Reason::RandomAddress)
}

/// Notes the address of the first key that has a wrong one.
fn refused_key<R: Record>(names: &Names, keys: &[R], peer: fn(&R) -> &Peer, see: &mut See) {
    if let Some(key) = keys.iter().find(|key| is_outside(*key)) {
        refused(names, &peer(key).address, see);
    }
}

/// An image that is loaded.
pub fn at_image(image: &[u8], see: &mut See) {
    match load(image) {
        Ok(state) => at_taken_image(&state, see),
        Err(diagnosis) => match diagnosis.fault {
            ImageFault::StaticAddress | ImageFault::Record(_, Reason::RandomAddress) => {
                if let Some(draft) = Draft::of(image) {
                    at_refused_image(&draft, see);
                }
            }
            _ => {}
        },
    }
}

/// Notes the addresses of an image that is taken.
fn at_taken_image(state: &State, see: &mut See) {
    let controllers = || state.controllers.iter().flatten();
    let static_addresses: Vec<Address> = controllers().map(|controller| controller.static_address).collect();
    let long_term = controllers().flat_map(|controller| controller.long_term_keys.entries());
    let identity = controllers().flat_map(|controller| controller.identity_keys.entries());
    taken(&IMAGE_STATIC, &static_addresses, see);
    taken(&IMAGE_LONG_TERM, &random_ones(long_term.map(|key| &key.peer)), see);
    taken(&IMAGE_IDENTITY, &random_ones(identity.map(|key| &key.peer)), see);
}

/// Notes the address for which an image is refused, where nothing else is wrong: without it the image loads.
fn at_refused_image(draft: &Draft, see: &mut See) {
    for (place, controller) in draft.controllers.iter().enumerate() {
        let mut mended = draft.clone();
        mended.controllers[place].static_address = [0; 6];
        if load(&mended.octets()).is_ok() {
            refused(&IMAGE_STATIC, &controller.static_address, see);
        }
        for (table, names) in [(2, &IMAGE_LONG_TERM), (3, &IMAGE_IDENTITY)] {
            for (slot, record) in controller.tables[table].records.iter().enumerate() {
                let mut mended = draft.clone();
                mended.controllers[place].tables[table].records.remove(slot);
                let peer = Peer::read(&record[..Peer::LEN]);
                if load(&mended.octets()).is_ok() {
                    refused(names, &peer.address, see);
                }
            }
        }
    }
}

/// What addresses at the edge come to where any address is taken.
const ELSEWHERE: [&str; 8] = [
    "LE Public long term key, random part all 0 or all 1",
    "LE Public identity resolving key, random part all 0 or all 1",
    "LE Random device, random part all 0 or all 1, blocked",
    "LE Random device, random part all 0 or all 1, unblocked",
    "LE Random device, random part all 0 or all 1, added",
    "LE Random device, random part all 0 or all 1, removed",
    "LE Random device, random part all 0 or all 1, not paired",
    "LE Public device, random part all 0 or all 1, unpaired",
];

/// All names that a run should come to.
pub fn expected() -> impl Iterator<Item = &'static str> {
    let places = [STATIC, LONG_TERM, IDENTITY, IMAGE_STATIC, IMAGE_LONG_TERM, IMAGE_IDENTITY];
    places.into_iter().flatten().chain(ELSEWHERE)
}
