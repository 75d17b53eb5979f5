//! Parameters that a command takes, chosen with the controller in view.

use crate::instances;
use crate::pools;
use crate::random::Random;
use crate::records::{key_list, Kind};
use reference::codes::command as code;
use reference::controller::Controller;
use reference::records::{Peer, Record};

/// Parameters with valid values for a command to a controller.
pub fn valid(random: &mut Random, code: u16, controller: &Controller) -> Vec<u8> {
    match code {
        code::SET_POWERED => vec![switch(random, controller.powered, 80, 35)],
        code::SET_DISCOVERABLE => discoverable(random, controller),
        code::SET_CONNECTABLE => vec![switch(random, controller.connectable, 85, 15)],
        code::SET_BONDABLE => vec![switch(random, controller.bondable, 50, 50)],
        code::SET_LOW_ENERGY => vec![switch(random, controller.low_energy, 60, 50)],
        code::SET_BR_EDR => vec![switch(random, controller.br_edr, 75, 30)],
        code::SET_STATIC_ADDRESS => static_address(random, controller),
        code::SET_LOCAL_NAME => names(random, controller),
        code::ADD_UUID => {
            let mut parameters = uuid(random, controller, 30);
            parameters.push(pools::hint(random));
            parameters
        }
        code::REMOVE_UUID if random.percent(7) => vec![0; 16],
        code::REMOVE_UUID => uuid(random, controller, 70),
        code::LOAD_LINK_KEYS => {
            let mut parameters = vec![random.below(2) as u8];
            parameters.extend(list(random, Kind::LinkKey));
            parameters
        }
        code::LOAD_LONG_TERM_KEYS => list(random, Kind::LongTermKey),
        code::LOAD_IDENTITY_KEYS => list(random, Kind::IdentityKey),
        code::ADD_ADVERTISING | code::REMOVE_ADVERTISING => instances::valid(random, code, controller),
        _ => about_device(random, code, controller),
    }
}

/// A switch that is turned on or off so many times in a hundred.
fn switch(random: &mut Random, on: bool, turn_on: usize, turn_off: usize) -> u8 {
    let turned = random.percent(if on { turn_off } else { turn_on });
    u8::from(on != turned)
}

/// Mode and timeout; a timeout mostly where there is power.
fn discoverable(random: &mut Random, controller: &Controller) -> Vec<u8> {
    let timed = random.percent(if controller.powered { 70 } else { 15 });
    let timeout = match random.below(8) {
        _ if !timed => 0,
        0 => random.bits() as u16 | 1,
        1 => 0xFFFF,
        2 => random.pick(&[255, 256, 257, 0x7FFF, 0x8000]),
        _ => random.between(1, 60) as u16,
    };
    let mode = match random.below(5) {
        0 => 0,
        1 | 2 if timed => 2,
        _ => 1,
    };
    let timeout = if mode == 0 { 0 } else { timeout };
    [&[mode][..], &timeout.to_le_bytes()].concat()
}

/// A static address, the present one or zero now and then.
fn static_address(random: &mut Random, controller: &Controller) -> Vec<u8> {
    match random.below(6) {
        0 => vec![0; 6],
        1 => controller.static_address.to_vec(),
        _ => pools::static_address(random).to_vec(),
    }
}

/// Names: new ones, the present ones, or those with one octet changed.
fn names(random: &mut Random, controller: &Controller) -> Vec<u8> {
    let mut present = controller.local_name.octets();
    match random.below(4) {
        0 => present,
        1 => {
            present[random.pick(&[0, 1, 200, 247, 249, 258])] ^= 1;
            present
        }
        _ => pools::names(random),
    }
}

/// A UUID of the table so many times in a hundred, else one of the pool.
fn uuid(random: &mut Random, controller: &Controller, present: usize) -> Vec<u8> {
    let count = controller.services.len();
    if count > 0 && random.percent(present) {
        let chosen = random.below(count);
        let entry = controller.services.entries().nth(chosen);
        entry.map(|service| service.uuid.to_vec()).unwrap_or_default()
    } else {
        pools::uuid(random.below(pools::UUIDS)).to_vec()
    }
}

/// A count and so many key records.
fn list(random: &mut Random, kind: Kind) -> Vec<u8> {
    let count = match random.below(20) {
        0 | 1 => 0,
        2..=9 => random.between(1, 4),
        10..=14 => random.between(5, 31),
        15..=17 => 32,
        18 => 33,
        _ if random.percent(5) => random.pick(&[255, 256, 257, 288, 1820]),
        _ => random.between(30, 36),
    };
    let records = key_list(random, kind, count).concat();
    [&(count as u16).to_le_bytes()[..], &records].concat()
}

/// The parameters of the five address commands.
fn about_device(random: &mut Random, code: u16, controller: &Controller) -> Vec<u8> {
    let blocked = |controller: &Controller| controller.blocked.entries().copied().collect();
    let devices = |controller: &Controller| controller.devices.entries().map(|device| device.peer).collect();
    match code {
        code::UNPAIR => {
            let peer = present_or_not(random, 75, paired(controller));
            [peer.octets(), vec![random.below(2) as u8]].concat()
        }
        code::BLOCK => present_or_not(random, 10, blocked(controller)).octets(),
        code::UNBLOCK => present_or_not(random, 75, blocked(controller)).octets(),
        code::ADD_DEVICE => {
            let peer = present_or_not(random, 15, devices(controller));
            let action = if peer.address_type == 0 { 1 } else { random.below(3) as u8 };
            [peer.octets(), vec![action]].concat()
        }
        code::REMOVE_DEVICE if random.percent(7) => vec![0; 7],
        code::REMOVE_DEVICE => present_or_not(random, 75, devices(controller)).octets(),
        _ => Vec::new(),
    }
}

/// All devices that have a key.
fn paired(controller: &Controller) -> Vec<Peer> {
    let links = controller.link_keys.entries().map(|key| key.peer);
    let long_terms = controller.long_term_keys.entries().map(|key| key.peer);
    let identities = controller.identity_keys.entries().map(|key| key.peer);
    links.chain(long_terms).chain(identities).collect()
}

/// One of these devices so many times in a hundred, else one of the pool; now
/// and then one of these with another type.
fn present_or_not(random: &mut Random, present: usize, peers: Vec<Peer>) -> Peer {
    if peers.is_empty() || !random.percent(present) {
        return pools::peer(random);
    }
    let mut peer = random.pick(&peers);
    if random.percent(15) {
        peer.address_type = random.below(3) as u8;
    }
    debug_assert_eq!(peer.octets().len(), Peer::LEN);
    peer
}
