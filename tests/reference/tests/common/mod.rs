//! What the tests share: packets and replies written out by hand, and hubs in
//! a wanted state.

#![allow(dead_code)]

use reference::{AtOnceHub, Call, Hub, Reply};

/// BR/EDR and LE supported.
pub const DUAL: u32 = 0x0280;
/// Only BR/EDR supported.
pub const CLASSIC: u32 = 0x0080;
/// Only LE supported.
pub const LE_ONLY: u32 = 0x0200;
/// The public address that `hub_with` plugs.
pub const PUBLIC: [u8; 6] = [1, 2, 3, 4, 5, 6];
/// A static random address.
pub const STATIC: [u8; 6] = [9, 8, 7, 6, 5, 0xC1];
/// Invalid Parameters.
pub const INVALID: u8 = 0x0D;
/// The commands that wait for what is under way, with parameters that a dual-mode controller without power takes.
pub const WAITING: [(u16, &[u8]); 6] =
    [(0x0005, &[1]), (0x0006, &[0, 0, 0]), (0x0007, &[0]), (0x000D, &[1]), (0x002A, &[1]), (0x002B, &STATIC)];

/// A packet or an event: code, index, length, parameters.
pub fn frame(code: u16, index: u16, parameters: &[u8]) -> Vec<u8> {
    let mut out = Vec::new();
    for number in [code, index, parameters.len() as u16] {
        out.push((number & 0xFF) as u8);
        out.push((number >> 8) as u8);
    }
    out.extend(parameters);
    out
}

/// Command Complete.
pub fn complete(code: u16, index: u16, status: u8, returned: &[u8]) -> Vec<u8> {
    let head = [(code & 0xFF) as u8, (code >> 8) as u8, status];
    frame(1, index, &[&head[..], returned].concat())
}

/// Command Status.
pub fn status(code: u16, index: u16, status: u8) -> Vec<u8> {
    frame(2, index, &[(code & 0xFF) as u8, (code >> 8) as u8, status])
}

/// The reply and events of a settings command that changed them to this word.
pub fn changed(code: u16, index: u16, settings: u32) -> Vec<u8> {
    let word = settings.to_le_bytes();
    [complete(code, index, 0, &word), frame(6, index, &word)].concat()
}

/// The reply of a settings command that changed nothing.
pub fn unchanged(code: u16, index: u16, settings: u32) -> Vec<u8> {
    complete(code, index, 0, &settings.to_le_bytes())
}

/// An answer of 0.
pub fn done(octets: Vec<u8>) -> Reply {
    Reply::new(0, octets)
}

/// An answer of 2.
pub fn refused(octets: Vec<u8>) -> Reply {
    Reply::new(2, octets)
}

/// An answer without octets.
pub fn bare(answer: u8) -> Reply {
    Reply::bare(answer)
}

/// The refusal of an image: the number, and where the first thing at fault begins.
pub fn bad_image(answer: u8, offset: usize) -> Reply {
    Reply { offset, ..bare(answer) }
}

/// Sends a command with just enough room.
pub fn send(hub: &mut Hub, code: u16, index: u16, parameters: &[u8]) -> Reply {
    hub.command(&frame(code, index, parameters), 1024)
}

/// A hub with one controller at index 0, as plug leaves it.
pub fn hub_with(supported: u32) -> Hub {
    let mut hub = Hub::new();
    plug(&mut hub, 0, supported);
    hub
}

/// Plugs a controller with the usual public address.
pub fn plug(hub: &mut Hub, index: u64, supported: u32) {
    let reply = hub.plug(index, &PUBLIC, 6, 0x1234, supported, 1024);
    assert_eq!(reply, done(frame(4, index as u16, &[])));
}

/// A command to index 0 as a call.
pub fn command(code: u16, parameters: &[u8]) -> Call {
    Call::Command { packet: frame(code, 0, parameters), room: 1024 }
}

/// An at-once hub with one dual-mode controller at index 0.
pub fn at_once_hub() -> AtOnceHub {
    let (address, supported) = (PUBLIC.to_vec(), DUAL);
    let mut hub = AtOnceHub::new();
    let plug = Call::Plug { index: 0, address, version: 6, manufacturer: 1, supported, room: 1024 };
    assert_eq!(hub.call(&plug).answer, 0);
    hub
}

/// Sends a command that is started, and reports success.
pub fn carry_out(hub: &mut Hub, code: u16, index: u16, parameters: &[u8]) -> Vec<u8> {
    assert_eq!(send(hub, code, index, parameters), bare(1));
    let reply = hub.report(index.into(), 0, 1024);
    assert_eq!(reply.answer, 0);
    reply.octets
}

/// A hub with one powered and connectable controller at index 0.
pub fn powered_hub(supported: u32) -> Hub {
    let mut hub = hub_with(supported);
    assert_eq!(send(&mut hub, 0x0007, 0, &[1]).answer, 0);
    carry_out(&mut hub, 0x0005, 0, &[1]);
    hub
}

/// A powered hub that is discoverable with a timer of so many seconds.
pub fn timed_hub(seconds: u16) -> Hub {
    let mut hub = powered_hub(DUAL);
    let [low, high] = seconds.to_le_bytes();
    carry_out(&mut hub, 0x0006, 0, &[1, low, high]);
    hub
}

/// The Current_Settings that Read Controller Information shows.
pub fn settings(hub: &mut Hub, index: u16) -> u32 {
    let octets = send(hub, 0x0004, index, &[]).octets;
    u32::from_le_bytes(octets[22..26].try_into().expect("four octets"))
}

/// The image of a hub.
pub fn image(hub: &Hub) -> Vec<u8> {
    let reply = hub.save(16_014);
    assert_eq!(reply.answer, 0);
    reply.octets
}

/// Puts the length field right.
pub fn sized(mut image: Vec<u8>) -> Vec<u8> {
    let length = image.len() as u32;
    image[..4].copy_from_slice(&length.to_be_bytes());
    image
}

/// One controller at index 1 in an image of a version, with these settings words, static address, names as that version writes
/// them, and tables.
pub fn image_of(
    version: u8,
    [supported, flags]: [u32; 2],
    address: [u8; 6],
    names: &[u8],
    tables: &[Vec<Vec<u8>>; 6],
) -> Vec<u8> {
    let mut out = vec![0, 0, 0, 0, version, 1, 1];
    out.extend(PUBLIC);
    out.extend([6, 0x12, 0x34]);
    out.extend(supported.to_be_bytes());
    out.extend(flags.to_be_bytes());
    out.extend(address);
    out.extend(names);
    for records in tables {
        out.push(records.len() as u8);
        out.extend(records.concat());
    }
    sized(out)
}

/// The same without a name and with BR/EDR on as supported; the flags are those beside it.
pub fn image_in(
    version: u8,
    supported: u32,
    flags: u32,
    address: [u8; 6],
    tables: &[Vec<Vec<u8>>; 6],
) -> Vec<u8> {
    match version {
        1 => image_of(1, [supported, flags], address, &[0; 260], tables),
        _ => image_of(version, [supported, flags | supported & CLASSIC], address, &[0; 2], tables),
    }
}

/// No entries in any table.
pub fn no_tables() -> [Vec<Vec<u8>>; 6] {
    Default::default()
}

/// A device address that differs for each number.
pub fn address(number: u8) -> [u8; 6] {
    [number, 0x22, 0x33, 0x44, 0x55, 0xC6]
}

/// Address and type.
pub fn peer(number: u8, kind: u8) -> Vec<u8> {
    [&address(number)[..], &[kind]].concat()
}

/// A UUID and its hint.
pub fn service(number: u8, hint: u8) -> Vec<u8> {
    [&[number; 16][..], &[hint]].concat()
}

/// A link key record.
pub fn link_key(number: u8) -> Vec<u8> {
    [peer(number, 0), vec![8], vec![number; 16], vec![200]].concat()
}

/// A long term key record.
pub fn long_term_key(number: u8, kind: u8, master: u8) -> Vec<u8> {
    [peer(number, kind), vec![4, master, 16], vec![number; 26]].concat()
}

/// An identity resolving key record.
pub fn identity_key(number: u8, kind: u8) -> Vec<u8> {
    [peer(number, kind), vec![number; 16]].concat()
}

/// The parameters of Load Link Keys.
pub fn link_list(records: &[Vec<u8>]) -> Vec<u8> {
    [vec![0, records.len() as u8, 0], records.concat()].concat()
}

/// The parameters of the two LE key lists.
pub fn le_list(records: &[Vec<u8>]) -> Vec<u8> {
    [vec![records.len() as u8, 0], records.concat()].concat()
}

/// The parameters of Add Advertising with flags of zero.
pub fn instance(which: u8, duration: u16, timeout: u16, data: &[u8], scan_response: &[u8]) -> Vec<u8> {
    let mut out = vec![which, 0, 0, 0, 0];
    out.extend(duration.to_le_bytes());
    out.extend(timeout.to_le_bytes());
    out.extend([data.len() as u8, scan_response.len() as u8]);
    [&out[..], data, scan_response].concat()
}

/// Adds an instance without data to index 0, or changes it; gives the reply with its events.
pub fn advertise(hub: &mut Hub, which: u8, duration: u16, timeout: u16) -> Vec<u8> {
    let reply = send(hub, 0x003E, 0, &instance(which, duration, timeout, &[], &[]));
    assert_eq!(reply.answer, 0);
    reply.octets
}

/// Advertising Removed of index 0, one event for each instance.
pub fn removed(instances: &[u8]) -> Vec<u8> {
    instances.iter().flat_map(|which| frame(0x0024, 0, &[*which])).collect()
}

/// Lets so many seconds pass; gives the events.
pub fn wait(hub: &mut Hub, seconds: u32) -> Vec<u8> {
    let reply = hub.clock(hub.state().clock.wrapping_add(seconds), 1024);
    assert_eq!(reply.answer, 0);
    reply.octets
}

/// The instance on air at index 0 and the seconds left of its turn, zeros if none is.
pub fn turn(hub: &Hub) -> (u8, u16) {
    let controller = hub.state().controller(0).expect("index 0 is present");
    controller.advertising.turn.map_or((0, 0), |turn| (turn.instance, turn.left))
}

/// The timeouts left of the instances present at index 0; 0 where there is none.
pub fn timeouts(hub: &Hub) -> Vec<(u8, u16)> {
    let advertising = &hub.state().controller(0).expect("index 0 is present").advertising;
    let left = |which| advertising.instance(which).and_then(|instance| instance.timeout).unwrap_or(0);
    advertising.present().map(|which| (which, left(which))).collect()
}

/// The instances on air in each of so many seconds.
pub fn seconds_on_air(hub: &mut Hub, seconds: u32) -> Vec<u8> {
    let one = |_| {
        let on_air = turn(hub).0;
        wait(hub, 1);
        on_air
    };
    (0..seconds).map(one).collect()
}

/// Random numbers of a linear congruence; the high bits are used.
pub struct Dice(pub u64);

impl Dice {
    /// A number below the bound.
    pub fn below(&mut self, bound: u64) -> u64 {
        self.0 = self.0.wrapping_mul(6_364_136_223_846_793_005).wrapping_add(1_442_695_040_888_963_407);
        (self.0 >> 33) % bound
    }

    /// So many octets.
    pub fn octets(&mut self, count: usize) -> Vec<u8> {
        (0..count).map(|_| self.below(256) as u8).collect()
    }
}
