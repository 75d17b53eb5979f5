//! The addresses at the edge of the rule of static random ones, in every place that wants one: commands, images, and lent
//! states. Each is tried on a target and on the reference hub.

use crate::altered::{refused, taken};
use crate::identities::read;
use crate::images::{image_agrees, move_agrees};
use crate::layout::{block, slot, IDENTITY_KEYS, LONG_TERM_KEYS, STATIC_ADDRESS};
use crate::lent::{Difference, Lent};
use crate::run::step;
use crate::target::{Move, Target};
use calls::draft::Draft;
use calls::pools::{high_address, inside_address, low_address, outside_address, INSIDE, LOW, OUTSIDE};
use calls::records::{identity_key, long_term_key};
use calls::Random;
use reference::codes::{answer, command as code, IMAGE_ROOM, REPLY_ROOM};
use reference::packet::frame;
use reference::records::{Address, IdentityKey, LongTermKey, Record, LE_RANDOM};
use reference::{downgrade, Call, Hub};
use std::fmt::{Display, Formatter};

/// A field that wants a static random address.
#[derive(Clone, Copy, PartialEq, Eq, Debug)]
pub enum Field {
    /// The static address of a controller.
    StaticAddress,
    /// The address of an LE Random long term key.
    LongTermKey,
    /// The address of an LE Random identity resolving key.
    IdentityKey,
}

/// What the field is a part of.
#[derive(Clone, Copy, PartialEq, Eq, Debug)]
pub enum Carrier {
    /// A command packet.
    Command,
    /// An image.
    Image,
    /// A lent state.
    State,
}

/// A place for an address.
#[derive(Clone, Copy, Debug)]
struct Place {
    carrier: Carrier,
    field: Field,
    /// The controller.
    index: usize,
    /// Which record, if the field is one of a key.
    record: usize,
}

/// What a sweep over all addresses and places came to.
#[derive(Clone, Copy, PartialEq, Eq, Debug, Default)]
pub struct Sweep {
    /// Addresses tried in each place.
    pub addresses: usize,
    /// Places.
    pub places: usize,
    /// How often an address was taken.
    pub taken: usize,
    /// How often one was refused.
    pub refused: usize,
}

impl Display for Sweep {
    fn fmt(&self, out: &mut Formatter<'_>) -> std::fmt::Result {
        let Sweep { addresses, places, taken, refused } = self;
        write!(out, "{addresses} addresses in {places} places: {taken} taken, {refused} refused")
    }
}

/// A dual-mode controller with full tables of keys.
const FULL: usize = 1;
/// A powered controller that has no public address, with a free slot between the first and the last of its keys.
const NO_PUBLIC_ADDRESS: usize = 3;
/// The last keys of both.
const LAST: [(usize, usize); 2] = [(FULL, 31), (NO_PUBLIC_ADDRESS, 2)];

/// Every place: in commands to the first controller, in images and states at both, of keys the first and the last.
fn places() -> Vec<Place> {
    let mut out = Vec::new();
    for (index, last) in LAST {
        let fields = [
            (Field::StaticAddress, 0),
            (Field::LongTermKey, 0),
            (Field::LongTermKey, last),
            (Field::IdentityKey, 0),
            (Field::IdentityKey, last),
        ];
        for carrier in [Carrier::Command, Carrier::Image, Carrier::State] {
            if carrier != Carrier::Command || index == FULL {
                out.extend(fields.map(|(field, record)| Place { carrier, field, index, record }));
            }
        }
    }
    out
}

/// Addresses whose sixth octet is too low; below the top two bits all of them have both a 0 and a 1.
const TOO_LOW: usize = 3;

/// All addresses at the edge: the two with both top bits set and the 46 bits below them alike, and their neighbours; then
/// those that are outside the rule for their top bits alone.
fn addresses() -> impl Iterator<Item = Address> {
    let alike = (0..OUTSIDE).map(outside_address).chain((0..INSIDE).map(inside_address));
    alike.chain((LOW - TOO_LOW..LOW).map(low_address))
}

/// So many keys for a field, as parameters of the command that loads them. Record k names the same device for both fields.
fn list(field: Field, count: usize) -> Vec<u8> {
    let mut random = Random::new(0);
    let one = |number| match field {
        Field::LongTermKey => long_term_key(&mut random, 2 * number),
        _ => identity_key(&mut random, number),
    };
    let records: Vec<Vec<u8>> = (0..count).map(one).collect();
    [&(count as u16).to_le_bytes()[..], &records.concat()].concat()
}

/// Gives a key an LE Random address.
fn put_address(record: &mut [u8], address: &Address) {
    record[..6].copy_from_slice(address);
    record[6] = LE_RANDOM;
}

/// A command to a controller.
fn send(index: usize, code: u16, parameters: &[u8]) -> Call {
    Call::Command { packet: frame(code, index as u16, parameters), room: REPLY_ROOM }
}

/// The keys up to that of the place, which has the address.
fn list_with(place: &Place, length: usize, address: &Address) -> Vec<u8> {
    let mut list = list(place.field, place.record + 1);
    let last = list.len() - length;
    put_address(&mut list[last..], address);
    list
}

/// The command that brings an address to its place.
fn command(place: &Place, address: &Address) -> Call {
    let (code, parameters) = match place.field {
        Field::StaticAddress => (code::SET_STATIC_ADDRESS, address.to_vec()),
        Field::LongTermKey => (code::LOAD_LONG_TERM_KEYS, list_with(place, LongTermKey::LEN, address)),
        Field::IdentityKey => (code::LOAD_IDENTITY_KEYS, list_with(place, IdentityKey::LEN, address)),
    };
    send(place.index, code, &parameters)
}

/// Puts an address into its place in an image.
fn put_in_image(draft: &mut Draft, place: &Place, address: &Address) {
    let controller =
        draft.controllers.iter_mut().find(|controller| usize::from(controller.index) == place.index);
    let controller = controller.expect("the image has both controllers");
    match place.field {
        Field::StaticAddress => controller.static_address = *address,
        Field::LongTermKey => put_address(&mut controller.tables[2].records[place.record], address),
        Field::IdentityKey => put_address(&mut controller.tables[3].records[place.record], address),
    }
}

/// Puts an address into its place in a block of a state.
fn put_in_block(block: &mut [u8], place: &Place, address: &Address) {
    match place.field {
        Field::StaticAddress => block[STATIC_ADDRESS].copy_from_slice(address),
        Field::LongTermKey => {
            put_address(&mut block[LONG_TERM_KEYS][slot::<LongTermKey>(place.record)], address)
        }
        Field::IdentityKey => {
            put_address(&mut block[IDENTITY_KEYS][slot::<IdentityKey>(place.record)], address)
        }
    }
}

/// The image that both controllers are loaded from.
fn base() -> Vec<u8> {
    let mut hub = Hub::new();
    for (index, last) in LAST {
        let (address, supported) = if index == FULL { (vec![7; 6], 0x0281) } else { (vec![0; 6], 0x0201) };
        let plug = Call::Plug {
            index: index as u64,
            address,
            version: 9,
            manufacturer: 15,
            supported,
            room: REPLY_ROOM,
        };
        let calls = [
            plug,
            send(index, code::SET_STATIC_ADDRESS, &high_address(index)),
            send(index, code::LOAD_LONG_TERM_KEYS, &list(Field::LongTermKey, last + 1)),
            send(index, code::LOAD_IDENTITY_KEYS, &list(Field::IdentityKey, last + 1)),
        ];
        for call in calls {
            assert_eq!(hub.call(&call).answer, answer::DONE, "{call:?}");
        }
    }
    hub.save(IMAGE_ROOM).octets
}

/// Loads both controllers on a target and on the reference hub; one is powered, and the device of its middle keys unpaired.
fn begin<T: Target>(lent: &mut Lent<T>, base: &[u8]) -> Result<Hub, Difference> {
    let mut hub = Hub::new();
    if !image_agrees(lent, &mut hub, base)? {
        return Err("the image to start from is not taken".into());
    }
    step(lent, &mut hub, &send(NO_PUBLIC_ADDRESS, code::SET_POWERED, &[1]))?;
    step(lent, &mut hub, &Call::Report { index: NO_PUBLIC_ADDRESS as u64, status: 0, room: REPLY_ROOM })?;
    let controller = hub.state().controllers[NO_PUBLIC_ADDRESS].as_ref().expect("it is loaded");
    let middle = controller.identity_keys.slots()[1].as_ref().expect("it has three keys").peer;
    step(lent, &mut hub, &send(NO_PUBLIC_ADDRESS, code::UNPAIR, &[&middle.octets()[..], &[0]].concat()))?;
    Ok(hub)
}

/// Tries an address in a place; tells whether it is taken.
fn try_one<T: Target>(
    lent: &mut Lent<T>,
    base: &[u8],
    place: &Place,
    address: &Address,
) -> Result<bool, Difference> {
    let mut hub = begin(lent, base)?;
    match place.carrier {
        Carrier::Command => Ok(step(lent, &mut hub, &command(place, address))?.answer == answer::DONE),
        Carrier::Image => in_images(lent, base, place, address),
        Carrier::State => in_state(lent, &hub, place, address),
    }
}

/// Tries an address in images of both versions, loaded and moved: both are taken, or neither is.
fn in_images<T: Target>(
    lent: &mut Lent<T>,
    base: &[u8],
    place: &Place,
    address: &Address,
) -> Result<bool, Difference> {
    let old = downgrade(base, IMAGE_ROOM).octets;
    let mut taken = Vec::new();
    for image in [base, &old] {
        let mut draft = Draft::read(image);
        put_in_image(&mut draft, place, address);
        taken.push(image_agrees(lent, &mut Hub::new(), &draft.octets())?);
        for way in [Move::Upgrade, Move::Downgrade] {
            move_agrees(lent, way, &draft.octets(), IMAGE_ROOM)?;
        }
    }
    match taken[0] == taken[1] {
        true => Ok(taken[0]),
        false => Err("the versions differ".into()),
    }
}

/// Lends a state with an address in its place: 5 from the questions and a call, or all agree.
fn in_state<T: Target>(
    lent: &mut Lent<T>,
    hub: &Hub,
    place: &Place,
    address: &Address,
) -> Result<bool, Difference> {
    let mut octets = lent.state().to_vec();
    let block = &mut octets[block(place.index)];
    put_in_block(block, place, address);
    let controller = hub.state().controllers[place.index].as_ref().expect("it is loaded");
    let meant = read(block, controller);
    lent.put_state(&octets);
    let clock = Call::Clock { reading: 5, room: REPLY_ROOM };
    match meant {
        Some(controller) => {
            taken(lent, &mut hub.with_controller(place.index, controller), place.index, &clock)?;
            Ok(true)
        }
        None => refused(lent, place.index, &clock).map(|()| false),
    }
}

/// Tries every address in every place.
pub fn addresses_agree<T: Target>(lent: &mut Lent<T>) -> Result<Sweep, Difference> {
    let (base, places) = (base(), places());
    let mut sweep = Sweep { addresses: addresses().count(), places: places.len(), ..Sweep::default() };
    for place in &places {
        for address in addresses() {
            let result = try_one(lent, &base, place, &address);
            let taken = result.map_err(|difference| format!("{address:02X?} at {place:?}: {difference}"))?;
            sweep.taken += usize::from(taken);
            sweep.refused += usize::from(!taken);
        }
    }
    Ok(sweep)
}
