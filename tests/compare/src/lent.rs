//! A state buffer lent to a target, and what has to hold of every call on it.

use crate::layout::WAITING;
use crate::target::{Move, Target};
use reference::codes::answer;
use reference::{Call, Reply};

/// What went wrong, in words.
pub type Difference = String;

/// Octets behind each buffer that nobody may write.
const GUARD: usize = 64;
/// The longest reply buffer.
const REPLY: usize = 32_768;

/// A state buffer, with a reply buffer for the calls on it.
pub struct Lent<T: Target> {
    /// The hub that is called.
    target: T,
    /// The state, with the guard behind it.
    state: Vec<u8>,
    /// The same as it was before the call.
    before: Vec<u8>,
    /// The reply, with room for a guard behind it.
    reply: Vec<u8>,
    /// What the reply buffer was filled with before the call.
    fill: u8,
}

/// The number that the load or move of an image gives, without the offset that stands in it where the image is refused, and that offset.
fn without_offset(number: u64) -> (u64, usize) {
    match answer::is_bad_image((number & 0xFF) as u8) {
        true => (number & 0xFFFF_FFFF, (number >> 32) as usize),
        false => (number, 0),
    }
}

/// Answer and count out of the number that a call gives.
fn parts(number: u64) -> Result<(u8, usize), Difference> {
    if number >> 32 != 0 {
        return Err(format!("the number {number:#x} has bits above 31"));
    }
    Ok(((number & 0xFF) as u8, (number >> 8) as usize))
}

/// An error unless it holds.
fn need(holds: bool, message: impl Fn() -> String) -> Result<(), Difference> {
    if holds {
        Ok(())
    } else {
        Err(message())
    }
}

impl<T: Target> Lent<T> {
    /// A state buffer that nothing was loaded into yet.
    pub fn new(target: T) -> Lent<T> {
        let state = vec![0xEE; T::STATE_LEN + GUARD];
        Lent { target, before: state.clone(), state, reply: vec![0; REPLY + GUARD], fill: 0 }
    }

    /// The state's octets.
    pub fn state(&self) -> &[u8] {
        &self.state[..T::STATE_LEN]
    }

    /// Fills the state buffer with one octet.
    pub fn fill_state(&mut self, octet: u8) {
        self.state[..T::STATE_LEN].fill(octet);
    }

    /// Fills the state buffer with other octets, as many as a state has.
    pub fn put_state(&mut self, octets: &[u8]) {
        self.state[..T::STATE_LEN].copy_from_slice(octets);
    }

    /// Makes a call on the buffer. It is an error if octets past the count or
    /// behind a buffer changed, or if a refused call changed the state.
    pub fn call(&mut self, call: &Call) -> Result<Reply, Difference> {
        self.call_with_length(call, T::STATE_LEN)
    }

    /// The same with a state buffer of another length.
    pub fn call_with_length(&mut self, call: &Call, length: usize) -> Result<Reply, Difference> {
        let room = call.room();
        self.before_call(room);
        let number = self.target.call(&mut self.state[..length], call, &mut self.reply[..room]);
        match call {
            Call::Stream { octets, .. } => self.after_lump(number, room, octets.len(), length),
            _ => {
                let reply = self.after_call(number, room, length)?;
                self.check_waiting(length)?;
                Ok(reply)
            }
        }
    }

    /// What a lump gave; an error if more octets were taken than it has, or if octets changed that it may not touch: where no command acts
    /// these are all but those that wait.
    fn after_lump(&self, number: u64, room: usize, lump: usize, length: usize) -> Result<Reply, Difference> {
        let taken = (number >> 32) as usize;
        need(taken <= lump, || format!("{taken} octets taken of {lump}"))?;
        let reply = self.reply_of(number & 0xFFFF_FFFF, room)?;
        let waits = matches!(reply.answer, answer::REFUSED | answer::INCOMPLETE) && length == T::STATE_LEN;
        let same = |from, to| self.state[from..to] == self.before[from..to];
        match waits {
            true => need(same(0, WAITING.start) && same(length, self.state.len()), || {
                format!("answer {} changed more than what waits", reply.answer)
            })?,
            false => self.check_state(reply.answer, length)?,
        }
        Ok(Reply { taken, ..reply })
    }

    /// No call but a lump touches what waits.
    fn check_waiting(&self, length: usize) -> Result<(), Difference> {
        let same = length != T::STATE_LEN || self.state[WAITING] == self.before[WAITING];
        need(same, || "a call that is no lump changed what waits".into())
    }

    /// Asks for a name, with a state buffer of a length.
    pub fn name(&mut self, index: u64, which: u64, room: usize, length: usize) -> Result<Reply, Difference> {
        self.before_call(room);
        let number = self.target.name(&self.state[..length], index, which, &mut self.reply[..room]);
        self.after_question(number, room, length)
    }

    /// Asks what is on air, with a state buffer of a length.
    pub fn on_air(&mut self, index: u64, room: usize, length: usize) -> Result<Reply, Difference> {
        self.before_call(room);
        let number = self.target.on_air(&self.state[..length], index, &mut self.reply[..room]);
        self.after_question(number, room, length)
    }

    /// Asks why a packet would be refused, with a state buffer of a length; gives the second number too.
    pub fn why(&mut self, packet: &[u8], room: usize, length: usize) -> Result<(Reply, u64), Difference> {
        self.before_call(room);
        let number = self.target.why(&self.state[..length], packet, &mut self.reply[..room]);
        let (low, extra) = (number & 0xFFFF_FFFF, number >> 32);
        Ok((self.after_question(low, room, length)?, extra))
    }

    /// Looks up a key, with a state buffer of a length; gives the whole number. Nothing is written.
    pub fn look_up(&mut self, index: u64, table: u64, key: &[u8], length: usize) -> Result<u64, Difference> {
        self.before.copy_from_slice(&self.state);
        let number = self.target.look_up(&self.state[..length], index, table, key);
        need(self.state == self.before, || "a look-up changed the state".into())?;
        Ok(number)
    }

    /// What a question gave; an error if the state changed.
    fn after_question(&self, number: u64, room: usize, length: usize) -> Result<Reply, Difference> {
        need(self.state == self.before, || "a question changed the state".into())?;
        self.after_call(number, room, length)
    }

    /// Fills the reply buffer, and keeps what the state is.
    fn before_call(&mut self, room: usize) {
        self.fill = self.fill.wrapping_mul(5).wrapping_add(0x3B);
        self.reply[..room + GUARD].fill(self.fill);
        self.before.copy_from_slice(&self.state);
    }

    /// What a call gave; an error if octets changed that it may not touch.
    fn after_call(&self, number: u64, room: usize, length: usize) -> Result<Reply, Difference> {
        let reply = self.reply_of(number, room)?;
        self.check_state(reply.answer, length)?;
        Ok(reply)
    }

    /// Answer and octets of a number without a second one; an error if octets past the count changed.
    fn reply_of(&self, number: u64, room: usize) -> Result<Reply, Difference> {
        let (answer, count) = parts(number)?;
        need(count <= room, || format!("count {count} in a room of {room}"))?;
        let untouched = self.reply[count..room + GUARD].iter().all(|octet| *octet == self.fill);
        need(untouched, || format!("octets past the count of {count} changed"))?;
        Ok(Reply::new(answer, self.reply[..count].to_vec()))
    }

    /// A load into the buffer, whatever it holds.
    pub fn load(&mut self, image: &[u8]) -> Result<Reply, Difference> {
        self.load_with_length(image, T::STATE_LEN)
    }

    /// The same with a state buffer of another length.
    pub fn load_with_length(&mut self, image: &[u8], length: usize) -> Result<Reply, Difference> {
        self.before.copy_from_slice(&self.state);
        let (number, offset) = without_offset(self.target.load(&mut self.state[..length], image));
        let (answer, count) = parts(number)?;
        need(count == 0, || format!("load counts {count} octets"))?;
        self.check_state(answer, length)?;
        Ok(Reply { offset, ..Reply::bare(answer) })
    }

    /// Moves an image to the other version, with this room for it.
    pub fn moved(&mut self, way: Move, image: &[u8], room: usize) -> Result<Reply, Difference> {
        self.before_call(room);
        let (number, offset) = without_offset(self.target.moved(way, image, &mut self.reply[..room]));
        Ok(Reply { offset, ..self.after_question(number, room, T::STATE_LEN)? })
    }

    /// Octets behind the state stay, and after a refusal all of them.
    fn check_state(&self, given: u8, length: usize) -> Result<(), Difference> {
        let changeable = if given <= answer::STARTED { length } else { 0 };
        let same = self.state[changeable..] == self.before[changeable..];
        need(same, || format!("answer {given} changed octets of the state that it may not"))
    }
}
