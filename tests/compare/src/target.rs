//! A hub as a C host sees it: a lent state buffer, numbers and byte slices.

use reference::Call;

/// Which way an image is moved.
#[derive(Clone, Copy, PartialEq, Eq, Debug)]
pub enum Move {
    /// From version 1 to version 2.
    Upgrade,
    /// From version 2 back to version 1.
    Downgrade,
}

/// The calls of a hub whose state is a lent buffer. Each gives one number:
/// answer + 256 x count + 2^32 x a second number, which lumps, `why`, `look_up` and the refusal of an image alone give.
pub trait Target {
    /// The length of a state buffer.
    const STATE_LEN: usize;

    /// Any call but load. The reply buffer is as long as the call's room.
    fn call(&mut self, state: &mut [u8], call: &Call, reply: &mut [u8]) -> u64;

    /// The used part of a name; the state is only read.
    fn name(&mut self, state: &[u8], index: u64, which: u64, reply: &mut [u8]) -> u64;

    /// What the instance on air sends; the state is only read.
    fn on_air(&mut self, state: &[u8], index: u64, reply: &mut [u8]) -> u64;

    /// Why a packet would be refused, in words; the state is only read.
    fn why(&mut self, state: &[u8], packet: &[u8], text: &mut [u8]) -> u64;

    /// Where a key stands in a table, and how many slots are walked to tell; the state is only read, and nothing is written.
    fn look_up(&self, state: &[u8], index: u64, table: u64, key: &[u8]) -> u64;

    /// A load.
    fn load(&mut self, state: &mut [u8], image: &[u8]) -> u64;

    /// An image is moved to the other version; no state is lent.
    fn moved(&self, way: Move, image: &[u8], out: &mut [u8]) -> u64;
}
