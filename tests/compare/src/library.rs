//! The C library, called through its header's functions.

use compare::target::{Move, Target};
use reference::Call;

extern "C" {
    /// A command packet.
    fn hub_command(
        state: *mut u8,
        state_len: usize,
        packet: *const u8,
        packet_len: usize,
        reply: *mut u8,
        reply_len: usize,
    ) -> u64;
    /// A lump of octets off the serial line.
    fn hub_stream(
        state: *mut u8,
        state_len: usize,
        octets: *const u8,
        octets_len: usize,
        reply: *mut u8,
        reply_len: usize,
    ) -> u64;
    /// A radio report.
    fn hub_report(
        state: *mut u8,
        state_len: usize,
        index: u64,
        status: u64,
        reply: *mut u8,
        reply_len: usize,
    ) -> u64;
    /// A clock reading.
    fn hub_clock(state: *mut u8, state_len: usize, reading: u32, reply: *mut u8, reply_len: usize) -> u64;
    /// A controller comes.
    fn hub_plug(
        state: *mut u8,
        state_len: usize,
        index: u64,
        address: *const u8,
        address_len: usize,
        version: u8,
        manufacturer: u16,
        supported: u32,
        reply: *mut u8,
        reply_len: usize,
    ) -> u64;
    /// A controller goes.
    fn hub_unplug(state: *mut u8, state_len: usize, index: u64, reply: *mut u8, reply_len: usize) -> u64;
    /// The image is asked for.
    fn hub_save(state: *mut u8, state_len: usize, reply: *mut u8, reply_len: usize) -> u64;
    /// A name is asked for.
    fn hub_name(
        state: *const u8,
        state_len: usize,
        index: u64,
        which: u64,
        reply: *mut u8,
        reply_len: usize,
    ) -> u64;
    /// What is on air is asked for.
    fn hub_on_air(state: *const u8, state_len: usize, index: u64, reply: *mut u8, reply_len: usize) -> u64;
    /// Why a packet would be refused is asked for.
    fn hub_why(
        state: *const u8,
        state_len: usize,
        packet: *const u8,
        packet_len: usize,
        text: *mut u8,
        text_len: usize,
    ) -> u64;
    /// Where a key stands in a table is asked for.
    fn hub_look_up(
        state: *const u8,
        state_len: usize,
        index: u64,
        table: u64,
        key: *const u8,
        key_len: usize,
    ) -> u64;
    /// A state is made from an image.
    fn hub_load(state: *mut u8, state_len: usize, image: *const u8, image_len: usize) -> u64;
    /// An image is moved from version 1 to version 2.
    fn hub_upgrade(image: *const u8, image_len: usize, out: *mut u8, out_len: usize) -> u64;
    /// An image is moved from version 2 back to version 1.
    fn hub_downgrade(image: *const u8, image_len: usize, out: *mut u8, out_len: usize) -> u64;
}

/// The functions of libhub.a.
pub struct Library;

impl Target for Library {
    const STATE_LEN: usize = 18_656;

    fn call(&mut self, state: &mut [u8], call: &Call, reply: &mut [u8]) -> u64 {
        let (state, state_len) = (state.as_mut_ptr(), state.len());
        let (reply, reply_len) = (reply.as_mut_ptr(), reply.len());
        // The pointers come from slices of these lengths that do not overlap and
        // outlive the call; the library keeps none of them.
        unsafe {
            match call {
                Call::Command { packet, .. } => {
                    hub_command(state, state_len, packet.as_ptr(), packet.len(), reply, reply_len)
                }
                Call::Stream { octets, .. } => {
                    hub_stream(state, state_len, octets.as_ptr(), octets.len(), reply, reply_len)
                }
                Call::Report { index, status, .. } => {
                    hub_report(state, state_len, *index, *status, reply, reply_len)
                }
                Call::Clock { reading, .. } => hub_clock(state, state_len, *reading, reply, reply_len),
                Call::Plug { index, address, version, manufacturer, supported, .. } => hub_plug(
                    state,
                    state_len,
                    *index,
                    address.as_ptr(),
                    address.len(),
                    *version,
                    *manufacturer,
                    *supported,
                    reply,
                    reply_len,
                ),
                Call::Unplug { index, .. } => hub_unplug(state, state_len, *index, reply, reply_len),
                Call::Save { .. } => hub_save(state, state_len, reply, reply_len),
            }
        }
    }

    fn name(&mut self, state: &[u8], index: u64, which: u64, reply: &mut [u8]) -> u64 {
        // As above.
        unsafe { hub_name(state.as_ptr(), state.len(), index, which, reply.as_mut_ptr(), reply.len()) }
    }

    fn on_air(&mut self, state: &[u8], index: u64, reply: &mut [u8]) -> u64 {
        // As above.
        unsafe { hub_on_air(state.as_ptr(), state.len(), index, reply.as_mut_ptr(), reply.len()) }
    }

    fn why(&mut self, state: &[u8], packet: &[u8], text: &mut [u8]) -> u64 {
        let (state, state_len) = (state.as_ptr(), state.len());
        // As above.
        unsafe { hub_why(state, state_len, packet.as_ptr(), packet.len(), text.as_mut_ptr(), text.len()) }
    }

    fn look_up(&self, state: &[u8], index: u64, table: u64, key: &[u8]) -> u64 {
        // As above.
        unsafe { hub_look_up(state.as_ptr(), state.len(), index, table, key.as_ptr(), key.len()) }
    }

    fn load(&mut self, state: &mut [u8], image: &[u8]) -> u64 {
        // As above: two slices that do not overlap, for the time of the call.
        unsafe { hub_load(state.as_mut_ptr(), state.len(), image.as_ptr(), image.len()) }
    }

    fn moved(&self, way: Move, image: &[u8], out: &mut [u8]) -> u64 {
        let moved = match way {
            Move::Upgrade => hub_upgrade,
            Move::Downgrade => hub_downgrade,
        };
        // As above.
        unsafe { moved(image.as_ptr(), image.len(), out.as_mut_ptr(), out.len()) }
    }
}
