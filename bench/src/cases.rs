//! The calls that are timed: each case leaves the hub as it found it, so that it can go on and on.

use crate::library::Library;
use crate::states::{self, Kind};
use compare::Target;
use reference::{Call, Hub};

/// A name, and calls in order.
pub struct Case {
    pub name: &'static str,
    pub calls: Vec<Call>,
}

impl Case {
    /// Library and plain hub give the same for every call.
    pub fn agrees(&self, state: &[u8], hub: &Hub) {
        let (mut state, mut hub) = (state.to_vec(), hub.clone());
        for call in &self.calls {
            let mut reply = vec![0; call.room()];
            let number = Library.call(&mut state, call, &mut reply);
            let wanted = hub.call(call);
            assert_eq!((number & 0xFF) as u8, wanted.answer, "{}", self.name);
            assert_eq!(&reply[..(number >> 8) as usize], &wanted.octets[..], "{}", self.name);
        }
    }
}

/// A command to index 0 with its parameters.
pub fn command(code: u16, parameters: &[u8]) -> Call {
    let mut packet = Vec::new();
    for number in [code, 0, parameters.len() as u16] {
        packet.extend(number.to_le_bytes());
    }
    packet.extend(parameters);
    Call::Command { packet, room: 1024 }
}

/// Load Long Term Keys with 32 records of a kind.
fn long_term_keys(kind: Kind) -> Call {
    let mut parameters = vec![32, 0];
    parameters.extend(states::list(2, kind, 32));
    command(0x0013, &parameters)
}

/// The report that the radio has done what it was told.
fn report() -> Call {
    Call::Report { index: 0, status: 0, room: 1024 }
}

/// A save without room: the state is looked at, and nothing else is done.
pub fn nothing() -> Case {
    Case { name: "nothing", calls: vec![Call::Save { room: 0 }] }
}

/// Every case on a state with records of a kind.
pub fn all(kind: Kind, state: &[u8]) -> Vec<Case> {
    let stranger = [0xEE, 0x22, 0x33, 0x44, 0x55, 0x66, 1];
    let device = [0xEE, 0x22, 0x33, 0x44, 0x55, 0x66, 1, 1];
    let first = &state[4 + states::WORDS[4] + 4..][..7];
    let known = if first[..6] == [0; 6] { &stranger } else { first };
    let case = |name, calls| Case { name, calls };
    vec![
        case("set_bondable", vec![command(0x0009, &[1]), command(0x0009, &[0])]),
        case(
            "set_powered_and_report",
            vec![command(0x0005, &[1]), report(), command(0x0005, &[0]), report()],
        ),
        case("read_information", vec![command(0x0004, &[])]),
        case("load_long_term_keys_32", vec![long_term_keys(kind)]),
        case("add_and_remove_device", vec![command(0x0033, &device), command(0x0034, &stranger)]),
        case("unblock_and_block", vec![command(0x0027, known), command(0x0026, known)]),
        case("clock", vec![Call::Clock { reading: 0, room: 1024 }]),
        case("save", vec![Call::Save { room: 16_014 }]),
    ]
}
