//! What random look-ups tell, held to plain statements about the table and to what commands say of the same key.

use calls::lists::Lists;
use calls::look_ups::{LookUps, Question};
use reference::codes::command as code;
use reference::look_up::slot_keys;
use reference::packet::{frame, Packet};
use reference::reason::Reason::{self, *};
use reference::{Call, Hub, LookUp};

/// Calls `look` with the hub, a look-up and what it tells, for look-ups that are right, made in many states.
fn over_look_ups(seed: u64, count: usize, mut look: impl FnMut(&Hub, &Question, LookUp)) {
    let (mut lists, mut look_ups) = (Lists::new(seed), LookUps::new(seed));
    let mut asked = 0;
    while asked < count {
        let (_, mut hub) = lists.start();
        look_ups.start();
        while let Some(call) = lists.next(&hub) {
            let question = look_ups.next(&hub);
            if let Ok(found) = hub.look_up(question.index, question.table, &question.key) {
                look(&hub, &question, found);
            }
            asked += 1;
            hub.call(&call);
        }
    }
}

/// The keys in the slots of the table that is looked up in.
fn slots(hub: &Hub, question: &Question) -> Vec<Option<Vec<u8>>> {
    let controller = hub.state().controller(question.index).expect("the index is present");
    slot_keys(controller, question.table).expect("there is such a table")
}

#[test]
fn the_walk_ends_at_the_slot_found_or_at_the_last_one_in_use() {
    let (mut found_ones, mut absent, mut gaps) = (0, 0, 0);
    over_look_ups(31, 60_000, |hub, question, LookUp { slot, walked }| {
        let slots = slots(hub, question);
        let key = Some(&question.key);
        match slot {
            Some(slot) => {
                assert_eq!(walked, slot + 1);
                assert_eq!(slots[slot].as_ref(), key);
                assert!(slots[..slot].iter().all(|held| held.as_ref() != key));
                found_ones += 1;
            }
            None => {
                assert!(slots.iter().all(|held| held.as_ref() != key));
                assert!(slots[walked..].iter().all(|held| held.is_none()));
                assert!(walked == 0 || slots[walked - 1].is_some());
                absent += 1;
            }
        }
        gaps += usize::from(slots[..walked].iter().any(|held| held.is_none()));
    });
    assert!(found_ones > 5_000 && absent > 5_000 && gaps > 500, "{found_ones}, {absent}, {gaps}");
}

/// The command that takes a key out of a table, and the reason that tells that it is not there.
fn removal(table: u64) -> Option<(u16, Reason)> {
    match table {
        0 => Some((code::REMOVE_UUID, AbsentUuid)),
        4 => Some((code::UNBLOCK, NotBlocked)),
        5 => Some((code::REMOVE_DEVICE, AbsentDevice)),
        _ => None,
    }
}

#[test]
fn a_command_that_removes_a_key_finds_it_exactly_where_the_look_up_does() {
    let mut held = [0; 2];
    over_look_ups(32, 60_000, |hub, question, found| {
        let Some((code, absent)) = removal(question.table) else { return };
        let packet = frame(code, question.index as u16, &question.key);
        let zeros = question.key[..question.key.len().min(6)].iter().all(|octet| *octet == 0);
        match hub.reasons(&packet).first() {
            None if !zeros => assert!(found.slot.is_some(), "{question:02X?}"),
            Some(reason) if *reason == absent => assert_eq!(found.slot, None, "{question:02X?}"),
            _ => return,
        }
        held[usize::from(found.slot.is_some())] += 1;
    });
    assert!(held.iter().all(|count| *count > 1_000), "{held:?}");
}

#[test]
fn unpair_finds_a_key_exactly_where_one_of_three_look_ups_does() {
    let mut held = [0; 2];
    over_look_ups(33, 60_000, |hub, question, _| {
        let packet = frame(code::UNPAIR, question.index as u16, &[&question.key[..], &[0]].concat());
        if question.key.len() != 7 || !hub.reasons(&packet).iter().all(|reason| *reason == NotPaired) {
            return;
        }
        let finds =
            |table| hub.look_up(question.index, table, &question.key).is_ok_and(|found| found.slot.is_some());
        let paired = (1..=3).any(finds);
        assert_eq!(paired, hub.reasons(&packet).is_empty(), "{question:02X?}");
        held[usize::from(paired)] += 1;
    });
    assert!(held.iter().all(|count| *count > 500), "{held:?}");
}

/// The table that a command adds an entry to, and the length of its key.
fn addition(code: u16) -> Option<(u64, usize)> {
    match code {
        code::ADD_UUID => Some((0, 16)),
        code::BLOCK => Some((4, 7)),
        code::ADD_DEVICE => Some((5, 7)),
        _ => None,
    }
}

#[test]
fn a_new_entry_is_found_in_the_lowest_free_slot_and_an_old_one_where_it_was() {
    let mut lists = Lists::new(34);
    let (mut new, mut old, mut gaps, mut calls) = (0, 0, 0, 0);
    while calls < 60_000 {
        let (_, mut hub) = lists.start();
        while let Some(call) = lists.next(&hub) {
            calls += 1;
            let before = hub.clone();
            let done = hub.call(&call).answer == 0;
            let Call::Command { packet, .. } = &call else { continue };
            let Some(packet) = Packet::read(packet).filter(|_| done) else { continue };
            let Some((table, length)) = addition(packet.code) else { continue };
            let (index, key) = (u64::from(packet.index), &packet.parameters[..length]);
            let [was, is] = [&before, &hub].map(|hub| hub.look_up(index, table, key).expect("it is a key"));
            let controller = before.state().controller(index).expect("the index is present");
            let slots = slot_keys(controller, table).expect("there is such a table");
            let free = slots.iter().position(|held| held.is_none());
            assert_eq!(is.slot, was.slot.or(free), "{packet:02X?}");
            new += usize::from(was.slot.is_none());
            old += usize::from(was.slot.is_some());
            gaps += usize::from(was.slot.is_none() && was.walked > is.walked);
        }
    }
    assert!(new > 1_000 && old > 100 && gaps > 50, "{new} new, {old} old, {gaps} into a gap");
}
