//! Where a key stands in a table, and how many slots are walked to tell.

mod common;

use common::*;
use reference::look_up::{key_length, slot_keys, TABLES};
use reference::reason::ArgumentFault;
use reference::{Hub, LookUp};

/// The tables by their numbers.
const UUIDS: u64 = 0;
const LINK_KEYS: u64 = 1;
const LONG_TERM_KEYS: u64 = 2;
const IDENTITY_KEYS: u64 = 3;
const BLOCKED: u64 = 4;
const DEVICES: u64 = 5;

/// The key of entry k in a table.
fn key(table: u64, number: u8) -> Vec<u8> {
    match table {
        UUIDS => vec![number; 16],
        LINK_KEYS => peer(number, 0),
        _ => peer(number, 2),
    }
}

/// Fills a table of index 0 with the entries of these numbers, in this order.
fn fill(hub: &mut Hub, table: u64, numbers: &[u8]) {
    let answers: Vec<u8> = match table {
        LINK_KEYS => {
            let keys: Vec<Vec<u8>> = numbers.iter().map(|number| link_key(*number)).collect();
            vec![send(hub, 0x0012, 0, &link_list(&keys)).answer]
        }
        LONG_TERM_KEYS => {
            let keys: Vec<Vec<u8>> = numbers.iter().map(|number| long_term_key(*number, 2, 1)).collect();
            vec![send(hub, 0x0013, 0, &le_list(&keys)).answer]
        }
        IDENTITY_KEYS => {
            let keys: Vec<Vec<u8>> = numbers.iter().map(|number| identity_key(*number, 2)).collect();
            vec![send(hub, 0x0030, 0, &le_list(&keys)).answer]
        }
        _ => numbers.iter().map(|number| add(hub, table, *number)).collect(),
    };
    assert!(answers.iter().all(|answer| *answer == 0), "{answers:?}");
}

/// Adds one entry to a table that is filled one by one; gives the answer.
fn add(hub: &mut Hub, table: u64, number: u8) -> u8 {
    match table {
        UUIDS => send(hub, 0x0010, 0, &service(number, 1)).answer,
        BLOCKED => send(hub, 0x0026, 0, &key(table, number)).answer,
        _ => send(hub, 0x0033, 0, &[key(table, number), vec![2]].concat()).answer,
    }
}

/// Takes the entries of these numbers out of a table of index 0.
fn free(hub: &mut Hub, table: u64, numbers: &[u8]) {
    for number in numbers {
        let key = key(table, *number);
        let reply = match table {
            UUIDS => send(hub, 0x0011, 0, &key),
            BLOCKED => send(hub, 0x0027, 0, &key),
            DEVICES => send(hub, 0x0034, 0, &key),
            _ => send(hub, 0x001B, 0, &[key, vec![0]].concat()),
        };
        assert_eq!(reply.answer, 0, "table {table}, entry {number}");
    }
}

/// Looks for entry k in a table of index 0: the slot and the slots walked.
fn look(hub: &Hub, table: u64, number: u8) -> (Option<usize>, usize) {
    let LookUp { slot, walked } = hub.look_up(0, table, &key(table, number)).expect("the question is right");
    (slot, walked)
}

/// A powered hub, and all tables one after the other.
fn each_table(check: impl Fn(Hub, u64)) {
    for table in 0..6 {
        check(powered_hub(DUAL), table);
    }
}

#[test]
fn an_empty_table_is_not_walked() {
    each_table(|hub, table| assert_eq!(look(&hub, table, 1), (None, 0)));
}

#[test]
fn a_table_is_walked_up_to_the_slot_found() {
    each_table(|mut hub, table| {
        fill(&mut hub, table, &[1, 2, 3]);
        assert_eq!(look(&hub, table, 1), (Some(0), 1));
        assert_eq!(look(&hub, table, 2), (Some(1), 2));
        assert_eq!(look(&hub, table, 3), (Some(2), 3));
        assert_eq!(look(&hub, table, 4), (None, 3));
    });
}

#[test]
fn a_gap_in_front_is_walked_over() {
    each_table(|mut hub, table| {
        fill(&mut hub, table, &[1, 2, 3, 4]);
        free(&mut hub, table, &[1, 2]);
        assert_eq!(look(&hub, table, 1), (None, 4));
        assert_eq!(look(&hub, table, 3), (Some(2), 3));
        assert_eq!(look(&hub, table, 4), (Some(3), 4));
    });
}

#[test]
fn a_gap_in_the_middle_is_walked_over() {
    each_table(|mut hub, table| {
        fill(&mut hub, table, &[1, 2, 3, 4, 5]);
        free(&mut hub, table, &[2, 4]);
        assert_eq!(look(&hub, table, 1), (Some(0), 1));
        assert_eq!(look(&hub, table, 3), (Some(2), 3));
        assert_eq!(look(&hub, table, 5), (Some(4), 5));
        assert_eq!(look(&hub, table, 2), (None, 5));
    });
}

#[test]
fn slots_freed_at_the_end_are_not_walked() {
    each_table(|mut hub, table| {
        fill(&mut hub, table, &[1, 2, 3, 4, 5]);
        free(&mut hub, table, &[4, 5]);
        assert_eq!(look(&hub, table, 3), (Some(2), 3));
        assert_eq!(look(&hub, table, 5), (None, 3));
        free(&mut hub, table, &[1, 3]);
        assert_eq!(look(&hub, table, 2), (Some(1), 2));
        assert_eq!(look(&hub, table, 3), (None, 2));
        free(&mut hub, table, &[2]);
        assert_eq!(look(&hub, table, 2), (None, 0));
    });
}

#[test]
fn a_full_table_is_walked_to_its_last_slot() {
    let all: Vec<u8> = (1..=32).collect();
    each_table(|mut hub, table| {
        fill(&mut hub, table, &all);
        for number in &all {
            let slot = usize::from(number - 1);
            assert_eq!(look(&hub, table, *number), (Some(slot), slot + 1));
        }
        assert_eq!(look(&hub, table, 33), (None, 32));
        free(&mut hub, table, &all[..31]);
        assert_eq!(look(&hub, table, 32), (Some(31), 32));
        assert_eq!(look(&hub, table, 31), (None, 32));
        free(&mut hub, table, &[32]);
        assert_eq!(look(&hub, table, 32), (None, 0));
    });
}

#[test]
fn a_new_entry_closes_the_first_gap() {
    for table in [UUIDS, BLOCKED, DEVICES] {
        let mut hub = hub_with(DUAL);
        fill(&mut hub, table, &[1, 2, 3, 4]);
        free(&mut hub, table, &[2, 3]);
        assert_eq!(add(&mut hub, table, 9), 0);
        assert_eq!(look(&hub, table, 9), (Some(1), 2));
        assert_eq!(look(&hub, table, 4), (Some(3), 4));
        assert_eq!(look(&hub, table, 2), (None, 4));
    }
}

#[test]
fn a_loaded_image_is_closed_up() {
    let mut hub = hub_with(DUAL);
    fill(&mut hub, DEVICES, &[1, 2, 3, 4]);
    free(&mut hub, DEVICES, &[1, 3]);
    assert_eq!(look(&hub, DEVICES, 4), (Some(3), 4));
    let mut loaded = Hub::new();
    assert_eq!(loaded.load(&image(&hub)), bare(0));
    assert_eq!(look(&loaded, DEVICES, 2), (Some(0), 1));
    assert_eq!(look(&loaded, DEVICES, 4), (Some(1), 2));
    assert_eq!(look(&loaded, DEVICES, 1), (None, 2));
}

#[test]
fn of_two_long_term_keys_the_first_in_slot_order_is_found() {
    for masters in [[0, 1], [1, 0]] {
        let mut hub = powered_hub(DUAL);
        let [one, two] = masters.map(|master| long_term_key(7, 2, master));
        let list = le_list(&[long_term_key(1, 1, 0), one, long_term_key(2, 2, 0), two]);
        assert_eq!(send(&mut hub, 0x0013, 0, &list).answer, 0);
        assert_eq!(look(&hub, LONG_TERM_KEYS, 7), (Some(1), 2));
        assert_eq!(look(&hub, LONG_TERM_KEYS, 2), (Some(2), 3));
        free(&mut hub, LONG_TERM_KEYS, &[7]);
        assert_eq!(look(&hub, LONG_TERM_KEYS, 7), (None, 3));
    }
}

#[test]
fn address_and_type_count_and_nothing_behind_them() {
    let mut hub = hub_with(DUAL);
    fill(&mut hub, DEVICES, &[1]);
    assert_eq!(send(&mut hub, 0x0033, 0, &[peer(1, 1), vec![0]].concat()).answer, 0);
    let at = |kind| hub.look_up(0, DEVICES, &peer(1, kind)).map(|found| (found.slot, found.walked));
    assert_eq!(at(2), Ok((Some(0), 1)));
    assert_eq!(at(1), Ok((Some(1), 2)));
    assert_eq!(at(0), Ok((None, 2)));
    assert_eq!(at(9), Ok((None, 2)));
}

#[test]
fn every_octet_of_a_uuid_counts_and_the_hint_does_not() {
    let mut hub = hub_with(DUAL);
    fill(&mut hub, UUIDS, &[3, 4]);
    for octet in 0..16 {
        let mut uuid = key(UUIDS, 4);
        uuid[octet] ^= 0x10;
        assert_eq!(hub.look_up(0, UUIDS, &uuid), Ok(LookUp { slot: None, walked: 2 }));
    }
    assert_eq!(send(&mut hub, 0x0010, 0, &service(4, 0xFF)).answer, 0);
    assert_eq!(look(&hub, UUIDS, 4), (Some(1), 2));
}

#[test]
fn a_zero_key_is_in_no_free_slot() {
    each_table(|mut hub, table| {
        fill(&mut hub, table, &[1, 2, 3]);
        free(&mut hub, table, &[2]);
        let zeros = vec![0; key(table, 0).len()];
        assert_eq!(hub.look_up(0, table, &zeros), Ok(LookUp { slot: None, walked: 3 }));
    });
}

#[test]
fn each_index_and_each_table_has_its_own_slots() {
    let mut hub = hub_with(DUAL);
    plug(&mut hub, 2, DUAL);
    fill(&mut hub, BLOCKED, &[1, 2]);
    assert_eq!(send(&mut hub, 0x0026, 2, &peer(2, 2)).answer, 0);
    let at = |index, table| hub.look_up(index, table, &peer(2, 2)).map(|found| (found.slot, found.walked));
    assert_eq!(at(0, BLOCKED), Ok((Some(1), 2)));
    assert_eq!(at(2, BLOCKED), Ok((Some(0), 1)));
    assert_eq!(at(0, DEVICES), Ok((None, 0)));
    for index in [1, 3, 4, 256, 1 << 32, (1 << 32) + 2, u64::MAX] {
        assert_eq!(at(index, BLOCKED), Err(ArgumentFault::Absent));
    }
}

#[test]
fn a_wrong_question_is_told_so() {
    let mut hub = hub_with(DUAL);
    for table in 0..6 {
        let right = key(table, 1).len();
        for length in [0, 6, 7, 8, 15, 16, 17, 256 + 7, 65_536 + 7] {
            let found = hub.look_up(0, table, &vec![1; length]);
            let wanted = if length == right {
                Ok(LookUp { slot: None, walked: 0 })
            } else {
                Err(ArgumentFault::KeyLength)
            };
            assert_eq!(found, wanted, "table {table}, {length} octets");
        }
        assert_eq!(key_length(table), Some(right));
    }
    for table in [6, 7, 255, 256, 1 << 32, u64::MAX] {
        assert_eq!(hub.look_up(0, table, &peer(1, 1)), Err(ArgumentFault::Table));
        assert_eq!(hub.look_up(0, table, &[1; 16]), Err(ArgumentFault::Table));
        assert_eq!(key_length(table), None);
    }
    assert_eq!(hub.look_up(4, 6, &[]), Err(ArgumentFault::Absent));
    assert_eq!(hub.look_up(0, 6, &[]), Err(ArgumentFault::Table));
    assert_eq!(hub.unplug(0, 1024).answer, 0);
    assert_eq!(hub.look_up(0, UUIDS, &[1; 16]), Err(ArgumentFault::Absent));
}

#[test]
fn the_number_has_the_slot_and_256_times_the_slots_walked() {
    assert_eq!(LookUp { slot: Some(0), walked: 1 }.number(), 256);
    assert_eq!(LookUp { slot: Some(31), walked: 32 }.number(), 31 + 8192);
    assert_eq!(LookUp { slot: None, walked: 0 }.number(), 32);
    assert_eq!(LookUp { slot: None, walked: 32 }.number(), 32 + 8192);
}

#[test]
fn slots_show_their_keys() {
    let mut hub = hub_with(DUAL);
    fill(&mut hub, UUIDS, &[1, 2, 3]);
    free(&mut hub, UUIDS, &[1]);
    let controller = hub.state().controller(0).expect("it is plugged");
    let keys = slot_keys(controller, UUIDS).expect("there is such a table");
    assert_eq!(keys.len(), 32);
    assert_eq!(keys[..3], [None, Some(vec![2; 16]), Some(vec![3; 16])]);
    assert!(keys[3..].iter().all(|key| key.is_none()));
    assert_eq!(slot_keys(controller, TABLES.len() as u64), None);
}
