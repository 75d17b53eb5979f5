//! Random lists on the hub, reduced, give the same on the at-once hub.

use calls::lists::Lists;
use reference::codes::IMAGE_ROOM;
use reference::{reduce, AtOnceHub, Call, Hub, Traced};
use std::collections::BTreeMap;

/// Runs one list on the hub, the calls at its end included or not.
fn trace(lists: &mut Lists, whole: bool) -> (Vec<u8>, Hub, Vec<Traced>) {
    let (image, mut hub) = lists.start();
    let mut list = Vec::new();
    while let Some(call) = lists.next(&hub) {
        let reply = hub.call(&call);
        list.push(Traced::new(call, reply));
        if !whole && lists.is_closing() {
            break;
        }
    }
    (image, hub, list)
}

/// Feeds the reduced list to the at-once hub and compares all there is.
fn compare(image: &[u8], hub: &Hub, list: &[Traced]) {
    let mut at_once = AtOnceHub::new();
    assert_eq!(at_once.load(image).answer, 0);
    for expected in reduce(list) {
        let reply = at_once.call(&expected.call);
        assert_ne!(reply.answer, 1);
        assert_eq!((reply.answer, &reply.octets), (expected.answer, &expected.octets), "{:?}", expected.call);
    }
    let saved = at_once.call(&Call::Save { room: IMAGE_ROOM });
    assert_eq!(saved, hub.save(IMAGE_ROOM));
    assert_eq!(at_once.state(), hub.state());
}

#[test]
fn reduced_lists_agree() {
    let (mut calls, mut open, mut moved, mut lumps, mut waiting) = (0, 0, 0, 0, 0);
    let mut lists = Lists::new(7);
    for round in 0..600 {
        let (image, hub, list) = trace(&mut lists, round % 3 == 0);
        compare(&image, &hub, &list);
        calls += list.len();
        open += (0..4).filter(|index| hub.open(*index).is_some()).count();
        moved += list.iter().filter(|traced| traced.answer == 1).count();
        lumps += list.iter().filter(|traced| matches!(traced.call, Call::Stream { .. })).count();
        waiting += usize::from(hub.waiting().taken > 0);
    }
    assert!(lumps > 40_000 && waiting > 100, "{lumps} lumps, something waits at {waiting} ends");
    assert!(calls > 200_000 && open > 100 && moved > 2_000, "{calls} calls, {open} open, {moved} started");
}

#[test]
fn lists_that_end_with_commands_under_way_agree() {
    let mut lists = Lists::new(9);
    let mut codes = BTreeMap::new();
    for _ in 0..150 {
        let (image, mut hub) = lists.start_open();
        let mut list = Vec::new();
        while !lists.is_closing() {
            let call = lists.next(&hub).expect("the list goes on");
            let reply = hub.call(&call);
            list.push(Traced::new(call, reply));
        }
        while let Some(call) = lists.next(&hub) {
            let reply = hub.call(&call);
            assert_eq!(reply.answer, 1, "{call:?}");
            list.push(Traced::new(call, reply));
        }
        for command in (0..4).filter_map(|index| hub.open(index)) {
            *codes.entry(command.code()).or_insert(0) += 1;
        }
        compare(&image, &hub, &list);
    }
    assert_eq!(codes.keys().copied().collect::<Vec<u16>>(), [0x0005, 0x0006, 0x0007, 0x000D, 0x002A]);
    assert!(codes.values().all(|count| *count > 5), "{codes:?}");
}

#[test]
fn every_start_of_a_list_agrees() {
    let mut lists = Lists::new(8);
    for _ in 0..20 {
        let (image, mut hub) = lists.start();
        let mut list = Vec::new();
        for _ in 0..60 {
            let Some(call) = lists.next(&hub) else { break };
            let reply = hub.call(&call);
            list.push(Traced::new(call, reply));
            compare(&image, &hub, &list);
        }
    }
}
