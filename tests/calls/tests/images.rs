//! Random images: valid ones come back as they were, damaged ones are refused.

use calls::damage::{all, damage, Damage};
use calls::draft::{Draft, NamesDraft};
use calls::images::image;
use calls::lists::{Lists, EMPTY};
use calls::Random;
use reference::codes::answer::{DONE, IMAGE_VERSION, NOT_IN_IMAGE};
use reference::codes::{IMAGE_ROOM, NAME};
use reference::image::load;
use reference::{downgrade, upgrade, Hub, Reply};
use std::collections::BTreeMap;

#[test]
fn images_from_scratch_come_back() {
    let mut random = Random::new(21);
    let mut longest = 0;
    for _ in 0..2_000 {
        let draft = Draft::random(&mut random);
        let octets = draft.octets();
        let mut hub = Hub::new();
        assert_eq!(hub.load(&octets).answer, 0);
        let saved = hub.save(IMAGE_ROOM).octets;
        assert_eq!(
            saved,
            if draft.version == 1 { upgrade(&octets, IMAGE_ROOM).octets } else { octets.clone() }
        );
        assert_eq!(Draft::read(&octets), draft);
        longest = longest.max(octets.len());
    }
    assert!(longest > 8_000);
}

#[test]
fn saved_images_come_back_closed_up() {
    let mut lists = Lists::new(22);
    let mut off = 0;
    for _ in 0..200 {
        let (_, mut hub) = lists.start();
        while let Some(call) = lists.next(&hub) {
            hub.call(&call);
            if lists.is_closing() {
                break;
            }
        }
        let Reply { answer, octets: saved, .. } = hub.save(IMAGE_ROOM);
        assert_eq!(answer, DONE);
        let beyond = hub.state().has_br_edr_off();
        off += usize::from(beyond);
        assert_eq!(downgrade(&saved, IMAGE_ROOM).answer, if beyond { NOT_IN_IMAGE } else { DONE });
        let mut again = Hub::new();
        assert_eq!(again.load(&saved).answer, 0);
        assert_eq!(again.save(IMAGE_ROOM).octets, saved);
        assert_eq!(again.state().clock, 0);
    }
    assert!((5..100).contains(&off), "{off} of 200 have BR/EDR off");
}

/// The octets of both names of each controller of an image of version 1 that stand behind their ends made zero.
fn cleaned(draft: &Draft) -> Draft {
    let mut cleaned = draft.clone();
    for controller in &mut cleaned.controllers {
        let NamesDraft::Whole(octets) = &mut controller.names else { panic!("an image of version 1") };
        let (name, short_name) = octets.split_at_mut(NAME);
        for name in [name, short_name] {
            let end = name.iter().position(|octet| *octet == 0).expect("each name has an end");
            name[end..].fill(0);
        }
    }
    cleaned
}

#[test]
fn moved_images_come_back() {
    let mut random = Random::new(25);
    let mut counts = [0; 4];
    for _ in 0..4_000 {
        let draft = Draft::random(&mut random);
        let octets = draft.octets();
        let (new, old) = (upgrade(&octets, IMAGE_ROOM), downgrade(&octets, IMAGE_ROOM));
        let kind = match (draft.version, old.answer) {
            (1, IMAGE_VERSION) => {
                assert_eq!(new.answer, DONE);
                let clean = cleaned(&draft);
                assert_eq!(downgrade(&new.octets, IMAGE_ROOM).octets, clean.octets());
                usize::from(clean != draft)
            }
            (2, answer) => {
                assert_eq!(new.answer, IMAGE_VERSION);
                assert!(answer == NOT_IN_IMAGE || upgrade(&old.octets, IMAGE_ROOM).octets == octets);
                2 + usize::from(answer == NOT_IN_IMAGE)
            }
            (version, answer) => panic!("version {version} moved back: {answer}"),
        };
        counts[kind] += 1;
    }
    assert!(counts.iter().all(|count| *count > 300), "clean, dirty, back and not back: {counts:?}");
}

#[test]
fn every_damage_is_refused() {
    let mut random = Random::new(23);
    let mut counts: BTreeMap<Damage, usize> = BTreeMap::new();
    for _ in 0..20_000 {
        let mut draft = Draft::random(&mut random);
        let kind = random.pick(&all());
        if damage(&mut random, &mut draft, kind) {
            let octets = draft.octets();
            // A wrong count or length may read octets where others were, and fit by chance.
            let read = Draft::of(&octets).filter(|other| *other != draft && other.octets() == octets);
            let by_chance = matches!(kind, Damage::TableCount(_) | Damage::NameCount(_)) && read.is_some();
            assert!(load(&octets).is_err() || by_chance, "{kind:?} is not refused: {octets:?}");
            *counts.entry(kind).or_default() += 1;
        }
    }
    for kind in all() {
        assert!(counts.get(&kind).is_some_and(|count| *count > 20), "{kind:?} is seldom done");
    }
}

#[test]
fn images_to_load_reach_every_fault() {
    let mut random = Random::new(24);
    let (mut accepted, mut saved) = (0, EMPTY.to_vec());
    let mut faults: BTreeMap<String, usize> = BTreeMap::new();
    for _ in 0..20_000 {
        let octets = image(&mut random, &saved);
        match load(&octets) {
            Ok(_) => {
                accepted += 1;
                saved = octets;
            }
            Err(found) => *faults.entry(format!("{:?}", found.fault)).or_default() += 1,
        }
    }
    assert!(accepted > 500);
    // 21 outside the tables, 6 of counts, 3 of support, 16 of records by themselves, 6 of repeated ones.
    assert_eq!(faults.len(), 52, "{faults:#?}");
}
