//! The examples from the bench, octet for octet, and the long replies.

mod common;

use common::*;
use reference::{downgrade, upgrade, Hub};

#[test]
fn version_is_1_revision_10() {
    let expected = vec![0x01, 0, 0xFF, 0xFF, 0x06, 0, 0x01, 0, 0, 0x01, 0x0A, 0];
    let reply = Hub::new().command(&[0x01, 0, 0xFF, 0xFF, 0, 0], 1024);
    assert_eq!(reply, done(expected));
}

#[test]
fn unknown_command_whether_present_or_not() {
    let expected = refused(vec![0x02, 0, 0, 0, 0x03, 0, 0x08, 0, 0x01]);
    assert_eq!(Hub::new().command(&[0x08, 0, 0, 0, 0, 0], 1024), expected);
    assert_eq!(hub_with(DUAL).command(&[0x08, 0, 0, 0, 0, 0], 1024), expected);
}

#[test]
fn five_octets_are_no_packet() {
    assert_eq!(Hub::new().command(&[0x01, 0, 0xFF, 0xFF, 0], 1024), bare(3));
    assert_eq!(Hub::new().command(&[], 1024), bare(3));
}

#[test]
fn room_of_1024_is_enough() {
    let packet = [0x01, 0, 0xFF, 0xFF, 0, 0];
    assert_eq!(Hub::new().command(&packet, 1023), bare(4));
    assert_eq!(Hub::new().command(&packet, 1024).answer, 0);
    assert_eq!(Hub::new().command(&[], 1023), bare(4));
    assert_eq!(Hub::new().save(16_013), bare(4));
}

#[test]
fn dual_mode_powers_on() {
    let mut hub = hub_with(DUAL);
    assert_eq!(hub.command(&[0x05, 0, 0, 0, 0x01, 0, 0x01], 1024), bare(1));
    let expected = vec![
        0x01, 0, 0, 0, 0x07, 0, 0x05, 0, 0, 0x81, 0x02, 0, 0, //
        0x06, 0, 0, 0, 0x04, 0, 0x81, 0x02, 0, 0,
    ];
    assert_eq!(hub.report(0, 0, 1024), done(expected));
}

#[test]
fn list_length_is_not_counted_in_sixteen_bits() {
    let mut hub = hub_with(DUAL);
    let mut parameters = vec![0; 17];
    parameters[1..3].copy_from_slice(&2622u16.to_le_bytes());
    assert_eq!(send(&mut hub, 0x0012, 0, &parameters), refused(status(0x0012, 0, INVALID)));
}

#[test]
fn thirty_two_records_load_and_33_do_not() {
    let mut hub = hub_with(DUAL);
    let records: Vec<_> = (0..33).map(link_key).collect();
    assert_eq!(send(&mut hub, 0x0012, 0, &link_list(&records[..32])), done(complete(0x0012, 0, 0, &[])));
    let before = image(&hub);
    assert_eq!(send(&mut hub, 0x0012, 0, &link_list(&records)), refused(status(0x0012, 0, 0x07)));
    assert_eq!(image(&hub), before);
    assert_eq!(hub.state().controller(0).map(|controller| controller.link_keys.len()), Some(32));
}

#[test]
fn hints_are_joined() {
    let mut hub = hub_with(DUAL);
    send(&mut hub, 0x0010, 0, &service(1, 0x20));
    let both = [complete(0x0010, 0, 0, &[0, 0, 0x24]), frame(7, 0, &[0, 0, 0x24])].concat();
    assert_eq!(send(&mut hub, 0x0010, 0, &service(2, 0x04)), done(both));
    let one = [complete(0x0011, 0, 0, &[0, 0, 0x04]), frame(7, 0, &[0, 0, 0x04])].concat();
    assert_eq!(send(&mut hub, 0x0011, 0, &[1; 16]), done(one));
}

#[test]
fn clock_wraps_by_two() {
    let mut hub = Hub::new();
    for reading in [0x7FFF_FFFF, 0xFFFF_FFFE, 0xFFFF_FFFF] {
        assert_eq!(hub.clock(reading, 1024), done(vec![]));
    }
    plug(&mut hub, 0, DUAL);
    send(&mut hub, 0x0007, 0, &[1]);
    carry_out(&mut hub, 0x0005, 0, &[1]);
    carry_out(&mut hub, 0x0006, 0, &[1, 3, 0]);
    assert_eq!(hub.clock(1, 1024), done(vec![]));
    assert_eq!(hub.state().controller(0).and_then(|controller| controller.timer), Some(1));
    assert_eq!(hub.state().clock, 1);
}

#[test]
fn empty_image() {
    assert_eq!(Hub::new().save(16_014), done(vec![0, 0, 0, 6, 2, 0]));
    for version in [1, 2] {
        let mut hub = timed_hub(5);
        assert_eq!(hub.load(&[0, 0, 0, 6, version, 0]), bare(0));
        assert_eq!(hub, Hub::new());
    }
    assert_eq!(upgrade(&[0, 0, 0, 6, 1, 0], 16_014), done(vec![0, 0, 0, 6, 2, 0]));
    assert_eq!(downgrade(&[0, 0, 0, 6, 2, 0], 16_014), done(vec![0, 0, 0, 6, 1, 0]));
}

/// One controller of the largest image of a version.
fn full_controller(version: u8, index: u8) -> Vec<u8> {
    let mut out = vec![index];
    out.extend(PUBLIC);
    out.extend([6, 0x12, 0x34, 0, 0, 0x02, 0x80, 0, 0, 0x02, if version == 1 { 0x12 } else { 0x92 }]);
    out.extend(STATIC);
    for name in [vec![b'n'; 248], vec![b's'; 10]] {
        out.extend(if version == 1 { vec![] } else { vec![name.len() as u8] });
        out.extend(&name);
        out.extend(if version == 1 { vec![0] } else { vec![] });
    }
    let tables: [fn(u8) -> Vec<u8>; 6] = [
        |k| service(k + 1, k),
        link_key,
        |k| long_term_key(k / 2, 2, k % 2),
        |k| identity_key(k, 1),
        |k| peer(k, k % 3),
        |k| [peer(k, k % 3), vec![1]].concat(),
    ];
    for record in tables {
        out.push(32);
        (0..32).for_each(|k| out.extend(record(k)));
    }
    out
}

#[test]
fn largest_image() {
    let [first, second] = [1, 2].map(|version| {
        let mut image = vec![0, 0, 0x3E, 0x8E, version, 4];
        (0..4).for_each(|index| image.extend(full_controller(version, index)));
        assert_eq!(image.len(), 16_014);
        image
    });
    let mut hub = Hub::new();
    (0..4).for_each(|index| fill_controller(&mut hub, index));
    assert_eq!(hub.save(16_014), done(second.clone()));
    assert_eq!(hub.save(16_013), bare(4));
    for image in [&first, &second] {
        let mut again = Hub::new();
        assert_eq!(again.load(image), bare(0));
        assert_eq!(again, hub);
    }
    assert_eq!(upgrade(&first, 16_014), done(second.clone()));
    assert_eq!(downgrade(&second, 16_014), done(first));
}

/// Makes by commands what `full_controller` writes.
fn fill_controller(hub: &mut Hub, index: u16) {
    plug(hub, index.into(), DUAL);
    let mut names = [vec![b'n'; 249], vec![b's'; 11]].concat();
    names[248] = 0;
    names[259] = 0;
    let links: Vec<_> = (0..32).map(link_key).collect();
    let long_terms: Vec<_> = (0..32).map(|k| long_term_key(k / 2, 2, k % 2)).collect();
    let identities: Vec<_> = (0..32).map(|k| identity_key(k, 1)).collect();
    let mut commands = vec![
        (0x0007, vec![1]),
        (0x0009, vec![1]),
        (0x002B, STATIC.to_vec()),
        (0x000F, names),
        (0x0012, link_list(&links)),
        (0x0013, le_list(&long_terms)),
        (0x0030, le_list(&identities)),
    ];
    for k in 0..32 {
        commands.push((0x0010, service(k + 1, k)));
        commands.push((0x0026, peer(k, k % 3)));
        commands.push((0x0033, [peer(k, k % 3), vec![1]].concat()));
    }
    for (code, parameters) in commands {
        assert_eq!(send(hub, code, index, &parameters).answer, 0, "{code:#06x}");
    }
}

#[test]
fn supported_commands_and_events() {
    let numbers: [u16; 36] = [
        22, 12, 0x0003, 0x0004, 0x0005, 0x0006, 0x0007, 0x0009, 0x000D, 0x000F, 0x0010, 0x0011, 0x0012,
        0x0013, 0x001B, 0x0026, 0x0027, 0x002A, 0x002B, 0x0030, 0x0033, 0x0034, 0x003E, 0x003F, 0x0004,
        0x0005, 0x0006, 0x0007, 0x0008, 0x0014, 0x0015, 0x0016, 0x001A, 0x001B, 0x0023, 0x0024,
    ];
    let octets: Vec<u8> = numbers.iter().flat_map(|number| number.to_le_bytes()).collect();
    assert_eq!(send(&mut Hub::new(), 0x0002, 0xFFFF, &[]), done(complete(0x0002, 0xFFFF, 0, &octets)));
}

#[test]
fn index_list_ascends() {
    let mut hub = Hub::new();
    assert_eq!(send(&mut hub, 0x0003, 0xFFFF, &[]), done(complete(0x0003, 0xFFFF, 0, &[0, 0])));
    for index in [3, 0, 2] {
        plug(&mut hub, index, DUAL);
    }
    let expected = complete(0x0003, 0xFFFF, 0, &[3, 0, 0, 0, 2, 0, 3, 0]);
    assert_eq!(send(&mut hub, 0x0003, 0xFFFF, &[]), done(expected));
}

#[test]
fn controller_information() {
    let mut hub = hub_with(0x8283);
    send(&mut hub, 0x0010, 0, &service(1, 0x41));
    send(&mut hub, 0x0009, 0, &[1]);
    let names = [b"plough".to_vec(), vec![0; 243], b"p".to_vec(), vec![0; 10]].concat();
    send(&mut hub, 0x000F, 0, &names);
    let mut expected = PUBLIC.to_vec();
    expected.extend([6, 0x34, 0x12, 0x83, 0x82, 0, 0, 0x90, 0x02, 0, 0, 0, 0, 0x41]);
    expected.extend(names);
    assert_eq!(expected.len(), 280);
    assert_eq!(send(&mut hub, 0x0004, 0, &[]), done(complete(0x0004, 0, 0, &expected)));
}
