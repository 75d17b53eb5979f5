//! Random lists with their lumps give what they give with packets in place of lumps, each packet where its last octet was taken.

use calls::lists::Lists;
use reference::codes::answer;
use reference::{Call, Hub, Reply};

/// The call that one call of a list comes to when no lumps are known: none for a lump that finishes no packet. The octets taken so far
/// are those that the list shows.
fn without_lumps(call: &Call, reply: &Reply, so_far: &mut Vec<u8>) -> Option<Call> {
    let Call::Stream { octets, room } = call else { return Some(call.clone()) };
    so_far.extend(&octets[..reply.taken]);
    let finished = reply.answer <= answer::REFUSED;
    finished.then(|| Call::Command { packet: std::mem::take(so_far), room: *room })
}

#[test]
fn lists_agree_without_their_lumps() {
    let (mut lists, mut lumps, mut packets, mut long) = (Lists::new(31), 0, 0, 0);
    for _ in 0..400 {
        let (image, mut hub) = lists.start();
        let (mut plain, mut so_far) = (Hub::new(), Vec::new());
        assert_eq!(plain.load(&image).answer, answer::DONE);
        while let Some(call) = lists.next(&hub) {
            let reply = hub.call(&call);
            let lump = matches!(call, Call::Stream { .. });
            lumps += usize::from(lump);
            match without_lumps(&call, &reply, &mut so_far) {
                Some(other) => {
                    packets += usize::from(lump);
                    long += usize::from(
                        matches!(&other, Call::Command { packet, .. } if lump && packet.len() > 1_160),
                    );
                    assert_eq!(Reply { taken: 0, ..reply }, plain.call(&other), "{call:?}");
                }
                None => assert!(
                    reply.octets.is_empty() && [answer::INCOMPLETE, answer::ROOM].contains(&reply.answer)
                ),
            }
            assert_eq!(hub.with_waiting(Default::default()), plain);
        }
    }
    assert!(
        lumps > 30_000 && packets > 15_000 && long > 500,
        "{lumps} lumps, {packets} packets, {long} long"
    );
}
