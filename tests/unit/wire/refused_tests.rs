//! Messages that are read again once a growth of memory was refused: the answer is lack of memory, and on a connection that is made anew
//! the second call gives the case's own answer. `tests/refused` runs each test with the first growth refused, with the second, and so
//! on; with ample memory each call answers at once.

use crate::fixtures::messages::FIRST_TILE_KEY;
use crate::wire::message_tests::{
    ASK, Message, REPLIED, REPLY, Want, is_heard, is_refused, sevens,
};
use iiif_peer_wire::{Version, WireFault};

#[test]
fn ask_and_reply_are_read_after_a_refused_growth(rt: HostRuntime) {
    let ask = Want::Ask(Version::One, 1, &FIRST_TILE_KEY, b"");
    assert!(rt; is_heard(rt.alloc(), sevens(&ASK), Message::Ask, ask));
    let reply = Want::Reply(0, &[1, 2, 3], b"");
    assert!(rt; is_heard(rt.alloc(), sevens(&REPLY), REPLIED, reply));
}

/// The key of another image's tile.
const OTHER: [u8; 15] = [0, 1, 98, 0, 0, 0, 2, 0, 0, 0, 0, 0, 0, 0, 0];

#[test]
fn wrong_replies_are_refused_after_a_refused_growth(rt: HostRuntime) {
    assert!(rt; is_refused(rt.alloc(), 30, 4, 63, WireFault::Digest));
    let other = Message::Reply(Version::One, &OTHER);
    let key = Want::Fault(WireFault::Key);
    assert!(rt; is_heard(rt.alloc(), sevens(&REPLY), other, key));
    let (front, _) = ASK.split_at(23);
    let short = Want::Fault(WireFault::Short);
    assert!(rt; is_heard(rt.alloc(), sevens(front), Message::Ask, short));
}
