//! Images for which a node refused asks, and connections that lead back to the node that makes them.

use crate::fixtures::is_same;
use iiif_peer_link::{Refusals, leads_to};
use std::net::{IpAddr, Ipv4Addr, SocketAddr};
use std::test::Fail;

#[test]
fn image_that_was_refused_is_not_asked_for_and_another_one_is(
    rt: HostRuntime,
) -> Result<(), Fail> {
    let refusals = Refusals::new(rt.alloc());
    assert!(rt; !refusals.has(&rt, "a"));
    assert!(rt; refusals.keep(&rt, "a"));
    assert!(rt; refusals.has(&rt, "a") && !refusals.has(&rt, "b") && !refusals.has(&rt, ""));
    refusals.keep(&rt, "a");
    refusals.keep(&rt, "b");
    assert!(rt; refusals.has(&rt, "a") && refusals.has(&rt, "b"));
    Ok(())
}

#[test]
fn first_refusal_of_an_image_is_told_from_later_ones_and_images_are_counted(
    rt: HostRuntime,
) -> Result<(), Fail> {
    let refusals = Refusals::new(rt.alloc());
    assert!(rt; is_same(&refusals.count(&rt), &0));
    let kept = [
        refusals.keep(&rt, "a"),
        refusals.keep(&rt, "a"),
        refusals.keep(&rt, "b"),
        refusals.keep(&rt, "a"),
    ];
    assert!(rt; is_same(&kept, &[true, false, true, false]));
    assert!(rt; is_same(&refusals.count(&rt), &2));
    Ok(())
}

/// An address of a host of IPv4, and a port.
fn address(ip: [u8; 4], port: u16) -> SocketAddr {
    let [a, b, c, d] = ip;
    SocketAddr::new(IpAddr::V4(Ipv4Addr::new(a, b, c, d)), port)
}

/// The listener, the source and the target of a connection, and whether the listener gets it.
static ENDS: [([u8; 4], u16, [u8; 4], [u8; 4], bool); 8] = [
    // A listener at one address gets what comes to that.
    ([192, 0, 2, 1], 9_000, [192, 0, 2, 1], [192, 0, 2, 1], true),
    ([192, 0, 2, 1], 9_000, [192, 0, 2, 1], [192, 0, 2, 2], false),
    ([192, 0, 2, 1], 9_001, [192, 0, 2, 1], [192, 0, 2, 1], false),
    ([127, 0, 0, 2], 9_000, [127, 0, 0, 1], [127, 0, 0, 1], false),
    // One at all addresses of its host gets what comes to the host, whose loopback addresses and whose own a target is.
    ([0, 0, 0, 0], 9_000, [127, 0, 0, 1], [127, 0, 0, 9], true),
    ([0, 0, 0, 0], 9_000, [192, 0, 2, 1], [192, 0, 2, 1], true),
    ([0, 0, 0, 0], 9_000, [192, 0, 2, 1], [192, 0, 2, 2], false),
    ([0, 0, 0, 0], 9_001, [127, 0, 0, 1], [127, 0, 0, 1], false),
];

#[test]
fn connection_that_leads_to_the_own_listener_is_known_by_its_ends(rt: HostRuntime) {
    for (listener, port, source, target, is_own) in ENDS.iter() {
        let is_found = leads_to(
            &address(*listener, *port),
            &address(*source, 40_000),
            &address(*target, 9_000),
        );
        assert!(rt; is_same(&is_found, is_own), "{listener:?} {target:?}");
    }
}
