//! Places, who is given one, and what a listener does that failed.

use crate::fixtures::{is_same, is_unwanted};
use crate::wire::echo::connected;
use iiif_listener::{
    Admission, Places, Ranking, Recent, Retry, Seat, SeatState, Table, Ticket, address_of,
    after_failure, first_ranked,
};
use std::alloc::Global;
use std::io::{ErrorKind, Read};
use std::net::{IpAddr, Ipv4Addr, Net, TcpListener, TcpStream};
use std::sync::Wait;
use std::test::Fail;
use std::thread;
use std::thread::{Builder, Threads};
use std::time::Duration;

/// The tickets of so many connections of one address, of which each may have any number of places.
fn entered(alloc: Global, table: &mut Table, count: u32) -> Result<Vec<Ticket>, Fail> {
    let mut tickets = Vec::new(alloc);
    for _ in 0..count {
        if let Some(ticket) = table.enter(1, 0, 0) {
            tickets.push(ticket)?;
        }
    }
    Ok(tickets)
}

#[test]
fn sixty_four_places_are_taken_and_no_more(rt: HostRuntime) -> Result<(), Fail> {
    let mut table = Table::new();
    let tickets = entered(rt.alloc(), &mut table, 70)?;
    assert!(rt; is_same(&tickets.len(), &64) && is_same(&table.taken(), &64));
    let gone = *tickets.get(7).ok_or("no ticket")?;
    assert!(rt; table.leave(gone) && is_same(&table.taken(), &63) && !table.keeps(gone));
    assert!(rt; table.enter(1, 0, 0).is_some() && table.enter(1, 0, 0).is_none());
    Ok(())
}

/// Of 64 connections the second waits longest; the first waited longer, and is at work again.
#[test]
fn place_idle_longest_makes_room(rt: HostRuntime) -> Result<(), Fail> {
    let mut table = Table::new();
    let tickets = entered(rt.alloc(), &mut table, 64)?;
    let (first, second, third) = match tickets.as_slice() {
        [first, second, third, ..] => (*first, *second, *third),
        _ => return Err(Fail::from("no tickets")),
    };
    assert!(rt; table.rest(first) && table.rest(second) && table.rest(third) && table.work(first));
    let one_more = table.enter(2, 0, 0).ok_or("no place")?;
    assert!(rt; table.keeps(first) && !table.keeps(second) && table.keeps(third));
    assert!(rt; !table.work(second) && !table.leave(second) && table.keeps(one_more));
    assert!(rt; table.enter(2, 0, 0).is_some() && !table.keeps(third) && table.enter(1, 0, 0).is_none());
    Ok(())
}

#[test]
fn an_address_has_as_many_as_it_may(rt: HostRuntime) -> Result<(), Fail> {
    let mut table = Table::new();
    let first = table.enter(1, 2, 0).ok_or("no place")?;
    assert!(rt; table.enter(1, 2, 0).is_some() && table.enter(1, 2, 0).is_none());
    assert!(rt; table.enter(2, 2, 0).is_some() && table.leave(first) && table.enter(1, 2, 0).is_some());
    Ok(())
}

/// A place whose connection does this.
fn seat(standing: SeatState) -> Seat {
    Seat {
        number: 1,
        address: 1,
        standing,
        recent: Recent::new(),
    }
}

#[test]
fn longest_idle_place_is_found(rt: HostRuntime) {
    let seats = [
        seat(SeatState::Free),
        seat(SeatState::Idle(9)),
        seat(SeatState::AtWork),
        seat(SeatState::Idle(4)),
        seat(SeatState::Idle(4)),
    ];
    assert!(rt;
        is_same(&first_ranked(Ranking::Idle, &seats), &Some(3))
            && is_same(&first_ranked(Ranking::Idle, &seats[..2]), &Some(1))
    );
    assert!(rt;
        first_ranked(Ranking::Idle, &seats[..1]).is_none()
            && first_ranked(Ranking::Idle, &[]).is_none()
    );
}

/// The rate of 10,000 ms in two writes, each waited for half of that, is known at the second one's end, and counts for 20,000 ms.
#[test]
fn a_slow_rate_is_known_for_a_while(rt: HostRuntime) {
    let mut recent = Recent::new();
    recent.take(95_000, 5_000, 400_000);
    assert!(rt; recent.slow_rate(95_000).is_none());
    recent.take(100_000, 5_000, 239_990);
    assert!(rt; is_same(&recent.slow_rate(100_000), &Some(63_999)));
    assert!(rt;
        is_same(&recent.slow_rate(120_000), &Some(63_999)) && recent.slow_rate(120_001).is_none()
    );
    recent.take(110_000, 10_000, 640_000);
    assert!(rt; recent.slow_rate(110_000).is_none());
}

/// Of 64 connections of one address at work one took 6,000 bytes a second of late, one 63,000, one 64,000.
#[test]
fn slowest_place_makes_room(rt: HostRuntime) -> Result<(), Fail> {
    let mut table = Table::new();
    let tickets = entered(rt.alloc(), &mut table, 64)?;
    let (first, second, third) = match tickets.as_slice() {
        [first, second, third, ..] => (*first, *second, *third),
        _ => return Err(Fail::from("no tickets")),
    };
    assert!(rt; table.take(first, 10_000, 10_000, 640_000));
    assert!(rt; table.take(second, 10_000, 10_000, 60_000));
    assert!(rt; table.take(third, 10_000, 10_000, 630_000));
    assert!(rt; table.enter(1, 0, 30_001).is_none());
    assert!(rt; table.enter(1, 0, 15_000).is_some() && !table.keeps(second) && table.keeps(third));
    assert!(rt; table.enter(1, 0, 15_000).is_some() && !table.keeps(third) && table.keeps(first));
    assert!(rt; table.enter(1, 0, 15_000).is_none() && !table.take(second, 16_000, 1, 1));
    Ok(())
}

/// Of an address with all 64 places another one gets all but sixteen, from the first that came on.
#[test]
fn crowd_makes_room_for_another_address(rt: HostRuntime) -> Result<(), Fail> {
    let mut table = Table::new();
    let tickets = entered(rt.alloc(), &mut table, 64)?;
    assert!(rt; table.enter(1, 0, 0).is_none());
    for ticket in tickets.iter().take(48) {
        assert!(rt; table.keeps(*ticket) && table.enter(2, 0, 0).is_some() && !table.keeps(*ticket));
    }
    assert!(rt; table.enter(2, 0, 0).is_none() && table.enter(3, 0, 0).is_some());
    Ok(())
}

/// Addresses, and whether connections of both are counted together.
static ADDRESSES: [(&str, &str, bool); 5] = [
    ("10.0.0.1", "10.0.0.1", true),
    ("10.0.0.1", "10.0.0.2", false),
    ("10.0.0.1", "::ffff:10.0.0.1", true),
    ("2001:db8::1", "2001:db8::2", true),
    ("2001:db8::1", "2001:db8:0:1::1", false),
];

#[test]
fn addresses_of_one_owner_are_counted_together(rt: HostRuntime) -> Result<(), Fail> {
    for (one, other, same) in ADDRESSES.iter() {
        let one: IpAddr = one.parse().map_err(|_| "no address")?;
        let other: IpAddr = other.parse().map_err(|_| "no address")?;
        assert!(rt;
            is_same(&(address_of(one) == address_of(other)), same),
            "{one} {other}"
        );
    }
    Ok(())
}

#[test]
fn known_addresses_are_let_in(rt: HostRuntime) -> Result<(), Fail> {
    let (one, other) = ("10.0.0.1", "::ffff:10.0.0.1");
    let one: IpAddr = one.parse().map_err(|_| "no address")?;
    let other: IpAddr = other.parse().map_err(|_| "no address")?;
    let known = [one];
    for (known, from, is_known) in [
        (None, one, true),
        (Some(known.as_slice()), one, true),
        (Some(known.as_slice()), other, true),
        (
            Some(known.as_slice()),
            IpAddr::V4(Ipv4Addr::LOCALHOST),
            false,
        ),
        (Some([].as_slice()), one, false),
    ] {
        let admission = Admission {
            per_address: 0,
            known,
        };
        assert!(rt; is_same(&admission.is_known(from), &is_known));
    }
    Ok(())
}

/// A failure's kind, and what is done.
static FAILURES: [(ErrorKind, Retry); 8] = [
    (ErrorKind::ConnectionAborted, Retry::AtOnce),
    (ErrorKind::ConnectionReset, Retry::AtOnce),
    (ErrorKind::Interrupted, Retry::AtOnce),
    (ErrorKind::InvalidInput, Retry::Never),
    (ErrorKind::OutOfMemory, Retry::Later),
    (ErrorKind::Uncategorized, Retry::Later),
    (ErrorKind::WouldBlock, Retry::Silent),
    (ErrorKind::TimedOut, Retry::Silent),
];

/// Names when a listener tries again.
fn named(retry: Retry) -> &'static str {
    match retry {
        Retry::AtOnce => "at once",
        Retry::Silent => "at once, as nobody came",
        Retry::Later => "later",
        Retry::Never => "never",
    }
}

#[test]
fn listener_that_failed_goes_on_unless_it_is_stopped(rt: HostRuntime) {
    for (kind, retry) in FAILURES.iter() {
        assert!(rt;
            is_same(&named(after_failure(*kind)), &named(*retry)),
            "{kind:?}"
        );
    }
}

/// Where all connections of a test come from.
const HERE: IpAddr = IpAddr::V4(Ipv4Addr::LOCALHOST);

/// A connection whose thread is refused: whether it was started, and the places that are then taken.
fn refused<R: Threads + Wait + Sync>(rt: &R, places: &Places, stream: TcpStream) -> (bool, usize) {
    let Some(visit) = places.enter(rt, stream, HERE, 0) else {
        return (false, 64);
    };
    let started = thread::scope(thread::scope_env(), rt, |scope| {
        Builder::new()
            .stack_size(usize::MAX)
            .spawn_scoped(scope, move || drop(visit))
            .is_ok()
    });
    (started, places.taken(rt))
}

/// Whether the other end is closed.
fn is_closed(viewer: &mut TcpStream) -> bool {
    if viewer
        .set_read_timeout(Some(Duration::from_millis(2000)))
        .is_err()
    {
        return false;
    }
    let mut byte = [0u8; 1];
    match viewer.read(&mut byte) {
        Ok(count) => is_same(&count, &0),
        Err(fault) => is_unwanted(&fault),
    }
}

/// Whether a connection whose thread is refused is closed.
fn is_closed_where_refused<
    R: Net<Listener = TcpListener, Stream = TcpStream> + Threads + Wait + Sync,
>(rt: &R, alloc: Global) -> bool {
    match (connected(rt), Places::new(alloc, 0)) {
        (Some((mut viewer, stream)), Ok(places)) => {
            is_same(&refused(rt, &places, stream), &(false, 0)) && is_closed(&mut viewer)
        }
        _ => false,
    }
}

#[test]
fn connection_without_a_thread_is_closed(rt: HostRuntime) {
    assert!(rt; is_closed_where_refused(&rt, rt.alloc()));
}
