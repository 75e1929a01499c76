//! Writers whose reader stays, says that it sends no more, or resets; and one that takes what it is sent too slowly.

use crate::fixtures::is_same;
use crate::wire::echo::connected;
use iiif_io::Outlet;
use iiif_listener::{
    Departure, Flow, Generation, Generations, Pace, PacedWriter, Places, Rate, Visit, waited_for,
};
use std::io::{Read, Write};
use std::net::{IpAddr, Ipv4Addr, Net, Shutdown, TcpListener, TcpStream};
use std::rt::HostRuntime;
use std::sync::Wait;
use std::thread;
use std::time::{Clock, Duration, Instant};

/// As much as is taken of no one.
const ANY: Rate = Rate {
    bytes: 0,
    period: 30_000,
};

/// Whether a stream's reader is gone: at once, and where the answer is in the making for longer than is waited.
fn gone<R: Clock + Wait + AllocGlobal>(rt: &R, stream: TcpStream) -> Option<(bool, bool)> {
    let pace = Pace::new(rt, Duration::from_millis(1_000)).ok()?;
    let places = Places::new(rt.alloc(), 0).ok()?;
    let generations = Generations::new(rt).ok()?;
    let Visit { stream, place } = places.enter(rt, stream, IpAddr::V4(Ipv4Addr::LOCALHOST), 0)?;
    thread::sleep(rt, Duration::from_millis(50));
    let mut out = PacedWriter {
        stream,
        rt,
        pace: &pace,
        place: &place,
        generation: Generation {
            all: &generations,
            number: 0,
        },
        patience: Duration::from_millis(60_000),
        flow: Flow::new(ANY),
    };
    let at_once = out.is_gone();
    out.patience = Duration::from_millis(20);
    Some((at_once, out.is_gone()))
}

#[test]
fn peer_that_waits_or_sends_on_is_present(rt: HostRuntime) {
    for sends in [false, true].iter() {
        let Some((mut near, far)) = connected(&rt) else {
            return;
        };
        if *sends {
            assert!(rt; near.write(&[1]).is_ok());
        }
        let found = gone(&rt, far);
        drop(near);
        assert!(rt; matches!(found, Some((false, false))), "{found:?}");
    }
}

#[test]
fn peer_that_sends_no_more_is_gone_after_a_while(rt: HostRuntime) {
    let Some((near, far)) = connected(&rt) else {
        return;
    };
    assert!(rt; near.shutdown(Shutdown::Write).is_ok());
    let found = gone(&rt, far);
    drop(near);
    assert!(rt; matches!(found, Some((false, true))), "{found:?}");
}

/// One who leaves with bytes unread resets; a byte that it sent before hides nothing.
#[test]
fn peer_that_resets_is_gone(rt: HostRuntime) {
    let Some((mut near, mut far)) = connected(&rt) else {
        return;
    };
    assert!(rt; near.write(&[1]).is_ok());
    assert!(rt; far.write(&[1]).is_ok());
    thread::sleep(&rt, Duration::from_millis(50));
    drop(near);
    let found = gone(&rt, far);
    assert!(rt; matches!(found, Some((true, true))), "{found:?}");
}

/// Whether a connection ends with these eight bytes, of which a writer writes three behind others, and the last five in two texts.
fn ends_with<R: Clock + Wait + AllocGlobal>(
    rt: &R,
    stream: TcpStream,
    bytes: [u8; 8],
) -> Option<bool> {
    let pace = Pace::new(rt, Duration::from_millis(1_000)).ok()?;
    let places = Places::new(rt.alloc(), 0).ok()?;
    let generations = Generations::new(rt).ok()?;
    let Visit { stream, place } = places.enter(rt, stream, IpAddr::V4(Ipv4Addr::LOCALHOST), 0)?;
    let mut out = PacedWriter {
        stream,
        rt,
        pace: &pace,
        place: &place,
        generation: Generation {
            all: &generations,
            number: 0,
        },
        patience: Duration::from_millis(60_000),
        flow: Flow::new(ANY),
    };
    if out.put(b"L1 so").ok()? != 5 || out.put_both(b"ur", b"ce\n").ok()? != 5 {
        return None;
    }
    Some(pace.ends_with(bytes))
}

#[test]
fn last_bytes_of_several_writes_are_known(rt: HostRuntime) {
    for (bytes, wanted) in [(*b" source\n", true), (*b" memory\n", false)] {
        let Some((_near, far)) = connected(&rt) else {
            return;
        };
        assert!(rt; is_same(&ends_with(&rt, far, bytes), &Some(wanted)));
    }
}

/// How long a read of a silent peer's stream takes, which waits for 100 ms, once it was looked whether the peer is gone.
fn read_behind_a_look<R: Clock + Wait + AllocGlobal>(
    rt: &R,
    stream: TcpStream,
) -> Option<Duration> {
    stream
        .set_read_timeout(Some(Duration::from_millis(100)))
        .ok()?;
    let mut waiting = stream.try_clone().ok()?;
    let looked = gone(rt, stream)?;
    let begun = Instant::now(rt).ok()?;
    let failed = waiting.read(&mut [0]).is_err();
    let waited = begun.elapsed(rt).ok()?;
    (looked == (false, false) && failed).then_some(waited)
}

/// A stream that doesn't wait any more would cut a viewer that is slow.
#[test]
fn stream_of_a_peer_that_was_looked_for_waits_on(rt: HostRuntime) {
    let Some((near, far)) = connected(&rt) else {
        return;
    };
    let waited = read_behind_a_look(&rt, far);
    drop(near);
    assert!(rt;
        matches!(waited, Some(time) if time >= Duration::from_millis(90)),
        "{waited:?}"
    );
}

/// Why a writer stops whose connection was idle while 64 others came: behind a write, or behind a look for its reader.
fn departure_of_ousted<
    R: Net<Listener = TcpListener, Stream = TcpStream> + Clock + Wait + AllocGlobal,
>(rt: &R, writes: bool) -> Option<Departure> {
    let alloc = rt.alloc();
    let places = Places::new(alloc, 0).ok()?;
    let generations = Generations::new(rt).ok()?;
    let pace = Pace::new(rt, Duration::from_millis(1_000)).ok()?;
    let from = IpAddr::V4(Ipv4Addr::LOCALHOST);
    let (_near, far) = connected(rt)?;
    let Visit { stream, place } = places.enter(rt, far, from, 0)?;
    place.rest();
    let (mut viewers, mut visits) = (Vec::new(alloc), Vec::new(alloc));
    for _ in 0..64u32 {
        let (viewer, stream) = connected(rt)?;
        viewers.push(viewer).ok()?;
        visits.push(places.enter(rt, stream, from, 0)?).ok()?;
    }
    let mut out = PacedWriter {
        stream,
        rt,
        pace: &pace,
        place: &place,
        generation: Generation {
            all: &generations,
            number: 0,
        },
        patience: Duration::from_millis(0),
        flow: Flow::new(ANY),
    };
    let stops = if writes {
        out.put(b"a").is_err()
    } else {
        out.is_gone()
    };
    if stops { Some(pace.departure()) } else { None }
}

#[test]
fn writer_without_its_place_knows_that_it_was_ousted(rt: HostRuntime) {
    for writes in [false, true] {
        let found = departure_of_ousted(&rt, writes);
        assert!(rt; is_same(&found, &Some(Departure::Ousted)), "{writes}");
    }
}

#[test]
fn a_write_waits_for_its_reader_from_50_ms_on(rt: HostRuntime) {
    for (millis, waited) in [(0, 0), (1, 0), (49, 0), (50, 50), (10_000, 10_000)] {
        assert!(rt; is_same(&waited_for(millis), &waited), "{millis}");
    }
}

/// Writes, the milliseconds and the bytes of each, and whether the answer goes on behind it, at 4 bytes a second over each 3 seconds.
static WRITES: [&[(u64, u64, bool)]; 4] = [
    // At the rate, and just below it.
    &[(1_000, 4, true), (2_000, 8, true), (3_000, 12, true)],
    &[(1_000, 4, true), (1_999, 7, true), (1, 0, false)],
    // What took no time pays for nothing.
    &[
        (0, 1_000_000, true),
        (2_999, 0, true),
        (0, 1_000_000, true),
        (1, 0, false),
    ],
    // One long write is judged by all of its time.
    &[(10_000, 39, false), (10_000, 40, true)],
];

#[test]
fn slow_readers_are_cut_at_the_end_of_a_period(rt: HostRuntime) {
    for (place, writes) in WRITES.iter().enumerate() {
        let mut flow = Flow::new(Rate {
            bytes: 4,
            period: 3_000,
        });
        for (waited, bytes, goes_on) in writes.iter() {
            assert!(rt;
                is_same(&flow.take(*waited, *bytes), goes_on),
                "{place}: {waited} {bytes}"
            );
        }
    }
}
