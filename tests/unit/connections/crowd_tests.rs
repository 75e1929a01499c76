//! Many viewers at once.

use crate::connections::nodes::{SAMPLE, Scene, are_known};
use crate::connections::viewers::{Sends, Text, connected, is_full, is_let_in, is_sent};
use crate::connections::visits::{Visit, served};
use crate::fixtures::files::SAMPLE_FILE;
use crate::fixtures::{is_missing, is_same};
use iiif_connections::Times;
use iiif_connections::times::USUAL;
use std::alloc::Global;
use std::io::{Read, Write};
use std::net::{TcpListener, TcpStream};
use std::test::Fail;
use std::time::{Duration, Instant};
use std::{fs, thread};

/// Whether sixty-four viewers who stay and ask again are answered, one more isn't, and one is once they have gone.
pub(crate) fn are_let_in_again(rt: &HostRuntime, viewers: &TcpListener) -> bool {
    let mut open = Vec::new(rt.alloc());
    let is_full = is_full(rt, viewers, &mut open);
    drop(open);
    thread::sleep(rt, Duration::from_millis(1000));
    is_full && is_same(&is_let_in(rt, viewers), &Some(true))
}

/// The sample on connections that may stay for half a minute.
const LASTING: Scene<'static, 'static> = Scene {
    times: Times {
        idle: 30_000,
        whole: 30_000,
        ..USUAL
    },
    ..SAMPLE
};

#[test]
fn sixty_four_viewers_are_served_and_one_more_is_closed(rt: HostRuntime) {
    let counts = served(&rt, &rt, &LASTING, Visit::Crowd);
    assert!(rt;
        are_known(counts, &[Some(0), None, None, None]),
        "{counts:?}"
    );
}

#[test]
fn viewer_idle_longest_is_closed_for_a_new_one(rt: HostRuntime) {
    assert!(rt; served(&rt, &rt, &LASTING, Visit::Idle).is_some());
}

/// The side of a gray image, in samples.
const SIDE: u32 = 1024;

/// The file of a gray image of that side, all of it black.
fn black(alloc: Global) -> Result<Vec<u8>, Fail> {
    let (head, _) = SAMPLE_FILE.split_at(174);
    let mut file = Vec::from_slice(alloc, head)?;
    // ImageWidth, ImageLength and RowsPerStrip; StripByteCounts.
    for (place, value) in [(18usize, SIDE), (30, SIDE), (102, SIDE), (114, SIDE * SIDE)] {
        for (byte, at) in value.to_le_bytes().into_iter().zip(place..place + 4) {
            *file.get_mut(at).ok_or("no such place")? = byte;
        }
    }
    file.resize(174 + (SIDE * SIDE) as usize, 0)?;
    Ok(file)
}

/// A viewer who has asked for 24 megabytes, took the first bytes and takes no more.
fn stalled(rt: &HostRuntime, listener: &TcpListener) -> Option<TcpStream> {
    let mut stalled = connected(rt, listener)?;
    for _ in 0..24u32 {
        stalled
            .write_all(b"GET /iiif/a/full/max/0/default.tif HTTP/1.1\r\n\r\n")
            .ok()?;
    }
    let mut front = [0u8; 12];
    stalled.read_exact(&mut front).ok()?;
    Some(stalled)
}

/// A viewer of one place of the image.
const PLACE: Sends<'static> = Sends {
    request: b"GET /iiif/a/0,0,1,1/max/0/default.tif HTTP/1.1\r\nConnection: close\r\n\r\n",
    ends: false,
    wanted: Text::Framed(b"HTTP/1.1 200 OK\r\n", b""),
};

/// Whether four such viewers are answered, a tenth of a second apart.
fn are_four_answered(rt: &HostRuntime, listener: &TcpListener) -> bool {
    for _ in 0..4u32 {
        if !is_sent(rt, listener, &PLACE) {
            return false;
        }
        thread::sleep(rt, Duration::from_millis(100));
    }
    true
}

/// How long that takes, in milliseconds, where they are.
fn millis_of_four(rt: &HostRuntime, listener: &TcpListener) -> Option<u128> {
    let start = Instant::now(rt).ok()?;
    if !are_four_answered(rt, listener) {
        return None;
    }
    Some(start.elapsed(rt).ok()?.as_millis())
}

/// Whether viewers are answered beside one who takes nothing. A server of one connection at a time would wait until that one counts as
/// gone.
pub(crate) fn are_served_beside_stalled(rt: &HostRuntime, viewers: &TcpListener) -> bool {
    let Some(stalled) = stalled(rt, viewers) else {
        return false;
    };
    let passed = millis_of_four(rt, viewers);
    drop(stalled);
    match passed {
        Some(passed) => passed < u128::from(USUAL.stalled),
        None => is_missing(),
    }
}

/// The black image.
const BLACK: Scene<'static, 'static> = Scene {
    images: &[("a", "black.tif")],
    edge: 256,
    ..SAMPLE
};

#[test]
fn viewer_that_stops_reading_holds_nobody(rt: HostRuntime) -> Result<(), Fail> {
    fs::write(&rt, "black.tif", &black(rt.alloc())?)?;
    assert!(rt; served(&rt, &rt, &BLACK, Visit::BesideStalled).is_some());
    Ok(())
}
