//! Statistics of a node.

use crate::connections::nodes::{SAMPLE, Scene};
use crate::connections::viewers::{
    Sends, Text, answered_of_64, is_full, is_let_in, is_sent, sent,
};
use crate::connections::visits::{ANY, One, Visit, served};
use crate::fixtures::{has_start, is_missing, is_same};
use iiif_connections::Times;
use iiif_connections::times::USUAL;
use iiif_services::Listeners;
use std::alloc::Global;
use std::net::TcpListener;
use std::time::Duration;
use std::{str, thread};

/// The sample, by a node whose statistics can be asked for.
const WATCHED: Scene<'static, 'static> = Scene {
    statistics: Some(ANY),
    ..SAMPLE
};

const METRICS: &[u8] = b"GET /metrics HTTP/1.1\r\nHost: localhost\r\n\r\n";

/// Two images and a method that isn't answered, on a connection that closes behind them.
const THREE: &[u8] =
    b"GET /iiif/a/full/max/0/default.tif HTTP/1.1\r\n\r\nGET /iiif/a/full/max/0/default.tif HTTP/1.1\r\n\r\nPOST \
        /iiif/a HTTP/1.1\r\nConnection: close\r\n\r\n";

/// Whether a text has each of these.
fn has_all(text: &[u8], lines: &[&str]) -> bool {
    let Ok(text) = str::from_utf8(text) else {
        return false;
    };
    for line in lines {
        if !text.contains(*line) {
            return false;
        }
    }
    true
}

/// The answer of the statistics' listener once it has these lines.
fn told(rt: &HostRuntime, listeners: &Listeners, lines: &[&str]) -> Option<Vec<u8>> {
    let statistics = listeners.statistics.as_ref()?;
    for _ in 0..200u32 {
        let answer = sent(rt, statistics, METRICS)?;
        if has_all(&answer, lines) {
            return Some(answer);
        }
        thread::sleep(rt, Duration::from_millis(20));
    }
    None
}

/// The lines once that was answered. The image has four tiles, each of which is loaded once and then found.
static LINES: [&str; 20] = [
    "\niiif_peer_ask_seconds_count 0\n",
    "\niiif_tile_cache_gets_total 8\n",
    "\niiif_tile_cache_hits_total 4\n",
    "\niiif_tile_cache_joins_total 0\n",
    "\niiif_tile_cache_leads_total 4\n",
    "\niiif_tile_cache_loads_total 4\n",
    "\niiif_tile_cache_peer_total 0\n",
    "\niiif_tile_cache_landed_total 4\n",
    "\niiif_tile_cache_faults_total 0\n",
    "\niiif_tile_cache_entries 4\n",
    "\niiif_sum_cache_gets_total 0\n",
    "\niiif_sum_cache_bytes 0\n",
    "\niiif_sum_cache_entries 0\n",
    "\niiif_held_bytes 456\n",
    "\niiif_held_images 3\n",
    "\niiif_connections_refused_total{listener=\"viewers\"} 0\n",
    "\niiif_answers_total{status=\"200\"} 2\n",
    "\niiif_answers_total{status=\"303\"} 0\n",
    "\niiif_answers_total{status=\"405\"} 1\n",
    "\niiif_answers_cut_total{cause=\"viewer\"} 0\n",
];

/// Whether what is told begins as an answer with text does, and has those lines and the bytes that were answered.
fn tells(alloc: Global, told: &[u8], bytes: usize) -> bool {
    let Ok(line) = format!(in alloc; "\niiif_answer_bytes_total {bytes}\n") else {
        return false;
    };
    has_start(
        told,
        b"HTTP/1.1 200 OK\r\nContent-Type: text/plain; version=0.0.4\r\n",
    ) && has_all(told, &[line.as_str()])
        && has_all(told, &LINES)
        && !has_all(told, &["\niiif_tile_cache_bytes 0\n"])
}

/// How many bytes a viewer is answered to three calls.
fn bytes_of_three(rt: &HostRuntime, listeners: &Listeners) -> Option<usize> {
    Some(sent(rt, &listeners.viewers, THREE)?.len())
}

/// Whether who asks for the statistics, once a viewer was answered and no connection is open, is told of that.
pub(crate) fn are_counted(rt: &HostRuntime, listeners: &Listeners) -> bool {
    let Some(bytes) = bytes_of_three(rt, listeners) else {
        return false;
    };
    match told(
        rt,
        listeners,
        &["\niiif_connections_open{listener=\"viewers\"} 0\n"],
    ) {
        Some(told) => tells(rt.alloc(), &told, bytes),
        None => is_missing(),
    }
}

#[test]
fn counts_are_those_of_the_answers(rt: HostRuntime) {
    assert!(rt; served(&rt, &rt, &WATCHED, Visit::Counted).is_some());
}

/// Other requests, the front of what they are answered, and the end.
static OTHERS: [(&[u8], &[u8], &[u8]); 6] = [
    (
        b"GET /health HTTP/1.1\r\nHost: localhost\r\n\r\n",
        b"HTTP/1.1 200 OK\r\nContent-Type: text/plain\r\n",
        b"\r\n\r\nviewers ok\npeers ok\nstatistics ok\n",
    ),
    (
        b"GET / HTTP/1.1\r\nHost: localhost\r\n\r\n",
        b"HTTP/1.1 404 Not Found\r\n",
        b"",
    ),
    (
        b"GET /metrics?a HTTP/1.1\r\nHost: localhost\r\n\r\n",
        b"HTTP/1.1 404 Not Found\r\n",
        b"",
    ),
    (
        b"HEAD /metrics HTTP/1.1\r\nHost: localhost\r\n\r\n",
        b"HTTP/1.1 405 Method Not Allowed\r\nContent-Type: text/plain\r\nAllow: GET\r\n",
        b"",
    ),
    (
        b"POST /metrics HTTP/1.1\r\nHost: localhost\r\n\r\n",
        b"HTTP/1.1 405 Method Not Allowed\r\nContent-Type: text/plain\r\nAllow: GET\r\n",
        b"",
    ),
    (b"metrics\r\n\r\n", b"HTTP/1.1 400 Bad Request\r\n", b""),
];

/// Whether what a request is answered begins and ends so.
fn is_framed_so(
    rt: &HostRuntime,
    statistics: &TcpListener,
    request: &[u8],
    frame: (&[u8], &[u8]),
) -> bool {
    let sends = Sends {
        request,
        ends: false,
        wanted: Text::Framed(frame.0, frame.1),
    };
    is_sent(rt, statistics, &sends)
}

/// Whether they are answered so.
pub(crate) fn are_others_refused(rt: &HostRuntime, listeners: &Listeners) -> bool {
    let Some(statistics) = &listeners.statistics else {
        return false;
    };
    for (request, front, end) in &OTHERS {
        if !is_framed_so(rt, statistics, request, (front, end)) {
            return false;
        }
    }
    true
}

#[test]
fn health_is_told_and_other_targets_and_methods_are_refused(rt: HostRuntime) {
    // Those who ask for the statistics are no viewers.
    match served(&rt, &rt, &WATCHED, Visit::ForOthers) {
        Some(counts) => assert!(rt; is_same(&counts.whole, &[0; 8])),
        None => assert!(rt; false, "not refused"),
    }
}

/// The lines once 64 viewers are connected and were answered. An answer is counted behind its last byte.
static CROWD: [&str; 2] = [
    "\niiif_connections_open{listener=\"viewers\"} 64\n",
    "\niiif_answers_total{status=\"303\"} 64\n",
];

/// The line of one more viewer that was closed: that is counted before it is closed, so nobody waits for it.
static REFUSED: [&str; 2] = [
    "\niiif_connections_refused_total{listener=\"viewers\"} 1\n",
    "\niiif_connections_refused_total{listener=\"peers\"} 0\n",
];

/// Whether who asks for the statistics while they stay is told of them.
pub(crate) fn are_counted_when_full(rt: &HostRuntime, listeners: &Listeners) -> bool {
    let mut open = Vec::new(rt.alloc());
    if !is_full(rt, &listeners.viewers, &mut open) {
        return false;
    }
    match told(rt, listeners, &CROWD) {
        Some(answer) => has_all(&answer, &REFUSED),
        None => is_missing(),
    }
}

#[test]
fn refused_connection_is_counted(rt: HostRuntime) {
    assert!(rt; served(&rt, &rt, &WATCHED, Visit::CountedWhenFull).is_some());
}

/// The lines once one of 64 idle viewers was closed for a new one.
static OUSTED: [&str; 3] = [
    "\niiif_connections_ousted_total{listener=\"viewers\"} 1\n",
    "\niiif_connections_ousted_total{listener=\"statistics\"} 0\n",
    "\niiif_connections_refused_total{listener=\"viewers\"} 0\n",
];

/// Whether who asks for the statistics is told of a viewer that was closed for a new one.
pub(crate) fn is_ousted_one_counted(rt: &HostRuntime, listeners: &Listeners) -> bool {
    let mut open = Vec::new(rt.alloc());
    answered_of_64(rt, &listeners.viewers, &mut open) == Some(64)
        && is_let_in(rt, &listeners.viewers) == Some(true)
        && told(rt, listeners, &OUSTED).is_some()
}

#[test]
fn ousted_connection_is_counted(rt: HostRuntime) {
    let scene = Scene {
        times: Times {
            idle: 30_000,
            whole: 30_000,
            ..USUAL
        },
        ..WATCHED
    };
    assert!(rt; served(&rt, &rt, &scene, Visit::CountedWhenOusted).is_some());
}

/// Where the statistics can be asked for, if anywhere, and which listener ends.
static ENDS: [(Option<&str>, One); 5] = [
    (Some(ANY), One::Viewers),
    (Some(ANY), One::Peers),
    (Some(ANY), One::Statistics),
    (None, One::Viewers),
    (None, One::Peers),
];

#[test]
fn end_of_one_listener_ends_all(rt: HostRuntime) {
    for (statistics, one) in &ENDS {
        let scene = Scene {
            statistics: *statistics,
            logs: true,
            ..WATCHED
        };
        assert!(rt; served(&rt, &rt, &scene, Visit::Ends(*one)).is_some());
    }
}
