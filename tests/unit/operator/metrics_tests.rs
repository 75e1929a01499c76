//! The answers to who asks for the counters.

use crate::fixtures::{has_end, has_start, is_same, is_same_text, is_unwanted};
use iiif_breaker::{Asks, Durations, State};
use iiif_io::fakes::{FailingReader, FailingWriter};
use iiif_metrics::{
    AnswerKind, AnswerTimes, CacheMetrics, Counts, HeldMetrics, ImageMetrics, LinkMetrics, Measure, Metrics, NoMemory, PeerMetrics,
    Service, Services, metrics_text, serve_metrics,
};
use iiif_tables::Book;
use std::alloc::Global;

/// Counters of which each has another value, and these services.
#[derive(Drop)]
struct Fixed {
    services: Services,
}

/// The services of a node that asks others and isn't asked.
const WELL: Fixed = Fixed {
    services: Services {
        viewers: Service::GoesOn,
        peers: Service::Unwanted,
        statistics: Service::GoesOn,
        log: Service::GoesOn,
    },
};

/// These services where the log's thread is gone.
const ILL: Fixed = Fixed {
    services: Services {
        viewers: Service::GoesOn,
        peers: Service::Unwanted,
        statistics: Service::GoesOn,
        log: Service::Gone,
    },
};

/// A cache's counters, from a first value on.
fn cache(first: u64) -> CacheMetrics {
    CacheMetrics {
        book: Book {
            gets: first,
            hits: first.saturating_add(1),
            joins: first.saturating_add(2),
            leads: first.saturating_add(3),
            again_hits: first.saturating_add(4),
            loads: first.saturating_add(5),
            peer: first.saturating_add(6),
            landed: first.saturating_add(7),
            faults: first.saturating_add(8),
        },
        bytes: first.saturating_add(9),
        entries: first.saturating_add(10),
    }
}

/// How long answers took: of images and informations in numbers of each their own, and one other that took 7 ms.
fn times() -> AnswerTimes {
    let mut times = AnswerTimes {
        image: Durations {
            within: [51, 52, 53, 54, 55, 56, 57, 58],
            all: 59,
            micros: 60,
        },
        info: Durations {
            within: [61, 62, 63, 64, 65, 66, 67, 68],
            all: 69,
            micros: 70,
        },
        other: Durations::new(),
    };
    times.count(AnswerKind::Other, 7_000);
    times
}

/// All counters.
fn metrics() -> Metrics {
    Metrics {
        times: times(),
        tiles: cache(100),
        sums: cache(200),
        images: ImageMetrics {
            served: 17,
            unfit: 18,
            other_versions: 19,
            read_failures: 20,
        },
        held: HeldMetrics {
            bytes: 13,
            images: 14,
        },
        counts: Counts {
            whole: [1, 2, 3, 4, 5, 6, 7, 8],
            cut: [41, 42, 43, 44, 45, 46],
            bytes: 10,
            open_now: [11, 12, 13],
            refused: [14, 15, 16],
            ousted: [24, 25, 26],
        },
        kept: 17,
        lost_lines: 21,
        started: 22,
    }
}

/// The link to a node of an odd name.
fn link(alloc: Global) -> Result<LinkMetrics, NoMemory> {
    Ok(LinkMetrics {
        name: String::from_str(alloc, "b\"\\\n\u{e9}")?,
        asks: Asks {
            answered: 31,
            refused: 32,
            failed: 33,
            timed_out: 34,
            skipped: 35,
        },
        state: State::Open {
            until: 1,
            wait: 1_000,
        },
        is_itself: false,
        refused_images: 36,
    })
}

/// That link, and how long asks took.
fn peers(alloc: Global) -> Result<PeerMetrics, NoMemory> {
    let mut links = Vec::new(alloc);
    links.push(link(alloc)?)?;
    Ok(PeerMetrics {
        links,
        durations: Durations {
            within: [21, 22, 23, 24, 25, 26, 27, 28],
            all: 29,
            micros: 1_500_030,
        },
    })
}

impl<R> Measure<R> for Fixed {
    fn measure(&self, _rt: &R) -> Metrics {
        metrics()
    }

    fn peers(&self, _rt: &R, alloc: Global) -> Result<PeerMetrics, NoMemory> {
        peers(alloc)
    }

    fn services(&self, _rt: &R) -> Services {
        self.services
    }
}

/// The counters as text, written by hand from the format's description.
const TEXT: &str = "# HELP iiif_tile_cache_gets_total Calls that asked for a value.
# TYPE iiif_tile_cache_gets_total counter
iiif_tile_cache_gets_total 100
";

/// The end of it.
const END: &str = "# HELP iiif_images Images that are served.
# TYPE iiif_images gauge
iiif_images 17
# HELP iiif_images_unfit Images that can't be served, and are left out.
# TYPE iiif_images_unfit gauge
iiif_images_unfit 18
# HELP iiif_images_other_versions_total Other nodes' asks for another version of an image, once a node and an image.
# TYPE iiif_images_other_versions_total counter
iiif_images_other_versions_total 19
# HELP iiif_read_failures_total Reads of images' files that failed.
# TYPE iiif_read_failures_total counter
iiif_read_failures_total 20
# HELP iiif_held_bytes Bytes of the images' files that are held in memory.
# TYPE iiif_held_bytes gauge
iiif_held_bytes 13
# HELP iiif_held_images Images whose files are held in memory.
# TYPE iiif_held_images gauge
iiif_held_images 14
# HELP iiif_connections_open Connections that are open.
# TYPE iiif_connections_open gauge
iiif_connections_open{listener=\"viewers\"} 11
iiif_connections_open{listener=\"peers\"} 12
iiif_connections_open{listener=\"statistics\"} 13
# HELP iiif_connections_refused_total Connections that were closed unanswered.
# TYPE iiif_connections_refused_total counter
iiif_connections_refused_total{listener=\"viewers\"} 14
iiif_connections_refused_total{listener=\"peers\"} 15
iiif_connections_refused_total{listener=\"statistics\"} 16
# HELP iiif_connections_ousted_total Connections that were closed for another one.
# TYPE iiif_connections_ousted_total counter
iiif_connections_ousted_total{listener=\"viewers\"} 24
iiif_connections_ousted_total{listener=\"peers\"} 25
iiif_connections_ousted_total{listener=\"statistics\"} 26
# HELP iiif_answers_cut_total Answers that were cut off.
# TYPE iiif_answers_cut_total counter
iiif_answers_cut_total{cause=\"viewer\"} 41
iiif_answers_cut_total{cause=\"slow\"} 42
iiif_answers_cut_total{cause=\"rate\"} 43
iiif_answers_cut_total{cause=\"source\"} 44
iiif_answers_cut_total{cause=\"memory\"} 45
iiif_answers_cut_total{cause=\"ousted\"} 46
# HELP iiif_answer_bytes_total Bytes of answers and their heads.
# TYPE iiif_answer_bytes_total counter
iiif_answer_bytes_total 10
# HELP iiif_answer_kept_most Samples and sums of shared values that were kept beside one answer, at most.
# TYPE iiif_answer_kept_most gauge
iiif_answer_kept_most 17
# HELP iiif_log_lines_lost_total Lines of the log that were lost.
# TYPE iiif_log_lines_lost_total counter
iiif_log_lines_lost_total 21
# HELP iiif_start_time_seconds When the server was started, in seconds since 1970.
# TYPE iiif_start_time_seconds gauge
iiif_start_time_seconds 22
# HELP iiif_answers_total Answers that were sent whole.
# TYPE iiif_answers_total counter
iiif_answers_total{status=\"200\"} 1
iiif_answers_total{status=\"303\"} 2
iiif_answers_total{status=\"400\"} 3
iiif_answers_total{status=\"404\"} 4
iiif_answers_total{status=\"405\"} 5
iiif_answers_total{status=\"500\"} 6
iiif_answers_total{status=\"501\"} 7
iiif_answers_total{status=\"other\"} 8
# HELP iiif_answer_seconds How long whole answers took, from their head to their last byte.
# TYPE iiif_answer_seconds histogram
iiif_answer_seconds_bucket{kind=\"image\",le=\"0.001\"} 51
iiif_answer_seconds_bucket{kind=\"image\",le=\"0.005\"} 52
iiif_answer_seconds_bucket{kind=\"image\",le=\"0.01\"} 53
iiif_answer_seconds_bucket{kind=\"image\",le=\"0.05\"} 54
iiif_answer_seconds_bucket{kind=\"image\",le=\"0.1\"} 55
iiif_answer_seconds_bucket{kind=\"image\",le=\"0.5\"} 56
iiif_answer_seconds_bucket{kind=\"image\",le=\"1\"} 57
iiif_answer_seconds_bucket{kind=\"image\",le=\"10\"} 58
iiif_answer_seconds_bucket{kind=\"image\",le=\"+Inf\"} 59
iiif_answer_seconds_sum{kind=\"image\"} 60e-6
iiif_answer_seconds_count{kind=\"image\"} 59
iiif_answer_seconds_bucket{kind=\"info\",le=\"0.001\"} 61
iiif_answer_seconds_bucket{kind=\"info\",le=\"0.005\"} 62
iiif_answer_seconds_bucket{kind=\"info\",le=\"0.01\"} 63
iiif_answer_seconds_bucket{kind=\"info\",le=\"0.05\"} 64
iiif_answer_seconds_bucket{kind=\"info\",le=\"0.1\"} 65
iiif_answer_seconds_bucket{kind=\"info\",le=\"0.5\"} 66
iiif_answer_seconds_bucket{kind=\"info\",le=\"1\"} 67
iiif_answer_seconds_bucket{kind=\"info\",le=\"10\"} 68
iiif_answer_seconds_bucket{kind=\"info\",le=\"+Inf\"} 69
iiif_answer_seconds_sum{kind=\"info\"} 70e-6
iiif_answer_seconds_count{kind=\"info\"} 69
iiif_answer_seconds_bucket{kind=\"other\",le=\"0.001\"} 0
iiif_answer_seconds_bucket{kind=\"other\",le=\"0.005\"} 0
iiif_answer_seconds_bucket{kind=\"other\",le=\"0.01\"} 1
iiif_answer_seconds_bucket{kind=\"other\",le=\"0.05\"} 1
iiif_answer_seconds_bucket{kind=\"other\",le=\"0.1\"} 1
iiif_answer_seconds_bucket{kind=\"other\",le=\"0.5\"} 1
iiif_answer_seconds_bucket{kind=\"other\",le=\"1\"} 1
iiif_answer_seconds_bucket{kind=\"other\",le=\"10\"} 1
iiif_answer_seconds_bucket{kind=\"other\",le=\"+Inf\"} 1
iiif_answer_seconds_sum{kind=\"other\"} 7000e-6
iiif_answer_seconds_count{kind=\"other\"} 1
# HELP iiif_peer_ask_seconds How long asks of other nodes took.
# TYPE iiif_peer_ask_seconds histogram
iiif_peer_ask_seconds_bucket{le=\"0.001\"} 21
iiif_peer_ask_seconds_bucket{le=\"0.005\"} 22
iiif_peer_ask_seconds_bucket{le=\"0.01\"} 23
iiif_peer_ask_seconds_bucket{le=\"0.05\"} 24
iiif_peer_ask_seconds_bucket{le=\"0.1\"} 25
iiif_peer_ask_seconds_bucket{le=\"0.5\"} 26
iiif_peer_ask_seconds_bucket{le=\"1\"} 27
iiif_peer_ask_seconds_bucket{le=\"10\"} 28
iiif_peer_ask_seconds_bucket{le=\"+Inf\"} 29
iiif_peer_ask_seconds_sum 1500030e-6
iiif_peer_ask_seconds_count 29
# HELP iiif_peer_asks_total Asks of another node by how they ended, and those that weren't made.
# TYPE iiif_peer_asks_total counter
iiif_peer_asks_total{peer=\"b\\\"\\\\\\n\u{e9}\",outcome=\"answered\"} 31
iiif_peer_asks_total{peer=\"b\\\"\\\\\\n\u{e9}\",outcome=\"refused\"} 32
iiif_peer_asks_total{peer=\"b\\\"\\\\\\n\u{e9}\",outcome=\"failed\"} 33
iiif_peer_asks_total{peer=\"b\\\"\\\\\\n\u{e9}\",outcome=\"late\"} 34
iiif_peer_asks_total{peer=\"b\\\"\\\\\\n\u{e9}\",outcome=\"left_alone\"} 35
# HELP iiif_peer_state 0 where another node is asked, 1 where one ask tries it, 2 where it is left alone, 3 where it is this node.
# TYPE iiif_peer_state gauge
iiif_peer_state{peer=\"b\\\"\\\\\\n\u{e9}\"} 2
# HELP iiif_peer_refused_images_total Images for which another node refused asks.
# TYPE iiif_peer_refused_images_total counter
iiif_peer_refused_images_total{peer=\"b\\\"\\\\\\n\u{e9}\"} 36
";

/// The answer to this input.
fn answered<R>(rt: &R, alloc: Global, input: &[u8]) -> Vec<u8> {
    let mut out = Vec::new(alloc);
    let _ = serve_metrics(rt, alloc, &WELL, input, &mut out);
    out
}

/// Whether the text begins and ends so.
fn is_text(alloc: Global, begin: &[u8], end: &[u8]) -> bool {
    let Ok(peers) = peers(alloc) else {
        return false;
    };
    match metrics_text(alloc, &metrics(), &peers) {
        Ok(text) => has_start(&text, begin) && has_end(&text, end),
        Err(fault) => is_unwanted(&fault),
    }
}

#[test]
fn text_has_each_counter(rt: HostRuntime) {
    assert!(rt; is_text(rt.alloc(), TEXT.as_bytes(), END.as_bytes()));
}

/// The answer to a call of the counters, before their number of bytes.
const HEAD: &[u8] =
    b"HTTP/1.1 200 OK\r\nContent-Type: text/plain; version=0.0.4\r\nContent-Length: ";

/// Whether what is written for this input begins and ends so.
fn is_answered<R>(rt: &R, alloc: Global, input: &[u8], begin: &[u8], end: &[u8]) -> bool {
    let out = answered(rt, alloc, input);
    has_start(&out, begin) && has_end(&out, end)
}

#[test]
fn get_of_the_counters_is_answered(rt: HostRuntime) {
    let input = b"GET /metrics HTTP/1.1\r\nHost: a\r\n\r\n".as_slice();
    assert!(rt; is_answered(&rt, rt.alloc(), input, HEAD, END.as_bytes()));
}

/// Whether who asks for the health of these is answered so.
fn is_health<R>(rt: &R, alloc: Global, source: &Fixed, wanted: &[u8]) -> bool {
    let input = b"GET /health HTTP/1.1\r\nHost: a\r\n\r\n".as_slice();
    let mut out = Vec::new(alloc);
    let _ = serve_metrics(rt, alloc, source, input, &mut out);
    is_same_text(out.as_slice(), wanted)
}

#[test]
fn get_of_the_health_is_answered(rt: HostRuntime) {
    let well =
        b"HTTP/1.1 200 OK\r\nContent-Type: text/plain\r\nContent-Length: 32\r\nConnection: close\r\n\r\n\
            viewers ok\nstatistics ok\nlog ok\n"
            .as_slice();
    let ill =
        b"HTTP/1.1 503 Service Unavailable\r\nContent-Type: text/plain\r\nContent-Length: 34\r\nConnection: close\r\n\r\n\
            viewers ok\nstatistics ok\nlog gone\n"
            .as_slice();
    assert!(rt; is_health(&rt, rt.alloc(), &WELL, well));
    assert!(rt; is_health(&rt, rt.alloc(), &ILL, ill));
}

/// Calls of another target, by another method and of no HTTP, and what is written for each.
static REFUSED: [(&[u8], &[u8]); 3] = [
    (
        b"GET / HTTP/1.1\r\n\r\n",
        b"HTTP/1.1 404 Not Found\r\nContent-Type: text/plain\r\nContent-Length: 0\r\nConnection: close\r\n\r\n",
    ),
    (
        b"POST /metrics HTTP/1.1\r\n\r\n",
        b"HTTP/1.1 405 Method Not Allowed\r\nContent-Type: text/plain\r\nAllow: GET\r\nContent-Length: 0\r\nConnection: close\r\n\r\n",
    ),
    (
        b"hello\r\n\r\n",
        b"HTTP/1.1 400 Bad Request\r\nContent-Type: text/plain\r\nContent-Length: 0\r\nConnection: close\r\n\r\n",
    ),
];

/// Whether just this is written for this input.
fn is_written<R>(rt: &R, alloc: Global, input: &[u8], wanted: &[u8]) -> bool {
    is_same(&answered(rt, alloc, input).as_slice(), &wanted)
}

#[test]
fn other_targets_and_methods_are_refused(rt: HostRuntime) {
    for (place, (input, wanted)) in REFUSED.iter().enumerate() {
        assert!(rt; is_written(&rt, rt.alloc(), input, wanted), "call {place}");
    }
}

/// Whether nothing is written where the third read of a call fails.
fn is_unanswered<R>(rt: &R, alloc: Global) -> bool {
    let reader = FailingReader {
        left: b"GET /metrics HTTP/1.1\r\n\r\n",
        piece: 5,
        reads: 2,
    };
    let mut out = Vec::new(alloc);
    serve_metrics(rt, alloc, &WELL, reader, &mut out).is_ok() && out.is_empty()
}

/// Whether a device with room for 20 bytes takes the first 20 of an answer.
fn is_cut<R>(rt: &R, alloc: Global) -> bool {
    let mut out = FailingWriter {
        taken: Vec::new(alloc),
        room: 20,
        piece: 7,
    };
    let input = b"GET / HTTP/1.1\r\n\r\n".as_slice();
    serve_metrics(rt, alloc, &WELL, input, &mut out).is_ok()
        && is_same_text(out.taken.as_slice(), b"HTTP/1.1 404 Not Fou")
}

#[test]
fn cut_heads_and_failing_devices_get_no_whole_answer(rt: HostRuntime) {
    assert!(rt; is_written(&rt, rt.alloc(), b"", b""));
    assert!(rt; is_written(&rt, rt.alloc(), b"GET /metr", b""));
    assert!(rt; is_unanswered(&rt, rt.alloc()));
    assert!(rt; is_cut(&rt, rt.alloc()));
}
