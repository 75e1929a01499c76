//! Connections, and what a watch is told of their answers.

use crate::fixtures::calls::{THREE_ANSWERS, THREE_REQUESTS};
use crate::fixtures::is_same;
use crate::server::answer_tests::IMAGE_HEAD;
use crate::server::cases::{Ask, IS_SO, Input, NOTHING_IS_READ, ONE_WORKER, Table, Text, Want};
use crate::server::nodes::{all_are, are_right};
use std::alloc::Global;
use std::sync::Wait;
use std::thread::Threads;
use std::time::Clock;

const BAD_HEAD: &[u8] =
    b"HTTP/1.1 400 Bad Request\r\nContent-Type: text/plain\r\nAccess-Control-Allow-Origin: *\r\nContent-Length: 8\r\n\
        Connection: close\r\n\r\nQ1 head\n";

const REDIRECT: &[u8] =
    b"HTTP/1.1 303 See Other\r\nAccess-Control-Allow-Origin: *\r\nLocation: http://localhost/iiif/a/info.json\r\nContent-Length: 0\r\n\r\n";

const REDIRECT_CLOSES: &[u8] =
    b"HTTP/1.1 303 See Other\r\nAccess-Control-Allow-Origin: *\r\nLocation: http://localhost/iiif/a/info.json\r\n\
        Content-Length: 0\r\nConnection: close\r\n\r\n";

/// Nothing, and all of it at once.
const AT_ONCE: Input<'static> = Input {
    first: b"",
    second: b"",
    piece: usize::MAX,
    reads: usize::MAX,
};

/// The first place at which the three requests are cut and not answered as they are to be.
fn wrong_place<R: Threads + Wait + Clock + Sync + AllocGlobal>(rt: &R) -> Option<usize> {
    for place in 0..=THREE_REQUESTS.len() {
        let (first, second) = THREE_REQUESTS.split_at(place.min(THREE_REQUESTS.len()));
        let input = Input {
            first,
            second,
            ..AT_ONCE
        };
        let cases = [(Ask::Stream(input), ALL_ANSWERED), NOTHING_IS_READ];
        if !are_right(rt, &ONE_WORKER, &cases) {
            return Some(place);
        }
    }
    None
}

const ALL_ANSWERED: Want<'static> = Want::Whole(0, Text::Is(THREE_ANSWERS));

#[test]
fn three_requests_cut_at_every_place(rt: HostRuntime) {
    if let Some(place) = wrong_place(&rt) {
        panic!(rt; "{place}");
    }
}

/// Where the head of each of the three requests ends, and where the answer to it does.
static ENDS: [(usize, usize); 3] = [(41, 122), (83, 263), (148, 433)];

/// The answer to so many bytes of the three requests: each head that has come whole, and nothing of what follows.
fn answers_to(count: usize) -> &'static [u8] {
    let mut answered = 0usize;
    for (head, answer) in &ENDS {
        if *head <= count {
            answered = *answer;
        }
    }
    let (answers, _) = THREE_ANSWERS.split_at(answered.min(THREE_ANSWERS.len()));
    answers
}

/// The first number of bytes behind which the three requests end and aren't answered as they are to be.
fn wrong_end<R: Threads + Wait + Clock + Sync + AllocGlobal>(rt: &R) -> Option<usize> {
    for count in 0..=THREE_REQUESTS.len() {
        let (first, _) = THREE_REQUESTS.split_at(count.min(THREE_REQUESTS.len()));
        let input = Input { first, ..AT_ONCE };
        let want = Want::Whole(0, Text::Is(answers_to(count)));
        if !are_right(rt, &ONE_WORKER, &[(Ask::Stream(input), want)]) {
            return Some(count);
        }
    }
    None
}

#[test]
fn three_requests_that_end_behind_every_byte(rt: HostRuntime) {
    assert!(rt; is_same(&answers_to(THREE_REQUESTS.len()), &THREE_ANSWERS));
    if let Some(count) = wrong_end(&rt) {
        panic!(rt; "{count}");
    }
}

/// The first number of bytes for which a writer has room and behind which something else follows.
fn wrong_room<R: Threads + Wait + Clock + Sync + AllocGlobal>(rt: &R) -> Option<usize> {
    for room in 0..THREE_ANSWERS.len() {
        let want = Want::Ended(room, 64, THREE_ANSWERS);
        if !are_right(rt, &ONE_WORKER, &[(Ask::Stream(IN_PIECES), want)]) {
            return Some(room);
        }
    }
    None
}

/// The three requests, at most 64 bytes a read.
const IN_PIECES: Input<'static> = Input {
    first: THREE_REQUESTS,
    piece: 64,
    ..AT_ONCE
};

#[test]
fn nothing_follows_an_answer_that_was_cut_off(rt: HostRuntime) {
    if let Some(room) = wrong_room(&rt) {
        panic!(rt; "{room}");
    }
}

const CALL: &[u8] = b"GET /iiif/a HTTP/1.1\r\n\r\n";

/// The input of a connection, and its answers.
struct Connection {
    what: &'static str,
    /// This, that so many times, and what is behind it,
    front: &'static [u8],
    part: &'static [u8],
    count: u32,
    end: &'static [u8],
    /// in pieces of so many bytes, in so many reads before the reader fails.
    piece: usize,
    reads: usize,
    /// So many redirects, and this behind them.
    redirects: u32,
    last: &'static [u8],
}

/// Nothing comes, and nothing is answered.
const SILENT: Connection = Connection {
    what: "nothing",
    front: b"",
    part: b"",
    count: 0,
    end: b"",
    piece: 4096,
    reads: usize::MAX,
    redirects: 0,
    last: b"",
};

/// Three calls in pieces of 60 bytes.
const THREE_CALLS: Connection = Connection {
    what: "three calls",
    part: CALL,
    count: 3,
    piece: 60,
    ..SILENT
};

/// Inputs of which some are no heads and some close, calls that came before a reader failed, 1,001 calls of which the last isn't
/// answered, and the beginning of a head with a field of 9,000 bytes.
static CONNECTIONS: [Connection; 13] = [
    Connection {
        what: "no target",
        front: b"GET\r\n\r\nGET /iiif/a HTTP/1.1\r\n\r\n",
        last: BAD_HEAD,
        ..SILENT
    },
    Connection {
        what: "a body",
        front: b"HEAD /iiif/a HTTP/1.1\r\nContent-Length: 5\r\n\r\nhello",
        last: BAD_HEAD,
        ..SILENT
    },
    Connection {
        what: "chunks",
        front: b"POST /iiif/a HTTP/1.1\r\nTransfer-Encoding: chunked\r\n\r\n0\r\n\r\n",
        last: BAD_HEAD,
        ..SILENT
    },
    Connection {
        what: "no UTF-8",
        front: b"GET /iiif/\xff HTTP/1.1\r\n\r\n",
        last: BAD_HEAD,
        ..SILENT
    },
    Connection {
        what: "a part of a head",
        front: b"GET /iiif/a HTT",
        ..SILENT
    },
    SILENT,
    Connection {
        what: "version 1.0",
        front: b"GET /iiif/a HTTP/1.0\r\n\r\nGET /iiif/a HTTP/1.1\r\n\r\n",
        last: REDIRECT_CLOSES,
        ..SILENT
    },
    Connection {
        what: "close",
        front: b"GET /iiif/a HTTP/1.1\r\nConnection: x, Close\r\n\r\nGET /iiif/a HTTP/1.1\r\n\r\n",
        last: REDIRECT_CLOSES,
        ..SILENT
    },
    Connection {
        what: "three calls, no read",
        reads: 0,
        ..THREE_CALLS
    },
    Connection {
        what: "three calls, one read",
        reads: 1,
        redirects: 2,
        ..THREE_CALLS
    },
    Connection {
        what: "three calls, two reads",
        reads: 2,
        redirects: 3,
        ..THREE_CALLS
    },
    Connection {
        what: "1,001 calls",
        part: CALL,
        count: 1001,
        redirects: 999,
        last: REDIRECT_CLOSES,
        ..SILENT
    },
    Connection {
        what: "a long head",
        front: b"GET /iiif/a HTTP/1.1\r\nX: ",
        part: b"x",
        count: 9000,
        last: BAD_HEAD,
        ..SILENT
    },
];

/// This, and so many times that.
fn repeated(alloc: Global, front: &[u8], part: &[u8], count: u32) -> Option<Vec<u8>> {
    let mut bytes = Vec::from_slice(alloc, front).ok()?;
    for _ in 0..count {
        bytes.extend_from_slice(part).ok()?;
    }
    Some(bytes)
}

/// Whether a connection is answered as it is to be, and nothing of the image is read for it.
fn is_served<R: Threads + Wait + Clock + Sync + AllocGlobal>(
    rt: &R,
    connection: &Connection,
) -> Option<bool> {
    let mut first = repeated(
        rt.alloc(),
        connection.front,
        connection.part,
        connection.count,
    )?;
    first.extend_from_slice(connection.end).ok()?;
    let mut text = repeated(rt.alloc(), b"", REDIRECT, connection.redirects)?;
    text.extend_from_slice(connection.last).ok()?;
    let input = Input {
        first: &first,
        second: b"",
        piece: connection.piece,
        reads: connection.reads,
    };
    let case = (Ask::Stream(input), Want::Whole(0, Text::Is(&text)));
    Some(are_right(rt, &ONE_WORKER, &[case, NOTHING_IS_READ]))
}

#[test]
fn heads_that_are_none_calls_that_close_and_no_more_than_a_thousand(rt: HostRuntime) {
    for connection in &CONNECTIONS {
        assert!(rt;
            is_same(&is_served(&rt, connection), &Some(true)),
            "{}",
            connection.what
        );
    }
}

/// The line of a call, and the beginning of a field: 25 bytes.
const LONG: Connection = Connection {
    what: "a long field",
    front: b"GET /iiif/a HTTP/1.1\r\nX: ",
    part: b"x",
    ..SILENT
};

/// The line of a call, fields, and another call behind an empty line.
const MANY: Connection = Connection {
    what: "64 fields",
    front: b"GET /iiif/a HTTP/1.1\r\n",
    part: b"A: 1\r\n",
    count: 64,
    end: b"\r\nGET /iiif/a HTTP/1.1\r\n\r\n",
    redirects: 2,
    ..SILENT
};

/// Heads of up to 64 fields and of more, whole ones and such that end sooner. A 65th line is refused whatever follows it.
static FIELDS: [Connection; 4] = [
    MANY,
    Connection {
        what: "64 fields, no end",
        end: b"",
        redirects: 0,
        ..MANY
    },
    Connection {
        what: "65 fields",
        count: 65,
        redirects: 0,
        last: BAD_HEAD,
        ..MANY
    },
    Connection {
        what: "65 fields, no end",
        count: 65,
        end: b"",
        redirects: 0,
        last: BAD_HEAD,
        ..MANY
    },
];

/// Heads of up to 8,192 bytes and of more, with the empty line at their end: 25 + 8,163 + 4. Behind a whole one another call is answered.
/// Of 8,192 bytes without an end no head can be made, and of one fewer one may come yet.
static LENGTHS: [Connection; 4] = [
    Connection {
        what: "8,192 bytes",
        count: 8163,
        end: b"\r\n\r\nGET /iiif/a HTTP/1.1\r\n\r\n",
        redirects: 2,
        ..LONG
    },
    Connection {
        what: "8,193 bytes",
        count: 8164,
        end: b"\r\n\r\nGET /iiif/a HTTP/1.1\r\n\r\n",
        last: BAD_HEAD,
        ..LONG
    },
    Connection {
        what: "8,191 bytes, no end",
        count: 8166,
        ..LONG
    },
    Connection {
        what: "8,192 bytes, no end",
        count: 8167,
        last: BAD_HEAD,
        ..LONG
    },
];

#[test]
fn heads_of_the_most_fields_and_bytes_are_answered_and_longer_ones_close(rt: HostRuntime) {
    for connections in [&FIELDS, &LENGTHS] {
        for connection in connections {
            assert!(rt;
                is_same(&is_served(&rt, connection), &Some(true)),
                "{}",
                connection.what
            );
        }
    }
}

/// The answers to a redirect, the head of a refusal, a method that isn't answered and bytes that are no head.
const FOUR_ANSWERS: &[u8] =
    b"HTTP/1.1 303 See Other\r\nAccess-Control-Allow-Origin: *\r\nLocation: http://localhost/iiif/a/info.json\r\n\
        Content-Length: 0\r\n\r\nHTTP/1.1 404 Not Found\r\nContent-Type: text/plain\r\nAccess-Control-Allow-Origin: \
        *\r\nContent-Length: 14\r\n\r\nHTTP/1.1 405 Method Not Allowed\r\nContent-Type: text/plain\r\n\
        Access-Control-Allow-Origin: *\r\nAllow: GET, HEAD\r\nContent-Length: 10\r\n\r\nQ2 method\nHTTP/1.1 400 Bad \
        Request\r\nContent-Type: text/plain\r\nAccess-Control-Allow-Origin: *\r\nContent-Length: 8\r\nConnection: \
        close\r\n\r\nQ1 head\n";

/// Inputs, what is answered, and what a watch is told of them: how many were begun, sent whole and cut off, how many had a call, and the
/// sums of their bytes and of their statuses.
static TOLD: [Table; 2] = [
    (
        "four whole answers",
        ONE_WORKER,
        &[
            (
                Ask::Watched(Input {
                    first: b"GET /iiif/a HTTP/1.1\r\n\r\nHEAD /iiif/b HTTP/1.1\r\n\r\nPUT /iiif/a HTTP/1.1\r\n\r\nhello\r\n\r\n",
                    ..AT_ONCE
                }),
                Want::Whole(0, Text::Is(FOUR_ANSWERS)),
            ),
            (Ask::Told([4, 4, 0, 3, 499, 303 + 404 + 405 + 400]), IS_SO),
        ],
    ),
    (
        "one that is cut off",
        ONE_WORKER,
        &[
            (
                Ask::Watched(Input {
                    first: b"GET /iiif/a/full/max/0/default.tif HTTP/1.1\r\n\r\n",
                    ..AT_ONCE
                }),
                Want::Ended(100, 64, IMAGE_HEAD),
            ),
            (Ask::Told([1, 0, 1, 1, 100, 0]), IS_SO),
        ],
    ),
];

#[test]
fn each_answer_is_told(rt: HostRuntime) {
    all_are(&rt, &TOLD);
}
