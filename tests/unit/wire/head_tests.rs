//! Heads as they stand on the wire.

use crate::fixtures::{is_missing, is_same, is_same_text, is_unwanted, is_written};
use iiif_fault::Numbered;
use iiif_http_front::{Call, Field, HeadFault, Heads, Status, head_bytes};
use iiif_io::Inlet;
use iiif_io::fakes::FailingReader;
use std::alloc::Global;
use std::io;
use std::io::{ErrorKind, Read};
use std::sync::atomic::{AtomicUsize, Ordering};

const REQUESTS: &str =
    "GET /iiif/a HTTP/1.1\r\nHost: localhost\r\n\r\nPOST /iiif/a/full/max/0/default.tif HTTP/1.1\r\nHost: \
        localhost\r\n\r\nHEAD /iiif/b HTTP/1.1\nHost: localhost\n\n";

/// The lengths of the first head, of the first two, and of all.
const FIRST: usize = 41;

const SECOND: usize = 106;

const THIRD: usize = 145;

/// A reader that gives one part and then the other.
#[derive(Drop)]
struct Parts<'a> {
    first: &'a [u8],
    second: &'a [u8],
}

impl<'a> Read for Parts<'a> {
    fn read(&mut self, buffer: &mut [u8]) -> io::Result<usize> {
        if self.first.is_empty() {
            self.first = self.second;
            self.second = b"";
        }
        self.first.read(buffer)
    }
}

impl<'a> Inlet for Parts<'a> {
    ghost fails = { λ _ _. Unit {0} };

    fn pull(&mut self, buffer: &mut [u8]) -> io::Result<usize> {
        self.read(buffer)
    }
}

/// A reader that fails at its second read alone.
#[derive(Drop)]
struct FailsOnce<'a> {
    left: &'a [u8],
    reads: u32,
}

impl<'a> Read for FailsOnce<'a> {
    fn read(&mut self, buffer: &mut [u8]) -> io::Result<usize> {
        self.reads = self.reads.saturating_add(1);
        if self.reads == 2 {
            return Err(io::Error::from(ErrorKind::ConnectionReset));
        }
        let count = buffer.len().min(8);
        self.left.read(&mut buffer[..count])
    }
}

impl<'a> Inlet for FailsOnce<'a> {
    ghost fails = { λ _ _. Unit {0} };

    fn pull(&mut self, buffer: &mut [u8]) -> io::Result<usize> {
        self.read(buffer)
    }
}

fn whole(text: &[u8], piece: usize) -> FailingReader<'_> {
    FailingReader {
        left: text,
        piece,
        reads: usize::MAX,
    }
}

/// The result of reading an input.
#[derive(Clone, Copy)]
enum Said {
    /// A call: its method, its target, and whether the connection closes after the answer.
    Call(&'static str, &'static str, bool),
    End,
    /// A fault, and the same where it is asked for again.
    Fault(HeadFault),
}

const CUT: Said = Said::Fault(HeadFault::Cut);

const IO: Said = Said::Fault(HeadFault::Io);

const GET: Said = Said::Call("GET", "/iiif/a", false);

const POST: Said = Said::Call("POST", "/iiif/a/full/max/0/default.tif", false);

const HEAD: Said = Said::Call("HEAD", "/iiif/b", false);

/// The results of reading the three requests.
static CALLS: [Said; 4] = [GET, POST, HEAD, Said::End];

const BAD: [Said; 1] = [Said::Fault(HeadFault::Bad)];

const TOO_LONG: [Said; 1] = [Said::Fault(HeadFault::TooLong)];

/// A call for `/`, after which the connection stays.
const STAYS: [Said; 2] = [Said::Call("GET", "/", false), Said::End];

/// Such a call, after which it closes.
const CLOSES: [Said; 2] = [Said::Call("GET", "/", true), Said::End];

/// Whether a call is the one that is to come.
fn is_call(call: &Call, to_come: Said) -> bool {
    match to_come {
        Said::Call(method, target, close) => {
            is_same_text(call.method.as_bytes(), method.as_bytes())
                && is_same_text(call.target.as_slice(), target.as_bytes())
                && is_same(&call.close, &close)
        }
        _ => false,
    }
}

/// Whether the next head is refused for this reason.
fn fails<I: Inlet + Drop>(heads: &mut Heads<I>, to_come: HeadFault) -> bool {
    match heads.read_head() {
        Ok(_) => false,
        Err(fault) => is_same(&fault, &to_come),
    }
}

/// Whether what is to come is read next.
fn says<I: Inlet + Drop>(heads: &mut Heads<I>, to_come: Said) -> bool {
    if let Said::Fault(fault) = to_come {
        return fails(heads, fault) && fails(heads, fault);
    }
    match heads.read_head() {
        Ok(Some(call)) => is_call(&call, to_come),
        Ok(None) => matches!(to_come, Said::End),
        Err(fault) => is_unwanted(&fault),
    }
}

/// Whether this is read of what a reader gives.
fn gives<I: Inlet + Drop>(alloc: Global, reader: I, want: &[Said]) -> bool {
    let Ok(mut heads) = Heads::new(alloc, reader) else {
        return false;
    };
    for to_come in want {
        if !says(&mut heads, *to_come) {
            return false;
        }
    }
    true
}

/// Reads a text that comes in large pieces.
fn reads(alloc: Global, text: &[u8], want: &[Said]) -> bool {
    gives(alloc, whole(text, 1000), want)
}

/// Whether this is read of a text that comes in two parts, of which the first has so many bytes.
fn reads_two_parts(alloc: Global, text: &[u8], place: usize, want: &[Said]) -> bool {
    let (first, second) = text.split_at(place.min(text.len()));
    gives(alloc, Parts { first, second }, want)
}

#[test]
fn three_requests_cut_at_every_place(rt: HostRuntime) {
    let text = REQUESTS.as_bytes();
    for place in 0..=text.len() {
        assert!(rt; reads_two_parts(rt.alloc(), text, place, &CALLS), "{place}");
    }
    assert!(rt; gives(rt.alloc(), whole(text, 1), &CALLS));
    assert!(rt; gives(rt.alloc(), text, &CALLS));
}

/// The least and the greatest count of bytes of the three requests, and what is read of so many.
static FRONTS: [(usize, usize, &[Said]); 6] = [
    (0, 0, &[Said::End]),
    (1, FIRST - 1, &[CUT]),
    (FIRST, FIRST, &[GET, Said::End]),
    (FIRST + 1, SECOND - 1, &[GET, CUT]),
    (SECOND, SECOND, &[GET, POST, Said::End]),
    (SECOND + 1, THIRD - 1, &[GET, POST, CUT]),
];

/// Whether this is read of so many bytes of the three requests.
fn reads_front(alloc: Global, count: usize, want: &[Said]) -> bool {
    let text = REQUESTS.as_bytes();
    let (front, _) = text.split_at(count.min(text.len()));
    gives(alloc, whole(front, 7), want)
}

#[test]
fn input_cut_after_each_byte(rt: HostRuntime) {
    assert!(rt; is_same(&REQUESTS.len(), &THIRD));
    for (least, most, want) in FRONTS.iter() {
        for count in *least..=*most {
            assert!(rt; reads_front(rt.alloc(), count, *want), "{count} bytes");
        }
    }
}

/// Bytes, what stands behind them so many times, and an end.
fn repeated(
    alloc: Global,
    front: &[u8],
    again: &[u8],
    times: usize,
    end: &[u8],
) -> Option<Vec<u8>> {
    let mut text = Vec::new(alloc);
    let mut is_whole = text.extend_from_slice(front).is_ok();
    for _ in 0..times {
        is_whole = is_whole && text.extend_from_slice(again).is_ok();
    }
    if is_whole && text.extend_from_slice(end).is_ok() {
        Some(text)
    } else {
        None
    }
}

/// Whether a head of so many bytes, which has them in its one field, is so long, and so many bytes of it are read so.
fn reads_long(alloc: Global, length: usize, taken: usize, want: &[Said]) -> bool {
    let times = length.saturating_sub(24);
    let Some(text) = repeated(alloc, b"GET /a HTTP/1.1\r\nA: ", b"x", times, b"\r\n\r\n") else {
        return false;
    };
    let (front, _) = text.split_at(text.len().min(taken));
    is_same(&text.len(), &length) && reads(alloc, front, want)
}

const FOR_A: [Said; 2] = [Said::Call("GET", "/a", false), Said::End];

/// How long heads are, how many bytes of them come, and what is read. The last is unfinished.
static LENGTHS: [(usize, usize, &[Said]); 4] = [
    (8192, 8192, &FOR_A),
    (8193, 8193, &TOO_LONG),
    (9000, 9000, &TOO_LONG),
    (9000, 8192, &TOO_LONG),
];

#[test]
fn head_of_8192_bytes_is_the_longest(rt: HostRuntime) {
    for (length, taken, want) in LENGTHS.iter() {
        let right = reads_long(rt.alloc(), *length, *taken, *want);
        assert!(rt; right, "{taken} of {length} bytes");
    }
}

/// Whether a head with so many fields, and what stands behind them, is read so.
fn reads_fields(alloc: Global, count: usize, end: &[u8], want: &[Said]) -> bool {
    match repeated(alloc, b"\r\nGET / HTTP/1.1\r\n", b"A: 1\r\n", count, end) {
        Some(text) => reads(alloc, &text, want),
        None => is_missing(),
    }
}

/// How many fields heads have, what stands behind these, and what is read of them. The last four are unfinished.
static FIELDS: [(usize, &[u8], &[Said]); 6] = [
    (64, b"\r\n", &STAYS),
    (65, b"\r\n", &BAD),
    (64, b"", &[CUT]),
    (64, b"A: 1", &[CUT]),
    (65, b"", &BAD),
    (65, b"A: 1", &BAD),
];

#[test]
fn head_has_64_fields_at_most(rt: HostRuntime) {
    for (count, end, want) in FIELDS.iter() {
        assert!(rt;
            reads_fields(rt.alloc(), *count, *end, *want),
            "{count} fields"
        );
    }
}

/// Heads, and what is read of them.
static HEADS: [(&[u8], &[Said]); 16] = [
    // They announce a body.
    (b"GET / HTTP/1.1\r\nContent-Length: 5\r\n\r\n", &BAD),
    (b"GET / HTTP/1.1\r\ncontent-length: 00\r\n\r\n", &BAD),
    (b"GET / HTTP/1.1\r\ntransfer-ENCODING: gzip\r\n\r\n", &BAD),
    (b"GET / HTTP/1.1\r\nTransfer-Encoding:\r\n\r\n", &BAD),
    (b"GET / HTTP/1.1\r\nContent-Length: 0 \r\n\r\n", &STAYS),
    // They are no heads.
    (b"GET / HTTP/2.0\r\n\r\n", &BAD),
    (b"GET / HTTP/1.1\r\nA 1\r\n\r\n", &BAD),
    (b"G\0T / HTTP/1.1\r\n\r\n", &BAD),
    (b"GET /\xFF HTTP/1.1\r\n\r\n", &BAD),
    // They say whether the connection closes.
    (b"GET / HTTP/1.0\r\n\r\n", &CLOSES),
    (
        b"GET / HTTP/1.1\r\nConnection: Keep-Alive, Close\r\n\r\n",
        &CLOSES,
    ),
    (
        b"GET / HTTP/1.1\r\nconnection: x ,\tclose\t\r\n\r\n",
        &CLOSES,
    ),
    (b"GET / HTTP/1.1\r\nConnection: keep-alive\r\n\r\n", &STAYS),
    (b"GET / HTTP/1.1\r\nConnection: closed\r\n\r\n", &STAYS),
    (b"GET / HTTP/1.1\r\nX-Connection: close\r\n\r\n", &STAYS),
    // A long method is kept whole.
    (
        b"BASELINE-CONTROL-OF /a HTTP/1.1\r\n\r\n",
        &[Said::Call("BASELINE-CONTROL-OF", "/a", false), Said::End],
    ),
];

#[test]
fn heads_are_read_or_bad(rt: HostRuntime) {
    for (number, (text, want)) in HEADS.iter().enumerate() {
        assert!(rt; reads(rt.alloc(), *text, *want), "head {number}");
    }
}

#[test]
fn heads_cut_at_every_place_are_read_or_bad(rt: HostRuntime) {
    for (number, (text, want)) in HEADS.iter().enumerate() {
        for place in 0..=text.len() {
            let right = reads_two_parts(rt.alloc(), *text, place, *want);
            assert!(rt; right, "head {number}, cut at {place}");
        }
        assert!(rt; gives(rt.alloc(), whole(*text, 1), *want), "head {number} in single bytes");
    }
}

/// A reader that gives at most `piece` bytes a read, and counts its reads.
#[derive(Drop)]
struct Counted<'a> {
    left: &'a [u8],
    piece: usize,
    reads: &'a AtomicUsize,
}

impl<'a> Read for Counted<'a> {
    fn read(&mut self, buffer: &mut [u8]) -> io::Result<usize> {
        let _ = self.reads.fetch_add(1, Ordering::Relaxed);
        let count = buffer.len().min(self.piece);
        self.left.read(&mut buffer[..count])
    }
}

impl<'a> Inlet for Counted<'a> {
    ghost fails = { λ _ _. Unit {0} };

    fn pull(&mut self, buffer: &mut [u8]) -> io::Result<usize> {
        self.read(buffer)
    }
}

/// Whether this is read of a text in pieces, with so many reads made by the time each is known.
fn reads_by(alloc: Global, text: &[u8], piece: usize, want: &[(Said, usize)]) -> bool {
    let reads = AtomicUsize::new(0);
    let reader = Counted {
        left: text,
        piece,
        reads: &reads,
    };
    let Ok(mut heads) = Heads::new(alloc, reader) else {
        return false;
    };
    for (to_come, count) in want {
        if !says(&mut heads, *to_come) || !is_same(&reads.load(Ordering::Relaxed), count) {
            return false;
        }
    }
    true
}

/// The three requests, and how many reads are made for each where they come byte by byte: none behind the last byte of its head.
const BY_BYTES: [(Said, usize); 4] = [
    (GET, FIRST),
    (POST, SECOND),
    (HEAD, THIRD),
    (Said::End, THIRD + 1),
];

/// Reads made by then if one piece has all three heads: the second and the third are in the buffer.
const AT_ONCE: [(Said, usize); 4] = [(GET, 1), (POST, 1), (HEAD, 1), (Said::End, 2)];

#[test]
fn no_read_is_made_behind_a_whole_head(rt: HostRuntime) {
    let text = REQUESTS.as_bytes();
    assert!(rt; reads_by(rt.alloc(), text, 1, &BY_BYTES), "single bytes");
    assert!(rt; reads_by(rt.alloc(), text, 1000, &AT_ONCE), "one piece");
}

/// Malformed heads, and how many single bytes are read before each is refused: the first byte, and then whole lines. A parse at each byte
/// would refuse all of them at the byte that is wrong.
static MALFORMED: [(&[u8], usize); 4] = [
    (b"\0ET / HTTP/1.1\r\n\r\n", 1),
    (b"G\0T / HTTP/1.1\r\n\r\n", 16),
    (b"GET / HTTP/1.1\r\nA\0: 1\r\nB: 2\r\n\r\n", 23),
    (b"GET / HTTP/1.1\nA: 1\nB\0: 2\nC: 3\n\n", 26),
];

#[test]
fn malformed_heads_in_single_bytes_are_refused_as_their_line_ends(rt: HostRuntime) {
    for (number, (text, reads)) in MALFORMED.iter().enumerate() {
        let want = [(Said::Fault(HeadFault::Bad), *reads)];
        assert!(rt; reads_by(rt.alloc(), *text, 1, &want), "head {number}");
    }
}

/// Whether this is read of the three requests where so many bytes come at once, and reads fail after so many.
fn reads_failing(alloc: Global, piece: usize, reads: usize, want: &[Said]) -> bool {
    let reader = FailingReader {
        left: REQUESTS.as_bytes(),
        piece,
        reads,
    };
    gives(alloc, reader, want)
}

/// Whether one read that fails is a fault for good.
fn fails_for_good(alloc: Global, want: &[Said]) -> bool {
    let reader = FailsOnce {
        left: REQUESTS.as_bytes(),
        reads: 0,
    };
    gives(alloc, reader, want)
}

/// How many bytes come at once, how many reads don't fail, and what is read of the three requests: calls that came are answered before
/// a failure.
static FAILING: [(usize, usize, &[Said]); 5] = [
    (10, 0, &[IO]),
    (10, 1, &[IO]),
    (10, 2, &[IO]),
    (10, 3, &[IO]),
    (1000, 1, &[GET, POST, HEAD, IO]),
];

#[test]
fn failed_read_is_answered_again(rt: HostRuntime) {
    for (piece, reads, want) in FAILING.iter() {
        assert!(rt; reads_failing(rt.alloc(), *piece, *reads, *want), "{reads}");
    }
    let (_, _, want) = FAILING[0];
    assert!(rt; fails_for_good(rt.alloc(), want));
}

/// Faults, and their numbers.
static FAULTS: [(HeadFault, u8); 5] = [
    (HeadFault::Bad, 1),
    (HeadFault::TooLong, 2),
    (HeadFault::Cut, 3),
    (HeadFault::Io, 4),
    (HeadFault::NoMemory, 5),
];

#[test]
fn faults_have_their_numbers_and_texts(rt: HostRuntime) {
    for (fault, number) in FAULTS.iter() {
        assert!(rt; is_same(&fault.number(), number));
    }
    assert!(rt; is_written(rt.alloc(), &HeadFault::Cut, "the input ended inside a head"));
}

const ALLOW_ORIGIN: Field<'static> = Field {
    name: "Access-Control-Allow-Origin",
    value: "*",
};

/// A redirect's field.
const LOCATION: Field<'static> = Field {
    name: "Location",
    value: "http://localhost/iiif/a/info.json",
};

const TEXT: Field<'static> = Field {
    name: "Content-Type",
    value: "text/plain",
};

const ALLOW: Field<'static> = Field {
    name: "Allow",
    value: "GET, HEAD",
};

const IMAGE: Field<'static> = Field {
    name: "Content-Type",
    value: "image/tiff",
};

const LINK: Field<'static> = Field {
    name: "Link",
    value: "<http://localhost/iiif/a/full/max/0/default.tif>;rel=\"canonical\"",
};

const SEE_OTHER: &str =
    "HTTP/1.1 303 See Other\r\nAccess-Control-Allow-Origin: *\r\nLocation: http://localhost/iiif/a/info.json\r\nContent-Length: 0\r\n\r\n";

const NOT_ALLOWED: &str =
    "HTTP/1.1 405 Method Not Allowed\r\nContent-Type: text/plain\r\nAccess-Control-Allow-Origin: *\r\nAllow: GET, \
        HEAD\r\nContent-Length: 10\r\n\r\n";

const FOUND: &str =
    "HTTP/1.1 200 OK\r\nContent-Type: image/tiff\r\nAccess-Control-Allow-Origin: *\r\nLink: \
        <http://localhost/iiif/a/full/max/0/default.tif>;rel=\"canonical\"\r\nContent-Length: 190\r\n\r\n";

/// Answers: the status, the fields, how long the body is, whether the connection closes, and the head.
static ANSWERS: [(u16, &[Field], u64, bool, &str); 4] = [
    (303, &[ALLOW_ORIGIN, LOCATION], 0, false, SEE_OTHER),
    (405, &[TEXT, ALLOW_ORIGIN, ALLOW], 10, false, NOT_ALLOWED),
    (200, &[IMAGE, ALLOW_ORIGIN, LINK], 190, false, FOUND),
    (501, &[], u64::MAX, true, LAST),
];

const LAST: &str =
    "HTTP/1.1 501 Not Implemented\r\nContent-Length: 18446744073709551615\r\nConnection: close\r\n\r\n";

/// Whether an answer's head is this text.
fn heads(
    alloc: Global,
    number: u16,
    fields: &[Field<'_>],
    (length, close): (u64, bool),
    want: &str,
) -> bool {
    let Some(status) = Status::from_code(number) else {
        return is_missing();
    };
    match head_bytes(alloc, status, fields, length, close) {
        Ok(head) => is_same_text(head.as_slice(), want.as_bytes()),
        Err(fault) => is_unwanted(&fault),
    }
}

#[test]
fn heads_of_four_answers(rt: HostRuntime) {
    for (number, fields, length, close, want) in ANSWERS.iter() {
        assert!(rt;
            heads(rt.alloc(), *number, *fields, (*length, *close), *want),
            "{number}"
        );
    }
}

/// The status lines of RFC 9110, section 15, that the server writes.
static STATUS_LINES: [(u16, &str); 8] = [
    (200, "HTTP/1.1 200 OK\r\nContent-Length: 0\r\n\r\n"),
    (303, "HTTP/1.1 303 See Other\r\nContent-Length: 0\r\n\r\n"),
    (400, "HTTP/1.1 400 Bad Request\r\nContent-Length: 0\r\n\r\n"),
    (404, "HTTP/1.1 404 Not Found\r\nContent-Length: 0\r\n\r\n"),
    (405, "HTTP/1.1 405 Method Not Allowed\r\nContent-Length: 0\r\n\r\n"),
    (500, "HTTP/1.1 500 Internal Server Error\r\nContent-Length: 0\r\n\r\n"),
    (501, "HTTP/1.1 501 Not Implemented\r\nContent-Length: 0\r\n\r\n"),
    (503, "HTTP/1.1 503 Service Unavailable\r\nContent-Length: 0\r\n\r\n"),
];

#[test]
fn each_status_has_its_line(rt: HostRuntime) {
    for (number, want) in STATUS_LINES.iter() {
        assert!(rt; heads(rt.alloc(), *number, &[], (0, false), *want), "{number}");
    }
    for number in [0, 100, 204, 302, 502, 65535] {
        assert!(rt; Status::from_code(number).is_none(), "{number}");
    }
}
