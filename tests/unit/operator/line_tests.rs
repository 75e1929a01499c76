//! Lines of answers. The instants were taken from `date -u -d @SECONDS +%FT%T`.

use crate::fixtures::{is_same_text, is_unwanted};
use iiif_log::{
    Answered, CutCause, FailedRead, Failure, Moment, Outcome, failed_line_bytes, line_bytes,
    lost_line_bytes,
};
use std::alloc::Global;

/// An answer by its instant in milliseconds, method, target, outcome, bytes and milliseconds, and its line.
#[derive(Clone, Copy)]
struct Row {
    at: u64,
    method: &'static [u8],
    target: &'static [u8],
    outcome: Outcome,
    bytes: u64,
    millis: u64,
    line: &'static [u8],
}

/// Whether an answer has this line.
fn is_right(alloc: Global, row: &Row) -> bool {
    let answered = Answered {
        at: Moment::of_millis(row.at),
        method: row.method,
        target: row.target,
        outcome: row.outcome,
        bytes: row.bytes,
        millis: row.millis,
    };
    match line_bytes(alloc, &answered) {
        Ok(line) => is_same_text(line.as_slice(), row.line),
        Err(fault) => is_unwanted(&fault),
    }
}

const WHOLE: Row = Row {
    at: 1_795_434_125_123,
    method: b"GET",
    target: b"/iiif/a/full/max/0/default.tif",
    outcome: Outcome::Whole(200),
    bytes: 65_536,
    millis: 12,
    line: b"2026-11-23T11:42:05.123Z GET 200 65536 12 /iiif/a/full/max/0/default.tif\n",
};

#[test]
fn whole_answer_has_its_line(rt: HostRuntime) {
    assert!(rt; is_right(rt.alloc(), &WHOLE));
}

static CUT: Row = Row {
    at: 951_782_399_007,
    method: b"GET",
    target: b"/a\n GET \"'\\x0A\x7f\xc3\xa9",
    outcome: Outcome::Cut(CutCause::Source),
    bytes: 0,
    millis: 18_446_744_073_709_551_615,
    line: b"2000-02-28T23:59:59.007Z GET - 0 18446744073709551615 /a\\x0A\\x20GET\\x20\\x22\\x27\\x5Cx0A\\x7F\\xC3\\xA9 cut source\n",
};

#[test]
fn cut_answer_has_its_line(rt: HostRuntime) {
    assert!(rt; is_right(rt.alloc(), &CUT));
}

static OUSTED: Row = Row {
    outcome: Outcome::Cut(CutCause::Ousted),
    bytes: 9,
    line: b"2026-11-23T11:42:05.123Z GET - 9 12 /iiif/a/full/max/0/default.tif cut ousted\n",
    ..WHOLE
};

#[test]
fn answer_cut_for_another_connection_says_so(rt: HostRuntime) {
    assert!(rt; is_right(rt.alloc(), &OUSTED));
}

static NO_CALL: Row = Row {
    at: u64::MAX,
    method: b"",
    target: b"",
    outcome: Outcome::Whole(400),
    bytes: 130,
    millis: 0,
    line: b"9999-12-31T23:59:59.999Z \"\" 400 130 0 \"\"\n",
};

#[test]
fn answer_to_no_call_has_its_line(rt: HostRuntime) {
    assert!(rt; is_right(rt.alloc(), &NO_CALL));
}

static FAILED: [Row; 2] = [
    Row {
        outcome: Outcome::Failed(Failure::Source),
        bytes: 117,
        line: b"2026-11-23T11:42:05.123Z GET 500 117 12 /iiif/a/full/max/0/default.tif L1 source\n",
        ..WHOLE
    },
    Row {
        outcome: Outcome::Failed(Failure::Memory),
        bytes: 117,
        line: b"2026-11-23T11:42:05.123Z GET 500 117 12 /iiif/a/full/max/0/default.tif L2 memory\n",
        ..WHOLE
    },
];

#[test]
fn failed_answer_says_why_in_its_own_words(rt: HostRuntime) {
    for row in &FAILED {
        assert!(rt; is_right(rt.alloc(), row));
    }
}

#[test]
fn failed_read_has_its_line(rt: HostRuntime) {
    let told = FailedRead {
        at: Moment::of_millis(1_795_434_125_123),
        path: b"/srv/a b.tif",
        place: 18_446_744_073_709_551_615,
        reason: b"too-many-files",
    };
    let wanted = b"2026-11-23T11:42:05.123Z read-failed /srv/a\\x20b.tif 18446744073709551615 too-many-files\n";
    match failed_line_bytes(rt.alloc(), &told) {
        Ok(line) => assert!(rt; is_same_text(line.as_slice(), wanted.as_slice())),
        Err(fault) => assert!(rt; is_unwanted(&fault)),
    }
}

/// Whether this is the line that tells of so many lost.
fn is_lost_line(alloc: Global, lost: u64, wanted: &[u8]) -> bool {
    match lost_line_bytes(alloc, lost) {
        Ok(line) => is_same_text(line.as_slice(), wanted),
        Err(fault) => is_unwanted(&fault),
    }
}

#[test]
fn lost_lines_are_counted_in_a_line(rt: HostRuntime) {
    assert!(rt; is_lost_line(rt.alloc(), 12, b"lost 12\n"));
}

#[test]
fn clock_is_past_2023(rt: HostRuntime) {
    assert!(rt; Moment::now(&rt).millis > 1_700_000_000_000);
}
