//! The lines of the log.

use crate::connections::nodes::{SAMPLE, Scene};
use crate::connections::pipe::{Pipe, given_to, new_pipe, read_from_now, wait_for_line};
use crate::connections::viewers::{Sends, Text, connected, is_answered, is_redirected};
use crate::connections::visits::{ANY, Visit, logged};
use crate::fixtures::{has_end, is_same, is_unwanted};
use iiif_connections::{Cause, ConnectionWatch, Cut, Nodes, Sent, Watch, Watcher};
use iiif_http_front::{Call, Method};
use iiif_listener::Pace;
use iiif_keys::Fault;
use iiif_log::write_lines;
use std::alloc::Global;
use std::io::Write;
use std::net::{TcpListener, TcpStream};
use std::str;
use std::sync::Wait;
use std::test::Fail;
use std::time::{Clock, Duration};

/// The sample, by a node that logs.
const LOGGED: Scene<'static, 'static> = Scene {
    statistics: Some(ANY),
    logs: true,
    ..SAMPLE
};

/// A redirect, a method that isn't answered, a head alone, and what is no head. The answers have as many bytes as their lines say.
const FOUR: Sends<'static> = Sends {
    request: b"GET /iiif/a HTTP/1.1\r\n\r\nPOST /iiif/a HTTP/1.1\r\n\r\nHEAD /iiif/a/full/max/0/default.tif HTTP/1.1\r\n\r\n:\r\n\r\n",
    ends: false,
    wanted: Text::Long(122 + 141 + 170 + 132),
};

/// The lines that are wanted, without the moment: what stands before the milliseconds, and behind them. The bytes are those of each
/// answer's head and body.
static FOUR_LINES: [(&str, &str); 4] = [
    ("GET 303 122", "/iiif/a"),
    ("POST 405 141", "/iiif/a"),
    ("HEAD 200 170", "/iiif/a/full/max/0/default.tif"),
    ("\"\" 400 132", "\"\""),
];

/// Whether a line has a moment of 24 bytes, this, milliseconds, and that.
fn is_line(line: &str, front: &str, target: &str) -> bool {
    let Some((moment, rest)) = line.split_once(' ') else {
        return false;
    };
    let Some((words, last)) = rest.rsplit_once(' ') else {
        return false;
    };
    let Some((first, millis)) = words.rsplit_once(' ') else {
        return false;
    };
    is_same(&moment.len(), &24)
        && is_same(&first, &front)
        && !millis.is_empty()
        && is_same(&last, &target)
}

/// Whether a log has just those lines.
fn has_four_lines(log: &[u8]) -> bool {
    let Ok(text) = str::from_utf8(log) else {
        return false;
    };
    for (line, (front, target)) in text.lines().zip(&FOUR_LINES) {
        if !is_line(line, front, target) {
            return false;
        }
    }
    is_same(&text.lines().count(), &4)
}

#[test]
fn each_answer_has_its_line(rt: HostRuntime) {
    let pipe = new_pipe(rt.alloc(), true);
    assert!(rt; logged(&rt, &rt, &LOGGED, Visit::Sends(&FOUR), &pipe).is_some());
    assert!(rt; has_four_lines(&given_to(pipe)));
}

/// A call of this target.
fn call_of(alloc: Global, target: &[u8]) -> Result<Call, Fail> {
    Ok(Call {
        method: Method::Get,
        target: Vec::from_slice(alloc, target)?,
        close: false,
    })
}

/// The lines of a watcher's log once these answers to a call of this target ended.
fn log_of<R: Wait + Clock>(
    rt: &R,
    alloc: Global,
    target: &[u8],
    outcomes: &[Result<Sent, Cut>],
) -> Result<Vec<u8>, Fail> {
    let nodes = Nodes {
        own: "self",
        listen: "",
        peers: &[],
        ask: 1_000,
    };
    let watcher = Watcher::new(alloc, true, &nodes)?;
    let pace = Pace::new(rt, Duration::from_millis(1_000))?;
    let watch = ConnectionWatch {
        watcher: &watcher,
        pace: &pace,
    };
    let call = call_of(alloc, target)?;
    for outcome in outcomes {
        Watch::<R>::report(&watch, rt, None, Some(&call), outcome);
    }
    let mut written = Vec::new(alloc);
    if let Some(log) = &watcher.log {
        log.close(rt);
        write_lines(rt, alloc, log, &mut written);
    }
    Ok(written)
}

/// A log's lines behind their moments.
fn behind_moments(alloc: Global, log: &[u8]) -> Result<String, Fail> {
    let mut lines = String::new(alloc);
    for line in str::from_utf8(log)?.lines() {
        let (_, rest) = line.split_once(' ').ok_or("no moment")?;
        lines.push_str(rest)?;
        lines.push_str("\n")?;
    }
    Ok(lines)
}

/// An answer of the status 500.
const FAILED: [Result<Sent, Cut>; 1] = [Ok(Sent {
    status: 500,
    bytes: 117,
    held: 0,
})];

/// A connection to which no text that tells of the source was written.
#[test]
fn answer_of_500_that_tells_of_no_source_tells_of_memory(rt: HostRuntime) -> Result<(), Fail> {
    let alloc = rt.alloc();
    let lines = behind_moments(alloc, &log_of(&rt, alloc, b"/a", &FAILED)?)?;
    assert!(rt; is_same(&lines.as_str(), &"GET 500 117 0 /a L2 memory\n"));
    Ok(())
}

/// Three answers, of which the second was cut off by its viewer and the third for want of memory.
const WHOLE_AND_CUT: [Result<Sent, Cut>; 3] = [
    Ok(Sent {
        status: 200,
        bytes: 3,
        held: 9,
    }),
    Err(Cut {
        sent: 5,
        cause: Cause::Writer,
    }),
    Err(Cut {
        sent: 6,
        cause: Cause::Load(Fault::NoMemory),
    }),
];

#[test]
fn odd_bytes_are_escaped_and_cuts_are_told(rt: HostRuntime) -> Result<(), Fail> {
    let log = log_of(&rt, rt.alloc(), b"/a\nb \"\xff", &WHOLE_AND_CUT)?;
    let lines = behind_moments(rt.alloc(), &log)?;
    let wanted = "GET 200 3 0 /a\\x0Ab\\x20\\x22\\xFF\nGET - 5 0 /a\\x0Ab\\x20\\x22\\xFF cut viewer\n\
        GET - 6 0 /a\\x0Ab\\x20\\x22\\xFF cut memory\n";
    assert!(rt; is_same(&lines.as_str(), &wanted), "{lines}");
    Ok(())
}

/// Whether a head is answered on a connection, which that closes.
fn is_redirected_at_last(alloc: Global, mut viewer: TcpStream) -> bool {
    let request = b"HEAD /iiif/a HTTP/1.1\r\nConnection: close\r\n\r\n";
    if viewer.write_all(request).is_err() {
        return false;
    }
    is_answered(alloc, viewer, Text::Framed(b"HTTP/1.1 303", b""))
}

/// Whether so many heads are answered on a connection, the last of which closes it: then its line was told.
fn are_redirected(rt: &HostRuntime, viewers: &TcpListener, count: u32) -> bool {
    let Some(mut viewer) = connected(rt, viewers) else {
        return false;
    };
    for _ in 1..count {
        if !is_redirected(&mut viewer) {
            return false;
        }
    }
    is_redirected_at_last(rt.alloc(), viewer)
}

/// Whether 1,200 heads are answered before somebody reads the log, which is read once they are.
pub(crate) fn are_served_before_a_reader<R: Wait>(
    rt: &R,
    host: &HostRuntime,
    viewers: &TcpListener,
    pipe: &Pipe,
) -> bool {
    let first = are_redirected(host, viewers, 1);
    if first {
        wait_for_line(rt, pipe);
    }
    let second = are_redirected(host, viewers, 600);
    let third = are_redirected(host, viewers, 599);
    read_from_now(rt, pipe);
    first && second && third
}

/// Whether a log has so many lines, of which the last are these.
fn has_lines(log: &[u8], count: usize, last: &str) -> bool {
    match str::from_utf8(log) {
        Ok(text) => is_same(&text.lines().count(), &count)
            && has_end(text.as_bytes(), last.as_bytes()),
        Err(fault) => is_unwanted(&fault),
    }
}

#[test]
fn viewer_waits_for_no_reader_of_the_log(rt: HostRuntime) {
    let pipe = new_pipe(rt.alloc(), false);
    assert!(rt; logged(&rt, &rt, &LOGGED, Visit::BeforeReader, &pipe).is_some());
    // One line was being written, 1,024 waited, and the rest is counted.
    assert!(rt; has_lines(&given_to(pipe), 1026, " /iiif/a\nlost 175\n"));
}
