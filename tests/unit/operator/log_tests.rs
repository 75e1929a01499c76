//! The queue, and the thread that writes.

use crate::fixtures::{is_same, is_same_text, is_unwanted};
use iiif_io::Outlet;
use iiif_io::fakes::FailingWriter;
use iiif_log::log::write_line;
use iiif_log::{Answered, Line, Log, Moment, Outcome, Queue, Taken, write_lines};
use std::alloc::Global;
use std::test::Fail;
use std::thread;

/// A call of a queue, and what is to come of it.
#[derive(Clone, Copy)]
enum Step {
    /// A line of this text is put, so many times.
    Put(u32, &'static [u8]),
    /// A line is taken, so many times.
    Lines(u32),
    /// A line is taken that has this text and so many lost before it.
    Line(u64, &'static [u8]),
    /// No line is taken.
    NoLine,
    Lose,
    Close,
    /// The queue is closed, and no line waits.
    Closed,
}

/// Puts a line of this text so many times, and whether there was memory for it.
fn is_put(alloc: Global, queue: &mut Queue, count: u32, text: &[u8]) -> bool {
    for _ in 0..count {
        match Vec::from_slice(alloc, text) {
            Ok(line) => queue.put(line),
            Err(_) => return false,
        }
    }
    true
}

/// Whether a line is taken.
fn is_taken(alloc: Global, queue: &mut Queue) -> bool {
    matches!(queue.take(alloc), Taken::Line(_))
}

/// Whether so many lines are taken.
fn are_taken(alloc: Global, queue: &mut Queue, count: u32) -> bool {
    for _ in 0..count {
        if !is_taken(alloc, queue) {
            return false;
        }
    }
    true
}

/// Whether a line is taken that has this text and so many lost before it.
fn is_line(alloc: Global, queue: &mut Queue, lost: u64, text: &[u8]) -> bool {
    match queue.take(alloc) {
        Taken::Line(line) => is_same(&line.lost, &lost) && is_same_text(line.text.as_slice(), text),
        Taken::Closed => is_unwanted(&"closed"),
        _ => is_unwanted(&"no line"),
    }
}

/// Whether a step comes to what it is to.
fn is_right(alloc: Global, queue: &mut Queue, step: Step) -> bool {
    match step {
        Step::Put(count, text) => return is_put(alloc, queue, count, text),
        Step::Lines(count) => return are_taken(alloc, queue, count),
        Step::Line(lost, text) => return is_line(alloc, queue, lost, text),
        Step::NoLine => return !is_taken(alloc, queue),
        Step::Lose => queue.lose(),
        Step::Close => queue.close(),
        Step::Closed => return matches!(queue.take(alloc), Taken::Closed),
    }
    true
}

/// A queue of 1,024 lines is filled, and 6 more are lost.
static STEPS: [Step; 10] = [
    Step::Put(1030, b"a"),
    Step::Line(0, b"a"),
    Step::Put(1, b"b"),
    Step::Lines(1023),
    Step::Line(6, b"b"),
    Step::NoLine,
    Step::Lose,
    Step::Line(1, b""),
    Step::Close,
    Step::Closed,
];

/// The place of the first of these steps of an empty queue that comes to something else; `None` where each comes to what it is to.
fn first_wrong(alloc: Global, queue: &mut Queue, steps: &[Step]) -> Option<usize> {
    for (place, step) in steps.iter().enumerate() {
        if !is_right(alloc, queue, *step) {
            return Some(place);
        }
    }
    None
}

#[test]
fn a_full_queue_counts_what_it_loses(rt: HostRuntime) -> Result<(), Fail> {
    let mut queue = Queue::new(rt.alloc())?;
    let wrong = first_wrong(rt.alloc(), &mut queue, STEPS.as_slice());
    assert!(rt; wrong.is_none(), "step {wrong:?}");
    Ok(())
}

/// The outcome of the write of a line before which 2 were lost, where so many more are to be told of.
fn came_of<W: Outlet>(alloc: Global, out: &mut W, unsaid: u64) -> Option<Result<(), u64>> {
    let line = Line {
        lost: 2,
        text: Vec::from_slice(alloc, b"line\n").ok()?,
    };
    Some(write_line(alloc, out, unsaid, &line))
}

/// Whether a device with so much room, which takes so much at once, takes just this, and so many are still to be told of.
fn is_cut(alloc: Global, room: usize, piece: usize, taken: &[u8], left: u64) -> bool {
    let mut out = FailingWriter {
        taken: Vec::new(alloc),
        room,
        piece,
    };
    is_same(&came_of(alloc, &mut out, 4), &Some(Err(left)))
        && is_same_text(out.taken.as_slice(), taken)
}

/// Whether all is written where there is room.
fn is_written(alloc: Global) -> bool {
    let mut out = Vec::new(alloc);
    is_same(&came_of(alloc, &mut out, 7), &Some(Ok(())))
        && is_same_text(out.as_slice(), b"lost 9\nline\n")
}

#[test]
fn a_failed_write_is_told_by_the_next(rt: HostRuntime) {
    assert!(rt; is_cut(rt.alloc(), 0, 9, b"", 7));
    assert!(rt; is_cut(rt.alloc(), 9, 4, b"lost 6\nli", 1));
    assert!(rt; is_written(rt.alloc()));
}

/// An answer with this target.
fn answered(target: &[u8]) -> Answered<'_> {
    Answered {
        at: Moment::of_millis(0),
        method: b"GET",
        target,
        outcome: Outcome::Whole(200),
        bytes: 3,
        millis: 1,
    }
}

/// Whether a log is written of which 1,024 lines of 1,030 wait, and how many were lost; and both once they were put to a device without
/// room, and the log is closed.
#[test]
fn lines_that_are_lost_are_counted(rt: HostRuntime) -> Result<(), Fail> {
    let alloc = rt.alloc();
    let log = Log::new(alloc)?;
    for _ in 0..1030u32 {
        log.tell(&rt, &answered(b"/a"));
    }
    assert!(rt; is_same(&log.lost(), &6) && !log.is_written(&rt));
    log.close(&rt);
    let mut full = FailingWriter {
        taken: Vec::new(alloc),
        room: 0,
        piece: 9,
    };
    write_lines(&rt, alloc, &log, &mut full);
    assert!(rt; is_same(&log.lost(), &1030) && !log.is_written(&rt));
    Ok(())
}

#[test]
fn a_thread_writes_what_is_told(rt: HostRuntime) -> Result<(), Fail> {
    let alloc = rt.alloc();
    let log = Log::new(alloc)?;
    let (written, _) = thread::join(
        &rt,
        || -> Vec<u8> {
            let mut out = Vec::new(alloc);
            write_lines(&rt, alloc, &log, &mut out);
            out
        },
        || {
            log.tell(&rt, &answered(b"/a"));
            log.tell(&rt, &answered(b"/b"));
            log.close(&rt);
        },
    );
    let wanted =
        b"1970-01-01T00:00:00.000Z GET 200 3 1 /a\n1970-01-01T00:00:00.000Z GET 200 3 1 /b\n";
    assert!(rt; is_same_text(written.as_slice(), wanted.as_slice()));
    Ok(())
}
