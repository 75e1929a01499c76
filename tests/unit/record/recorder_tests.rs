//! Lines that wait, and the file into which they are written.

use iiif_group::{Gate, Note, Step as GroupStep};
use iiif_records::Step;
use iiif_recorder::{RecordGate, Recorder, Waiting};
use iiif_tables::Class;
use std::alloc::Global;
use std::fs::File;
use std::rt::Files;
use std::sync::Wait;
use std::{fs, io};

const STEP: Step<'static> = Step {
    words: "hit",
    class: Class::Local,
    ticket: Some(5),
    key: &[0xcd],
};

/// What waits after the step was put so often, where there is room for so many bytes, of which the record may get so many.
fn waiting(alloc: Global, room: usize, bytes: u64, count: u32) -> Option<Waiting> {
    let mut waiting = Waiting::new(alloc, room, bytes).ok()?;
    for _ in 0..count {
        waiting.put(1, &STEP);
    }
    Some(waiting)
}

/// Whether these lines wait then.
fn waits(alloc: Global, room: usize, bytes: u64, count: u32, lines: &str) -> bool {
    match waiting(alloc, room, bytes, count) {
        Some(waiting) => waiting.lines.as_slice() == lines.as_bytes(),
        None => false,
    }
}

// A line has 17 bytes, and the last one of a record that ends 8.
#[test]
fn record_ends_where_it_is_full(rt: HostRuntime) {
    let alloc = rt.alloc();
    let two = "1 hit local 5 cd\n1 hit local 5 cd\n";
    let ended = "1 hit local 5 cd\n0 ended\n";
    assert!(rt; waits(alloc, 100, 100, 2, two));
    assert!(rt; waits(alloc, 100, 42, 2, two));
    assert!(rt; waits(alloc, 100, 41, 3, ended));
    assert!(rt; waits(alloc, 100, 25, 3, ended));
    assert!(rt; waits(alloc, 100, 24, 3, "0 ended\n"));
    assert!(rt; waits(alloc, 41, 1000, 3, ended));
    assert!(rt; waits(alloc, 7, 1000, 1, ""));
}

/// Records two steps, the second of which is an ask, behind a line; and what stands in the file then.
fn recorded<R: Files<File = File> + Wait + AllocGlobal>(rt: &R, path: &str) -> io::Result<Vec<u8>> {
    let alloc = rt.alloc();
    let recorder = Recorder::new(alloc, fs::create(rt, path)?, 1000, 1000)?;
    recorder.put_line(rt, b"set edge 256\n");
    let gate = RecordGate(Some(&recorder));
    for step in [GroupStep::Led, GroupStep::Asked, GroupStep::Failed] {
        let note = Note {
            step,
            class: Class::Wide,
            rank: 0,
            pass: 2,
            ticket: 9,
            key: &[1],
        };
        gate.note(rt, &note);
    }
    fs::read(rt, path)
}

/// Whether a gate without a record records.
fn records_without<R: Wait>(_rt: &R) -> bool {
    Gate::<R>::records(&RecordGate(None))
}

#[test]
fn ask_leaves_once_the_lines_before_it_are_written(rt: HostRuntime) {
    let lines: &[u8] = b"set edge 256\n2 leads wide 9 01\n2 asks wide 9 01\n";
    assert!(rt; recorded(&rt, "asked").is_ok_and(|bytes| bytes.as_slice() == lines));
    assert!(rt; !records_without(&rt));
}
