//! Lines at which the replay of a text ends.

use crate::fixtures::{is_same, is_unwanted, is_written};
use iiif_event_list::{Mode, Stop, replay};
use std::alloc::Global;

/// Why the replay of a text ends early.
fn stop_of(alloc: Global, mode: Mode, text: &str) -> Option<Stop> {
    let mut out = Vec::new(alloc);
    replay(alloc, mode, text.as_bytes(), &mut out).err()
}

/// Texts, and the number of the line at which each ends: lines that are no setting and no event; settings behind a world's first event;
/// events of a world that can't begin; and the first such line of several, where blank lines and comments count.
static BAD: [(&str, u64); 34] = [
    ("enter", 1),
    ("enter x", 1),
    ("enter 0 1", 1),
    ("enter -1", 1),
    ("frob 0", 1),
    ("take 0", 1),
    ("land 0", 1),
    ("land 0 yes", 1),
    ("land 0 kept kept", 1),
    ("source_fault 0 8 256", 1),
    ("evict 0 tile p 1 0", 1),
    ("evict 0 leaf p", 1),
    ("want 0 p full max 0", 1),
    ("want 0 p full max 0 fine", 1),
    ("world 1", 1),
    ("node a 2 1000", 1),
    ("node a 3 1000 8 a", 1),
    ("picture p gray 8 1 1", 1),
    ("picture p gray 8 1 1 256", 1),
    ("limits 1", 1),
    ("node a 2 1000 0 a", 1),
    ("node a%FF 2 1000 8 a", 1),
    ("picture p gray 8 1 1 blank 0", 1),
    ("picture p%C3 gray 8 1 1 blank", 1),
    ("edge 1 1", 1),
    (
        "edge 1\npicture p gray 8 1 1 7\nnode a 2 1000 8 a\nenter 0\nedge 1",
        5,
    ),
    (
        "edge 1\npicture p gray 8 1 1 7\nnode a 2 1000 8 b\nenter 0",
        4,
    ),
    ("edge 0\nenter 0", 2),
    ("frob 0\nedge 1\n", 1),
    ("edge 1\npicture p gray 8 1 1 7\nfrob 0\nroom 9\n", 3),
    ("edge 1\nfrob 0\nroom 9\nfrob 1\n", 2),
    ("\n# edge\n\nfrob 0\n", 4),
    ("edge 1\r\nfrob 0\r\n", 2),
    ("edge 1\nworld\nedge 1\nfrob 0", 4),
];

/// Whether the replay of a text ends at the line of this number.
fn ends_at(alloc: Global, text: &str, line: u64) -> bool {
    is_same(
        &stop_of(alloc, Mode::Exploring, text),
        &Some(Stop::Line(line)),
    )
}

#[test]
fn bad_lines_are_named_by_their_numbers(rt: HostRuntime) {
    for (text, line) in BAD.iter() {
        assert!(rt; ends_at(rt.alloc(), text, *line), "{text}");
    }
    assert!(rt; stop_of(rt.alloc(), Mode::Judging, "# edge\n\nedge 1\nroom 9\n").is_none());
    assert!(rt; is_written(rt.alloc(), &Stop::Line(3), "line 3"));
}

/// Whether the replay of a text stops at an event that isn't allowed, where it judges; and what was written by then.
fn is_refused(alloc: Global, text: &str, line: u64, wrote: &str) -> bool {
    let mut out = Vec::new(alloc);
    let came = replay(alloc, Mode::Judging, text.as_bytes(), &mut out);
    is_same(&came.err(), &Some(Stop::NotNow(line))) && out.as_slice() == wrote.as_bytes()
}

#[test]
fn event_that_is_not_allowed_stops_a_judge(rt: HostRuntime) {
    let text = "edge 1\npicture p gray 8 1 1 blank\nnode a 2 100 4 a\nwant 0 p full max 0 default\nenter 0\nenter 0\nenter 0\n";
    let wrote = "4 want 0 p full max 0 default: done\n\
        5 enter 0: done: leads 1 0\n> 0 leads local 1 000170000000010000000000000000\n\
        6 enter 0: not now\n";
    assert!(rt; is_refused(rt.alloc(), text, 6, wrote));
    assert!(rt; stop_of(rt.alloc(), Mode::Exploring, text).is_none());
    assert!(rt; is_written(rt.alloc(), &Stop::NotNow(6), "line 6: not now"));
}
