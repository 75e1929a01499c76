//! Settings that words leave out, the lines of a program that ends while it runs, and warnings of dot segments.

use crate::fixtures::{is_same, is_same_text};
use iiif_command_line::{Listed, Options, matches, options_in};
use iiif_start::dot_segments::{has_dot_segment, is_dot_segment};
use iiif_start::rooms::is_unfilled;
use iiif_start::{Reason, Stop, warn, warn_of_room};
use std::num::NonZeroUsize;
use std::test::Fail;

const BASE: &str = "http://localhost/iiif";

/// Checks the settings where the words name the images and a target alone: the edge, the greatest side, the bytes and the entries of a
/// cache, the bytes of a file that is held, the rows of a band, the workers, the files that stay open, and the memory that is written to at
/// the start.
fn are_left_out(options: &Options<'_>) -> bool {
    let sides = is_same(&(options.edge, options.max), &(256, 4096));
    let shares = is_same(&(options.band, options.workers), &(64, 2));
    let room = (options.cache_bytes, options.cache_entries.get());
    let bounds = is_same(&(room, options.open_files.get()), &((67_108_864, 4096), 256));
    let memory = is_same(&(options.hold, options.touch_bytes), &(0, 0));
    let flags = (options.upscale, options.skip_unfit);
    let rest = is_same(&(flags, options.name), &((false, false), "self"));
    sides && shares && bounds && memory && rest
}

#[test]
fn settings_left_out_have_their_defaults(rt: HostRuntime) {
    let words = [
        "--base",
        BASE,
        "--one",
        "/iiif/a/full/max/0/default.tif",
        "a=:sample",
    ];
    let Ok(found) = matches(rt.alloc(), &words) else {
        assert!(rt; false, "{words:?}");
        return;
    };
    let listed = Listed {
        list: b"",
        folder: &[],
        bag: None,
    };
    match options_in(rt.alloc(), &found, BASE, Ok(listed)) {
        Ok(options) => assert!(rt; are_left_out(&options)),
        Err(fault) => assert!(rt; false, "{fault:?}"),
    }
}

/// Why the program ends while it runs, and the line of the manual page for it.
static ENDS: [(Stop<'static>, &[u8]); 5] = [
    (Stop::Memory, b"run: memory\n"),
    (Stop::Write, b"run: write\n"),
    (Stop::Source, b"run: source\n"),
    (
        Stop::Listen(Reason::Taken),
        b"run: listen\nthe address is taken (EADDRINUSE): another process listens there, or another option names it\n",
    ),
    (
        Stop::Listen(Reason::NoAddress),
        b"run: listen\nthis machine has no such address (EADDRNOTAVAIL)\n",
    ),
];

#[test]
fn program_that_ends_while_it_runs_says_why(rt: HostRuntime) {
    for (stop, line) in ENDS.iter().copied() {
        let mut err = Vec::new(rt.alloc());
        let status = stop.report(&mut err);
        assert!(rt;
            is_same(&status, &1) && is_same_text(err.as_slice(), line),
            "{stop:?}"
        );
    }
}

/// Segments of a path, and whether RFC 3986, section 3.3, calls them dot segments.
static SEGMENTS: [(&[u8], bool); 7] = [
    (b".", true),
    (b"..", true),
    (b"", false),
    (b"...", false),
    (b".a", false),
    (b"a.", false),
    (b"%2E", false),
];

#[test]
fn a_dot_and_two_dots_are_dot_segments(rt: HostRuntime) {
    for (segment, want) in SEGMENTS.iter() {
        assert!(rt;
            is_same(&is_dot_segment(segment), want),
            "{segment:?}"
        );
    }
}

/// Base URLs, and whether section 5.2.4 removes a segment of their paths.
static BASES: [(&str, bool); 10] = [
    ("http://localhost/a/../b", true),
    ("http://localhost/./b", true),
    ("https://localhost:8080/a/..", true),
    ("http://localhost/.", true),
    ("http://localhost/iiif", false),
    ("http://localhost/a.b/...", false),
    ("http://localhost", false),
    ("http://..", false),
    ("http://../iiif", false),
    ("https://./a/b", false),
];

#[test]
fn dot_segments_of_a_base_url_stand_in_its_path(rt: HostRuntime) {
    for (base, want) in BASES.iter() {
        assert!(rt; is_same(&has_dot_segment(base), want), "{base}");
    }
}

/// A base URL, names of images, and the lines that warn of them.
static WARNINGS: [(&str, [(&str, &str); 3], &[u8]); 3] = [
    (
        "http://localhost/a/../b",
        [("..", ":sample"), ("a", ":sample"), (".", ":sample")],
        b"warning: base http://localhost/a/../b: clients remove the segments . and .. of a URI before they ask for it\n\
          warning: image ..: clients remove the segments . and .. of a URI before they ask for it\n\
          warning: image .: clients remove the segments . and .. of a URI before they ask for it\n",
    ),
    (
        "http://localhost/iiif",
        [("a", ":sample"), (".", ":sample"), ("...", ":sample")],
        b"warning: image .: clients remove the segments . and .. of a URI before they ask for it\n",
    ),
    (
        "http://localhost/iiif",
        [("a", ".."), ("%2E", "."), ("../b", ":sample")],
        b"",
    ),
];

#[test]
fn warnings_are_of_the_base_url_and_then_of_images_in_their_order(rt: HostRuntime) {
    for (base, images, want) in WARNINGS.iter() {
        let mut told = Vec::new(rt.alloc());
        assert!(rt;
            warn(&mut told, base, images).is_ok() && is_same_text(told.as_slice(), want),
            "{base}"
        );
    }
}

/// The bytes and the entries of a cache, the edge of a tile, and whether gray tiles leave bytes unused: 4,096 of edge 256 have 268,435,456.
static ROOMS: [(u64, usize, u32, bool); 8] = [
    (67_108_864, 4096, 256, false),
    (268_435_456, 4096, 256, false),
    (268_435_457, 4096, 256, true),
    (268_435_457, 4097, 256, false),
    (67_108_864, 1, 1, false),
    (67_108_865, 1, 1, true),
    (1_099_511_627_776, 16_777_216, 256, false),
    (1_099_511_627_776, 16_777_215, 256, true),
];

#[test]
fn a_cache_that_gray_tiles_cannot_fill_is_warned_of(rt: HostRuntime) -> Result<(), Fail> {
    for (bytes, entries, edge, want) in ROOMS.iter().copied() {
        let entries = NonZeroUsize::new(entries).ok_or("no entries")?;
        let mut err = Vec::new(rt.alloc());
        warn_of_room(&mut err, bytes, entries, edge)?;
        let is_warned = err.as_slice().starts_with(b"warning: --cache-bytes");
        assert!(rt;
            is_same(&is_unfilled(bytes, entries, edge), &want) && is_same(&is_warned, &want),
            "{bytes} {entries} {edge}"
        );
    }
    Ok(())
}
