//! Two servers over one file in memory, of which one is called and asks the other for what that owns. The files of the answers are
//! fixtures, and the owners of the four tiles and of the overview were computed outside, by Python's `hashlib`.

use crate::fixtures::files::{HALVED_FILE, SAMPLE, SAMPLE_FILE, TURNED_FILE};
use crate::fixtures::names::name;
use crate::fixtures::{is_missing, is_same, is_same_text, is_unwanted};
use iiif_canonical::Limits;
use iiif_http_front::{Call, Method};
use iiif_server::Config;
use iiif_tables::Book;
use iiif_tiff_read::OpenFault;
use iiif_witnesses::{PairFault, ServedByTwo, SharedImage, serve_one_by_two};
use std::alloc::Global;
use std::sync::Wait;
use std::thread::Threads;
use std::time::Clock;

/// A method and a target, the head and the file of the answer.
type Row = (bool, &'static [u8], &'static [u8], &'static [u8]);

const WHOLE_HEAD: &[u8] =
    b"HTTP/1.1 200 OK\r\nContent-Type: image/tiff\r\nAccess-Control-Allow-Origin: *\r\nLink: \
        <http://localhost/iiif/a/full/max/0/default.tif>;rel=\"canonical\"\r\nContent-Length: 190\r\n\r\n";

/// A GET of the whole sample, turned, and at half its sides; and a HEAD.
static WHOLE: Row = (false, b"/iiif/a/full/max/0/default.tif", WHOLE_HEAD, &SAMPLE_FILE);

static TURNED: Row = (
    false,
    b"/iiif/a/full/max/90/default.tif",
    b"HTTP/1.1 200 OK\r\nContent-Type: image/tiff\r\nAccess-Control-Allow-Origin: *\r\nLink: \
        <http://localhost/iiif/a/full/max/90/default.tif>;rel=\"canonical\"\r\nContent-Length: 190\r\n\r\n",
    &TURNED_FILE,
);

static HALVED: Row = (
    false,
    b"/iiif/a/full/2,/0/default.tif",
    b"HTTP/1.1 200 OK\r\nContent-Type: image/tiff\r\nAccess-Control-Allow-Origin: *\r\nLink: \
        <http://localhost/iiif/a/full/2,2/0/default.tif>;rel=\"canonical\"\r\nContent-Length: 178\r\n\r\n",
    &HALVED_FILE,
);

static HEAD: Row = (true, b"/iiif/a/full/max/0/default.tif", WHOLE_HEAD, b"");

/// Settings of servers whose tiles have a side of 2.
fn config(alloc: Global) -> Option<Config> {
    let limits = Limits {
        max_w: 16,
        max_h: 16,
        upscale: false,
    };
    Config::new(alloc, "http://localhost/iiif", 2, limits, 64, 1).ok()
}

/// Calls one of two servers over a file.
fn serve<R: Threads + Wait + Clock + Sync>(
    rt: &R,
    alloc: Global,
    file: &[u8],
    is_first: bool,
    row: Row,
    out: &mut Vec<u8>,
) -> Option<Result<ServedByTwo, PairFault>> {
    let (is_head, target, _, _) = row;
    let call = Call {
        method: if is_head { Method::Head } else { Method::Get },
        target: Vec::from_slice(alloc, target).ok()?,
        close: false,
    };
    let name = name(alloc, "a")?;
    let image = SharedImage {
        file,
        name: &name,
        is_first,
    };
    Some(serve_one_by_two(rt, alloc, &image, config(alloc)?, &call, out))
}

/// How many calls a server's group had, and how many the other server answered.
fn calls(book: &Book) -> (u64, u64) {
    (book.gets, book.peer)
}

/// Whether that answer is sent whole by one of two servers, and it and the other had so many calls: for sums where the image is made of
/// blocks, else for tiles.
fn is_answer<R: Threads + Wait + Clock + Sync>(
    rt: &R,
    alloc: Global,
    is_first: bool,
    row: Row,
    is_of_blocks: bool,
    wanted: ((u64, u64), (u64, u64)),
) -> bool {
    let (_, _, head, file) = row;
    let mut out = Vec::new(alloc);
    let Some(served) = serve(rt, alloc, &SAMPLE, is_first, row, &mut out) else {
        return is_missing();
    };
    let served = match served {
        Ok(served) => served,
        Err(fault) => return is_unwanted(&fault),
    };
    let bytes = (head.len() + file.len()) as u64;
    let is_whole = match served.outcome {
        Ok(sent) => is_same(&(sent.status, sent.bytes), &(200, bytes)),
        Err(cut) => is_unwanted(&cut),
    };
    let (front, back) = out.as_slice().split_at(head.len().min(out.len()));
    let (own, other) = if is_of_blocks {
        &served.sums
    } else {
        &served.tiles
    };
    is_whole
        && is_same_text(front, head)
        && is_same_text(back, file)
        && is_same(&(calls(own), calls(other)), &wanted)
}

#[test]
fn whole_image_of_tiles_of_both(rt: HostRuntime) {
    // The first server of the ring owns three of the four tiles.
    for row in [WHOLE, TURNED] {
        for (is_first, wanted) in [(true, ((4, 1), (1, 0))), (false, ((4, 3), (3, 0)))] {
            assert!(rt; is_answer(&rt, rt.alloc(), is_first, row, false, wanted), "{is_first}");
        }
    }
}

#[test]
fn overview_that_the_other_server_owns(rt: HostRuntime) {
    // The other makes it of four blocks, of which it doesn't own two: it has no link, so each of these enters twice.
    assert!(rt; is_answer(&rt, rt.alloc(), true, HALVED, true, ((1, 1), (7, 0))));
}

#[test]
fn overview_of_blocks_that_the_other_server_owns(rt: HostRuntime) {
    assert!(rt; is_answer(&rt, rt.alloc(), false, HALVED, true, ((5, 2), (2, 0))));
}

#[test]
fn head_asks_no_server(rt: HostRuntime) {
    for is_first in [true, false] {
        assert!(rt; is_answer(&rt, rt.alloc(), is_first, HEAD, false, ((0, 0), (0, 0))));
    }
}

#[test]
fn file_that_shows_no_picture_is_told_and_nothing_written(rt: HostRuntime) {
    let alloc = rt.alloc();
    let mut out = Vec::new(alloc);
    let nothing: &[u8] = &[];
    let is_told = match serve(&rt, alloc, nothing, true, WHOLE, &mut out) {
        Some(Err(fault)) => is_same(&fault, &PairFault::Open(OpenFault::NotTiff)),
        _ => is_missing(),
    };
    assert!(rt; is_told && is_same_text(&out, b""));
}
