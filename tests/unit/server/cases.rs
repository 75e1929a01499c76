//! Setups of nodes, asks, and their wanted outcomes.

use crate::fixtures::files::SAMPLE;
use crate::fixtures::{has_end, has_start, is_missing, is_same, is_same_text, is_unwanted};
use iiif_server::{Cause, Cut, Fault, Sent};
use iiif_tables::Book;
use std::str;

/// More reads than a test makes.
pub(crate) const NEVER: u64 = u64::MAX;

pub(crate) const WHOLE: &[u8] = b"/iiif/a/full/max/0/default.tif";

pub(crate) const HALF: &[u8] = b"/iiif/a/full/2,/0/default.tif";

pub(crate) const ONE: &[u8] = b"/iiif/a/full/1,1/0/default.tif";

/// The setup of a node, and how it makes its images.
#[derive(Clone, Copy)]
pub(crate) struct Setup<'a> {
    /// The name of its image.
    pub name: &'a str,
    /// The image's file, and which of its bytes are others.
    pub file: &'a [u8],
    pub changed: &'a [(usize, u8)],
    /// The side of its tiles.
    pub edge: u32,
    /// Its results are at most so wide and high, and perhaps above their regions.
    pub max: u32,
    pub upscale: bool,
    /// In bands of so many rows, by so many workers.
    pub rows: u32,
    pub workers: u32,
    /// How many bytes it keeps of tiles, and of sums.
    pub bytes: u64,
    /// Of the file the k-th read fails, and each later one where it doesn't fail once.
    pub k: u64,
    pub once: bool,
    /// The first load is held for so many turns, or until another has come.
    pub turns: u32,
}

/// The sample under the name `a`, in tiles of edge 2.
pub(crate) const NODE: Setup<'static> = Setup {
    name: "a",
    file: &SAMPLE,
    changed: &[],
    edge: 2,
    max: 4096,
    upscale: false,
    rows: 64,
    workers: 2,
    bytes: 65_536,
    k: NEVER,
    once: false,
    turns: 0,
};

/// The node of the sample, which may scale up.
pub(crate) const LARGER: Setup<'static> = Setup {
    upscale: true,
    ..NODE
};

/// One worker, bands of one row, and no cache.
pub(crate) const SLOWLY: Setup<'static> = Setup {
    rows: 1,
    workers: 1,
    bytes: 0,
    ..LARGER
};

/// The sample by one worker, who answers a connection.
pub(crate) const ONE_WORKER: Setup<'static> = Setup { workers: 1, ..NODE };

/// The input of a connection: these bytes and then those, at most so many a read, until so many reads were made.
#[derive(Clone, Copy)]
pub(crate) struct Input<'a> {
    pub first: &'a [u8],
    pub second: &'a [u8],
    pub piece: usize,
    pub reads: usize,
}

/// The method of a call.
#[derive(Clone, Copy)]
pub(crate) enum Verb {
    Get,
    Head,
    Delete,
}

/// An ask of a node.
#[derive(Clone, Copy)]
pub(crate) enum Ask<'a> {
    /// The body of a target's answer.
    Body(&'a [u8]),
    /// The answer to a call that leaves the connection open.
    Call(Verb, &'a [u8]),
    /// The answers on a connection, of which nobody is told.
    Stream(Input<'a>),
    /// The answers on a connection, of which a watch is told.
    Watched(Input<'a>),
    /// Nothing: from here on no read fails.
    Mend,
    /// Nothing: how many sums were asked for and loaded so far.
    Sums,
    /// Nothing: whether the books of sums and of tiles are these so far.
    Books(Book, Book),
    /// Nothing: how many reads of the file were made so far.
    Reads,
    /// Nothing: how many samples and sums of shared values were kept beside one answer so far, at most.
    Kept,
    /// Nothing: whether the watch was told this so far.
    Told([u64; 6]),
    /// Nothing: whether the first load went on alone.
    Alone,
}

impl<'a> Ask<'a> {
    /// The target that is asked for, to name it.
    pub(crate) fn target(self) -> &'a str {
        match self {
            Ask::Body(target) | Ask::Call(_, target) => str::from_utf8(target).unwrap_or("no text"),
            _ => "no target",
        }
    }
}

/// Wanted bytes.
#[derive(Clone, Copy)]
pub(crate) enum Text<'a> {
    /// These.
    Is(&'a [u8]),
    /// The first of these and then the second.
    Joined(&'a [u8], &'a [u8]),
    /// So many, of which the last are these.
    Long(usize, &'a [u8]),
    /// The first are these, and the last are those.
    Framed(&'a [u8], &'a [u8]),
    /// The answer with an image under this canonical URI, of whose last bytes, so many, the first are these.
    Image(&'a str, usize, &'a [u8]),
    /// A file of these sides, with this strip behind its head.
    File((u64, u64), &'a [u8]),
}

/// The wanted outcome of an ask.
#[derive(Clone, Copy)]
pub(crate) enum Want<'a> {
    /// A whole answer of this status.
    Whole(u16, Text<'a>),
    /// A whole answer of this status, for which at least and at most so many places are held at once.
    Held(u16, u64, u64, Text<'a>),
    /// At least and at most so many sums were asked for, and so many loaded; or so many reads were made.
    Booked(u64, u64, u64),
    /// A writer that has room for so many bytes, in pieces of so many, fails. It was given the front of these.
    Full(usize, usize, &'a [u8]),
    /// A writer that fails so on a connection, which ends there.
    Ended(usize, usize, &'a [u8]),
    /// The source failed behind this head and the first sample of this body, and before its last.
    Front(&'a [u8], &'a [u8]),
}

/// Something is so.
pub(crate) const IS_SO: Want<'static> = Want::Held(0, 1, 1, Text::Is(b""));

/// It isn't.
pub(crate) const IS_NOT_SO: Want<'static> = Want::Held(0, 0, 0, Text::Is(b""));

/// An ask and what is to come of it.
pub(crate) type Case<'a> = (Ask<'a>, Want<'a>);

/// Nothing of the file was read so far.
pub(crate) const NOTHING_IS_READ: Case<'static> = (Ask::Reads, Want::Booked(0, 0, 0));

/// The edge of a node's tiles, the rows of its bands, its workers, and how many bytes it keeps.
pub(crate) type Variant = (u32, u32, u32, u64);

/// The most bytes that a node keeps of tiles, and of sums.
pub(crate) const MOST_BYTES: u64 = 67_108_864;

/// Bands of 1, 3 and 64 rows by one worker, with no cache, with one that has room for little and with one that has room for all.
pub(crate) const BY_ONE: &[Variant] = &[
    (2, 1, 1, 0),
    (2, 1, 1, 100),
    (2, 1, 1, MOST_BYTES),
    (2, 3, 1, 0),
    (2, 3, 1, 100),
    (2, 3, 1, MOST_BYTES),
    (2, 64, 1, 0),
    (2, 64, 1, 100),
    (2, 64, 1, MOST_BYTES),
];

/// These variants by two workers.
pub(crate) const BY_TWO: &[Variant] = &[
    (2, 1, 2, 0),
    (2, 1, 2, 100),
    (2, 1, 2, MOST_BYTES),
    (2, 3, 2, 0),
    (2, 3, 2, 100),
    (2, 3, 2, MOST_BYTES),
    (2, 64, 2, 0),
    (2, 64, 2, 100),
    (2, 64, 2, MOST_BYTES),
];

/// These variants by five workers.
pub(crate) const BY_FIVE: &[Variant] = &[
    (2, 1, 5, 0),
    (2, 1, 5, 100),
    (2, 1, 5, MOST_BYTES),
    (2, 3, 5, 0),
    (2, 3, 5, 100),
    (2, 3, 5, MOST_BYTES),
    (2, 64, 5, 0),
    (2, 64, 5, 100),
    (2, 64, 5, MOST_BYTES),
];

/// A name, the setup of a new node, and the asks that it gets one after another.
pub(crate) type Table = (&'static str, Setup<'static>, &'static [Case<'static>]);

/// Before the canonical URI of an image, and behind it.
const BEFORE: &[u8] =
    b"HTTP/1.1 200 OK\r\nContent-Type: image/tiff\r\nAccess-Control-Allow-Origin: *\r\nLink: <http://localhost/iiif/a/";

const BEHIND: &[u8] = b"/0/default.tif>;rel=\"canonical\"\r\n";

/// Whether that is the answer's head.
fn has_head(bytes: &[u8], canonical: &str) -> bool {
    let Some(rest) = bytes.strip_prefix(BEFORE) else {
        return has_start(bytes, BEFORE);
    };
    match rest.strip_prefix(canonical.as_bytes()) {
        Some(rest) => has_start(rest, BEHIND),
        None => has_start(rest, canonical.as_bytes()),
    }
}

/// The last bytes, so many.
fn tail(bytes: &[u8], count: usize) -> &[u8] {
    let (_, last) = bytes.split_at(bytes.len() - count.min(bytes.len()));
    last
}

/// Whether a file has these sides, and this strip behind its head.
fn is_file(file: &[u8], sides: (u64, u64), strip: &[u8]) -> bool {
    let (Some(width), Some(height)) = (file.get(18), file.get(30)) else {
        return false;
    };
    is_same(&(u64::from(*width), u64::from(*height)), &sides)
        && has_end(file, strip)
        && file.len().saturating_sub(strip.len()) <= 180
}

impl<'a> Text<'a> {
    /// Whether bytes are what they are to be.
    fn fits(self, bytes: &[u8]) -> bool {
        match self {
            Text::Is(wanted) => is_same_text(bytes, wanted),
            Text::Joined(first, last) => {
                is_same(&bytes.len(), &(first.len() + last.len()))
                    && has_start(bytes, first)
                    && has_end(bytes, last)
            },
            Text::Long(count, last) => is_same(&bytes.len(), &count) && has_end(bytes, last),
            Text::Framed(first, last) => has_start(bytes, first) && has_end(bytes, last),
            Text::Image(canonical, count, first) => {
                has_head(bytes, canonical) && has_start(tail(bytes, count), first)
            }
            Text::File(sides, strip) => is_file(bytes, sides, strip),
        }
    }
}

/// Whether a count is at least and at most this.
fn is_within(count: u64, least: u64, most: u64) -> bool {
    is_same(&count.max(least).min(most), &count)
}

/// Whether these are so many, at the front of those.
fn are_front(bytes: &[u8], count: usize, whole: &[u8]) -> bool {
    is_same(&bytes.len(), &count) && has_start(whole, bytes)
}

/// Whether these are a head and a body's front that ends behind its first sample and before its last.
fn are_cut(bytes: &[u8], head: &[u8], body: &[u8]) -> bool {
    match bytes.strip_prefix(head) {
        Some(sent) => 174 < sent.len() && sent.len() < body.len() && body.starts_with(sent),
        None => is_missing(),
    }
}

impl<'a> Want<'a> {
    /// How many bytes the writer has room for, and in pieces of how many.
    pub(crate) fn room(self) -> (usize, usize) {
        match self {
            Want::Full(room, piece, _) | Want::Ended(room, piece, _) => (room, piece),
            _ => (usize::MAX, usize::MAX),
        }
    }

    /// Whether a whole answer is what is to come.
    fn is_sent(self, sent: Sent, bytes: &[u8]) -> bool {
        let is_all = || is_same(&sent.bytes, &(bytes.len() as u64));
        match self {
            Want::Whole(status, text) => is_all()
                && is_same(&sent.status, &status)
                && text.fits(bytes),
            Want::Held(status, least, most, text) => {
                let is_held = is_within(sent.held, least, most);
                is_all() && is_held && is_same(&sent.status, &status) && text.fits(bytes)
            }
            Want::Booked(least, most, loads) => {
                is_within(sent.bytes, least, most) && is_same(&sent.held, &loads)
            }
            Want::Ended(room, _, whole) => are_front(bytes, room, whole),
            Want::Full(..) | Want::Front(..) => is_unwanted(&"a whole answer"),
        }
    }

    /// Whether one that was cut off is.
    fn is_cut(self, cut: Cut, bytes: &[u8]) -> bool {
        let is_all = || is_same(&cut.sent, &(bytes.len() as u64));
        match self {
            Want::Full(room, _, whole) => {
                is_all() && is_same(&cut.cause, &Cause::Writer) && are_front(bytes, room, whole)
            }
            Want::Front(head, body) => {
                is_all()
                    && matches!(cut.cause, Cause::Load(Fault::Source(_)))
                    && are_cut(bytes, head, body)
            }
            _ => is_unwanted(&"a part of an answer"),
        }
    }

    /// Whether an answer ended as it is to, with these bytes.
    pub(crate) fn fits(self, end: Result<Sent, Cut>, bytes: &[u8]) -> bool {
        match end {
            Ok(sent) => self.is_sent(sent, bytes),
            Err(cut) => self.is_cut(cut, bytes),
        }
    }
}
