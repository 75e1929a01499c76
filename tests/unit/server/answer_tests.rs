//! Answers of nodes: bodies, answers to calls, and failures of sources and writers.

use crate::fixtures::files::{DEEP, DEEP_HIGH_FIRST, SAMPLE_FILE, STEPS, TURNED_FILE};
use crate::fixtures::is_same;
use crate::server::cases::{
    Ask, Case, HALF, LARGER, NODE, NOTHING_IS_READ, SLOWLY, Setup, Table, Text, Verb, WHOLE, Want,
};
use crate::server::nodes::{all_are, are_right};
use std::alloc::Global;
use std::sync::Wait;
use std::thread::Threads;
use std::time::Clock;

/// Images of the sample, and how their files end.
const SCALED: &[Case<'static>] = &[
    (
        Ask::Body(b"/iiif/a/full/2,/0/default.tif"),
        Want::Whole(200, Text::Framed(b"", &[25, 45, 105, 125])),
    ),
    (
        Ask::Body(b"/iiif/a/full/%5E2,/0/default.tif"),
        Want::Whole(200, Text::Framed(b"", &[25, 45, 105, 125])),
    ),
    (
        Ask::Body(b"/iiif/a/full/3,3/0/default.tif"),
        Want::Whole(
            200,
            Text::Framed(b"", &[13, 25, 38, 63, 75, 88, 113, 125, 138]),
        ),
    ),
    (
        Ask::Body(b"/iiif/a/full/2,/90/default.tif"),
        Want::Whole(200, Text::Framed(b"", &[105, 25, 125, 45])),
    ),
    (
        Ask::Body(b"/iiif/a/full/2,/!90/default.tif"),
        Want::Whole(200, Text::Framed(b"", &[125, 45, 105, 25])),
    ),
    (
        Ask::Body(b"/iiif/a/full/2,/!180/default.tif"),
        Want::Whole(200, Text::Framed(b"", &[105, 125, 25, 45])),
    ),
    (
        Ask::Body(b"/iiif/a/3,3,5,5/max/0/default.tif"),
        Want::Whole(200, Text::Framed(b"", &[150])),
    ),
    (
        Ask::Body(b"/iiif/a/pct:25,25,50,50/max/0/default.tif"),
        Want::Whole(200, Text::Framed(b"", &[50, 60, 90, 100])),
    ),
    (
        Ask::Body(b"/iiif/a/full/max/0/bitonal.tif"),
        Want::Whole(200, Text::Framed(b"", &[0, 0, 0, 0x70])),
    ),
];

/// Targets that are refused, and the lines that say why. Nothing is read for them.
const REFUSED: &[Case<'static>] = &[
    (
        Ask::Body(b"/iiif/a%2/full/max/0/default.tif"),
        Want::Whole(400, Text::Is(b"Q3 path\n")),
    ),
    (
        Ask::Body(b"/other/a/full/max/0/default.tif"),
        Want::Whole(400, Text::Is(b"Q3 path\n")),
    ),
    (
        Ask::Body(b"/iiif/zz/bad/max/0/default.tif"),
        Want::Whole(404, Text::Is(b"Q4 identifier\n")),
    ),
    (
        Ask::Body(b"/iiif/zz"),
        Want::Whole(404, Text::Is(b"Q4 identifier\n")),
    ),
    (
        Ask::Body(b"/iiif/a/bad/bad/0/default.tif"),
        Want::Whole(400, Text::Is(b"Q5 region\n")),
    ),
    (
        Ask::Body(b"/iiif/a/full/full/45/default.tif"),
        Want::Whole(400, Text::Is(b"Q6 size\n")),
    ),
    (
        Ask::Body(b"/iiif/a/full/max/45/best.tif"),
        Want::Whole(400, Text::Is(b"Q7 rotation\n")),
    ),
    (
        Ask::Body(b"/iiif/a/full/max/0/best.jpg"),
        Want::Whole(400, Text::Is(b"Q8 quality\n")),
    ),
    (
        Ask::Body(b"/iiif/a/full/max/0/default.jpg"),
        Want::Whole(400, Text::Is(b"Q9 format\n")),
    ),
    (
        Ask::Body(b"/iiif/a/4,0,1,1/max/0/default.tif"),
        Want::Whole(400, Text::Is(b"Q10 empty\n")),
    ),
    (
        Ask::Body(b"/iiif/a/full/0,/0/default.tif"),
        Want::Whole(400, Text::Is(b"Q11 zero\n")),
    ),
    (
        Ask::Body(b"/iiif/a/full/8,/0/default.tif"),
        Want::Whole(400, Text::Is(b"Q12 larger\n")),
    ),
    (
        Ask::Body(b"/iiif/a/full/^8,/0/default.tif"),
        Want::Whole(501, Text::Is(b"Q13 upscale\n")),
    ),
    (
        Ask::Body(b"/iiif/a/full/pct:100.1/0/default.tif"),
        Want::Whole(400, Text::Is(b"Q12 larger\n")),
    ),
    NOTHING_IS_READ,
];

/// The sample's body, how it ends where a read fails, and the answer to a target that is no image.
const SAMPLE_WHOLE: &[Case<'static>] = &[(
    Ask::Body(WHOLE),
    Want::Whole(200, Text::Long(190, &STEPS)),
)];

pub(crate) const FAULT: Want<'static> = Want::Held(500, 0, 0, Text::Is(b"L1 source\n"));

const SAMPLE_FAULT: &[Case<'static>] = &[(Ask::Body(WHOLE), FAULT)];

const HALF_FAULT: &[Case<'static>] = &[(Ask::Body(HALF), FAULT)];

const SAMPLE_BODY: &[Case<'static>] = &[(
    Ask::Body(WHOLE),
    Want::Whole(200, Text::Framed(b"II", b"")),
)];

const HALF_BODY: &[Case<'static>] = &[(
    Ask::Body(HALF),
    Want::Whole(200, Text::Framed(b"II", b"")),
)];

const REDIRECTED: &[Case<'static>] = &[
    (Ask::Body(b"/iiif/a"), Want::Whole(303, Text::Is(b""))),
    NOTHING_IS_READ,
];

const ESCAPED: &[Case<'static>] = &[(
    Ask::Body(b"/iiif/a%2Fb/full/max/0/default.tif?x=1"),
    Want::Whole(200, Text::Long(190, b"")),
)];

/// Two samples of 16 bits, and their mean.
const DEEP_WHOLE: &[Case<'static>] = &[(
    Ask::Body(WHOLE),
    Want::Whole(200, Text::Long(178, &[0, 0, 0xff, 0xff])),
)];

const DEEP_MEAN: &[Case<'static>] = &[(
    Ask::Body(b"/iiif/a/full/1,1/0/default.tif"),
    Want::Whole(200, Text::Long(176, &[0, 0x80])),
)];

const DEEP_WHITE: &[Case<'static>] = &[(
    Ask::Body(b"/iiif/a/full/1,1/0/bitonal.tif"),
    Want::Whole(200, Text::Long(175, &[0x80])),
)];

const DEEP_BLACK: &[Case<'static>] = &[(
    Ask::Body(b"/iiif/a/full/1,1/0/bitonal.tif"),
    Want::Whole(200, Text::Long(175, &[0])),
)];

const DEEP_NODE: Setup<'static> = Setup {
    file: &DEEP,
    ..NODE
};

static BODIES: [Table; 5] = [
    ("whole", NODE, SAMPLE_WHOLE),
    ("scaled and turned", NODE, SCALED),
    ("refused", NODE, REFUSED),
    ("redirected", NODE, REDIRECTED),
    (
        "escaped slash in a name",
        Setup {
            name: "a/b",
            ..NODE
        },
        ESCAPED,
    ),
];

#[test]
fn targets_get_their_bodies(rt: HostRuntime) {
    all_are(&rt, &BODIES);
}

/// The mean of 0 and 65,535, a half up, is 32,768, which is white; that of 0 and 65,534 is 32,767, which is black.
static DEEP_BODIES: [Table; 5] = [
    ("16 bits", DEEP_NODE, DEEP_WHOLE),
    (
        "16 bits, high bytes first",
        Setup {
            file: &DEEP_HIGH_FIRST,
            ..NODE
        },
        DEEP_WHOLE,
    ),
    ("16 bits, mean", DEEP_NODE, DEEP_MEAN),
    ("16 bits, white", DEEP_NODE, DEEP_WHITE),
    (
        "16 bits, black",
        Setup {
            changed: &[(10, 0xfe)],
            ..DEEP_NODE
        },
        DEEP_BLACK,
    ),
];

#[test]
fn targets_of_16_bits_get_their_bodies(rt: HostRuntime) {
    all_are(&rt, &DEEP_BODIES);
}

/// Of four samples a row, at least a row is held and at most a band twice. Of tiles that are turned nothing is kept.
const HELD_BY_ROW: &[Case<'static>] = &[
    (
        Ask::Body(b"/iiif/a/full/max/90/default.tif"),
        Want::Held(200, 4, 8, Text::Is(&TURNED_FILE)),
    ),
    (Ask::Kept, Want::Booked(0, 0, 0)),
];

/// A band of more rows than there are has four.
const HELD_AT_ONCE: &[Case<'static>] = &[(
    Ask::Body(b"/iiif/a/full/max/90/default.tif"),
    Want::Held(200, 4, 32, Text::Is(&TURNED_FILE)),
)];

/// Two samples a row, each a mean, are held so. The block that they are made of has four sums, and stays for the second row.
const HELD_HALF: &[Case<'static>] = &[
    (
        Ask::Body(b"/iiif/a/full/2,/90/default.tif"),
        Want::Held(200, 2, 4, Text::Long(178, &[105, 25, 125, 45])),
    ),
    (Ask::Kept, Want::Booked(4, 4, 0)),
];

/// How much is held of an image, whoever makes it.
static HELD: [Table; 3] = [
    ("by row", SLOWLY, HELD_BY_ROW),
    ("at once", Setup { rows: 64, ..SLOWLY }, HELD_AT_ONCE),
    ("half, by row", SLOWLY, HELD_HALF),
];

/// Nothing is held of what is no image.
static NOT_HELD: [Table; 1] = [(
    "information",
    SLOWLY,
    &[(
        Ask::Body(b"/iiif/a/info.json"),
        Want::Held(200, 0, 0, Text::Framed(b"{", b"}")),
    )],
)];

/// The number of workers by whom these don't come as they are to.
fn other_workers<R: Threads + Wait + Clock + Sync + AllocGlobal>(
    rt: &R,
    setup: &Setup<'_>,
    cases: &[Case<'_>],
) -> Option<u32> {
    for workers in [1, 2, 4] {
        if !are_right(rt, &Setup { workers, ..*setup }, cases) {
            return Some(workers);
        }
    }
    None
}

#[test]
fn row_of_a_turned_sample_is_held_at_most_twice(rt: HostRuntime) {
    for (name, setup, cases) in &HELD {
        let other = other_workers(&rt, setup, cases);
        assert!(rt; other.is_none(), "{name}, by {other:?}");
    }
    all_are(&rt, &NOT_HELD);
}

/// Whether a body is the line of a source that fails where one of its first four reads does, and whole where none of a thousand does. Four
/// tiles of edge 2, in a picture 4 by 4, take one read each at least.
fn needs_four_reads<R: Threads + Wait + Clock + Sync + AllocGlobal>(
    rt: &R,
    fault: &[Case<'_>],
    body: &[Case<'_>],
) -> bool {
    for k in 1..=4u64 {
        if !are_right(rt, &Setup { k, ..NODE }, fault) {
            return false;
        }
    }
    are_right(rt, &Setup { k: 1000, ..NODE }, body)
}

#[test]
fn tile_that_is_not_read_is_a_source_fault(rt: HostRuntime) {
    assert!(rt; needs_four_reads(&rt, SAMPLE_FAULT, SAMPLE_BODY));
    assert!(rt; needs_four_reads(&rt, HALF_FAULT, HALF_BODY));
}

/// The head of the answer to a GET of the whole sample.
pub(crate) const IMAGE_HEAD: &[u8] =
    b"HTTP/1.1 200 OK\r\nContent-Type: image/tiff\r\nAccess-Control-Allow-Origin: *\r\nLink: \
        <http://localhost/iiif/a/full/max/0/default.tif>;rel=\"canonical\"\r\nContent-Length: 190\r\n\r\n";

const FAULT_ANSWER: &[u8] =
    b"HTTP/1.1 500 Internal Server Error\r\nContent-Type: text/plain\r\nAccess-Control-Allow-Origin: *\r\n\
        Content-Length: 10\r\n\r\nL1 source\n";

/// The image with its head.
pub(crate) const IMAGE: Case<'static> = (
    Ask::Call(Verb::Get, WHOLE),
    Want::Whole(200, Text::Joined(IMAGE_HEAD, &SAMPLE_FILE)),
);

/// The answer where a read fails before the first band.
pub(crate) const UNREAD: Case<'static> = (
    Ask::Call(Verb::Get, WHOLE),
    Want::Whole(500, Text::Is(FAULT_ANSWER)),
);

/// The head of the image alone.
const HEADED: Case<'static> = (
    Ask::Call(Verb::Head, WHOLE),
    Want::Whole(200, Text::Is(IMAGE_HEAD)),
);

/// Refusals with their heads, for which nothing is read.
const REFUSALS: &[Case<'static>] = &[
    (
        Ask::Call(Verb::Get, b"/iiif/zz/info.json"),
        Want::Whole(
            404,
            Text::Is(
                b"HTTP/1.1 404 Not Found\r\nContent-Type: text/plain\r\nAccess-Control-Allow-Origin: *\r\n\
                    Content-Length: 14\r\n\r\nQ4 identifier\n",
            ),
        ),
    ),
    (
        Ask::Call(Verb::Head, b"/iiif/a/full/^8,/0/default.tif"),
        Want::Whole(
            501,
            Text::Is(
                b"HTTP/1.1 501 Not Implemented\r\nContent-Type: text/plain\r\nAccess-Control-Allow-Origin: *\r\nContent-Length: 12\r\n\r\n",
            ),
        ),
    ),
    (
        Ask::Call(Verb::Get, b"/"),
        Want::Whole(
            400,
            Text::Is(
                b"HTTP/1.1 400 Bad Request\r\nContent-Type: text/plain\r\nAccess-Control-Allow-Origin: *\r\n\
                    Content-Length: 8\r\n\r\nQ3 path\n",
            ),
        ),
    ),
    (
        Ask::Call(Verb::Delete, b"/"),
        Want::Whole(
            405,
            Text::Is(
                b"HTTP/1.1 405 Method Not Allowed\r\nContent-Type: text/plain\r\nAccess-Control-Allow-Origin: *\r\n\
                    Allow: GET, HEAD\r\nContent-Length: 10\r\n\r\nQ2 method\n",
            ),
        ),
    ),
    NOTHING_IS_READ,
];

/// A head alone, for which nothing is read, and then an image, for which the first read fails.
const HEAD_AND_FAULT: &[Case<'static>] = &[HEADED, UNREAD];

static ANSWERS: [Table; 3] = [
    ("image with its head", NODE, &[IMAGE]),
    ("refusals with their heads", NODE, REFUSALS),
    ("head reads nothing", Setup { k: 1, ..NODE }, HEAD_AND_FAULT),
];

#[test]
fn calls_get_their_answers(rt: HostRuntime) {
    all_are(&rt, &ANSWERS);
}

/// The node that scales up to 8 by 8.
const UP_TO_8: Setup<'static> = Setup { max: 8, ..LARGER };

/// Answers over one row of 4: 0, 1, 0, 0.
const ROW: Setup<'static> = Setup {
    changed: &[(46, 1), (9, 1), (10, 0), (11, 0)],
    ..UP_TO_8
};

/// The first two rows of the sample at twice its sides.
const TWICE: &[u8] = &[0, 0, 10, 10, 20, 20, 30, 30, 0, 0, 10, 10, 20, 20, 30, 30];

/// Results above their regions, and such that are not, under their canonical URIs.
static RESULTS: [Table; 7] = [
    (
        "0,0,2,2/^3,3",
        UP_TO_8,
        &[(
            Ask::Call(Verb::Get, b"/iiif/a/0,0,2,2/^3,3/0/default.tif"),
            Want::Whole(
                200,
                Text::Image("0,0,2,2/%5E3,3", 9, &[0, 5, 10, 20, 25, 30, 40, 45, 50]),
            ),
        )],
    ),
    (
        "0,0,2,1/^3,1",
        ROW,
        &[(
            Ask::Call(Verb::Get, b"/iiif/a/0,0,2,1/^3,1/0/default.tif"),
            Want::Whole(200, Text::Image("0,0,2,1/%5E3,1", 3, &[0, 1, 1])),
        )],
    ),
    (
        "full/^max",
        UP_TO_8,
        &[(
            Ask::Call(Verb::Get, b"/iiif/a/full/^max/0/default.tif"),
            Want::Whole(200, Text::Image("full/%5Emax", 64, TWICE)),
        )],
    ),
    (
        "full/^8,",
        UP_TO_8,
        &[(
            Ask::Call(Verb::Get, b"/iiif/a/full/^8,/0/default.tif"),
            Want::Whole(200, Text::Image("full/%5Emax", 64, TWICE)),
        )],
    ),
    (
        "full/^2,",
        UP_TO_8,
        &[(
            Ask::Call(Verb::Get, b"/iiif/a/full/^2,/0/default.tif"),
            Want::Whole(200, Text::Image("full/2,2", 4, &[25, 45, 105, 125])),
        )],
    ),
    (
        "full/2,",
        UP_TO_8,
        &[(
            Ask::Call(Verb::Get, b"/iiif/a/full/2,/0/default.tif"),
            Want::Whole(200, Text::Image("full/2,2", 4, &[25, 45, 105, 125])),
        )],
    ),
    // Twice as wide, and a quarter as high: the means of columns.
    (
        "full/^8,1",
        UP_TO_8,
        &[(
            Ask::Call(Verb::Get, b"/iiif/a/full/^8,1/0/default.tif"),
            Want::Whole(
                200,
                Text::Image("full/%5E8,1", 8, &[60, 60, 70, 70, 80, 80, 90, 90]),
            ),
        )],
    ),
];

#[test]
fn images_larger_than_their_regions_are_answered(rt: HostRuntime) {
    all_are(&rt, &RESULTS);
}

/// Refusals with and without the option. Nothing is read for the one that no other table has.
static REFUSED_RESULTS: [Table; 6] = [
    (
        "full/^5000,",
        LARGER,
        &[
            (
                Ask::Call(Verb::Get, b"/iiif/a/full/^5000,/0/default.tif"),
                Want::Whole(400, Text::Framed(b"", b"\r\nQ14 limit\n")),
            ),
            NOTHING_IS_READ,
        ],
    ),
    (
        "full/8,",
        LARGER,
        &[(
            Ask::Call(Verb::Get, b"/iiif/a/full/8,/0/default.tif"),
            Want::Whole(400, Text::Framed(b"", b"\r\nQ12 larger\n")),
        )],
    ),
    (
        "full/pct:200",
        LARGER,
        &[(
            Ask::Call(Verb::Get, b"/iiif/a/full/pct:200/0/default.tif"),
            Want::Whole(400, Text::Framed(b"", b"\r\nQ12 larger\n")),
        )],
    ),
    (
        "full/^0,",
        LARGER,
        &[(
            Ask::Call(Verb::Get, b"/iiif/a/full/^0,/0/default.tif"),
            Want::Whole(400, Text::Framed(b"", b"\r\nQ11 zero\n")),
        )],
    ),
    (
        "full/^5000,",
        NODE,
        &[(
            Ask::Call(Verb::Get, b"/iiif/a/full/^5000,/0/default.tif"),
            Want::Whole(501, Text::Framed(b"", b"\r\nQ13 upscale\n")),
        )],
    ),
    (
        "full/^5,4",
        NODE,
        &[(
            Ask::Call(Verb::Get, b"/iiif/a/full/^5,4/0/default.tif"),
            Want::Whole(501, Text::Framed(b"", b"\r\nQ13 upscale\n")),
        )],
    ),
];

#[test]
fn some_images_larger_than_their_regions_are_refused(rt: HostRuntime) {
    all_are(&rt, &REFUSED_RESULTS);
}

const INFORMATION: &[u8] =
    b"{\"@context\":\"http://iiif.io/api/image/3/context.json\",\"extraFeatures\":[\"baseUriRedirect\",\
        \"canonicalLinkHeader\",\"cors\",\"mirroring\",\"regionByPct\",\"regionByPx\",\"regionSquare\",\
        \"rotationBy90s\",\"sizeByConfinedWh\",\"sizeByH\",\"sizeByPct\",\"sizeByW\",\"sizeByWh\"],\
        \"extraFormats\":[\"tif\"],\"extraQualities\":[\"bitonal\",\"color\",\"gray\"],\"height\":4,\
        \"id\":\"http://localhost/iiif/a\",\"maxHeight\":4096,\"maxWidth\":4096,\"preferredFormats\":[\"tif\"],\
        \"profile\":\"level0\",\"protocol\":\"http://iiif.io/api/image\",\"tiles\":[{\"height\":2,\"scaleFactors\":[1,\
        2],\"width\":2}],\"type\":\"ImageService3\",\"width\":4}";

const INFORMATION_HEAD: &[u8] =
    b"HTTP/1.1 200 OK\r\nContent-Type: application/ld+json;profile=\"http://iiif.io/api/image/3/context.json\"\r\n\
        Access-Control-Allow-Origin: *\r\nContent-Length: 564\r\n\r\n";

/// The information of a node that scales up on the sample: after the other features, that sizes may be above their regions.
const INFORMATION_OF_LARGER: &[u8] =
    b"{\"@context\":\"http://iiif.io/api/image/3/context.json\",\"extraFeatures\":[\"baseUriRedirect\",\
        \"canonicalLinkHeader\",\"cors\",\"mirroring\",\"regionByPct\",\"regionByPx\",\"regionSquare\",\
        \"rotationBy90s\",\"sizeByConfinedWh\",\"sizeByH\",\"sizeByPct\",\"sizeByW\",\"sizeByWh\",\"sizeUpscaling\"],\
        \"extraFormats\":[\"tif\"],\"extraQualities\":[\"bitonal\",\"color\",\"gray\"],\"height\":4,\
        \"id\":\"http://localhost/iiif/a\",\"maxHeight\":4096,\"maxWidth\":4096,\"preferredFormats\":[\"tif\"],\
        \"profile\":\"level0\",\"protocol\":\"http://iiif.io/api/image\",\"tiles\":[{\"height\":2,\"scaleFactors\":[1,\
        2],\"width\":2}],\"type\":\"ImageService3\",\"width\":4}";

/// The information on the sample, for which nothing of it is read.
static SAID: [Table; 4] = [
    (
        "GET",
        NODE,
        &[
            (
                Ask::Call(Verb::Get, b"/iiif/a/info.json"),
                Want::Whole(200, Text::Joined(INFORMATION_HEAD, INFORMATION)),
            ),
            NOTHING_IS_READ,
        ],
    ),
    (
        "HEAD",
        NODE,
        &[
            (
                Ask::Call(Verb::Head, b"/iiif/a/info.json"),
                Want::Whole(200, Text::Is(INFORMATION_HEAD)),
            ),
            NOTHING_IS_READ,
        ],
    ),
    (
        "body",
        NODE,
        &[
            (
                Ask::Body(b"/iiif/a/info.json"),
                Want::Whole(200, Text::Is(INFORMATION)),
            ),
            NOTHING_IS_READ,
        ],
    ),
    (
        "upscale",
        LARGER,
        &[
            (
                Ask::Body(b"/iiif/a/info.json"),
                Want::Whole(200, Text::Is(INFORMATION_OF_LARGER)),
            ),
            NOTHING_IS_READ,
        ],
    ),
];

#[test]
fn information_of_the_sample_is_answered(rt: HostRuntime) {
    all_are(&rt, &SAID);
}

/// Writers that fail behind each number of bytes of an answer that is this one as a whole.
fn full_ones<'a>(
    alloc: Global,
    ask: Ask<'a>,
    piece: usize,
    whole: &'a [u8],
) -> Option<Vec<Case<'a>>> {
    let mut cases = Vec::new(alloc);
    for room in 0..whole.len() {
        cases.push((ask, Want::Full(room, piece, whole))).ok()?;
    }
    Some(cases)
}

/// Whether an answer that is the first of these and then the second as a whole leaves a strict front with each writer that fails, of one
/// node.
fn are_fronts<R: Threads + Wait + Clock + Sync + AllocGlobal>(
    rt: &R,
    ask: Ask<'_>,
    piece: usize,
    [head, body]: [&[u8]; 2],
) -> Option<bool> {
    let mut whole = Vec::from_slice(rt.alloc(), head).ok()?;
    whole.extend_from_slice(body).ok()?;
    let cases = full_ones(rt.alloc(), ask, piece, &whole)?;
    Some(are_right(rt, &NODE, &cases))
}

#[test]
fn writer_that_fails_leaves_a_strict_prefix(rt: HostRuntime) {
    for (ask, piece, head) in [
        (Ask::Body(WHOLE), 7usize, b"".as_slice()),
        (Ask::Call(Verb::Get, WHOLE), 64, IMAGE_HEAD),
    ] {
        assert!(rt;
            is_same(
                &are_fronts(&rt, ask, piece, [head, &SAMPLE_FILE]),
                &Some(true)
            ),
            "{piece}"
        );
    }
}

const ALONE: &[Case<'static>] = &[IMAGE];

/// A head alone, the image, and the image once more, which fails.
const BEHIND_A_HEAD: &[Case<'static>] = &[HEADED, IMAGE, UNREAD];

/// Nodes that keep nothing, of whose reads the k-th and each later one fails: of the first of a hundred k that the whole answer doesn't
/// need, whether a head alone, the answer and one more that fails come as they are to.
fn is_head_without_a_read<R: Threads + Wait + Clock + Sync + AllocGlobal>(rt: &R) -> bool {
    for k in 1..100u64 {
        let setup = Setup {
            bytes: 0,
            k,
            ..NODE
        };
        if are_right(rt, &setup, ALONE) {
            return k > 1 && are_right(rt, &setup, BEHIND_A_HEAD);
        }
    }
    false
}

#[test]
fn head_spends_no_read(rt: HostRuntime) {
    assert!(rt; is_head_without_a_read(&rt));
}
