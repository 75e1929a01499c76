//! Parts of information that were written by hand. A whole one stands in `refused_tests`.

use crate::fixtures::is_unwanted;
use crate::request::canonical_tests::LIMITS;
use iiif_canonical::Limits;
use iiif_info::info;
use iiif_pixel::Dim;
use std::alloc::Global;

/// Other limits, of a server that scales up.
const LARGER: Limits = Limits {
    max_w: 300,
    max_h: 200,
    upscale: true,
};

const ONE: Dim = Dim { w: 1, h: 1 };

const ODD: Dim = Dim { w: 7, h: 5 };

/// A server and an image's name, its sides, the limits and the edge of its tiles, and a part of its information.
type Page = (&'static str, &'static str, Dim, Limits, u32, &'static str);

/// Names and servers that are escaped; scales, which end where one tile covers the image; sides and limits.
static PAGES: [Page; 14] = [
    (
        "http://h",
        "a/b c\"d",
        ONE,
        LIMITS,
        1,
        "\"id\":\"http://h/a%2Fb%20c%22d\",",
    ),
    (
        "http://h",
        "ü~\u{1}",
        ONE,
        LIMITS,
        1,
        "\"id\":\"http://h/%C3%BC~%01\",",
    ),
    (
        "http://h/\"q\"\\",
        "x",
        ONE,
        LIMITS,
        1,
        "\"id\":\"http://h/\\\"q\\\"\\\\/x\",",
    ),
    (
        "http://h/\u{1}\n\u{7f}",
        "x",
        ONE,
        LIMITS,
        1,
        "\"id\":\"http://h/\\u0001\\n\u{7f}/x\",",
    ),
    (
        "http://h/é",
        "x",
        ONE,
        LIMITS,
        1,
        "\"id\":\"http://h/é/x\",",
    ),
    (
        "http://h",
        "x",
        Dim { w: 1000, h: 300 },
        LIMITS,
        256,
        "{\"height\":256,\"scaleFactors\":[1,2,4],\"width\":256}",
    ),
    (
        "http://h",
        "x",
        Dim { w: 300, h: 1025 },
        LIMITS,
        256,
        "{\"height\":256,\"scaleFactors\":[1,2,4,8],\"width\":256}",
    ),
    (
        "http://h",
        "x",
        Dim { w: 256, h: 256 },
        LIMITS,
        256,
        "{\"height\":256,\"scaleFactors\":[1],\"width\":256}",
    ),
    (
        "http://h",
        "x",
        Dim { w: 257, h: 1 },
        LIMITS,
        256,
        "{\"height\":256,\"scaleFactors\":[1,2],\"width\":256}",
    ),
    (
        "http://h",
        "x",
        ONE,
        LIMITS,
        1024,
        "{\"height\":1024,\"scaleFactors\":[1],\"width\":1024}",
    ),
    (
        "http://h",
        "x",
        ODD,
        LARGER,
        8,
        "\"sizeByWh\",\"sizeUpscaling\"],\"extraFormats\"",
    ),
    ("http://h", "x", ODD, LARGER, 8, "\"height\":5,\"id\""),
    (
        "http://h",
        "x",
        ODD,
        LARGER,
        8,
        "\"maxHeight\":200,\"maxWidth\":300,",
    ),
    ("http://h", "x", ODD, LARGER, 8, "\"width\":7}"),
];

/// Whether an image's information has the part.
fn is_told(alloc: Global, page: &Page) -> bool {
    let (base, id, dim, limits, edge, part) = page;
    if *edge == 0 {
        return false;
    }
    match info(alloc, base, id, *dim, limits, *edge) {
        Ok(text) => text.as_str().contains(*part),
        Err(fault) => is_unwanted(&fault),
    }
}

#[test]
fn information_has_its_parts_at_their_keys(rt: HostRuntime) {
    for page in &PAGES {
        assert!(rt; is_told(rt.alloc(), page), "{}", page.5);
    }
}
