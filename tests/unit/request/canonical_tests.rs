//! Requests resolved for an image, and written.

use crate::fixtures::{is_missing, is_same, is_unwanted, note};
use crate::request::answers::{Image, Subject, first_wrong};
use iiif_canonical::{Limits, canonical, resolve, text, uri};
use iiif_pixel::{Dim, Kind, Quality, Rect};
use iiif_request::{Decimal, Form, Region, Request, Rotation, Size, Target, Words, parse, split};
use std::alloc::Global;
use std::ops::Range;

pub(crate) const LIMITS: Limits = Limits {
    max_w: 4096,
    max_h: 4096,
    upscale: false,
};

/// Limits of a server that scales up.
const LARGER: Limits = Limits {
    max_w: 8,
    max_h: 8,
    upscale: true,
};

const SQUARE: Dim = Dim { w: 4, h: 4 };

/// The square in color.
const COLORED: Image = Image {
    dim: SQUARE,
    kind: Kind::Rgb,
    limits: LIMITS,
};

/// The gray square.
const GRAY: Image = Image {
    dim: SQUARE,
    kind: Kind::Gray,
    limits: LIMITS,
};

/// The gray square where results may be larger.
const SCALED: Image = Image {
    dim: SQUARE,
    kind: Kind::Gray,
    limits: LARGER,
};

/// Gray places in a row: four, a thousand and a million.
const ROW: Image = Image {
    dim: Dim { w: 4, h: 1 },
    kind: Kind::Gray,
    limits: LIMITS,
};

const THIN: Image = Image {
    dim: Dim { w: 1000, h: 1 },
    kind: Kind::Gray,
    limits: LIMITS,
};

const THINNEST: Image = Image {
    dim: Dim { w: 1_000_000, h: 1 },
    kind: Kind::Gray,
    limits: LIMITS,
};

/// The request of the words that stand in the lists below with `!360.0`, or with `270.0`.
const ASKED: &str =
    "/iiif/a/0,0,9,9/max/!360.0/color.tif => Ok(Request { region: Pixels(0, 0, 9, 9), size: Size { up: false, form: \
        Max }, rotation: Rotation { mirror: true, degrees: Decimal { digits: 3600, places: 1 } }, quality: Color })
/iiif/a/3,3,5,5/max/!360.0/color.tif => Ok(Request { region: Pixels(3, 3, 5, 5), size: Size { up: false, form: Max }, \
        rotation: Rotation { mirror: true, degrees: Decimal { digits: 3600, places: 1 } }, quality: Color })
/iiif/a/4,0,1,1/max/!360.0/color.tif => Ok(Request { region: Pixels(4, 0, 1, 1), size: Size { up: false, form: Max }, \
        rotation: Rotation { mirror: true, degrees: Decimal { digits: 3600, places: 1 } }, quality: Color })
/iiif/a/1,1,0,2/max/!360.0/color.tif => Ok(Request { region: Pixels(1, 1, 0, 2), size: Size { up: false, form: Max }, \
        rotation: Rotation { mirror: true, degrees: Decimal { digits: 3600, places: 1 } }, quality: Color })
/iiif/a/pct:25,25,50.0,50.0/max/!360.0/color.tif => Ok(Request { region: Percents(Decimal { digits: 25, places: 0 }, \
        Decimal { digits: 25, places: 0 }, Decimal { digits: 500, places: 1 }, Decimal { digits: 500, places: 1 }), \
        size: Size { up: false, form: Max }, rotation: Rotation { mirror: true, degrees: Decimal { digits: 3600, \
        places: 1 } }, quality: Color })
/iiif/a/square/max/!360.0/color.tif => Ok(Request { region: Square, size: Size { up: false, form: Max }, rotation: \
        Rotation { mirror: true, degrees: Decimal { digits: 3600, places: 1 } }, quality: Color })
/iiif/a/full/2,/!360.0/color.tif => Ok(Request { region: Full, size: Size { up: false, form: Width(2) }, rotation: \
        Rotation { mirror: true, degrees: Decimal { digits: 3600, places: 1 } }, quality: Color })
/iiif/a/full/^2,/!360.0/color.tif => Ok(Request { region: Full, size: Size { up: true, form: Width(2) }, rotation: \
        Rotation { mirror: true, degrees: Decimal { digits: 3600, places: 1 } }, quality: Color })
/iiif/a/full/^!2,9/!360.0/color.tif => Ok(Request { region: Full, size: Size { up: true, form: Within(2, 9) }, \
        rotation: Rotation { mirror: true, degrees: Decimal { digits: 3600, places: 1 } }, quality: Color })
/iiif/a/full/8,/!360.0/color.tif => Ok(Request { region: Full, size: Size { up: false, form: Width(8) }, rotation: \
        Rotation { mirror: true, degrees: Decimal { digits: 3600, places: 1 } }, quality: Color })
/iiif/a/full/^8,/!360.0/color.tif => Ok(Request { region: Full, size: Size { up: true, form: Width(8) }, rotation: \
        Rotation { mirror: true, degrees: Decimal { digits: 3600, places: 1 } }, quality: Color })
/iiif/a/full/^max/!360.0/color.tif => Ok(Request { region: Full, size: Size { up: true, form: Max }, rotation: \
        Rotation { mirror: true, degrees: Decimal { digits: 3600, places: 1 } }, quality: Color })
/iiif/a/full/pct:100.1/!360.0/color.tif => Ok(Request { region: Full, size: Size { up: false, form: Percent(Decimal { \
        digits: 1001, places: 1 }) }, rotation: Rotation { mirror: true, degrees: Decimal { digits: 3600, places: 1 } \
        }, quality: Color })
/iiif/a/full/^pct:100.1/!360.0/color.tif => Ok(Request { region: Full, size: Size { up: true, form: Percent(Decimal { \
        digits: 1001, places: 1 }) }, rotation: Rotation { mirror: true, degrees: Decimal { digits: 3600, places: 1 } \
        }, quality: Color })
/iiif/a/full/100,/!360.0/color.tif => Ok(Request { region: Full, size: Size { up: false, form: Width(100) }, \
        rotation: Rotation { mirror: true, degrees: Decimal { digits: 3600, places: 1 } }, quality: Color })
/iiif/a/full/!100,100/!360.0/color.tif => Ok(Request { region: Full, size: Size { up: false, form: Within(100, 100) }, \
        rotation: Rotation { mirror: true, degrees: Decimal { digits: 3600, places: 1 } }, quality: Color })
/iiif/a/full/pct:50/!360.0/color.tif => Ok(Request { region: Full, size: Size { up: false, form: Percent(Decimal { \
        digits: 50, places: 0 }) }, rotation: Rotation { mirror: true, degrees: Decimal { digits: 3600, places: 1 } }, \
        quality: Color })
/iiif/a/full/4096,1/!360.0/color.tif => Ok(Request { region: Full, size: Size { up: false, form: Both(4096, 1) }, \
        rotation: Rotation { mirror: true, degrees: Decimal { digits: 3600, places: 1 } }, quality: Color })
/iiif/a/full/4097,1/!360.0/color.tif => Ok(Request { region: Full, size: Size { up: false, form: Both(4097, 1) }, \
        rotation: Rotation { mirror: true, degrees: Decimal { digits: 3600, places: 1 } }, quality: Color })
/iiif/a/full/max/!360.0/color.tif => Ok(Request { region: Full, size: Size { up: false, form: Max }, rotation: \
        Rotation { mirror: true, degrees: Decimal { digits: 3600, places: 1 } }, quality: Color })
/iiif/a/1,2,9,9/1,/270.0/gray.tif => Ok(Request { region: Pixels(1, 2, 9, 9), size: Size { up: false, form: Width(1) \
        }, rotation: Rotation { mirror: false, degrees: Decimal { digits: 2700, places: 1 } }, quality: Gray })
/iiif/a/pct:0.05,100.0,7,0.0000000090/^pct:0.05/!360.0/color.tif => Ok(Request { region: Percents(Decimal { digits: 5, \
        places: 2 }, Decimal { digits: 1000, places: 1 }, Decimal { digits: 7, places: 0 }, Decimal { digits: 90, \
        places: 10 }), size: Size { up: true, form: Percent(Decimal { digits: 5, places: 2 }) }, rotation: Rotation { \
        mirror: true, degrees: Decimal { digits: 3600, places: 1 } }, quality: Color })
/iiif/a/0,10,200,3000/!5,6/!360.0/color.tif => Ok(Request { region: Pixels(0, 10, 200, 3000), size: Size { up: false, \
        form: Within(5, 6) }, rotation: Rotation { mirror: true, degrees: Decimal { digits: 3600, places: 1 } }, \
        quality: Color })
/iiif/a/square/^max/!360.0/color.tif => Ok(Request { region: Square, size: Size { up: true, form: Max }, rotation: \
        Rotation { mirror: true, degrees: Decimal { digits: 3600, places: 1 } }, quality: Color })
/iiif/a/square/^1,/!360.0/color.tif => Ok(Request { region: Square, size: Size { up: true, form: Width(1) }, \
        rotation: Rotation { mirror: true, degrees: Decimal { digits: 3600, places: 1 } }, quality: Color })
/iiif/a/square/^,2/!360.0/color.tif => Ok(Request { region: Square, size: Size { up: true, form: Height(2) }, \
        rotation: Rotation { mirror: true, degrees: Decimal { digits: 3600, places: 1 } }, quality: Color })
/iiif/a/square/^3,4/!360.0/color.tif => Ok(Request { region: Square, size: Size { up: true, form: Both(3, 4) }, \
        rotation: Rotation { mirror: true, degrees: Decimal { digits: 3600, places: 1 } }, quality: Color })";

/// Requests that are written as they are.
const WRITTEN: &str =
    r#"/iiif/a/pct:0.05,100.0,7,0.0000000090/^pct:0.05/!360.0/color.tif => pct:0.05,100.0,7,0.0000000090/%5Epct:0.05/!360.0/color.tif
/iiif/a/0,10,200,3000/!5,6/!360.0/color.tif => 0,10,200,3000/!5,6/!360.0/color.tif
/iiif/a/square/^max/!360.0/color.tif => square/%5Emax/!360.0/color.tif
/iiif/a/square/^1,/!360.0/color.tif => square/%5E1,/!360.0/color.tif
/iiif/a/square/^,2/!360.0/color.tif => square/%5E,2/!360.0/color.tif
/iiif/a/square/^3,4/!360.0/color.tif => square/%5E3,4/!360.0/color.tif"#;

/// A part of the square, scaled and turned.
const OF_RGB: &str =
    "/iiif/a/1,2,9,9/1,/270.0/gray.tif => Ok(Resolved { rect: Rect { x: 1, y: 2, w: 3, h: 2 }, size: Dim { w: 1, h: \
        1 }, turn: Turn { mirror: false, quarters: 3 }, quality: Gray })";

/// Requests of a gray picture: its quality changes nothing.
const OF_GRAY: &str =
    "/iiif/a/1,2,9,9/1,/270.0/gray.tif => Ok(Resolved { rect: Rect { x: 1, y: 2, w: 3, h: 2 }, size: Dim { w: 1, h: \
        1 }, turn: Turn { mirror: false, quarters: 3 }, quality: Default })";

/// Regions that are clipped, and sizes, of the square.
const OF_SQUARE: &str = r#"/iiif/a/0,0,9,9/max/!360.0/color.tif => full/max/!0/default.tif
/iiif/a/3,3,5,5/max/!360.0/color.tif => 3,3,1,1/max/!0/default.tif
/iiif/a/4,0,1,1/max/!360.0/color.tif => Empty
/iiif/a/1,1,0,2/max/!360.0/color.tif => Empty
/iiif/a/pct:25,25,50.0,50.0/max/!360.0/color.tif => 1,1,2,2/max/!0/default.tif
/iiif/a/full/2,/!360.0/color.tif => full/2,2/!0/default.tif
/iiif/a/full/^2,/!360.0/color.tif => full/2,2/!0/default.tif
/iiif/a/full/^!2,9/!360.0/color.tif => full/2,2/!0/default.tif
/iiif/a/full/8,/!360.0/color.tif => Larger
/iiif/a/full/^8,/!360.0/color.tif => Upscale
/iiif/a/full/^max/!360.0/color.tif => Upscale
/iiif/a/full/pct:100.1/!360.0/color.tif => Larger
/iiif/a/full/^pct:100.1/!360.0/color.tif => full/max/!0/default.tif
/iiif/a/full/2,/0/default.tif => full/2,2/0/default.tif
/iiif/a/full/%5E2,/0/default.tif => full/2,2/0/default.tif
/iiif/a/0,0,9,9/max/360/color.tif => full/max/0/default.tif
/iiif/a/4,0,1,1/max/0/default.tif => Empty
/iiif/a/1,1,0,2/max/0/default.tif => Empty
/iiif/a/3,3,5,5/max/0/default.tif => 3,3,1,1/max/0/default.tif
/iiif/a/full/8,/0/default.tif => Larger
/iiif/a/full/^8,/0/default.tif => Upscale
/iiif/a/full/^max/0/default.tif => Upscale
/iiif/a/full/pct:100.1/0/default.tif => Larger
/iiif/a/full/^pct:100.1/0/default.tif => full/max/0/default.tif
/iiif/a/full/^!2,9/0/default.tif => full/2,2/0/default.tif
/iiif/a/pct:25,25,50,50/max/0/default.tif => 1,1,2,2/max/0/default.tif"#;

/// Of four places in a row.
const OF_ROW: &str = r#"/iiif/a/square/max/!360.0/color.tif => 1,0,1,1/max/!0/default.tif
/iiif/a/square/max/0/default.tif => 1,0,1,1/max/0/default.tif"#;

/// Of a thousand places in a row.
const OF_THIN: &str = r#"/iiif/a/full/100,/!360.0/color.tif => Zero
/iiif/a/full/!100,100/!360.0/color.tif => Zero
/iiif/a/full/pct:50/!360.0/color.tif => full/500,1/!0/default.tif
/iiif/a/full/100,/0/default.tif => Zero
/iiif/a/full/!100,100/0/default.tif => Zero
/iiif/a/full/pct:50/0/default.tif => full/500,1/0/default.tif"#;

/// Of a million places in a row.
const OF_THINNEST: &str = r#"/iiif/a/full/4096,1/!360.0/color.tif => full/4096,1/!0/default.tif
/iiif/a/full/4097,1/!360.0/color.tif => Limit
/iiif/a/full/max/!360.0/color.tif => Zero
/iiif/a/full/4096,1/0/default.tif => full/4096,1/0/default.tif
/iiif/a/full/4097,1/0/default.tif => Limit
/iiif/a/full/max/0/default.tif => Zero"#;

/// Of the square where results may be larger. In the fifth and the sixth line one side is above the region's and one below.
const SCALED_UP: &str = r#"/iiif/a/0,0,2,2/^3,3/0/default.tif => 0,0,2,2/%5E3,3/0/default.tif
/iiif/a/full/^max/0/default.tif => full/%5Emax/0/default.tif
/iiif/a/full/^8,/0/default.tif => full/%5Emax/0/default.tif
/iiif/a/full/^7,/0/default.tif => full/%5E7,7/0/default.tif
/iiif/a/full/^5,1/0/default.tif => full/%5E5,1/0/default.tif
/iiif/a/full/^1,5/0/default.tif => full/%5E1,5/0/default.tif
/iiif/a/full/^pct:150/0/default.tif => full/%5E6,6/0/default.tif
/iiif/a/full/^pct:100.1/0/default.tif => full/max/0/default.tif
/iiif/a/0,0,2,1/^!9,9/0/default.tif => 0,0,2,1/%5Emax/0/default.tif
/iiif/a/full/^4,/0/default.tif => full/max/0/default.tif
/iiif/a/full/^2,/0/default.tif => full/2,2/0/default.tif
/iiif/a/full/max/0/default.tif => full/max/0/default.tif
/iiif/a/full/8,/0/default.tif => Larger
/iiif/a/full/pct:100.1/0/default.tif => Larger
/iiif/a/0,0,4,1/^1,/0/default.tif => Zero
/iiif/a/0,0,1,4/^9,0/0/default.tif => Zero
/iiif/a/full/^9,/0/default.tif => Limit
/iiif/a/full/^1,9/0/default.tif => Limit"#;

/// Identifiers in links to requests.
const LINKS: &str =
    r#"/iiif/a/0,0,9,9/max/360.0/color.tif => http://localhost/iiif/a/full/max/0/default.tif
/iiif/a%2Fb/0,0,9,9/max/360.0/color.tif => http://localhost/iiif/a%2Fb/full/max/0/default.tif"#;

/// In links to images.
const IMAGES: &str = r#"aZ09-._~ %é => http://localhost/iiif/aZ09-._~%20%25%C3%A9"#;

/// And alone.
const ESCAPED: &str = r#"?#[]@!$&'()*+,;=: => %3F%23%5B%5D%40%21%24%26%27%28%29%2A%2B%2C%3B%3D%3A"#;

static LISTS: [(Subject, &str); 12] = [
    (Subject::Requests, ASKED),
    (Subject::Texts, WRITTEN),
    (Subject::Resolved(COLORED), OF_RGB),
    (Subject::Resolved(GRAY), OF_GRAY),
    (Subject::Canonical(GRAY), OF_SQUARE),
    (Subject::Canonical(ROW), OF_ROW),
    (Subject::Canonical(THIN), OF_THIN),
    (Subject::Canonical(THINNEST), OF_THINNEST),
    (Subject::Canonical(SCALED), SCALED_UP),
    (Subject::Links(GRAY), LINKS),
    (Subject::Images, IMAGES),
    (Subject::Escaped, ESCAPED),
];

#[test]
fn words_resolve_to_their_canonical_form(rt: HostRuntime) {
    let wrong = first_wrong(rt.alloc(), &LISTS);
    assert!(rt; wrong.is_none(), "row {wrong:?}");
}

/// A decimal with so many digits behind the point.
fn places(digits: u64, places: u8) -> Decimal {
    Decimal { digits, places }
}

/// A request in color, mirrored and at 360.0 degrees.
fn request(region: Region, up: bool, form: Form) -> Request {
    Request {
        region,
        size: Size { up, form },
        rotation: Rotation {
            mirror: true,
            degrees: places(3600, 1),
        },
        quality: Quality::Color,
    }
}

/// Whether the greatest numbers come to the sides of the greatest image, and to this text.
fn are_greatest(alloc: Global, want: &str) -> bool {
    let most = places(9_999_999_999_999_999_999, 10);
    let all = Region::Percents(places(0, 10), places(0, 0), most, most);
    let whole = request(all, true, Form::Within(u32::MAX, u32::MAX));
    let dim = Dim {
        w: u32::MAX,
        h: u32::MAX,
    };
    let limits = Limits {
        max_w: u32::MAX,
        max_h: u32::MAX,
        upscale: false,
    };
    let Ok(resolved) = resolve(&whole, dim, Kind::Rgb, &limits) else {
        return false;
    };
    let form = canonical(&resolved, dim, Kind::Rgb, &limits);
    match text(alloc, &form) {
        Ok(written) => is_same(&resolved.size, &dim) && is_same(&written.as_str(), &want),
        Err(fault) => is_unwanted(&fault),
    }
}

#[test]
fn greatest_numbers_resolve(rt: HostRuntime) {
    assert!(rt; are_greatest(rt.alloc(), "full/max/!0/default.tif"));
}

/// Whether words for an image of this identifier ask for this of the image `a/b`.
fn are_for(id: &str, words: &Words, request: &Request) -> bool {
    is_same(&id, &"a/b") && is_same(&parse(words), &Ok(*request))
}

/// Whether a path, split and parsed, asks for this of the image `a/b`.
fn asks_for(alloc: Global, path: &str, request: &Request) -> bool {
    match split(alloc, b"/iiif", path.as_bytes()) {
        Ok(Target::Image(id, words)) => are_for(id.as_str(), &words, request),
        Ok(Target::Base(id)) | Ok(Target::Info(id)) => is_same(&id.as_str(), &"an image"),
        Err(fault) => is_unwanted(&fault),
    }
}

/// Whether a link does so.
fn leads_to(alloc: Global, link: &str, request: &Request) -> bool {
    match link.strip_prefix("http://localhost") {
        Some(path) => asks_for(alloc, path, request),
        None => is_missing(),
    }
}

/// Whether the link to a request's canonical form, split and parsed, comes to the same.
fn comes_back(alloc: Global, limits: &Limits, request: &Request) -> bool {
    let Ok(resolved) = resolve(request, SQUARE, Kind::Rgb, limits) else {
        return false;
    };
    let form = canonical(&resolved, SQUARE, Kind::Rgb, limits);
    if !is_same(&resolve(&form, SQUARE, Kind::Rgb, limits), &Ok(resolved)) {
        return false;
    }
    match uri(alloc, "http://localhost/iiif", "a/b", &form) {
        Ok(link) => leads_to(alloc, link.as_str(), &form),
        Err(fault) => is_unwanted(&fault),
    }
}

static QUALITIES: [Quality; 4] = [
    Quality::Default,
    Quality::Color,
    Quality::Gray,
    Quality::Bitonal,
];

/// Whether these looks of one size of a region do so, of the 32: eight turns, each in four qualities.
fn looks_come_back(
    alloc: Global,
    limits: &Limits,
    region: Region,
    size: Size,
    looks: Range<u32>,
) -> bool {
    for look in looks {
        let turn = u64::from(look / 4 % 8);
        let request = Request {
            region,
            size,
            rotation: Rotation {
                mirror: turn < 4,
                degrees: places(turn % 4 * 900, 1),
            },
            quality: QUALITIES[look as usize % 4],
        };
        if !comes_back(alloc, limits, &request) {
            note("request", &request);
            return false;
        }
    }
    true
}

/// Whether all of a region do so: each size up to its own, or up to twice that where it is scaled up. The whole picture does in each turn
/// and quality, and any part of it in one, which is another one from size to size.
fn sizes_come_back(alloc: Global, limits: &Limits, rect: Rect) -> bool {
    let region = Region::Pixels(rect.x, rect.y, rect.w, rect.h);
    let up = limits.upscale;
    let times = if up { 2 } else { 1 };
    for w in 1..times * rect.w + 1 {
        for h in 1..times * rect.h + 1 {
            let form = Form::Both(w, h);
            let first = rect.x + 3 * rect.y + 5 * rect.w + 7 * rect.h + 11 * w + 13 * h;
            let looks = if rect.w * rect.h == 16 {
                0..32
            } else {
                first..first + 1
            };
            if !looks_come_back(alloc, limits, region, Size { up, form }, looks) {
                return false;
            }
        }
    }
    true
}

/// Whether all requests within these limits do so.
fn all_come_back(alloc: Global, limits: &Limits) -> bool {
    for x in 0..4u32 {
        for y in 0..4u32 {
            for w in 1..5 - x {
                for h in 1..5 - y {
                    if !sizes_come_back(alloc, limits, Rect { x, y, w, h }) {
                        return false;
                    }
                }
            }
        }
    }
    true
}

#[test]
fn canonical_links_resolve_to_the_same_image(rt: HostRuntime) {
    assert!(rt; all_come_back(rt.alloc(), &LIMITS));
    assert!(rt; all_come_back(rt.alloc(), &LARGER), "scaled up");
}
