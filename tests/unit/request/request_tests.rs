//! Targets and words, as texts that ask for something or for nothing.

use crate::fixtures::{is_same, is_unwanted};
use crate::request::answers::{Subject, first_wrong};
use iiif_fault::Numbered;
use iiif_request::numerals::{is_numeral, numeral};
use iiif_request::{Refusal, SplitFault, Target, parse, split};
use std::alloc::{AllocError, Global};

/// One, two and five segments. Each is decoded once; a query is left unread; the last segment is parted at its first dot.
const TARGETS: &str = "/iiif/a => Ok(Base(\"a\"))
/iiif/a/info.json => Ok(Info(\"a\"))
/iiif/a/full/max/0/default.tif => Ok(Image(\"a\", Words { region: \"full\", size: \"max\", rotation: \"0\", quality: \
    \"default\", format: \"tif\" }))
/iiif/a%2Fb/0%2c0,1%2C1/%5E2,/%210/gr%61y%2Etif => Ok(Image(\"a/b\", Words { region: \"0,0,1,1\", size: \"^2,\", \
    rotation: \"!0\", quality: \"gray\", format: \"tif\" }))
/iiif/a%252Fb/0,0,1,1/^2,/!0/gray.tif => Ok(Image(\"a%2Fb\", Words { region: \"0,0,1,1\", size: \"^2,\", rotation: \
    \"!0\", quality: \"gray\", format: \"tif\" }))
/iiif/%C3%A4%3f/info%2ejson => Ok(Info(\"ä?\"))
/iiif/a/full/max/0/default.tif?b/c?d.e% => Ok(Image(\"a\", Words { region: \"full\", size: \"max\", rotation: \"0\", \
    quality: \"default\", format: \"tif\" }))
/iiif/a?/info.json => Ok(Base(\"a\"))
/iiif/a/full/max/0/default.tif.tif => Ok(Image(\"a\", Words { region: \"full\", size: \"max\", rotation: \"0\", \
    quality: \"default\", format: \"tif.tif\" }))
/iiif/a/full/max/0/default => Ok(Image(\"a\", Words { region: \"full\", size: \"max\", rotation: \"0\", quality: \
    \"default\", format: \"\" }))
/iiif/a////. => Ok(Image(\"a\", Words { region: \"\", size: \"\", rotation: \"\", quality: \"\", format: \"\" }))";

/// Other counts of segments, another prefix, and broken escapes. The first line's target is empty.
const NO_TARGETS: &str = r#" => Err(Path)
* => Err(Path)
/ => Err(Path)
/iiif => Err(Path)
/iiif?a => Err(Path)
/iiif/ => Err(Path)
/iiifa => Err(Path)
/IIIF/a => Err(Path)
/other/a => Err(Path)
/iiif/a/ => Err(Path)
/iiif/a/INFO.JSON => Err(Path)
/iiif/a/info.json/ => Err(Path)
/iiif/a/full/max => Err(Path)
/iiif/a/full/max/0 => Err(Path)
/iiif/a/full/max/0/default.tif/ => Err(Path)
/iiif/a/b/full/max/0/default.tif => Err(Path)
/iiif//info.json => Err(Path)
/iiif/a%2/full/max/0/default.tif => Err(Path)
/iiif/a% => Err(Path)
/iiif/a%zz => Err(Path)
/iiif/a%2gb => Err(Path)
/iiif/a%%41 => Err(Path)
/iiif/a%FF => Err(Path)
/iiif/%C3 => Err(Path)
/iiif/%C3/%A4/max/0/default.tif => Err(Path)
/iiif//full/max/0/default.tif => Err(Path)"#;

/// Whole requests, regions, sizes with and without `^`, and rotations with and without `!`, which keep their decimals.
const REQUESTS: &str =
    "/iiif/a/full/max/0/default.tif => Ok(Request { region: Full, size: Size { up: false, form: Max }, rotation: \
        Rotation { mirror: false, degrees: Decimal { digits: 0, places: 0 } }, quality: Default })
/iiif/a/pct:25,0,50.5,0.0000000001/^!2,9/!270.00/bitonal.tif => Ok(Request { region: Percents(Decimal { digits: 25, \
        places: 0 }, Decimal { digits: 0, places: 0 }, Decimal { digits: 505, places: 1 }, Decimal { digits: 1, \
        places: 10 }), size: Size { up: true, form: Within(2, 9) }, rotation: Rotation { mirror: true, degrees: \
        Decimal { digits: 27000, places: 2 } }, quality: Bitonal })
/iiif/a/full/max/0/color.tif => Ok(Request { region: Full, size: Size { up: false, form: Max }, rotation: Rotation { \
        mirror: false, degrees: Decimal { digits: 0, places: 0 } }, quality: Color })
/iiif/a/full/max/0/gray.tif => Ok(Request { region: Full, size: Size { up: false, form: Max }, rotation: Rotation { \
        mirror: false, degrees: Decimal { digits: 0, places: 0 } }, quality: Gray })
/iiif/a/square/max/0/default.tif => Ok(Request { region: Square, size: Size { up: false, form: Max }, rotation: \
        Rotation { mirror: false, degrees: Decimal { digits: 0, places: 0 } }, quality: Default })
/iiif/a/0,0,9,9/max/0/default.tif => Ok(Request { region: Pixels(0, 0, 9, 9), size: Size { up: false, form: Max }, \
        rotation: Rotation { mirror: false, degrees: Decimal { digits: 0, places: 0 } }, quality: Default })
/iiif/a/007,08,1,000000000/max/0/default.tif => Ok(Request { region: Pixels(7, 8, 1, 0), size: Size { up: false, \
        form: Max }, rotation: Rotation { mirror: false, degrees: Decimal { digits: 0, places: 0 } }, quality: \
        Default })
/iiif/a/999999999,0,2,3/max/0/default.tif => Ok(Request { region: Pixels(999999999, 0, 2, 3), size: Size { up: false, \
        form: Max }, rotation: Rotation { mirror: false, degrees: Decimal { digits: 0, places: 0 } }, quality: \
        Default })
/iiif/a/pct:1,2.5,03,999999999.9999999999/max/0/default.tif => Ok(Request { region: Percents(Decimal { digits: 1, \
        places: 0 }, Decimal { digits: 25, places: 1 }, Decimal { digits: 3, places: 0 }, Decimal { digits: \
        9999999999999999999, places: 10 }), size: Size { up: false, form: Max }, rotation: Rotation { mirror: false, \
        degrees: Decimal { digits: 0, places: 0 } }, quality: Default })
/iiif/a/full/max/0/default.tif => Ok(Request { region: Full, size: Size { up: false, form: Max }, rotation: Rotation \
        { mirror: false, degrees: Decimal { digits: 0, places: 0 } }, quality: Default })
/iiif/a/full/^max/0/default.tif => Ok(Request { region: Full, size: Size { up: true, form: Max }, rotation: Rotation \
        { mirror: false, degrees: Decimal { digits: 0, places: 0 } }, quality: Default })
/iiif/a/full/2,/0/default.tif => Ok(Request { region: Full, size: Size { up: false, form: Width(2) }, rotation: \
        Rotation { mirror: false, degrees: Decimal { digits: 0, places: 0 } }, quality: Default })
/iiif/a/full/^2,/0/default.tif => Ok(Request { region: Full, size: Size { up: true, form: Width(2) }, rotation: \
        Rotation { mirror: false, degrees: Decimal { digits: 0, places: 0 } }, quality: Default })
/iiif/a/full/,3/0/default.tif => Ok(Request { region: Full, size: Size { up: false, form: Height(3) }, rotation: \
        Rotation { mirror: false, degrees: Decimal { digits: 0, places: 0 } }, quality: Default })
/iiif/a/full/^,3/0/default.tif => Ok(Request { region: Full, size: Size { up: true, form: Height(3) }, rotation: \
        Rotation { mirror: false, degrees: Decimal { digits: 0, places: 0 } }, quality: Default })
/iiif/a/full/pct:100.1/0/default.tif => Ok(Request { region: Full, size: Size { up: false, form: Percent(Decimal { \
        digits: 1001, places: 1 }) }, rotation: Rotation { mirror: false, degrees: Decimal { digits: 0, places: 0 } }, \
        quality: Default })
/iiif/a/full/^pct:100.1/0/default.tif => Ok(Request { region: Full, size: Size { up: true, form: Percent(Decimal { \
        digits: 1001, places: 1 }) }, rotation: Rotation { mirror: false, degrees: Decimal { digits: 0, places: 0 } }, \
        quality: Default })
/iiif/a/full/pct:050/0/default.tif => Ok(Request { region: Full, size: Size { up: false, form: Percent(Decimal { \
        digits: 50, places: 0 }) }, rotation: Rotation { mirror: false, degrees: Decimal { digits: 0, places: 0 } }, \
        quality: Default })
/iiif/a/full/^pct:050/0/default.tif => Ok(Request { region: Full, size: Size { up: true, form: Percent(Decimal { \
        digits: 50, places: 0 }) }, rotation: Rotation { mirror: false, degrees: Decimal { digits: 0, places: 0 } }, \
        quality: Default })
/iiif/a/full/3,4/0/default.tif => Ok(Request { region: Full, size: Size { up: false, form: Both(3, 4) }, rotation: \
        Rotation { mirror: false, degrees: Decimal { digits: 0, places: 0 } }, quality: Default })
/iiif/a/full/^3,4/0/default.tif => Ok(Request { region: Full, size: Size { up: true, form: Both(3, 4) }, rotation: \
        Rotation { mirror: false, degrees: Decimal { digits: 0, places: 0 } }, quality: Default })
/iiif/a/full/!100,9/0/default.tif => Ok(Request { region: Full, size: Size { up: false, form: Within(100, 9) }, \
        rotation: Rotation { mirror: false, degrees: Decimal { digits: 0, places: 0 } }, quality: Default })
/iiif/a/full/^!100,9/0/default.tif => Ok(Request { region: Full, size: Size { up: true, form: Within(100, 9) }, \
        rotation: Rotation { mirror: false, degrees: Decimal { digits: 0, places: 0 } }, quality: Default })
/iiif/a/full/0,00/0/default.tif => Ok(Request { region: Full, size: Size { up: false, form: Both(0, 0) }, rotation: \
        Rotation { mirror: false, degrees: Decimal { digits: 0, places: 0 } }, quality: Default })
/iiif/a/full/^0,00/0/default.tif => Ok(Request { region: Full, size: Size { up: true, form: Both(0, 0) }, rotation: \
        Rotation { mirror: false, degrees: Decimal { digits: 0, places: 0 } }, quality: Default })
/iiif/a/full/max/0/default.tif => Ok(Request { region: Full, size: Size { up: false, form: Max }, rotation: Rotation \
        { mirror: false, degrees: Decimal { digits: 0, places: 0 } }, quality: Default })
/iiif/a/full/max/!0/default.tif => Ok(Request { region: Full, size: Size { up: false, form: Max }, rotation: Rotation \
        { mirror: true, degrees: Decimal { digits: 0, places: 0 } }, quality: Default })
/iiif/a/full/max/90/default.tif => Ok(Request { region: Full, size: Size { up: false, form: Max }, rotation: Rotation \
        { mirror: false, degrees: Decimal { digits: 90, places: 0 } }, quality: Default })
/iiif/a/full/max/!90/default.tif => Ok(Request { region: Full, size: Size { up: false, form: Max }, rotation: \
        Rotation { mirror: true, degrees: Decimal { digits: 90, places: 0 } }, quality: Default })
/iiif/a/full/max/180/default.tif => Ok(Request { region: Full, size: Size { up: false, form: Max }, rotation: \
        Rotation { mirror: false, degrees: Decimal { digits: 180, places: 0 } }, quality: Default })
/iiif/a/full/max/!180/default.tif => Ok(Request { region: Full, size: Size { up: false, form: Max }, rotation: \
        Rotation { mirror: true, degrees: Decimal { digits: 180, places: 0 } }, quality: Default })
/iiif/a/full/max/270/default.tif => Ok(Request { region: Full, size: Size { up: false, form: Max }, rotation: \
        Rotation { mirror: false, degrees: Decimal { digits: 270, places: 0 } }, quality: Default })
/iiif/a/full/max/!270/default.tif => Ok(Request { region: Full, size: Size { up: false, form: Max }, rotation: \
        Rotation { mirror: true, degrees: Decimal { digits: 270, places: 0 } }, quality: Default })
/iiif/a/full/max/360/default.tif => Ok(Request { region: Full, size: Size { up: false, form: Max }, rotation: \
        Rotation { mirror: false, degrees: Decimal { digits: 360, places: 0 } }, quality: Default })
/iiif/a/full/max/!360/default.tif => Ok(Request { region: Full, size: Size { up: false, form: Max }, rotation: \
        Rotation { mirror: true, degrees: Decimal { digits: 360, places: 0 } }, quality: Default })
/iiif/a/full/max/0.0/default.tif => Ok(Request { region: Full, size: Size { up: false, form: Max }, rotation: \
        Rotation { mirror: false, degrees: Decimal { digits: 0, places: 1 } }, quality: Default })
/iiif/a/full/max/!0.0/default.tif => Ok(Request { region: Full, size: Size { up: false, form: Max }, rotation: \
        Rotation { mirror: true, degrees: Decimal { digits: 0, places: 1 } }, quality: Default })
/iiif/a/full/max/090/default.tif => Ok(Request { region: Full, size: Size { up: false, form: Max }, rotation: \
        Rotation { mirror: false, degrees: Decimal { digits: 90, places: 0 } }, quality: Default })
/iiif/a/full/max/!090/default.tif => Ok(Request { region: Full, size: Size { up: false, form: Max }, rotation: \
        Rotation { mirror: true, degrees: Decimal { digits: 90, places: 0 } }, quality: Default })
/iiif/a/full/max/360.0000000000/default.tif => Ok(Request { region: Full, size: Size { up: false, form: Max }, \
        rotation: Rotation { mirror: false, degrees: Decimal { digits: 3600000000000, places: 10 } }, quality: \
        Default })
/iiif/a/full/max/!360.0000000000/default.tif => Ok(Request { region: Full, size: Size { up: false, form: Max }, \
        rotation: Rotation { mirror: true, degrees: Decimal { digits: 3600000000000, places: 10 } }, quality: Default \
        })";

/// Words that spell no region, in pixels or percents.
const NO_REGIONS: &str = r#"/iiif/a//max/0/default.tif => Err(Region)
/iiif/a/Full/max/0/default.tif => Err(Region)
/iiif/a/full /max/0/default.tif => Err(Region)
/iiif/a/max/max/0/default.tif => Err(Region)
/iiif/a/1,1,1/max/0/default.tif => Err(Region)
/iiif/a/1,1,1,/max/0/default.tif => Err(Region)
/iiif/a/,1,1,1/max/0/default.tif => Err(Region)
/iiif/a/1,,1,1/max/0/default.tif => Err(Region)
/iiif/a/1,1,1,1,1/max/0/default.tif => Err(Region)
/iiif/a/1,1,1,1,/max/0/default.tif => Err(Region)
/iiif/a/1 ,1,1,1/max/0/default.tif => Err(Region)
/iiif/a/+1,1,1,1/max/0/default.tif => Err(Region)
/iiif/a/-1,1,1,1/max/0/default.tif => Err(Region)
/iiif/a/1.0,1,1,1/max/0/default.tif => Err(Region)
/iiif/a/square,/max/0/default.tif => Err(Region)
/iiif/a/1e1,1,1,1/max/0/default.tif => Err(Region)
/iiif/a/1000000000,1,1,1/max/0/default.tif => Err(Region)
/iiif/a/0000000001,1,1,1/max/0/default.tif => Err(Region)
/iiif/a/١,1,1,1/max/0/default.tif => Err(Region)
/iiif/a/pct:/max/0/default.tif => Err(Region)
/iiif/a/pct:1,1,1/max/0/default.tif => Err(Region)
/iiif/a/pct:1,1,1,/max/0/default.tif => Err(Region)
/iiif/a/pct:,1,1,1/max/0/default.tif => Err(Region)
/iiif/a/pct:1,1,1,1,1/max/0/default.tif => Err(Region)
/iiif/a/pct:1.,1,1,1/max/0/default.tif => Err(Region)
/iiif/a/pct:.5,1,1,1/max/0/default.tif => Err(Region)
/iiif/a/pct:+1,1,1,1/max/0/default.tif => Err(Region)
/iiif/a/pct:-1,1,1,1/max/0/default.tif => Err(Region)
/iiif/a/pct:1, 1,1,1/max/0/default.tif => Err(Region)
/iiif/a/pct:1,1,1,1000000000/max/0/default.tif => Err(Region)
/iiif/a/pct:1.2.3,1,1,1/max/0/default.tif => Err(Region)
/iiif/a/pct:1,1,1,0.00000000001/max/0/default.tif => Err(Region)
/iiif/a/PCT:1,1,1,1/max/0/default.tif => Err(Region)"#;

/// Words that spell no size: in the target the last but one is `%5E2,` once it is decoded.
const NO_SIZES: &str = r#"/iiif/a/full//0/default.tif => Err(Size)
/iiif/a/full/full/0/default.tif => Err(Size)
/iiif/a/full/Max/0/default.tif => Err(Size)
/iiif/a/full/max /0/default.tif => Err(Size)
/iiif/a/full/,/0/default.tif => Err(Size)
/iiif/a/full/^/0/default.tif => Err(Size)
/iiif/a/full/!/0/default.tif => Err(Size)
/iiif/a/full/^!/0/default.tif => Err(Size)
/iiif/a/full/!,/0/default.tif => Err(Size)
/iiif/a/full/^,/0/default.tif => Err(Size)
/iiif/a/full/^^max/0/default.tif => Err(Size)
/iiif/a/full/^^2,/0/default.tif => Err(Size)
/iiif/a/full/!^2,3/0/default.tif => Err(Size)
/iiif/a/full/!w,/0/default.tif => Err(Size)
/iiif/a/full/!2,/0/default.tif => Err(Size)
/iiif/a/full/!,3/0/default.tif => Err(Size)
/iiif/a/full/^!,h/0/default.tif => Err(Size)
/iiif/a/full/^!2,/0/default.tif => Err(Size)
/iiif/a/full/^!,3/0/default.tif => Err(Size)
/iiif/a/full/!!2,3/0/default.tif => Err(Size)
/iiif/a/full/!max/0/default.tif => Err(Size)
/iiif/a/full/!pct:5/0/default.tif => Err(Size)
/iiif/a/full/2/0/default.tif => Err(Size)
/iiif/a/full/^2/0/default.tif => Err(Size)
/iiif/a/full/2,3,/0/default.tif => Err(Size)
/iiif/a/full/2,3,4/0/default.tif => Err(Size)
/iiif/a/full/,2,/0/default.tif => Err(Size)
/iiif/a/full/1.5,/0/default.tif => Err(Size)
/iiif/a/full/,1.5/0/default.tif => Err(Size)
/iiif/a/full/2 ,/0/default.tif => Err(Size)
/iiif/a/full/+2,/0/default.tif => Err(Size)
/iiif/a/full/-2,/0/default.tif => Err(Size)
/iiif/a/full/1000000000,/0/default.tif => Err(Size)
/iiif/a/full/,1000000000/0/default.tif => Err(Size)
/iiif/a/full/pct:/0/default.tif => Err(Size)
/iiif/a/full/^pct:/0/default.tif => Err(Size)
/iiif/a/full/pct:1./0/default.tif => Err(Size)
/iiif/a/full/pct:.5/0/default.tif => Err(Size)
/iiif/a/full/pct:+1/0/default.tif => Err(Size)
/iiif/a/full/pct:-1/0/default.tif => Err(Size)
/iiif/a/full/pct:1,/0/default.tif => Err(Size)
/iiif/a/full/pct:1000000000/0/default.tif => Err(Size)
/iiif/a/full/%255E2,/0/default.tif => Err(Size)
/iiif/a/full/pct:1.00000000001/0/default.tif => Err(Size)"#;

/// Words that spell no rotation, no quality and no format. The first word that spells nothing is named.
const NO_OTHERS: &str = r#"/iiif/a/full/max//default.tif => Err(Rotation)
/iiif/a/full/max/!/default.tif => Err(Rotation)
/iiif/a/full/max/45/default.tif => Err(Rotation)
/iiif/a/full/max/361/default.tif => Err(Rotation)
/iiif/a/full/max/450/default.tif => Err(Rotation)
/iiif/a/full/max/720/default.tif => Err(Rotation)
/iiif/a/full/max/-90/default.tif => Err(Rotation)
/iiif/a/full/max/+90/default.tif => Err(Rotation)
/iiif/a/full/max/90.5/default.tif => Err(Rotation)
/iiif/a/full/max/90./default.tif => Err(Rotation)
/iiif/a/full/max/.0/default.tif => Err(Rotation)
/iiif/a/full/max/!!90/default.tif => Err(Rotation)
/iiif/a/full/max/90!/default.tif => Err(Rotation)
/iiif/a/full/max/ 90/default.tif => Err(Rotation)
/iiif/a/full/max/90 /default.tif => Err(Rotation)
/iiif/a/full/max/0.00000000001/default.tif => Err(Rotation)
/iiif/a/full/max/0000000090.0/default.tif => Err(Rotation)
/iiif/a/full/max/360.0000000001/default.tif => Err(Rotation)
/iiif/a/full/max/1e2/default.tif => Err(Rotation)
/iiif/a/full/max/0/.tif => Err(Quality)
/iiif/a/full/max/0/best.tif => Err(Quality)
/iiif/a/full/max/0/native.tif => Err(Quality)
/iiif/a/full/max/0/Color.tif => Err(Quality)
/iiif/a/full/max/0/grey.tif => Err(Quality)
/iiif/a/full/max/0/colour.tif => Err(Quality)
/iiif/a/full/max/0/default .tif => Err(Quality)
/iiif/a/full/max/0/default. => Err(Format)
/iiif/a/full/max/0/default.jpg => Err(Format)
/iiif/a/full/max/0/default.TIF => Err(Format)
/iiif/a/full/max/0/default.tiff => Err(Format)
/iiif/a/full/max/0/default.tif.tif => Err(Format)
/iiif/a/full/max/0/default.tif  => Err(Format)
/iiif/a/x/x/x/x.x => Err(Region)
/iiif/a/full/x/x/x.x => Err(Size)
/iiif/a/full/max/x/x.x => Err(Rotation)
/iiif/a/full/max/0/best.jpg => Err(Quality)
/iiif/a/full/max/0/gray.jpg => Err(Format)"#;

static LISTS: [(Subject, &str); 6] = [
    (Subject::Targets, TARGETS),
    (Subject::Targets, NO_TARGETS),
    (Subject::Requests, REQUESTS),
    (Subject::Requests, NO_REGIONS),
    (Subject::Requests, NO_SIZES),
    (Subject::Requests, NO_OTHERS),
];

#[test]
fn texts_are_parsed_or_refused(rt: HostRuntime) {
    let wrong = first_wrong(rt.alloc(), &LISTS);
    assert!(rt; wrong.is_none(), "row {wrong:?}");
}

/// Whether a target asks for nothing at a prefix.
fn is_no_target(alloc: Global, prefix: &[u8], target: &[u8]) -> bool {
    match split(alloc, prefix, target) {
        Ok(_) => false,
        Err(fault) => is_same(&fault, &SplitFault::Path),
    }
}

/// Whether a target is the base URI of the image `a` at an empty prefix.
fn is_base(alloc: Global, target: &[u8]) -> bool {
    match split(alloc, b"", target) {
        Ok(Target::Base(id)) => is_same(&id.as_str(), &"a"),
        other => is_unwanted(&other),
    }
}

#[test]
fn a_prefix_may_be_empty_and_a_target_is_a_text(rt: HostRuntime) {
    assert!(rt; is_base(rt.alloc(), b"/a"));
    assert!(rt; is_no_target(rt.alloc(), b"", b"a"));
    assert!(rt; is_no_target(rt.alloc(), b"/iiif", b"/iiif/\xff"));
}

/// Texts, and how often each stands in a target.
type Parts = &'static [(&'static [u8], u32)];

/// A target whose identifier is 349,526 slashes and whose region is a megabyte.
const MEGABYTE: Parts = &[
    (b"/iiif/", 1),
    (b"%2F", 349_526),
    (b"/", 1),
    (b"full", 262_144),
    (b"/max/0/default.tif", 1),
];

/// A target of a megabyte of slashes.
const SLASHES: Parts = &[(b"/iiif", 1), (b"/", 1_048_576)];

/// A target of such parts.
fn joined(alloc: Global, parts: Parts) -> Result<Vec<u8>, AllocError> {
    let mut target = Vec::new(alloc);
    for (text, count) in parts {
        for _ in 0..*count {
            target.extend_from_slice(text)?;
        }
    }
    Ok(target)
}

/// Whether that target is an image with an identifier and a region of such lengths, and the region is refused.
fn is_split(alloc: Global, target: &[u8]) -> bool {
    match split(alloc, b"/iiif", target) {
        Ok(Target::Image(id, words)) => {
            let is_long = is_same(&id.len(), &349_526) && is_same(&words.region.len(), &1_048_576);
            is_long && is_same(&parse(&words), &Err(Refusal::Region))
        }
        Ok(_) => is_unwanted(&"another target"),
        Err(fault) => is_unwanted(&fault),
    }
}

#[test]
fn a_megabyte_is_split(rt: HostRuntime) {
    let right = match joined(rt.alloc(), MEGABYTE) {
        Ok(target) => is_split(rt.alloc(), &target),
        Err(fault) => is_unwanted(&fault),
    };
    assert!(rt; right);
}

#[test]
fn a_megabyte_of_slashes_is_refused(rt: HostRuntime) {
    let right = match joined(rt.alloc(), SLASHES) {
        Ok(target) => is_no_target(rt.alloc(), b"/iiif", &target),
        Err(fault) => is_unwanted(&fault),
    };
    assert!(rt; right);
}

/// Whether a target is the image `a/b` in the size `^2,`.
fn is_image(target: &Target) -> bool {
    match target {
        Target::Image(id, words) => {
            let (quality, format) = (words.quality.as_str(), words.format.as_str());
            is_same(
                &[id.as_str(), words.size.as_str(), quality, format],
                &["a/b", "^2,", "default", "tif"],
            )
        }
        other => is_unwanted(other),
    }
}

/// Splits a target, once more where memory was wanted.
fn split_again(alloc: Global) -> Result<Target, SplitFault> {
    let target = b"/iiif/a%2Fb/full/%5E2,/0/default.tif";
    match split(alloc, b"/iiif", target) {
        Err(SplitFault::NoMemory) => split(alloc, b"/iiif", target),
        answer => answer,
    }
}

/// Whether a target is split into what it is to be.
fn is_split_again(alloc: Global) -> bool {
    match split_again(alloc) {
        Ok(target) => is_image(&target),
        Err(fault) => is_unwanted(&fault),
    }
}

/// With ample memory it is split at once. `tests/refused` runs this with the first growth refused, with the second, and so on.
#[test]
fn target_is_split_after_a_refused_growth(rt: HostRuntime) {
    assert!(rt; is_split_again(rt.alloc()));
}

#[test]
fn refusals_and_faults_are_numbered(rt: HostRuntime) {
    let refusals = is_same(&Refusal::Identifier.status(), &404)
        && is_same(&Refusal::Upscale.line(), &"Q13 upscale");
    let faults = is_same(&SplitFault::Path.number(), &1)
        && is_same(&SplitFault::NoMemory.number(), &2);
    assert!(rt; refusals && faults);
}

/// Texts, how many digits they have at most, and the numbers that they are.
static NUMERALS: [(&[u8], usize, Option<u64>); 5] = [
    (b"0042", 4, Some(42)),
    (b"9999999999999999999", 19, Some(9_999_999_999_999_999_999)),
    (b"12345", 4, None),
    (b"", 4, None),
    (b"1 2", 4, None),
];

/// Whether such a text is that number.
fn is_number((text, most, want): (&[u8], usize, Option<u64>)) -> bool {
    most <= 19 && is_same(&numeral(text, most), &want)
}

#[test]
fn numerals_have_at_most_so_many_digits(rt: HostRuntime) {
    for case in &NUMERALS {
        assert!(rt; is_number(*case), "{}", case.1);
    }
    assert!(rt; is_numeral(b"007", 3) && !is_numeral(b"-7", 3));
}
