//! Settings, and the names of images.

use crate::fixtures::files::SAMPLE;
use crate::fixtures::{is_same, is_unwanted, is_written};
use iiif_canonical::Limits;
use iiif_server::{AddFault, Catalogue, Config, ConfigFault};
use iiif_source::MemSource;
use iiif_tiff_read::open;
use std::alloc::Global;

/// Results at most so wide and high, and none above its region.
fn limits(max: u32) -> Limits {
    Limits {
        max_w: max,
        max_h: max,
        upscale: false,
    }
}

/// Settings that are refused: the base, the edge, the greatest sides, the rows and the workers; and why.
type Refused = (&'static str, [u32; 4], ConfigFault);

static REFUSED: [Refused; 9] = [
    ("http:/localhost", [5, 4, 0, 0], ConfigFault::Base),
    ("http://localhost/", [2, 4, 64, 2], ConfigFault::Base),
    (
        "http://localhost:65536/iiif",
        [2, 4, 64, 2],
        ConfigFault::Base,
    ),
    ("ftp://localhost", [2, 4, 64, 2], ConfigFault::Base),
    ("http://localhost", [5, 4, 64, 2], ConfigFault::Edge),
    ("http://localhost", [1025, 4096, 64, 2], ConfigFault::Edge),
    ("http://localhost", [5, 16385, 64, 2], ConfigFault::Max),
    ("http://localhost", [5, 16384, 0, 2], ConfigFault::Band),
    ("http://localhost", [5, 16384, 64, 17], ConfigFault::Workers),
];

/// Whether settings are refused for this.
fn are_refused(alloc: Global, refused: &Refused) -> bool {
    let (base, [edge, max, band, workers], fault) = *refused;
    is_same(
        &Config::new(alloc, base, edge, limits(max), band, workers).err(),
        &Some(fault),
    )
}

/// Whether settings are told as they were given.
fn is_told(alloc: Global) -> Option<bool> {
    let base = "https://a-b.example:8080/x/~y";
    let config = Config::new(alloc, base, 1, limits(1), 1, 1).ok()?;
    let is_prefix = is_same(&config.prefix(), &b"/x/~y".as_slice());
    Some(is_prefix && is_same(&config.base(), &base) && is_same(&config.limits(), &limits(1)))
}

#[test]
fn settings_are_refused_in_order(rt: HostRuntime) {
    for refused in &REFUSED {
        assert!(rt;
            are_refused(rt.alloc(), refused),
            "{} {:?}",
            refused.0,
            refused.1
        );
    }
    assert!(rt; is_told(rt.alloc()) == Some(true));
}

/// Whether settings are as they were given, or why they are refused.
fn are_taken(alloc: Global, base: &str, edge: u32, workers: u32) -> Result<bool, ConfigFault> {
    let config = Config::new(alloc, base, edge, limits(4), 64, workers)?;
    let sides = is_same(&config.edge(), &edge) && is_same(&config.limits(), &limits(4));
    Ok(
        is_same(&config.base(), &base)
            && sides
            && is_same(&config.band(), &64)
            && is_same(&config.workers(), &workers),
    )
}

/// A base, an edge and workers, and whether settings with them are as they were given, or why they are refused.
type Taken = (&'static str, u32, u32, Result<bool, ConfigFault>);

static TAKEN: [Taken; 5] = [
    ("http://localhost/iiif", 2, 2, Ok(true)),
    ("http://localhost/iiif", 5, 2, Err(ConfigFault::Edge)),
    ("http://localhost/iiif", 2, 17, Err(ConfigFault::Workers)),
    ("http:/localhost", 5, 2, Err(ConfigFault::Base)),
    ("https://a-b.example:8080/x/~y", 1, 1, Ok(true)),
];

/// Whether that comes of settings, once more where memory was wanted.
fn are_taken_again(alloc: Global, taken: &Taken) -> bool {
    let (base, edge, workers, answer) = *taken;
    match are_taken(alloc, base, edge, workers) {
        Err(ConfigFault::NoMemory) => is_same(&are_taken(alloc, base, edge, workers), &answer),
        once => is_same(&once, &answer),
    }
}

#[test]
fn settings_are_taken_after_a_refused_growth(rt: HostRuntime) {
    for taken in &TAKEN {
        assert!(rt;
            are_taken_again(rt.alloc(), taken),
            "edge {}, {} workers",
            taken.1,
            taken.2
        );
    }
}

/// A name, and whether the sample is taken under it, or why it isn't.
type Named = (&'static str, Result<(), AddFault>);

static NAMES: [Named; 3] = [
    ("", Err(AddFault::Name)),
    ("a", Ok(())),
    ("a", Err(AddFault::Twice)),
];

/// Whether that comes of the sample under a name in a catalogue.
fn is_added(
    alloc: Global,
    catalogue: &mut Catalogue<(), MemSource>,
    named: &Named,
) -> Option<bool> {
    let name = String::from_str(alloc, named.0).ok()?;
    let source = MemSource::new(Vec::from_slice(alloc, &SAMPLE).ok()?);
    let Ok(layout) = open(&(), alloc, &source) else {
        return None;
    };
    Some(is_same(&catalogue.add(name, source, layout), &named.1))
}

#[test]
fn names_are_taken_once(rt: HostRuntime) {
    let mut catalogue = Catalogue::new(rt.alloc());
    for named in &NAMES {
        assert!(rt;
            is_same(&is_added(rt.alloc(), &mut catalogue, named), &Some(true)),
            "{}",
            named.0
        );
    }
    assert!(rt; catalogue.has("a") && catalogue.find("b").is_none());
}

#[test]
fn faults_are_told(rt: HostRuntime) {
    assert!(rt; is_written(rt.alloc(), &ConfigFault::NoMemory, "out of memory"));
    assert!(rt; is_same(&AddFault::Twice.number(), &2));
}
