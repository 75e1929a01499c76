//! Viewers over loopback, and what the node counted for them.

use crate::connections::nodes::{SAMPLE, Scene, are_known};
use crate::connections::viewers::{Sends, Text};
use crate::connections::visits::{Visit, served};
use crate::fixtures::calls::{THREE_ANSWERS, THREE_REQUESTS};
use crate::fixtures::files::{LARGE_HEAD, SAMPLE_FILE};
use iiif_connections::Times;
use iiif_listener::Rate;
use std::alloc::Global;
use std::fs;
use std::test::Fail;

/// A viewer that sends them, and says that they are the last.
const THREE: Sends<'static> = Sends {
    request: THREE_REQUESTS,
    ends: true,
    wanted: Text::Is(THREE_ANSWERS),
};

/// A viewer that sends them and stays: then the server leaves it in the end.
const THREE_AND_STAYS: Sends<'static> = Sends {
    request: THREE_REQUESTS,
    ends: false,
    wanted: Text::Is(THREE_ANSWERS),
};

/// A refused request, and 10,000 bytes behind it.
fn long_request(alloc: Global) -> Result<Vec<u8>, Fail> {
    let mut request = Vec::from_slice(
        alloc,
        b"GET /iiif/zz HTTP/1.1\r\nConnection: close\r\n\r\n",
    )?;
    for _ in 0..100u32 {
        request.extend_from_slice(&[b'x'; 100])?;
    }
    Ok(request)
}

#[test]
fn answers_reach_a_viewer_that_sent_more(rt: HostRuntime) -> Result<(), Fail> {
    let request = long_request(rt.alloc())?;
    let viewer = Sends {
        request: &request,
        ends: true,
        wanted: Text::Framed(
            b"HTTP/1.1 404 Not Found\r\n",
            b"Connection: close\r\n\r\nQ4 identifier\n",
        ),
    };
    assert!(rt; served(&rt, &rt, &SAMPLE, Visit::Sends(&viewer)).is_some());
    Ok(())
}

/// An image by GET, twice, on a connection that closes behind it.
const TWICE: Sends<'static> = Sends {
    request: b"GET /iiif/a/full/max/0/default.tif HTTP/1.1\r\n\r\nGET /iiif/a/full/max/0/default.tif HTTP/1.1\r\nConnection: close\r\n\r\n",
    ends: true,
    wanted: Text::Framed(b"", &SAMPLE_FILE),
};

/// The mean of the sample's sixteen places by GET: of tiles of one place each it is a block of level 2.
const MEAN: Sends<'static> = Sends {
    request: b"GET /iiif/a/full/1,1/0/default.tif HTTP/1.1\r\nConnection: close\r\n\r\n",
    ends: true,
    wanted: Text::Framed(b"HTTP/1.1 200 OK\r\n", &[75]),
};

/// The sample at tiles of one place each.
const PLACES: Scene<'static, 'static> = Scene { edge: 1, ..SAMPLE };

/// Scenes, viewers, and what is counted then. No group is asked for anything of three requests without an image's samples. Of an image that
/// is asked for twice each of four tiles is loaded once for all viewers. Of the mean two workers ask for each of 21 blocks and of 16 tiles
/// once, and it is loaded.
static VIEWERS: [(Scene<'static, 'static>, Sends<'static>, [Option<u64>; 4]); 4] = [
    (SAMPLE, THREE, [Some(0), None, None, None]),
    (SAMPLE, THREE_AND_STAYS, [Some(0), None, None, None]),
    (SAMPLE, TWICE, [Some(8), Some(4), Some(4), Some(0)]),
    (PLACES, MEAN, [Some(37), Some(0), Some(37), Some(0)]),
];

#[test]
fn each_part_is_asked_for_once_and_loaded(rt: HostRuntime) {
    for (scene, viewer, known) in &VIEWERS {
        let counts = served(&rt, &rt, scene, Visit::Sends(viewer));
        assert!(rt; are_known(counts, known), "{counts:?}");
    }
}

/// The bytes of a row of the large image.
const LARGE_ROW: usize = 6144;

/// The file of a color image of 16 megabytes. Its samples count from 0 to 250 and begin anew; each row begins seven further on.
fn large(alloc: Global) -> Result<Vec<u8>, Fail> {
    let mut counted = Vec::new(alloc);
    for place in 0..LARGE_ROW + 250 {
        counted.push((place % 251) as u8)?;
    }
    let mut file = Vec::from_slice(alloc, &LARGE_HEAD)?;
    for row in 0..2731usize {
        let begin = row * 7 % 251;
        let samples = counted.get(begin..begin + LARGE_ROW).ok_or("no such row")?;
        file.extend_from_slice(samples)?;
    }
    Ok(file)
}

/// No limit that a busy machine passes before the test itself has to end, in milliseconds.
const AMPLE: u64 = 600_000;

/// However slowly an answer is taken.
const NO_RATE: Rate = Rate {
    bytes: 0,
    period: 60_000,
};

/// The large image, and all the time that it takes.
const LARGE: Scene<'static, 'static> = Scene {
    images: &[("a", "large.tif")],
    edge: 1024,
    times: Times {
        idle: AMPLE,
        whole: AMPLE,
        stalled: AMPLE,
        ask: AMPLE,
        gone: AMPLE,
        rate: NO_RATE,
    },
    ..SAMPLE
};

#[test]
fn sixteen_megabytes_over_loopback(rt: HostRuntime) -> Result<(), Fail> {
    let file = large(rt.alloc())?;
    fs::write(&rt, "large.tif", &file)?;
    let viewer = Sends {
        request: b"GET /iiif/a/full/max/0/default.tif HTTP/1.1\r\nConnection: close\r\n\r\n",
        ends: true,
        wanted: Text::Framed(b"HTTP/1.1 200 OK\r\n", &file),
    };
    assert!(rt; served(&rt, &rt, &LARGE, Visit::Sends(&viewer)).is_some());
    Ok(())
}
