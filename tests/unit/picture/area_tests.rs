//! Worked examples, and every rectangle, size and cut of small pictures beside the plain way.

use crate::picture::cuts::{Cut, Want, Way, is_right};
use crate::picture::pictures::{Picture, STEPS, raster};
use iiif_pixel::{Dim, Kind, Raster, Rect, Span};
use std::alloc::Global;

/// All places of a size.
fn whole(size: Dim) -> Rect {
    Rect {
        x: 0,
        y: 0,
        w: size.w,
        h: size.h,
    }
}

/// Whether the plain way gives the same: whole, and where tiles are added each row but its first place.
fn agrees(alloc: Global, picture: &Raster, cut: Cut, way: Way) -> bool {
    let rows = match way {
        Way::Merged => 0,
        Way::Added => cut.size.h,
    };
    for y in 0..rows {
        let band = Rect {
            x: 1,
            y,
            w: cut.size.w.saturating_sub(1),
            h: 1,
        };
        if !is_right(alloc, picture, (cut, way), band, Want::Plain) {
            return false;
        }
    }
    is_right(alloc, picture, (cut, way), whole(cut.size), Want::Plain)
}

/// A region at all sizes up to one above its own, or where tiles are added up to twice its own, from tiles of edge 1 to 5.
fn all_sizes_agree(alloc: Global, picture: &Raster, region: Rect, way: Way) -> bool {
    let (most_w, most_h) = match way {
        Way::Merged => (region.w.saturating_add(1), region.h.saturating_add(1)),
        Way::Added => (region.w.saturating_mul(2), region.h.saturating_mul(2)),
    };
    for h in 1..=most_h {
        for w in 1..=most_w {
            for edge in 1..6 {
                let size = Dim { w, h };
                if !agrees(alloc, picture, Cut { region, size, edge }, way) {
                    return false;
                }
            }
        }
    }
    true
}

/// All rectangles of a picture.
fn all_regions_agree(alloc: Global, picture: &Raster, way: Way) -> bool {
    let dim = picture.dim();
    for y in 0..dim.h {
        for x in 0..dim.w {
            for h in 1..=dim.h - y {
                for w in 1..=dim.w - x {
                    if !all_sizes_agree(alloc, picture, Rect { x, y, w, h }, way) {
                        return false;
                    }
                }
            }
        }
    }
    true
}

/// The rows from the first or the second on, scaled to one column of one to three rows, from tiles of so large edges that a
/// result row takes more than six rows of a tile: those that it takes whole are added up apart.
fn all_tall_agree(alloc: Global, picture: &Raster) -> bool {
    let Dim { w, h } = picture.dim();
    for y in 0..2 {
        for rows in 1..4 {
            for edge in [6, 7, 8, 17] {
                let cut = Cut {
                    region: Rect {
                        x: 0,
                        y,
                        w,
                        h: h.saturating_sub(y),
                    },
                    size: Dim { w: 1, h: rows },
                    edge,
                };
                if !agrees(alloc, picture, cut, Way::Merged) {
                    return false;
                }
            }
        }
    }
    true
}

/// The parts of a picture that are compared with the plain way.
#[derive(Clone, Copy)]
enum Compared {
    Regions(Way),
    Tall,
}

/// Whether all that is compared is the same.
fn all_agree(alloc: Global, picture: Picture, compared: Compared) -> bool {
    let Some(picture) = raster(alloc, picture) else {
        return false;
    };
    match compared {
        Compared::Regions(way) => all_regions_agree(alloc, &picture, way),
        Compared::Tall => all_tall_agree(alloc, &picture),
    }
}

/// Samples that look random: those of the generator with the factor 1,664,525, the addend 1,013,904,223 and the seed 12,345, without
/// their low bits.
const BYTES: Span = Span::Eight(&[
    5, 4, 139, 162, 232, 28, 126, 140, 152, 200, 10, 190, 247, 18, 179, 117, 101, 245, 103, 243,
    254, 169, 108, 127, 73, 108, 172, 39, 22, 218, 79, 1, 118, 74, 146, 246, 3, 199, 77, 82, 244,
    139, 170, 168, 159, 41, 237, 196,
]);

const WORDS: Span = Span::Sixteen(&[
    1337, 1084, 35596, 41609, 59639, 7370, 32498, 35936, 39066, 51344, 2611, 48745, 63295, 4827,
    45849, 30165, 25983, 62883, 26615, 62440, 65121, 43496, 27714, 32763, 18827, 27741, 44257,
    10177, 5817, 55881, 20418, 463, 30321, 19115,
]);

static COMPARED: [(Picture, Compared); 13] = [
    (
        Picture(Dim { w: 5, h: 3 }, Kind::Gray, BYTES),
        Compared::Regions(Way::Merged),
    ),
    (
        Picture(Dim { w: 2, h: 4 }, Kind::Gray, BYTES),
        Compared::Regions(Way::Merged),
    ),
    (
        Picture(Dim { w: 3, h: 3 }, Kind::Rgb, BYTES),
        Compared::Regions(Way::Merged),
    ),
    (
        Picture(Dim { w: 3, h: 2 }, Kind::Gray, WORDS),
        Compared::Regions(Way::Merged),
    ),
    (
        Picture(Dim { w: 2, h: 2 }, Kind::Rgb, WORDS),
        Compared::Regions(Way::Merged),
    ),
    (
        Picture(Dim { w: 4, h: 2 }, Kind::Gray, BYTES),
        Compared::Regions(Way::Added),
    ),
    (
        Picture(Dim { w: 1, h: 3 }, Kind::Gray, WORDS),
        Compared::Regions(Way::Added),
    ),
    (
        Picture(Dim { w: 2, h: 3 }, Kind::Rgb, BYTES),
        Compared::Regions(Way::Added),
    ),
    (
        Picture(Dim { w: 3, h: 1 }, Kind::Rgb, WORDS),
        Compared::Regions(Way::Added),
    ),
    (
        Picture(Dim { w: 2, h: 17 }, Kind::Gray, BYTES),
        Compared::Tall,
    ),
    (
        Picture(Dim { w: 1, h: 16 }, Kind::Rgb, BYTES),
        Compared::Tall,
    ),
    (
        Picture(Dim { w: 2, h: 17 }, Kind::Gray, WORDS),
        Compared::Tall,
    ),
    (
        Picture(Dim { w: 1, h: 9 }, Kind::Rgb, WORDS),
        Compared::Tall,
    ),
];

#[test]
fn all_cuts_of_small_pictures_agree(rt: HostRuntime) {
    for (number, (picture, compared)) in COMPARED.iter().enumerate() {
        assert!(rt;
            all_agree(rt.alloc(), *picture, *compared),
            "picture {number}"
        );
    }
}

/// A gray row, black but for one step.
const STEP: Picture = Picture(Dim { w: 4, h: 1 }, Kind::Gray, Span::Eight(&[0, 1, 0, 0]));

/// A region of a picture, the size that it is scaled to and the edge of the tiles; how these come into the sums at a band; a part of the
/// band, and the samples that come there. Rectangles are column, row, width and height.
#[derive(Clone, Copy)]
struct Example {
    picture: Picture,
    region: [u32; 4],
    size: [u32; 2],
    edge: u32,
    way: Way,
    band: [u32; 4],
    part: [u32; 4],
    samples: Span<'static>,
}

fn rect([x, y, w, h]: [u32; 4]) -> Rect {
    Rect { x, y, w, h }
}

/// Whether an example's samples come.
fn comes(alloc: Global, example: Example) -> bool {
    let Some(picture) = raster(alloc, example.picture) else {
        return false;
    };
    let [w, h] = example.size;
    let cut = Cut {
        region: rect(example.region),
        size: Dim { w, h },
        edge: example.edge,
    };
    let want = Want::Samples(rect(example.part), example.samples);
    is_right(
        alloc,
        &picture,
        (cut, example.way),
        rect(example.band),
        want,
    )
}

static EXAMPLES: [Example; 15] = [
    // A half rounds up, in each channel.
    Example {
        picture: Picture(Dim { w: 2, h: 1 }, Kind::Gray, Span::Sixteen(&[0, 65_535])),
        region: [0, 0, 2, 1],
        size: [1, 1],
        edge: 1,
        way: Way::Merged,
        band: [0, 0, 1, 1],
        part: [0, 0, 1, 1],
        samples: Span::Sixteen(&[32_768]),
    },
    Example {
        picture: Picture(Dim { w: 2, h: 1 }, Kind::Gray, Span::Sixteen(&[0, 65_534])),
        region: [0, 0, 2, 1],
        size: [1, 1],
        edge: 1,
        way: Way::Merged,
        band: [0, 0, 1, 1],
        part: [0, 0, 1, 1],
        samples: Span::Sixteen(&[32_767]),
    },
    Example {
        picture: Picture(
            Dim { w: 2, h: 1 },
            Kind::Rgb,
            Span::Eight(&[2, 0, 0, 0, 0, 0]),
        ),
        region: [0, 0, 2, 1],
        size: [1, 1],
        edge: 1,
        way: Way::Merged,
        band: [0, 0, 1, 1],
        part: [0, 0, 1, 1],
        samples: Span::Eight(&[1, 0, 0]),
    },
    // A quarter rounds down, and its own square does not.
    Example {
        picture: STEP,
        region: [0, 0, 4, 1],
        size: [1, 1],
        edge: 2,
        way: Way::Merged,
        band: [0, 0, 1, 1],
        part: [0, 0, 1, 1],
        samples: Span::Eight(&[0]),
    },
    Example {
        picture: STEP,
        region: [1, 0, 1, 1],
        size: [1, 1],
        edge: 2,
        way: Way::Merged,
        band: [0, 0, 1, 1],
        part: [0, 0, 1, 1],
        samples: Span::Eight(&[1]),
    },
    // Half the width: means of columns.
    Example {
        picture: STEPS,
        region: [0, 0, 4, 4],
        size: [2, 2],
        edge: 2,
        way: Way::Merged,
        band: [0, 0, 2, 2],
        part: [0, 0, 2, 2],
        samples: Span::Eight(&[25, 45, 105, 125]),
    },
    // Three of four columns take parts.
    Example {
        picture: STEPS,
        region: [0, 0, 4, 4],
        size: [3, 3],
        edge: 2,
        way: Way::Merged,
        band: [0, 0, 3, 3],
        part: [0, 0, 3, 3],
        samples: Span::Eight(&[13, 25, 38, 63, 75, 88, 113, 125, 138]),
    },
    Example {
        picture: STEPS,
        region: [0, 0, 4, 4],
        size: [3, 3],
        edge: 2,
        way: Way::Merged,
        band: [0, 0, 3, 3],
        part: [1, 2, 2, 1],
        samples: Span::Eight(&[125, 138]),
    },
    // Larger sizes are averages too, and are made of tiles that are added.
    Example {
        picture: STEPS,
        region: [0, 0, 2, 2],
        size: [3, 3],
        edge: 2,
        way: Way::Merged,
        band: [0, 0, 3, 3],
        part: [0, 0, 3, 3],
        samples: Span::Eight(&[0, 5, 10, 20, 25, 30, 40, 45, 50]),
    },
    Example {
        picture: STEPS,
        region: [0, 0, 2, 2],
        size: [3, 3],
        edge: 2,
        way: Way::Added,
        band: [0, 0, 3, 3],
        part: [0, 0, 3, 3],
        samples: Span::Eight(&[0, 5, 10, 20, 25, 30, 40, 45, 50]),
    },
    Example {
        picture: STEPS,
        region: [0, 0, 2, 2],
        size: [3, 3],
        edge: 2,
        way: Way::Added,
        band: [1, 2, 2, 1],
        part: [1, 2, 2, 1],
        samples: Span::Eight(&[45, 50]),
    },
    Example {
        picture: STEP,
        region: [0, 0, 2, 1],
        size: [3, 1],
        edge: 2,
        way: Way::Added,
        band: [0, 0, 3, 1],
        part: [0, 0, 3, 1],
        samples: Span::Eight(&[0, 1, 1]),
    },
    Example {
        picture: STEPS,
        region: [0, 0, 4, 4],
        size: [8, 8],
        edge: 2,
        way: Way::Added,
        band: [0, 0, 8, 2],
        part: [0, 0, 8, 2],
        samples: Span::Eight(&[0, 0, 10, 10, 20, 20, 30, 30, 0, 0, 10, 10, 20, 20, 30, 30]),
    },
    // Twice as wide, and a quarter as high: the means of columns.
    Example {
        picture: STEPS,
        region: [0, 0, 4, 4],
        size: [8, 1],
        edge: 2,
        way: Way::Added,
        band: [0, 0, 8, 1],
        part: [0, 0, 8, 1],
        samples: Span::Eight(&[60, 60, 70, 70, 80, 80, 90, 90]),
    },
    // Each column 4,096 times.
    Example {
        picture: STEP,
        region: [0, 0, 4, 1],
        size: [16_384, 1],
        edge: 2,
        way: Way::Added,
        band: [4095, 0, 2, 1],
        part: [4095, 0, 2, 1],
        samples: Span::Eight(&[0, 1]),
    },
];

#[test]
fn examples_come_to_their_samples(rt: HostRuntime) {
    for (number, example) in EXAMPLES.iter().enumerate() {
        assert!(rt; comes(rt.alloc(), *example), "example {number}");
    }
}
