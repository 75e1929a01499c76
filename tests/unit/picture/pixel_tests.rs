//! Pictures turned, cropped and in a quality; samples that are written and read in place.

use crate::fixtures::{is_missing, is_same, is_unwanted};
use crate::picture::pictures::{Picture, STEPS, cropped, is, raster};
use iiif_pixel::geometry::turn_place;
use iiif_pixel::{Depth, Dim, Kind, Quality, Raster, Rect, Span, Turn, unturn_rect};
use std::alloc::Global;

/// Work on a picture.
#[derive(Clone, Copy)]
enum Work {
    /// It is mirrored or not, and turned so many quarters.
    Turn(bool, u8),
    /// The part in a rectangle: column, row, width and height.
    Crop(u32, u32, u32, u32),
    Quality(Quality),
}

/// A picture, what is made of it, and what comes.
#[derive(Clone, Copy)]
struct Case(Picture, Work, Picture);

/// A raster turned.
fn turned(source: &Raster, by: Turn) -> Option<Raster> {
    if by.quarters >= 4 {
        return None;
    }
    let Ok(turned) = source.turn(by) else {
        return None;
    };
    Some(turned)
}

/// A raster in a quality.
fn seen(source: &Raster, to: Quality) -> Option<Raster> {
    let Ok(seen) = source.quality(to) else {
        return None;
    };
    Some(seen)
}

/// Does such work on a raster.
fn made(source: &Raster, work: Work) -> Option<Raster> {
    match work {
        Work::Turn(mirror, quarters) => turned(source, Turn { mirror, quarters }),
        Work::Crop(x, y, w, h) => cropped(source, Rect { x, y, w, h }),
        Work::Quality(to) => seen(source, to),
    }
}

/// Whether this picture is made of a raster.
fn makes(source: &Raster, work: Work, want: Picture) -> bool {
    match made(source, work) {
        Some(made) => is(&made, want),
        None => is_missing(),
    }
}

/// Whether what is made of a picture is what it is to be.
fn is_right(alloc: Global, case: Case) -> bool {
    let Case(picture, work, want) = case;
    match raster(alloc, picture) {
        Some(source) => makes(&source, work, want),
        None => is_missing(),
    }
}

/// The number of the first case that is wrong.
fn first_wrong(alloc: Global, cases: &[Case]) -> Option<usize> {
    for (number, case) in cases.iter().enumerate() {
        if !is_right(alloc, *case) {
            return Some(number);
        }
    }
    None
}

/// The sample picture scaled to 2 by 2: each sample is the mean of four.
const HALVED: Picture = Picture(
    Dim { w: 2, h: 2 },
    Kind::Gray,
    Span::Eight(&[25, 45, 105, 125]),
);

static TURNS: [Case; 8] = [
    Case(
        HALVED,
        Work::Turn(false, 0),
        Picture(
            Dim { w: 2, h: 2 },
            Kind::Gray,
            Span::Eight(&[25, 45, 105, 125]),
        ),
    ),
    Case(
        HALVED,
        Work::Turn(false, 1),
        Picture(
            Dim { w: 2, h: 2 },
            Kind::Gray,
            Span::Eight(&[105, 25, 125, 45]),
        ),
    ),
    Case(
        HALVED,
        Work::Turn(false, 2),
        Picture(
            Dim { w: 2, h: 2 },
            Kind::Gray,
            Span::Eight(&[125, 105, 45, 25]),
        ),
    ),
    Case(
        HALVED,
        Work::Turn(false, 3),
        Picture(
            Dim { w: 2, h: 2 },
            Kind::Gray,
            Span::Eight(&[45, 125, 25, 105]),
        ),
    ),
    Case(
        HALVED,
        Work::Turn(true, 0),
        Picture(
            Dim { w: 2, h: 2 },
            Kind::Gray,
            Span::Eight(&[45, 25, 125, 105]),
        ),
    ),
    Case(
        HALVED,
        Work::Turn(true, 1),
        Picture(
            Dim { w: 2, h: 2 },
            Kind::Gray,
            Span::Eight(&[125, 45, 105, 25]),
        ),
    ),
    Case(
        HALVED,
        Work::Turn(true, 2),
        Picture(
            Dim { w: 2, h: 2 },
            Kind::Gray,
            Span::Eight(&[105, 125, 25, 45]),
        ),
    ),
    Case(
        HALVED,
        Work::Turn(true, 3),
        Picture(
            Dim { w: 2, h: 2 },
            Kind::Gray,
            Span::Eight(&[25, 105, 45, 125]),
        ),
    ),
];

#[test]
fn turns_clockwise_after_mirroring(rt: HostRuntime) {
    let wrong = first_wrong(rt.alloc(), &TURNS);
    assert!(rt; wrong.is_none(), "row {wrong:?}");
}

const COLOURS: Picture = Picture(
    Dim { w: 3, h: 2 },
    Kind::Rgb,
    Span::Eight(&[
        1, 0, 0, 2, 0, 0, 0, 1, 0, 0, 0, 1, 255, 255, 255, 10, 20, 30,
    ]),
);

/// Means of 0.299, 0.598, 0.587, 0.114, 255 and 18.15.
const GRAYS: Picture = Picture(
    Dim { w: 3, h: 2 },
    Kind::Gray,
    Span::Eight(&[0, 1, 1, 0, 255, 18]),
);

/// A picture of 16 bits.
const DEEP_COLOURS: Picture = Picture(
    Dim { w: 2, h: 2 },
    Kind::Rgb,
    Span::Sixteen(&[
        65_535, 0, 0, 0, 65_535, 0, 1000, 2000, 3000, 65_535, 65_535, 65_535,
    ]),
);

/// Means of 19,594.965, 38,469.045, 1,815 and 65,535.
const DEEP_GRAYS: Picture = Picture(
    Dim { w: 2, h: 2 },
    Kind::Gray,
    Span::Sixteen(&[19_595, 38_469, 1815, 65_535]),
);

static MEANS: [Case; 5] = [
    Case(COLOURS, Work::Quality(Quality::Gray), GRAYS),
    Case(COLOURS, Work::Quality(Quality::Default), COLOURS),
    Case(COLOURS, Work::Quality(Quality::Color), COLOURS),
    Case(GRAYS, Work::Quality(Quality::Gray), GRAYS),
    Case(DEEP_COLOURS, Work::Quality(Quality::Gray), DEEP_GRAYS),
];

#[test]
fn gray_is_the_rounded_weighted_mean(rt: HostRuntime) {
    let wrong = first_wrong(rt.alloc(), &MEANS);
    assert!(rt; wrong.is_none(), "row {wrong:?}");
}

/// Of 16 bits black is below 32,768, and what is made has 8.
static BLACK_AND_WHITE: [Case; 5] = [
    Case(
        STEPS,
        Work::Quality(Quality::Bitonal),
        Picture(
            Dim { w: 4, h: 4 },
            Kind::Gray,
            Span::Eight(&[0, 0, 0, 0, 0, 0, 0, 0, 0, 0, 0, 0, 0, 255, 255, 255]),
        ),
    ),
    Case(
        Picture(Dim { w: 2, h: 1 }, Kind::Gray, Span::Eight(&[127, 128])),
        Work::Quality(Quality::Bitonal),
        Picture(Dim { w: 2, h: 1 }, Kind::Gray, Span::Eight(&[0, 255])),
    ),
    Case(
        Picture(
            Dim { w: 2, h: 1 },
            Kind::Rgb,
            Span::Eight(&[255, 0, 0, 0, 255, 0]),
        ),
        Work::Quality(Quality::Bitonal),
        Picture(Dim { w: 2, h: 1 }, Kind::Gray, Span::Eight(&[0, 255])),
    ),
    Case(
        Picture(
            Dim { w: 4, h: 1 },
            Kind::Gray,
            Span::Sixteen(&[255, 32_767, 32_768, 65_535]),
        ),
        Work::Quality(Quality::Bitonal),
        Picture(
            Dim { w: 4, h: 1 },
            Kind::Gray,
            Span::Eight(&[0, 0, 255, 255]),
        ),
    ),
    Case(
        DEEP_COLOURS,
        Work::Quality(Quality::Bitonal),
        Picture(
            Dim { w: 2, h: 2 },
            Kind::Gray,
            Span::Eight(&[0, 255, 0, 255]),
        ),
    ),
];

#[test]
fn bitonal_is_black_below_128(rt: HostRuntime) {
    let wrong = first_wrong(rt.alloc(), &BLACK_AND_WHITE);
    assert!(rt; wrong.is_none(), "row {wrong:?}");
}

/// A picture of 16 bits.
const DEEP: Picture = Picture(
    Dim { w: 3, h: 2 },
    Kind::Gray,
    Span::Sixteen(&[0, 0, 65_535, 256, 255, 0]),
);

/// Parts, and a turned picture of 16 bits.
static PARTS: [Case; 3] = [
    Case(
        STEPS,
        Work::Crop(1, 2, 3, 2),
        Picture(
            Dim { w: 3, h: 2 },
            Kind::Gray,
            Span::Eight(&[90, 100, 110, 130, 140, 150]),
        ),
    ),
    Case(
        DEEP,
        Work::Crop(1, 0, 2, 2),
        Picture(
            Dim { w: 2, h: 2 },
            Kind::Gray,
            Span::Sixteen(&[0, 65_535, 255, 0]),
        ),
    ),
    Case(
        DEEP,
        Work::Turn(false, 1),
        Picture(
            Dim { w: 2, h: 3 },
            Kind::Gray,
            Span::Sixteen(&[256, 0, 255, 0, 0, 65_535]),
        ),
    ),
];

#[test]
fn a_crop_is_the_part_in_the_rectangle(rt: HostRuntime) {
    let wrong = first_wrong(rt.alloc(), &PARTS);
    assert!(rt; wrong.is_none(), "row {wrong:?}");
}

/// The greatest sides.
const LARGEST: Dim = Dim {
    w: u32::MAX,
    h: u32::MAX,
};

/// Column, row and sides of rectangles, and whether they lie in the largest picture.
static RECTANGLES: [([u32; 4], bool); 4] = [
    ([1, 2, 3, 2], true),
    ([u32::MAX - 1, u32::MAX - 1, 1, 1], true),
    ([u32::MAX - 1, u32::MAX - 1, 2, 1], false),
    ([u32::MAX - 1, u32::MAX - 1, 1, 2], false),
];

/// Whether a rectangle has its sides, and lies in the largest picture or doesn't.
fn lies([x, y, w, h]: [u32; 4], want: bool) -> bool {
    let rect = Rect { x, y, w, h };
    is_same(&rect.dim(), &Dim { w, h }) && is_same(&rect.lies_in(LARGEST), &want)
}

/// The kind and sides of pictures, and how many samples they have.
static COUNTS: [(Kind, Dim, Option<usize>); 3] = [
    (Kind::Gray, LARGEST, Some(18_446_744_065_119_617_025)),
    (Kind::Rgb, LARGEST, None),
    (Kind::Rgb, Dim { w: 3, h: 2 }, Some(18)),
];

/// Whether there is no memory for the largest picture.
fn is_refused(alloc: Global, kind: Kind) -> bool {
    Raster::new(alloc, LARGEST, kind, Depth::Eight).is_err()
}

#[test]
fn the_greatest_sides_do_not_wrap_and_find_no_memory(rt: HostRuntime) {
    for (rectangle, want) in RECTANGLES.iter() {
        assert!(rt; lies(*rectangle, *want), "{rectangle:?}");
    }
    for (kind, sides, count) in COUNTS.iter() {
        assert!(rt; is_same(&kind.count(*sides), count), "{kind:?}");
        assert!(rt; is_refused(rt.alloc(), *kind), "{kind:?}");
    }
    assert!(rt; is_same(&Depth::Sixteen.top(), &65_535) && is_same(&Depth::Sixteen.bytes(), &2));
}

/// The sample at a place; none outside the raster.
fn sample(raster: &Raster, x: u32, y: u32, channel: usize) -> Option<u16> {
    let dim = raster.dim();
    if x < dim.w && y < dim.h && channel < raster.kind().channels() {
        Some(raster.get(x, y, channel))
    } else {
        None
    }
}

/// Writes a sample, or says that it has no place.
fn set(raster: &mut Raster, x: u32, y: u32, channel: usize, value: u16) -> bool {
    let dim = raster.dim();
    let is_inside = x < dim.w && y < dim.h && channel < raster.kind().channels();
    if is_inside && value <= raster.depth().top() {
        raster.set(x, y, channel, value);
        true
    } else {
        false
    }
}

/// So many places of a row; none where they are outside the raster.
fn row(raster: &Raster, x: u32, y: u32, w: u32) -> Option<Span<'_>> {
    let dim = raster.dim();
    if x <= dim.w && w <= dim.w - x && y < dim.h {
        Some(raster.span(x, y, w))
    } else {
        None
    }
}

/// Writes so many places of a row, or says that they have no place.
fn put_row(raster: &mut Raster, x: u32, y: u32, w: u32, samples: Span) -> bool {
    let dim = raster.dim();
    let count = w as usize * raster.kind().channels();
    if x > dim.w || w > dim.w - x || y >= dim.h {
        return false;
    }
    match (raster.depth(), samples) {
        (Depth::Eight, Span::Eight(bytes)) if bytes.len() == count => {
            raster.put_span(x, y, w, Span::Eight(bytes));
            true
        }
        (Depth::Sixteen, Span::Sixteen(words)) if words.len() == count => {
            raster.put_span(x, y, w, Span::Sixteen(words));
            true
        }
        _ => false,
    }
}

/// Places of a raster in a column and a row: a channel of one, or so many in a row.
#[derive(Clone, Copy)]
enum Samples {
    One(usize, u16),
    Row(u32, Span<'static>),
}

/// Where samples stand.
type Placed = (u32, u32, Samples);

/// Samples that are written into a new raster; zeros, as which it begins; the picture that it is then; samples that are read of it.
#[derive(Clone, Copy)]
struct Written {
    zeros: Picture,
    written: &'static [Placed],
    picture: Picture,
    read: &'static [Placed],
}

/// Whether samples have a place, where they are written.
fn put(raster: &mut Raster, (x, y, samples): Placed) -> bool {
    match samples {
        Samples::One(channel, value) => set(raster, x, y, channel, value),
        Samples::Row(w, samples) => put_row(raster, x, y, w, samples),
    }
}

/// Whether samples are read.
fn is_read(raster: &Raster, (x, y, samples): Placed) -> bool {
    match samples {
        Samples::One(channel, value) => is_same(&sample(raster, x, y, channel), &Some(value)),
        Samples::Row(w, samples) => is_same(&row(raster, x, y, w), &Some(samples)),
    }
}

/// Whether a raster's copy is this picture.
fn copies_to(raster: &Raster, want: Picture) -> bool {
    match raster.copy() {
        Ok(copy) => is(&copy, want),
        Err(fault) => is_unwanted(&fault),
    }
}

/// Whether a new raster begins as zeros, takes samples, and gives them.
fn takes_and_gives(raster: &mut Raster, case: Written) -> bool {
    if !is(raster, case.zeros) {
        return false;
    }
    for placed in case.written {
        if !put(raster, *placed) {
            return false;
        }
    }
    for placed in case.read {
        if !is_read(raster, *placed) {
            return false;
        }
    }
    is(raster, case.picture) && copies_to(raster, case.picture)
}

/// Writes and reads from the beginning.
fn is_written(alloc: Global, case: Written) -> bool {
    let Picture(dim, kind, samples) = case.picture;
    let depth = match samples {
        Span::Eight(_) => Depth::Eight,
        Span::Sixteen(_) => Depth::Sixteen,
    };
    match Raster::new(alloc, dim, kind, depth) {
        Ok(mut raster) => takes_and_gives(&mut raster, case),
        Err(fault) => is_unwanted(&fault),
    }
}

/// A sample of the first row and the first two places of the second.
static WRITTEN: [Written; 2] = [
    Written {
        zeros: Picture(Dim { w: 3, h: 2 }, Kind::Rgb, Span::Eight(&[0; 18])),
        written: &[
            (2, 0, Samples::One(1, 7)),
            (0, 1, Samples::Row(2, Span::Eight(&[1, 2, 3, 4, 5, 6]))),
        ],
        picture: Picture(
            Dim { w: 3, h: 2 },
            Kind::Rgb,
            Span::Eight(&[0, 0, 0, 0, 0, 0, 0, 7, 0, 1, 2, 3, 4, 5, 6, 0, 0, 0]),
        ),
        read: &[
            (2, 0, Samples::One(1, 7)),
            (1, 1, Samples::One(2, 6)),
            (1, 1, Samples::Row(2, Span::Eight(&[4, 5, 6, 0, 0, 0]))),
        ],
    },
    Written {
        zeros: Picture(Dim { w: 3, h: 2 }, Kind::Gray, Span::Sixteen(&[0; 6])),
        written: &[
            (2, 0, Samples::One(0, 65_535)),
            (0, 1, Samples::Row(2, Span::Sixteen(&[256, 255]))),
        ],
        picture: DEEP,
        read: &[
            (2, 0, Samples::One(0, 65_535)),
            (1, 1, Samples::Row(2, Span::Sixteen(&[255, 0]))),
        ],
    },
];

#[test]
fn samples_are_read_and_written_in_place(rt: HostRuntime) {
    for (number, case) in WRITTEN.iter().enumerate() {
        assert!(rt; is_written(rt.alloc(), *case), "picture {number}");
    }
}

/// Whether the sample of each place is found where the place goes, once a picture is turned.
fn follow(source: &Raster, turned: &Raster, by: Turn) -> bool {
    let dim = source.dim();
    if by.quarters >= 4 {
        return false;
    }
    for y in 0..dim.h {
        for x in 0..dim.w {
            let (i, j) = turn_place(by, dim, x, y);
            let found = sample(turned, i, j, 0);
            if found.is_none() || !is_same(&found, &sample(source, x, y, 0)) {
                return false;
            }
        }
    }
    true
}

/// The part, turned, that comes to lie in a rectangle of the turned raster.
fn turned_part(source: &Raster, by: Turn, rect: Rect) -> Option<Raster> {
    if by.quarters >= 4 || !rect.lies_in(source.dim().turned(by)) {
        return None;
    }
    turned(&cropped(source, unturn_rect(by, source.dim(), rect))?, by)
}

/// Whether a raster is the part of a whole one in a rectangle, and as wide and high as it.
fn is_part(part: &Raster, whole: &Raster, rect: Rect) -> bool {
    match cropped(whole, rect) {
        Some(want) => is_same(&part.dim(), &rect.dim())
            && is_same(&part.samples(), &want.samples()),
        None => is_missing(),
    }
}

/// Whether a turned part is the part of the turned raster.
fn is_same_part(source: &Raster, turned: &Raster, by: Turn, rect: Rect) -> bool {
    match turned_part(source, by, rect) {
        Some(part) => is_part(&part, turned, rect),
        None => is_missing(),
    }
}

/// Compares every rectangle of the turned raster.
fn are_same_parts(source: &Raster, turned: &Raster, by: Turn) -> bool {
    let sides = turned.dim();
    for x in 0..sides.w {
        for y in 0..sides.h {
            for w in 1..=sides.w - x {
                for h in 1..=sides.h - y {
                    if !is_same_part(source, turned, by, Rect { x, y, w, h }) {
                        return false;
                    }
                }
            }
        }
    }
    true
}

/// Whether a raster that is turned has its sides, places and parts.
fn is_turned(source: &Raster, by: Turn) -> bool {
    match turned(source, by) {
        Some(turned) => {
            is_same(&turned.dim(), &source.dim().turned(by))
                && follow(source, &turned, by)
                && are_same_parts(source, &turned, by)
        }
        None => is_missing(),
    }
}

/// Whether a picture has its sides, places and parts after each turn.
fn all_turns_are_right(alloc: Global, picture: Picture) -> bool {
    let Some(source) = raster(alloc, picture) else {
        return false;
    };
    for mirror in [false, true] {
        for quarters in 0..4 {
            if !is_turned(&source, Turn { mirror, quarters }) {
                return false;
            }
        }
    }
    true
}

static NUMBERED: [Picture; 2] = [
    Picture(
        Dim { w: 3, h: 2 },
        Kind::Gray,
        Span::Eight(&[1, 2, 3, 4, 5, 6]),
    ),
    Picture(
        Dim { w: 3, h: 2 },
        Kind::Rgb,
        Span::Eight(&[
            1, 2, 3, 4, 5, 6, 7, 8, 9, 10, 11, 12, 13, 14, 15, 16, 17, 18,
        ]),
    ),
];

#[test]
fn places_and_parts_follow_each_turn(rt: HostRuntime) {
    for (number, picture) in NUMBERED.iter().enumerate() {
        assert!(rt;
            all_turns_are_right(rt.alloc(), *picture),
            "picture {number}"
        );
    }
}
