//! Files of many layouts, read and refused.

use crate::fixtures::files::{SAMPLE, STEPS};
use crate::fixtures::{is_missing, is_same, is_same_text, is_unwanted, is_written};
use iiif_fault::Numbered;
use iiif_pixel::{Dim, Kind, Raster, Rect, Span};
use iiif_source::{MemSource, ReadFault, Source};
use iiif_tiff_read::{LoadFault, OpenFault, open};
use std::alloc::Global;
use std::test::Fail;
use writer::{Field, Form, PLAIN, write_file};

mod byte_counter;
mod device_tests;
mod one_fault;
mod wide_tests;
mod writer;

const WIDTH: Field = Field(256, 3, &[4]);

const LENGTH: Field = Field(257, 3, &[4]);

const EIGHT_BITS: Field = Field(258, 3, &[8]);

const PLAINLY: Field = Field(259, 3, &[1]);

const BLACK_IS_ZERO: Field = Field(262, 3, &[1]);

const WHITE_IS_ZERO: Field = Field(262, 3, &[0]);

const ONE_SAMPLE: Field = Field(277, 3, &[1]);

/// The picture in one strip.
const FOUR_ROWS: &[Field] = &[
    WIDTH,
    LENGTH,
    EIGHT_BITS,
    PLAINLY,
    BLACK_IS_ZERO,
    Field(273, 4, &[0]),
    ONE_SAMPLE,
    Field(278, 3, &[4]),
    Field(279, 4, &[16]),
];

/// The picture in strips of 2 rows.
const TWO_ROWS: &[Field] = &[
    WIDTH,
    LENGTH,
    EIGHT_BITS,
    PLAINLY,
    BLACK_IS_ZERO,
    Field(273, 4, &[0, 8]),
    ONE_SAMPLE,
    Field(278, 1, &[2]),
    Field(279, 3, &[8, 8]),
];

/// The picture in strips of 1 row.
const ONE_ROW: &[Field] = &[
    WIDTH,
    LENGTH,
    EIGHT_BITS,
    PLAINLY,
    BLACK_IS_ZERO,
    Field(273, 3, &[0, 4, 8, 12]),
    ONE_SAMPLE,
    Field(278, 3, &[1]),
    Field(279, 1, &[4, 4, 4, 4]),
];

/// The picture in strips of 3 rows and 1.
const THREE_ROWS: &[Field] = &[
    WIDTH,
    LENGTH,
    EIGHT_BITS,
    PLAINLY,
    BLACK_IS_ZERO,
    Field(273, 3, &[0, 12]),
    ONE_SAMPLE,
    Field(278, 4, &[3]),
    Field(279, 4, &[12, 4]),
];

/// The picture in tiles of 3 by 3, padded with 99.
const TILES: &[Field] = &[
    WIDTH,
    LENGTH,
    EIGHT_BITS,
    PLAINLY,
    BLACK_IS_ZERO,
    ONE_SAMPLE,
    Field(322, 3, &[3]),
    Field(323, 3, &[3]),
    Field(324, 4, &[0, 9, 18, 27]),
    Field(325, 4, &[9, 9, 9, 9]),
];

const TILED: [u8; 36] = [
    0, 10, 20, 40, 50, 60, 80, 90, 100, 30, 99, 99, 70, 99, 99, 110, 99, 99, 120, 130, 140, 99, 99,
    99, 99, 99, 99, 150, 99, 99, 99, 99, 99, 99, 99, 99,
];

const WHOLE: Rect = Rect {
    x: 0,
    y: 0,
    w: 4,
    h: 4,
};

const MIDDLE: Rect = Rect {
    x: 1,
    y: 1,
    w: 2,
    h: 2,
};

/// The sides and the kind of an image, or its refusal.
type Opened = Result<(u32, u32, Kind), OpenFault>;

/// Why a part of an image is not read.
#[derive(Debug, Drop)]
enum Failed {
    Open(OpenFault),
    Load(LoadFault),
    Outside,
}

/// A rectangle of the image in a source, or all of it.
fn read_part<S: Source<()>>(
    alloc: Global,
    source: &S,
    part: Option<Rect>,
) -> Result<Raster, Failed> {
    let layout = match open(&(), alloc, source) {
        Ok(layout) => layout,
        Err(fault) => return Err(Failed::Open(fault)),
    };
    let Dim { w, h } = layout.dim();
    let rect = part.unwrap_or(Rect { x: 0, y: 0, w, h });
    if !rect.lies_in(layout.dim()) {
        return Err(Failed::Outside);
    }
    match layout.read_rect(&(), source, rect) {
        Ok(raster) => Ok(raster),
        Err(fault) => Err(Failed::Load(fault)),
    }
}

/// Whether a rectangle of the image in a source, or all of it, has these samples.
fn shows<S: Source<()>>(alloc: Global, source: &S, part: Option<Rect>, samples: Span) -> bool {
    match read_part(alloc, source, part) {
        Ok(raster) => is_same(&raster.samples(), &samples),
        Err(fault) => is_unwanted(&fault),
    }
}

/// Opens and reads a file with these fields and bytes.
fn file_shows(
    alloc: Global,
    form: Form,
    (fields, bytes): (&[Field], &[u8]),
    part: Option<Rect>,
    samples: Span,
) -> bool {
    match write_file(alloc, form, fields, bytes) {
        Some(file) => shows(alloc, &MemSource::new(file), part, samples),
        None => is_missing(),
    }
}

/// The sides and the kind of the image in these bytes, or its refusal.
fn opened(alloc: Global, bytes: &[u8]) -> Opened {
    let layout = open(&(), alloc, &MemSource::new(Vec::from_slice(alloc, bytes)?))?;
    Ok((layout.dim().w, layout.dim().h, layout.kind()))
}

/// Whether the plain file with these fields and bytes is this one.
fn is_written_so(alloc: Global, fields: &[Field], bytes: &[u8], want: &[u8]) -> bool {
    match write_file(alloc, PLAIN, fields, bytes) {
        Some(file) => is_same_text(file.as_slice(), want),
        None => is_missing(),
    }
}

#[test]
fn sample_file_is_as_published(rt: HostRuntime) {
    assert!(rt; is_written_so(rt.alloc(), FOUR_ROWS, &STEPS, &SAMPLE));
}

/// Low or high bytes first, and the directory behind the samples or before them.
static FORMS: [Form; 4] = [
    PLAIN,
    Form {
        high_first: true,
        directory_first: false,
    },
    Form {
        high_first: false,
        directory_first: true,
    },
    Form {
        high_first: true,
        directory_first: true,
    },
];

/// The fields of the tiled picture from the last one on.
const REVERSED: &[Field] = &[
    Field(325, 4, &[9, 9, 9, 9]),
    Field(324, 4, &[0, 9, 18, 27]),
    Field(323, 3, &[3]),
    Field(322, 3, &[3]),
    ONE_SAMPLE,
    BLACK_IS_ZERO,
    PLAINLY,
    EIGHT_BITS,
    LENGTH,
    WIDTH,
];

/// Four rows with a second Compression and a field of text behind them.
const REVERSED_AND_MORE: &[Field] = &[
    Field(325, 4, &[9, 9, 9, 9]),
    Field(324, 4, &[0, 9, 18, 27]),
    Field(323, 3, &[3]),
    Field(322, 3, &[3]),
    ONE_SAMPLE,
    BLACK_IS_ZERO,
    PLAINLY,
    EIGHT_BITS,
    LENGTH,
    WIDTH,
    Field(259, 3, &[5]),
    Field(305, 2, &[0]),
];

/// The picture in one strip, which has a byte more than it needs.
const STRIP_AND_MORE: &[Field] = &[
    WIDTH,
    LENGTH,
    EIGHT_BITS,
    PLAINLY,
    BLACK_IS_ZERO,
    Field(273, 4, &[0]),
    ONE_SAMPLE,
    Field(278, 3, &[4]),
    Field(279, 4, &[17]),
];

/// The samples and a byte behind them.
const MORE: [u8; 17] = [
    0, 10, 20, 30, 40, 50, 60, 70, 80, 90, 100, 110, 120, 130, 140, 150, 0,
];

/// The fields and the bytes of files that show the one picture. Tags stand in any order, and the first of two counts.
static LAYOUTS: [(&[Field], &[u8]); 8] = [
    (FOUR_ROWS, &STEPS),
    (TWO_ROWS, &STEPS),
    (ONE_ROW, &STEPS),
    (THREE_ROWS, &STEPS),
    (TILES, &TILED),
    (REVERSED, &TILED),
    (REVERSED_AND_MORE, &TILED),
    (STRIP_AND_MORE, &MORE),
];

/// The samples of its middle.
const IN_THE_MIDDLE: [u8; 4] = [50, 60, 90, 100];

/// Whether a file with these fields and bytes shows the picture, whole and in its middle.
fn shows_sample(alloc: Global, form: Form, layout: (&[Field], &[u8])) -> bool {
    file_shows(alloc, form, layout, Some(WHOLE), Span::Eight(&STEPS))
        && file_shows(
            alloc,
            form,
            layout,
            Some(MIDDLE),
            Span::Eight(&IN_THE_MIDDLE),
        )
}

#[test]
fn one_picture_from_each_layout(rt: HostRuntime) {
    for form in FORMS.iter() {
        for (number, layout) in LAYOUTS.iter().enumerate() {
            assert!(rt; shows_sample(rt.alloc(), *form, *layout), "layout {number}");
        }
    }
}

/// A bilevel picture of 10 by 2 in two rows of two bytes, where 0 is black.
const BLACK_BITS: &[Field] = &[
    Field(256, 3, &[10]),
    Field(257, 3, &[2]),
    BLACK_IS_ZERO,
    Field(273, 4, &[0]),
    Field(279, 4, &[4]),
];

/// Fields of such a picture in which 0 is white.
const WHITE_BITS: &[Field] = &[
    Field(256, 3, &[10]),
    Field(257, 3, &[2]),
    WHITE_IS_ZERO,
    Field(273, 4, &[0]),
    Field(279, 4, &[4]),
];

/// The picture in one strip, where 0 is white.
const INVERTED: &[Field] = &[
    WIDTH,
    LENGTH,
    EIGHT_BITS,
    PLAINLY,
    WHITE_IS_ZERO,
    Field(273, 4, &[0]),
    ONE_SAMPLE,
    Field(278, 3, &[4]),
    Field(279, 4, &[16]),
];

/// An RGB picture of 2 by 1.
const COLOURS: &[Field] = &[
    Field(256, 3, &[2]),
    Field(257, 3, &[1]),
    Field(258, 3, &[8, 8, 8]),
    Field(262, 3, &[2]),
    Field(273, 4, &[0]),
    Field(277, 3, &[3]),
    Field(279, 4, &[6]),
];

/// A gray picture of 2 by 1 of 16 bits, where 0 is black.
const BLACK_DEEP: &[Field] = &[
    Field(256, 3, &[2]),
    Field(257, 3, &[1]),
    Field(258, 3, &[16]),
    BLACK_IS_ZERO,
    Field(273, 4, &[0]),
    Field(277, 3, &[1]),
    Field(279, 4, &[4]),
];

/// Fields of such a file in which 0 is white.
const WHITE_DEEP: &[Field] = &[
    Field(256, 3, &[2]),
    Field(257, 3, &[1]),
    Field(258, 3, &[16]),
    WHITE_IS_ZERO,
    Field(273, 4, &[0]),
    Field(277, 3, &[1]),
    Field(279, 4, &[4]),
];

/// Two tiles of 2 by 1, of which the second is cut off, with channels 1 to 9 times 257.
const DEEP_TILES: &[Field] = &[
    Field(256, 3, &[3]),
    Field(257, 3, &[1]),
    Field(258, 3, &[16, 16, 16]),
    Field(262, 3, &[2]),
    Field(277, 3, &[3]),
    Field(322, 3, &[2]),
    Field(323, 3, &[1]),
    Field(324, 4, &[0, 12]),
    Field(325, 4, &[12, 12]),
];

/// A part that is read of a file: of which fields and bytes it is, and whether its high bytes come first; the rectangle, or all; the
/// samples.
#[derive(Clone, Copy)]
struct Part {
    fields: &'static [Field],
    high_first: bool,
    bytes: &'static [u8],
    rect: Option<Rect>,
    samples: Span<'static>,
}

static PARTS: [Part; 9] = [
    // A rectangle without samples is empty.
    Part {
        fields: FOUR_ROWS,
        high_first: false,
        bytes: &STEPS,
        rect: Some(Rect {
            x: 4,
            y: 0,
            w: 0,
            h: 4,
        }),
        samples: Span::Eight(&[]),
    },
    Part {
        fields: BLACK_BITS,
        high_first: false,
        // 1011 0001 01.. and 0000 0000 11..
        bytes: &[177, 64, 0, 192],
        rect: Some(LAST_OF_BILEVEL),
        samples: Span::Eight(&[0, 255, 0, 255, 0, 0, 255, 255]),
    },
    Part {
        fields: WHITE_BITS,
        high_first: false,
        bytes: &[177, 64, 0, 192],
        rect: Some(LAST_OF_BILEVEL),
        samples: Span::Eight(&[255, 0, 255, 0, 255, 255, 0, 0]),
    },
    Part {
        fields: INVERTED,
        high_first: false,
        bytes: &STEPS,
        rect: Some(MIDDLE),
        samples: Span::Eight(&[205, 195, 165, 155]),
    },
    Part {
        fields: COLOURS,
        high_first: false,
        bytes: &[2, 0, 1, 5, 6, 7],
        rect: Some(Rect {
            x: 1,
            y: 0,
            w: 1,
            h: 1,
        }),
        samples: Span::Eight(&[5, 6, 7]),
    },
    Part {
        fields: BLACK_DEEP,
        high_first: false,
        bytes: &[3, 2, 254, 255],
        rect: None,
        samples: Span::Sixteen(&[515, 65_534]),
    },
    Part {
        fields: BLACK_DEEP,
        high_first: true,
        bytes: &[2, 3, 255, 254],
        rect: None,
        samples: Span::Sixteen(&[515, 65_534]),
    },
    Part {
        fields: WHITE_DEEP,
        high_first: true,
        bytes: &[2, 3, 255, 254],
        rect: None,
        samples: Span::Sixteen(&[65_020, 1]),
    },
    Part {
        fields: DEEP_TILES,
        high_first: false,
        bytes: &[
            1, 1, 2, 2, 3, 3, 4, 4, 5, 5, 6, 6, 7, 7, 8, 8, 9, 9, 0, 0, 0, 0, 0, 0,
        ],
        rect: None,
        samples: Span::Sixteen(&[257, 514, 771, 1_028, 1_285, 1_542, 1_799, 2_056, 2_313]),
    },
];

const LAST_OF_BILEVEL: Rect = Rect {
    x: 6,
    y: 0,
    w: 4,
    h: 2,
};

/// Whether what is read of a file is what it is to be.
fn is_read(alloc: Global, part: &Part) -> bool {
    let form = Form {
        high_first: part.high_first,
        directory_first: false,
    };
    let file = (part.fields, part.bytes);
    file_shows(alloc, form, file, part.rect, part.samples)
}

#[test]
fn parts_have_these_samples(rt: HostRuntime) {
    for (number, part) in PARTS.iter().enumerate() {
        assert!(rt; is_read(rt.alloc(), part), "part {number}");
    }
}

/// The widest image, in one row.
const WIDEST: &[Field] = &[
    Field(256, 4, &[1_000_000]),
    Field(257, 3, &[1]),
    BLACK_IS_ZERO,
    Field(273, 4, &[0]),
    Field(279, 4, &[125_000]),
];

/// The last two places of its row.
const LAST_OF_THE_WIDEST: Rect = Rect {
    x: 999_998,
    y: 0,
    w: 2,
    h: 1,
};

/// Whether a file of an image is opened, and these are the last places of its row.
fn is_widest(alloc: Global, bits: &[u8], samples: Span) -> bool {
    let Some(file) = write_file(alloc, PLAIN, WIDEST, bits) else {
        return false;
    };
    let is_opened = is_same(&opened(alloc, &file), &Ok((1_000_000, 1, Kind::Gray)));
    is_opened
        && shows(
            alloc,
            &MemSource::new(file),
            Some(LAST_OF_THE_WIDEST),
            samples,
        )
}

#[test]
fn limits_on_sides_are_those_of_the_image(rt: HostRuntime) -> Result<(), Fail> {
    let bits = vec![in rt.alloc(); 0u8; 125_000]?;
    assert!(rt; is_widest(rt.alloc(), &bits, Span::Eight(&[0, 0])));
    Ok(())
}

/// The first bytes of the sample, so many; where four of them are others, and which; what is answered then. A file is cut, its
/// offsets and counts are hostile, or a field is wrong.
static CHANGED: [(usize, usize, [u8; 4], Opened); 22] = [
    (7, 7, [0; 4], Err(OpenFault::NotTiff)),
    (23, 23, [0; 4], Err(OpenFault::Truncated)),
    (133, 133, [0; 4], Err(OpenFault::Truncated)),
    (134, 134, [0; 4], Ok((4, 4, Kind::Gray))),
    (138, 138, [0; 4], Ok((4, 4, Kind::Gray))),
    (138, 4, [255, 255, 255, 255], Err(OpenFault::Truncated)),
    (138, 24, [255, 255, 0, 1], Err(OpenFault::Truncated)),
    (138, 94, [122, 0, 0, 0], Ok((4, 4, Kind::Gray))),
    (138, 94, [123, 0, 0, 0], Err(OpenFault::Truncated)),
    (138, 94, [255, 255, 255, 255], Err(OpenFault::Truncated)),
    (138, 90, [0, 0, 0, 64], Err(OpenFault::Truncated)),
    (138, 26, [0, 1, 2, 0], Err(OpenFault::BadField(256))),
    (138, 34, [0, 0, 0, 0], Err(OpenFault::BadField(256))),
    (138, 54, [2, 0, 0, 0], Err(OpenFault::BadField(258))),
    (138, 58, [4, 0, 0, 0], Err(OpenFault::Unsupported(258))),
    // Sixteen bits a sample: the strip's 16 bytes are half of the need.
    (138, 58, [16, 0, 0, 0], Err(OpenFault::BadField(279))),
    (138, 70, [5, 0, 0, 0], Err(OpenFault::Unsupported(259))),
    (138, 74, [7, 1, 3, 0], Err(OpenFault::Missing(262))),
    (138, 82, [3, 0, 0, 0], Err(OpenFault::Unsupported(262))),
    (138, 118, [0, 0, 0, 0], Err(OpenFault::BadField(278))),
    (138, 118, [2, 0, 0, 0], Err(OpenFault::BadField(273))),
    (138, 130, [15, 0, 0, 0], Err(OpenFault::BadField(279))),
];

/// The answer to the first bytes of the sample once four of them are others.
fn changed(alloc: Global, len: usize, at: usize, value: [u8; 4]) -> Opened {
    let mut bytes = SAMPLE;
    for (k, new) in value.iter().enumerate() {
        if let Some(byte) = bytes.get_mut(at.wrapping_add(k)) {
            *byte = *new;
        }
    }
    opened(alloc, &bytes[..len.min(138)])
}

#[test]
fn cut_and_changed_files_are_refused(rt: HostRuntime) {
    for (number, (len, at, value, answer)) in CHANGED.iter().enumerate() {
        assert!(rt;
            is_same(&changed(rt.alloc(), *len, *at, *value), answer),
            "change {number}"
        );
    }
}

/// The answer to the plain file with these fields and bytes.
fn written(alloc: Global, fields: &[Field], bytes: &[u8]) -> Option<Opened> {
    let file = write_file(alloc, PLAIN, fields, bytes)?;
    Some(opened(alloc, &file))
}

#[test]
fn colours_are_red_green_blue(rt: HostRuntime) {
    let opened = written(rt.alloc(), COLOURS, &[2, 0, 1, 5, 6, 7]);
    assert!(rt; is_same(&opened, &Some(Ok((2, 1, Kind::Rgb)))));
}

/// The fields of the tiled picture but its sides.
const TILES_OF_NO_SIDES: &[Field] = &[
    EIGHT_BITS,
    PLAINLY,
    BLACK_IS_ZERO,
    ONE_SAMPLE,
    Field(322, 3, &[3]),
    Field(323, 3, &[3]),
    Field(324, 4, &[0, 9, 18, 27]),
    Field(325, 4, &[9, 9, 9, 9]),
];

/// Fields, those behind them, and the refusal of a file of both without samples. The first entry with a tag counts. The first files
/// have a wrong field; then come areas and tiles without end (more than 2^32 places; 1,025 by 1,024 tiles; 1,024 by 1,024 tiles, of
/// which four have offsets), colours with more samples or in planes, and a wrong field before a right one.
static REFUSED: [(&[Field], &[Field], OpenFault); 23] = [
    (&[Field(256, 4, &[1_000_001])], TILES, OpenFault::TooLarge),
    (&[Field(257, 3, &[0])], TILES, OpenFault::BadField(257)),
    (&[Field(257, 4, &[1_000_001])], TILES, OpenFault::TooLarge),
    (&[Field(277, 3, &[0])], TILES, OpenFault::BadField(277)),
    (&[Field(277, 3, &[2])], TILES, OpenFault::Unsupported(277)),
    (&[Field(258, 3, &[8, 8])], TILES, OpenFault::BadField(258)),
    (&[Field(266, 3, &[2])], TILES, OpenFault::Unsupported(266)),
    (&[Field(274, 3, &[9])], TILES, OpenFault::Unsupported(274)),
    (&[Field(339, 3, &[1, 1])], TILES, OpenFault::BadField(339)),
    (&[Field(339, 3, &[2])], TILES, OpenFault::Unsupported(339)),
    (&[Field(322, 3, &[0])], TILES, OpenFault::BadField(322)),
    (&[Field(322, 4, &[1_048_577])], TILES, OpenFault::TooLarge),
    (&[Field(323, 2, &[3])], TILES, OpenFault::BadField(323)),
    (&[Field(323, 3, &[0])], TILES, OpenFault::BadField(323)),
    (
        &[Field(324, 4, &[0, 9, 18])],
        TILES,
        OpenFault::BadField(324),
    ),
    (
        &[Field(325, 4, &[9, 9, 9])],
        TILES,
        OpenFault::BadField(325),
    ),
    (
        &[Field(325, 4, &[9, 9, 9, 8])],
        TILES,
        OpenFault::BadField(325),
    ),
    (
        &[Field(256, 4, &[1_000_000]), Field(257, 4, &[4_295])],
        TILES_OF_NO_SIDES,
        OpenFault::TooLarge,
    ),
    (
        &[Field(256, 4, &[3_075]), Field(257, 4, &[3_072])],
        TILES_OF_NO_SIDES,
        OpenFault::TooLarge,
    ),
    (
        &[Field(256, 4, &[3_072]), Field(257, 4, &[3_072])],
        TILES_OF_NO_SIDES,
        OpenFault::BadField(324),
    ),
    (COLOURS, &[Field(338, 3, &[0])], OpenFault::Unsupported(338)),
    (COLOURS, &[Field(284, 3, &[2])], OpenFault::Unsupported(284)),
    (
        &[WIDTH, LENGTH, EIGHT_BITS],
        &[Field(259, 3, &[5]), PLAINLY],
        OpenFault::Unsupported(259),
    ),
];

/// Fields, one after another.
fn joined(alloc: Global, fields: &[Field], behind: &[Field]) -> Option<Vec<Field>> {
    let mut all = Vec::new(alloc);
    if all.extend_from_slice(fields).is_ok() && all.extend_from_slice(behind).is_ok() {
        Some(all)
    } else {
        None
    }
}

/// Whether a file of these fields, one after another, without samples, is refused for this reason.
fn is_refused(alloc: Global, fields: &[Field], behind: &[Field], fault: OpenFault) -> bool {
    match joined(alloc, fields, behind) {
        Some(all) => is_same(&written(alloc, &all, &[]), &Some(Err(fault))),
        None => is_missing(),
    }
}

#[test]
fn each_field_has_its_refusal(rt: HostRuntime) {
    for (number, (fields, behind, fault)) in REFUSED.iter().enumerate() {
        assert!(rt;
            is_refused(rt.alloc(), *fields, *behind, *fault),
            "file {number}"
        );
    }
}

/// The fault of a read.
const READ: ReadFault = ReadFault { place: 9, cause: 2 };

/// Faults, their numbers and their texts.
static FAULTS: [(OpenFault, u8, &str); 8] = [
    (OpenFault::NotTiff, 1, "not a TIFF file"),
    (OpenFault::Truncated, 2, "the file is cut off"),
    (OpenFault::Missing(262), 3, "field 262 is missing"),
    (
        OpenFault::Unsupported(259),
        4,
        "field 259 has a value that is not supported",
    ),
    (OpenFault::BadField(256), 5, "field 256 is wrong"),
    (OpenFault::TooLarge, 6, "the image is too large"),
    (
        OpenFault::Source(READ),
        7,
        "a read at byte 9 failed, cause 2",
    ),
    (OpenFault::NoMemory, 8, "out of memory"),
];

#[test]
fn faults_have_numbers_and_texts(rt: HostRuntime) -> Result<(), Fail> {
    for (fault, number, text) in FAULTS.iter() {
        assert!(rt;
            is_same(&fault.number(), number) && is_written(rt.alloc(), fault, text),
            "{number}"
        );
    }
    let load = LoadFault::Source(READ);
    let told = format!(in rt.alloc(); "{load}")?;
    assert!(rt;
        is_same(&load.number(), &1) && is_same(&told.as_str(), &"a read at byte 9 failed, cause 2")
    );
    Ok(())
}
