//! The images of a picture as the plain evaluation gives them: every region, size, turn and quality.

use crate::server::cases::{Ask, Case, Text, Want};
use crate::server::plain::{Image, Plain};
use std::alloc::Global;

/// An image: the target that asks for it, the sides of its file, and the file's strip.
#[derive(Drop)]
pub(crate) struct Pictured {
    pub target: String,
    pub sides: (u64, u64),
    pub strip: Vec<u8>,
}

/// The nine turns: as they stand in a request, whether they mirror, and how many quarters they turn.
static TURNS: [(&str, bool, u32); 9] = [
    ("0", false, 0),
    ("90", false, 1),
    ("180", false, 2),
    ("270", false, 3),
    ("!0", true, 0),
    ("!90", true, 1),
    ("!180", true, 2),
    ("!360", true, 0),
    ("!270", true, 3),
];

static QUALITIES: [&str; 4] = ["default", "color", "gray", "bitonal"];

/// Each size of a region up to so many times its own.
fn add_sizes(parts: &mut Vec<([u64; 4], [u64; 2])>, region: [u64; 4], times: u64) -> Option<()> {
    let [_, _, w, h] = region;
    for d in 1..=h.wrapping_mul(times).min(18) {
        for c in 1..=w.wrapping_mul(times).min(18) {
            parts.push((region, [c, d])).ok()?;
        }
    }
    Some(())
}

/// Each region with this left upper place, in each size up to so many times its own.
fn add_regions(
    parts: &mut Vec<([u64; 4], [u64; 2])>,
    picture: Plain<'_>,
    [x, y]: [u64; 2],
    times: u64,
) -> Option<()> {
    for h in 1..=picture.h.saturating_sub(y).min(9) {
        for w in 1..=picture.w.saturating_sub(x).min(9) {
            add_sizes(parts, [x, y, w, h], times)?;
        }
    }
    Some(())
}

/// Each region of a picture, in each size up to so many times its own.
fn parts_of(alloc: Global, picture: Plain<'_>, times: u64) -> Option<Vec<([u64; 4], [u64; 2])>> {
    let mut parts = Vec::new(alloc);
    for y in 0..picture.h {
        for x in 0..picture.w {
            add_regions(&mut parts, picture, [x, y], times)?;
        }
    }
    Some(parts)
}

/// The target of an image with this turn and quality.
fn target_of(alloc: Global, image: Image<'_>, rotation: &str, quality: &str) -> Option<String> {
    let ([x, y, w, h], [c, d]) = (image.region, image.size);
    let caret = if c > w || d > h { "^" } else { "" };
    format!(in alloc; "/iiif/a/{x},{y},{w},{h}/{caret}{c},{d}/{rotation}/{quality}.tif").ok()
}

/// An image with this turn and quality.
fn image_with(alloc: Global, image: Image<'_>, rotation: &str, quality: &str) -> Option<Pictured> {
    let target = target_of(alloc, image, rotation, quality)?;
    let strip = image.strip(alloc, quality)?;
    Some(Pictured {
        target,
        sides: image.sides(),
        strip,
    })
}

/// The turns and qualities of the images of one region and size.
#[derive(Clone, Copy)]
pub(crate) enum Looks {
    /// Each of the nine turns in each of the four qualities.
    All,
    /// One of these 36: the next one for each region and size, from this one on.
    InTurn(usize),
}

/// Adds a region in a size, in the turn and the quality of a number below 36.
fn add_image(
    images: &mut Vec<Pictured>,
    alloc: Global,
    picture: Plain<'_>,
    part: ([u64; 4], [u64; 2]),
    look: usize,
) -> Option<()> {
    let ((rotation, mirror, quarters), quality) = (
        TURNS.get(look / 4 % 9)?,
        QUALITIES.get(look % 4)?,
    );
    let image = Image {
        picture,
        region: part.0,
        size: part.1,
        mirror: *mirror,
        quarters: *quarters,
    };
    images
        .push(image_with(alloc, image, rotation, quality)?)
        .ok()
}

/// Images of a picture: each region in each size up to so many times its own, in these turns and qualities.
pub(crate) fn images_of(
    alloc: Global,
    picture: Plain<'_>,
    times: u64,
    looks: Looks,
) -> Option<Vec<Pictured>> {
    let parts = parts_of(alloc, picture, times)?;
    let mut images = Vec::new(alloc);
    for (number, part) in parts.iter().enumerate() {
        match looks {
            Looks::All => {
                for look in 0..36 {
                    add_image(&mut images, alloc, picture, *part, look)?;
                }
            }
            Looks::InTurn(first) => {
                add_image(&mut images, alloc, picture, *part, (first + number) % 36)?;
            }
        }
    }
    Some(images)
}

/// The bodies of the targets of images, which are whole answers with these.
pub(crate) fn asks<'a>(alloc: Global, images: &'a [Pictured]) -> Option<Vec<Case<'a>>> {
    let mut cases = Vec::new(alloc);
    for image in images {
        let want = Want::Whole(200, Text::File(image.sides, &image.strip));
        cases.push((Ask::Body(image.target.as_bytes()), want)).ok()?;
    }
    Some(cases)
}
