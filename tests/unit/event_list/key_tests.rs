//! Keys of `iiif_machine`, and their laws.

use crate::fixtures::is_same;
use crate::fixtures::names::name;
use iiif_keys::{Name, SumKey, TileKey, is_name};
use iiif_machine::{Key, laws};
use iiif_pixel::{Dim, Rect};
use std::alloc::Global;

/// A copy of a name.
fn copied_name(alloc: Global) -> Option<Name> {
    name(alloc, "a")?.copy().ok()
}

/// A copy of a sum's key.
fn sum(alloc: Global) -> Option<Key> {
    let sum = SumKey {
        name: copied_name(alloc)?,
        edge: 2,
        rect: Rect {
            x: 0,
            y: 0,
            w: 4,
            h: 4,
        },
        size: Dim { w: 2, h: 2 },
        level: 1,
        bx: 0,
        by: 0,
    };
    Key::Sum(sum).copy().ok()
}

/// A copy of a tile's key.
fn tile(alloc: Global) -> Option<Key> {
    let tile = TileKey {
        name: copied_name(alloc)?,
        edge: 2,
        tx: 1,
        ty: 0,
    };
    Key::Tile(tile).copy().ok()
}

/// Whether a copy of a sum's key is equal.
fn sum_is_copied(alloc: Global) -> bool {
    match sum(alloc) {
        Some(Key::Sum(key)) => is_same(&key.level, &1)
            && is_same(&key.size.w, &2)
            && is_same(&key.rect.h, &4),
        _ => false,
    }
}

/// Whether a copy of a tile's key is equal.
fn tile_is_copied(alloc: Global) -> bool {
    match tile(alloc) {
        Some(Key::Tile(key)) => is_same(&key.edge, &2)
            && is_same(&key.tx, &1)
            && is_same(&key.ty, &0),
        _ => false,
    }
}

#[test]
fn a_copy_of_a_key_is_equal(rt: HostRuntime) {
    assert!(rt; sum_is_copied(rt.alloc()));
    assert!(rt; tile_is_copied(rt.alloc()));
    laws::keys_are_told_apart();
    laws::parts_make_the_meaning();
    laws::items_make_the_image();
}
