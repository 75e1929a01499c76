//! A node of which nothing is known.

use iiif_keys::System;

/// No name has a picture, each source may have given any fault, and nothing is relied on.
pub struct Lax;

impl System for Lax {
    ghost pictures = { λ _. None };

    ghost edge = { 0 };

    ghost gave = { λ _ _. true };

    ghost stable = { λ _. ⊥ };

    ghost honest = { false };

    ghost tiles_name = { 0 };

    ghost tiles_parts = { all_parts };

    ghost sums_name = { 1 };

    ghost sums_parts = { all_parts };
}
