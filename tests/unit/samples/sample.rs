//! Keys whose values are numbers.

use iiif_keys::{CacheKey, KeyFault, Name, Shape, TileKey};
use iiif_pixel::NoMemory;
use std::alloc::{AllocError, Global};

/// A key of 15 bytes where its name has one, which fits every image. Its bytes, and its values', are written and never read: reading
/// wants memory.
#[derive(PartialEq, Eq, Hash, Drop)]
pub struct Sample {
    tile: TileKey,
}

impl Sample {
    /// The rank of every key.
    pub const RANK: u32 = 3;

    /// The number of keys that can't be copied, as where memory ran out.
    pub const UNCOPIED: u32 = 255;

    /// Keys of one name are equal where these numbers are.
    pub fn new(name: Name, number: u32) -> Sample {
        Sample {
            tile: TileKey {
                name,
                edge: 1,
                tx: number,
                ty: 0,
            },
        }
    }

    /// The number that tells the keys of a name apart.
    pub fn number(&self) -> u32 {
        self.tile.tx
    }
}

impl CacheKey for Sample {
    /// How many bytes the value takes.
    type Value = u16;

    ghost name_of = { λ k. k.tile.name };

    ghost edge_of = { λ _. 0 };

    ghost rank_of = { λ _. 3 };

    ghost fits_in = { λ _ _. ⊤ };

    ghost meaning = { λ _ _. 0 };

    ghost derived = { λ _ _. 0 };

    ghost has_shape = { λ _ _ _. ⊤ };

    ghost is_shaped = { λ _ _ _. true };

    ghost is_key = { λ _. ⊤ };

    ghost key_bytes = { λ k. tile_key_bytes k.tile };

    ghost key_refusal = { λ _. None };

    ghost is_value = { λ v. v < 2 ^ 16 };

    ghost val_bytes = { λ v. replicate v 0 };

    ghost val_refusal = { λ _. None };

    fn name(&self) -> &Name {
        // Read, so that it is known to be a name.
        self.tile.name.as_str();
        &self.tile.name
    }

    fn rank(&self) -> u32 {
        Sample::RANK
    }

    fn fits(&self, edge: u32, _shape: &Shape) -> bool {
        edge == 0
    }

    fn shaped(&self, _shape: &Shape, value: &u16) -> bool {
        // Read, so that it is known to be in its range.
        let _value = *value;
        true
    }

    fn size(&self, value: &u16) -> u64 {
        15 + u64::from(*value)
    }

    fn copy(&self) -> Result<Sample, NoMemory> {
        if self.number() == Sample::UNCOPIED {
            return Err(AllocError);
        }
        Ok(Sample {
            tile: self.tile.copy()?,
        })
    }

    fn bytes(&self, alloc: Global) -> Result<Vec<u8>, NoMemory> {
        self.tile.bytes(alloc)
    }

    fn from_bytes(_alloc: Global, _bytes: &[u8]) -> Result<Sample, KeyFault> {
        Err(KeyFault::NoMemory)
    }

    fn value_bytes(alloc: Global, value: &u16) -> Result<Vec<u8>, NoMemory> {
        Ok(vec![in alloc; 0u8; usize::from(*value)]?)
    }

    fn value_from(_alloc: Global, _bytes: &[u8]) -> Result<u16, KeyFault> {
        Err(KeyFault::NoMemory)
    }

    fn laws() {}

    ghost identical = { sample_identical };

    ghost spelled = { sample_spelled };
}
