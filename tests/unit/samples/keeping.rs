//! Entries kept for samples.

use crate::samples::lax::Lax;
use crate::samples::sample::Sample;
use iiif_outcome::{Entry, Lead};
use iiif_pixel::NoMemory;
use iiif_tables::Class;
use std::alloc::{AllocError, Global};
use std::marker::Brand;
use std::sync::Arc;
use std::sync::ledger::Blank;

/// An entry of a flight of this ticket that landed with this value.
pub fn kept(
    alloc: Global,
    key: &Sample,
    value: u16,
    ticket: u64,
) -> Result<Entry<Sample, Lax, Brand>, NoMemory> {
    let value = Arc::new(alloc, value)?;
    let landed = Arc::try_clone(&value)?;
    let (tally, _share) = Blank::new(0).open::<Brand>();
    let (lead, joined) = Lead::open(alloc, key, Class::Wide, ticket, &tally)?;
    drop(joined);
    let ended = lead.set(Ok(landed));
    if !ended.taken {
        return Err(AllocError);
    }
    Ok(Entry::new(value, ended.receipt))
}
