//! A device that turns bits, read through a source that checks: each read in which a bit was turned is a fault, and the next is right.

use crate::fixtures::is_same;
use iiif_source::{ReadFault, Source};
use iiif_witnesses::{check_flipping, read_four};
use std::test::Fail;

#[test]
fn reads_with_turned_bits_are_faults(rt: HostRuntime) -> Result<(), Fail> {
    let source = check_flipping(rt.alloc())?;
    let differs = |place| {
        Err(ReadFault {
            place,
            cause: ReadFault::DIFFERS,
        })
    };
    let mut four = [0u8; 4];
    assert!(rt; is_same(&source.read_at(&rt, 0, &mut four), &differs(0)));
    assert!(rt; is_same(&source.read_at(&rt, 0, &mut four), &Ok(())));
    assert!(rt; is_same(&four, &[1, 2, 3, 4]));
    let mut two = [0u8; 2];
    assert!(rt; is_same(&source.read_at(&rt, 4, &mut two), &differs(4)));
    assert!(rt; is_same(&source.read_at(&rt, 4, &mut two), &Ok(())));
    assert!(rt; is_same(&two, &[5, 6]));
    Ok(())
}

#[test]
fn four_bytes_come_through_a_device_that_turns_bits(rt: HostRuntime) {
    assert!(rt; is_same(&read_four(rt.alloc()), &Some([1, 2, 3, 4])));
}
