//! Keys with the versions of files in them, and asks for other versions.

use crate::fixtures::{is_same, is_same_text};
use iiif_peer_versions::{Compared, FileVersion, FileVersions, Notice};
use iiif_peer_wire::{Answers, Ask, Version};
use std::alloc::{AllocError, Global};
use std::sync::{Mutex, Wait};
use std::test::Fail;

/// The version of the file of the image `ab`, and the digits that Python gives it.
const VERSION: FileVersion = FileVersion {
    len: 114_688,
    changed: 1_764_567_890_123_456_789,
};
const DIGITS: &str = "000000000001c000187d0125a0de8115";

/// A key of `ab`, and the same with the version.
const KEY: &[u8] = b"\x00\x02ab\x07\x08\x09";
const WIRE: &[u8] = b"\x00\x22ab000000000001c000187d0125a0de8115\x07\x08\x09";

/// The same with the version of a file that is a byte longer.
const OTHER: &[u8] = b"\x00\x22ab000000000001c001187d0125a0de8115\x07\x08\x09";

/// With the right version of a name that isn't known, and of no name.
const UNKNOWN: &[u8] = b"\x00\x22xx000000000001c000187d0125a0de8115\x07\x08\x09";
const NAMELESS: &[u8] = b"\x00\x20000000000001c000187d0125a0de8115\x07\x08\x09";

/// The versions of `ab`, and of an image whose name is `ab` with the digits of its version.
fn versions(alloc: Global) -> Result<FileVersions, AllocError> {
    let mut versions = FileVersions::new(alloc);
    versions.add(alloc, "ab", VERSION)?;
    let long = FileVersion { len: 5, changed: 6 };
    versions.add(alloc, "ab000000000001c000187d0125a0de8115", long)?;
    Ok(versions)
}

/// Replies with the key itself.
#[derive(Drop)]
struct Echo;

impl<R> Answers<R, ()> for Echo {
    ghost answers = { λ _ version group key status value. Unit {0} };

    fn answer(&self, _rt: &R, alloc: Global, _passes: &mut (), ask: &Ask) -> (u8, Vec<u8>) {
        match Vec::from_slice(alloc, ask.key.as_slice()) {
            Ok(value) => (0, value),
            Err(_) => (2, Vec::new(alloc)),
        }
    }
}

/// How often another version was asked for.
#[derive(Drop)]
struct Count(Mutex<u32>);

impl<R: Wait> Notice<R> for Count {
    fn report_other(&self, rt: &R, name: &str) {
        let mut count = self.0.lock(rt);
        if name == "ab" {
            *count = count.saturating_add(1);
        }
    }
}

/// What is replied to a key by a node with these versions, and how often it told of another version.
fn replied<R: Wait>(
    rt: &R,
    alloc: Global,
    versions: Option<&FileVersions>,
    key: &[u8],
) -> Result<(u8, Vec<u8>, u32), AllocError> {
    let count = Count(Mutex::new(0));
    let service = Compared {
        service: &Echo,
        versions,
        notice: &count,
    };
    let ask = Ask {
        version: Version::One,
        group: 1,
        key: Vec::from_slice(alloc, key)?,
    };
    let (status, value) = service.answer(rt, alloc, &mut (), &ask);
    let told = *count.0.lock(rt);
    Ok((status, value, told))
}

#[test]
fn versions_have_their_digits(rt: HostRuntime) -> Result<(), Fail> {
    let cases = [
        (VERSION, DIGITS),
        (
            FileVersion {
                len: u64::MAX,
                changed: 0,
            },
            "ffffffffffffffff0000000000000000",
        ),
        (
            FileVersion {
                len: 1,
                changed: u64::MAX,
            },
            "0000000000000001ffffffffffffffff",
        ),
    ];
    for (version, digits) in cases {
        assert!(rt; is_same_text(version.digits().as_slice(), digits.as_bytes()));
    }
    Ok(())
}

#[test]
fn version_stands_behind_the_name_of_a_key(rt: HostRuntime) -> Result<(), Fail> {
    let alloc = rt.alloc();
    let versions = versions(alloc)?;
    let wire = versions.put_on(alloc, KEY)?.ok_or("no spelling")?;
    assert!(rt; is_same_text(wire.as_slice(), WIRE));
    let key = versions.take_off(alloc, WIRE)?.ok_or("no key")?;
    assert!(rt; is_same_text(key.as_slice(), KEY));
    for key in [OTHER, UNKNOWN, NAMELESS, KEY, b"", b"\x00"] {
        assert!(rt; versions.take_off(alloc, key)?.is_none());
    }
    for key in [&UNKNOWN[..], &b"\x00\x01a"[..], &b"\x00\x09ab"[..]] {
        assert!(rt; versions.put_on(alloc, key)?.is_none());
    }
    Ok(())
}

#[test]
fn name_that_ends_in_digits_has_its_own_behind_them(rt: HostRuntime) -> Result<(), Fail> {
    let alloc = rt.alloc();
    let versions = versions(alloc)?;
    let wire = versions.put_on(alloc, WIRE)?.ok_or("no spelling")?;
    let whole = b"\x00\x42ab000000000001c000187d0125a0de811500000000000000050000000000000006\x07\x08\x09";
    assert!(rt; is_same_text(wire.as_slice(), whole));
    let key = versions.take_off(alloc, whole)?.ok_or("no key")?;
    assert!(rt; is_same_text(key.as_slice(), WIRE));
    Ok(())
}

#[test]
fn other_version_is_an_unknown_name_and_told(rt: HostRuntime) -> Result<(), Fail> {
    let alloc = rt.alloc();
    let versions = versions(alloc)?;
    let cases = [
        (WIRE, 0, KEY, 0),
        (OTHER, 3, b"".as_slice(), 1),
        (UNKNOWN, 3, b"".as_slice(), 0),
        (NAMELESS, 3, b"".as_slice(), 0),
        (KEY, 3, b"".as_slice(), 0),
    ];
    for (key, status, value, told) in cases {
        let came = replied(&rt, alloc, Some(&versions), key)?;
        assert!(rt; is_same(&came.0, &status));
        assert!(rt; is_same_text(came.1.as_slice(), value));
        assert!(rt; is_same(&came.2, &told));
    }
    Ok(())
}

#[test]
fn keys_are_as_they_are_where_no_versions_are_known(rt: HostRuntime) -> Result<(), Fail> {
    for key in [KEY, WIRE, OTHER] {
        let came = replied(&rt, rt.alloc(), None, key)?;
        assert!(rt; is_same(&came.0, &0));
        assert!(rt; is_same_text(came.1.as_slice(), key));
        assert!(rt; is_same(&came.2, &0));
    }
    Ok(())
}
