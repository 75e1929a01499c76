//! Files against digests that others computed: the examples of FIPS 180-4, Python's `hashlib`, and lines that `sha256sum` wrote. Bits are
//! turned one by one: a file with a turned bit isn't held, and a read gives none of a piece with one.

use crate::fixtures::{is_missing, is_same, is_unwanted, note};
use hex::FromHex;
use iiif_fixity::{
    Bag, CheckedSource, EntryFault, HoldFault, Manifest, ManifestFault, PieceDigests, compare,
    digest_whole, folder_of, hold,
};
use iiif_source::{FuseSource, MemSource, ReadFault, Runs, Source};
use sha2::{Digest, Sha256};
use std::alloc::{AllocError, Global};
use std::marker::Model;
use std::sync::atomic::{AtomicU64, Ordering};
use std::test::Fail;

/// Bytes: these, or so many of one.
#[derive(Clone, Copy)]
enum Bytes {
    These(&'static [u8]),
    Many(u8, usize),
}

const ABC: &str = "ba7816bf8f01cfea414140de5dae2223b00361a396177a9cb410ff61f20015ad";

const EMPTY: &str = "e3b0c44298fc1c149afbf4c8996fb92427ae41e4649b934ca495991b7852b855";

/// Bytes and their digests: the first two and the fourth are examples of FIPS 180-4, the others are by Python's `hashlib`.
static DIGESTS: [(Bytes, &str); 6] = [
    (Bytes::These(b"abc"), ABC),
    (
        Bytes::These(b"abcdbcdecdefdefgefghfghighijhijkijkljklmklmnlmnomnopnopq"),
        "248d6a61d20638b8e5c026930c3e6039a33ce45964ff2167f6ecedd419db06c1",
    ),
    (Bytes::These(b""), EMPTY),
    (
        Bytes::Many(b'a', 1_000_000),
        "cdc76e5c9914fb9281a1c7e284d73e67f1809a48a497200e046d39ccc7112cd0",
    ),
    (
        Bytes::Many(0, 65_536),
        "de2f256064a0af797747c2b97505dc0b9f3df0de4f489eac731c23ae9ca9cc31",
    ),
    (
        Bytes::Many(0, 65_537),
        "3266304f31be278d06c3bd3eb9aa3e00c59bedec0a890de466568b0b90b0e01f",
    ),
];

fn source_of(alloc: Global, bytes: Bytes) -> Result<MemSource, AllocError> {
    Ok(MemSource::new(match bytes {
        Bytes::These(bytes) => Vec::from_slice(alloc, bytes)?,
        Bytes::Many(byte, len) => vec![in alloc; byte; len]?,
    }))
}

/// Holds a source against a digest, and compares how many bytes are held, or why none are.
fn holds(alloc: Global, source: &MemSource, digest: &str, want: Result<u64, HoldFault>) -> bool {
    let Ok(digest) = <[u8; 32] as FromHex>::from_hex(digest) else {
        return is_missing();
    };
    let got = match hold(&(), alloc, source, &digest) {
        Ok(held) => Ok(Source::<()>::len(&held)),
        Err(fault) => Err(fault),
    };
    is_same(&got, &want)
}

#[test]
fn files_with_their_digests_are_held(rt: HostRuntime) -> Result<(), Fail> {
    for (row, (bytes, digest)) in DIGESTS.iter().enumerate() {
        let source = source_of(rt.alloc(), *bytes)?;
        let len = Source::<()>::len(&source);
        assert!(rt; holds(rt.alloc(), &source, digest, Ok(len)), "{row}");
        let (_, other) = &DIGESTS[(row + 1) % DIGESTS.len()];
        assert!(rt; holds(rt.alloc(), &source, other, Err(HoldFault::Differs)), "{row}");
    }
    Ok(())
}

/// Compares a source with a digest, and compares what came of it.
fn compares(alloc: Global, source: &MemSource, digest: &str, want: Result<(), HoldFault>) -> bool {
    let Ok(digest) = <[u8; 32] as FromHex>::from_hex(digest) else {
        return is_missing();
    };
    is_same(&compare(&(), alloc, source, &digest), &want)
}

#[test]
fn files_that_arent_held_have_their_digests(rt: HostRuntime) -> Result<(), Fail> {
    for (row, (bytes, digest)) in DIGESTS.iter().enumerate() {
        let source = source_of(rt.alloc(), *bytes)?;
        assert!(rt; compares(rt.alloc(), &source, digest, Ok(())), "{row}");
        let (_, other) = &DIGESTS[(row + 1) % DIGESTS.len()];
        assert!(rt; compares(rt.alloc(), &source, other, Err(HoldFault::Differs)), "{row}");
    }
    Ok(())
}

/// A file of 1,000,000 bytes is read in 16 steps: the last read that fails is the sixteenth.
#[test]
fn a_read_that_fails_is_the_fault_of_a_digest(rt: HostRuntime) -> Result<(), Fail> {
    for first_failing in 1..18 {
        let source = source_of(rt.alloc(), Bytes::Many(b'a', 1_000_000))?;
        let source = FuseSource::new(source, first_failing);
        let got = match digest_whole(&(), rt.alloc(), &source) {
            Ok(_) => Ok(()),
            Err(fault) => Err(fault),
        };
        let want = if first_failing > 16 {
            Ok(())
        } else {
            Err(HoldFault::Read(ReadFault {
                place: (first_failing - 1) * 65_536,
                cause: ReadFault::FUSE,
            }))
        };
        assert!(rt; is_same(&got, &want), "{first_failing}");
    }
    Ok(())
}

/// So many bytes, no two neighbours of which are the same.
fn numbered(alloc: Global, len: usize) -> Result<Vec<u8>, AllocError> {
    let mut bytes = vec![in alloc; 0u8; len]?;
    for (place, byte) in bytes.iter_mut().enumerate() {
        *byte = (place % 251) as u8 ^ (place / 251 % 251) as u8;
    }
    Ok(bytes)
}

/// The digests of bytes that are cut into pieces of so many. They are taken by the kit's SHA-256, which the examples above try.
fn digests_of(alloc: Global, bytes: &[u8], size: u32) -> Result<PieceDigests, AllocError> {
    let mut digests = Vec::new(alloc);
    for piece in bytes.chunks(size as usize) {
        digests.push(Sha256::digest(piece))?;
    }
    Ok(PieceDigests { size, digests })
}

/// The same bytes, with one bit turned.
fn turned(alloc: Global, bytes: &[u8], place: usize, bit: u32) -> Result<MemSource, AllocError> {
    let mut bytes = Vec::from_slice(alloc, bytes)?;
    bytes[place] ^= 1 << bit;
    Ok(MemSource::new(bytes))
}

/// Whether a read of two bytes gives those that stand there, or the fault of a piece that differs.
fn gives<S: Source<()>>(
    source: &CheckedSource<S>,
    bytes: &[u8],
    at: usize,
    differs: bool,
) -> bool {
    let mut pair = [0; 2];
    let got = match source.read_at(&(), at as u64, &mut pair) {
        Ok(()) => Ok(pair),
        Err(fault) => Err(fault),
    };
    let want = if differs {
        Err(ReadFault {
            place: at as u64,
            cause: ReadFault::DIFFERS,
        })
    } else {
        Ok([bytes[at], bytes[at + 1]])
    };
    is_same(&got, &want)
}

/// Whether of a file with a turned bit each read of two bytes gives them as they are by right, but for those that touch the piece of
/// that bit.
fn turned_bit_is_found(
    alloc: Global,
    bytes: &[u8],
    size: u32,
    place: usize,
    bit: u32,
) -> Result<bool, Fail> {
    let source = CheckedSource {
        inner: turned(alloc, bytes, place, bit)?,
        pieces: digests_of(alloc, bytes, size)?,
    };
    let size = size as usize;
    for at in 0..bytes.len() - 1 {
        let differs = at / size == place / size || (at + 1) / size == place / size;
        if !gives(&source, bytes, at, differs) {
            note("bit", &(place, bit, at));
            return Ok(false);
        }
    }
    Ok(true)
}

#[test]
fn each_turned_bit_of_a_small_file_is_found(rt: HostRuntime) -> Result<(), Fail> {
    let bytes = numbered(rt.alloc(), 42)?;
    let digest = Sha256::digest(&bytes);
    for place in 0..bytes.len() {
        for bit in 0..8 {
            let source = turned(rt.alloc(), &bytes, place, bit)?;
            let held = hold(&(), rt.alloc(), &source, &digest).err();
            assert!(rt; is_same(&held, &Some(HoldFault::Differs)), "{place} {bit}");
            // Pieces of 8, the last of which has two bytes; and one piece, longer than the file.
            assert!(rt; turned_bit_is_found(rt.alloc(), &bytes, 8, place, bit)?);
        }
        assert!(rt; turned_bit_is_found(rt.alloc(), &bytes, 64, place, 0)?);
    }
    Ok(())
}

/// Bytes of which one bit is turned whenever they are read: another one once it is told so.
#[derive(Drop)]
struct Turning {
    bytes: Vec<u8>,
    bit: AtomicU64,
}

impl Model for Turning {
    ghost use Rattle.std.specs.Prelude.{ℕ, List};

    ghost Value = { List ℕ };

    ghost view = { λ s. s.bytes.items };
}

impl<R> Source<R> for Turning {
    ghost bytes = { λ s. s };

    ghost keeps = { λ _. ⊥ };

    ghost gave = { λ _ _. false };

    fn len(&self) -> u64 {
        self.bytes.len() as u64
    }

    fn read_at(&self, _rt: &R, at: u64, buffer: &mut [u8]) -> Result<(), ReadFault> {
        let start = at as usize;
        buffer.copy_from_slice(&self.bytes[start..start + buffer.len()]);
        let bit = self.bit.load(Ordering::SeqCst);
        let place = (bit / 8) as usize;
        if place >= start && place < start + buffer.len() {
            buffer[place - start] ^= 1 << (bit % 8);
        }
        Ok(())
    }
}

#[test]
fn turned_bits_of_a_larger_file_are_found_while_it_is_read(rt: HostRuntime) -> Result<(), Fail> {
    let bytes = numbered(rt.alloc(), 100_000)?;
    let source = CheckedSource {
        inner: Turning {
            bytes: numbered(rt.alloc(), 100_000)?,
            bit: AtomicU64::new(0),
        },
        pieces: digests_of(rt.alloc(), &bytes, 1_024)?,
    };
    let mut place = 0;
    for turn in 0..3_000u64 {
        // A step that is prime to the length, so that no place comes twice.
        place = (place + 7_919) % bytes.len();
        source.inner.bit.store(place as u64 * 8 + turn % 8, Ordering::SeqCst);
        let at = place.min(bytes.len() - 2);
        assert!(rt; gives(&source, &bytes, at, true), "{place}");
        let other = (place + 2_048) % (bytes.len() - 1);
        let touches = other / 1_024 == place / 1_024 || (other + 1) / 1_024 == place / 1_024;
        assert!(rt; gives(&source, &bytes, other, touches), "{other}");
    }
    Ok(())
}

/// Runs: where the first begins, how far apart they begin, how long each is, and how many they are.
static RUNS: [(u64, u64, usize, u32); 6] = [
    (0, 100_000, 100_000, 1),
    (0, 10, 10, 10_000),
    (65_530, 13, 11, 20),
    (3, 1_000, 1, 99),
    (65_535, 65_536, 1, 1),
    (99_999, 1, 1, 1),
];

#[test]
fn runs_over_pieces_are_the_files(rt: HostRuntime) -> Result<(), Fail> {
    let bytes = numbered(rt.alloc(), 100_000)?;
    let plain = MemSource::new(numbered(rt.alloc(), 100_000)?);
    let source = CheckedSource {
        inner: MemSource::new(numbered(rt.alloc(), 100_000)?),
        pieces: digests_of(rt.alloc(), &bytes, 65_536)?,
    };
    for (row, (at, stride, len, count)) in RUNS.iter().enumerate() {
        let runs = Runs {
            at: *at,
            stride: *stride,
            len: *len,
            count: *count,
        };
        let mut got = vec![in rt.alloc(); 0u8; *len * *count as usize]?;
        let mut want = vec![in rt.alloc(); 0u8; *len * *count as usize]?;
        assert!(rt; is_same(&source.read_runs(&(), runs, &mut got), &Ok(())), "{row}");
        assert!(rt; is_same(&plain.read_runs(&(), runs, &mut want), &Ok(())), "{row}");
        assert!(rt; got.as_slice() == want.as_slice(), "{row}");
    }
    Ok(())
}

#[test]
fn a_piece_that_isnt_listed_differs(rt: HostRuntime) -> Result<(), Fail> {
    let bytes = numbered(rt.alloc(), 20)?;
    let source = CheckedSource {
        inner: MemSource::new(numbered(rt.alloc(), 20)?),
        pieces: digests_of(rt.alloc(), &bytes[..16], 8)?,
    };
    assert!(rt; gives(&source, &bytes, 14, false));
    assert!(rt; gives(&source, &bytes, 15, true));
    assert!(rt; gives(&source, &bytes, 16, true));
    Ok(())
}

/// Lines as `sha256sum` writes them, of text and of binary files, and with the `./` of `find`; and as a bag has them, by one space and by
/// a tab, with digits of either case.
const LISTED: &str = "\
ba7816bf8f01cfea414140de5dae2223b00361a396177a9cb410ff61f20015ad  data/abc.tif
40aff2e9d2d8922e47afd4648e6967497158785fbd1da870e7110266bf944880  data/all bytes.tif
e3b0c44298fc1c149afbf4c8996fb92427ae41e4649b934ca495991b7852b855 *data/empty.tif
ba7816bf8f01cfea414140de5dae2223b00361a396177a9cb410ff61f20015ad  ./data/again.tif
BA7816BF8F01CFEA414140DE5DAE2223B00361A396177A9CB410FF61F20015AD data/capital.tif
e3b0c44298fc1c149afbf4c8996fb92427ae41e4649b934ca495991b7852b855\tdata/tab.tif\r
ba7816bf8f01cfea414140de5dae2223b00361a396177a9cb410ff61f20015ad  *star.tif
ba7816bf8f01cfea414140de5dae2223b00361a396177a9cb410ff61f20015ad  /srv/absolute.tif";

const ALL: &str = "40aff2e9d2d8922e47afd4648e6967497158785fbd1da870e7110266bf944880";

/// A folder, a path, and the digest that is listed of it.
static PATHS: [(&str, &str, Option<&str>); 17] = [
    ("", "data/abc.tif", Some(ABC)),
    ("", "data/all bytes.tif", Some(ALL)),
    ("", "data/empty.tif", Some(EMPTY)),
    ("", "data/again.tif", Some(ABC)),
    ("", "data/capital.tif", Some(ABC)),
    ("", "data/tab.tif", Some(EMPTY)),
    ("", "*star.tif", Some(ABC)),
    ("", "data/ab.tif", None),
    ("", "abc.tif", None),
    ("", "", None),
    ("bag/", "bag/data/abc.tif", Some(ABC)),
    ("bag/", "bag/data/abc.tiff", None),
    ("bag/", "bag/bag/data/abc.tif", None),
    ("bag/", "gab/data/abc.tif", None),
    ("/srv/bag/", "/srv/bag/data/empty.tif", Some(EMPTY)),
    ("bag/", "/srv/absolute.tif", Some(ABC)),
    ("data/", "data/data/abc.tif", Some(ABC)),
];

/// Whether a manifest lists this digest of a path.
fn lists<'m>(manifest: &'m Manifest<'m>, folder: &'m str, path: &str, digest: Option<&str>) -> bool {
    let want = match digest {
        Some(digest) => match <[u8; 32] as FromHex>::from_hex(digest) {
            Ok(digest) => Some(digest),
            Err(fault) => return is_unwanted(&fault),
        },
        None => None,
    };
    let bag = Bag {
        folder: folder.as_bytes(),
        manifest,
    };
    is_same(&bag.digest_of(path), &want.as_ref())
}

#[test]
fn manifests_list_digests_by_path(rt: HostRuntime) {
    match Manifest::parse(rt.alloc(), LISTED.as_bytes()) {
        Ok(manifest) => {
            for (folder, path, digest) in PATHS.iter() {
                assert!(rt; lists(&manifest, folder, path, *digest), "{folder} {path}");
            }
        }
        Err(fault) => assert!(rt; is_unwanted(&fault)),
    }
}

/// Texts that are no manifests, the line at fault, and why.
static FAULTY: [(&[u8], u64, EntryFault); 11] = [
    (b"\n", 1, EntryFault::Digest),
    (b"# a comment\n", 1, EntryFault::Digest),
    (
        b"ba7816bf8f01cfea414140de5dae2223b00361a396177a9cb410ff61f20015a  a.tif\n",
        1,
        EntryFault::Digest,
    ),
    (
        b"ba7816bf8f01cfea414140de5dae2223b00361a396177a9cb410ff61f20015adc  a.tif\n",
        1,
        EntryFault::Digest,
    ),
    (
        b"ga7816bf8f01cfea414140de5dae2223b00361a396177a9cb410ff61f20015ad  a.tif\n",
        1,
        EntryFault::Digest,
    ),
    (
        b"\\ba7816bf8f01cfea414140de5dae2223b00361a396177a9cb410ff61f20015ad  a\\nb.tif\n",
        1,
        EntryFault::Digest,
    ),
    (
        b"ba7816bf8f01cfea414140de5dae2223b00361a396177a9cb410ff61f20015ad\n",
        1,
        EntryFault::Digest,
    ),
    (
        b"ba7816bf8f01cfea414140de5dae2223b00361a396177a9cb410ff61f20015ad  a.tif\n\
          ba7816bf8f01cfea414140de5dae2223b00361a396177a9cb410ff61f20015ad  \n",
        2,
        EntryFault::Name,
    ),
    (
        b"ba7816bf8f01cfea414140de5dae2223b00361a396177a9cb410ff61f20015ad  a.tif\n\
          e3b0c44298fc1c149afbf4c8996fb92427ae41e4649b934ca495991b7852b855  b.tif\n\
          e3b0c44298fc1c149afbf4c8996fb92427ae41e4649b934ca495991b7852b855  ./a.tif\n",
        3,
        EntryFault::Twice,
    ),
    (
        b"ba7816bf8f01cfea414140de5dae2223b00361a396177a9cb410ff61f20015ad  \xff.tif\n",
        0,
        EntryFault::Encoding,
    ),
    (b"SHA256 (a.tif) = ba7816bf8f01cfea414140de5dae2223b00361a396177a9cb410ff61f20015ad", 1, EntryFault::Digest),
];

#[test]
fn texts_that_are_no_manifests_are_refused_by_their_line(rt: HostRuntime) {
    for (row, (text, line, fault)) in FAULTY.iter().enumerate() {
        let want = ManifestFault {
            line: *line,
            fault: *fault,
        };
        let got = Manifest::parse(rt.alloc(), text).err();
        assert!(rt; is_same(&got, &Some(want)), "{row}");
    }
}

#[test]
fn an_empty_manifest_lists_nothing(rt: HostRuntime) {
    match Manifest::parse(rt.alloc(), b"") {
        Ok(manifest) => assert!(rt; lists(&manifest, "", "a.tif", None)),
        Err(fault) => assert!(rt; is_unwanted(&fault)),
    }
}

/// Paths, and the folders that they lead to.
static FOLDERS: [(&str, &str); 6] = [
    ("manifest-sha256.txt", ""),
    ("bag/manifest-sha256.txt", "bag/"),
    ("/srv/a/b/list", "/srv/a/b/"),
    ("/list", "/"),
    ("", ""),
    ("é/", "é/"),
];

#[test]
fn paths_lead_to_their_folders(rt: HostRuntime) {
    for (path, folder) in FOLDERS.iter() {
        assert!(rt; is_same(&folder_of(path.as_bytes()), &folder.as_bytes()), "{path}");
    }
}
