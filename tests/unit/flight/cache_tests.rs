//! Caches of samples: a key takes 15 bytes, and a value as many as it says.

use crate::fixtures::is_same;
use crate::fixtures::names::name;
use crate::samples::{Lax, Sample, kept};
use iiif_byte_cache::{ByteCache, PutFault};
use iiif_outcome::Entry;
use std::alloc::Global;
use std::marker::Brand;
use std::num::NonZeroUsize;

type Cache = ByteCache<Sample, Lax, Brand>;

type Kept = Entry<Sample, Lax, Brand>;

/// The outcome of a put: it is kept; or it is above the limit, and this number and this value came back; or else, where memory ran
/// out, the same pair didn't come back, the cache wasn't as before, or it wasn't put then either.
type Came = Result<(), Option<(u32, u16)>>;

/// A call of a cache, and what is to come of it.
enum Step {
    /// A value is put into the main list under a number, with a ticket.
    Main(u32, u16, u64, Came),
    /// A put into the hot list.
    Hot(u32, u16, u64, Came),
    /// The value that is got under a number, which comes to the front.
    Get(u32, Option<u16>),
    /// The ticket of what is hit under a number, which stays where it is.
    Hit(u32, Option<u64>),
    /// A number comes to the front.
    Touch(u32),
    /// The number and the ticket of what goes next.
    Evict(Option<(u32, u64)>),
    /// The numbers of the main list and of the hot one, from the front on, and how many bytes are kept.
    Keeps(&'static [u32], &'static [u32], u64),
}

/// How many bytes a cache has in all, how many entries a list, and the steps that it goes through, empty at first.
type Scene = (u32, usize, &'static [Step]);

/// A key of the name `a`.
pub(crate) fn sample(alloc: Global, number: u32) -> Option<Sample> {
    Some(Sample::new(name(alloc, "a")?, number))
}

/// A number's key, and the entry of a value with a ticket.
fn pair(alloc: Global, number: u32, value: u16, ticket: u64) -> Option<(Sample, Kept)> {
    let key = sample(alloc, number)?;
    let entry = kept(alloc, &key, value, ticket).ok()?;
    Some((key, entry))
}

/// An empty cache, asked for once more where memory ran out.
fn cache(alloc: Global, bytes: u32, entries: usize) -> Option<Cache> {
    let entries = NonZeroUsize::new(entries)?;
    match ByteCache::new(alloc, u64::from(bytes), entries) {
        Ok(cache) => Some(cache),
        Err(_) => ByteCache::new(alloc, u64::from(bytes), entries).ok(),
    }
}

/// Whether a pair is put into a list.
fn is_put(cache: &mut Cache, is_hot: bool, key: Sample, entry: Kept) -> bool {
    let answer = if is_hot {
        cache.put_hot(key, entry)
    } else {
        cache.put_main(key, entry)
    };
    answer.is_ok()
}

/// Puts a pair into a list, and once more the pair that came back where memory ran out.
fn put_pair(cache: &mut Cache, is_hot: bool, key: Sample, entry: Kept) -> Came {
    let before = (cache.bytes(), cache.len(), key.number(), **entry.value());
    let answer = if is_hot {
        cache.put_hot(key, entry)
    } else {
        cache.put_main(key, entry)
    };
    match answer {
        Ok(_evicted) => Ok(()),
        Err(PutFault::TooBig(key, entry)) => Err(Some((key.number(), **entry.value()))),
        Err(PutFault::NoMemory(key, entry)) => {
            let then = (cache.bytes(), cache.len(), key.number(), **entry.value());
            if before == then && is_put(cache, is_hot, key, entry) {
                Ok(())
            } else {
                Err(None)
            }
        }
    }
}

/// Puts a value into a list under a number, with a ticket.
fn put(
    alloc: Global,
    cache: &mut Cache,
    is_hot: bool,
    number: u32,
    value: u16,
    ticket: u64,
) -> Option<Came> {
    let (key, entry) = pair(alloc, number, value, ticket)?;
    Some(put_pair(cache, is_hot, key, entry))
}

/// Whether keys have these numbers, in order.
fn have(keys: &[Sample], numbers: &[u32]) -> bool {
    for (key, number) in keys.iter().zip(numbers) {
        if !is_same(&key.number(), number) {
            return false;
        }
    }
    is_same(&keys.len(), &numbers.len())
}

/// Whether a cache keeps these numbers in its lists, and so many bytes.
fn keeps(alloc: Global, cache: &Cache, main: &[u32], hot: &[u32], bytes: u64) -> Option<bool> {
    let main_keys = cache.main_keys(alloc).ok()?;
    let hot_keys = cache.hot_keys(alloc).ok()?;
    let is_len = is_same(&cache.len(), &main.len().saturating_add(hot.len()));
    Some(
        is_len && is_same(&cache.bytes(), &bytes) && have(&main_keys, main) && have(&hot_keys, hot),
    )
}

/// The value that is kept under a number, which comes to the front.
fn got(alloc: Global, cache: &mut Cache, number: u32) -> Option<Option<u16>> {
    let key = sample(alloc, number)?;
    Some(match cache.get(&key) {
        Some(entry) => Some(**entry.value()),
        None => None,
    })
}

/// The ticket of what is hit under a number.
fn hit(alloc: Global, cache: &mut Cache, number: u32) -> Option<Option<u64>> {
    let key = sample(alloc, number)?;
    Some(match cache.hit(&key).ok()? {
        Some(entry) => Some(entry.into_receipt().ticket()),
        None => None,
    })
}

/// A number comes to the front.
fn touch(alloc: Global, cache: &mut Cache, number: u32) -> Option<bool> {
    cache.touch(&sample(alloc, number)?);
    Some(true)
}

/// The number and the ticket of what goes next.
fn evicted(cache: &mut Cache) -> Option<(u32, u64)> {
    let (key, entry) = cache.evict_oldest()?;
    Some((key.number(), entry.into_receipt().ticket()))
}

/// Whether a step comes to what it is to. None where memory ran out before its call.
fn is_right(alloc: Global, cache: &mut Cache, step: &Step) -> Option<bool> {
    match step {
        Step::Main(number, value, ticket, came) => {
            Some(is_same(&put(alloc, cache, false, *number, *value, *ticket)?, came))
        }
        Step::Hot(number, value, ticket, came) => {
            Some(is_same(&put(alloc, cache, true, *number, *value, *ticket)?, came))
        }
        Step::Get(number, value) => Some(is_same(&got(alloc, cache, *number)?, value)),
        Step::Hit(number, ticket) => Some(is_same(&hit(alloc, cache, *number)?, ticket)),
        Step::Touch(number) => touch(alloc, cache, *number),
        Step::Evict(pair) => Some(is_same(&evicted(cache), pair)),
        Step::Keeps(main, hot, bytes) => keeps(alloc, cache, main, hot, *bytes),
    }
}

/// The place of the first step that doesn't come to what it is to.
fn wrong_step(alloc: Global, cache: &mut Cache, steps: &[Step]) -> Option<Option<usize>> {
    for (place, step) in steps.iter().enumerate() {
        if !is_right(alloc, cache, step)? {
            return Some(Some(place));
        }
    }
    Some(None)
}

/// Takes the steps of a scene's cache.
fn wrong_in(alloc: Global, scene: &Scene) -> Option<Option<usize>> {
    let (bytes, entries, steps) = scene;
    wrong_step(alloc, &mut cache(alloc, *bytes, *entries)?, steps)
}

/// A hot entry above an eighth goes at once.
const HOT_ABOVE_AN_EIGHTH: &[Step] = &[
    Step::Main(0, 13, 1, Ok(())),
    Step::Main(1, 13, 2, Ok(())),
    Step::Get(0, Some(13)),
    Step::Get(7, None),
    Step::Main(2, 13, 3, Ok(())),
    Step::Hot(3, 13, 4, Ok(())),
    Step::Keeps(&[2, 0], &[], 56),
];

/// An entry above the limit comes back.
const ABOVE_THE_LIMIT: &[Step] = &[
    Step::Main(0, 13, 1, Err(Some((0, 13)))),
    Step::Keeps(&[], &[], 0),
    Step::Main(0, 12, 2, Ok(())),
    Step::Hot(0, 13, 3, Err(Some((0, 13)))),
    Step::Get(0, Some(12)),
];

/// Nothing is kept within a limit of 0.
const LIMIT_OF_0: &[Step] = &[Step::Main(0, 0, 1, Err(Some((0, 0)))), Step::Evict(None)];

/// A larger value of a present key pushes others out.
const LARGER_VALUE: &[Step] = &[
    Step::Main(0, 5, 1, Ok(())),
    Step::Main(1, 5, 1, Ok(())),
    Step::Main(2, 5, 1, Ok(())),
    Step::Keeps(&[2, 1, 0], &[], 60),
    Step::Main(0, 6, 2, Ok(())),
    Step::Keeps(&[0, 2], &[], 41),
];

/// A full list loses its oldest.
const FULL_LIST: &[Step] = &[
    Step::Main(0, 0, 1, Ok(())),
    Step::Main(1, 1, 1, Ok(())),
    Step::Main(2, 2, 1, Ok(())),
    Step::Keeps(&[2, 1], &[], 33),
];

/// A present key stays in its list. Hot takes 20 bytes, and an eighth of main's 300 is 37: main's oldest goes first.
const PRESENT_KEY: &[Step] = &[
    Step::Main(0, 285, 1, Ok(())),
    Step::Hot(1, 0, 2, Ok(())),
    Step::Main(1, 5, 3, Ok(())),
    Step::Keeps(&[0], &[1], 320),
    Step::Evict(Some((0, 1))),
    Step::Evict(Some((1, 3))),
];

/// A hit leaves the order, and a touch changes it.
const HIT_AND_TOUCH: &[Step] = &[
    Step::Main(0, 13, 5, Ok(())),
    Step::Main(1, 13, 6, Ok(())),
    Step::Hit(0, Some(5)),
    Step::Keeps(&[1, 0], &[], 56),
    Step::Touch(0),
    Step::Keeps(&[0, 1], &[], 56),
];

/// Each scene.
static SCENES: [Scene; 7] = [
    (60, 8, HOT_ABOVE_AN_EIGHTH),
    (27, 8, ABOVE_THE_LIMIT),
    (0, 8, LIMIT_OF_0),
    (60, 8, LARGER_VALUE),
    (1000, 2, FULL_LIST),
    (1000, 3, PRESENT_KEY),
    (60, 8, HIT_AND_TOUCH),
];

/// Takes them once more where memory ran out before a call.
fn wrong_again(alloc: Global, scene: &Scene) -> Option<Option<usize>> {
    match wrong_in(alloc, scene) {
        None => wrong_in(alloc, scene),
        wrong => wrong,
    }
}

/// A put that memory runs out for leaves the cache as it was, and the pair that comes back is put again.
#[test]
fn steps_of_a_cache_have_their_results_after_a_refused_growth(rt: HostRuntime) {
    for (line, scene) in SCENES.iter().enumerate() {
        let wrong = wrong_again(rt.alloc(), scene);
        assert!(rt; is_same(&wrong, &Some(None)), "scene {line}: {wrong:?}");
    }
}
