//! The same work as the program `cache_bench large`, in plain Rust, to compare times. Built by `rustc -O`.
//! A cache of two lists with one limit in bytes: a hashed map of keys to places, and the places linked in the order of use.

#[path = "../clock.rs"]
mod clock;
#[path = "../recent.rs"]
mod recent;

use clock::cpu;
use recent::{Key, Recent};
use std::sync::Arc;

type Cell = Arc<(Arc<Key>, u64, Arc<u32>)>;

type Entry = recent::Entry<Cell>;

struct Cache {
    main: Recent<Cell>,
    hot: Recent<Cell>,
    limit: u64,
}

impl Cache {
    fn get(&mut self, key: &Key) -> Option<&Entry> {
        match self.main.get(key) {
            Some(entry) => Some(entry),
            None => self.hot.get(key),
        }
    }

    fn put(&mut self, hot: bool, key: Key, entry: Entry) -> bool {
        if entry.size() > self.limit {
            return false;
        }
        let (in_main, in_hot) = (self.main.places.contains_key(&key), self.hot.places.contains_key(&key));
        let list = if !in_main && (hot || in_hot) { &mut self.hot } else { &mut self.main };
        list.push(Arc::new(key), entry);
        while self.main.bytes + self.hot.bytes > self.limit {
            let gone = if self.hot.bytes > self.main.bytes / 8 { self.hot.pop() } else { self.main.pop() };
            if gone.is_none() {
                break;
            }
        }
        true
    }
}

struct Chance(u64);

impl Chance {
    fn below(&mut self, limit: u32) -> u32 {
        self.0 = self.0.wrapping_mul(6_364_136_223_846_793_005).wrapping_add(1_442_695_040_888_963_407);
        ((self.0 >> 33) as u32) % limit
    }
}

const KEYS: u32 = 8192;
const CALLS: u32 = 200_000;

fn key(name: &Arc<str>, number: u32) -> Key {
    Key { name: name.clone(), edge: 1, tx: number, ty: 0 }
}

fn main() {
    let name: Arc<str> = "a".into();
    let keys: Vec<Key> = (0..KEYS).map(|number| key(&name, number)).collect();
    let (mut get, mut put, mut found, mut tickets) = (u128::MAX, u128::MAX, 0, 0);
    for _ in 0..5 {
        let mut cache = Cache { main: Recent::new(4096), hot: Recent::new(4096), limit: 409_600 };
        let mut chance = Chance(7);
        let puts: Vec<(Key, Entry)> = (0..u64::from(CALLS))
            .map(|ticket| {
                let key = key(&name, chance.below(KEYS));
                let value = Arc::new(85);
                let cell = Arc::new((Arc::new(key.clone()), ticket, value.clone()));
                (key, Entry { value, cell, ticket })
            })
            .collect();
        let start = cpu();
        for (key, entry) in puts {
            if !cache.put(false, key, entry) {
                println!("not put");
            }
        }
        put = put.min((cpu() - start).as_nanos());
        let mut chance = Chance(11);
        found = 0;
        let start = cpu();
        for _ in 0..CALLS {
            if let Some(entry) = cache.get(&keys[chance.below(KEYS) as usize]) {
                found += 1;
                tickets ^= entry.ticket ^ entry.cell.1;
            }
        }
        get = get.min((cpu() - start).as_nanos());
    }
    let calls = u128::from(CALLS);
    println!("put {} ns, get {} ns, {found} found ({tickets})", put / calls, get / calls);
}
