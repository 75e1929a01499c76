//! The same work as the program `flights_bench large`, in plain Rust, to compare times. Built by `rustc -O`.
//! A table of kept values, open flights and counts stands behind a lock.

#[path = "../clock.rs"]
mod clock;
#[path = "../recent.rs"]
mod recent;
#[path = "../table.rs"]
mod table;

use clock::cpu;
use recent::Key;
use std::sync::{Arc, Mutex};
use std::thread;
use std::time::Instant;
use table::{Entered, Table};

const CALLS: u32 = 200_000;

fn calls(table: &Mutex<Table<Arc<u32>>>, gets: &mut u64, keys: &[Key], count: u32) -> u32 {
    let (mut hits, mut at) = (0, 0);
    for _ in 0..count {
        match keys.get(at) {
            Some(key) => {
                let entered = table.lock().unwrap().enter(gets, key);
                match entered {
                    Entered::Hit(cell, ticket) => hits += u32::from(cell.get().map(|landed| landed.1) == Some(ticket)),
                    Entered::Lead(flight) => {
                        let value = Arc::new(85);
                        table.lock().unwrap().land(flight, key, value.clone(), value);
                    }
                    Entered::Joined(flight) => drop(flight),
                }
                at += 1;
            }
            None => at = 0,
        }
    }
    hits
}

fn measure(entries: u32) {
    let name: Arc<str> = "a".into();
    let keys: Vec<Key> = (0..entries).map(|number| Key { name: name.clone(), edge: 1, tx: number, ty: 0 }).collect();
    let table = Mutex::new(Table::new(4096, 67_108_864));
    let mut gets = 0;
    calls(&table, &mut gets, &keys, entries);
    let (mut one, mut eight, mut hits) = (u128::MAX, u128::MAX, 0);
    for _ in 0..5 {
        let start = cpu();
        hits = calls(&table, &mut gets, &keys, CALLS);
        one = one.min((cpu() - start).as_nanos());
        let start = Instant::now();
        thread::scope(|scope| {
            for _ in 0..8 {
                scope.spawn(|| calls(&table, &mut 0, &keys, CALLS));
            }
        });
        eight = eight.min(start.elapsed().as_nanos());
    }
    let count = u128::from(CALLS);
    println!("{entries} entries: {hits} hits, one thread {} ns a hit, eight threads {} ns a hit", one / count, eight / (count * 8));
}

fn main() {
    measure(100);
    measure(4096);
}
