//! The same work as the program `groups_bench large`, in plain Rust, to compare times. Built by `rustc -O`.
//! Each call finds its image by name, and who owns its key on a ring of one node. A table of kept tiles, open flights and counts stands behind
//! a lock, with a condition variable for those that wait; a tile stands in a cell that is set once, and is read from its file row by row
//! while no lock is held.

#[path = "../clock.rs"]
mod clock;
#[path = "../recent.rs"]
mod recent;
#[path = "../ring.rs"]
mod ring;
#[path = "../table.rs"]
mod table;

use clock::cpu;
use recent::Key;
use ring::{Ring, key_bytes};
use std::collections::HashMap;
use std::fs::{self, File};
use std::hint::black_box;
use std::os::unix::fs::FileExt;
use std::sync::{Arc, Condvar, Mutex};
use std::thread;
use std::time::Instant;
use table::{Cell, Entered, Table};

const SIDE: u32 = 2_560;
const EDGE: u32 = 256;
const DATA: u64 = 8;
const BYTES: u64 = 67_108_864;
const ROUNDS: u32 = 2_000;
const THREADS: usize = 8;

type Tile = Arc<Vec<u8>>;

struct Group {
    images: HashMap<Arc<str>, u32>,
    ring: Ring,
    table: Mutex<Table<Tile>>,
    landed: Condvar,
    file: Mutex<File>,
}

fn tile_in(cell: &Cell<Tile>) -> Tile {
    cell.get().unwrap().2.clone()
}

impl Group {
    fn new(limit: u64) -> Group {
        let path = "groups_bench_plain.tmp";
        let mut bytes = vec![0u8; DATA as usize];
        for row in 0..SIDE {
            bytes.extend((0..SIDE).map(|column| column.wrapping_mul(3).wrapping_add(row.wrapping_mul(7)) as u8));
        }
        fs::write(path, bytes).unwrap();
        let file = Mutex::new(File::open(path).unwrap());
        fs::remove_file(path).unwrap();
        let table = Mutex::new(Table::new(4096, limit));
        Group { images: HashMap::from([("a".into(), SIDE)]), ring: Ring::new(&["n"]), table, landed: Condvar::new(), file }
    }

    fn read(&self, key: &Key) -> Vec<u8> {
        let mut tile = vec![0; (EDGE * EDGE) as usize];
        for (row, samples) in tile.chunks_exact_mut(EDGE as usize).enumerate() {
            let y = u64::from(key.ty * EDGE) + row as u64;
            let at = DATA + y * u64::from(SIDE) + u64::from(key.tx * EDGE);
            self.file.lock().unwrap().read_exact_at(samples, at).unwrap();
        }
        tile
    }

    /// By its owner, which the ring tells.
    fn get(&self, gets: &mut u64, key: &Key) -> Tile {
        self.find(key);
        assert_eq!(self.ring.owner(&key_bytes(key)), 0);
        self.enter(gets, key)
    }

    /// By this node alone, which takes the bytes of the key all the same.
    fn get_local(&self, gets: &mut u64, key: &Key) -> Tile {
        self.find(key);
        black_box(key_bytes(key));
        self.enter(gets, key)
    }

    fn find(&self, key: &Key) {
        let side = self.images[&key.name];
        assert!(key.edge == EDGE && key.tx < side.div_ceil(EDGE) && key.ty < side.div_ceil(EDGE));
    }

    fn enter(&self, gets: &mut u64, key: &Key) -> Tile {
        let entered = self.table.lock().unwrap().enter(gets, key);
        match entered {
            Entered::Hit(cell, ticket) => {
                let landed = cell.get().unwrap();
                assert_eq!(landed.1, ticket);
                landed.2.clone()
            }
            Entered::Joined(flight) => {
                let mut table = self.table.lock().unwrap();
                while flight.cell.get().is_none() {
                    table = self.landed.wait(table).unwrap();
                }
                tile_in(&flight.cell)
            }
            Entered::Lead(flight) => {
                let found = self.table.lock().unwrap().main.get(key).map(|entry| tile_in(&entry.cell));
                let tile = found.unwrap_or_else(|| Arc::new(self.read(key)));
                let size = Arc::new(tile.len() as u32 + 15);
                self.table.lock().unwrap().land(flight, key, tile.clone(), size);
                self.landed.notify_all();
                tile
            }
        }
    }

    fn calls(&self, keys: &[Key], rounds: u32, way: fn(&Group, &mut u64, &Key) -> Tile) -> u64 {
        let (mut gets, mut sum) = (0, 0);
        for _ in 0..rounds {
            for key in keys {
                sum += u64::from(way(self, &mut gets, key)[0]);
            }
        }
        sum
    }

    fn by_eight(&self, keys: &[Key], rounds: u32) -> u128 {
        let start = Instant::now();
        thread::scope(|scope| {
            for _ in 0..THREADS {
                scope.spawn(|| black_box(self.calls(keys, rounds, Group::get)));
            }
        });
        start.elapsed().as_nanos()
    }
}

fn hits(keys: &[Key]) {
    let group = Group::new(BYTES);
    group.calls(keys, 1, Group::get);
    let (mut one, mut local, mut eight, mut copied) = (u128::MAX, u128::MAX, u128::MAX, u128::MAX);
    let tile = group.read(&keys[0]);
    for _ in 0..5 {
        let start = cpu();
        black_box(group.calls(keys, ROUNDS, Group::get_local));
        local = local.min((cpu() - start).as_nanos());
        let start = cpu();
        black_box(group.calls(keys, ROUNDS, Group::get));
        let middle = cpu();
        for _ in 0..ROUNDS {
            black_box(tile.clone());
        }
        let end = cpu();
        one = one.min((middle - start).as_nanos());
        copied = copied.min((end - middle).as_nanos());
        eight = eight.min(group.by_eight(keys, ROUNDS));
    }
    let rounds = u128::from(ROUNDS);
    let (one, local) = (one / (rounds * 100), local / (rounds * 100));
    let (eight, copied) = (eight / (rounds * 800), copied / rounds);
    println!("a hit: one thread {one} ns, by this node alone {local} ns, eight threads {eight} ns; a copy of a tile: {copied} ns");
}

fn loads(keys: &[Key]) {
    let group = Group::new(1);
    let (mut shared, mut plain) = (u128::MAX, u128::MAX);
    for _ in 0..5 {
        let start = cpu();
        black_box(group.calls(keys, 1, Group::get));
        let middle = cpu();
        black_box(keys.iter().map(|key| u64::from(group.read(key)[0])).sum::<u64>());
        let end = cpu();
        shared = shared.min((middle - start).as_nanos());
        plain = plain.min((end - middle).as_nanos());
    }
    println!("a load: {} ns, with no group {} ns", shared / 100, plain / 100);
}

fn main() {
    let name: Arc<str> = "a".into();
    let place = |number: u32| Key { name: name.clone(), edge: EDGE, tx: number % 10, ty: number / 10 };
    let keys: Vec<Key> = (0..100).map(place).collect();
    hits(&keys);
    loads(&keys);
    for _ in 0..5 {
        let group = Group::new(BYTES);
        let start = Instant::now();
        black_box(group.calls(&keys, 1, Group::get));
        let time = start.elapsed().as_micros();
        println!("all tiles by one thread: {time} microseconds, {} loads", group.table.lock().unwrap().book.landed);
        let group = Group::new(BYTES);
        let time = group.by_eight(&keys, 1) / 1000;
        println!("all tiles by eight threads each: {time} microseconds, {} loads", group.table.lock().unwrap().book.landed);
    }
}
