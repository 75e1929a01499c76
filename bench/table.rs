//! What the plain Rust of `bench/flights` and `bench/groups` has in common: a table of kept values, open flights and counts, to stand
//! behind a lock. An outcome stands in a cell that is set once.

use crate::recent::{Entry, Key, Recent};
use std::collections::HashMap;
use std::sync::{Arc, OnceLock};

pub type Cell<V> = Arc<OnceLock<(Arc<Key>, u64, V)>>;

pub struct Flight<V> {
    pub cell: Cell<V>,
    ticket: u64,
}

impl<V> Clone for Flight<V> {
    fn clone(&self) -> Flight<V> {
        Flight { cell: self.cell.clone(), ticket: self.ticket }
    }
}

#[derive(Default)]
pub struct Book {
    gets: u64,
    hits: u64,
    joins: u64,
    leads: u64,
    pub landed: u64,
}

pub struct Table<V> {
    pub main: Recent<Cell<V>>,
    hot: Recent<Cell<V>>,
    limit: u64,
    open: HashMap<Arc<Key>, Flight<V>>,
    pub book: Book,
}

pub enum Entered<V> {
    Hit(Cell<V>, u64),
    Joined(Flight<V>),
    Lead(Flight<V>),
}

impl<V> Table<V> {
    /// A table whose two lists have room for so many entries each, and for so many bytes together.
    pub fn new(room: usize, limit: u64) -> Table<V> {
        Table { main: Recent::new(room), hot: Recent::new(room), limit, open: HashMap::new(), book: Book::default() }
    }

    pub fn enter(&mut self, gets: &mut u64, key: &Key) -> Entered<V> {
        self.book.gets += 1;
        *gets += 1;
        let found = match self.main.get(key) {
            Some(entry) => Some(entry),
            None => self.hot.get(key),
        };
        if let Some(entry) = found {
            self.book.hits += 1;
            return Entered::Hit(entry.cell.clone(), entry.ticket);
        }
        if let Some(flight) = self.open.get(key) {
            self.book.joins += 1;
            return Entered::Joined(flight.clone());
        }
        self.book.leads += 1;
        let flight = Flight { cell: Arc::new(OnceLock::new()), ticket: self.book.leads };
        self.open.insert(Arc::new(key.clone()), flight.clone());
        Entered::Lead(flight)
    }

    /// Sets a flight's outcome and keeps it, as something of this size.
    pub fn land(&mut self, flight: Flight<V>, key: &Key, outcome: V, size: Arc<u32>) {
        let key = Arc::new(key.clone());
        let _ = flight.cell.set((key.clone(), flight.ticket, outcome));
        self.open.remove(&key);
        self.book.landed += 1;
        self.main.push(key, Entry { value: size, cell: flight.cell, ticket: flight.ticket });
        while self.main.bytes + self.hot.bytes > self.limit && self.main.pop().is_some() {}
    }
}
