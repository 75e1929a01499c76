//! What the plain Rust of `bench/cache`, `bench/flights` and `bench/groups` has in common: keys, entries, and one list in the order of use, as a
//! hashed map of keys to places and the places linked.

use std::collections::HashMap;
use std::sync::Arc;

#[derive(Clone, PartialEq, Eq, Hash)]
pub struct Key {
    pub name: Arc<str>,
    pub edge: u32,
    pub tx: u32,
    pub ty: u32,
}

/// A value, and what a receipt of its flight has: the flight's cell and its ticket.
#[derive(Clone)]
pub struct Entry<C> {
    pub value: Arc<u32>,
    pub cell: C,
    pub ticket: u64,
}

impl<C> Entry<C> {
    pub fn size(&self) -> u64 {
        15 + u64::from(*self.value)
    }
}

const NONE: usize = usize::MAX;

struct Node<C> {
    key: Arc<Key>,
    entry: Entry<C>,
    before: usize,
    behind: usize,
}

/// One list: its first node was used last.
pub struct Recent<C> {
    pub places: HashMap<Arc<Key>, usize>,
    nodes: Vec<Option<Node<C>>>,
    free: Vec<usize>,
    first: usize,
    last: usize,
    room: usize,
    pub bytes: u64,
}

impl<C> Recent<C> {
    pub fn new(room: usize) -> Recent<C> {
        Recent { places: HashMap::new(), nodes: Vec::new(), free: Vec::new(), first: NONE, last: NONE, room, bytes: 0 }
    }

    fn node(&mut self, at: usize) -> &mut Node<C> {
        self.nodes[at].as_mut().unwrap()
    }

    fn unlink(&mut self, at: usize) {
        let (before, behind) = (self.node(at).before, self.node(at).behind);
        if before == NONE { self.first = behind } else { self.node(before).behind = behind }
        if behind == NONE { self.last = before } else { self.node(behind).before = before }
    }

    fn to_front(&mut self, at: usize) {
        let first = self.first;
        let node = self.node(at);
        node.before = NONE;
        node.behind = first;
        if first == NONE { self.last = at } else { self.node(first).before = at }
        self.first = at;
    }

    pub fn get(&mut self, key: &Key) -> Option<&Entry<C>> {
        let at = *self.places.get(key)?;
        self.unlink(at);
        self.to_front(at);
        self.nodes[at].as_ref().map(|node| &node.entry)
    }

    pub fn pop(&mut self) -> Option<(Arc<Key>, Entry<C>)> {
        if self.last == NONE {
            return None;
        }
        let at = self.last;
        self.unlink(at);
        let node = self.nodes[at].take().unwrap();
        self.free.push(at);
        self.places.remove(&node.key);
        self.bytes -= node.entry.size();
        Some((node.key, node.entry))
    }

    pub fn push(&mut self, key: Arc<Key>, entry: Entry<C>) {
        self.bytes += entry.size();
        if let Some(&at) = self.places.get(&key) {
            self.bytes -= self.node(at).entry.size();
            self.node(at).entry = entry;
            self.unlink(at);
            self.to_front(at);
            return;
        }
        if self.places.len() == self.room {
            self.pop();
        }
        let node = Node { key: key.clone(), entry, before: NONE, behind: NONE };
        let at = match self.free.pop() {
            Some(at) => {
                self.nodes[at] = Some(node);
                at
            }
            None => {
                self.nodes.push(Some(node));
                self.nodes.len() - 1
            }
        };
        self.places.insert(key, at);
        self.to_front(at);
    }
}
