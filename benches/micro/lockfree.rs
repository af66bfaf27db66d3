//! Michael's lock-free hash table (SPAA 2002) without transactions: the operations of a transaction
//! one after another. Nodes of 24 bytes stand in an arena and are named by index. Each thread takes
//! its own in turn and none is used again, so no word needs a count. The table of `medley` is the
//! same but for what transactions need.

use crate::work::{first_keys, Op, Peer, BUCKETS};
use std::sync::atomic::{AtomicU64, Ordering::*};

/// A link: twice the index of a node, 0 for none, plus 1 if the node that has the link is removed.
struct Node {
    key: AtomicU64,
    value: AtomicU64,
    next: AtomicU64,
}

impl Node {
    fn new() -> Node {
        let (key, value, next) = (AtomicU64::new(u64::MAX), AtomicU64::new(0), AtomicU64::new(0));
        Node { key, value, next }
    }
}

pub struct Table {
    heads: Vec<AtomicU64>,
    nodes: Vec<Node>,
    base: usize,
    share: usize,
}

/// The next node of a thread, and the first that isn't its own.
pub struct Own {
    next: usize,
    end: usize,
}

struct Found<'a> {
    prev: &'a AtomicU64,
    at: u64,
    next: u64,
    here: bool,
}

impl Table {
    pub fn new(threads: u32, share: usize) -> Table {
        let base = first_keys().count() + 1;
        let mut table = Table {
            heads: (0..BUCKETS).map(|_| AtomicU64::new(0)).collect(),
            nodes: (0..base + threads as usize * share).map(|_| Node::new()).collect(),
            base: 1,
            share,
        };
        let mut own = Own { next: 1, end: base };
        for key in first_keys() {
            assert!(table.insert(&mut own, key, key));
        }
        table.base = base;
        table
    }

    #[inline]
    fn head(&self, key: u64) -> &AtomicU64 {
        &self.heads[key as usize % BUCKETS]
    }

    #[inline]
    fn find(&self, key: u64) -> Found<'_> {
        'again: loop {
            let mut prev = self.head(key);
            let mut at = prev.load(Acquire);
            loop {
                if at == 0 {
                    return Found { prev, at, next: 0, here: false };
                }
                let node = &self.nodes[(at / 2) as usize];
                let next = node.next.load(Acquire);
                if next & 1 == 1 {
                    if prev.compare_exchange(at, next & !1, AcqRel, Acquire).is_err() {
                        continue 'again;
                    }
                    at = next & !1;
                    continue;
                }
                let its = node.key.load(Relaxed);
                if its >= key {
                    return Found { prev, at, next, here: its == key };
                }
                prev = &node.next;
                at = next;
            }
        }
    }

    #[inline]
    fn get(&self, key: u64) -> Option<u64> {
        let found = self.find(key);
        if found.here {
            Some(self.nodes[(found.at / 2) as usize].value.load(Relaxed))
        } else {
            None
        }
    }

    #[inline]
    fn insert(&self, own: &mut Own, key: u64, value: u64) -> bool {
        loop {
            let found = self.find(key);
            if found.here {
                return false;
            }
            assert!(own.next < own.end, "no node is left");
            let node = &self.nodes[own.next];
            node.key.store(key, Relaxed);
            node.value.store(value, Relaxed);
            node.next.store(found.at, Relaxed);
            let link = own.next as u64 * 2;
            if found.prev.compare_exchange(found.at, link, AcqRel, Acquire).is_ok() {
                own.next += 1;
                return true;
            }
        }
    }

    #[inline]
    fn remove(&self, key: u64) -> Option<u64> {
        loop {
            let found = self.find(key);
            if !found.here {
                return None;
            }
            let node = &self.nodes[(found.at / 2) as usize];
            let value = node.value.load(Relaxed);
            if node.next.compare_exchange(found.next, found.next | 1, AcqRel, Acquire).is_err() {
                continue;
            }
            if found.prev.compare_exchange(found.at, found.next, AcqRel, Acquire).is_err() {
                self.find(key);
            }
            return Some(value);
        }
    }
}

impl Peer for Table {
    type Own = Own;

    fn own(&self, thread: u32) -> Own {
        let next = self.base + thread as usize * self.share;
        Own { next, end: next + self.share }
    }

    #[inline]
    fn run(&self, own: &mut Own, ops: &[Op]) -> usize {
        let mut hits = 0;
        for op in ops {
            let hit = match *op {
                Op::Get(key) => std::hint::black_box(self.get(key)).is_some(),
                Op::Insert(key) => self.insert(own, key, key),
                Op::Remove(key) => std::hint::black_box(self.remove(key)).is_some(),
            };
            hits += usize::from(hit);
        }
        hits
    }
}
