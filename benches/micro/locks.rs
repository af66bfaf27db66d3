//! 4,096 locks over a table laid out as that of `medley`: heads, and nodes of 24 bytes in an arena.
//! A transaction takes the locks of its keys in order, makes its operations, and gives the locks
//! back. A removed node goes to the free list of the thread that removed it.

use crate::work::{first_keys, Op, Peer, BUCKETS, MOST};
use std::cell::UnsafeCell;
use std::hint::black_box;
use std::sync::{Mutex, MutexGuard};

const LOCKS: usize = 4096;

#[repr(align(64))]
struct Lock(Mutex<()>);

#[derive(Clone, Copy)]
struct Node {
    key: u64,
    value: u64,
    next: u64,
}

// No key is so large.
const NO_NODE: Node = Node { key: u64::MAX, value: 0, next: 0 };

pub struct Table {
    locks: Vec<Lock>,
    heads: Vec<UnsafeCell<u64>>,
    nodes: Vec<UnsafeCell<Node>>,
    base: usize,
    share: usize,
}

// SAFETY: a head and the nodes behind it are used only under the lock of the head's bucket, and
// other nodes only by the thread whose free list or share they are in.
unsafe impl Sync for Table {}

pub struct Own {
    next: usize,
    end: usize,
    free: Vec<u64>,
}

impl Own {
    // A node that was given back, or else the next of the thread's share.
    fn take(&mut self) -> u64 {
        self.free.pop().unwrap_or_else(|| {
            assert!(self.next < self.end, "no node is left");
            self.next += 1;
            self.next as u64 - 1
        })
    }
}

impl Table {
    pub fn new(threads: u32, share: usize) -> Table {
        let base = first_keys().count() + 1;
        let mut table = Table {
            locks: (0..LOCKS).map(|_| Lock(Mutex::new(()))).collect(),
            heads: (0..BUCKETS).map(|_| UnsafeCell::new(0)).collect(),
            nodes: (0..base + threads as usize * share).map(|_| UnsafeCell::new(NO_NODE)).collect(),
            base: 1,
            share,
        };
        let mut own = Own { next: 1, end: base, free: Vec::new() };
        for key in first_keys() {
            // SAFETY: no other thread has the table.
            assert!(unsafe { table.make(&mut own, Op::Insert(key)) });
        }
        table.base = base;
        table
    }

    // The link to the first node of a key's bucket whose key isn't smaller. The caller holds the
    // key's lock.
    unsafe fn place(&self, key: u64) -> *mut u64 {
        let mut link = self.heads[key as usize % BUCKETS].get();
        // SAFETY: no other thread uses the bucket's head and nodes.
        unsafe {
            while *link != 0 && (*self.nodes[*link as usize].get()).key < key {
                link = &raw mut (*self.nodes[*link as usize].get()).next;
            }
        }
        link
    }

    // Makes an operation. Whether it found or changed something. The caller holds the key's lock.
    #[inline]
    unsafe fn make(&self, own: &mut Own, op: Op) -> bool {
        let key = op.key();
        // SAFETY: no other thread uses the bucket's head and nodes, or the nodes of `own`.
        unsafe {
            let link = self.place(key);
            let at = *link;
            let found = if at == 0 { NO_NODE } else { *self.nodes[at as usize].get() };
            let here = found.key == key;
            match op {
                Op::Get(_) => {}
                Op::Insert(_) if here => return false,
                Op::Insert(_) => {
                    let node = own.take();
                    *self.nodes[node as usize].get() = Node { key, value: key, next: at };
                    *link = node;
                    return true;
                }
                Op::Remove(_) if here => {
                    *link = found.next;
                    own.free.push(at);
                }
                Op::Remove(_) => {}
            }
            black_box(found.value);
            here
        }
    }
}

impl Peer for Table {
    type Own = Own;

    fn own(&self, thread: u32) -> Own {
        let next = self.base + thread as usize * self.share;
        Own { next, end: next + self.share, free: Vec::new() }
    }

    #[inline]
    fn run(&self, own: &mut Own, ops: &[Op]) -> usize {
        let mut order = [0u16; MOST];
        let order = &mut order[..ops.len()];
        for (place, op) in order.iter_mut().zip(ops) {
            *place = (op.key() % LOCKS as u64) as u16;
        }
        order.sort_unstable();
        let mut held: [Option<MutexGuard<()>>; MOST] = [const { None }; MOST];
        for i in 0..order.len() {
            if i == 0 || order[i] != order[i - 1] {
                held[i] = Some(self.locks[order[i] as usize].0.lock().unwrap());
            }
        }
        // SAFETY: all locks of the keys are held.
        ops.iter().filter(|op| unsafe { self.make(own, **op) }).count()
    }
}
