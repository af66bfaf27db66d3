//! One map of std behind one lock, which is held round each transaction.

use crate::work::{first_keys, Op, Peer, KEYS};
use std::collections::hash_map::Entry;
use std::collections::HashMap;
use std::hash::{BuildHasherDefault, Hasher};
use std::hint::black_box;
use std::sync::Mutex;

/// The hash of rustc's own maps: a product, rotated.
#[derive(Default, Clone, Copy)]
pub struct Product(u64);

impl Hasher for Product {
    #[inline]
    fn write(&mut self, bytes: &[u8]) {
        for byte in bytes {
            self.write_u64(u64::from(*byte));
        }
    }

    #[inline]
    fn write_u64(&mut self, word: u64) {
        self.0 = (self.0.wrapping_add(word)).wrapping_mul(0xf135_7aea_2e62_a9c5);
    }

    #[inline]
    fn finish(&self) -> u64 {
        self.0.rotate_left(26)
    }
}

pub type Map = HashMap<u64, u64, BuildHasherDefault<Product>>;

/// Makes an operation. Whether it found or changed something.
#[inline]
pub fn hits(map: &mut Map, op: Op) -> bool {
    match op {
        Op::Get(key) => black_box(map.get(&key).copied()).is_some(),
        Op::Insert(key) => match map.entry(key) {
            Entry::Occupied(_) => false,
            Entry::Vacant(place) => {
                place.insert(key);
                true
            }
        },
        Op::Remove(key) => black_box(map.remove(&key)).is_some(),
    }
}

pub struct OneLock(Mutex<Map>);

impl OneLock {
    pub fn new() -> OneLock {
        let mut map = Map::with_capacity_and_hasher(KEYS as usize, BuildHasherDefault::default());
        for key in first_keys() {
            map.insert(key, key);
        }
        OneLock(Mutex::new(map))
    }
}

impl Peer for OneLock {
    type Own = ();

    fn own(&self, _thread: u32) {}

    #[inline]
    fn run(&self, _own: &mut (), ops: &[Op]) -> usize {
        let mut map = self.0.lock().unwrap();
        ops.iter().filter(|op| hits(&mut map, **op)).count()
    }
}
