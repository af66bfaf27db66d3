//! 4,096 maps of std, each behind a lock. A transaction takes the locks of its keys in order, makes
//! its operations, and gives the locks back.

use crate::mutex::{hits, Map, Product};
use crate::work::{first_keys, Op, Peer, KEYS, MOST};
use std::hash::{BuildHasherDefault, Hasher};
use std::sync::{Mutex, MutexGuard};

const SHARDS: usize = 4096;

#[repr(align(64))]
struct Shard(Mutex<Map>);

pub struct Shards(Vec<Shard>);

#[inline]
fn shard_of(key: u64) -> u16 {
    let mut hasher = Product::default();
    hasher.write_u64(key);
    // Bits that neither the place in a shard's map nor its tag uses.
    ((hasher.finish() >> 32) % SHARDS as u64) as u16
}

impl Shards {
    pub fn new() -> Shards {
        let room = KEYS as usize / SHARDS * 2;
        let map = || Map::with_capacity_and_hasher(room, BuildHasherDefault::default());
        let shards: Vec<Shard> = (0..SHARDS).map(|_| Shard(Mutex::new(map()))).collect();
        for key in first_keys() {
            shards[shard_of(key) as usize].0.lock().unwrap().insert(key, key);
        }
        Shards(shards)
    }
}

impl Peer for Shards {
    type Own = ();

    fn own(&self, _thread: u32) {}

    #[inline]
    fn run(&self, _own: &mut (), ops: &[Op]) -> usize {
        let mut order = [0u16; MOST];
        let order = &mut order[..ops.len()];
        for (place, op) in order.iter_mut().zip(ops) {
            *place = shard_of(op.key());
        }
        order.sort_unstable();
        let mut held: [Option<(u16, MutexGuard<Map>)>; MOST] = [const { None }; MOST];
        let mut count = 0;
        for i in 0..order.len() {
            if i == 0 || order[i] != order[i - 1] {
                held[count] = Some((order[i], self.0[order[i] as usize].0.lock().unwrap()));
                count += 1;
            }
        }
        let mut found = 0;
        for op in ops {
            let shard = shard_of(op.key());
            for place in held[..count].iter_mut().flatten() {
                if place.0 == shard {
                    found += usize::from(hits(&mut place.1, *op));
                    break;
                }
            }
        }
        found
    }
}
