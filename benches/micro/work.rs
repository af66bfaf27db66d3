//! The same transactions as those of `crates/medley_bench/src/draws.rt`.

pub const KEYS: u64 = 1_000_000;
pub const BUCKETS: usize = 1 << 20;
pub const MOST: usize = 10;

#[derive(Clone, Copy)]
pub enum Op {
    Get(u64),
    Insert(u64),
    Remove(u64),
}

impl Op {
    #[inline]
    pub fn key(self) -> u64 {
        match self {
            Op::Get(key) | Op::Insert(key) | Op::Remove(key) => key,
        }
    }
}

#[inline]
pub fn mixed(number: u64) -> u64 {
    let mut z = number;
    z = (z ^ (z >> 30)).wrapping_mul(0xbf58_476d_1ce4_e5b9);
    z = (z ^ (z >> 27)).wrapping_mul(0x94d0_49bb_1331_11eb);
    z ^ (z >> 31)
}

pub struct Draws {
    state: u64,
}

impl Draws {
    pub fn of(thread: u32) -> Draws {
        Draws { state: mixed(u64::from(thread) + 1) }
    }

    #[inline]
    fn next(&mut self) -> u64 {
        self.state = self.state.wrapping_add(0x9e37_79b9_7f4a_7c15);
        mixed(self.state)
    }

    #[inline]
    fn op(&mut self, gets: u32) -> Op {
        let draw = self.next();
        let key = (draw >> 32).wrapping_mul(KEYS) >> 32;
        let kind = (draw & 0xffff_ffff).wrapping_mul(u64::from(gets) + 2) >> 32;
        if kind < u64::from(gets) {
            Op::Get(key)
        } else if kind == u64::from(gets) {
            Op::Insert(key)
        } else {
            Op::Remove(key)
        }
    }

    pub fn burst(&mut self, gets: u32) -> (usize, [Op; MOST]) {
        let drawn = ((self.next() >> 32).wrapping_mul(MOST as u64) >> 32) as usize;
        let count = 1 + drawn % MOST;
        let mut ops = [Op::Get(0); MOST];
        for op in &mut ops[..count] {
            *op = self.op(gets);
        }
        (count, ops)
    }
}

/// The keys that are there at first.
pub fn first_keys() -> impl Iterator<Item = u64> {
    (0..KEYS).filter(|key| mixed(*key) % 2 == 0)
}

/// What all threads share, and how a thread runs a transaction.
pub trait Peer: Sync {
    /// What a thread has for itself.
    type Own: Send;
    fn own(&self, thread: u32) -> Self::Own;
    /// Runs a transaction. How many of its operations found or changed something.
    fn run(&self, own: &mut Self::Own, ops: &[Op]) -> usize;
}
