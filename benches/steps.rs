//! The loops of `medley_bench loads N` and `medley_bench exchanges N` over atomics of std.

use std::env;
use std::hint::black_box;
use std::sync::atomic::{AtomicU64, Ordering::SeqCst};

fn loads(word: &AtomicU64, turns: u32) -> u64 {
    let mut seen = 0;
    for _turn in 0..turns / 8 {
        let a = word.load(SeqCst) | word.load(SeqCst);
        let b = word.load(SeqCst) | word.load(SeqCst);
        let c = word.load(SeqCst) | word.load(SeqCst);
        let d = word.load(SeqCst) | word.load(SeqCst);
        seen |= a | b | c | d;
    }
    seen
}

fn exchanges(word: &AtomicU64, turns: u32) -> u32 {
    let mut won = 0;
    for turn in 0..turns / 4 {
        let a = exchanged(word, 4 * turn) + exchanged(word, 4 * turn + 1);
        let b = exchanged(word, 4 * turn + 2) + exchanged(word, 4 * turn + 3);
        won += a + b;
    }
    won
}

fn exchanged(word: &AtomicU64, won: u32) -> u32 {
    let from = 2 * u64::from(won);
    u32::from(word.compare_exchange(from, from + 2, SeqCst, SeqCst).is_ok())
}

fn main() {
    let words: Vec<String> = env::args().collect();
    let turns = words[2].parse().expect("a number of steps");
    let word = AtomicU64::new(0);
    match words[1].as_str() {
        "loads" => println!("found {}", loads(black_box(&word), turns)),
        "exchanges" => println!("won {}", exchanges(black_box(&word), turns)),
        _ => panic!("loads or exchanges"),
    }
}
