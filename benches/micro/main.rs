//! `micro NAME THREADS TRANSACTIONS GETS`: runs the transactions of each thread. It prints the
//! nanoseconds of the clock and of all processors, how many transactions were run, and how many of
//! their operations found or changed something.

mod lockfree;
mod locks;
mod mutex;
mod shards;
mod work;

use std::time::Instant;
use work::{Draws, Peer};

// The processor time of the process so far.
fn processor_nanos() -> u64 {
    #[repr(C)]
    struct TimeSpec {
        seconds: i64,
        nanos: i64,
    }
    unsafe extern "C" {
        fn clock_gettime(clock: i32, to: *mut TimeSpec) -> i32;
    }
    const CLOCK_PROCESS_CPUTIME_ID: i32 = 2;
    let mut time = TimeSpec { seconds: 0, nanos: 0 };
    // SAFETY: `time` has the layout of C's `struct timespec` on x86-64 Linux.
    let status = unsafe { clock_gettime(CLOCK_PROCESS_CPUTIME_ID, &mut time) };
    assert!(status == 0, "no processor time");
    time.seconds as u64 * 1_000_000_000 + time.nanos as u64
}

fn run<P: Peer>(peer: P, threads: u32, transactions: u32, gets: u32) {
    let one = |thread: u32| {
        let mut own = peer.own(thread);
        let mut draws = Draws::of(thread);
        let mut hits = 0u64;
        for _ in 0..transactions {
            let (count, ops) = draws.burst(gets);
            hits += peer.run(&mut own, &ops[..count]) as u64;
        }
        hits
    };
    let processor_begin = processor_nanos();
    let begin = Instant::now();
    let hits: u64 = std::thread::scope(|scope| {
        let others: Vec<_> = (1..threads).map(|thread| scope.spawn(move || one(thread))).collect();
        one(0) + others.into_iter().map(|other| other.join().unwrap()).sum::<u64>()
    });
    let took = begin.elapsed().as_nanos();
    let processor_took = processor_nanos() - processor_begin;
    let done = u64::from(threads) * u64::from(transactions);
    println!("{took} {processor_took} {done} {hits}");
    // The memory is left to the system.
    std::mem::forget(peer);
}

fn main() {
    let words: Vec<String> = std::env::args().collect();
    let number = |i: usize| words[i].parse::<u32>().expect("a number");
    let (threads, transactions, gets) = (number(2), number(3), number(4));
    // Of 5.5 operations, one in `gets + 2` is an insert, and half of the inserts add a key.
    let share = transactions as usize * 3 / (gets as usize + 2) + 10_000;
    match words[1].as_str() {
        "lockfree" => run(lockfree::Table::new(threads, share), threads, transactions, gets),
        "mutex" => run(mutex::OneLock::new(), threads, transactions, gets),
        "shards" => run(shards::Shards::new(), threads, transactions, gets),
        "locks" => run(locks::Table::new(threads, share), threads, transactions, gets),
        other => panic!("no program {other}"),
    }
}
