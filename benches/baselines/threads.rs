//! Callers in threads.

use crate::orders::{Command, Name, Orders, Part, Replies, Reply};
use std::thread;

/// Plays the lines of all callers, each caller's in a thread of its own, as `Replies::play` does.
pub fn play_all(
    orders: &Orders,
    run: impl Fn(Name, Command, &mut Vec<Part>) -> Reply + Sync,
) -> Vec<Replies> {
    let run = &run;
    thread::scope(|scope| {
        let start = |(caller, script)| scope.spawn(move || Replies::play(caller, script, run));
        let threads: Vec<_> = orders.callers().map(start).collect();
        threads
            .into_iter()
            .map(|thread| thread.join().expect("a caller panicked"))
            .collect()
    })
}
