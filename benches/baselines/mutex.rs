//! Plays an order file of several callers, each in a thread, over the maps of std. Each command
//! holds the one lock.

mod book;
mod orders;
mod threads;

use book::Book;
use orders::{read_input, write_report};
use std::io;
use std::sync::{Mutex, PoisonError};
use threads::play_all;

fn main() -> io::Result<()> {
    let orders = read_input()?;
    let book = Mutex::new(Book::new(orders.places));
    let replies = play_all(&orders, |name, command, parts| {
        book.lock()
            .expect("a caller panicked")
            .run(name, command, parts)
    });
    let book = book.into_inner().unwrap_or_else(PoisonError::into_inner);
    write_report(
        &replies,
        |level| book.depth(level),
        |account| book.sums(account),
    )
}
