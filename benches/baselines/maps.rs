//! Plays an order file of one caller, in one thread, over the maps of std.

mod book;
mod orders;

use book::Book;
use orders::{Replies, read_input, write_report};
use std::io;

fn main() -> io::Result<()> {
    let orders = read_input()?;
    let mut book = Book::new(orders.places);
    let play = |(caller, script)| {
        Replies::play(caller, script, |name, command, parts| {
            book.run(name, command, parts)
        })
    };
    let replies: Vec<Replies> = orders.callers().map(play).collect();
    write_report(
        &replies,
        |level| book.depth(level),
        |account| book.sums(account),
    )
}
