//! Plays an order file of several callers, each in a thread, with a lock for each level and each
//! account.
//!
//! A command locks its level first and then the accounts that trade, the lowest first. It unlocks
//! none before it has locked all. So commands take effect as if they ran one after another, and
//! there is no deadlock.

mod orders;
mod threads;

use orders::{ACCOUNTS, Command, LEVELS, Level, Name, Orders, Part, Reply, Side, Sums, Terms};
use orders::{read_input, write_report};
use std::collections::hash_map::Entry;
use std::collections::{HashMap, VecDeque};
use std::io;
use std::sync::{Mutex, MutexGuard, OnceLock};
use threads::play_all;

struct Order {
    account: u32,
    left: u32,
}

/// What a level's lock guards. The name of a cancelled order stays in the queue.
#[derive(Default)]
struct Shelf {
    depth: u64,
    queue: VecDeque<Name>,
    orders: HashMap<Name, Order>,
}

struct Book {
    /// How many places of a level a fill or a kill looks at.
    places: usize,
    shelves: Vec<Mutex<Shelf>>,
    accounts: Vec<Mutex<Sums>>,
    /// By caller and line, the level of the order that was placed there.
    placed: Vec<Vec<OnceLock<Level>>>,
}

/// What an account took or gave.
struct Trade {
    account: u32,
    quantity: u64,
    side: Side,
}

fn lock<T>(mutex: &Mutex<T>) -> MutexGuard<'_, T> {
    mutex.lock().expect("a caller panicked")
}

impl Shelf {
    /// Takes from the first places, and adds the parts to the list. It returns what the accounts of
    /// the orders traded, and what remains.
    fn take(&mut self, terms: Terms, places: usize, parts: &mut Vec<Part>) -> (Vec<Trade>, u32) {
        let side = terms.level.side();
        let mut trades = Vec::new();
        let mut rest = terms.quantity;
        for _ in 0..places {
            let Some(&name) = self.queue.front().filter(|_| rest != 0) else {
                break;
            };
            let Entry::Occupied(mut order) = self.orders.entry(name) else {
                self.queue.pop_front();
                continue;
            };
            let Order { account, left } = *order.get();
            let taken = rest.min(left);
            rest -= taken;
            parts.push(Part { order: name, taken });
            trades.push(Trade {
                account,
                quantity: taken.into(),
                side,
            });
            order.get_mut().left -= taken;
            if taken == left {
                order.remove();
                self.queue.pop_front();
            }
        }
        self.depth -= u64::from(terms.quantity - rest);
        (trades, rest)
    }

    /// What is left at the first places.
    fn left(&self, places: usize) -> u32 {
        let names = self.queue.iter().take(places);
        names
            .filter_map(|name| self.orders.get(name))
            .map(|order| order.left)
            .sum()
    }
}

impl Book {
    fn new(orders: &Orders) -> Book {
        let lines = |script: &Vec<Command>| script.iter().map(|_| OnceLock::new()).collect();
        Book {
            places: orders.places,
            shelves: (0..LEVELS).map(|_| Mutex::default()).collect(),
            accounts: (0..ACCOUNTS).map(|_| Mutex::default()).collect(),
            placed: orders.scripts.iter().map(lines).collect(),
        }
    }

    fn run(&self, name: Name, command: Command, parts: &mut Vec<Part>) -> Reply {
        match command {
            Command::Place(terms) => self.place(name, terms),
            Command::Cancel(name) => self.cancel(name),
            Command::Fill(terms) => self.fill(&mut self.shelf(terms.level), terms, parts),
            Command::Kill(terms) => self.kill(terms, parts),
            Command::Depth(level) => Reply::Depth(self.shelf(level).depth),
            Command::Account(account) => Reply::Account(*self.account(account)),
        }
    }

    fn shelf(&self, level: Level) -> MutexGuard<'_, Shelf> {
        lock(&self.shelves[level.index()])
    }

    fn account(&self, account: u32) -> MutexGuard<'_, Sums> {
        lock(&self.accounts[account as usize])
    }

    /// The place for an order's level, if there is a line of its name.
    fn level_of(&self, name: Name) -> Option<&OnceLock<Level>> {
        self.placed
            .get(name.caller as usize - 1)?
            .get(name.line as usize - 1)
    }

    fn place(&self, name: Name, terms: Terms) -> Reply {
        let mut shelf = self.shelf(terms.level);
        shelf.orders.insert(
            name,
            Order {
                account: terms.account,
                left: terms.quantity,
            },
        );
        shelf.queue.push_back(name);
        shelf.depth += u64::from(terms.quantity);
        self.level_of(name).map(|level| level.set(terms.level));
        Reply::Placed
    }

    fn cancel(&self, name: Name) -> Reply {
        let Some(&level) = self.level_of(name).and_then(OnceLock::get) else {
            return Reply::Gone;
        };
        let mut shelf = self.shelf(level);
        let Some(order) = shelf.orders.remove(&name) else {
            return Reply::Gone;
        };
        shelf.depth -= u64::from(order.left);
        Reply::Cancelled(order.left)
    }

    fn fill(&self, shelf: &mut Shelf, terms: Terms, parts: &mut Vec<Part>) -> Reply {
        let (mut trades, rest) = shelf.take(terms, self.places, parts);
        let count = trades.len();
        let taken = terms.quantity - rest;
        if taken != 0 {
            let side = match terms.level.side() {
                Side::Buy => Side::Sell,
                Side::Sell => Side::Buy,
            };
            trades.push(Trade {
                account: terms.account,
                quantity: taken.into(),
                side,
            });
            self.settle(&mut trades);
        }
        Reply::Filled {
            taken,
            rest,
            parts: count,
        }
    }

    /// Adds trades to their accounts.
    fn settle(&self, trades: &mut [Trade]) {
        trades.sort_unstable_by_key(|trade| trade.account);
        let mut held = Vec::with_capacity(trades.len());
        for same in trades.chunk_by(|one, next| one.account == next.account) {
            let mut sums = self.account(same[0].account);
            for trade in same {
                match trade.side {
                    Side::Buy => sums.bought += trade.quantity,
                    Side::Sell => sums.sold += trade.quantity,
                }
            }
            held.push(sums);
        }
    }

    fn kill(&self, terms: Terms, parts: &mut Vec<Part>) -> Reply {
        let mut shelf = self.shelf(terms.level);
        if shelf.left(self.places) < terms.quantity {
            return Reply::Killed;
        }
        self.fill(&mut shelf, terms, parts)
    }
}

fn main() -> io::Result<()> {
    let orders = read_input()?;
    let book = Book::new(&orders);
    let replies = play_all(&orders, |name, command, parts| {
        book.run(name, command, parts)
    });
    write_report(
        &replies,
        |level| book.shelf(level).depth,
        |account| *book.account(account),
    )
}
