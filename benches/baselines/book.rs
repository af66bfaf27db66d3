//! The order book over maps and queues of std, for one thread at a time.

use crate::orders::{Command, LEVELS, Level, Name, Part, Reply, Side, Sums, Terms};
use std::collections::hash_map::Entry;
use std::collections::{HashMap, VecDeque};

struct Order {
    account: u32,
    level: Level,
    left: u32,
}

/// The four maps of a book, and a queue of names for each level. The name of a cancelled order
/// stays in its queue.
pub struct Book {
    /// How many places of a level a fill or a kill looks at.
    places: usize,
    orders: HashMap<Name, Order>,
    depths: HashMap<Level, u64>,
    bought: HashMap<u32, u64>,
    sold: HashMap<u32, u64>,
    queues: Vec<VecDeque<Name>>,
}

impl Book {
    pub fn new(places: usize) -> Book {
        Book {
            places,
            orders: HashMap::new(),
            depths: HashMap::new(),
            bought: HashMap::new(),
            sold: HashMap::new(),
            queues: vec![VecDeque::new(); LEVELS],
        }
    }

    /// Runs the command at the line of this name. The parts of a fill are added to the list.
    pub fn run(&mut self, name: Name, command: Command, parts: &mut Vec<Part>) -> Reply {
        match command {
            Command::Place(terms) => self.place(name, terms),
            Command::Cancel(name) => self.cancel(name),
            Command::Fill(terms) => self.fill(terms, parts),
            Command::Kill(terms) => self.kill(terms, parts),
            Command::Depth(level) => Reply::Depth(self.depth(level)),
            Command::Account(account) => Reply::Account(self.sums(account)),
        }
    }

    /// What is left at a level.
    pub fn depth(&self, level: Level) -> u64 {
        self.depths.get(&level).copied().unwrap_or(0)
    }

    /// What an account bought and sold.
    pub fn sums(&self, account: u32) -> Sums {
        let sum = |map: &HashMap<u32, u64>| map.get(&account).copied().unwrap_or(0);
        Sums {
            bought: sum(&self.bought),
            sold: sum(&self.sold),
        }
    }

    fn place(&mut self, name: Name, terms: Terms) -> Reply {
        let Terms {
            account,
            level,
            quantity,
        } = terms;
        self.orders.insert(
            name,
            Order {
                account,
                level,
                left: quantity,
            },
        );
        self.queues[level.index()].push_back(name);
        *self.depths.entry(level).or_default() += u64::from(quantity);
        Reply::Placed
    }

    fn cancel(&mut self, name: Name) -> Reply {
        let Some(order) = self.orders.remove(&name) else {
            return Reply::Gone;
        };
        *self.depths.entry(order.level).or_default() -= u64::from(order.left);
        Reply::Cancelled(order.left)
    }

    fn fill(&mut self, terms: Terms, parts: &mut Vec<Part>) -> Reply {
        let (makers, takers) = match terms.level.side() {
            Side::Buy => (&mut self.bought, &mut self.sold),
            Side::Sell => (&mut self.sold, &mut self.bought),
        };
        let queue = &mut self.queues[terms.level.index()];
        let before = parts.len();
        let mut rest = terms.quantity;
        for _ in 0..self.places {
            let Some(&name) = queue.front().filter(|_| rest != 0) else {
                break;
            };
            let Entry::Occupied(mut order) = self.orders.entry(name) else {
                queue.pop_front();
                continue;
            };
            let taken = rest.min(order.get().left);
            rest -= taken;
            parts.push(Part { order: name, taken });
            *makers.entry(order.get().account).or_default() += u64::from(taken);
            order.get_mut().left -= taken;
            if order.get().left == 0 {
                order.remove();
                queue.pop_front();
            }
        }
        let taken = terms.quantity - rest;
        if taken != 0 {
            *takers.entry(terms.account).or_default() += u64::from(taken);
            *self.depths.entry(terms.level).or_default() -= u64::from(taken);
        }
        Reply::Filled {
            taken,
            rest,
            parts: parts.len() - before,
        }
    }

    fn kill(&mut self, terms: Terms, parts: &mut Vec<Part>) -> Reply {
        let names = self.queues[terms.level.index()].iter().take(self.places);
        let left: u32 = names
            .filter_map(|name| self.orders.get(name))
            .map(|order| order.left)
            .sum();
        if left < terms.quantity {
            return Reply::Killed;
        }
        self.fill(terms, parts)
    }
}
