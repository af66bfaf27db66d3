//! Order files and reports, as the baselines read and write them.
//!
//! docs/order_files.md has the formats. Here a file has no quotes, and LF ends its lines.

use std::env;
use std::io::{self, Read, Write};
use std::process;

const PRICES: u16 = 1_000;
const MAX_QUANTITY: u32 = 1_000_000;
const MAX_LINE: u32 = 1_000_000;

/// How many levels there are.
pub const LEVELS: usize = 2 * PRICES as usize;

/// Accounts are numbered from 1, and are smaller than this.
pub const ACCOUNTS: u32 = 10_000;

#[derive(Clone, Copy, PartialEq, Eq)]
pub enum Side {
    Buy,
    Sell,
}

/// A side and a price. Levels are numbered from 0: the buy side comes first, and prices rise.
#[derive(Clone, Copy, PartialEq, Eq, Hash)]
pub struct Level(u16);

impl Level {
    pub fn index(self) -> usize {
        usize::from(self.0)
    }

    pub fn side(self) -> Side {
        if self.0 < PRICES {
            Side::Buy
        } else {
            Side::Sell
        }
    }
}

/// An order's name: the caller and the line that placed it, both from 1.
#[derive(Clone, Copy, PartialEq, Eq, Hash)]
pub struct Name {
    pub caller: u32,
    pub line: u32,
}

/// What an order, a fill and a kill name alike.
#[derive(Clone, Copy)]
pub struct Terms {
    pub account: u32,
    pub level: Level,
    pub quantity: u32,
}

#[derive(Clone, Copy)]
pub enum Command {
    Place(Terms),
    Cancel(Name),
    Fill(Terms),
    Kill(Terms),
    Depth(Level),
    Account(u32),
}

/// What an account bought and sold.
#[derive(Clone, Copy, Default)]
pub struct Sums {
    pub bought: u64,
    pub sold: u64,
}

#[derive(Clone, Copy)]
pub enum Reply {
    Placed,
    Cancelled(u32),
    Gone,
    Killed,
    /// What was taken and what remains, and in how many parts it was taken.
    Filled {
        taken: u32,
        rest: u32,
        parts: usize,
    },
    Depth(u64),
    Account(Sums),
}

/// What a fill took from one order.
#[derive(Clone, Copy)]
pub struct Part {
    pub order: Name,
    pub taken: u32,
}

/// The replies to a caller's lines, and the parts of its fills, one after another.
pub struct Replies {
    replies: Vec<Reply>,
    parts: Vec<Part>,
}

impl Replies {
    /// Plays the lines of a caller in order. `run` plays one, and adds the parts of a fill to the
    /// list.
    pub fn play(
        caller: u32,
        script: &[Command],
        mut run: impl FnMut(Name, Command, &mut Vec<Part>) -> Reply,
    ) -> Replies {
        let mut replies = Vec::with_capacity(script.len());
        let mut parts = Vec::new();
        for (line, &command) in (1..).zip(script) {
            replies.push(run(Name { caller, line }, command, &mut parts));
        }
        Replies { replies, parts }
    }
}

/// The commands of a file.
pub struct Orders {
    /// How many places of a level a fill or a kill looks at.
    pub places: usize,
    /// The lines of each caller.
    pub scripts: Vec<Vec<Command>>,
}

impl Orders {
    /// The callers and their scripts.
    pub fn callers(&self) -> impl Iterator<Item = (u32, &[Command])> {
        (1..).zip(self.scripts.iter().map(Vec::as_slice))
    }
}

/// Reads the orders on standard input. The program's one word is the number of callers; without it
/// there is one caller.
pub fn read_input() -> io::Result<Orders> {
    let callers = env::args()
        .nth(1)
        .map_or(1, |word| word.parse().expect("a number of callers"));
    let mut text = Vec::new();
    io::stdin().lock().read_to_end(&mut text)?;
    match read(&text, callers) {
        Ok(orders) => Ok(orders),
        Err(record) => {
            println!("fault line {record}");
            process::exit(3)
        }
    }
}

/// The orders of a text, or the number of the first record that breaks the grammar.
fn read(text: &[u8], callers: usize) -> Result<Orders, usize> {
    let (version_record, places) = if text.starts_with(b"medley,2\n") {
        (1, 12)
    } else {
        (0, 4)
    };
    let mut scripts = vec![Vec::new(); callers];
    let records = text
        .split(|&byte| byte == b'\n')
        .filter(|record| !record.is_empty());
    for (number, record) in (1_usize..).zip(records).skip(version_record) {
        let (caller, command) = read_record(record, callers).ok_or(number)?;
        scripts[caller].push(command);
    }
    Ok(Orders { places, scripts })
}

/// The caller of a record, counted from 0, and its command.
fn read_record(record: &[u8], callers: usize) -> Option<(usize, Command)> {
    let mut fields = record.split(|&byte| byte == b',');
    let caller = number(fields.next()?, callers as u32)? as usize - 1;
    let command = match fields.next()? {
        b"P" => Command::Place(terms(&mut fields)?),
        b"C" => Command::Cancel(name(&mut fields)?),
        b"F" => Command::Fill(terms(&mut fields)?),
        b"K" => Command::Kill(terms(&mut fields)?),
        b"D" => Command::Depth(level(&mut fields)?),
        b"A" => Command::Account(account(&mut fields)?),
        _ => return None,
    };
    fields.next().is_none().then_some((caller, command))
}

fn terms<'a>(fields: &mut impl Iterator<Item = &'a [u8]>) -> Option<Terms> {
    Some(Terms {
        account: account(fields)?,
        level: level(fields)?,
        quantity: number(fields.next()?, MAX_QUANTITY)?,
    })
}

fn name<'a>(fields: &mut impl Iterator<Item = &'a [u8]>) -> Option<Name> {
    Some(Name {
        caller: number(fields.next()?, 64)?,
        line: number(fields.next()?, MAX_LINE)?,
    })
}

fn level<'a>(fields: &mut impl Iterator<Item = &'a [u8]>) -> Option<Level> {
    let below = match fields.next()? {
        b"B" => 0,
        b"S" => PRICES,
        _ => return None,
    };
    let price = number(fields.next()?, PRICES.into())?;
    Some(Level(below + price as u16 - 1))
}

fn account<'a>(fields: &mut impl Iterator<Item = &'a [u8]>) -> Option<u32> {
    number(fields.next()?, ACCOUNTS - 1)
}

/// The number that a field writes, if it is from 1 to `most`.
fn number(field: &[u8], most: u32) -> Option<u32> {
    if field.len() > 10 {
        return None;
    }
    let mut value = 0;
    for byte in field {
        value = value * 10 + u64::from(byte.is_ascii_digit().then(|| byte - b'0')?);
    }
    (1..=u64::from(most))
        .contains(&value)
        .then_some(value as u32)
}

/// Writes the report on standard output: the replies of each caller, what is left at each level,
/// and what each account bought and sold.
pub fn write_report(
    all: &[Replies],
    depth: impl Fn(Level) -> u64,
    sums: impl Fn(u32) -> Sums,
) -> io::Result<()> {
    let mut report = Vec::new();
    for (caller, replies) in (1..).zip(all) {
        write_replies(&mut report, caller, replies)?;
    }
    for level in (0..2 * PRICES).map(Level) {
        write_level(&mut report, level, depth(level))?;
    }
    for account in 1..ACCOUNTS {
        write_account(&mut report, account, sums(account))?;
    }
    writeln!(
        report,
        "done {}",
        all.iter()
            .map(|replies| replies.replies.len())
            .sum::<usize>()
    )?;
    io::stdout().lock().write_all(&report)
}

fn write_replies(out: &mut Vec<u8>, caller: u32, all: &Replies) -> io::Result<()> {
    let mut left = all.parts.as_slice();
    for (line, reply) in (1..).zip(&all.replies) {
        write!(out, "{caller}:{line} ")?;
        match *reply {
            Reply::Placed => writeln!(out, "placed")?,
            Reply::Cancelled(left) => writeln!(out, "cancelled {left}")?,
            Reply::Gone => writeln!(out, "gone")?,
            Reply::Killed => writeln!(out, "killed")?,
            Reply::Filled { taken, rest, parts } => {
                let (told, after) = left.split_at(parts);
                left = after;
                write_fill(out, taken, rest, told)?;
            }
            Reply::Depth(depth) => writeln!(out, "depth {depth}")?,
            Reply::Account(Sums { bought, sold }) => writeln!(out, "bought {bought} sold {sold}")?,
        }
    }
    Ok(())
}

fn write_fill(out: &mut Vec<u8>, taken: u32, rest: u32, parts: &[Part]) -> io::Result<()> {
    write!(out, "filled {taken} rest {rest}")?;
    if !parts.is_empty() {
        write!(out, " from")?;
    }
    for Part { order, taken } in parts {
        write!(out, " {}:{}={taken}", order.caller, order.line)?;
    }
    writeln!(out)
}

fn write_level(out: &mut Vec<u8>, level: Level, depth: u64) -> io::Result<()> {
    if depth == 0 {
        return Ok(());
    }
    let side = if level.side() == Side::Buy { 'B' } else { 'S' };
    writeln!(out, "{side} {} {depth}", level.0 % PRICES + 1)
}

fn write_account(out: &mut Vec<u8>, account: u32, sums: Sums) -> io::Result<()> {
    let Sums { bought, sold } = sums;
    if bought == 0 && sold == 0 {
        return Ok(());
    }
    writeln!(out, "account {account} bought {bought} sold {sold}")
}
