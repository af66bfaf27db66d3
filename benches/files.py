#!/usr/bin/env python3
"""Writes the order files of callers.py into a folder: python3 benches/files.py FOLDER [SCALE]

A file is made from a seed, so that it is the same each time. Its commands are dealt to the callers in turn: command i,
from 0, is of caller i mod callers + 1. So two files that differ only in their callers have the same commands. SCALE
divides the number of commands; it is 1 if it is absent.
"""

import os
import random
import sys
from typing import NamedTuple

ACCOUNTS = range(1, 10_000)
PRICES = range(1, 1_001)
TEN_PRICES = range(496, 506)
QUANTITIES = range(1, 1_001)

# The kinds of commands in a mix, each as often as it is drawn.
FIVE_KINDS = "PPPPPFFCDA"
SIX_KINDS = "PPPPPPPPPPFFFFKKCCDA"


class Command(NamedTuple):
    kind: str
    account: int = 0
    side: str = ""
    price: int = 0
    quantity: int = 0
    # The command that placed the order to cancel, counted from 0.
    placed: int = 0


def mixed(count, kinds, prices):
    """Commands of these kinds over all accounts, both sides and these prices. A cancel names any order that was placed
    before."""
    chosen = random.Random(1)
    orders = []
    for i in range(count):
        kind = chosen.choice(kinds)
        if kind == "C" and not orders:
            kind = "P"
        if kind == "P":
            orders.append(i)
        terms = (chosen.choice(ACCOUNTS), chosen.choice("BS"), chosen.choice(prices), chosen.choice(QUANTITIES))
        yield Command(kind, *terms, chosen.choice(orders) if kind == "C" else 0)


def cancelled_chains(count):
    """Half of the commands place orders, and the others cancel them in the same order.

    The names of the orders that 64 callers place at a line agree in their last 32 bits, and all callers cancel them at
    about the same time. With a number of buckets that is a power of two, these 64 keys would meet in one bucket.
    """
    half = count // 2
    for i in range(half):
        yield Command("P", ACCOUNTS[i % len(ACCOUNTS)], "BS"[i % 2], PRICES[i % len(PRICES)], 10)
    for i in range(half):
        yield Command("C", placed=i)


def dead_level(count):
    """Two fifths of the commands place orders at one level, as many cancel them, and then fills meet dead places."""
    orders = 2 * count // 5
    for i in range(orders):
        yield Command("P", ACCOUNTS[i % len(ACCOUNTS)], "S", 500, 10)
    for i in range(orders):
        yield Command("C", placed=i)
    for i in range(count - 2 * orders):
        yield Command("F", ACCOUNTS[i % len(ACCOUNTS)], "S", 500, 10)


def one_account(count):
    """One account places and fills at all levels, so that each fill changes the same two sums."""
    chosen = random.Random(1)
    for _ in range(count):
        yield Command(chosen.choice("PF"), 7, chosen.choice("BS"), chosen.choice(PRICES), chosen.choice(QUANTITIES))


def one_level(count):
    """All accounts place and fill at one level."""
    chosen = random.Random(1)
    for _ in range(count):
        yield Command(chosen.choice("PF"), chosen.choice(ACCOUNTS), "S", 500, chosen.choice(QUANTITIES))


def lone_caller(count):
    """All kinds of commands over the whole book, all of them of the first caller."""
    return mixed(count, SIX_KINDS, PRICES)


# What makes so many commands, by the name of a file.
MAKERS = {
    "spread": lambda count: mixed(count, FIVE_KINDS, PRICES),
    "hot": lambda count: mixed(count, FIVE_KINDS, TEN_PRICES),
    "six kinds, spread": lambda count: mixed(count, SIX_KINDS, PRICES),
    "six kinds, hot": lambda count: mixed(count, SIX_KINDS, TEN_PRICES),
    "cancelled chains": cancelled_chains,
    "dead level": dead_level,
    "one account": one_account,
    "one level": one_level,
    "lone caller": lone_caller,
}

HOSTILE = ("cancelled chains", "lone caller", "dead level", "one account", "one level")


class File(NamedTuple):
    """An order file: what its commands are, how many, of how many callers, and the version."""

    name: str
    count: int
    callers: int
    version: int = 1

    def stem(self):
        return f"{self.name.replace(', ', '_').replace(' ', '_')}_{self.count}_{self.callers}"

    def path(self, folder):
        return os.path.join(folder, f"{self.stem()}.csv")

    def write(self, folder):
        with open(self.path(folder), "w") as file:
            if self.version == 2:
                file.write("medley,2\n")
            file.writelines(map(self.record, range(self.count), MAKERS[self.name](self.count)))

    def record(self, i, command):
        """The record of command i."""
        caller, _ = self.dealt(i)
        kind, account, side, price, quantity, placed = command
        if kind == "C":
            of, line = self.dealt(placed)
            return f"{caller},C,{of},{line}\n"
        if kind == "D":
            return f"{caller},D,{side},{price}\n"
        if kind == "A":
            return f"{caller},A,{account}\n"
        return f"{caller},{kind},{account},{side},{price},{quantity}\n"

    def dealt(self, i):
        """The caller and the line of command i."""
        if self.name == "lone caller":
            return 1, i + 1
        return i % self.callers + 1, i // self.callers + 1


def all_files(scale=1):
    """The files of the benchmark. In version 2 the first record counts as one of 1,000,000."""
    million, fewer = 1_000_000 // scale, 250_000 // scale
    return [
        *(File(name, million, callers) for callers in (1, 2, 4) for name in ("spread", "hot")),
        *(File("spread", million // part, callers) for callers in (1, 4) for part in (100, 10)),
        File("six kinds, spread", million - 1, 1, 2),
        *(File("six kinds, hot", million // part - 1, 64, 2) for part in (10, 1)),
        *(File(name, fewer, 64, 2) for name in HOSTILE[:2]),
        *(File(name, fewer, 4) for name in HOSTILE[2:]),
    ]


def main():
    folder = sys.argv[1]
    os.makedirs(folder, exist_ok=True)
    for file in all_files(int(sys.argv[2]) if len(sys.argv) > 2 else 1):
        file.write(folder)
        print(file.path(folder))


if __name__ == "__main__":
    main()
