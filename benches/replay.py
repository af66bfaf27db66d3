#!/usr/bin/env python3
"""Times the program on 1,000,000 records, over all accounts, sides and prices.

There are three mixes of commands: half Place and half Depth; half Place, a fifth Fill, and a tenth each of Cancel,
Depth and Account; and all six kinds, in a file of version 2 that is half Place, a fifth Fill, a tenth each of Kill
and Cancel, and a twentieth each of Depth and Account. Each file is run as it is, and with a bad record in place of
its last, so that the program reads and parses and then stops: the difference is what playing and reporting take.

The places for replies are taken before the first line is played. Each mix tells how much memory they take: this is
counted by the kinds of its lines, and not measured. Two more files show it by measurement: fills of an empty book in
version 1 and in version 2. They differ only in the places of each reply, so the difference of their peaks is what
eight more parts a line take, which is 64 bytes.

Each line tells seconds, seconds of a processor and peak memory, each the least of three runs. The load of the machine
is told first.
"""

import os
import random
import subprocess
import sys
import tempfile
import time

PROGRAM = os.path.join(os.path.dirname(__file__), "..", "crates", "medley", "out", "medley")
LINES = 1_000_000

# What a reply's place takes: a head of 8 bytes, a start of 4 and a size of 2, and 8 for each number that a reply to the
# command can need. A fill and a kill need one number and one for each place that they look at.
PLACE_BYTES = 14
NUMBERS = {"P": 0, "C": 0, "D": 1, "A": 2}
PLACES = {"": 4, "medley,2\n": 12}


def order(random, kind, line):
    side, price = random.choice("BS"), random.randint(1, 1000)
    account, quantity = random.randint(1, 9999), random.randint(1, 1_000_000)
    if kind == "C":
        return f"1,C,1,{random.randint(1, line)}\n"
    if kind == "D":
        return f"1,D,{side},{price}\n"
    if kind == "A":
        return f"1,A,{account}\n"
    return f"1,{kind},{account},{side},{price},{quantity}\n"


def write(path, version, kinds, last):
    chosen = random.Random(1)
    with open(path, "w") as file:
        file.write(version)
        lines = LINES - bool(version) - bool(last)
        file.writelines(order(chosen, chosen.choice(kinds), line) for line in range(1, lines + 1))
        file.write(last)


def places_bytes(version, kinds):
    numbers = sum(NUMBERS.get(kind, PLACES[version] + 1) for kind in kinds) / len(kinds)
    return LINES * (PLACE_BYTES + 8 * numbers)


def run(program, path, wanted):
    with open(path) as orders, tempfile.TemporaryFile() as report:
        start = time.perf_counter()
        child = subprocess.Popen([program], stdin=orders, stdout=report)
        _, status, usage = os.wait4(child.pid, 0)
        seconds = time.perf_counter() - start
    child.returncode = os.waitstatus_to_exitcode(status)
    if child.returncode != wanted:
        sys.exit(f"the program ended with status {child.returncode}")
    return seconds, usage.ru_utime + usage.ru_stime, usage.ru_maxrss / 1024


def main():
    program = sys.argv[1] if len(sys.argv) > 1 else PROGRAM
    print(f"load {os.getloadavg()[0]:.1f} on {os.cpu_count()} processors, {LINES:,} lines")
    with tempfile.TemporaryDirectory() as folder:
        path = os.path.join(folder, "orders.csv")
        mixes = (
            ("Place and Depth", "", "PD"),
            ("five kinds", "", "PPPPPFFCDA"),
            ("six kinds, version 2", "medley,2\n", "PPPPPPPPPPFFFFKKCCDA"),
            ("Fill of an empty book, version 1", "", "F"),
            ("Fill of an empty book, version 2", "medley,2\n", "F"),
        )
        for mix, version, kinds in mixes:
            print(f"{mix}, places for replies by count: {places_bytes(version, kinds) / 2**20:.0f} MiB")
            for work, last, status in (("read, run and reported", "", 0), ("read and parsed alone", "bad\n", 3)):
                write(path, version, kinds, last)
                runs = [run(program, path, status) for _ in range(3)]
                seconds, busy, peak = (min(column) for column in zip(*runs))
                print(f"{mix}, {work}: {seconds:.2f} s, {busy:.2f} s of a processor, {peak:.0f} MiB")


main()
