#!/usr/bin/env python3
"""Runs the microbenchmark of Cai, Wen and Scott's transactions, beside the same operations without transactions.

A hash table has 1,048,576 buckets and keys below 1,000,000, of which half are there at first. Each thread runs
transactions of 1 to 10 operations: of 2 operations one is an insert and one a remove (0:1:1), or there are 2 or 18 gets
beside them (2:1:1, 18:1:1). The programs are

- medley: `medley_bench transactions`, whose store has a lane for each thread, and two for one thread;
- one lane: the same with one thread and one lane, whose words are private;
- lockfree: the operations one after another on Michael's table of plain atomics, without transactions;
- locks: the same table under 4,096 locks, which a transaction takes in order;
- shards: 4,096 maps of std, each with a lock, taken in order;
- mutex: one map of std, with one lock round each transaction.

All draw the same operations, and only the threads are timed. With one thread all find and change equally often, or the
script stops. It builds the programs (rt and rustc), runs each once in a round, and tells medians: the nanoseconds of
an operation by the clock, for a thread, and by the processors, and both over those of lockfree. The load of the
machine is told first.
"""

import argparse
import os
import statistics
import subprocess
import tempfile

HERE = os.path.dirname(os.path.abspath(__file__))
CRATE = os.path.join(HERE, "..", "crates", "medley_bench")
OURS = os.path.join(CRATE, "out", "medley_bench")
PROGRAMS = ("medley", "one lane", "lockfree", "locks", "shards", "mutex")
BASE = "lockfree"
RATIOS = (0, 2, 18)
THREADS = (1, 2, 4)
# A transaction has 5.5 operations on average.
OPERATIONS = 5.5


def build(folder):
    run_nothing = ["rt", "run", "--", "loads", "0"]
    subprocess.run(run_nothing, cwd=CRATE, check=True, stdout=subprocess.DEVNULL, stderr=subprocess.DEVNULL)
    plain = os.path.join(folder, "micro")
    options = ["--edition", "2024", "-C", "opt-level=3", "-C", "codegen-units=1", "-C", "panic=abort"]
    subprocess.run(["rustc", *options, os.path.join(HERE, "micro", "main.rs"), "-o", plain], check=True)
    return plain


def words_of(program, plain, threads, transactions, gets):
    if program not in ("medley", "one lane"):
        return [plain, program, threads, transactions, gets]
    lanes = 1 if program == "one lane" else max(2, threads)
    # One operation in `gets + 2` is an insert, and half of the inserts add a key.
    nodes = transactions * 3 // (gets + 2) + 10_000
    return [OURS, "transactions", threads, lanes, transactions, gets, nodes]


def run(program, plain, threads, transactions, gets):
    """The nanoseconds of the clock and of the processors, and how often an operation found or changed something."""
    words = [str(it) for it in words_of(program, plain, threads, transactions, gets)]
    ran = subprocess.run(words, capture_output=True, text=True)
    if ran.returncode != 0:
        raise SystemExit(f"{' '.join(words)} failed: {ran.stderr}")
    # Ours tells the times apart, since its output is always the same.
    nanos, processor, done, hits = (int(it) for it in (ran.stderr + ran.stdout).split())
    if done != threads * transactions:
        raise SystemExit(f"{' '.join(words)} ran {done} transactions")
    return nanos, processor, hits


def measure(plain, rounds, transactions):
    """The times of an operation in each round, by the program, the number of threads and the number of gets."""
    cases = [(it, threads, gets) for gets in RATIOS for threads in THREADS for it in PROGRAMS]
    cases = [it for it in cases if it[0] != "one lane" or it[1] == 1]
    times, hits = {it: [] for it in cases}, {}
    for _ in range(rounds):
        for case in cases:
            program, threads, gets = case
            nanos, processor, hit = run(program, plain, threads, transactions, gets)
            if threads == 1 and hits.setdefault(gets, hit) != hit:
                raise SystemExit(f"{case}: {hit} hits, and {hits[gets]} by another program")
            operations = threads * transactions * OPERATIONS
            times[case].append((nanos * threads / operations, processor / operations))
    return times


def median(times, case, which):
    return statistics.median(it[which] for it in times[case]) if case in times else None


def tell(times, gets):
    print(f"\n| {gets}:1:1 | " + " | ".join(f"{it} thread{'s' * (it > 1)}" for it in THREADS) + " |")
    print("|---" * (len(THREADS) + 1) + "|")
    for program in PROGRAMS:
        cells = []
        for threads in THREADS:
            mine = [median(times, (program, threads, gets), which) for which in (0, 1)]
            base = [median(times, (BASE, threads, gets), which) for which in (0, 1)]
            told = "{:.0f} and {:.0f} ns; {:.2f} and {:.2f}"
            cells.append("" if mine[0] is None else told.format(*mine, *(a / b for a, b in zip(mine, base))))
        print(f"| {program} | " + " | ".join(cells) + " |")


def tell_means(times):
    """The geometric mean of medley over the base, which Cai, Wen and Scott (2023) give as about 2.2 for all of theirs."""
    print()
    for threads in THREADS:
        ratios = [[median(times, (it, threads, gets), 1) for it in ("medley", BASE)] for gets in RATIOS]
        mean = statistics.geometric_mean(a / b for a, b in ratios)
        print(f"medley over {BASE}, processor time, mean of the ratios, threads {threads}: {mean:.2f}")


def main():
    parser = argparse.ArgumentParser(description=__doc__.splitlines()[0])
    parser.add_argument("--rounds", type=int, default=5, help="how many runs a median is of")
    parser.add_argument("--transactions", type=int, default=1_000_000, help="how many a thread runs")
    given = parser.parse_args()
    with tempfile.TemporaryDirectory() as folder:
        plain = build(folder)
        print(f"load {os.getloadavg()[0]:.1f} on {os.cpu_count()} processors, {given.transactions:,} transactions")
        times = measure(plain, given.rounds, given.transactions)
        for gets in RATIOS:
            tell(times, gets)
        tell_means(times)


main()
