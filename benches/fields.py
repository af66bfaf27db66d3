#!/usr/bin/env python3
"""Times fields of the order book's numbers: 4 maps of 65,536 buckets and 2,000 queues.

The last row is the largest field of the program: 1,000,000 open orders, and 64 lanes with 262,144 nodes each. The rows
before it have one lane with one node, so that they show how time grows with the orders alone.

The program fills contents, lays them out as words, reads them off again, and lays the field anew. Each line tells
seconds, those of the processor and peak memory, each the least of three runs. The load of the machine is told first.
"""

import os
import subprocess
import time

ROWS = [
    (1_000, 1, 1),
    (10_000, 1, 1),
    (100_000, 1, 1),
    (1_000_000, 1, 1),
    (1_000_000, 64, 262_144),
]

PROGRAM = os.path.join(os.path.dirname(__file__), "..", "crates", "medley_bench", "out", "medley_bench")


def run(row):
    began = time.monotonic()
    child = subprocess.Popen([PROGRAM, "store", *map(str, row)], stdout=subprocess.PIPE)
    printed = child.stdout.read().decode().strip()
    _, status, usage = os.wait4(child.pid, 0)
    if status != 0:
        raise SystemExit("the program failed")
    return time.monotonic() - began, usage.ru_utime + usage.ru_stime, usage.ru_maxrss // 1024, printed


def main():
    print("load", *os.getloadavg())
    for row in ROWS:
        orders, lanes, nodes = row
        runs = [run(row) for _ in range(3)]
        seconds, processor, memory = (min(r[i] for r in runs) for i in range(3))
        told = f"{seconds:.2f} s, {processor:.2f} s of the processor, {memory} MiB, {runs[0][3]}"
        print(f"{orders:>9} orders, {lanes} lanes of {nodes} nodes: {told}")


main()
