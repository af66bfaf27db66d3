#!/usr/bin/env python3
"""Plays small order files on threads, again and again, and looks for orders that explain them.

    python3 soak/orders.py MINUTES

This is a test of md_program_tests, whose program `rt ci` has built before. Each run of it plays all its files, and the
threads meet in other ways each time. It runs in several processes at once. The first failure ends the search.
"""

import argparse
import os
import re
import subprocess
import sys
import time
from concurrent.futures import ThreadPoolExecutor

HERE = os.path.dirname(os.path.abspath(__file__))
CRATE = os.path.join(HERE, "..", "crates", "md_program_tests")
PROGRAM = os.path.join(CRATE, "out", "md_program_tests_tests")
TEST = "tests::witnesses::explained::an_order_explains_each_file"


def files_of_a_run():
    with open(os.path.join(CRATE, "src", "tests", "witnesses", "explained.rt")) as source:
        return int(re.search(r"const FILES: u64 = ([\d_]+);", source.read())[1])


def runs_until(end):
    """Runs the test until then, at least once, and says how often."""
    runs = 0
    while runs == 0 or time.monotonic() < end:
        ran = subprocess.run([PROGRAM, TEST], capture_output=True, text=True)
        if ran.returncode != 0:
            print(ran.stdout + ran.stderr, flush=True)
            os._exit(1)
        runs += 1
    return runs


def main():
    words = argparse.ArgumentParser(description=__doc__, formatter_class=argparse.RawDescriptionHelpFormatter)
    words.add_argument("minutes", type=float)
    minutes = words.parse_args().minutes
    if not os.path.exists(PROGRAM):
        sys.exit("md_program_tests has not been built: run rt ci first")
    processes = max(1, len(os.sched_getaffinity(0)) - 1)
    end = time.monotonic() + 60 * minutes
    with ThreadPoolExecutor(processes) as pool:
        runs = sum(pool.map(runs_until, [end] * processes))
    print(f"{runs} runs of {files_of_a_run()} files in {minutes:g} minutes: each has an order that explains it")


main()
