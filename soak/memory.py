#!/usr/bin/env python3
"""Refuses the program's requests for memory, one in each run: python3 soak/memory.py PROGRAM

Each run must print the whole report, or `fault memory` with the status 6. A run may print the whole report although a
request was refused: the work of a thread that can't be started is done by the one that asked for it, and a list that
was refused room in advance asks again. A case is over once 40 runs in a row printed the whole report, or after 400
runs.

The requests are refused by a library (memory.rs, built by rustc) that is loaded before the program.
"""

import argparse
import collections
import os
import subprocess
import sys
import tempfile

HERE = os.path.dirname(os.path.abspath(__file__))
RECORDS = b"1,P,7,S,100,5\n1,F,8,S,100,3\n"
FIRST_WORDS = {RECORDS: b"1:1 placed\n1:2 filled 3 rest 0 from 1:1=3\n", b"": b"made 2000 placed "}
CASES = (
    ("--callers 1", RECORDS),
    ("--callers 2", RECORDS),
    ("--callers 2 --nodes 32", RECORDS),
    ("--make 7 --lines 2000 --callers 4", b""),
    ("--make 7 --lines 2000 --callers 4 --nodes 64 --tries 64", b""),
)
MOST_RUNS = 400
WHOLE_RUNS = 40


def run(program, words, orders, **variables):
    ran = subprocess.run(
        [program, *words.split()], input=orders, capture_output=True, timeout=120, env={**os.environ, **variables}
    )
    return ran.returncode, ran.stdout


def kinds_of_runs(program, library, words, orders):
    """How many runs of a case ended in each way."""
    whole = run(program, words, orders)
    if whole[0] != 0 or not whole[1].startswith(FIRST_WORDS[orders]):
        sys.exit(f"{words}: with all its memory the run ended with {whole[0]} and {whole[1][:200]}")
    kinds, in_a_row = collections.Counter(), 0
    for request in range(1, MOST_RUNS + 1):
        ended = run(program, words, orders, LD_PRELOAD=library, REFUSE=str(request))
        if ended == whole:
            kinds["whole report"] += 1
            in_a_row += 1
        elif ended == (6, b"fault memory\n"):
            kinds["fault memory"] += 1
            in_a_row = 0
        else:
            sys.exit(f"{words}: request {request} was refused, and the run ended with {ended[0]} and {ended[1][:200]}")
        if in_a_row == WHOLE_RUNS:
            break
    if not kinds["fault memory"]:
        sys.exit(f"{words}: no refusal changed anything, so the library refused nothing")
    return kinds


def main():
    words = argparse.ArgumentParser(description=__doc__, formatter_class=argparse.RawDescriptionHelpFormatter)
    words.add_argument("program")
    program = os.path.abspath(words.parse_args().program)
    with tempfile.TemporaryDirectory() as folder:
        library = os.path.join(folder, "memory.so")
        build = ["rustc", "-O", "--edition", "2024", "--crate-type", "cdylib", "-o", library]
        subprocess.run([*build, os.path.join(HERE, "memory.rs")], check=True)
        for case, orders in CASES:
            kinds = kinds_of_runs(program, library, case, orders)
            print(f"{case}: {', '.join(f'{kinds[kind]} {kind}' for kind in sorted(kinds))}", flush=True)


main()
