#!/usr/bin/env python3
"""Times steps of one pass against atomics of std: 10,000,000 loads, and 10,000,000 exchanges that win.

It builds medley_bench and the Rust program of the same loops (steps.rs, by rustc). A turn of a loop makes eight loads
or four exchanges, since the loop's own count and its place in the code cost as much as a step. Both programs run in
turns. A row tells the median processor time of a step in nanoseconds, less that of a run without steps, and the ratio
of the two. The load of the machine is told first.
"""

import os
import statistics
import subprocess
import tempfile

HERE = os.path.dirname(os.path.abspath(__file__))
CRATE = os.path.join(HERE, "..", "crates", "medley_bench")
OURS = os.path.join(CRATE, "out", "medley_bench")
STEPS = 10_000_000
RUNS = 51


def build(folder):
    subprocess.run(["rt", "run", "--", "loads", "0"], cwd=CRATE, check=True, stdout=subprocess.DEVNULL)
    theirs = os.path.join(folder, "steps")
    subprocess.run(["rustc", "-O", os.path.join(HERE, "steps.rs"), "-o", theirs], check=True)
    return theirs


def seconds(program, work, steps):
    child = subprocess.Popen([program, work, str(steps)], stdout=subprocess.DEVNULL)
    _, status, usage = os.wait4(child.pid, 0)
    child.returncode = os.waitstatus_to_exitcode(status)
    if child.returncode != 0:
        raise SystemExit("a program failed")
    return usage.ru_utime + usage.ru_stime


def main():
    with tempfile.TemporaryDirectory() as folder:
        theirs = build(folder)
        print(f"load {os.getloadavg()[0]:.1f} on {os.cpu_count()} processors, {STEPS:,} steps")
        for work in ("loads", "exchanges"):
            cases = [(program, steps) for program in (OURS, theirs) for steps in (0, STEPS)]
            runs = [[seconds(program, work, steps) for program, steps in cases] for _ in range(RUNS)]
            medians = [statistics.median(column) for column in zip(*runs)]
            ours, std = ((medians[i + 1] - medians[i]) / STEPS * 1e9 for i in (0, 2))
            print(f"{work}: {ours:.2f} ns a step, std {std:.2f} ns, ratio {ours / std:.2f}")


main()
