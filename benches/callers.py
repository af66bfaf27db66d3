#!/usr/bin/env python3
"""Times the program with one caller and with several, beside three plain programs: python3 benches/callers.py PROGRAM

The plain programs are built from benches/baselines: maps (one thread), mutex (one lock round each command) and levels
(a lock for each level and account). All of them run on the files of files.py, in rounds: each round runs each program
on each file once. The tables tell medians, of whole runs that read, play and print. The load of the machine is told
first. The figures go to benches/figures.csv.

The reports of the first round are checked. Those of one caller are the same, byte for byte. Those of the program have
each line once, what was placed is what was cancelled, was filled and is left, and what was filled is what the orders
gave and what the accounts bought and sold.
"""

import argparse
import csv
import multiprocessing
import os
import re
import resource
import statistics
import subprocess
import sys
import tempfile
import time
from typing import NamedTuple

from files import HOSTILE, File, all_files

HERE = os.path.dirname(os.path.abspath(__file__))
BASELINES = ("maps", "mutex", "levels")

# A run that takes more seconds of the processors is ended, and counts as failed.
MOST_SECONDS = 600


class Case(NamedTuple):
    """A program on a file, and how many processors it may use: 0 for all."""

    program: str
    file: File
    processors: int = 0


class Figures(NamedTuple):
    """Seconds, seconds of the processors, and peak memory in MiB."""

    seconds: float
    processor: float
    memory: float


FAILED = Figures(float("nan"), float("nan"), float("nan"))


def all_cases(scale):
    """Each file with the programs that play it."""
    return [
        Case(program, file)
        for file in all_files(scale)
        for program in ("medley", "maps", "mutex", "levels")
        if program != "maps" or file.callers == 1
    ] + [Case(program, file, 2) for file in all_files(scale) if file.callers == 64 for program in ("medley", "mutex")]


class Bench:
    """The programs and the files, in a folder."""

    def __init__(self, program, scale, folder):
        self.program, self.folder = os.path.abspath(program), folder
        for name in BASELINES:
            source = os.path.join(HERE, "baselines", f"{name}.rs")
            subprocess.run(["rustc", "-O", "--edition", "2024", source, "-o", os.path.join(folder, name)], check=True)
        # The peak memory of a program counts at least as much as the process that starts it has ever had. So what
        # takes much memory is done in processes of their own.
        writer = os.path.join(HERE, "files.py")
        subprocess.run([sys.executable, writer, folder, str(scale)], check=True, stdout=subprocess.DEVNULL)

    def words(self, case):
        callers = str(case.file.callers)
        if case.program != "medley":
            return [os.path.join(self.folder, case.program), callers]
        return [self.program] if callers == "1" else [self.program, "--callers", callers]

    def report(self, case):
        return os.path.join(self.folder, f"{case.file.stem()}_{case.program}_{case.processors}.txt")

    def run(self, case):
        with open(case.file.path(self.folder)) as orders, open(self.report(case), "w") as report:
            start = time.perf_counter()
            child = subprocess.Popen(self.words(case), stdin=orders, stdout=report, preexec_fn=lambda: limit(case))
            _, status, usage = os.wait4(child.pid, 0)
            seconds = time.perf_counter() - start
        child.returncode = os.waitstatus_to_exitcode(status)
        if child.returncode != 0:
            print(f"{case} ended with status {child.returncode}", file=sys.stderr)
            return FAILED
        return Figures(seconds, usage.ru_utime + usage.ru_stime, usage.ru_maxrss / 1024)

    def check(self, cases):
        with multiprocessing.Pool(1) as pool:
            for case in cases:
                report, fault = self.report(case), None
                if case.program == "medley":
                    fault = pool.apply(fault_of, (case.file, case.file.path(self.folder), report))
                if case.file.callers == 1 and not fault:
                    fault = pool.apply(difference, (report, self.report(case._replace(program="maps"))))
                if fault:
                    sys.exit(f"the report of {case} {fault}")

    def measure(self, cases, rounds):
        """The median figures of each case."""
        taken = {case: [] for case in cases}
        for number in range(rounds):
            for case in cases:
                if FAILED not in taken[case]:
                    taken[case].append(self.run(case))
            if number == 0:
                self.check([case for case in cases if FAILED not in taken[case]])
        return {case: median(figures) for case, figures in taken.items()}


def limit(case):
    """Limits what this process may take of the processors."""
    resource.setrlimit(resource.RLIMIT_CPU, (MOST_SECONDS, MOST_SECONDS))
    if case.processors:
        os.sched_setaffinity(0, sorted(os.sched_getaffinity(0))[: case.processors])


def median(figures):
    return FAILED if FAILED in figures else Figures(*map(statistics.median, zip(*figures)))


def sum_of(pattern, text):
    return sum(map(int, re.findall(pattern, text, re.MULTILINE)))


def fault_of(file, orders, report):
    """What is wrong with a report, or None."""
    with open(orders, "rb") as orders, open(report, "rb") as report:
        orders, report = orders.read(), report.read()
    names = [tuple(map(int, name)) for name in re.findall(rb"^(\d+):(\d+) ", report, re.MULTILINE)]
    if names != sorted(map(file.dealt, range(file.count))):
        return "doesn't have each line once"
    placed = sum_of(rb",P,.*,(\d+)$", orders)
    cancelled, filled = sum_of(rb" cancelled (\d+)$", report), sum_of(rb" filled (\d+) ", report)
    left = sum_of(rb"^[BS] \d+ (\d+)$", report)
    taken = sum_of(rb"=(\d+)", report)
    bought, sold = sum_of(rb"^account \d+ bought (\d+)", report), sum_of(rb"^account .* sold (\d+)$", report)
    if placed != cancelled + filled + left or not filled == taken == bought == sold:
        return "doesn't add up"
    return None


def difference(report, other):
    with open(report, "rb") as report, open(other, "rb") as other:
        return None if report.read() == other.read() else "isn't that of maps"


def write_figures(path, figures):
    with open(path, "w", newline="") as sink:
        table = csv.writer(sink, lineterminator="\n")
        table.writerow(["program", "file", "commands", "callers", "seconds", "processor_seconds", "peak_mib"])
        for (program, file, processors), (seconds, processor, memory) in figures.items():
            if processors:
                continue
            row = [program, file.name, file.count, file.callers]
            table.writerow([*row, f"{seconds:.4f}", f"{processor:.4f}", f"{memory:.1f}"])


def print_table(title, heads, rows):
    print(f"\n{title}\n\n| {' | '.join(heads)} |\n|{'---|' * len(heads)}")
    for row in rows:
        print(f"| {' | '.join(row)} |")


def callers_of(file):
    return "1 caller" if file.callers == 1 else f"{file.callers} callers"


def largest(figures):
    """The files with the most commands, and the version record of some."""
    most = max(case.file.count for case in figures)
    return list(dict.fromkeys(case.file for case in figures if case.file.count >= most - 1))


def print_times(figures, files):
    """The program beside each baseline, and four callers beside one."""
    rows = []

    def add(file, against, other):
        ours, theirs = figures[Case("medley", file)], figures[other]
        ratios = (f"{ours.seconds / theirs.seconds:.2f}", f"{ours.processor / theirs.processor:.2f}")
        times = (f"{ours.seconds:.2f} s", f"{theirs.seconds:.2f} s")
        rows.append((f"{callers_of(file)}, {file.name}", against, *times, *ratios))

    for file in files:
        for name in ("maps",) if file.callers == 1 else ("mutex", "levels"):
            add(file, name, Case(name, file))
        if file.callers == 4:
            add(file, "the program, 1 caller", Case("medley", file._replace(callers=1)))
    print_table("Wall time", ["Run", "Against", "Program", "Other", "Ratio", "Ratio of processor time"], rows)


def print_memory(figures, files):
    rows = []
    for file in files:
        other = "maps" if file.callers == 1 else "mutex"
        ours, theirs = (figures[Case(name, file)].memory for name in ("medley", other))
        numbers = (f"{ours:.0f} MiB", f"{theirs:.0f} MiB", f"{ours / theirs:.2f}")
        rows.append((f"{callers_of(file)}, {file.name}", other, *numbers))
    print_table("Peak memory", ["Run", "Against", "Program", "Other", "Ratio"], rows)


def print_growth(figures):
    rows = []
    for program, callers in (("medley", 1), ("maps", 1), ("medley", 4), ("mutex", 4), ("levels", 4)):
        cases = [case for case in figures if case.program == program and case.file[::2] == ("spread", callers)]
        for case in sorted(cases, key=lambda case: case.file.count):
            seconds, _, memory = figures[case]
            each = seconds / case.file.count * 1e6
            numbers = (f"{case.file.count:,}", f"{seconds:.3f} s", f"{each:.2f} us", f"{memory:.0f} MiB")
            rows.append((program, str(callers), *numbers))
    print_table("Growth, spread", ["Program", "Callers", "Commands", "Time", "A command", "Memory"], rows)


def print_hostile(figures):
    rows = []
    for file in dict.fromkeys(case.file for case in figures if case.file.name in HOSTILE):
        ours, mutex, levels = (figures[Case(name, file)].seconds for name in ("medley", "mutex", "levels"))
        times = (f"{seconds:.3f} s" for seconds in (ours, mutex, levels))
        rows.append((f"{callers_of(file)}, {file.name}", *times, f"{ours / mutex:.2f}", f"{ours / levels:.2f}"))
    heads = ["Run", "Program", "mutex", "levels", "Over mutex", "Over levels"]
    print_table("Hostile files", heads, rows)


def print_two_processors(figures):
    rows = []
    for file in dict.fromkeys(case.file for case in figures if case.processors):
        ours, mutex = (figures[Case(name, file, 2)].seconds for name in ("medley", "mutex"))
        rows.append((file.name, f"{file.count:,}", f"{ours:.3f} s", f"{mutex:.3f} s", f"{ours / mutex:.2f}"))
    print_table("64 callers on two processors", ["File", "Commands", "Program", "mutex", "Over mutex"], rows)


def given():
    parser = argparse.ArgumentParser(description="Times the program with one caller and with several.")
    parser.add_argument("program", help="the program medley, built")
    parser.add_argument("--rounds", type=int, default=5, help="how many runs a median is of")
    parser.add_argument("--scale", type=int, default=1, help="what the number of commands is divided by")
    parser.add_argument("--figures", default=os.path.join(HERE, "figures.csv"), help="where the figures go")
    return parser.parse_args()


def main():
    asked = given()
    with tempfile.TemporaryDirectory() as folder:
        bench = Bench(asked.program, asked.scale, folder)
        load, processors = os.getloadavg()[0], os.cpu_count()
        print(f"load {load:.1f} on {processors} processors, medians of {asked.rounds} rounds", flush=True)
        figures = bench.measure(all_cases(asked.scale), asked.rounds)
    write_figures(asked.figures, figures)
    files = largest(figures)
    print_times(figures, files)
    print_memory(figures, files)
    print_growth(figures)
    print_hostile(figures)
    print_two_processors(figures)


if __name__ == "__main__":
    main()
