#!/usr/bin/env python3
"""Draws the pictures of the documents as SVG files beside this script: `python3 docs/pictures/draw.py`.

The architecture, the life of a descriptor and the words of a transaction are drawn from the texts below. The chart of
speed is drawn from benches/figures.csv if that file exists. Its first column is the number of callers, and each other
column is one line of the chart, named by its heading.
"""

import csv
import html
import os

HERE = os.path.dirname(os.path.abspath(__file__))
FIGURES = os.path.join(HERE, "..", "..", "benches", "figures.csv")
FONT = "font-family='DejaVu Sans, Verdana, sans-serif'"
INK, FAINT = "#222222", "#777777"
COLOURS = {"program": "#dce9f7", "contract": "#fbe8c8", "code": "#ddf0dd", "law": "#eee4f3", "plain": "#ffffff",
           "odd": "#f9d5d0", "ready": "#fbe8c8", "done": "#ddf0dd", "outside": "#eeeeee"}

# The families of crates.txt, the highest first: on each line a family, and its boxes `kind: names = what they are`, with
# `|` between them. A line without a family is a band between two families.
LAYERS = """
The program|program: medley, md_program = the program and its run|program: md_program_edge = words, input and output|program: md_program_play = order files over a store
The order book|program: md_book = commands and the book|program: md_match = matching orders|program: md_orders = order files|program: md_report, md_report_replies = replies and reports|program: md_rounds, md_feed_lines = the book's lines
The library's entry|program: medley_transactions = what a program names|program: example_bank, example_bank_day = transfers|program: example_jobs, example_jobs_shift = jobs and workers
Callers|program: md_many = lines of callers in threads, over any engine|program: md_many_attempts = the attempts of one caller
|contract: the trait Engine of md_history = all that the families above know of a store
The store|code: md_store, md_store_bodies = maps and queues, for several threads|law: md_store_law, md_store_layout = a store's words and contents|law: md_store_counts = words and nodes, by acts
Structures|code: md_list = get, insert, remove|code: md_queue = enqueue, dequeue, front, line|law: md_list_law, md_hash_law, md_queue_law = structures as theories
Transactions on words|code: md_nbtc, md_nbtc_sets = begin, load, exchange, ready, decide|law: md_nbtc_law = what their steps leave|law: md_nbtc_first = counts in a first attempt
The rule|code: md_rule, md_rule_lanes = steps on atomic words, each an event of the machine|code: md_arena = takes nodes and attempts|code: md_help = clears descriptors
The machine|law: md_machine, md_machine_schedules = the theorem over all lists of events|law: md_words = words and their addresses
Histories|contract: md_history = bodies, histories, the trait Engine, and PlainStore, the store for one thread
Streams|contract: md_outside = what a read and a write of the outside do
"""

KINDS = [("program", "programs and callers"), ("contract", "contracts between layers"), ("code", "code of the store"),
         ("law", "definitions and laws")]

# The words of the example in concurrency.md, by moments: who acts, what happens, and what each word has then.
WORDS = ["word 1: head of bucket 0", "word 7: next word of node 1", "word 4: tail of the queue", "status of A"]
MOMENTS = """
 |before|0, 0|0, 0|2, 0|InPrep
A|installs in word 1|odd: A, slot 0|0, 0|2, 0|InPrep
A|installs in word 7|odd: A, slot 0|odd: A, slot 1|2, 0|InPrep
A|ready step|odd: A, slot 0|odd: A, slot 1|2, 0|ready: InProg
B|commits A|odd: A, slot 0|odd: A, slot 1|2, 0|done: Committed
B|clears word 1|done: 6, 2|odd: A, slot 1|2, 0|done: Committed
A|clears word 7|done: 6, 2|done: 8, 2|2, 0|done: Committed
A|moves the tail|done: 6, 2|done: 8, 2|done: 8, 2|done: Committed
"""


def text(x, y, words, size=13, anchor="middle", colour=INK, weight="normal"):
    return (f"<text x='{x:.1f}' y='{y:.1f}' font-size='{size}' text-anchor='{anchor}' fill='{colour}' "
            f"font-weight='{weight}' {FONT}>{html.escape(words)}</text>")


def box(x, y, wide, high, kind, corner=5):
    return (f"<rect x='{x:.1f}' y='{y:.1f}' width='{wide:.1f}' height='{high:.1f}' rx='{corner}' "
            f"fill='{COLOURS[kind]}' stroke='{FAINT}' stroke-width='1'/>")


def path(route, head=True):
    end = " marker-end='url(#head)'" if head else ""
    return f"<path d='{route}' fill='none' stroke='{INK}' stroke-width='1.4'{end}/>"


def wrap(words, wide, size):
    """The words in lines that fit, by the width of an average letter."""
    lines, most = [""], max(1, int(wide / (size * 0.60)))
    for word in words.split():
        if lines[-1] and len(lines[-1]) + 1 + len(word) > most:
            lines.append("")
        lines[-1] = (lines[-1] + " " + word).strip()
    return lines


def save(name, wide, high, parts, title):
    head = ("<defs><marker id='head' viewBox='0 0 10 10' refX='9' refY='5' markerWidth='7' markerHeight='7' "
            f"orient='auto-start-reverse'><path d='M0 0 L10 5 L0 10 z' fill='{INK}'/></marker></defs>")
    with open(os.path.join(HERE, name), "w", encoding="utf-8") as file:
        file.write(f"<svg xmlns='http://www.w3.org/2000/svg' width='{wide}' height='{high}' "
                   f"viewBox='0 0 {wide} {high}' role='img'>\n<title>{html.escape(title)}</title>\n{head}\n"
                   f"<rect width='{wide}' height='{high}' fill='#ffffff'/>\n" + "\n".join(parts) + "\n</svg>\n")


def layer_box(x, y, wide, high, part):
    kind, rest = part.split(": ", 1)
    names, what = rest.split(" = ", 1)
    lines = [(line, 12.5, "bold") for line in wrap(names, wide - 12, 13)]
    lines += [(line, 11.5, "normal") for line in wrap(what, wide - 12, 11.5)]
    first = y + high / 2 + 4 - 7.5 * (len(lines) - 1)
    return [box(x, y, wide, high, kind)] + [text(x + wide / 2, first + 15 * i, line, size, weight=weight)
                                            for i, (line, size, weight) in enumerate(lines)]


def architecture():
    wide, gap, left, label = 960, 10, 20, 120
    parts, y = [], 16
    for row in LAYERS.strip().splitlines():
        family, *boxes = row.split("|")
        high, heading = (68, wrap(family, label, 12.5)) if family else (44, [])
        parts += [text(left, y + high / 2 + 4 - 7.5 * (len(heading) - 1) + 15 * i, line, 12.5, "start")
                  for i, line in enumerate(heading)]
        start = left + label
        each = (wide - left - start - gap * (len(boxes) - 1)) / len(boxes)
        for i, part in enumerate(boxes):
            parts += layer_box(start + i * (each + gap), y, each, high, part)
        y += high + gap
    x = left + label
    for kind, means in KINDS:
        parts += [box(x, y + 2, 16, 16, kind, 2), text(x + 23, y + 15, means, 12, "start")]
        x += 60 + 7.0 * len(means)
    save("architecture.svg", wide, y + 34, parts, "The crates by families: each stands on crates beside it and below it")


def state(x, y, name, below, kind):
    parts = [box(x - 68, y - 26, 136, 52, kind, 24), text(x, y - 2, name, 15, weight="bold")]
    return parts + [text(x, y + 16, below, 11)]


def descriptor():
    parts = state(90, 130, "InPrep", "serial s", "plain") + state(350, 130, "InProg", "serial s", "ready")
    parts += state(620, 60, "Committed", "serial s", "done") + state(620, 200, "Aborted", "serial s", "odd")
    parts += state(880, 130, "InPrep", "serial s + 1", "plain")
    parts += [path("M158 130 L280 130"), text(219, 121, "ready, by the owner", 11.5)]
    parts += [path("M404 112 C450 90 490 70 550 62"), text(440, 50, "commit, by anybody:", 11.5),
              text(440, 65, "all records stand", 11.5)]
    parts += [path("M404 148 C450 170 490 188 550 197"), text(500, 150, "abort, by anybody:", 11.5),
              text(500, 165, "a record moved", 11.5)]
    parts += [path("M90 156 C110 262 400 262 556 216"),
              text(300, 262, "abort, by anybody who meets it before it is ready", 11.5)]
    parts += [path("M689 68 C740 76 790 92 828 110"), text(800, 70, "start, by the owner", 11.5)]
    parts += [path("M689 192 C740 184 790 168 828 150"), text(800, 198, "start, by the owner", 11.5)]
    notes = ["From its install on, the descriptor stands in each word that the transaction changes.",
             "Once it is Committed these words stand for their new values, once it is Aborted for their old ones.",
             "Whoever meets the descriptor in a word may then take it out, and leaves that value there."]
    parts += [text(22, 300 + 20 * i, note, 12.5, "start") for i, note in enumerate(notes)]
    save("descriptor.svg", 970, 356, parts, "The life of a descriptor: its statuses and who moves them")


def cell(x, y, wide, high, words):
    kind, value = words.split(": ", 1) if ": " in words else ("plain", words)
    return [box(x, y, wide, high, kind, 0), text(x + wide / 2, y + high / 2 + 4, value, 12)]


def transaction():
    left, top, wide, high = 200, 62, 98, 36
    moments = [line.split("|") for line in MOMENTS.strip("\n").splitlines()]
    parts = [text(left - 10, 24, "thread", 12, "end", FAINT), text(left - 10, 45, "step", 12, "end", FAINT)]
    for row, word in enumerate(WORDS):
        parts.append(text(left - 10, top + row * high + high / 2 + 4, word, 12, "end"))
    for column, (who, does, *values) in enumerate(moments):
        x = left + column * wide
        parts.append(text(x + wide / 2, 24, who.strip(), 13, weight="bold"))
        parts += [text(x + wide / 2, 41 + 13 * i, line, 10.5) for i, line in enumerate(wrap(does, wide, 10.5))]
        for row, value in enumerate(values):
            parts += cell(x, top + row * high, wide, high, value)
    bottom = top + high * len(WORDS)
    keys = [("odd", "the descriptor stands there"), ("ready", "ready: its place is fixed"), ("done", "new value, or decided")]
    for i, (kind, means) in enumerate(keys):
        x = left + i * 250
        parts += [box(x, bottom + 16, 16, 16, kind, 2), text(x + 23, bottom + 29, means, 12, "start")]
    end = left + wide * len(moments)
    parts += [text(end, bottom + 54, "Time goes from left to right. A pair is the value and the count of a word.", 11.5, "end",
                   FAINT)]
    save("transaction.svg", end + 20, bottom + 70, parts, "The words of a transaction over time")


def nice(most):
    """A round number that is at least as great."""
    size = 10 ** (len(str(int(most))) - 1)
    return next(step * size for step in (1, 1.2, 1.6, 2, 2.4, 3, 4, 5, 6, 8, 10, 20) if step * size >= most)


def axis(left, top, wide, high, most, callers, unit):
    parts = [path(f"M{left} {top} L{left} {top + high} L{left + wide} {top + high}", False)]
    for i in range(5):
        y = top + high - high * i / 4
        parts += [f"<line x1='{left}' x2='{left + wide}' y1='{y}' y2='{y}' stroke='#dddddd'/>",
                  text(left - 8, y + 4, f"{most * i / 4:,.0f}", 11, "end")]
    for i, count in enumerate(callers):
        parts.append(text(left + wide * (i + 0.5) / len(callers), top + high + 18, str(count), 12))
    return parts + [text(left + wide / 2, top + high + 38, "callers", 12), text(left, top - 12, unit, 12, "start")]


def lines_of(figures, programs, files):
    """Commands a second by callers, for each program and file: of the rows with most commands, if there are two."""
    with open(figures, newline="", encoding="utf-8") as file:
        rows = [row for row in csv.DictReader(file) if float(row["seconds"]) > 0]
    lines = {}
    for program in programs:
        for name in files:
            chosen = [row for row in rows if (row["program"], row["file"]) == (program, name)]
            most = max((int(row["commands"]) for row in chosen), default=0)
            spots = {int(row["callers"]): most / float(row["seconds"]) for row in chosen if int(row["commands"]) == most}
            if len(spots) > 1:
                lines[f"{program}, {name}"] = spots
    return lines


def speed(figures, name="speed.svg", programs=("medley", "mutex", "levels"), files=("spread", "hot")):
    """A chart of commands a second by callers, from a CSV file: a line for each program and file."""
    lines = lines_of(figures, programs, files)
    if not lines:
        return
    callers = sorted({count for spots in lines.values() for count in spots})
    left, top, wide, high = 90, 40, 560, 260
    most = nice(max(max(spots.values()) for spots in lines.values()))
    parts = axis(left, top, wide, high, most, callers, "commands a second")
    strokes = ["#1f5fa8", "#6fa8dc", "#b3541e", "#e0a070", "#3b7d3b", "#93c193"]
    for i, (heading, line) in enumerate(lines.items()):
        spots = [(left + wide * (callers.index(count) + 0.5) / len(callers), top + high - high * value / most)
                 for count, value in sorted(line.items())]
        route = " ".join(("M" if j == 0 else "L") + f"{x:.1f} {y:.1f}" for j, (x, y) in enumerate(spots))
        stroke = strokes[i % len(strokes)]
        parts.append(f"<path d='{route}' fill='none' stroke='{stroke}' stroke-width='2.2'/>")
        parts += [f"<circle cx='{x:.1f}' cy='{y:.1f}' r='3.5' fill='{stroke}'/>" for x, y in spots]
        parts += [f"<rect x='{left + wide + 20}' y='{top + 22 * i}' width='14' height='14' fill='{stroke}'/>",
                  text(left + wide + 41, top + 12 + 22 * i, heading, 12, "start")]
    save(name, 900, top + high + 54, parts, "Commands a second by number of callers")


def main():
    architecture()
    descriptor()
    transaction()
    if os.path.exists(FIGURES):
        speed(FIGURES)


if __name__ == "__main__":
    main()
