#!/usr/bin/env python3
"""Tries the edits that the gate leaves out: python3 soak/edits.py [--apply] [--all] [CRATE ..]

An edit is a bug that the prover must refuse, mostly of one line. `rt ci` tries those of crates/CRATE/must-fail. This
script tries those of soak/edits/CRATE, of all crates if none is named, and with --all those of the gate too. It copies
the crates to a temporary folder, puts these edits in the place of the others, and runs `rt check` and `rt must-fail`
there. Both begin with what `rt check` has kept on this machine.

It first looks whether each edit can be applied, those of the gate too, and stops if one can't. With --apply it does no
more, which takes a second. Otherwise it tries the edits, and ends with the status 1 if one is still proved, doesn't
compile or wasn't tried, or if there is none.
"""

import argparse
import os
import re
import shutil
import subprocess
import sys
import tempfile

TOP = os.path.join(os.path.dirname(os.path.abspath(__file__)), "..")
CRATES = os.path.join(TOP, "crates")
EDITS = os.path.join(TOP, "soak", "edits")


def folders_of(crate, of_gate):
    """Where the edits of a crate stand: outside the gate, and in the gate if these are asked for."""
    return [os.path.join(EDITS, crate), *([os.path.join(CRATES, crate, "must-fail")] if of_gate else [])]


def edits_of(crate, of_gate):
    """The paths of the edits of a crate."""
    found = [it for it in folders_of(crate, of_gate) if os.path.isdir(it)]
    return [os.path.join(folder, edit) for folder in found for edit in sorted(os.listdir(folder))]


def crates_with_edits(of_gate):
    return [it for it in sorted({*os.listdir(CRATES), *os.listdir(EDITS)}) if edits_of(it, of_gate)]


def misfit(crate, edit):
    """Why an edit can't be applied, if it can't. Its pairs apply one after another, and each old text stands there once."""
    text, pairs = None, 0
    with open(edit, encoding="utf-8") as lines:
        for line in lines:
            word, _, rest = line.rstrip("\n").partition(": ")
            if word == "file":
                file = os.path.join(CRATES, crate, rest)
                if not os.path.isfile(file):
                    return f"there is no file crates/{crate}/{rest}"
                with open(file, encoding="utf-8") as source:
                    text = source.read()
            elif word == "old" and text is not None:
                old = rest
                if text.count(old) != 1:
                    return f"its text stands {text.count(old)} times in its file, and not once: {old.strip()}"
            elif word.startswith("new") and text is not None:
                text, pairs = text.replace(old, rest), pairs + 1
    return None if pairs else "it has no file, or no pair of an old and a new text"


def misfits():
    """The edits that can't be applied, and those whose name stands both in the gate and outside."""
    found = []
    for crate in crates_with_edits(True):
        paths = edits_of(crate, True)
        names = [os.path.basename(it) for it in paths]
        found += [(it, misfit(crate, it)) for it in paths]
        found += [(it, "its name stands twice") for it in paths if names.count(os.path.basename(it)) > 1]
    return [f"{os.path.relpath(edit, TOP)}: {why}" for edit, why in found if why]


def copy_crates(edits, room):
    """Copies what a check reads, and these edits of crates as their must-fail edits."""
    for name in ("crates.txt", "HANDLES"):
        shutil.copy(os.path.join(TOP, name), room)
    copy = os.path.join(room, "crates")
    shutil.copytree(CRATES, copy, ignore=shutil.ignore_patterns("out", "must-fail"))
    for crate, paths in edits.items():
        os.mkdir(os.path.join(copy, crate, "must-fail"))
        for path in paths:
            shutil.copy(path, os.path.join(copy, crate, "must-fail"))


def rt(folder, *words):
    ran = subprocess.run(["rt", *words], cwd=folder, stdin=subprocess.DEVNULL, stdout=subprocess.PIPE, text=True)
    return ran.returncode, ran.stdout


def try_edits(crate, paths, room):
    """Tries these edits of a crate, prints what was not refused, and says whether all were."""
    status, said = rt(os.path.join(room, "crates", crate), "check")
    if status != 0:
        print(said, f"{crate}: the crate itself is not proved, so its edits tell nothing", sep="\n", flush=True)
        return False
    status, said = rt(room, "must-fail", crate)
    edits = {os.path.basename(it) for it in paths}
    refused = set(re.findall(r"^rt: must-fail [\w.-]+/([\w.-]+): refused", said, re.MULTILINE))
    if status != 0 or refused != edits:
        print(re.sub(r"^rt: must-fail \S+: refused.*\n", "", said, flags=re.MULTILINE), end="")
    print(f"{crate}: {len(refused)} of {len(edits)} edits refused", flush=True)
    return status == 0 and refused == edits


def main():
    words = argparse.ArgumentParser(description=__doc__, formatter_class=argparse.RawDescriptionHelpFormatter)
    words.add_argument("--apply", action="store_true", help="only look whether each edit can be applied")
    words.add_argument("--all", action="store_true", help="try the edits of the gate too")
    words.add_argument("crates", metavar="CRATE", nargs="*")
    asked = words.parse_args()
    bad = misfits()
    if bad:
        sys.exit("\n".join(bad))
    if asked.apply:
        return
    edits = {it: edits_of(it, asked.all) for it in asked.crates or crates_with_edits(asked.all)}
    none = [crate for crate, paths in edits.items() if not paths]
    if none or not edits:
        sys.exit(f"there is no edit to try: {' '.join(none)}")
    with tempfile.TemporaryDirectory(prefix="medley-edits-") as room:
        copy_crates(edits, room)
        refused = [try_edits(crate, paths, room) for crate, paths in edits.items()]
    if not all(refused):
        sys.exit(1)


main()
