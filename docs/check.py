#!/usr/bin/env python3
"""Checks the documents against the sources: python3 docs/check.py

It reads README.md, docs/*.md, crates/*/README.md, benches/README.md and soak/README.md, and tells each

- link whose file or heading isn't there;
- name or path in code quotes, and line of a block of Rust, that stands nowhere in the sources;
- command whose word or file isn't there;
- number that a page gives for a constant, or for the crates, tests or must-fail edits, and that isn't theirs;
- name of a crate that isn't there, and name or path that the crate doesn't have of which it is said;
- clause of the machine, of a main claim, or word of today, that isn't there; option, range, status or text of the
  program that isn't the program's; record or reply of an example that the example doesn't have;
- family or row of crates.txt that the page on the architecture doesn't have, or has in another order, and family of the
  picture that isn't one of them;
- count of words beyond what the documents may have.

It ends with the status 1 if it told any.
"""

import os
import re
import sys
from functools import lru_cache
from glob import glob

TOP = os.path.join(os.path.dirname(os.path.abspath(__file__)), "..")
COUNTED = ["README.md", *sorted(glob("docs/*.md", root_dir=TOP)), *sorted(glob("crates/*/README.md", root_dir=TOP))]
PAGES = [*COUNTED, "benches/README.md", "soak/README.md"]
MOST_WORDS, MOST_WORDS_OF_README = 45_000, 1_400
# Words of the language, of the toolchain and of the system, which no source of the repository has to have, and
# those that stand for any name.
OUTSIDE = set("""rt lib check ci try plant tidy fmt doc version must fail verdict lemma test run std Some None Ok Err
    rattle kit logic start_lib start_io BUILD bazel unusable built library checked_ wrapping_
    NAME MODULE TYPE FUNCTION FILE LEMMAS GROUP CALLER ACCOUNT SIDE PRICE QUANTITY ORDER""".split())
# Numbers of the documents that no source has: they were measured, or follow from others.
REMEMBERED = {2_400, 2_623, 4_600, 5_128, 10_900, 19_000, 32_767, 65_535, 270_000, 4_060_000, 56_710_811}
# Sentences that tell a constant.
FACTS = (
    ("README.md", "with up to {} callers in threads", "MAX_CALLER"),
    ("docs/DECISIONS.md", "**{} conflicts in a row end a turn", "MOST_CONFLICTS"),
    ("docs/DECISIONS.md", "by the pass of all lanes,** {} in a round", "LONE_ATTEMPTS"),
    ("docs/concurrency.md", "this caller runs {} lines this way", "LONE_ATTEMPTS"),
    ("docs/concurrency.md", "in **batches** of at most {} attempts", "BATCH"),
    ("docs/concurrency.md", "at most {} times, with at most two spin hints", "LOOKS"),
    ("docs/concurrency.md", "looks at most {} times at a descriptor of a higher number", "FEW_LOOKS"),
    ("docs/glossary.md", "up to {} attempts of a turn", "BATCH"),
    ("docs/guide.md", "n from 1 to {} |", "MAX_LINE"),
    ("docs/order-files.md", "at most {} bytes and", "MAX_BYTES"),
    ("docs/order-files.md", "bytes and {} records", "MAX_RECORDS"),
    ("docs/order-files.md", "| {}, or ", "FEW_BUCKETS"),
    ("docs/order-files.md", ", or {} from L", "MANY_BUCKETS"),
    ("docs/order-files.md", "A lane has at least {} nodes", "FEW_NODES"),
    ("docs/order-files.md", "It has at most {} with one caller", "ALONE_NODES"),
    ("docs/order-files.md", "at most {} / callers", "MANY_NODES"),
)
COMMANDS = set("ci check try test run lib fmt tidy plant verdict doc version must-fail lemma all new expand".split())

told = []


def tell(page, line, what):
    told.append(f"{page}:{line}: {what}")


@lru_cache(maxsize=None)
def text_of(path):
    with open(os.path.join(TOP, path), encoding="utf-8") as file:
        return file.read()


def sources():
    """The paths of all sources: code, specs, proofs, edits, scripts and what programs are run on."""
    found = []
    for at, folders, files in os.walk(TOP):
        folders[:] = sorted(it for it in folders if it not in (".git", "out", "__pycache__"))
        found += [os.path.relpath(os.path.join(at, it), TOP) for it in sorted(files)]
    return [it for it in found if not it.endswith((".md", ".svg", ".png"))]


SOURCES = sources()
FILES = set(SOURCES) | set(PAGES)
FOLDERS = {it[:end.start()] for it in SOURCES for end in re.finditer("/", it)}
CRATES = [m[1] for m in re.finditer(r"^([a-z_0-9]+)[^:#\n]*:", text_of("crates.txt"), re.M)]
BY_ENDING = {end: [it for it in SOURCES if it.endswith(end)] for end in (".rt", ".antt", ".edit", ".py", ".rs")}


@lru_cache(maxsize=None)
def words_of(path):
    """The words of a source, and the parts of its path."""
    try:
        words = set(re.findall(r"[^\W\d][\w'-]*|\d[\d_]*", text_of(path)))
    except UnicodeDecodeError:
        words = set()
    return words | {it for word in words for it in re.split(r"[-']", word)} | set(re.split(r"[/.]", path))


WORDS = set(CRATES).union(*(words_of(it) for it in SOURCES))
BELOW = {m[1]: m[2].split() for m in re.finditer(r"^([a-z_0-9]+)[^:#\n]*:(.*)$", text_of("crates.txt"), re.M)}


@lru_cache(maxsize=None)
def words_of_crate(crate):
    """The words of a crate's sources and of those of the crates that it stands on."""
    own = set().union(*(words_of(it) for it in SOURCES if it.startswith(f"crates/{crate}/")))
    return own.union(*(words_of_crate(it) for it in BELOW[crate] if it in BELOW))


def known_words(page):
    """The words that a page may quote: a crate's README speaks of that crate, of those below it, and of those that it names."""
    if not page.startswith("crates/"):
        return WORDS
    named = {page.split("/")[1], *(it for it in CRATES if re.search(rf"\b{it}\b", text_of(page)))}
    return set(CRATES).union(*(words_of_crate(it) for it in named))


def constants():
    """The constants that have a number for a value, by name."""
    found = {}
    for path in BY_ENDING[".rt"]:
        for name, value in re.findall(r"const (\w+): \w+ = ([\d_]+)(?:_?[ui](?:\d+|size))?;", text_of(path)):
            found.setdefault(name, set()).add(int(value.replace("_", "")))
    return found


CONSTANTS = constants()
NUMBERS = {int(it.replace("_", "")) for it in WORDS if re.fullmatch(r"\d[\d_]*", it)}
COUNTS = {
    "crates": len(CRATES),
    "tests": sum(len(re.findall(r"^\s*#\[test\]", text_of(it), re.M)) for it in BY_ENDING[".rt"]),
    "edits": len([it for it in BY_ENDING[".edit"] if it.startswith("crates/")]),
}


def without_blocks(text):
    """The text with its blocks of code made empty, so that lines keep their numbers."""
    return re.sub(r"^```.*?^```", lambda it: "\n" * it[0].count("\n"), text, flags=re.M | re.S)


def anchors(path):
    headings = re.findall(r"^#+ (.+)$", without_blocks(text_of(path)), re.M)
    return {re.sub(r"[^\w\- ]", "", re.sub(r"[`*]", "", it).lower()).replace(" ", "-") for it in headings}


def lines_of(text):
    return list(enumerate(text.split("\n"), 1))


def check_links(page):
    for number, line in lines_of(without_blocks(text_of(page))):
        for target in re.findall(r"\]\(([^)\s]+)\)", line):
            if re.match(r"https?:", target):
                continue
            path, _, anchor = target.partition("#")
            to = os.path.normpath(os.path.join(os.path.dirname(page), path)) if path else page
            if not os.path.exists(os.path.join(TOP, to)):
                tell(page, number, f"no file {to}")
            elif anchor and to.endswith(".md") and anchor not in anchors(to):
                tell(page, number, f"no heading #{anchor} in {to}")


def is_path(quoted):
    return re.fullmatch(r"[\w./-]+", quoted) and ("/" in quoted.strip("/") or re.search(r"\.(rt|antt|py|md|edit|csv|rs|txt)$", quoted))


def stands(path, page):
    """Whether a path is one from the top, from the page's own folder, or the end of a source's path."""
    path = path.removeprefix("./").rstrip("/")
    here = os.path.normpath(os.path.join(os.path.dirname(page), path))
    ends = any(it == path or it.endswith("/" + path) for it in FILES | FOLDERS)
    return ends or here in FILES or here in FOLDERS or os.path.exists(os.path.join(TOP, path))


def check_quotes(page):
    known = known_words(page) | OUTSIDE
    for number, line in lines_of(without_blocks(text_of(page))):
        for quoted in re.findall(r"`([^`]+)`", line):
            if quoted.startswith("rt "):
                check_command(page, number, quoted)
            if is_path(quoted) and "*" not in quoted:
                # (a module of proofs has no ending, as replay/Always)
                if not stands(quoted, page) and not stands(quoted + ".antt", page) and not re.search(r"\b[A-Z]{4,}\b", quoted):
                    tell(page, number, f"no path {quoted}")
                continue
            for name in re.findall(r"[^\W\d]\w*", re.sub(r"logic \w{16}", "", quoted)):
                if len(name) > 2 and name not in known:
                    tell(page, number, f"no source has the name {name} (in `{quoted}`)")


def squeezed(text):
    return re.sub(r"\s+", " ", text).strip()


@lru_cache(maxsize=None)
def code():
    return squeezed("\n".join(text_of(it) for it in BY_ENDING[".rt"] + BY_ENDING[".antt"]))


def check_blocks(page):
    """Each line of a block that is said to be quoted (```rust from FILE) stands in that file; commands are there."""
    for block in re.finditer(r"^```([^\n]*)\n(.*?)^```", text_of(page), re.M | re.S):
        first = text_of(page)[: block.start()].count("\n") + 2
        from_file = re.match(r"(?:rust|antt) (?:from )?(\S+)", block[1])
        for number, line in enumerate(block[2].split("\n"), first):
            if from_file and squeezed(line) and squeezed(line) not in squeezed(text_of(from_file[1])):
                tell(page, number, f"{from_file[1]} doesn't have the line {line.strip()}")
            if not block[1] or block[1] in ("sh", "text"):
                check_command(page, number, line)
    for number, line in lines_of(without_blocks(text_of(page))):
        if line.startswith("    "):
            check_command(page, number, line)


def check_command(page, number, line):
    said = line.strip().removeprefix("$ ")
    word = re.match(r"rt ([a-z-]+)", said)
    if word and word[1] not in COMMANDS:
        tell(page, number, f"no command rt {word[1]}")
    for path in re.findall(r"(?:^python3|^\./|<) ?([\w./]+\.(?:py|csv|txt))|^(\./\w+)", said):
        path = path[0] or path[1]
        if not stands(path, page):
            tell(page, number, f"no file {path}")


def check_numbers(page):
    for number, line in lines_of(without_blocks(text_of(page))):
        for name, value in re.findall(r"`([A-Z][A-Z_0-9]+)`(?:,? (?:which )?is| \(|, at most) ?(\d[\d,]*)", line):
            if name in CONSTANTS and int(value.replace(",", "")) not in CONSTANTS[name]:
                tell(page, number, f"{name} is {sorted(CONSTANTS[name])}, and not {value}")
        for value in re.findall(r"(?<![\d.,])\d{1,3}(?:,\d{3})+(?!\d|[.,]\d)", line):
            if int(value.replace(",", "")) not in NUMBERS | REMEMBERED:
                tell(page, number, f"no source has the number {value}")
        for value, what in re.findall(r"\b(\d[\d,]*) (?:must-fail )?(crates|tests|edits)\b(?! of| in)", line):
            if int(value.replace(",", "")) > 40 and int(value.replace(",", "")) != COUNTS[what]:
                tell(page, number, f"there are {COUNTS[what]} {what}, and not {value}")


def has(crate, quoted):
    """Whether a crate has a path, or each word of a quoted name."""
    if "/" in quoted or quoted.endswith((".antt", ".rt")):
        ends = {quoted.rstrip("/"), quoted + ".antt"}
        return any(it.removeprefix(f"crates/{crate}/") in ends or it.endswith(tuple("/" + end for end in ends))
                   for it in FILES | FOLDERS if it.startswith(f"crates/{crate}/"))
    return all(it in words_of_own(crate) for it in re.findall(r"[^\W\d]\w*", quoted) if len(it) > 2)


@lru_cache(maxsize=None)
def words_of_own(crate):
    return set().union(*(words_of(it) for it in SOURCES if it.startswith(f"crates/{crate}/")))


NAME = r"(?:md|example|medley)_[a-z_]+"
QUOTED = r"`[^`]+`"


def check_crates(page):
    """The crates that the text names, and what it says that they have."""
    old = False
    for number, line in lines_of(without_blocks(text_of(page))):
        if line.startswith("#"):
            old = line.startswith("## Old names of crates")
        said = re.sub(r"^\|[^|]*\|", "", line) if old else line
        for name in re.findall(rf"(?<![\w/#.-])({NAME})\b(?!\.)", said):
            if name not in CRATES and name not in WORDS:
                tell(page, number, f"no crate {name}")
        pairs = [(m[2], it) for m in re.finditer(rf"((?:{QUOTED}(?:, | and )?)+) of ({NAME})\b", line)
                 for it in re.findall(r"`([^`]+)`", m[1])]
        pairs += [(m[1], m[2]) for m in re.finditer(rf"\b({NAME}) `([^`]+)`", line)]
        pairs += [(m[1], m[2]) for m in re.finditer(rf"[(|] ?({NAME}), `([^`]+)`", line)]
        for crate, quoted in pairs:
            if crate in CRATES and not has(crate, quoted):
                tell(page, number, f"{crate} has no {quoted}")


def check_facts():
    for page, sentence, name in FACTS:
        for value in CONSTANTS[name]:
            if sentence.format(f"{value:,}") not in text_of(page) and len(CONSTANTS[name]) == 1:
                tell(page, 1, f"it doesn't say: {sentence.format(f'{value:,}')}")
    laws = [it for it in SOURCES if it.startswith("crates/md_nbtc_law/proofs/")]
    if f"({len(laws)} files, some " not in text_of("docs/proofs.md"):
        tell("docs/proofs.md", 1, f"md_nbtc_law has {len(laws)} files of proofs")


def check_old_words():
    """Each word of today stands in the crate that the table names."""
    table = text_of("docs/DECISIONS.md").partition("## Old names of words")[2].partition("\n## ")[0]
    for crates, words in re.findall(r"^\| (md_[\w, ]+) \| [^|]* \| ([^|]*) \|$", table, re.M):
        for crate in crates.split(", "):
            for word in re.findall(r"\w+", words):
                if word not in words_of_own(crate):
                    tell("docs/DECISIONS.md", 1, f"{crate} has no word {word}")


def check_clauses():
    """The tables of clauses have the fields of the records, and the main claims those of their functions."""
    tables = text_of("docs/proofs.md").partition("## Clauses of the contract")[2].partition("## Lemmas that")[0]
    told_of = {it for row in re.findall(r"^\| ((?:`\w+`(?:, )?)+) \|", tables, re.M) for it in re.findall(r"\w+", row)}
    fields = set()
    for path, record in (("Theorem", "IsKept"), ("Legal", "IsMeant")):
        text = text_of(f"crates/md_machine/specs/{path}.antt")
        body = re.search(rf"record {record}\b.*?\n\n|record {record}\b.*", text, re.S)[0]
        fields |= set(re.findall(r"^ +pub (\w+) :", body, re.M))
    for it in sorted(told_of ^ fields):
        tell("docs/proofs.md", 1, f"the clause {it} is in the tables or in the records, and not in both")
    crate, head = None, ""
    for number, line in lines_of(text_of("README.md")):
        if not re.match(r"\| .* \| .*`.*\|$", line) or "](" in line:
            continue
        for part in line.split("|")[2].split(";"):
            calls, _, clauses = part.partition(":")
            if "the same" not in calls and f"`:" not in calls:
                named = re.search(NAME, calls)
                crate = named[0] if named else crate
                head = "".join(header(crate, it.split("::")[-1]) for it in re.findall(r"`([\w:]+)`", part.partition("`: ")[0] + "`"))
            for it in re.findall(r"`(\w+)`", part.partition("`: ")[2] if "`: " in part else clauses):
                if not re.search(rf"\b{it}\b", head):
                    tell("README.md", number, f"no clause {it} of {calls.strip()}")


def header(crate, function):
    """The contracts of the functions of this name, with the records of the crate that they cite."""
    own = [it for it in SOURCES if it.startswith(f"crates/{crate}/")]
    heads = [m[0] for it in own if it.endswith(".rt") for m in re.finditer(rf"fn {function}\b.*?^ *\{{", text_of(it), re.M | re.S)]
    cited = set(re.findall(r"\b[A-Z]\w+", " ".join(heads)))
    records = [m[0] for it in own if "/specs/" in it for m in re.finditer(r"record (\w+).*?(?=\n\n|\Z)", text_of(it), re.S) if m[1] in cited]
    return " ".join(heads + records)


def check_program():
    """The program's words, statuses and texts, and the example."""
    page, edge = "docs/order-files.md", "crates/md_program_edge/specs/"
    options, status = text_of(edge + "Options.antt"), text_of(edge + "Status.antt")
    names = dict(re.findall(r'^text_of (\w+) = codes "(--\w+)"', options, re.M))

    def bound(which, name):
        value = re.search(rf"^{which} {name} = (\w+)", options, re.M)[1]
        return int(value) if value.isdigit() else next(iter(CONSTANTS[value]))

    lines = text_of(page).split("\n")
    for name, written in names.items():
        row = f"`{written} [A-Z]+` \\| {bound('lowest', name):,} to {bound('highest', name):,}:"
        if not any(re.search(row, it) for it in lines):
            tell(page, 1, f"{written} is from {bound('lowest', name):,} to {bound('highest', name):,}")
    usage = re.search(r'codes "usage: (medley .*?)\\n"', status)[1]
    if "    " + usage not in lines:
        tell(page, 1, f"the usage is {usage}")
    for name, value in re.findall(r"^status_number \(?(\w+)(?: n\))? = (\d+)", status, re.M):
        if not any(re.match(rf"\| {value} \| {name}\b", it) for it in lines):
            tell(page, 1, f"{name} is {value}")
    for number, line in lines_of(text_of(page)):
        for told_line in re.findall(r"`(fault [a-z ]+?)(?: N)?`", line):
            if f'codes "{told_line}' not in status:
                tell(page, number, f"no status has the line {told_line}")
    for page in ("README.md", "docs/order-files.md", "docs/definitions.md", "docs/speed.md"):
        for number, line in lines_of(text_of(page)):
            for option in re.findall(r"`(--[a-z]+)", line):
                if option not in {"--name", *names.values()}:
                    tell(page, number, f"no option {option}")
    day = set(text_of("examples/day.csv").split("\n")) | set(text_of("examples/day.txt").split("\n"))
    for number, line in lines_of(text_of("README.md")):
        if re.match(r"    \d+[,:]", line) and line.strip() not in day:
            tell("README.md", number, f"the example has no line {line.strip()}")


def families():
    """The families of crates.txt, each with its crates."""
    found = []
    for line in text_of("crates.txt").split("\n"):
        if line.startswith("# "):
            found.append((re.split(r"[:.]", line[2:])[0], []))
        elif re.match(r"[a-z]", line):
            found[-1][1].append(re.match(r"\w+", line)[0])
    return found[1:]


def check_picture():
    """The families of the page and of the picture are those of crates.txt, in its order or the reverse."""
    page = text_of("docs/architecture.md")
    if re.findall(r"^### (.+)$", page, re.M) != [it for it, _ in families()]:
        tell("docs/architecture.md", 1, "the families aren't those of crates.txt")
    rows = re.search(r'LAYERS = """\n(.*?)"""', text_of("docs/pictures/draw.py"), re.S)[1].split("\n")
    drawn = [it.split("|") for it in rows if it and not it.startswith("|")]
    if not all(it.startswith(row[0]) for row, (it, _) in zip(drawn, reversed(families()))) or len(drawn) != len(families()):
        tell("docs/pictures/draw.py", 1, "the families aren't those of crates.txt, from the last to the first")
    for (name, *boxes), (_, crates) in zip(drawn, reversed(families())):
        for it in re.findall(r"\w+", " ".join(box.partition(": ")[2].partition(" = ")[0] for box in boxes)):
            if it not in crates:
                tell("docs/pictures/draw.py", 1, f"{it} isn't in the family {name}")


def check_families():
    page = "docs/architecture.md"
    rows = [it for it in re.findall(r"^\| *`?([a-z_0-9]+)`? *\|", text_of(page), re.M) if it in CRATES]
    for crate in CRATES:
        if rows.count(crate) != 1:
            tell(page, 1, f"{crate} has {rows.count(crate)} rows")
    if [it for it in rows if it in CRATES] != CRATES and sorted(rows) == sorted(CRATES):
        tell(page, 1, "the crates stand in another order than in crates.txt")


def check_words():
    all_words = sum(len(text_of(it).split()) for it in COUNTED)
    if all_words > MOST_WORDS:
        tell("docs", 1, f"the documents have {all_words} words; {MOST_WORDS} are the most")
    if len(text_of("README.md").split()) > MOST_WORDS_OF_README:
        tell("README.md", 1, f"{len(text_of('README.md').split())} words; {MOST_WORDS_OF_README} are the most")
    return all_words


def main():
    for page in PAGES:
        check_links(page)
        check_quotes(page)
        check_blocks(page)
        check_numbers(page)
        check_crates(page)
    check_facts()
    check_old_words()
    check_clauses()
    check_program()
    check_families()
    check_picture()
    words = check_words()
    print("\n".join(told))
    print(f"{len(PAGES)} pages, {words} words, {len(told)} things to mend")
    sys.exit(1 if told else 0)


if __name__ == "__main__":
    main()
