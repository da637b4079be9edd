#!/usr/bin/env python3
"""Counts, in the sources of all crates, the places of the points of docs/DESIGN-PASS.md.

    python3 tools/count_places.py [-v] [FOLDER]     FOLDER has crates/, as a rule the top of the repository; -v names each place
"""
import re
import sys
from collections import Counter, defaultdict
from pathlib import Path
from typing import NamedTuple

WORDS = [it for it in sys.argv[1:] if it != "-v"]
VERBOSE = "-v" in sys.argv
AT = Path(WORDS[0] if WORDS else ".")
SOURCES = {it: [re.sub(r"\s*//.*", "", line) for line in it.read_text().splitlines()] for it in sorted(AT.glob("crates/*/src/*.rt"))}
# A variant that stands for no value, or for why there is none.
NO_VALUE = "Refused|Outside|Unusable|Large|Failed|Missing|Nothing|Unfit|Passed|Dropped|Cut|NoMatch"
# A field that says whether, or why not, the others mean anything.
FLAG = r"(refusal|stop|number|found|kept|held|many): (u32|bool),"


class Item(NamedTuple):
    """A function or a type: where it is, its name, the lines before its brace and those within."""

    at: str
    name: str
    head: str
    body: str


def items(word):
    for file, lines in SOURCES.items():
        for i, line in enumerate(lines):
            found = re.match(rf"( *)(?:pub(?:\(crate\))? )?(?:const )?(?:extern \"C\" )?{word} (\w+)(.*)", line)
            if not found:
                continue
            opening = next((j for j in range(i, len(lines)) if lines[j].endswith("{")), None)
            if opening is None:
                continue
            closing = next(j for j in range(opening, len(lines)) if lines[j] == found[1] + "}")
            head = found[3] + "\n" + "\n".join(lines[i + 1 : opening + 1])
            yield Item(f"{file.relative_to(AT)}:{i + 1}", found[2], head.rstrip("{\n "), "\n".join(lines[opening + 1 : closing]))


FUNCTIONS, STRUCTS, ENUMS = (list(items(word)) for word in ("fn", "struct", "enum"))


def enums():
    return [f"{it.at} enum {it.name}" for it in ENUMS if re.search(rf"^ *({NO_VALUE})\b", it.body, re.M)]


def flags():
    return [f"{it.at} {it.name}.{field[1]}" for it in STRUCTS for field in re.finditer(FLAG, it.body)]


def numbers():
    """Refusals written as numbers, and functions that answer one."""
    for it in FUNCTIONS:
        for found in re.finditer(r"(?<![.\w])(Refused|told|refused|unvisited|notice)\((?:out, b\"\w+\", )?\d+\b", it.body):
            yield f"{it.at} {it.name}: {found[0]}"
        if "-> u32" in it.head and "refusal" in it.name + it.head:
            yield f"{it.at} {it.name} answers a number"


def shape(text, calls):
    """A text without names of types, of values, numbers and quoted text; without those of functions that are called, too, if they do not count."""
    text = re.sub(r'b?"(?:[^"\\]|\\.)*"', "T", re.sub(r"(ensures|requires).*", "", text))
    text = re.sub(r"\b[A-Z]\w*\b|\b[iu](8|16|32|64|size)\b|\bf64\b|\bbool\b", "X", text)
    text = re.sub(r"\b\d[\w.]*\b", "0", re.sub(r"\s+", " ", text))
    names = {}
    word = r"\b[a-z_]\w*\b(?!\(|::)" if calls else r"\b[a-z_]\w*\b"
    return re.sub(word, lambda found: names.setdefault(found[0], f"n{len(names)}"), text)


def alike(calls):
    """Functions of one shape, of more than one line."""
    groups = defaultdict(list)
    for it in FUNCTIONS:
        if len(it.body.strip().splitlines()) > 1:
            groups[shape(it.head + it.body, calls)].append(f"{it.at} {it.name}")
    return [" = ".join(each) for each in groups.values() if len(each) > 1]


def types():
    """Types whose fields have the same names, whatever their own names and types are."""
    groups = defaultdict(list)
    for it in STRUCTS:
        groups[tuple(re.findall(r"(?!ghost )\b(\w+): ", re.sub(r".*ghost .*", "", it.body)))].append(f"{it.at} {it.name}")
    return [" = ".join(each) for each in groups.values() if len(each) > 1]


def loops():
    for it in FUNCTIONS:
        for found in re.finditer(r"^ *(while .*|for (\w+) in [^{]*\.\.[^{]*)\{", it.body, re.M):
            index = found[2]
            if index is None or re.search(rf"\[{index}\]", it.body):
                yield f"{it.at} {it.name}: {found[1].strip()}"


def by_hand():
    pair = r"!= \w+\.\w+ \{\s+return false|< \w+ \{\s+return \w+::\w+;.*> \w+ \{\s+return \w+::\w+;"
    return [f"{it.at} {it.name}" for it in FUNCTIONS if re.search(pair, it.body, re.S)]


def clauses():
    said = Counter()
    for it in FUNCTIONS:
        facts = set()
        for clause in re.findall(r"(?:requires|ensures)\b[^{]*\{ (.*) \}", it.head):
            facts.update(part.strip("() ") for part in clause.split(" × "))
        said.update(fact for fact in facts if "result" not in fact and "new ≡" not in fact)
    return [f"{n} times: {fact}" for fact, n in said.items() if n > 2]


def groups(size, least):
    """Parameters that stand side by side in so many functions or more, calls of `lay` by `lay_c` left out."""
    side = Counter()
    for it in FUNCTIONS:
        if "lay_c/" in it.at:
            continue
        listed = re.sub(r"\n *(requires|ensures).*", "", it.head)
        names = re.findall(r"\b(\w+): ", listed)
        side.update({tuple(names[i : i + size]) for i in range(len(names) - size + 1)})
    return [f"{n} functions: {', '.join(each)}" for each, n in side.items() if n >= least]


def main():
    for point, found in (
        ("1 enums with a variant for no value", enums()),
        ("1 flags and numbers beside values", flags()),
        ("1 refusals as numbers", numbers()),
        ("2 functions that differ in types, numbers, text and names of values alone", alike(True)),
        ("2 beside these, functions that also differ in what they call", [it for it in alike(False) if it not in alike(True)]),
        ("2 types whose fields have the same names", types()),
        ("3 loops by `while`, or over an index of a slice", loops()),
        ("4 equality and order by hand", by_hand()),
        ("5 facts in three contracts or more", clauses()),
        ("5 three parameters side by side in five functions or more", groups(3, 5)),
        ("5 two parameters side by side in ten functions or more", groups(2, 10)),
    ):
        found = list(found)
        print(f"{len(found):4} {point}")
        if VERBOSE:
            print("".join(f"       {each}\n" for each in found), end="")


if __name__ == "__main__":
    main()
