#!/usr/bin/env python3
"""Prints what is met in the folders of comparison.sh about side files and factors, each on a line.

    comparison.py ROOT

A side file that does not fit its table is named with what the listing refuses. For each record that names a chain with 01's
stations there is that chain's factor, and what the record's line says: there the stations are sound, and 5 can only mean the factor.
A factor that no record names is told beside a log with a FIX line.
"""
import pathlib
import struct
import sys

STATIONS = struct.pack("<6I", 0, 0, 30000, 0, 0, 40000)


def parts(file, size):
    """The whole records of a file; a missing one has none."""
    content = file.read_bytes() if file.exists() else b""
    return [content[at : at + size] for at in range(0, len(content) - size + 1, size)]


def misfit(scale, fitting):
    """What is wrong with a side file, or None."""
    if not scale.exists():
        return "missing"
    length = scale.stat().st_size
    if length == fitting:
        return None
    return "empty" if length == 0 else "short" if length < fitting else "long"


def met(folder):
    scale, lines = folder / "scale.dat", (folder / "expected").read_text().splitlines()
    chains = parts(folder / "chain.dat", 24)
    wrong = misfit(scale, 4 * len(chains))
    if wrong:
        yield f"{wrong} side file: {lines[0].split()[0]} REFUSED"
    if wrong or not lines or lines[0].split()[0] in ("JOB", "CHAIN"):
        return
    factors = [int.from_bytes(factor, "little") for factor in parts(scale, 4)]
    plain = {number: factor for number, (chain, factor) in enumerate(zip(chains, factors), 1) if chain == STATIONS}
    records = zip(parts(folder / "lay.dat", 32), lines)
    answers = [(record[1], *line.split()[1:3]) for record, line in records if record[0] == 1]
    for number, word, count in answers:
        if number in plain:
            yield f"{plain[number]}: FIX" if word == "FIX" else f"{plain[number]}: REFUSED {count}"
    if any(word == "FIX" for number, word, count in answers):
        named = {number for number, word, count in answers}
        yield from (f"{factor}: not named" for number, factor in plain.items() if number not in named)


print(*sorted({line for folder in pathlib.Path(sys.argv[1]).iterdir() for line in met(folder)}), sep="\n")
