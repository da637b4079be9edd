#!/usr/bin/env python3
"""Mends what respell.py leaves: the fields of the repository's own records, cited behind a dot. Run once, after respell.py."""
import glob
import re

FILES = sorted(f for p in ("crates/*/specs/**/*.antt", "crates/*/proofs/**/*.antt") for f in glob.glob(p, recursive=True) if "/out/" not in f)
# A name that got `_lem` beside a definition, where it is a path's part, a step or a field: it keeps its own.
for f in FILES:
    text = open(f, encoding="utf-8").read()
    new = re.sub(r"(\.[a-z][a-z_]*)_lem\b", r"\1", text)
    if "/laylist/" in f:
        new = new.replace("by_table_lem", "by_table")
    if new != text:
        open(f, "w", encoding="utf-8").write(new)

# Functions of src/ keep their names, and so do the edits that name them.
for f in sorted(glob.glob("crates/*/src/**/*.rt", recursive=True) + glob.glob("crates/*/must-fail/*.edit")):
    text = open(f, encoding="utf-8").read()
    new = re.sub(r"\b(is_digit|by_chain)_lem\b", r"\1", text)
    if new != text:
        open(f, "w", encoding="utf-8").write(new)

fields = set()
for f in FILES:
    inside = False
    for line in open(f, encoding="utf-8"):
        if re.match(r"(pub )?(record|data) ", line):
            inside = True
        elif line.strip() and not line.startswith(" "):
            inside = False
        m = re.match(r"\s+(?:pub )?([a-z][\w'-]*) :", line)
        if inside and m and "_" in m.group(1):
            fields.add(m.group(1))
for f in FILES:
    text = open(f, encoding="utf-8").read()
    new = re.sub(r"\.([a-z][\w'-]*)", lambda m: "." + m.group(1).replace("-", "_") if m.group(1).replace("-", "_") in fields else m.group(0), text)
    if new != text:
        open(f, "w", encoding="utf-8").write(new)
print(len(fields), "fields:", " ".join(sorted(fields)))
