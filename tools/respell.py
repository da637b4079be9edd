#!/usr/bin/env python3
"""Brings this repository's own definitions and lemmas to the spelling of today's Rattle: words in snake case, types and modules in
camel case. Run once, at the top, right after the toolchain's port script, which respells the library's names.

usage: respell.py [--check]     --check prints the table and what falls together, and writes nothing
"""
import collections
import glob
import re
import sys

DECLARED = re.compile(r"^(\s*)(?:(?:abbrev|unfoldable|pub|data|record|open|mutual|axiom)\s+)*([^\s:(){}.;,\"]+)\s*(?::\s|\()")
TOKEN = re.compile(r"[^\s(){}.;,@\"«»`]+")
SPOKEN = re.compile(r"`[^`\n]+`")


# Words of definitions that are plain words in the names of lemmas.
PLAIN = set("only other place chain job root digit number before after behind at of by to in from rest low high total".split())


def files(*patterns):
    return sorted(f for p in patterns for f in glob.glob(p, recursive=True) if "/out/" not in f)


def snake(part):
    part = re.sub(r"([a-z0-9'])([A-Z])", r"\1_\2", part)
    part = re.sub(r"([A-Z])([A-Z][a-z])", r"\1_\2", part)
    return part.lower()


def code_of(line):
    return "" if line.lstrip().startswith("--") else line


def functions():
    return {m for f in files("crates/*/src/**/*.rt") for m in re.findall(r"\bfn (\w+)", open(f, encoding="utf-8").read())}


def declared():
    """Names of definitions, lemmas, fields and constructors, and those that specs/ defines."""
    every, words, foreign = set(), set(), set()
    for f in files("crates/*/specs/**/*.antt", "crates/*/proofs/**/*.antt"):
        text = open(f, encoding="utf-8").read()
        for path, names in re.findall(r"^use ([^\s{]+?)\.?\{([^}]*)\}", text, re.M):
            if not path.startswith("Rattle."):
                foreign |= {n.split(" as ")[0].strip() for n in names.split(",")}
        answers = set(re.findall(r"^(?:pub )?([^\s:]+) : [^\n]*\btie\.", text, re.M)) | set(re.findall(r"^([^\s:]+-requires(?:-\d+)?)\b", text, re.M))
        for line in text.split("\n"):
            m = DECLARED.match(code_of(line))
            if not m or m.group(2) in ("let", "in", "where", "use", "unfolding", "λ", "record", "data", "elim"):
                continue
            if m.group(2) in answers or len(m.group(1)) > 4:
                continue
            every.add(m.group(2))
            if "/specs/" in f and not m.group(1):
                words.add(m.group(2))
    return every, words, foreign


def spelled(name, names, made):
    """A dash stays only between two names of definitions."""
    if name[0].isupper():
        return name
    if name.endswith("-spec") and name[:-5].replace("-", "_") in made:
        return name.replace("-", "_")
    parts = [p if p[:1].isupper() and p in names else snake(p) for p in name.split("-")]
    out = parts[0]
    for p in parts[1:]:
        out += ("-" if out in names and p in names else "_") + p
    return out


def table():
    every, words, foreign = declared()
    made = functions()
    names = {w if w[0].isupper() else snake(w) for w in words if "-" not in w} - PLAIN
    taken = {spelled(w, names, made) for w in words | {e for e in every if re.search("[a-z][A-Z]", e)}}
    rows = {}
    for n in sorted(every - foreign):
        new = spelled(n, names, made)
        if new in taken and n not in words and not re.search("[a-z][A-Z]", n):
            new += "_lem"
        if new != n and not n.startswith("+"):
            rows[n] = new
    return rows, every, foreign


def own_aliases(text):
    return set(re.findall(r"^(?:ghost )?use Rattle\.\S+ as ([^\s;]+)", text, re.M)) - {"tie", "goal"}


def turned(text, rows, aliases):
    """Each whole word of the table, but behind a dot only if it is in camel case or the dot follows a module of the repository."""

    def one(m):
        w = m.group(0)
        if w not in rows:
            return w
        before = m.string[: m.start()]
        if before.endswith(".") and "-" in w:
            head = re.search(r"([^\s(){}.;,]+)\.$", before)
            if not head or head.group(1) not in aliases:
                return w
        return rows[w]

    return TOKEN.sub(one, text)


def turn_line(line, mark, rows, aliases):
    code, dash, comment = line, "", ""
    m = re.search(rf"(^|\s){mark}(\s|$)", line)
    if m:
        code, comment = line[: m.start()], line[m.start() :]
    camel = {k: v for k, v in rows.items() if re.search("[a-z][A-Z]", k)}
    comment = SPOKEN.sub(lambda s: turned(s.group(0), rows, aliases), comment)
    return turned(code, rows, aliases) + turned(comment, camel, aliases)


def main():
    rows, every, foreign = table()
    texts = {f: open(f, encoding="utf-8").read() for f in files("crates/*/specs/**/*.antt", "crates/*/proofs/**/*.antt", "crates/*/src/**/*.rt")}
    used = collections.Counter(w for t in texts.values() for w in TOKEN.findall(t))
    back = collections.defaultdict(list)
    for k, v in rows.items():
        back[v].append(k)
    if "--check" in sys.argv:
        for k, v in rows.items():
            clash = (used[v] and f"   IN USE {used[v]}") or (len(back[v]) > 1 and f"   WITH {back[v]}") or ""
            print(f"{k}\t{v}{clash}")
        print("not turned, as the library has them:", sorted(n for n in every & foreign if spelled(n, set(), set()) != n))
        return
    plain = {k: v for k, v in rows.items() if "-" not in k}
    for f, text in texts.items():
        aliases = own_aliases(text)
        r, mark = (rows, "--") if f.endswith(".antt") else (plain, "//")
        new = "\n".join(turn_line(l, mark, r, aliases) for l in text.split("\n"))
        if new != text:
            open(f, "w", encoding="utf-8").write(new)
    for f in files("crates/*/must-fail/*.edit"):
        text = open(f, encoding="utf-8").read()
        new = turned(text, plain, set())
        if new != text:
            open(f, "w", encoding="utf-8").write(new)
    for f in files("README.md", "docs/**/*.md", "examples/*.md", "second/*.md"):
        text = open(f, encoding="utf-8").read()
        new = SPOKEN.sub(lambda s: turned(s.group(0), rows, set()), text)
        if new != text:
            open(f, "w", encoding="utf-8").write(new)


main()
