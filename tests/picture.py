"""Holds the picture of the crates in docs/ARCHITECTURE.md to crates.txt: both lead from each crate to the same others, directly or
through others. Prints how many crates it has."""

import re


def listed():
    """crates.txt: each crate with what it rests on, libraries of the toolchain left out."""
    lines = [line.split("#")[0].split(":") for line in open("crates.txt")]
    rests = {line[0].split()[0]: line[1].split() for line in lines if len(line) == 2}
    return {name: [other for other in others if other in rests] for name, others in rests.items()}


def drawn():
    """The picture: lines `NAME["WORDS"] --> NAME & NAME`."""
    picture = re.search(r"```mermaid\ngraph TD\n(.*?)```", open("docs/ARCHITECTURE.md").read(), re.S).group(1)
    rests = {}
    for line in picture.splitlines():
        name, others = re.fullmatch(r' *(\w+)\["\1: [^"]+"\](?: --> (.*))?', line).groups()
        rests[name] = others.split(" & ") if others else []
    return rests


def reached(rests, name):
    """All that a crate rests on, directly or through others."""
    found = set()
    for other in rests[name]:
        found |= {other} | reached(rests, other)
    return found


names, picture = listed(), drawn()
assert sorted(names) == sorted(picture), sorted(set(names) ^ set(picture))
for name in names:
    difference = reached(names, name) ^ reached(picture, name)
    assert not difference, (name, difference)
print(len(names))
