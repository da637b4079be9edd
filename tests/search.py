#!/usr/bin/env python3
"""Makes requests for searches, and for how many places there are, in the words of lay.c, and answers them by rule.py.

    search.py named        prints the chosen requests, one to a line
    search.py random SEED  prints 1,500 others of each verb at random
    search.py answers      answers the requests on standard input

The rule finds its places by its walk through quarters. To check them, they are also found without the walk: by halving boxes, with
the least and the greatest range of the cells of a box from each station, and in a small window cell by cell too. They are put
in order by their interleaved numbers. How many there are must agree with the places. If the ways differ, the program stops without
an answer.
"""
import random
import struct
import sys
from math import isqrt
from typing import NamedTuple

# Without this the modules beside this one would leave compiled files in the tree.
sys.dont_write_bytecode = True
import rule
from rule import EAST, NORTH, moved

CORNERS = (0, 0), (EAST, 0), (0, NORTH), (EAST, NORTH)
AMPLE = 2**64 - 1


class Request(NamedTuple):
    master: tuple
    a: tuple
    b: tuple
    wanted: tuple
    corner: tuple
    k: int
    tolerance: int
    allowance: int
    entries: int
    held: int
    factor: int = rule.UNIT

    @property
    def chain(self):
        return rule.Chain(self.master, (self.a, self.b), self.factor)

    @property
    def job(self):
        return rule.Job(self.corner, self.k, self.tolerance, self.allowance)


def commas(numbers):
    return ",".join(map(str, numbers))


def line_of(r, verb="search"):
    """The request by a verb: `search`, which has a list, or `how_many`, which has none."""
    chain, job = rule.flat(rule.stations(r.chain)), (*r.corner, *r.job[1:])
    list_of = (r.entries, r.held) if verb == "search" else ()
    return " ".join(map(str, (verb, *list_of, commas(chain), r.factor, commas(job), *r.wanted)))


def bytes_of(word, made):
    """The bytes that a word has in hexadecimal, or those that `made` makes of its numbers with commas between."""
    return made(list(map(int, word.split(",")))) if "," in word else bytes.fromhex(word.strip("-"))


def told(line):
    """The answer to a request."""
    verb, *words = line.split()
    return " ".join(map(str, {"search": told_search, "how_many": told_how_many}[verb](*words)))


def told_search(entries, held, *given):
    refusal, asked = rule.tried(by_words, *given)
    refusal, visits, places = (refusal, 0, []) if refusal else checked(*asked, int(entries) // 2)
    list_of = rule.flat(places)
    return refusal, len(places), visits, *list_of, *[0] * (int(entries) - len(list_of))


def told_how_many(*given):
    refusal, asked = rule.tried(by_words, *given)
    refusal, answer, place, visits = (refusal, 0, (0, 0), 0) if refusal else agreed(*asked)
    return refusal, answer, *place, visits


def by_words(chain, factor, job, *wanted):
    """What is asked by these words. The bytes are tested first: 1 for the lengths, and 2 for what must be zero in a job."""
    chain = bytes_of(chain, lambda n: rule.chain_bytes(rule.chain_of(n)))
    job = bytes_of(job, lambda n: rule.job_bytes(rule.Job((n[0], n[1]), *n[2:])))
    rule.refuse(1, len(chain) != 24 or len(wanted) != 2 or len(job) != 32)
    rule.refuse(2, any(rule.job_zeros(job)))
    return rule.chain_of(struct.unpack("<6I", chain), int(factor)), tuple(map(int, wanted)), rule.raw_job(job)


def readings(r, p):
    return rule.readings(r.chain, p)


# The places, found without the walk


def span(chain, station, box):
    """The least and the greatest range from a station to the cells of a box: to the nearest cell, and to the farthest corner."""
    west, south, east, north = box
    e, n = station
    nearest = min(max(e, west), east), min(max(n, south), north)
    farthest = west if e - west > east - e else east, south if n - south > north - n else north
    return rule.range_of(chain, station, nearest), rule.range_of(chain, station, farthest)


def can_match(chain, wanted, tolerance, box):
    near_master, far_master = span(chain, chain.master, box)
    for slave, reading in zip(chain.slaves, wanted):
        near, far = span(chain, slave, box)
        if near - far_master > reading + tolerance or far - near_master < reading - tolerance:
            return False
    return True


def by_boxes(chain, wanted, job):
    """The matching cells. Boxes that may hold one are halved, down to single cells, for which the test is exact: their least and
    greatest ranges are the same."""
    boxes = [(*job.corner, *moved(job.corner, 2**job.k - 1, 2**job.k - 1))]
    while boxes:
        west, south, east, north = box = boxes.pop()
        if not can_match(chain, wanted, job.tolerance, box):
            continue
        if west == east and south == north:
            yield west, south
        elif east - west > north - south:
            middle = (west + east) // 2
            boxes += (west, south, middle, north), (middle + 1, south, east, north)
        else:
            middle = (south + north) // 2
            boxes += (west, south, east, middle), (west, middle + 1, east, north)


def cell_by_cell(chain, wanted, job):
    cells = (moved(job.corner, east, north) for north in range(2**job.k) for east in range(2**job.k))
    return (p for p in cells if rule.agrees(chain, p, wanted, job.tolerance))


def checked(chain, wanted, job, room):
    """What rule.search answers. If nothing stopped its walk, its places must be those that are found without it."""
    refusal, visits, places = rule.search(chain, wanted, job, room)
    if refusal not in (0, 8):
        return refusal, visits, places
    for found in (by_boxes, cell_by_cell) if job.k <= 5 else (by_boxes,):
        matching = sorted(found(chain, wanted, job), key=lambda p: rule.chart_number(job.corner, p))
        if places != matching:
            sys.exit(f"the walk of {chain}, {wanted}, {job} meets {places}, and {matching} match")
    return refusal, visits, places


def agreed(chain, wanted, job):
    """What rule.how_many answers. Where the search with enough room answers at the same allowance, it must agree with that; where the
    search uses up the allowance, it does too, or there are several places."""
    refusal, answer, place, visits = rule.how_many(chain, wanted, job)
    searched, made, places = checked(chain, wanted, job, 4**job.k)
    several = refusal == 0 and answer == rule.SEVERAL_PLACES and place == (0, 0) and visits <= made
    if searched in (0, 8) and len(places) < 2:
        agrees = (refusal, answer, [place], visits) == (0, rule.ONE_PLACE if places else rule.NO_PLACE, places or [(0, 0)], made)
    elif searched == 0:
        agrees = several
    else:
        agrees = (refusal, answer, place, visits) == (searched, 0, (0, 0), made) or searched == 10 and several
    if not agrees:
        sys.exit(f"{chain}, {wanted}, {job} are {refusal}, {answer}, {place} after {visits}, but {searched}, {places} after {made}")
    return refusal, answer, place, visits


def answer(r):
    """The refusal, the visits and the places. Half a place is no room."""
    return checked(r.chain, r.wanted, r.job, r.entries // 2)


# 01's chain 1 and its P4.
P4 = Request((0, 0), (30000, 0), (0, 40000), (-10000, -20000), (30000, 40000), 1, 0, 100, 8, 7)
# The stations of source document 002.
PAPER = P4._replace(
    master=(50_000_000, 500_000_000), a=(40_000_000, 490_000_000), b=(60_000_000, 500_000_000), allowance=AMPLE
)
# Stations as far apart as they may be if the readings at every place of the chart are to be within the limit, by the usual factor.
WIDE = P4._replace(master=(0, 0), a=(0, NORTH - 1), b=(EAST, 0))


def p4(**changes):
    return P4._replace(**changes)


def own(r, p, **changes):
    """A request for the readings of the place `p`; its window is that cell alone unless the changes say otherwise."""
    return r._replace(wanted=readings(r, p), **{"corner": p, "k": 0, **changes})


def examples():
    yield p4()
    yield p4(tolerance=1)
    yield p4(entries=2)
    yield p4(allowance=4)
    yield p4(allowance=4, entries=2)
    yield p4(corner=(30001, 40000), k=0)
    yield p4(wanted=(0, 0))


def limits():
    # readings far from those at the middle of a window of 2^24: one visit
    for k in 24, 25, 31, 32, 33, 255:
        yield p4(k=k, wanted=(1_000_000_000, 1_000_000_000))
    for tolerance in 100_000, 100_001, 2**32 - 1:
        yield p4(tolerance=tolerance)
    for reading in 1_000_000_000, 1_000_000_001, 2**32, 2**63 - 1:
        for wanted in reading, -reading:
            yield p4(wanted=(wanted, -20000))
            yield p4(wanted=(-10000, wanted))
    yield p4(wanted=(-(2**63), -20000))
    yield p4(wanted=(-10000, -(2**63)))


def edges():
    """Windows in the corners of the chart, with wide and close chains; then windows one cell too far, and sums beyond 32 bits."""
    near = WIDE._replace(master=(EAST - 40, NORTH - 9), a=(EAST, NORTH - 30), b=(EAST - 25, NORTH))
    for k in range(4):
        for east, north in CORNERS:
            corner = max(0, east + 1 - 2**k), max(0, north + 1 - 2**k)
            for p in corner, moved(corner, 2**k - 1, 2**k - 1):
                yield own(WIDE, p, corner=corner, k=k, entries=4 + 4 * k)
        yield own(near, (EAST, NORTH), corner=corner, k=k)
        yield p4(corner=(corner[0] + 1, 40000), k=k)
        yield p4(corner=(30000, corner[1] + 1), k=k)
    corner = EAST + 1 - 2**24, NORTH + 1 - 2**24
    for east, north in (0, 0), (1, 0), (0, 1):
        yield p4(corner=moved(corner, east, north), k=24, wanted=(1_000_000_000, 0))
    for k in 0, 1, 3, 24:
        for far in 2**32 - 1, 2**32 - 2**k:
            yield p4(corner=(far, 0), k=k)
            yield p4(corner=(0, far), k=k)


def refusals():
    """Every two faults at once, then all: the first test that fails answers."""
    faults = (
        {"wanted": (-10000, 1_000_000_001)},
        {"b": (0, 0)},
        {"factor": 998_999},
        {"corner": (EAST, 40000)},
        {"tolerance": 100_001},
        {"entries": 1},
        {"allowance": 0},
    )
    for i, one in enumerate(faults):
        yield p4(**one)
        for other in faults[:i]:
            yield p4(**other, **one)
    yield p4(**{name: value for fault in faults for name, value in fault.items()})
    yield p4(k=25, tolerance=100_001)


def chains():
    """Each station out of range, each two of them equal; then sound chains with close stations, at both ends of the chart."""
    for station in "master", "a", "b":
        for p in (EAST + 1, 0), (0, NORTH + 1), (2**32 - 1, 2**32 - 1):
            yield p4(**{station: p})
    yield p4(a=P4.master)
    yield p4(b=P4.master)
    yield p4(b=P4.a)
    yield p4(a=P4.master, b=P4.master)
    yield own(p4(a=(1, 0), b=(0, 1)), (2, 3), k=1)
    yield own(p4(master=(EAST, NORTH), a=(EAST - 1, NORTH), b=(EAST, NORTH - 1)), (EAST - 3, NORTH - 2), k=1)


# Chain, readings, corner, k, count and visits, worked out independently: hyperbolas that cross twice, in the chain of source
# document 002 and in one whose stations lie in a line; then that document's four points, with the factor 1,000,000 and with the one
# that fits its lines to the master and A.
LINE = PAPER._replace(a=(49_000_000, 500_000_000), b=(51_000_000, 500_000_000))
GROUND = PAPER._replace(factor=999_641)
CROSSINGS = (
    (PAPER, (12205441, 9172617), (47499999, 497945629), 24, 3, 3117),
    (LINE, (894427, 698348), (50000000, 499700000), 20, 2, 2085),
    (PAPER, (5857865, -4142135), (55805696, 485805696), 23, 2, 4097),
    (PAPER, (5928647, -4171602), (55805696, 485905696), 23, 1, 4025),
    (PAPER, (5886978, -4212523), (55905696, 485805696), 23, 4, 4225),
    (PAPER, (5957406, -4242337), (55905696, 485905696), 23, 2, 4209),
    (GROUND, (5859969, -4143622), (55805696, 485805696), 23, 2, 4097),
    (GROUND, (5930776, -4173100), (55805696, 485905696), 23, 1, 4025),
    (GROUND, (5889092, -4214036), (55905696, 485805696), 23, 4, 4225),
    (GROUND, (5959545, -4243861), (55905696, 485905696), 23, 2, 4209),
)


def crossings():
    """Room and allowance ample, and just enough; the last visit not allowed, and no room for the last place."""
    for chain, wanted, corner, k, count, visits in CROSSINGS:
        r = chain._replace(wanted=wanted, corner=corner, k=k)
        yield r._replace(entries=20)
        yield r._replace(entries=2 * count, allowance=visits)
        yield r._replace(allowance=visits - 1)
        yield r._replace(entries=2 * count - 1)
    # windows about P4's first place, whose visits are known as well: 945 and 2529
    yield p4(corner=(29984, 39984), k=5, allowance=AMPLE)
    yield p4(corner=(27952, 37952), k=12, allowance=AMPLE)


def lists():
    """What a list held before is gone after every answer; rooms from none to more than enough, with half a place or not."""
    answers = (
        {},
        {"wanted": (0, 2**40)},
        {"a": (0, 0)},
        {"k": 25},
        {"tolerance": 2**20},
        {"wanted": (0, 0)},
        {"tolerance": 1, "entries": 6},
        {"allowance": 3},
    )
    for changes in answers:
        for held in 0, 2**32 - 1:
            yield p4(**changes, held=held)
        yield p4(**{"entries": 9, **changes, "held": 0x5A5A5A5A})
    for entries in range(11):
        yield p4(entries=entries)
        yield p4(entries=entries, tolerance=1)
    yield p4(entries=0, wanted=(0, 0))
    yield p4(entries=1, wanted=(0, 0))
    # 256 places in lists with room for 255, for 256, for half a place more and for many more; then too many places for the last
    for entries in 511, 512, 513, 1100:
        yield p4(k=4, tolerance=60, entries=entries, allowance=AMPLE)
    yield p4(k=5, tolerance=90, entries=1100, allowance=AMPLE)


def allowances():
    for allowance in 0, 1, 2, 3, 5, 6, 2**32 + 2, 2**63, AMPLE:
        yield p4(allowance=allowance)
        yield p4(allowance=allowance, entries=1)
        yield p4(allowance=allowance, entries=3)
    # a window without a dropped square takes (4^(k+1) - 1)/3
    for k in range(5):
        most = (4 ** (k + 1) - 1) // 3
        for allowance in most - 1, most:
            yield p4(k=k, tolerance=100_000, allowance=allowance, entries=2 * 4**k)
    # all that matches is met at the second visit, but the visits after it count too
    for allowance in 1, 2, 4, 5:
        yield own(P4, (0, 0), k=1, allowance=allowance)
    # a search that would take all cells of its window is stopped; another in a window as large is finished
    yield p4(a=(1, 0), b=(0, 1), wanted=(1, 1), corner=(0, 0), k=24, allowance=2000)
    yield own(PAPER, (62_345_678, 487_654_321), corner=(50_000_000, 480_000_000), k=24)


def orders():
    """Chart order depends on the offsets from the window's corner, wherever that lies."""
    for corner in (30000, 40000), (30001, 40003), (30007, 40014):
        for k in 2, 3:
            yield p4(corner=corner, k=k, tolerance=60, entries=2 * 4**k)
    for tolerance in 0, 1, 2, 5:
        yield p4(corner=(29991, 39990), k=5, tolerance=tolerance, entries=1000, allowance=AMPLE)


def about(r, slack):
    """Each reading off by `slack` and by one more, either way."""
    for by in slack, -slack, slack + 1, -slack - 1:
        yield r._replace(wanted=(r.wanted[0] + by, r.wanted[1]))
        yield r._replace(wanted=(r.wanted[0], r.wanted[1] + by))


def differences():
    """Readings at their limit and one beyond it: at a cell, at the middle of a square, and at a slave, whose distance is 0."""
    place = 30001, 40001
    yield from about(own(P4, place), 0)
    yield from about(own(p4(tolerance=100_000), place), 100_000)
    yield from about(own(P4, place, corner=moved(place, -1, -1), k=1), 8)
    yield from about(own(p4(tolerance=5), place, corner=moved(place, -4, -4), k=3), 25)
    yield from about(own(P4, P4.a), 0)
    yield from about(own(p4(tolerance=3), P4.b), 3)


def close_errors():
    """The errors that 01 warns of: the readings that a wrong rule would give are asked for as well."""
    yield own(P4, (30001, 40000))
    yield p4(corner=(30001, 40000), k=0, wanted=(-10001, -19999))
    yield own(P4, (1, 1))
    yield p4(corner=(1, 1), k=0, wanted=(29997, 39998))
    yield p4(wanted=(10000, 20000))
    # the squared distance is one less than the square of 2jj + 1, which is its root in floating point: the master's, a slave's
    j = 22360
    p = 2 * j, 2 * j * j
    for chain in p4(a=moved(p, 0, -1), b=moved(p, 1, 0)), p4(master=moved(p, 0, -1), a=(0, 0), b=moved(p, 1, 0)):
        r = own(chain, p)
        yield r
        yield r._replace(wanted=(r.wanted[0] - 1, r.wanted[1] - 1))
        yield r._replace(wanted=(r.wanted[0] + 1, r.wanted[1]))
    # at the corners of a window on the line from the master to a slave, where readings change fastest
    for k in 2, 6, 10:
        corner = 500_000, 500_000
        for p in corner, moved(corner, 2**k - 1, 2**k - 1):
            for master, a in ((0, 0), (1_000_000, 1_000_000)), ((1_000_000, 1_000_000), (0, 0)):
                yield own(p4(master=master, a=a, b=(0, 1_000_000)), p, corner=corner, k=k, allowance=AMPLE, entries=20)
    # a reading of 1,000,050,000 at a cell is compared as it is, not cut to the limit of what may be asked for
    for tolerance in 49_999, 50_000, 50_001:
        yield p4(a=(10_000_125, NORTH), b=(1, 0), wanted=(NORTH, 1), corner=(0, 0), k=0, tolerance=tolerance)


# Factors about the ends of their range and about 1,000,000, and others that have no place in it.
FACTORS = 999_000, 999_001, 999_641, 999_999, 1_000_001, 1_000_999, 1_001_000
NO_FACTORS = 0, 1, 998_999, 1_001_001, 2_000_000, 2**31, 2**32 - 1


def factors():
    """Factors out of range; then by others the readings of places near and far, the places beside them, and the readings that a
    wrong rule would give."""
    for factor in NO_FACTORS:
        yield p4(factor=factor)
        yield p4(factor=factor, wanted=(0, 2**40))
        yield p4(factor=factor, k=25)
    for factor in FACTORS:
        for r in (each._replace(factor=factor) for each in (P4, PAPER, WIDE)):
            for p in P4.corner, (30001, 40000), (1, 1), r.master, r.b, (EAST, NORTH), (61_234_567, 487_654_321):
                yield own(r, p)
                yield own(r, p, corner=(min(p[0], EAST - 7), min(p[1], NORTH - 7)), k=3, tolerance=1, entries=128, allowance=AMPLE)
                yield from (r._replace(wanted=wanted, corner=p, k=0) for wanted in misread(r.chain, p))
        for tolerance in 0, 2:
            r = p4(factor=factor, tolerance=tolerance, entries=600, allowance=AMPLE)
            yield own(r, P4.corner, corner=(29984, 39984), k=5)


def misread(chain, place):
    """The readings of a place without the factor, with it the other way round, with one cut of root and quotient, and with one cut
    of the difference; some may be right by chance."""
    f, unit = chain.factor, rule.UNIT
    squares = [(place[0] - e) ** 2 + (place[1] - n) ** 2 for e, n in rule.stations(chain)]
    plain, turned = map(isqrt, squares), (isqrt(s) * f // unit for s in squares)
    once = (isqrt(s * unit * unit // (f * f)) for s in squares)
    for to_master, *to_slaves in map(list, (plain, turned, once)):
        yield tuple(each - to_master for each in to_slaves)
    yield tuple((isqrt(s) - isqrt(squares[0])) * unit // f for s in squares[1:])


def stations():
    """Places on the stations and beside them, each found by its own readings."""
    for r in P4, PAPER, WIDE:
        for p in r.master, r.a, r.b, moved(r.master, 1, 0):
            corner = min(p[0], EAST - 3), min(p[1], NORTH - 3)
            yield own(r, p, corner=corner, k=2, allowance=AMPLE, entries=12)


def decisions():
    """The allowance by which it is decided how many places there are, and those about it: at the second of several, at the last visit
    after a single one, with and without other visits between, and at the last if there is none."""
    crossing = (chain._replace(wanted=wanted, corner=corner, k=k) for chain, wanted, corner, k, *_ in CROSSINGS)
    several = (p4(tolerance=t, corner=moved(P4.corner, -by, -by), k=k) for t in (0, 1) for by, k in ((0, 1), (1, 2), (16, 5)))
    places = (0, 0), P4.corner, (30001, 40000)
    single = (own(P4, p, corner=corner, k=k) for p in places for corner, k in ((p, 0), (p, 1), ((0, 0), 17)))
    none = p4(wanted=(0, 0)), p4(wanted=(0, 0), k=12), p4(corner=(30001, 40000), k=0), p4(corner=(29000, 39000), k=8)
    for r in *crossing, *several, *single, *none:
        decided = agreed(r.chain, r.wanted, r.job._replace(allowance=AMPLE))[3]
        for allowance in 0, decided - 1, decided, decided + 1, r.allowance, AMPLE:
            yield r._replace(allowance=allowance)
    # stations so close together that a search of this window takes months: where there are two places it is decided soon
    for wanted in (1, 1), (0, 0), (-1, 0), (5, 5):
        for allowance in 10, 29, 30, 39, 40, 2000:
            yield p4(a=(1, 0), b=(0, 1), wanted=wanted, corner=(0, 0), k=24, allowance=allowance)


NAMED = (
    *(examples, limits, edges, refusals, chains, factors, crossings),
    *(lists, allowances, orders, differences, close_errors, stations),
)


def by_their_bytes():
    """Chains, jobs and readings of wrong lengths, and bytes of a job that must be zero, also with faults that are tested later."""
    chain, unsound = rule.chain_bytes(P4.chain), bytes(24)
    job, bad = rule.job_bytes(P4.job), rule.job_bytes(P4.job._replace(k=25, tolerance=100_001))
    spoilt = [bad[:at] + b"\1" + bad[at + 1 :] for at in (9, 10, 11, 24, 31)] + [job[:31] + b"\x80"]
    chains = chain, unsound, chain[:23], chain + bytes(1), chain + chain, b""
    jobs = job, bad, *spoilt, job[:31], bad + bytes(1), spoilt[0] + bytes(1), b""
    for stations in chains:
        for asked in jobs:
            for wanted in "-10000 -20000", "-10000 1000000001", "-10000", "", "-10000 -20000 0":
                for verb in "search 8 7", "how_many":
                    for factor in "1000000", "0":
                        yield " ".join(filter(None, (verb, stations.hex() or "-", factor, asked.hex() or "-", wanted)))


def beside(draw, p, reach):
    """A place of the chart, at most `reach` from `p` in easting and in northing."""
    east = draw.randint(max(0, p[0] - reach), min(EAST, p[0] + reach))
    return east, draw.randint(max(0, p[1] - reach), min(NORTH, p[1] + reach))


def around(draw, p, k):
    """A window's corner: mostly with the place in the window, else near it."""
    astray = 2**k if draw.random() < 0.1 else 0
    east, north = (x - draw.randrange(2**k) + draw.choice((-astray, astray)) for x in p)
    return min(max(east, 0), EAST + 1 - 2**k), min(max(north, 0), NORTH + 1 - 2**k)


def drawn_factor(draw):
    return draw.choice((rule.UNIT, rule.UNIT, draw.choice(FACTORS), draw.randint(rule.LEAST_FACTOR, rule.MOST_FACTOR)))


def with_fault(draw, r):
    """The request with one thing wrong in it, or just within its limit."""
    return draw.choice(
        (
            r._replace(wanted=(r.wanted[0], draw.choice((-1, 1)) * draw.randint(999_999_999, 1_000_000_002))),
            r._replace(wanted=(draw.getrandbits(64) - 2**63, r.wanted[1])),
            r._replace(master=(draw.randint(EAST - 1, EAST + 2), r.master[1])),
            r._replace(b=(r.b[0], draw.getrandbits(32))),
            r._replace(b=draw.choice((r.master, r.a))),
            r._replace(factor=draw.choice((998_999, 1_001_001, draw.getrandbits(32) | 1))),
            r._replace(corner=(EAST + 1 - 2**r.k + draw.randint(0, 2), r.corner[1])),
            r._replace(corner=(draw.getrandbits(32), draw.getrandbits(32))),
            r._replace(k=draw.randint(23, 40)),
            r._replace(tolerance=draw.randint(99_999, 100_003)),
        )
    )


def drawn(draw):
    """A request at random, mostly with a small window; a large window has a large chain, or its search would seldom end."""
    if draw.random() < 0.15:
        k, reach = draw.randint(7, 24), draw.choice((10**6, 10**7, 10**7, NORTH))
        tolerance = draw.choice((0, 0, 0, 1, 3))
    else:
        k, reach = draw.randint(0, 6), draw.choice((4, 40, 1_000, 100_000, 10**7, NORTH))
        tolerance = draw.randint(0, draw.choice((0, 0, 1, 2, 30, 30, 100_000)))
    place = beside(draw, draw.choice(CORNERS), draw.choice((2**k, NORTH, NORTH)))
    r = P4._replace(**{station: beside(draw, place, reach) for station in ("master", "a", "b")}, factor=drawn_factor(draw))
    noise = draw.choice((0, 0, tolerance, tolerance + 1, tolerance + 2 ** (k + 1) + 5))
    wanted = tuple(min(max(x + draw.randint(-noise, noise), -NORTH), NORTH) for x in readings(r, place))
    r = r._replace(wanted=wanted, corner=around(draw, place, k), k=k, tolerance=tolerance, held=draw.getrandbits(32))
    return with_fault(draw, r) if draw.random() < 0.15 else r


def about_visits(draw, visits, ample):
    """An allowance: mostly about these visits, or ample."""
    return max(0, draw.choice((visits, visits, visits - 1, visits + 1, draw.randint(0, visits), ample, ample, ample)))


def at_random(seed):
    """Requests of both verbs, whose allowance and room are about what each takes; a search is cut at 5,000 visits."""
    draw = random.Random(seed)
    for _ in range(1500):
        r = drawn(draw)
        refusal, visits, places = answer(r._replace(allowance=5000, entries=1100))
        allowance = about_visits(draw, visits, 5000 if refusal == 10 else AMPLE)
        entries = 2 * len(places) + draw.choice((-2, -1, 0, 0, 1, 2, draw.randint(0, 12), 1100))
        yield line_of(r._replace(allowance=allowance, entries=min(max(0, entries), 1100)))
    for _ in range(1500):
        r = drawn(draw)
        refusal, visits, _ = rule.search(r.chain, r.wanted, r.job._replace(allowance=5000), 5000)
        decided = rule.how_many(r.chain, r.wanted, r.job._replace(allowance=5000))[3]
        allowance = about_visits(draw, draw.choice((decided, decided, visits)), 5000 if refusal == 10 else AMPLE)
        yield line_of(r._replace(allowance=allowance), "how_many")


def named():
    """The chosen requests of both verbs, each once."""
    chosen = [r for part in NAMED for r in part()]
    yield from dict.fromkeys(line_of(r) for r in chosen)
    yield from dict.fromkeys(line_of(r, "how_many") for r in (*chosen, *decisions()))
    yield from by_their_bytes()


def main(words):
    if words == ["named"]:
        print("\n".join(named()))
    elif words[:1] == ["random"] and len(words) == 2:
        print("\n".join(at_random(int(words[1]))))
    elif words == ["answers"]:
        print("\n".join(told(line) for line in sys.stdin.read().splitlines()))
    else:
        sys.exit(__doc__)


if __name__ == "__main__":
    main(sys.argv[1:])
