#!/usr/bin/env python3
"""Makes folders to list, and their listings by rule.py.

    listing.py list FOLDER             prints the listing of the job.dat, chain.dat, scale.dat and lay.dat in a folder
    listing.py examples FOLDER         writes the folders of examples/ into a folder
    listing.py cases FOLDER            writes folders chosen to test something
    listing.py edges FOLDER            writes folders whose logs end near the edges of the program's buffers
    listing.py long FOLDER             writes folders of long logs, and of long lines
    listing.py random SEED FOLDER      writes 200 folders at random
    listing.py memory FOLDER PROGRAM   prints the most memory, in kilobytes, that a program has used once most of a folder is listed
    listing.py requests                prints the chosen folders as requests in the words of lay.c, one to a line
    listing.py answers                 answers the requests on standard input

A folder that is written has the four files, or those that its case has, and in `listing` what must be printed for them.
Searches are answered as search.py answers them.
"""
import fcntl
import os
import random
import subprocess
import sys
from functools import lru_cache
from itertools import chain, combinations, cycle, islice, product
from math import inf, nextafter
from typing import NamedTuple

# Without this the modules beside this one would leave compiled files in the tree.
sys.dont_write_bytecode = True
import records
import rule
import search
from rule import EAST, NORTH

flat = chain.from_iterable
FILES = "job.dat", "chain.dat", "scale.dat", "lay.dat"


class Folder(NamedTuple):
    """The bytes of the four files; None for a missing file."""

    job: bytes
    table: bytes
    scale: bytes
    log: bytes


searched = lru_cache(maxsize=None)(search.checked)


def listed(folder, held=None):
    """The lines of a folder, each with what a hold after it repeats, or None. A missing file counts as empty."""
    return rule.listing(*(content or b"" for content in folder), held, searched)


# Folders to list. Records of readings and of places are made from centimetres.


def readings_record(number, wanted, line=0):
    return records.log(1, number, line, wanted[0] / 100, wanted[1] / 100)


def place_record(place, line):
    return records.grid(place[0] / 100, place[1] / 100, line=line)


def job_of(question):
    """The bytes of the job of a search request."""
    return rule.job_bytes(question.job)


def chains_of(*questions):
    """A table of the chains of search requests, numbered from 1, and its side file."""
    return b"".join(rule.chain_bytes(q.chain) for q in questions), records.scale_of(*(q.factor for q in questions))


def numbered(*log):
    """A log of these records with line numbers from 1, whatever numbers they had."""
    return b"".join(record[:4] + line.to_bytes(4, "little") + record[8:] for line, record in enumerate(log, 1))


P4 = search.P4
FIX, GRID, HOLD = records.SOUND
THREE = Folder(job_of(P4), *chains_of(P4), FIX + GRID + HOLD)
# P4 in a window of one cell, its first place: there is one place.
ONE = P4._replace(k=0)
REFUSED = records.log(kind=9)


def three(**changes):
    """01's example with changes. Another table has the usual factors, unless it has a side file of its own."""
    return THREE._replace(**{"scale": records.units(changes.get("table", THREE.table)), **changes})


def by_job(**changes):
    """01's example with changes in its job."""
    return three(job=records.job(**changes))


def asking(*questions, log=None):
    """A folder for search requests of one job, each with a chain of its own; unless `log` is given, it has a record for each."""
    log = log or numbered(*(readings_record(i, q.wanted) for i, q in enumerate(questions, 1)))
    return Folder(job_of(questions[0]), *chains_of(*questions), log)


def double_crossing():
    """Stations in a line, which cannot tell a place from its mirror image; those of source document 002; three around the place."""
    window = {"corner": (47_499_999, 497_945_629), "k": 24, "allowance": 10_000}
    line = search.LINE._replace(wanted=(894427, 698348), **window)
    paper = search.PAPER._replace(wanted=(12205441, 9172617), **window)
    about = line._replace(master=(50_000_000, 495_000_000), a=(45_000_000, 505_000_000), b=(55_000_000, 505_000_000))
    about = about._replace(wanted=search.readings(about, (50_100_000, 500_200_000)))
    log = (
        readings_record(1, line.wanted),
        HOLD,
        readings_record(3, about.wanted),
        HOLD,
        readings_record(2, paper.wanted),
        HOLD,
    )
    return asking(line, paper, about, log=numbered(*log))


def every_refusal():
    """Chain 1 takes more visits than are allowed, chain 2 has the same readings at all cells, 3 is well placed, 4 and 5 are not
    sound, for a station and for the factor."""
    slow = P4._replace(corner=(29984, 39984), k=5, allowance=500)
    far = slow._replace(master=(30000, 900_000_000), a=(30000, 900_100_000), b=(31000, 900_000_000))
    good = slow._replace(master=(30000, 20000), a=(10000, 50000), b=(50000, 50000))
    unsound, unscaled = good._replace(b=good.a), good._replace(factor=rule.LEAST_FACTOR - 1)
    seen = search.readings(good, (30003, 39991))
    log = (
        readings_record(3, seen),
        HOLD,
        records.log(kind=4),
        HOLD,
        records.hold(third=records.MINUS),
        records.log(chain=3, first=records.NAN),
        records.grid(first=-0.01),
        readings_record(6, seen),
        readings_record(4, seen),
        readings_record(5, seen),
        readings_record(3, (0, 0)),
        readings_record(2, (100_000, 0)),
        readings_record(1, P4.wanted),
        GRID,
        HOLD,
    )
    return asking(slow, far, good, unsound, unscaled, log=numbered(*log) + HOLD[:20])


def examples():
    yield "three_records", THREE
    yield "double_crossing", double_crossing()
    yield "every_refusal", every_refusal()
    yield "refused_job", by_job(easting=EAST)


def lengths():
    for n in 0, 1, 8, 31, 32, 33, 63, 64, 65, 95, 97, 127:
        yield f"log_of_{n}_bytes", three(log=(THREE.log + FIX)[:n])
    for n in 0, 1, 31, 33, 64:
        yield f"job_of_{n}_bytes", three(job=(THREE.job + THREE.job)[:n])
    for n in 0, 1, 23, 24, 25, 47, 48, 383, 384, 385, 407, 408, 768:
        yield f"table_of_{n}_bytes", three(table=(THREE.table * 32)[:n])


    for table in THREE.table, records.PAIR, records.LONG[:384]:
        chains = len(table) // 24
        for n in *range(4 * chains + 6), 8 * chains, 1000:
            scale = (records.units(table) * 300)[:n]
            yield f"side_file_of_{n}_bytes_for_{chains}", three(table=table, scale=scale, log=THREE.log + records.log(chain=chains))


def missing():
    for gone in flat(combinations(range(4), many) for many in (1, 2, 3, 4)):
        names = "_".join(FILES[i].split(".")[0] for i in gone)
        yield f"no_{names}", Folder(*(None if i in gone else s for i, s in enumerate(THREE)))


def jobs():
    """Limits of a job, and several faults at once: the job is refused before the table, the table before the side file, and after a
    refusal nothing is listed."""
    yield "k_24", by_job(k=24)
    yield "k_25", by_job(k=25)
    yield "k_255", by_job(k=255)
    for k in 0, 1:
        yield f"easting_at_its_end_k_{k}", by_job(easting=EAST, k=k)
        yield f"northing_at_its_end_k_{k}", by_job(northing=NORTH, k=k)
    yield "corner_beyond_32_bits", by_job(easting=2**32 - 1)
    for tolerance in 1, 100_000, 100_001, 2**32 - 1:
        yield f"tolerance_{tolerance}", by_job(tolerance=tolerance)
    for allowance in 0, 1, 4, 5, 2**32 + 4, 2**63, 2**64 - 1:
        yield f"allowance_{allowance}", by_job(allowance=allowance)
    for at in 9, 10, 11, 24, 31:
        yield f"job_byte_{at}", three(job=records.changed(records.job(k=25), at, 1))
    yield "k_and_tolerance", by_job(k=25, tolerance=100_001)
    yield "bad_job_and_table", by_job(k=25)._replace(table=b"")
    yield "bad_job_and_short_log", by_job(k=25)._replace(log=FIX[:31])
    yield "bad_table_and_short_log", three(table=b"1", log=FIX[:31])
    yield "bad_table_and_no_log", three(table=b"1", log=None)
    for scale in b"", None, b"1", records.scale_of(rule.UNIT) * 2:
        name = "no_side_file" if scale is None else f"side_file_of_{len(scale)}_bytes"
        yield f"bad_job_and_table_and_{name}", by_job(k=25)._replace(table=b"1", scale=scale)
        yield f"bad_job_and_{name}", by_job(k=25)._replace(scale=scale)
        yield f"bad_table_and_{name}", three(table=THREE.table + b"1", scale=scale)
        yield f"{name}_and_short_log", three(scale=scale, log=FIX[:31])
        yield f"{name}_and_no_log", three(scale=scale, log=None)


def tables():
    """Every chain number against tables of one chain, of two and of sixteen; chains that are not sound."""
    log = b"".join(records.log(chain=n, line=n) for n in range(256))
    yield "numbers_in_a_table_of_1", three(log=log)
    yield "numbers_in_a_table_of_2", three(table=records.PAIR, log=log)
    yield "numbers_in_a_table_of_16", three(table=THREE.table * 16, log=log)
    yield "sixteen_chains", three(table=records.LONG[: 24 * 16], log=log)
    nothing = bytes(24)
    yield "first_unsound", three(table=nothing + THREE.table, log=log)
    yield "last_unsound", three(table=THREE.table + nothing, log=log)
    yield "all_unsound", three(table=nothing * 16, log=log)
    yield "none_named", three(table=nothing, log=GRID + HOLD)
    for station in range(3):
        for name, place in ("east", (EAST + 1, 7)), ("north", (7, NORTH + 1)), ("same", records.FIRST[station - 1]):
            yield f"station_{station}_{name}", three(table=records.moved(records.FIRST, station, place))


def factors():
    """Factors at both ends of their range and out of it, in the chain that records name and in another; a chain that is unsound for
    its stations as well; holds after these. Then the same place by its readings with each factor."""
    asked = numbered(GRID, FIX, HOLD, records.log(chain=2), HOLD)
    for factor in (*search.FACTORS, *search.NO_FACTORS):
        for name, scale in ("first", (factor, rule.UNIT)), ("second", (rule.UNIT, factor)), ("both", (factor, factor)):
            table = THREE.table + THREE.table
            yield f"factor_{factor}_{name}", three(table=table, scale=records.scale_of(*scale), log=asked)
        yield f"factor_{factor}_not_named", three(scale=records.scale_of(factor), log=GRID + HOLD)
        yield f"factor_{factor}_no_record", three(scale=records.scale_of(factor), log=b"")
        yield f"factor_{factor}_unsound", three(table=bytes(24), scale=records.scale_of(factor))
    for factor in search.FACTORS:
        r = search.own(ONE._replace(factor=factor), (30003, 39991))
        yield f"by_factor_{factor}", asking(r, r._replace(factor=rule.UNIT))


def holds():
    """Holds after every kind of answer, two in a row, and after two answers that differ."""
    bad_hold = records.hold(chain=1)
    fixes_two = numbered(HOLD, HOLD, GRID, HOLD, HOLD, bad_hold, HOLD, GRID, bad_hold, HOLD, FIX, HOLD, HOLD, REFUSED, HOLD)
    yield "hold_after_two_places", three(log=fixes_two)
    fixes_one = numbered(HOLD, FIX, HOLD, HOLD, FIX, REFUSED, HOLD, FIX, GRID, HOLD, GRID, FIX, HOLD, FIX, bad_hold, HOLD)
    yield "hold_after_one_place", asking(ONE, log=fixes_one)
    nothing = readings_record(1, (0, 0))
    faults = nothing, records.log(chain=2), records.grid(first=-0.01), records.log(first=records.NAN), REFUSED
    after_faults = numbered(*flat((GRID, fault, HOLD) for fault in faults))
    yield "hold_after_a_fault", asking(ONE, log=after_faults)
    yield "hold_at_the_end", three(log=GRID + HOLD + HOLD[:31])
    yield "hold_alone", three(log=HOLD)
    for allowance in 0, 4:
        yield f"hold_after_10_allowance_{allowance}", asking(P4._replace(allowance=allowance), log=GRID + FIX + HOLD)
    yield "hold_after_9", asking(P4._replace(k=5, tolerance=100_000, allowance=2000), log=GRID + FIX + HOLD)


def with_neighbours(x):
    """A number and its two neighbours. If the number is exact, they are rounded to the same centimetres, up and down."""
    return x, nextafter(x, inf), nextafter(x, -inf)


# 01's readings and a place, with every two such numbers; the first record of each list is exact.
NEAR_FIXES = [records.log(first=a, second=b) for a, b in product(with_neighbours(-100.0), with_neighbours(-200.0))]
NEAR_GRIDS = [records.grid(e, n) for e, n in product(with_neighbours(300.25), with_neighbours(400.0))]


def roundings():
    """The last field: of exact numbers, of one that was rounded, in either place and either way, and of two; of holds after each,
    and of holds after holds. Where a fix has two places, its field is printed, and a hold after it has none to repeat."""
    each = NEAR_FIXES + NEAR_GRIDS
    yield "rounded_held", asking(ONE, log=numbered(*flat((record, HOLD, HOLD, HOLD) for record in each)))
    yield "rounded_two_places", three(log=numbered(*flat((record, HOLD, HOLD) for record in each)))
    yield "rounded_in_turn", asking(ONE, log=numbered(*flat((one, HOLD, other, HOLD, HOLD) for one in each for other in each[::4])))
    refused = records.grid(first=-0.01), records.log(first=records.NAN, second=300.01), records.log(chain=2, first=-99.99), REFUSED
    yield "rounded_refused", asking(ONE, log=numbered(*flat((GRID, HOLD, fault, HOLD, HOLD) for fault in refused)))
    small = 0.0, -0.0, 5e-324, -5e-324, -0.001, 0.001, 0.125, 0.25, 0.375, 0.005, 999_999.75, nextafter(1e6, 0), 1e6
    yield "rounded_places", three(log=numbered(*flat((records.grid(x, abs(y)), HOLD) for x in small for y in small)))


def rooms():
    """As many places as the program has room for, and one more: all cells of a window, and some of them."""
    for k in 3, 4, 5:
        yield f"whole_window_k_{k}", asking(P4._replace(k=k, tolerance=100_000, allowance=2000))
    yield "places_256", asking(P4._replace(corner=(29994, 39976), k=5, tolerance=6, allowance=2000))
    yield "places_257", asking(P4._replace(wanted=(-10000, -20001), corner=(29978, 39979), k=5, tolerance=5, allowance=2000))
    # the last visit allowed finds the list full, and one visit less does not get there
    for allowance in 346, 347:
        yield f"room_or_allowance_{allowance}", asking(P4._replace(k=5, tolerance=100_000, allowance=allowance))
    q = longest_line()
    for a in with_neighbours(q.wanted[0] / 100)[:2]:
        yield f"longest_line_{rule.rounded([rule.mark(a)])}", asking(q, log=records.log(1, 1, 2**32 - 1, a, q.wanted[1] / 100) * 2)


def longest_line():
    """01's chain moved so that the window lies in the far corner of the chart; every cell of the window matches."""
    q = P4._replace(master=(EAST - 30008, NORTH - 40008), a=(EAST - 8, NORTH - 40008), b=(EAST - 30008, NORTH - 8))
    return q._replace(corner=(EAST - 15, NORTH - 15), k=4, tolerance=9, allowance=341)


def searches():
    """01's P4 to P9 with a hold after each, and the crossings and points whose places and visits are known."""
    for i, q in enumerate(search.examples()):
        yield f"search_{i}", asking(q, log=readings_record(1, q.wanted, 7) + HOLD)
    for i, (q, wanted, corner, k, _, visits) in enumerate(search.CROSSINGS):
        q = q._replace(wanted=wanted, corner=corner, k=k)
        yield f"crossing_{i}", asking(q._replace(allowance=visits))
        yield f"crossing_{i}_stopped", asking(q._replace(allowance=visits - 1))


def numbers():
    """Line numbers and places of every number of digits; then the records that records.py chooses and sweeps, as logs."""
    edges = sorted({n for i in range(10) for n in (10**i - 1, 10**i)} | {2**31, 2**32 - 1})
    sized = (place_record((min(n, EAST), min(n, NORTH)), n) for n in edges)
    yield "digits", three(log=b"".join(sized) + b"".join(records.hold(line=n) for n in edges))
    yield "same_line_number", three(log=(GRID + HOLD + FIX) * 3)
    parts = records.examples, records.kinds, records.numbers, records.zeros, records.limits, records.roundings
    asked = (request[1] for part in parts for request in part() if request[0] == "read_record")
    yield "records", three(table=records.PAIR, log=b"".join(asked))
    swept = (request[1] for request in records.sweep() if request[0] == "read_record")
    yield "every_byte", three(table=records.PAIR, log=b"".join(swept))


CASES = lengths, missing, jobs, tables, factors, holds, roundings, rooms, searches, numbers


def cases():
    return flat(part() for part in CASES)


# Long logs


def part_ends():
    """Different places without end, with a hold as every sixteenth record; the record before the hold is of five kinds in turn. The
    places of every other sixteen records are exact."""
    i = 0
    while True:
        place = place_of_its_own(i, i // 16 % 2 == 1)
        last = place, records.hold(line=i), REFUSED, FIX, records.log(first=-99.99)
        if i % 16 == 0:
            yield records.hold(line=i)
        elif i % 16 == 15:
            yield last[i // 16 % 5]
        else:
            yield place
        i += 1


def place_of_its_own(i, exact):
    """A grid record of a place that no other number has; exact if both its numbers are whole quarters of a metre."""
    step = 25 if exact else 1
    return place_record((step * i, step * (3 * i + 1)), i)


def part_log(count):
    return b"".join(islice(part_ends(), count))


def over_edges():
    """A hold as the first record of every part but the first, also of the second buffer, each just after a place of its own, exact
    and rounded in turn."""
    log = [REFUSED] * (2048 + 128 + 1)
    for first in range(128, len(log), 128):
        log[first - 1 : first + 1] = place_of_its_own(first, first // 128 % 2 == 1), records.hold(line=first)
    return b"".join(log)


# In P4's window one of the readings above matches two places, and the other matches one.
PARTS = asking(P4)


def edges():
    """Logs that end with a part of 128 records or a buffer of 2,048, or a byte or a record before or after; holds at such ends."""
    log = part_log(3 * 2048)
    ends = (1, 2, 15, 16, 17, 31, 32)
    for end in (4096 * n for n in ends):
        for length in end - 32, end - 1, end, end + 1, end + 32:
            yield f"bytes_{length}", PARTS._replace(log=log[:length])
    yield "five_buffers", PARTS._replace(log=part_log(5 * 2048 + 2))
    yield "holds_over_edges", PARTS._replace(log=over_edges())


def long():
    yield "records_8000", PARTS._replace(log=part_log(8_000))
    yield "records_100000", PARTS._replace(log=part_log(100_000) + b"\3")
    yield "long_lines", long_lines()


def long_lines():
    """The longest lines one after the other, then lines of many lengths in random order, so that they begin and end anywhere."""
    draw = random.Random(1)
    q = longest_line()
    slides = [0] * 48 + [draw.randint(0, 16) for _ in range(700)]
    sides = ((q.wanted[0] + slide, q.wanted[1] - slide) for slide in slides)
    numbers = (2**32 - 1 if i < 48 else draw.getrandbits(draw.choice((4, 16, 32))) for i in range(len(slides)))
    return asking(q, log=b"".join(readings_record(1, wanted, line) for wanted, line in zip(sides, numbers)))


# Folders at random


def on_chart(place):
    return min(place[0], EAST), min(place[1], NORTH)


def drawn_readings(draw, question, chains):
    """The number of a chain, and readings in it that a place in the window or near it may have, or else the question's."""
    number = draw.randrange(len(chains))
    c = chains[number]
    near = on_chart(question.corner)
    place = draw.choice((near, search.beside(draw, near, 2 ** min(question.k, 24))))
    noise = draw.choice((0, 0, question.tolerance))
    wanted = tuple(x + draw.randint(-noise, noise) for x in search.readings(c, place))
    return number + 1, draw.choice((wanted, wanted, question.wanted))


def drawn_chain(draw, question):
    reach = draw.choice((40, 1_000, 100_000, 10**7, NORTH))
    near = on_chart(question.corner)
    stations = {station: search.beside(draw, near, reach) for station in ("master", "a", "b")}
    return question._replace(**stations, factor=search.drawn_factor(draw))


def drawn_record(draw, fixes):
    line = draw.choice((draw.randrange(100), draw.getrandbits(32)))
    number, wanted = draw.choice(fixes)
    return draw.choice(
        (
            lambda: readings_record(number, wanted, line),
            lambda: readings_record(number, wanted, line),
            lambda: place_record((draw.randint(0, EAST), draw.randint(0, NORTH)), line),
            lambda: records.hold(line=line),
            lambda: records.hold(line=line),
            lambda: records.drawn_log(draw) if draw.random() < 0.5 else records.hold(chain=draw.randrange(2), line=line),
        )
    )()


def drawn_folder(draw):
    question = search.drawn(draw)
    # a larger allowance takes long if there are many cells and few squares are dropped
    most = 2**64 - 1 if question.k < 6 else 4000
    _, visits, _ = searched(question.chain, question.wanted, question.job._replace(allowance=4000), rule.ROOM)
    allowance = draw.choice((visits, max(0, visits - 1), draw.randint(0, 50), most, most))
    question = question._replace(allowance=allowance)
    count = draw.choice((1, 2, 3, 16))
    chains = [question] + [drawn_chain(draw, question) for _ in range(count - 1)]
    draw.shuffle(chains)
    fixes = [(chains.index(question) + 1, question.wanted)] + [drawn_readings(draw, question, chains) for _ in range(3)]
    log = b"".join(drawn_record(draw, fixes) for _ in range(draw.choice((0, 1, 5, 20, 40))))
    folder = Folder(job_of(question), *chains_of(*chains), log)
    if draw.random() < 0.2:
        at = draw.randrange(4)
        folder = Folder(*(records.damaged(draw, s) if i == at else s for i, s in enumerate(folder)))
    if draw.random() < 0.1:
        folder = folder._replace(log=folder.log + bytes(draw.randrange(1, 32)))
    return folder


def at_random(seed):
    draw = random.Random(seed)
    for i in range(200):
        yield f"{i:03}", drawn_folder(draw)


# Requests to the library, which lists a log at once or in parts and leaves its text in a buffer


# The room for a line. The longest has a line number of 10 digits, visits of 20, and 256 places in the far corner of the chart.
LINE = 5760
assert len("4294967295 FIX 256 18446744073709551615" + " 100000000 1000000000" * rule.ROOM + " 1\n") <= LINE


def needed(log):
    """How many bytes the buffer must have for a log."""
    return LINE * (len(log) // 32 + 1)


def held_by(held, easting, northing, rounded):
    """What these numbers of a part say that a hold repeats; any `held` or `rounded` other than 0 counts as 1."""
    return rule.Held((easting, northing), 1 if rounded else 0) if held else None


def numbers_of(held):
    """The same numbers of a part, for what is held after it."""
    return (1, *held.place, held.rounded) if held else (0, 0, 0, 0)


def request(folder, held=(0, 0, 0, 0), length=None, dirt=165):
    files = [content or b"" for content in folder]
    return records.in_words(("list", needed(files[-1]) if length is None else length, dirt, *held, *files))


def in_parts(folder):
    """The records one by one, each with what the one before it leaves; where that is nothing, the other numbers do not count."""
    part, others = (0, 0, 0, 0), cycle((1, 7, 2**32 - 1))
    for record in rule.pieces(folder.log, 32):
        asked = folder._replace(log=record)
        yield request(asked, part)
        ((_, left),) = listed(asked, held_by(*part))
        part = (next(others), *left.place, left.rounded * next(others)) if left else (0, 7, 7, 9)


def in_halves(folder):
    """The log cut before each of its records, the second part with what the first leaves."""
    for at in range(32, len(folder.log), 32):
        first, second = folder._replace(log=folder.log[:at]), folder._replace(log=folder.log[at:])
        yield request(first)
        yield request(second, numbers_of(listed(first)[-1][1]))


def carried():
    """Every sort of log after every sort of part: what is held is passed on by no record, repeated, replaced, or lost."""
    logs = b"", HOLD, HOLD * 3, HOLD + GRID, NEAR_GRIDS[0], NEAR_GRIDS[0] + HOLD, GRID + HOLD, FIX + HOLD, REFUSED + HOLD, HOLD[:31]
    for held, rounded in product((0, 1, 7, 2**32 - 1), repeat=2):
        part = held, 30001, 40000, rounded
        for log in logs:
            yield request(three(log=log), part)
        for refused in by_job(k=25), three(table=b""), three(scale=b""):
            yield request(refused, part)
            yield request(refused._replace(log=b""), part)
        yield request(THREE, part, length=needed(THREE.log) - 1)
        yield request(three(log=b""), part, length=needed(b"") - 1)


def requests():
    for _, folder in cases():
        if len(folder.log or b"") <= 32 * 600:
            yield request(folder)
    yield from in_parts(THREE)
    for _, folder in (*holds(), *roundings()):
        yield from in_parts(folder)
    for folder in three(log=(GRID + HOLD) * 4), asking(ONE, log=NEAR_FIXES[0] + HOLD * 3 + NEAR_FIXES[1] + HOLD * 3 + GRID + HOLD):
        yield from in_halves(folder)
    yield from carried()
    for folder in THREE, three(log=b""), three(log=THREE.log[:95]), by_job(k=25), three(table=b""), three(scale=b""):
        for off in -5760, -1, 0, 1, 5760:
            for dirt in 0, 10, 255:
                yield request(folder, length=max(0, needed(folder.log) + off), dirt=dirt)
    yield request(THREE, length=0)


def answer_to(line):
    _, length, _, held, easting, northing, rounded, *files = line.split()
    folder = Folder(*(bytes.fromhex(digits.strip("-")) for digits in files))
    if int(length) < needed(folder.log):
        return records.in_words((9, 0, *numbers_of(None), b"", "kept"))
    before = held_by(*map(int, (held, easting, northing, rounded)))
    told = listed(folder, before)
    text = "".join(line + "\n" for line, _ in told).encode()
    left = told[-1][1] if told else before
    return records.in_words((0, len(text), *numbers_of(left), text, "kept"))


# Files


def write(place, folders):
    for name, folder in folders:
        path = os.path.join(place, name)
        os.makedirs(path, exist_ok=True)
        for file, content in zip(FILES, folder):
            if content is not None:
                with open(os.path.join(path, file), "wb") as f:
                    f.write(content)
        with open(os.path.join(path, "listing"), "w") as f:
            f.writelines(line + "\n" for line, _ in listed(folder))


def content_of(path):
    try:
        with open(path, "rb") as f:
            return f.read()
    except FileNotFoundError:
        return None


# F_SETPIPE_SZ, which the module fcntl has only in later versions of Python
SET_PIPE_SIZE = 1031


def memory(folder, program):
    """The most memory that the program has used so far, in kilobytes. The part of the listing that is not yet read is more than the
    pipe holds, so the program waits meanwhile. The figure is from /proc, as the one that a parent gets for its child also counts
    the parent's own memory when the child began."""
    pipe, unread = 65536, 131072
    size = os.path.getsize(os.path.join(folder, "listing"))
    ours, theirs = os.pipe()
    fcntl.fcntl(theirs, SET_PIPE_SIZE, pipe)
    running = subprocess.Popen(program, cwd=folder, stdout=theirs)
    os.close(theirs)
    with open(ours, "rb") as listed:
        listed.read(size - unread)
        with open(f"/proc/{running.pid}/status") as f:
            held = [line.split()[1] for line in f if line.startswith("VmHWM:")]
        listed.read()
    running.wait()
    return held[0] if held else sys.exit("the program ended early")


def main(words):
    writers = {"examples": examples, "cases": cases, "edges": edges, "long": long}
    if words[:1] == ["list"] and len(words) == 2:
        folder = Folder(*(content_of(os.path.join(words[1], file)) for file in FILES))
        sys.stdout.writelines(line + "\n" for line, _ in listed(folder))
    elif words[:1] == ["random"] and len(words) == 3:
        write(words[2], at_random(int(words[1])))
    elif words == ["requests"]:
        print("\n".join(requests()))
    elif words == ["answers"]:
        print("\n".join(answer_to(line) for line in sys.stdin.read().splitlines()))
    elif words[:1] == ["memory"] and len(words) >= 3:
        print(memory(words[1], words[2:]))
    elif len(words) == 2 and words[0] in writers:
        write(words[1], writers[words[0]]())
    else:
        sys.exit(__doc__)


if __name__ == "__main__":
    main(sys.argv[1:])
