#!/usr/bin/env python3
"""Makes requests to read and write records in the words of lay.c, and answers them by rule.py.

    records.py named        prints the chosen requests, one to a line
    records.py sweep        prints requests for sound records with each byte set to each other value
    records.py random SEED  prints 1,500 others at random
    records.py answers      answers the requests on standard input
"""
import random
import struct
import sys
from math import inf, nextafter

# Without this the modules beside this one would leave compiled files in the tree.
sys.dont_write_bytecode = True
import rule
from rule import EAST, NORTH
from search import FACTORS, NO_FACTORS, drawn_factor

NAN = 0x7FF8000000000000
INFINITY = 0x7FF0000000000000
MINUS = 1 << 63
FAR = 2**32 - 1


# A request is a tuple: its verb, then the words of its line, which are whole numbers or bytes; for each verb that has bytes, which
# of its words they are.
BYTES = {"read_record": [0], "read_job": [0], "count_chains": [0], "chain": [3, 4], "read_chain": [2]}


def in_words(values):
    return " ".join((v.hex() or "-") if isinstance(v, bytes) else str(v) for v in values)


def request_of(line):
    verb, *words = line.split()
    of_bytes = BYTES.get(verb, [])
    return (verb, *(bytes.fromhex(word.strip("-")) if at in of_bytes else int(word) for at, word in enumerate(words)))


def lines_of(requests):
    """The lines of requests. With each chain that is asked for, its table is counted, and its stations and its factor are read and
    written; with each job that is read, its fields are written."""
    for request in requests:
        yield in_words(request)
        if request[0] == "chain":
            yield from (in_words(more) for more in beside_chain(*request[1:]))
        if request[0] == "read_job" and len(request[1]) == 32:
            job = rule.raw_job(request[1])
            yield in_words(("write_job", 32, 0xA5, *job.corner, *job[1:]))


def beside_chain(length, held, number, table, scale):
    yield "count_chains", table
    piece = table[24 * number - 24 : 24 * number] if number else b""
    factor = int.from_bytes(scale[4 * number - 4 : 4 * number] if number else b"", "little")
    yield "read_chain", 6, held, piece, factor
    yield "write_chain", 24, held, factor, *struct.unpack(f"<{len(piece) // 4}I", piece[: len(piece) // 4 * 4])
    yield "write_factor", 4, held, factor


def told(request):
    verb, *rest = request
    return in_words(ANSWERS[verb](*rest))


# The answers: the number of the refusal, and after it what the rule gives, or as many zeros


def record_answer(s):
    """The line number is given for every record of 32 bytes, the other fields and the marks only for an accepted one."""
    refusal, record = rule.tried(rule.log_record, s)
    if refusal:
        return refusal, 0, 0, rule.raw_record(s).line if len(s) == 32 else 0, 0, 0, 0, 0
    return 0, record.kind, record.chain, record.line, *(record.numbers or (0, 0)), *(record.marks or (rule.EQUAL,) * 2)


def count_answer(s):
    refusal, chains = rule.tried(rule.stations_in, s)
    return refusal, 0 if refusal else len(chains)


def job_answer(s):
    refusal, job = rule.tried(rule.job_in, s)
    return refusal, *([0] * 5 if refusal else (*job.corner, *job[1:]))


def in_buffer(length, rule_of, *given):
    """A refused write leaves its whole buffer zero."""
    refusal, s = rule.tried(rule_of, *given)
    return refusal, bytes(length) if refusal else s


def write_answer(length, held, kind, chain, line, *numbers):
    return in_buffer(length, rule.record_bytes, rule.Record(kind, chain, line, numbers), length)


def write_job_answer(length, held, easting, northing, *others):
    def written(job):
        rule.refuse(1, length != 32)
        rule.check_job(job)
        return rule.job_bytes(job)

    return in_buffer(length, written, rule.Job((easting, northing), *others))


def sound_bytes(length, chain):
    rule.refuse(1, length != 24)
    rule.refuse(5, not rule.is_sound(chain))
    return rule.chain_bytes(chain)


def chain_answer(length, held, number, table, scale):
    """The factor is given only with the bytes."""
    refusal, s = in_buffer(length, lambda: sound_bytes(length, rule.chain_in(table, scale, number)))
    return refusal, s, 0 if refusal else rule.chain_in(table, scale, number).factor


def write_chain_answer(length, held, factor, *numbers):
    def written():
        rule.refuse(1, len(numbers) != 6)
        return sound_bytes(length, rule.chain_of(numbers, factor))

    return in_buffer(length, written)


def read_chain_answer(entries, held, s, factor):
    def numbers():
        rule.refuse(1, len(s) != 24 or entries != 6)
        return struct.unpack("<6I", sound_bytes(24, rule.chain_of(struct.unpack("<6I", s), factor)))

    refusal, read = rule.tried(numbers)
    return refusal, *([0] * entries if refusal else read)


def write_factor_answer(length, held, factor):
    def written():
        rule.refuse(1, length != 4)
        rule.refuse(5, not rule.is_factor(factor))
        return rule.factor_bytes(factor)

    return in_buffer(length, written)


ANSWERS = {
    "read_record": record_answer,
    "write_record": write_answer,
    "read_job": job_answer,
    "write_job": write_job_answer,
    "count_chains": count_answer,
    "chain": chain_answer,
    "read_chain": read_chain_answer,
    "write_chain": write_chain_answer,
    "write_factor": write_factor_answer,
}


# Records to ask about. A number is given as a float, or as a whole number that is its bit pattern.


def eight(x):
    return struct.pack("<d" if isinstance(x, float) else "<Q", x)


def log(kind=1, chain=1, line=1, first=-100.0, second=-200.0, third=0, two=0, three=0):
    return struct.pack("<BBBBI", kind, chain, two, three, line) + eight(first) + eight(second) + eight(third)


def grid(first=300.01, second=400.0, chain=0, line=2, **others):
    return log(2, chain, line, first, second, **others)


def hold(first=0, second=0, chain=0, line=3, **others):
    return log(3, chain, line, first, second, **others)


def job(easting=30000, northing=40000, k=1, zeros=(0, 0, 0), tolerance=0, allowance=100, last=0):
    return struct.pack("<IIBBBBIQQ", easting, northing, k, *zeros, tolerance, allowance, last)


def chain_of(*stations):
    return rule.chain_bytes(rule.chain_of(rule.flat(stations)))


def draft(length=32, held=0x5A, kind=1, chain=1, line=1, x=-10000, y=-20000):
    return "write_record", length, held, kind, chain, line, x, y


def scale_of(*factors):
    return b"".join(map(rule.factor_bytes, factors))


def units(table):
    """A side file for this table, with the factor 1,000,000 for each chain."""
    return scale_of(rule.UNIT) * (len(table) // 24)


def named_chain(number, table, length=24, held=0x5A, scale=None):
    """Unless a side file is given, it is that of the usual factors."""
    return "chain", length, held, number, table, units(table) if scale is None else scale


def changed(s, at, value):
    return s[:at] + bytes([value]) + s[at + 1 :]


# 01's chain 1, and a chain as far out as may be; then a table of these two, and one of chains that are easily told apart.
FIRST = (0, 0), (30000, 0), (0, 40000)
OUTER = (EAST, NORTH), (0, NORTH), (EAST, 0)
PAIR = chain_of(*FIRST) + chain_of(*OUTER)
LONG = b"".join(chain_of((i, 2 * i), (30000 + i, i), (7 * i, 40000 + i)) for i in range(1, 18))
SOUND = log(), grid(), hold()


def examples():
    """01's log of three records, its chain and its job."""
    for s in SOUND:
        yield "read_record", s
    yield named_chain(1, chain_of(*FIRST))
    yield "read_job", job()
    yield draft()
    yield draft(kind=2, chain=0, line=2, x=30001, y=40000)
    yield draft(kind=3, chain=0, line=3, x=0, y=0)


def kinds():
    for kind in range(256):
        yield "read_record", log(kind, 0, kind, 0, 0)
    for kind in 0, 1, 2, 3, 4:
        yield "read_record", log(kind)
        yield "read_record", log(kind, chain=0)
    for line in 0, 255, 256, 2**31, FAR - 1, FAR:
        yield "read_record", log(line=line)
        yield "read_record", hold(line=line)


def lengths():
    for length in range(65):
        yield "read_record", (log() + bytes(32))[:length]
        yield "read_job", (job() + bytes(32))[:length]
        yield draft(length=length)
    for s in grid(), hold():
        for length in 0, 8, 31, 33, 64:
            yield "read_record", (s + s)[:length]
    yield "read_record", bytes(512)
    yield "read_job", bytes(512)
    for length in 0, 1, 23, 24, 25, 47, 48, 383, 384, 385, 407, 408:
        for number in 0, 1, 2, 16, 17, 255, 256, FAR:
            yield named_chain(number, LONG[:length])
    for length in 360, 384, 408, 504:
        yield named_chain(16, bytes(length))
    for length in 96, 511, 512:
        yield draft(length=length, held=255)
    yield draft(length=0, held=0)
    yield draft(length=32, held=0)


NANS = NAN, NAN + 1, INFINITY + 1, MINUS - 1, MINUS + NAN, MINUS + INFINITY + 1, 2**64 - 1
ODD = INFINITY, MINUS + INFINITY, MINUS, 1, MINUS + 1, 2**52 - 1, 2**52, MINUS + 2**52


def numbers():
    """NaN, infinities, minus zero and the smallest numbers: in used fields, and in those that must be zero bytes."""
    for pattern in NANS + ODD:
        yield "read_record", log(first=pattern)
        yield "read_record", grid(second=pattern)
    for pattern in NAN, INFINITY, MINUS + INFINITY, MINUS, MINUS + 1:
        yield "read_record", log(second=pattern)
        yield "read_record", grid(first=pattern)
    for pattern in NAN, INFINITY + 1, INFINITY, MINUS, 1:
        yield "read_record", log(third=pattern)
        yield "read_record", grid(third=pattern)
        yield "read_record", hold(first=pattern)
        yield "read_record", hold(second=pattern)
        yield "read_record", hold(third=pattern)
    yield "read_record", log(first=MINUS, second=MINUS)
    yield "read_record", grid(first=MINUS, second=MINUS)


def zeros():
    """Bytes that must be zero, alone and with a wrong number or place: 2 comes first."""
    for value in 1, 128:
        for s in SOUND:
            yield "read_record", changed(s, 2, value)
            yield "read_record", changed(s, 3, value)
            yield "read_record", changed(s, 24, value)
            yield "read_record", changed(s, 31, value)
        for s in grid(), hold():
            yield "read_record", changed(s, 1, value)
    for faults in {"two": 1}, {"three": 1}, {"two": 9, "three": 9}, {"third": 0.5}, {"third": NAN}:
        yield "read_record", log(first=NAN, second=INFINITY, **faults)
        yield "read_record", grid(first=-1.0, second=NAN, **faults)
    yield "read_record", grid(first=NAN, chain=7)
    yield "read_record", log(kind=4, two=1, first=NAN)


def beside(x):
    return nextafter(x, -inf), x, nextafter(x, inf)


def limits():
    """Sizes at their limit, and places at the edges of the chart before and after rounding."""
    for limit in 1e7, -1e7:
        for x in beside(limit):
            yield "read_record", log(first=x)
            yield "read_record", log(second=x)
            yield "read_record", grid(first=x)
            yield "read_record", grid(second=x)
    for x in (-0.001, -0.01, *beside(-0.005), *beside(1_000_000.005), *beside(1_000_000.0), 1_000_000.01, 2e6, -1e6):
        yield "read_record", grid(first=x)
        yield "read_record", grid(second=x)
    for x in 42949672.96, 429496.7296, 42949672.95:
        yield "read_record", grid(first=x)
        yield "read_record", log(first=x, second=-x)
    yield "read_record", grid(first=1e6, second=1e7)
    # the place is out of range and a number cannot be used: 3 comes first
    yield "read_record", grid(first=2e6, second=NAN)
    yield "read_record", grid(first=-1.0, second=INFINITY)
    yield "read_record", grid(first=NAN, second=-1.0)
    # whether its chain is in the table is not tested when a record is read by itself
    for chain in 0, 1, 16, 17, 255:
        yield "read_record", log(chain=chain)
        yield "read_record", log(chain=chain, first=NAN)


def roundings():
    """01's four, ties beyond them, and numbers that two roundings in a row would get wrong."""
    for x in 0.125, 0.375, 0.625, 0.875, 1.125, 0.005, 0.015, 0.025, 0.035, 1.005, 300.01, 9_999_999.995, 4_999_999.125:
        yield "read_record", log(first=x, second=-x)
        yield "read_record", grid(first=min(x, 1e6), second=x)


# Numbers of metres on the chart that are exact, that lie below their centimetres and that lie above them.
MARKED = 300.25, 300.01, 300.04


def marks():
    """Every two of these in a record, as they are and as readings below zero; then with a fault, after which no mark is left."""
    assert [rule.mark(x) for x in MARKED] == [rule.EQUAL, rule.BELOW, rule.ABOVE]
    for first in MARKED:
        for second in MARKED:
            yield "read_record", grid(first, second)
            for one, other in (first, second), (-first, second), (first, -second), (-first, -second):
                yield "read_record", log(first=one, second=other)
            for faults in {"two": 1}, {"third": MINUS}:
                yield "read_record", log(first=first, second=second, **faults)
                yield "read_record", grid(first, second, **faults)
            yield "read_record", grid(first, second)[:31]
            yield "read_record", log(4, first=first, second=second)
            yield "read_record", hold(first, second)
    for x in MARKED:
        for wrong in NAN, INFINITY, MINUS + INFINITY, nextafter(1e7, inf), -nextafter(1e7, inf):
            yield "read_record", log(first=x, second=wrong)
            yield "read_record", log(first=wrong, second=x)
            yield "read_record", grid(x, wrong)
            yield "read_record", grid(wrong, x)
        for outside in -0.01, -0.25, 1_000_000.01, 1_000_000.25:
            yield "read_record", grid(outside, x)
        for outside in -0.01, -0.25:
            yield "read_record", grid(x, outside)
    # quarters of a metre, a tie, a centimetre, and the smallest and largest numbers, each with its neighbours
    for x in (0.25, 0.5, 0.75, 0.125, 0.01, 5e-324, 1e-9, 1_000_000.0, 999_999.75):
        for each in beside(x):
            yield "read_record", grid(abs(each), x)
            yield "read_record", log(first=-x, second=-each)


def moved(chain, station, place):
    return chain_of(*(place if i == station else p for i, p in enumerate(chain)))


def chains():
    """Stations at the edge and out of range, and two of them equal, in a chain that is named and in one that is not."""
    tables = []
    for station in 0, 1, 2:
        for place in (EAST, 7), (EAST + 1, 7), (7, NORTH), (7, NORTH + 1), (FAR, FAR):
            tables.append(moved(FIRST, station, place))
        tables.append(moved(FIRST, station, FIRST[station - 1]))
    tables.append(chain_of((5, 5), (5, 5), (5, 5)))
    tables.append(chain_of((5, 6), (6, 5), (5, 5)))
    for table in tables:
        yield named_chain(1, table)
        yield named_chain(2, table + chain_of(*OUTER))
    yield named_chain(1, tables[-1] + tables[-2])
    yield named_chain(2, tables[-1] + tables[-2])
    for number in 0, 1, 2, 3, 257, 258, 2**31:
        yield named_chain(number, PAIR)
    yield named_chain(17, LONG[:384] + bytes(1))
    yield named_chain(16, LONG[:360] + bytes(24))
    yield named_chain(15, LONG[:360] + bytes(24))


def scales():
    """Side files of every length about the one that fits, also with a table that is refused; factors in range and out of it, in the
    chain that is named and in the other; a factor and a chain that are both wrong, and a buffer that is too short as well."""
    sixteen, longest = LONG[:384], scale_of(*range(1_000_000, 1_000_018))
    for table in chain_of(*FIRST), PAIR, sixteen, PAIR + bytes(1), b"":
        for length in range(4 * (len(table) // 24) + 6):
            for number in 0, 1, len(table) // 24, 17:
                yield named_chain(number, table, scale=longest[:length])
    for number in range(1, 17):
        yield named_chain(number, sixteen, scale=longest[:64])
    for factor in (*FACTORS, *NO_FACTORS):
        for scale in scale_of(factor, rule.UNIT), scale_of(rule.UNIT, factor):
            for number in 0, 1, 2, 3:
                yield named_chain(number, PAIR, scale=scale)
            yield named_chain(1, PAIR, length=23, scale=scale)
        yield named_chain(1, bytes(24), scale=scale_of(factor))


def jobs():
    for k in 0, 1, 2, 23, 24, 25, 26, 31, 32, 33, 64, 128, 255:
        yield "read_job", job(k=k)
    for k in 0, 1, 12, 23, 24:
        # the last window that fits, then a cell farther east and a cell farther north
        corner = EAST + 1 - 2**k, NORTH + 1 - 2**k
        for east, north in (0, 0), (1, 0), (0, 1):
            yield "read_job", job(corner[0] + east, corner[1] + north, k)
        # sums beyond 32 bits
        for far in FAR, FAR + 1 - 2**k, min(FAR, FAR + 2 - 2**k):
            yield "read_job", job(easting=far, k=k)
            yield "read_job", job(northing=far, k=k)
    for k in 0, 1:
        yield "read_job", job(easting=EAST, k=k)
        yield "read_job", job(northing=NORTH, k=k)
    yield "read_job", job(easting=FAR, northing=FAR, k=255)
    for tolerance in 99_999, 100_000, 100_001, FAR:
        yield "read_job", job(tolerance=tolerance)
    for allowance in 0, 1, 2**32, 2**63, 2**64 - 1:
        yield "read_job", job(allowance=allowance)
    for zero in (1, 0, 0), (0, 1, 0), (0, 0, 1), (255, 255, 255):
        yield "read_job", job(zeros=zero)
        yield "read_job", job(zeros=zero, k=25, tolerance=100_001)
    for at in range(24, 32):
        yield "read_job", changed(job(k=25), at, 128)
    yield "read_job", job(k=25, tolerance=100_001)


def drafts():
    for kind in 0, 1, 2, 3, 4, 255, 256, 257, FAR:
        for chain in 0, 1, 16, 17, 256, 257, FAR:
            yield draft(kind=kind, chain=chain, x=30001, y=40000)
    most = 1_000_000_000
    for c in most, most + 1, 2**32 + 5, 2**63 - 1:
        for x in c, -c:
            yield draft(x=x)
            yield draft(y=x)
            yield draft(kind=2, y=x, x=0)
            yield draft(kind=3, x=x, y=x)
    for kind in 1, 2, 3:
        yield draft(kind=kind, x=-(2**63))
        yield draft(kind=kind, y=-(2**63))
    for x, y in (EAST, NORTH), (EAST + 1, 0), (-1, 0), (0, -1), (0, 0), (-1, most + 1), (most + 1, -1), (most, 0):
        yield draft(kind=2, x=x, y=y)
    for c in 0, 1, -1, 12, 38, -12, 62, 99, 100, 101, 30001, 999_999_999, -999_999_999, 2**29 + 1, 7 * 11 * 13:
        yield draft(x=c, y=-c)
    for line in 0, 256, 0x01020304, FAR:
        yield draft(line=line, held=255)
        yield draft(kind=3, line=line, held=255)


def draft_faults():
    """Every two faults at once, and more: the first in the order 1 to 5 answers, and nothing is left of what the buffer held."""
    faults = (
        {"length": 31},
        {"kind": 4},
        {"x": 1_000_000_001},
        {"kind": 2, "y": -1},
        {"chain": 17},
    )
    for i, one in enumerate(faults):
        for held in 0, 1, 255:
            yield draft(**one, held=held)
        for other in faults[:i]:
            yield draft(**{**one, **other})
    yield draft(length=0, kind=0, chain=0, x=-(2**63), y=2**63 - 1)
    yield draft(length=33, kind=2, chain=0, x=-1, y=-1)
    yield draft(kind=0, chain=0, x=-(2**63), y=2**63 - 1)
    yield draft(kind=1, chain=0, x=-(2**63), y=2**63 - 1)
    yield draft(kind=1, chain=0, x=-1, y=-1)


def rooms():
    """Buffers and lists of wrong lengths, alone and with other faults. The lengths are tested first, but for `chain`: there the
    table and the number come before the buffer."""
    sound, unsound = (0, 0, 30000, 0, 0, 40000), (0, 0, 0, 0, 0, 40000)
    for length in 0, 1, 23, 25, 48:
        for number in 1, 3:
            yield named_chain(number, PAIR, length, 255)
        yield named_chain(1, PAIR[:47], length)
        for stations in sound, unsound, sound[:5], (*sound, 0), ():
            for factor in rule.UNIT, 0:
                yield "write_chain", length, 255, factor, *stations
        for job in (30000, 40000, 1, 0, 100), (30000, 40000, 25, 100_001, 0):
            yield "write_job", length, 255, *job
    for stations in unsound, sound[:5], (*sound, 0), unsound[:4], ():
        yield "write_chain", 24, 255, rule.UNIT, *stations
    for factor in (*FACTORS, *NO_FACTORS):
        yield "write_chain", 24, 255, factor, *sound
        for length in 0, 3, 4, 5, 8:
            yield "write_factor", length, 255, factor
    for job in (EAST, 40000, 0, 0, 0), (EAST, 40000, 1, 0, 0), (30000, NORTH, 24, 0, 0), (0, 0, 25, 100_001, 0), (0, 0, FAR, 0, 0):
        yield "write_job", 32, 255, *job
    for tolerance in 100_000, 100_001, FAR:
        yield "write_job", 32, 0, 0, 0, 0, tolerance, 2**64 - 1
    for entries in 0, 1, 5, 7, 12:
        for s in chain_of(*FIRST), chain_of(*FIRST)[:23], chain_of(*FIRST) + bytes(1), bytes(24), b"":
            for factor in rule.UNIT, 998_999:
                yield "read_chain", entries, FAR, s, factor
                yield "read_chain", 6, FAR, s, factor


NAMED = examples, kinds, lengths, numbers, zeros, limits, roundings, marks, chains, scales, jobs, drafts, draft_faults, rooms


def sweep():
    """Each byte of a record of each kind and of a job set to each other value; each of a table of two chains, and of its side file,
    to a dozen values."""
    for verb, s in *(("read_record", s) for s in SOUND), ("read_job", job()):
        for at in range(32):
            for value in range(256):
                if value != s[at]:
                    yield verb, changed(s, at, value)
    for at in range(48):
        for value in 0, 1, 2, 5, 48, 59, 60, 64, 117, 127, 128, 255:
            for number in 1, 2:
                yield named_chain(number, changed(PAIR, at, value))
    for at in range(8):
        for value in 0, 1, 14, 15, 16, 62, 63, 66, 69, 70, 128, 255:
            for number in 1, 2:
                yield named_chain(number, PAIR, scale=changed(units(PAIR), at, value))


def drawn_number(draw):
    """A bit pattern: of whole centimetres or numbers next to them, of numbers near the limits, or of any bits at all."""
    centimetre = draw.choice((draw.randint(0, EAST), draw.randint(-NORTH, NORTH), draw.randint(-3, 300)))
    limit = draw.choice((1e7, -1e7, 1e6, 1e6 + 0.005, -0.005, 0.0, draw.randint(-(10**9), 10**9) / 8))
    x = draw.choice((centimetre / 100, centimetre / 100, draw.uniform(-2e6, 2e6), limit))
    for _ in range(draw.choice((0, 0, 1, 2))):
        x = nextafter(x, draw.choice((-inf, inf)))
    pattern = int.from_bytes(eight(float(x)), "little")
    return draw.choice((pattern,) * 9 + (draw.getrandbits(64), draw.choice(NANS + ODD)))


def drawn_log(draw):
    first, second, line = drawn_number(draw), drawn_number(draw), draw.getrandbits(32)
    easting, northing = draw.randint(0, EAST) / 100, draw.randint(0, NORTH) / 100
    return draw.choice(
        (
            log(chain=draw.randint(0, 20), line=line, first=first, second=second),
            log(chain=draw.randint(1, 16), line=line, first=easting, second=-northing),
            grid(line=line, first=first, second=second),
            grid(line=line, first=easting, second=northing),
            hold(line=line),
        )
    )


def drawn_station(draw):
    if draw.random() < 0.1:
        return draw.choice((EAST, EAST + 1, 0, FAR)), draw.choice((NORTH, NORTH + 1, 0, FAR))
    return draw.randint(0, EAST), draw.randint(0, NORTH)


def drawn_chain(draw):
    stations = [drawn_station(draw) for _ in range(3)]
    if draw.random() < 0.1:
        stations[draw.randrange(3)] = draw.choice(stations)
    return chain_of(*stations)


def drawn_job(draw):
    k = draw.choice((draw.randint(0, 24), draw.randint(0, 24), draw.randint(22, 27)))
    side = 2 ** min(k, 25)
    east = draw.choice((draw.randint(0, EAST), draw.randint(0, EAST + 1 - side // 2), EAST + 1 - side, EAST + 2 - side))
    north = draw.choice((draw.randint(0, NORTH), NORTH + 1 - side, NORTH + 2 - side))
    tolerance = draw.choice((draw.randint(0, 100_000), draw.randint(99_998, 100_003)))
    return job(east, north, k, tolerance=tolerance, allowance=draw.getrandbits(draw.choice((8, 64))))


def damaged(draw, s):
    """Mostly as it was, else with up to three bytes changed or with another length."""
    if draw.random() < 0.1:
        length = draw.choice((max(len(s) - 1, 0), len(s) + 1, draw.randint(0, 512)))
        return (s + draw.randbytes(512))[:length]
    for _ in range(draw.choice((0, 0, 1, 2, 3)) if s else 0):
        s = changed(s, draw.randrange(len(s)), draw.choice((0, 1, 128, draw.getrandbits(8))))
    return s


def drawn_draft(draw):
    most = draw.choice((EAST, NORTH, NORTH + 2, 300))
    x, y = (draw.choice((draw.randint(0, most), draw.randint(-most, most), draw.getrandbits(64) - MINUS)) for _ in "xy")
    if draw.random() < 0.6:
        x, y = draw.randint(0, EAST), draw.randint(0, NORTH)
    return draft(
        length=draw.choice((32,) * 12 + (31, 33, draw.randint(0, 512))),
        held=draw.getrandbits(8),
        kind=draw.choice((1, 1, 1, 2, 2, 2, 3, draw.randint(0, 5), draw.getrandbits(32))),
        chain=draw.choice((draw.randint(1, 16), draw.randint(1, 16), draw.randint(0, 20), draw.getrandbits(32))),
        line=draw.getrandbits(32),
        x=x,
        y=y,
    )


def drawn_table(draw):
    count = draw.choice((1, 2, 3, draw.randint(0, 17)))
    number = draw.choice((draw.randint(1, max(count, 1)), draw.randint(0, count + 2), draw.getrandbits(32)))
    table = damaged(draw, b"".join(drawn_chain(draw) for _ in range(count)))
    scale = damaged(draw, scale_of(*(drawn_factor(draw) for _ in range(count))))
    return named_chain(number, table, draw.choice((24,) * 9 + (23, 25, draw.randint(0, 60))), draw.getrandbits(8), scale)


def at_random(seed):
    draw = random.Random(seed)
    for _ in range(1500):
        yield draw.choice(
            (
                lambda: ("read_record", damaged(draw, drawn_log(draw))),
                lambda: ("read_record", drawn_log(draw)),
                lambda: ("read_job", damaged(draw, drawn_job(draw))),
                lambda: drawn_table(draw),
                lambda: drawn_draft(draw),
            )
        )()


def main(words):
    if words == ["named"]:
        print("\n".join(dict.fromkeys(lines_of(r for part in NAMED for r in part()))))
    elif words == ["sweep"]:
        print("\n".join(lines_of(sweep())))
    elif words[:1] == ["random"] and len(words) == 2:
        print("\n".join(lines_of(at_random(int(words[1])))))
    elif words == ["answers"]:
        print("\n".join(told(request_of(line)) for line in sys.stdin.read().splitlines()))
    else:
        sys.exit(__doc__)


if __name__ == "__main__":
    main(sys.argv[1:])
