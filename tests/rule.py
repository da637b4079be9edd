"""The rules of document 01 in whole numbers and exact fractions, section by section in that paper's order, with what document 02
changes in them and adds to them. The Python programs of the tests share this one statement of them; the second program, second/,
does not use it.

A place is a pair, easting and northing, in centimetres. Readings are a tuple, one for each slave of a chain. A rule that can
refuse makes its tests in the order that 01 gives, each with the number of its refusal.
"""
import struct
from fractions import Fraction
from math import isfinite, isqrt
from typing import NamedTuple


class Refusal(Exception):
    def __init__(self, number):
        super().__init__(number)
        self.number = number


def refuse(number, wrong):
    """A test: if `wrong` is so, the rule ends with this refusal. So the first test that fails answers."""
    if wrong:
        raise Refusal(number)


def tried(rule, *given):
    """The number of the refusal and None; or 0 and what the rule gives."""
    try:
        return 0, rule(*given)
    except Refusal as refusal:
        return refusal.number, None


# 01, The work and its edges

EAST, NORTH = 100_000_000, 1_000_000_000


def in_range(place):
    return 0 <= place[0] <= EAST and 0 <= place[1] <= NORTH


def moved(place, east, north):
    return place[0] + east, place[1] + north


def flat(places):
    """Easting and northing of each place, in one list."""
    return [number for place in places for number in place]


# 01, Distance and reading, with the scale factor of 02's A3, in millionths

UNIT, LEAST_FACTOR, MOST_FACTOR = 1_000_000, 999_000, 1_001_000


class Chain(NamedTuple):
    """The places of the master and of the slaves A and B, and the scale factor."""

    master: tuple
    slaves: tuple
    factor: int = UNIT


def stations(chain):
    return chain.master, *chain.slaves


def distance(p, q):
    """The whole part of the square root of the sum of the squared differences."""
    return isqrt((p[0] - q[0]) ** 2 + (p[1] - q[1]) ** 2)


def range_of(chain, station, place):
    """The whole part of the distance, which is cut already, times 1,000,000 divided by the factor: grid to ground."""
    return distance(place, station) * UNIT // chain.factor


def readings(chain, place):
    """For each slave its range less the master's, each cut to a whole number first."""
    to_master = range_of(chain, chain.master, place)
    return tuple(range_of(chain, slave, place) - to_master for slave in chain.slaves)


def is_sound(chain):
    """Its factor and all its places are in range, and no two places are equal."""
    places = stations(chain)
    return is_factor(chain.factor) and all(map(in_range, places)) and len(set(places)) == len(places)


def is_factor(factor):
    return LEAST_FACTOR <= factor <= MOST_FACTOR


def agrees(chain, place, wanted, by):
    """Every reading differs from the wanted one by at most `by`. A cell matches if it agrees by the tolerance."""
    return all(abs(reading - want) <= by for reading, want in zip(readings(chain, place), wanted))


# 01, Metres to centimetres and back

SIZE = 1_000_000_000


def centimetres(metres):
    """The whole number nearest to exactly 100 times a binary64 number, a tie to the even one, as Python's `round` has it."""
    refuse(3, not isfinite(metres) or abs(metres) > 10_000_000)
    return round(100 * Fraction(metres))


# 02, A1: where the exact hundredfold lies, as seen from the centimetres
EQUAL, BELOW, ABOVE = 0, 1, 2


def mark(metres):
    """The mark of a binary64 number of metres, which is refused as its centimetres are."""
    whole, exact = centimetres(metres), 100 * Fraction(metres)
    return EQUAL if exact == whole else BELOW if exact < whole else ABOVE


def rounded(marks):
    """The last field of a line: 0 if all numbers of its record were exact, else 1."""
    return 0 if all(each == EQUAL for each in marks) else 1


def metres(centimetres):
    """The centimetres divided by 100 in one rounded operation: so Python divides two whole numbers."""
    refuse(3, abs(centimetres) > SIZE)
    return centimetres / 100


# 01, The records: the log

# How many of the three numbers each kind uses: readings, easting and northing, none.
USED = {1: 2, 2: 2, 3: 0}


class Record(NamedTuple):
    """A record; once it is read, with the mark of each of its numbers."""

    kind: int
    chain: int
    line: int
    numbers: tuple
    marks: tuple = ()


def raw_record(s):
    """The fields of 32 bytes, not yet tested, with three numbers in metres."""
    kind, chain, line, *numbers = struct.unpack("<BBxxI3d", s)
    return Record(kind, chain, line, tuple(numbers))


def zero_bytes(s):
    """The bytes that must be zero: the chain unless the kind is 1, bytes 2 and 3, and every number that the kind does not use."""
    return s[2 if s[0] == 1 else 1 : 4] + s[8 + 8 * USED[s[0]] :]


def log_record(s):
    """A record with the numbers that its kind uses, in centimetres, and their marks."""
    refuse(1, len(s) != 32)
    raw = raw_record(s)
    refuse(2, raw.kind not in USED or any(zero_bytes(s)))
    used = raw.numbers[: USED[raw.kind]]
    numbers = tuple(map(centimetres, used))
    refuse(4, raw.kind == 2 and not in_range(numbers))
    return raw._replace(numbers=numbers, marks=tuple(map(mark, used)))


def record_bytes(record, length=32):
    """What the writer leaves in a buffer of `length` bytes, from numbers in centimetres. What the kind does not use is ignored."""
    refuse(1, length != 32)
    refuse(2, record.kind not in USED)
    numbers = record.numbers[: USED[record.kind]]
    fields = b"".join(struct.pack("<d", metres(number)) for number in numbers)
    refuse(4, record.kind == 2 and not in_range(numbers))
    refuse(5, record.kind == 1 and not 1 <= record.chain <= 16)
    return struct.pack("<BBxxI24s", record.kind, record.chain if record.kind == 1 else 0, record.line, fields)


# 01, The records: the chain table; 02, A3: the side file with a factor for each chain


def pieces(s, size):
    return [s[at : at + size] for at in range(0, len(s), size)]


def chain_of(numbers, factor=UNIT):
    """The chain with these numbers: easting and northing of the master, then of each slave."""
    master, *slaves = zip(numbers[0::2], numbers[1::2])
    return Chain(master, tuple(slaves), factor)


def chain_bytes(chain):
    return struct.pack("<6I", *flat(stations(chain)))


def factor_bytes(factor):
    return struct.pack("<I", factor)


def stations_in(table):
    """Every chain of a table as the table alone has it: with a factor that does not count."""
    refuse(1, len(table) % 24 or not 1 <= len(table) // 24 <= 16)
    return [chain_of(struct.unpack("<6I", s)) for s in pieces(table, 24)]


def chains_in(table, scale):
    """Every chain of a table with its factor, sound or not."""
    chains = stations_in(table)
    refuse(1, len(scale) != 4 * len(chains))
    return [chain._replace(factor=factor) for chain, (factor,) in zip(chains, struct.iter_unpack("<I", scale))]


def chain_in(table, scale, number):
    """The chain with this number; the first chain has number 1."""
    chains = chains_in(table, scale)
    refuse(5, not 1 <= number <= len(chains))
    refuse(5, not is_sound(chains[number - 1]))
    return chains[number - 1]


# 01, The records: the job


class Job(NamedTuple):
    """The window's south-west cell and its exponent, the tolerance and the allowance."""

    corner: tuple
    k: int
    tolerance: int
    allowance: int


def raw_job(s):
    """The fields of 32 bytes, not yet tested."""
    easting, northing, *others = struct.unpack("<IIB3xIQ8x", s)
    return Job((easting, northing), *others)


def job_bytes(job):
    return struct.pack("<IIB3xIQ8x", *job.corner, *job[1:])


def is_window(corner, k):
    """k is at most 24, and every cell of the window of 2^k by 2^k is in range."""
    return k <= 24 and in_range(corner) and in_range(moved(corner, 2**k - 1, 2**k - 1))


def check_job(job):
    refuse(6, not is_window(job.corner, job.k))
    refuse(7, job.tolerance > 100_000)


def job_zeros(s):
    """The bytes that must be zero."""
    return s[9:12] + s[24:]


def job_in(s):
    refuse(1, len(s) != 32)
    refuse(2, any(job_zeros(s)))
    check_job(raw_job(s))
    return raw_job(s)


# 01, The search and its count, with the greater difference of 02's A3


def walk(chain, wanted, job):
    """The squares in the order of their visits, each given by its south-west cell and its side. The square that was added last is
    taken first, so each quarter is finished before the next."""
    squares = [(job.corner, 2**job.k)]
    while squares:
        corner, side = squares.pop()
        yield corner, side
        half = side // 2
        if side > 1 and agrees(chain, moved(corner, half, half), wanted, job.tolerance + 2 * side + 4):
            for east, north in (half, half), (0, half), (half, 0), (0, 0):
                squares.append((moved(corner, east, north), half))


def visits_of(chain, wanted, job):
    """The visits of the walk, numbered from 1, each with the cell that is found to match there, or None."""
    for visit, (corner, side) in enumerate(walk(chain, wanted, job), 1):
        yield visit, corner if side == 1 and agrees(chain, corner, wanted, job.tolerance) else None


def search(chain, wanted, job, room):
    """The refusal, the visits and the places; 8, 9 and 10 come as the walk meets them."""
    refusal, _ = tried(check_search, chain, wanted, job)
    if refusal:
        return refusal, 0, []
    places = []
    for visit, cell in visits_of(chain, wanted, job):
        if visit > job.allowance:
            return 10, job.allowance, []
        if cell:
            if len(places) == room:
                return 9, visit, []
            places.append(cell)
    return 0 if places else 8, visit, places


def check_search(chain, wanted, job):
    """What is tested before any visit (01, Numbers of refusal)."""
    refuse(3, any(abs(reading) > SIZE for reading in wanted))
    refuse(5, not is_sound(chain))
    check_job(job)


def chart_number(corner, cell):
    """The bits of a cell's offsets interleaved, the northing's above the easting's. Chart order is the order of these numbers."""
    east, north = cell[0] - corner[0], cell[1] - corner[1]
    return sum((east >> i & 1) << 2 * i | (north >> i & 1) << 2 * i + 1 for i in range(24))


# 02, A2: is there exactly one place?

NO_PLACE, ONE_PLACE, SEVERAL_PLACES = 1, 2, 3


def how_many(chain, wanted, job):
    """The refusal, the answer (0 after a refusal), the place (nought unless there is exactly one) and the visits. The walk is not
    stopped at a cell: it is made whole, or up to one visit more than is allowed, and then it is reckoned at which visit the question
    was decided, that of the second matching cell or, without one, the last of the walk."""
    refusal, _ = tried(check_search, chain, wanted, job)
    if refusal:
        return refusal, 0, (0, 0), 0
    found = []
    for last, cell in visits_of(chain, wanted, job):
        if cell:
            found.append((last, cell))
        if last > job.allowance:
            break
    decided = found[1][0] if len(found) > 1 else last
    if decided > job.allowance:
        return 10, 0, (0, 0), job.allowance
    answer = (NO_PLACE, ONE_PLACE, SEVERAL_PLACES)[min(len(found), 2)]
    return 0, answer, found[0][1] if answer == ONE_PLACE else (0, 0), decided


# 01, Numbers of refusal: a place's expected readings


def expected(table, scale, number, place):
    """4 precedes 5; the lengths of the table and of the side file (1) are tested before both."""
    chains_in(table, scale)
    refuse(4, not in_range(place))
    return readings(chain_in(table, scale, number), place)


# 01, The program, with the last field of 02's A1 and the side file of A3

ROOM = 256


class Held(NamedTuple):
    """What a hold repeats: a place, and the last field of its line."""

    place: tuple
    rounded: int


def given(word, places, last, visits=0):
    return word, len(places), visits, places, [last]


def refused(number, visits=0):
    return "REFUSED", number, visits, [], []


def answer(job, table, scale, held, s, find):
    """A record's word, the count of its places or the number of its refusal, the visits, the places, and a list of its last field,
    which is empty for a refused record. `held` is what a hold repeats, or None."""
    refusal, record = tried(log_record, s)
    if refusal:
        return refused(refusal)
    if record.kind == 3:
        return given("HOLD", [held.place], held.rounded) if held else refused(11)
    if record.kind == 2:
        return given("GRID", [record.numbers], rounded(record.marks))
    refusal, chain = tried(chain_in, table, scale, record.chain)
    if refusal:
        return refused(refusal)
    refusal, visits, places = find(chain, record.numbers, job, ROOM)
    return refused(refusal, visits) if refusal else given("FIX", places, rounded(record.marks), visits)


def lines(job, table, scale, log, held, find):
    """One line for each record, and with it what a hold after it repeats, or None."""
    for s in pieces(log, 32):
        *words, places, last = answer(job, table, scale, held, s, find)
        held = Held(*places, *last) if len(places) == 1 else None
        line = raw_record(s).line if len(s) == 32 else "-"
        yield " ".join(map(str, (line, *words, *flat(places), *last))), held


def listing(job, table, scale, log, held=None, find=search):
    """The lines for the bytes of the four files. `log` may be a part of a log; then `held` is what the part before it leaves to
    repeat. `find` may be another search that answers the same."""
    refusal, asked = tried(job_in, job)
    if refusal:
        return [(f"JOB REFUSED {refusal}", None)]
    refusal, _ = tried(stations_in, table)
    if refusal:
        return [(f"CHAIN REFUSED {refusal}", None)]
    refusal, _ = tried(chains_in, table, scale)
    if refusal:
        return [(f"SCALE REFUSED {refusal}", None)]
    return list(lines(asked, table, scale, log, held, find))
