#!/usr/bin/env python3
"""Makes runs of the desk's tools (layjob, laychain, laywrite, layexpect, layone, layshow), each with the outcome that it must have,
and judges them. What a text means and what is shown follows docs/FORMATS.md, the rest rule.py.

    tools.py cases FOLDER          writes the chosen runs, one folder for each
    tools.py random SEED FOLDER    writes 400 at random
    tools.py judge FOLDER          compares each run with the outcome that it must have, and prints how many things were compared

A run's folder has the folder `files`, in which the tool runs, and the files `tool`, `arguments` (a zero byte after each), `input`
and `why`. The run leaves `printed`, `said` (standard error) and `status`. Its outcome must be what is in `wanted` (what is printed;
there is no such file if help is printed), `saying` (a line for each of standard error, see `Told`) and the folder `after`.
"""
import random
import re
import sys
from functools import lru_cache
from itertools import islice, zip_longest
from math import inf, nextafter
from pathlib import Path
from typing import NamedTuple

# Without this the modules beside this one would leave compiled files in the tree.
sys.dont_write_bytecode = True
import records
import rule
import search
from records import INFINITY, MINUS, NAN, changed, scale_of, units
from rule import EAST, NORTH, SIZE, Refusal, refuse
from search import FACTORS, NO_FACTORS

# The bytes of the longest line that is accepted, with its newline.
LONGEST = 65_535


class Run(NamedTuple):
    """A tool with what it is given; the files are those of its folder, by name. `why` is what is tried, printed if it fails."""

    tool: str
    arguments: list = []
    text: bytes = b""
    files: dict = {}
    why: str = ""


class Told(NamedTuple):
    """A refusal: the line of the input, 0 if none is named, the number, and the words of the line that are at fault, from 1, by the
    text of each, None for a missing one. If there are any, one of them is named; if there are none, the model does not know. Last
    the sentence, without the word that it names; if it is empty, it may be any."""

    line: int
    number: int
    faults: dict = {}
    sentence: str = ""


class Outcome(NamedTuple):
    """What is printed (None for help), what is refused, the files afterwards, and what else is said: notes before the refusals, notes
    behind them, and the sum of the lines at the end."""

    files: dict
    printed: bytes = b""
    refusals: list = []
    before: list = []
    behind: list = []


class AtWords(Refusal):
    """A refusal for which words of the line are at fault, or whose sentence is known; see `Told`."""

    def __init__(self, number, faults, sentence=""):
        super().__init__(number)
        self.faults, self.sentence = faults, sentence


def told(line, refusal):
    return Told(line, refusal.number, getattr(refusal, "faults", {}), getattr(refusal, "sentence", ""))


# Words and lines

WORD = re.compile(rb"[^ \t\r]+")
NUMBER = re.compile(rb"[0-9]+")
LENGTH = re.compile(rb"[0-9]+(\.[0-9][0-9])?")
READING = re.compile(rb"-?[0-9]+(\.[0-9][0-9])?")


def value(word):
    """The number that a word stands for, in centimetres if it is a length. For more than 40 digits it is 10^40, which is over every
    limit too."""
    digits = word.lstrip(b"-").replace(b".", b"").lstrip(b"0")
    size = 10**40 if len(digits) > 40 else int(digits or b"0")
    return -size if word.startswith(b"-") else size


def values(line, shapes, limits={}, spare=0):
    """The numbers of the words, of which the last `spare` may be missing. A limit is the least number that is too large for a word."""
    found = WORD.findall(line)
    faults = {at + 1: word for at, (shape, word) in enumerate(zip(shapes, found)) if not shape.fullmatch(word)}
    for at, limit in limits.items():
        if at <= len(found) and at not in faults and value(found[at - 1]) >= limit:
            faults[at] = found[at - 1]
    if len(found) < len(shapes) - spare:
        faults[len(found) + 1] = None
    if len(found) > len(shapes):
        faults[len(shapes) + 1] = found[len(shapes)]
    if faults:
        raise AtWords(12, faults)
    return [value(word) for word in found]


def blaming(line, wrong, rule, *given):
    """What the rule gives. If it refuses, the words that `wrong` has for the number of the refusal are at fault."""
    try:
        return rule(*given)
    except Refusal as refusal:
        found = WORD.findall(line)
        raise AtWords(refusal.number, {at: found[at - 1] for at in wrong.get(refusal.number, [])})


def is_passed_over(line):
    """A line without a word, or whose first word begins with `#`."""
    found = WORD.findall(line)
    return not found or found[0].startswith(b"#")


def lines_in(text):
    """The lines without their newlines, up to one that is too long or has no newline: for that one None, and then no more."""
    while text:
        line, newline, text = text.partition(b"\n")
        if not newline or len(line + newline) > LONGEST:
            yield None
            return
        yield line


def line_of(arguments):
    """The arguments as one line: each is a word of it."""
    for at, argument in enumerate(arguments, 1):
        if not WORD.fullmatch(argument):
            raise AtWords(12, {at: argument})
    line = b" ".join(arguments)
    refuse(12, len(line + b"\n") > LONGEST)
    return line


def no_line(arguments):
    """The arguments of a tool that takes none."""
    if arguments:
        raise AtWords(12, {1: arguments[0]})


class Taken(NamedTuple):
    """The lines of the input: the number of each accepted one with its bytes, and the refusals of the others."""

    accepted: dict
    refusals: list


def taken(lines, bytes_of, most=None):
    """Lines that are passed over are counted as lines. With `most`, nothing is read after so many that are not passed over."""
    accepted, refusals = {}, []
    for at, line in enumerate(lines, 1):
        if line is not None and is_passed_over(line):
            continue
        before = len(accepted) + len(refusals)
        try:
            refuse(12, line is None)
            accepted[at] = bytes_of(before, line)
        except Refusal as refusal:
            refusals.append(told(at, refusal))
        if before + 1 == most:
            break
    return Taken(accepted, refusals)


def counted(number, noun):
    return f"{number} {noun}" if number == 1 else f"{number} {noun}s"


def which(lines):
    """How one or more lines are named, of which the first has this number."""
    return f"line {lines[0]}" if len(lines) == 1 else f"the first is line {lines[0]}"


def sum_of(tool, lines):
    refused = [each.line for each in lines.refusals]
    return f"{tool}: {counted(len(refused), 'line')} refused ({which(refused)}), {len(lines.accepted)} accepted; nothing is written"


def written(name, noun, many, now, more=""):
    return f"{name}: {counted(many, noun)} written, {now} there now{more}\n".encode()


# From text to bytes

USUAL_ALLOWANCE = 1_000_000


def job_bytes(line):
    east, north, k, tolerance, *allowance = values(line, [LENGTH, LENGTH, NUMBER, LENGTH, NUMBER], {5: 2**64}, spare=1)
    job = rule.Job((east, north), k, tolerance, *(allowance or [USUAL_ALLOWANCE]))
    # which word is at fault where only the window's far side is out of range, is left open
    outside = [at for at, so in ((1, east > EAST), (2, north > NORTH), (3, k > 24)) if so]
    blaming(line, {6: outside, 7: [4]}, rule.check_job, job)
    return rule.job_bytes(job)


def chain_bytes(before, line):
    """The bytes of a chain and those of its factor."""
    given = values(line, [LENGTH] * 6 + [NUMBER], spare=1)
    numbers, factor = given[:6], given[6] if len(given) > 6 else rule.UNIT
    refuse(1, before >= 16)
    # which word is at fault where two stations are equal, is left open
    outside = [at + 1 for at, number in enumerate(numbers) if number > (EAST, NORTH)[at % 2]]
    stations = blaming(line, {5: outside}, sound_bytes, rule.chain_of(numbers))
    say(5, not rule.is_factor(factor), "a factor is 999000 to 1001000 millionths", {7: WORD.findall(line)[-1]})
    return stations, rule.factor_bytes(factor)


def sound_bytes(chain):
    refuse(5, not rule.is_sound(chain))
    return rule.chain_bytes(chain)


def record_bytes(before, line):
    """The same wherever the line is in the text."""
    return bytes_of_record(line)


# Half of the lines of the longest texts are the same.
@lru_cache(10_000)
def bytes_of_record(line):
    kind, chain, number, *numbers = values(line, [NUMBER] * 3 + [READING] * 2, {3: 2**32})
    record = rule.Record(kind, chain, number, numbers)
    large = [at + 4 for at, x in enumerate(numbers) if abs(x) > SIZE]
    outside = [at + 4 for at, x in enumerate(numbers) if not 0 <= x <= (EAST, NORTH)[at]]
    return blaming(line, {2: [1], 3: large, 4: outside, 5: [2]}, rule.record_bytes, record)


def layjob(run):
    job = job_bytes(line_of(run.arguments))
    allowance = rule.raw_job(job).allowance
    printed = written("job.dat", "job", 1, 1, f"; a search may make {counted(allowance, 'visit')}")
    return Outcome({**run.files, "job.dat": job}, printed)


def laychain(run):
    no_line(run.arguments)
    lines = taken(lines_in(run.text), chain_bytes, 17)
    if lines.refusals:
        return Outcome(run.files, refusals=lines.refusals, behind=[sum_of("laychain", lines)])
    chains = len(lines.accepted)
    refuse(1, not chains)
    table, scale = map(b"".join, zip(*lines.accepted.values()))
    printed = written("chain.dat", "chain", chains, chains) + written("scale.dat", "factor", chains, chains)
    return Outcome({**run.files, "chain.dat": table, "scale.dat": scale}, printed)


def laywrite(run):
    log = run.files.get("lay.dat", b"")
    refuse(1, len(log) % 32)
    no_line(run.arguments)
    lines = taken(lines_in(run.text), record_bytes)
    if lines.refusals:
        return Outcome(run.files, refusals=lines.refusals, behind=[sum_of("laywrite", lines)])
    records = b"".join(lines.accepted.values())
    printed = written("lay.dat", "record", len(lines.accepted), len(log + records) // 32)
    files = {**run.files, "lay.dat": log + records} if records else run.files
    return Outcome(files, printed, behind=without_chain(lines, run.files.get("chain.dat", b"")))


def without_chain(lines, table):
    """A note if records name a chain that the table does not have; a table that is refused has none."""
    refusal, chains = rule.tried(rule.stations_in, table)
    there = 0 if refusal else len(chains)
    named = [at for at, s in lines.accepted.items() if s[0] == 1 and s[1] > there]
    if not named:
        return []
    name = "1 record names" if len(named) == 1 else f"{len(named)} records name"
    return [f"laywrite: note: {name} a chain that chain.dat does not have ({which(named)})"]


# From bytes to text


def missing(tool, run, names):
    return [f"{tool}: note: {name} is missing, and counts as empty" for name in names if name not in run.files]


def layexpect(run):
    line = line_of(run.arguments)
    number, *place = values(line, [NUMBER, LENGTH, LENGTH])
    table, scale = (run.files.get(name, b"") for name in FILES["layexpect"])
    before = missing("layexpect", run, FILES["layexpect"])
    try:
        found = expected_at(WORD.findall(line), table, scale, number, place)
    except Refusal as refusal:
        return Outcome(run.files, refusals=[told(0, refusal)], before=before)
    printed = text_of(expected_line(name, reading) for name, reading in zip("AB", found))
    return Outcome(run.files, printed, before=before)


def expected_at(words, table, scale, number, place):
    check_chains(table, scale)
    outside = {at: words[at - 1] for at, x, most in ((2, place[0], EAST), (3, place[1], NORTH)) if x > most}
    if outside:
        raise AtWords(4, outside)
    chain_named(words, table, scale, number)
    return rule.expected(table, scale, number, place)


def check_chains(table, scale):
    """The lengths of the table and of its side file."""
    say(1, rule.tried(rule.stations_in, table)[0], "chain.dat was expected to hold 1 to 16 chains of 24 bytes")
    say(1, rule.tried(rule.chains_in, table, scale)[0], "scale.dat was expected to hold 4 bytes for each chain of chain.dat")


def chain_named(words, table, scale, number):
    """The chain whose number is the first word, if it is in the table and sound."""
    chains, named = rule.chains_in(table, scale), {1: words[0]}
    say(5, not 1 <= number <= len(chains), "chain.dat has no chain of this number", named)
    chain = chains[number - 1]
    say(5, not rule.is_sound(chain), "this chain has a station out of range, two on one spot, or a factor out of range", named)
    return chain


def expected_line(name, reading):
    """The last word is the last field of a listed line: whether the eight bytes, read again, are rounded."""
    if abs(reading) > SIZE:
        return f"{name} {reading} REFUSED 3"
    sign = "-" if reading < 0 else ""
    whole, hundredths = divmod(abs(reading), 100)
    metres = rule.metres(reading)
    return f"{name} {reading} {sign}{whole}.{hundredths:02} {records.eight(metres).hex()} {rule.rounded([rule.mark(metres)])}"


# If more visits than these are allowed, it is said that the answer may take long.
MANY_VISITS = 100_000_000


def layone(run):
    line = line_of(run.arguments)
    number, *wanted = values(line, [NUMBER, READING, READING])
    *chains, job = (run.files.get(name, b"") for name in FILES["layone"])
    before = missing("layone", run, FILES["layone"])
    accepted, allowed = rule.tried(lambda: rule.job_in(job).allowance)
    if not accepted and allowed > MANY_VISITS:
        before.append(f"layone: note: job.dat allows more than {MANY_VISITS} visits: the answer may take minutes")
    try:
        chain, asked = question(WORD.findall(line), *chains, job, number, wanted)
        refusal, answer, place, visits = rule.how_many(chain, wanted, asked)
        say(10, refusal == 10, "the visits that job.dat allows ended before this was decided")
    except Refusal as refusal:
        return Outcome(run.files, refusals=[told(0, refusal)], before=before)
    words = {rule.NO_PLACE: ["NONE", visits], rule.ONE_PLACE: ["ONE", visits, *place], rule.SEVERAL_PLACES: ["SEVERAL", visits]}
    return Outcome(run.files, text_of([" ".join(map(str, words[answer]))]), before=before)


def say(number, wrong, sentence, faults={}):
    """A test: if `wrong` is so, it is refused with this sentence."""
    if wrong:
        raise AtWords(number, faults, sentence)


def question(words, table, scale, job, number, wanted):
    """The chain and the job that are asked about, if nothing is refused before a visit is made."""
    check_chains(table, scale)
    say(1, len(job) != 32, "job.dat was expected to hold one job of 32 bytes")
    say(2, any(rule.job_zeros(job)), "a byte of job.dat that must be zero is not")
    for at, reading in enumerate(wanted, 2):
        say(3, abs(reading) > SIZE, f"a reading is at most {SIZE} centimetres in size", {at: words[at - 1]})
    chain, asked = chain_named(words, table, scale, number), rule.raw_job(job)
    inside = rule.is_window(asked.corner, asked.k)
    say(6, not inside, "the window in job.dat has an exponent over 24, or cells out of range")
    say(7, asked.tolerance > 100_000, "the tolerance in job.dat is over 100000 centimetres")
    return chain, asked


def text_of(lines):
    return "".join(line + "\n" for line in lines).encode()


def layshow(run):
    no_line(run.arguments)
    job, table, scale, log = (run.files.get(name, b"") for name in FILES["layshow"])
    printed = text_of([job_line(job), *chain_lines(table, scale), *map(log_line, rule.pieces(log, 32))])
    return Outcome(run.files, printed, before=missing("layshow", run, FILES["layshow"]))


def shown(words, refusal, s):
    """The words of a record; after them, if it is refused, `REFUSED`, the number, and the bytes if there are any."""
    behind = ["REFUSED", refusal, s.hex()] if refusal else []
    return " ".join(str(word) for word in words + behind if word != "")


def job_line(s):
    refusal, _ = rule.tried(rule.job_in, s)
    if refusal == 1:
        return shown(["JOB"], 1, s[:33])
    job = rule.raw_job(s)
    return shown(["JOB", *job.corner, *job[1:]], refusal, s)


def chain_lines(table, scale):
    """A line for each chain, with its factor. If the side file does not fit the table, they have none, and a line behind has it."""
    refusal, chains = rule.tried(rule.stations_in, table)
    if refusal:
        return [shown(["CHAIN"], 1, table[:385])]
    refusal, scaled = rule.tried(rule.chains_in, table, scale)
    if refusal:
        return [*chain_list(chains, table, lambda chain: []), shown(["SCALE"], 1, scale[:65])]
    return chain_list(scaled, table, lambda chain: [chain.factor])


def chain_list(chains, table, last):
    for number, chain, s in zip(range(1, 17), chains, rule.pieces(table, 24)):
        words = ["CHAIN", number, *rule.flat(rule.stations(chain)), *last(chain)]
        yield shown(words, 0 if rule.is_sound(chain) else 5, s)


def log_line(s):
    """The line of a record by itself: it does not say whether its chain is in the table, nor which place a hold repeats."""
    refusal, _ = rule.tried(rule.log_record, s)
    if refusal == 1:
        return shown(["LOG"], 1, s)
    raw = rule.raw_record(s)
    return shown(["LOG", raw.kind, raw.chain, raw.line, *map(in_centimetres, raw.numbers[:2])], refusal, s)


def in_centimetres(x):
    refusal, whole = rule.tried(rule.centimetres, x)
    return "-" if refusal else whole


TOOLS = {tool.__name__: tool for tool in (layjob, laychain, laywrite, layexpect, layone, layshow)}
FILES = {
    "layjob": ["job.dat"],
    "laychain": ["chain.dat", "scale.dat"],
    "laywrite": ["lay.dat"],
    "layexpect": ["chain.dat", "scale.dat"],
    "layone": ["chain.dat", "scale.dat", "job.dat"],
    "layshow": ["job.dat", "chain.dat", "scale.dat", "lay.dat"],
}


def outcome(run):
    if run.arguments[:1] == [b"--help"]:
        return Outcome(run.files, None)
    try:
        return TOOLS[run.tool](run)
    except Refusal as refusal:
        return Outcome(run.files, refusals=[told(0, refusal)])


# The chosen runs. First 01's example as text and as bytes, and files that may be in a folder before a run.

JOB = [30000, 40000, 1, 0, 100]
CHAIN = [0, 0, 30000, 0, 0, 40000]
RECORDS = [1, 1, 1, -10000, -20000], [2, 0, 2, 30001, 40000], [3, 0, 3, 0, 0]
THREE = {
    "job.dat": bytes.fromhex("30750000 409c0000 01 000000 00000000 6400000000000000 0000000000000000"),
    "chain.dat": bytes.fromhex("00000000 00000000 30750000 00000000 00000000 409c0000"),
    "scale.dat": bytes.fromhex("40420f00"),
    "lay.dat": bytes.fromhex(
        "01 01 0000 01000000 00000000000059c0 00000000000069c0 0000000000000000"
        "02 00 0000 02000000 5c8fc2f528c07240 0000000000007940 0000000000000000"
        "03 00 0000 03000000 0000000000000000 0000000000000000 0000000000000000"
    ),
}
OUTER = [EAST, NORTH, 0, NORTH, EAST, 0]


def table_of(chains):
    """The table of chains that are given by their numbers, sound or not."""
    return b"".join(rule.chain_bytes(rule.chain_of(numbers)) for numbers in chains)


OLD = {
    "job.dat": b"a job that is no job, and longer than one",
    "chain.dat": table_of([OUTER, OUTER]),
    "scale.dat": scale_of(999_641, 1_000_001),
    "lay.dat": bytes(range(32)) * 3,
    "notes": b"a file that is none of the desk's\n",
}

# Words that are neither a number nor a length nor a reading. The bytes next to the digits are among them.
NO_WORDS = [
    *(b"+1", b"--1", b"-", b"1-", b"1.5", b"1.", b".5", b"1e3", b"0x10", b"1,000", b"1_000", b"a", b"1a", b"a1", b"NaN"),
    *(b"300.1", b"300.", b".50", b"300.011", b"3.00.00", b"-.50", b"+1.00", b"1,00", b".", b"..", b".00", b"1..0", b"1.00.", b"-1.5"),
    *(b"1.0a", b"1.a0", b"1.-1", b"1.+1", b"1.\x0b0", b"a.00", b"1.00a", b"1.00-", b"1.\xb20", b"1/00", b"1.0\xff"),
    *(b"1\x0b", b"\x0c1", b"/", b":", b"1/", b":1", b'"1"', b"\x7f1", b"\xb2", b"1\xff", b"\x80", b"\xb1"),
    *("\u22121".encode(), "\uff11".encode(), "1\u00a0".encode(), "\u0661".encode()),
]
NO_READINGS = [b"-+1", b"-1-", b"-a", b"-1.5", b"-0x1", b"-\xb2", b"1\x00", b"\x001", b"-\x00"]
NO_READINGS += [b"-1.", b"--1.00", b"-1.000", b"1.0\x00"]
NO_NUMBERS = [b"-0", b"-1", b"-00", b"-30000", b"-0.00", b"-1.00"]
METRES = [b"0.00", b"0.01", b"1.00", b"300.00", b"0001.00"]


def words(values):
    return [word if isinstance(word, bytes) else str(word).encode() for word in values]


def line(values):
    return b" ".join(words(values)) + b"\n"


def lines(many):
    return b"".join(map(line, many))


def instead(values, at, other):
    return [*values[:at], other, *values[at + 1 :]]


def larger(number, least=31):
    """Numbers that pass for `number` if only their lowest bits are kept, `least` or more; and some of 30 and of 300 digits."""
    kept = [number + 2**bits for bits in (8, 16, 31, 32, 63, 64, 128) if bits >= least]
    return [*kept, 10**29 + 1, 10**30 - 1, 10**299 + 1, 10**300 - 1]


def grouped(many, size):
    many = list(many)
    return [many[at : at + size] for at in range(0, len(many), size)]


def to_job(values, why, files=OLD):
    return Run("layjob", words(values), files=files, why=why)


def to_table(text, why, files=OLD):
    return Run("laychain", text=text, files=files, why=why)


def to_log(text, why, log=THREE["lay.dat"]):
    """If the log is None, there is no file at all."""
    return Run("laywrite", text=text, files=OLD | {"lay.dat": log} if log is not None else {}, why=why)


def accepted(run):
    """The run, once it is checked that nothing of it is refused: it would then test nothing."""
    assert not outcome(run).refusals, run
    return run


def refused(run):
    """The run, once it is checked that every line of it is refused: with an accepted line it would test less."""
    assert len(outcome(run).refusals) == run.text.count(b"\n"), run
    return run


def in_metres(values, at):
    """The same line with the centimetres of these words, from 1, given in metres."""
    given = words(values)
    for each in at:
        sign, digits = given[each - 1][: given[each - 1].startswith(b"-")], given[each - 1].lstrip(b"-").rjust(3, b"0")
        given[each - 1] = sign + digits[:-2] + b"." + digits[-2:]
    return given


def examples():
    """01's example, made in an empty folder and over other files; its expected readings; and what is shown of it."""
    for files in {}, THREE, OLD:
        yield accepted(to_job(JOB, "01's job", files))
        yield accepted(to_table(line(CHAIN), "01's chain", files))
    for log in None, b"", THREE["lay.dat"]:
        yield accepted(to_log(lines(RECORDS), "01's log", log))
        yield accepted(to_log(b"", "no line", log))
    yield to_table(b"", "no line")
    yield to_table(b"", "no line", {})
    for place in [30000, 40000], [30001, 40000], [30000, 40001], [1, 1]:
        yield expecting([1, *place], "01's places")
        yield expecting(in_metres([1, *place], [2, 3]), "01's places in metres")
    yield Run("layshow", files=THREE, why="01's example")


def metres():
    """Every length in metres: the bytes are those of its centimetres."""
    for job in JOB, [30001, 40007, 1, 5, 100], [EAST, NORTH, 0, 100_000, 7]:
        for at in [1], [2], [4], [1, 2, 4]:
            yield same_as(to_job(in_metres(job, at), "a job in metres"), to_job(job, ""))
        yield same_as(to_job(in_metres(job, [1, 2, 4])[:4], "a job in metres"), to_job(job[:4], ""))
    for chain in CHAIN, OUTER, [1, 2, 30, 40, 500, 6007]:
        many = [in_metres(chain, [at]) for at in range(1, 7)] + [in_metres(chain, range(1, 7))]
        yield same_as(to_table(lines(many), "chains in metres"), to_table(line(chain) * len(many), ""))
    for x, y in (-10000, -20000), (1, -1), (-5, 99), (SIZE, -SIZE), (0, 7), (-100, 101), (EAST, NORTH), (0, 0):
        many = [1, 1, 4, x, y], [2, 1, 4, min(abs(x), EAST), abs(y)], [3, 1, 4, x, y]
        for at in [4], [5], [4, 5]:
            yield same_as(to_log(lines(in_metres(each, at) for each in many), "a log in metres"), to_log(lines(many), ""))
    zeros = [b"-0.00", b"-00.00", b"0.00", b"0000.00", b"-0", b"0"]
    yield same_as(to_log(lines([2, 0, 2, x, x] for x in zeros), "no metres"), to_log(line([2, 0, 2, 0, 0]) * len(zeros), ""))
    spare = [1, 1, 1, b"0" * 300 + b"1.00", b"-" + b"0" * 300 + b".01"]
    yield same_as(to_log(line(spare), "spare zeros"), to_log(line([1, 1, 1, 100, -1]), ""))
    for at in 1, 2, 3:
        yield refused(to_log(lines(instead(RECORDS[0], at - 1, word) for word in METRES), "metres where there are none"))
    for at, word in ((at, word) for at in (2, 4) for word in METRES):
        yield to_job(instead(JOB, at, word), "metres where there are none")
    for word in METRES:
        yield expecting([word, 30000, 40000], "metres where there are none")
    for limit, at in (EAST + 1, 4), (NORTH + 1, 5):
        yield refused(to_log(line(in_metres(instead([2, 0, 2, 0, 0], at - 1, limit), [at])), "a place out of range in metres"))
    for x in b"10000000.01", b"-10000000.01", b"99999999999999999999999999999.99", b"42949672.96":
        yield refused(to_log(lines([[1, 1, 1, x, 0], [1, 1, 1, 0, x]]), "metres that are too large"))
    yield to_job([b"300.00", b"400.00", 1, b"1000.01"], "a tolerance that is too large")
    yield to_job([b"1000000.01", b"400.00", 1, b"0.00"], "an easting that is too large")
    yield expecting([1, b"1000000.01", b"0.00"], "an easting that is too large")
    yield expecting([1, b"0.00", b"10000000.01"], "a northing that is too large")


def same_as(run, other):
    """The run, once it is checked that it comes to what the other one comes to."""
    assert outcome(run).files == outcome(other).files, run
    return accepted(run)


def passed_over():
    """Lines that are passed over: they count as lines, and are no record and no chain."""
    empty = [b"\n", b" \n", b"\t\n", b"\r\n", b" \t \r\n", b"#\n", b"# a note\n", b" \t# 1 1 1 0 0\n"]
    empty += [b"#1 1 1 0 0\n", b"##\r\n", b"#\0\xff\n"]
    for tool, right in ("laychain", CHAIN), ("laywrite", RECORDS[0]):
        good, bad = line(right), line([*right, b"x"])
        for each in empty:
            yield accepted(Run(tool, text=each + good + each * 2 + good + each, files=THREE, why="lines that are passed over"))
        every = b"".join(empty)
        yield accepted(Run(tool, text=every + good + every, files={}, why="lines that are passed over"))
        yield Run(tool, text=every + bad + every + good + bad, files=THREE, why="refused lines among those that are passed over")
        for only in every, b"\n", b"# a note\n", b"\n" * 1_000:
            yield Run(tool, text=only, files=THREE, why="nothing but lines that are passed over")
            yield Run(tool, text=only, files={}, why="nothing but lines that are passed over")
        for no in [*right[:-1], b"#"], [*right, b"#"], [*right, b"#", b"a", b"note"], [b"1#", *right[1:]]:
            yield refused(Run(tool, text=line(no), files=THREE, why="a # in another word"))
        for cut in b"#", b"# a note", b" ", b"\t#":
            yield Run(tool, text=good + cut, files=THREE, why="a last line without its newline")
        for length in LONGEST, LONGEST + 1:
            yield Run(tool, text=b"#" * (length - 1) + b"\n" + good, files=THREE, why=f"a line of {length} bytes that is passed over")
        many = b"# a long note " * 4_000 + b"\n" + good + b"\n" * 70_000 + good
        yield accepted(Run(tool, text=many, files=THREE, why="more of them than are read at a time"))


# Arguments


def arguments():
    """For every tool, arguments that no tool takes, and help; standard input has what the tool would accept."""
    spoilt = [b""], [b" "], [b"\t"], [b"\r"], [b"\n"], [b"--"], [b"-"], [b"-h"], [b"--version"], [b"help"], [b"\xff"]
    near = [b"--help "], [b" --help"], [b"--hel"], [b"--helps"], [b"-help"], [b"--HELP"], [b"", b"--help"], [b"x", b"--help"]
    helps = [b"--help"], [b"--help", b"--help"], [b"--help", b""], [b"--help", b"1", b"30000", b"40000"], [b"--help", b"\xff "]
    for tool, text in zip(TOOLS, (b"", line(CHAIN), lines(RECORDS), b"", b"", b"")):
        for given in (*spoilt, *near, *helps):
            yield Run(tool, list(given), text, THREE, "arguments that are none")
        yield Run(tool, [b"--help"], b"no line of any", {}, "help needs no file")
        yield Run(tool, [b"0" * 100_000], text, THREE, "a long argument")


def counts():
    """Too few and too many arguments, and wrong ones among right ones."""
    three = [b"1", b"30000", b"40000"]
    for tool, right in ("layjob", words(JOB)), ("layexpect", three), ("layone", three):
        for n in range(len(right) + 3):
            yield Run(tool, (right * 2)[:n], files=THREE, why="how many arguments")
        for at in range(len(right) + 1):
            for none in b"", b" ":
                yield Run(tool, [*right[:at], none, *right[at:]], files=THREE, why="one more, which is no word")
        yield Run(tool, [b" ".join(right)], files=THREE, why="all words in one argument")
        yield Run(tool, [b" ".join(right[:2]), *right[2:]], files=THREE, why="two words in one argument")
        yield Run(tool, [*right, b"--help"], files=THREE, why="help behind the others")
        for blank in b" ", b"\t", b"\r", b"\n":
            yield Run(tool, [right[0] + blank, *right[1:]], files=THREE, why="a blank behind a word")
            yield Run(tool, [*right[:-1], blank + right[-1]], files=THREE, why="a blank before a word")
        for length in LONGEST - 1, LONGEST, LONGEST + 1:
            yield Run(tool, spread(right, length), files=THREE, why=f"arguments of a line of {length} bytes")
    for tool, text in ("laychain", line(CHAIN)), ("laywrite", lines(RECORDS)), ("layshow", b""):
        yield Run(tool, words(JOB), text, OLD, "arguments where there are none")


def spread(right, length):
    """Spare zeros before every word, so that the line, with its newline, has this length."""
    share = (length - len(b" ".join(right) + b"\n")) // len(right)
    longer = [b"0" * share + word for word in right]
    longer[0] = b"0" * (length - len(b" ".join(longer) + b"\n")) + longer[0]
    return longer


# Jobs


def jobs():
    far, all_bits = [0, 0, 0, 0, 0], 2**64 - 1
    for job in far, [EAST, NORTH, 0, 100_000, all_bits], [*JOB[:4], 0], [b"030000", b"0000040000", b"01", b"000", b"00100"]:
        yield accepted(to_job(job, "jobs at their ends, and spare zeros"))
    for k in 23, 24, 25, 26, 31, 32, 63, 64, 65, 255:
        yield to_job([30000, 40000, k, 0, 100], "exponents")
    for k in 0, 1, 24:
        for short in 0, 1, 2**k - 1, 2**k:
            yield to_job([EAST - short, 5, k, 0, 100], "windows at the eastern edge")
            yield to_job([5, NORTH - short, k, 0, 100], "windows at the northern edge")
    for corner in [EAST + 1, 0], [0, NORTH + 1], [2**32 - 1, 0], [0, 2**32 - 1], [2**32 - 1, 2**32 - 1]:
        yield to_job([*corner, 0, 0, 100], "corners out of range")
        yield to_job([*corner, 1, 0, 100], "corners out of range")
    for tolerance in 99_999, 100_000, 100_001, 2**31, 2**32 - 1:
        yield to_job(instead(JOB, 3, tolerance), "tolerances")
    for allowance in 2**32 - 1, 2**32, 2**63, all_bits - 1, all_bits, all_bits + 1, b"0" * 50 + b"18446744073709551615":
        yield to_job(instead(JOB, 4, allowance), "allowances")
    for at, number in enumerate(JOB):
        for other in larger(number, 8):
            yield to_job(instead(JOB, at, other), "numbers too large for their field")


def bad_jobs():
    """Words that are no numbers, each in one of the fields; then several faults at once: 12 comes first, 6 before 7."""
    for at, word in enumerate([word for word in NO_WORDS + NO_NUMBERS + NO_READINGS if b"\0" not in word]):
        yield to_job(instead(JOB, at % 5, word), "a word that is no number")
    for at in range(5):
        yield to_job(instead(JOB, at, b"-1"), "a number below nought")
        yield to_job(instead(JOB, at, b"1x"), "a word that is no number")
    for k, tolerance, allowance in (25, 100_001, 100), (25, 0, 2**64), (1, 100_001, 2**64), (25, 100_001, b"x"):
        yield to_job([30000, 40000, k, tolerance, allowance], "several refusals at once")
    yield to_job([EAST + 1, 0, 0, 100_001, 1], "several refusals at once")
    yield to_job([b"x", 0, 25, 0, 1], "several refusals at once")
    yield to_job(instead(JOB, 2, 25), "nothing is written", {})
    yield to_job([*JOB, 1], "nothing is written", {})


# Tables


def tables():
    many = [[i, 2 * i, 30000 + i, i, 7 * i, 40000 + i] for i in range(1, 18)]
    for n in 1, 2, 15, 16, 17:
        yield to_table(lines(many[:n]), f"{n} chains")
        yield to_table(lines(many[:n]), f"{n} chains", {})
    yield to_table(lines(many[:16]), "a table in place of nothing", {"chain.dat": b""})
    # the seventeenth line is the last that is reported, whatever follows it: with 12 if it is not of the form, else with 1
    for last in lines(many[:1]), b"\n", b"x\n", b"1 2 3 4 5 6", line([0] * 6), b"1" * 70_000:
        yield to_table(lines(many[:16]) + last, "a seventeenth line")
        yield to_table(lines(many[:16]) + last + b"x\nx\n", "a seventeenth line, with others behind it")
    yield to_table(b"x\n" + lines(many[:15]) + b"y\nz\n", "refused lines up to the seventeenth")
    yield to_table(b"\n" * 40, "empty lines alone")
    yield accepted(to_table(b"\n".join(map(line, many[:16])) + b"\n# the end\n" * 9, "16 chains and more lines than that"))
    yield to_table(b"\n# a note\n".join(map(line, many[:17])), "17 chains, with lines between them")
    yield to_table(lines([CHAIN, [0] * 6, CHAIN, [b"x"] * 6, instead(CHAIN, 0, EAST + 1)]), "one chain sound, one not")


def chains():
    sound = [CHAIN, OUTER, [0, 0, 0, 1, 1, 0], [EAST, 0, 0, NORTH, 0, 0], [b"00", b"000", b"0030000", b"0", b"0", b"040000"]]
    sound += [[5, 6, 6, 5, 5, 5], [EAST, NORTH, EAST - 1, NORTH, EAST, NORTH - 1]]
    yield accepted(to_table(lines(sound), "sound chains"))
    equal = [0, 0, 0, 0, 0, 40000], [0, 0, 30000, 0, 0, 0], [0, 0, 30000, 0, 30000, 0], [7] * 6
    beyond = [instead(CHAIN, at, limit + 1) for at, limit in enumerate([EAST, NORTH] * 3)]
    beyond += [instead(CHAIN, at, 2**32 - 1) for at in range(6)] + [instead(OUTER, at, NORTH + 1) for at in range(6)]
    huge = [instead(CHAIN, at, other) for at in range(6) for other in larger(CHAIN[at])]
    for few in grouped([*equal, *beyond, *huge], 16):
        yield refused(to_table(lines(few), "chains that are not sound"))
    spoilt = [instead(CHAIN, at % 6, word) for at, word in enumerate(NO_WORDS + NO_NUMBERS + NO_READINGS)]
    short = [CHAIN[:n] for n in range(1, 6)] + [CHAIN + [0], CHAIN + [0] * 6]
    both = [[0, 0, 0, 0, 0, b"x"], [b"x", 0, EAST + 1, 0, 0, 0], [0, 0, EAST + 1, 0, 0, 0, b"x"]]
    for few in grouped([*spoilt, *short, *both], 16):
        yield refused(to_table(lines(few), "lines that are no chain"))
    yield to_table(lines([CHAIN, OUTER, CHAIN + [b"x"]]), "nothing is written", {})


def factors():
    """The seventh word: left out, in range, out of it by little and by much, no number; an eighth; beside stations at fault."""
    good = [CHAIN + [factor] for factor in (*FACTORS, b"0999000", b"0" * 300 + b"1001000", b"0001000000")]
    yield accepted(to_table(lines([CHAIN, *good, OUTER + [999_641], OUTER]), "factors"))
    for given in (CHAIN + [factor] for factor in FACTORS):
        yield same_as(to_table(line(in_metres(given, range(1, 7))), "metres and a factor"), to_table(line(given), ""))
    yield same_as(to_table(line(CHAIN + [1_000_000]), "the usual factor"), to_table(line(CHAIN), ""))
    for few in grouped([CHAIN + [factor] for factor in (*NO_FACTORS, *larger(999_000), *larger(1_000_000))], 16):
        yield refused(to_table(lines(few), "factors out of range"))
    no_factors = [b"0.9996", b"1.00", b"999641.00", b"1000000.", b"-999641", b"-1000000", b"+1000000"]
    for few in grouped([CHAIN + [word] for word in (*no_factors, *NO_WORDS, *NO_NUMBERS, *METRES)], 16):
        yield refused(to_table(lines(few), "words that are no factor"))
    eight = [CHAIN + [1_000_000, word] for word in (0, 1_000_000, b"x", b"#")] + [CHAIN + [1_000_000, b"#", b"a", b"note"]]
    unsound = instead(CHAIN, 4, EAST + 1), instead(CHAIN, 0, 30000), [0, 0, EAST + 1, 0, 0, 0]
    wrong = [[*stations, factor] for stations in unsound for factor in (1_000_000, 998_999)]
    yield refused(to_table(lines([*eight, *wrong, CHAIN[:2] + [1_000_000], CHAIN * 2]), "factors beside other faults"))
    yield to_table(lines([CHAIN + [999_641], CHAIN + [1_001_001], CHAIN + [b"x"], CHAIN]), "some factors refused")
    for files in {}, {"chain.dat": OLD["chain.dat"]}, {"scale.dat": OLD["scale.dat"]}, {"scale.dat": b"x" * 1000}:
        yield accepted(to_table(lines([CHAIN + [999_641], CHAIN]), "over half a pair of files", files))


# Logs


def numbers_of_records():
    """Records that are accepted, at the ends of their fields."""
    for chain in 1, 2, 15, 16:
        yield [1, chain, 1, -10000, -20000]
    for number in 0, 1, 255, 256, 65535, 65536, 2**31, 2**32 - 2, 2**32 - 1:
        for kind in 1, 2, 3:
            yield [kind, 1, number, 5, 6]
    for size in 0, 1, 5, 7, 10, 99, 100, 101, 12345, 2**29 + 1, 999_999_999, SIZE:
        yield [1, 1, 1, size, -size]
        yield [1, 1, 1, -size, size]
    for place in [0, 0], [EAST, NORTH], [0, NORTH], [EAST, 0], [b"-0", b"-000"]:
        yield [2, 0, 2, *place]
    yield [1, 1, 1, b"-0", b"-00"]
    yield [b"01", b"0016", b"00004294967295", b"-0001", b"00000000000001000000000"]
    # what a kind does not use may be any number
    for chain in 0, 1, 17, 256, 10**30, 10**300:
        yield [2, chain, 2, 30001, 40000]
        yield [3, chain, 3, 30001, 40000]
    for x in -1, SIZE + 1, -SIZE - 1, 2**64, -(2**64), 10**300, -(10**300):
        yield [3, 0, 3, x, 0]
        yield [3, 0, 3, 0, x]


def refused_records():
    """Numbers over the limit of each field, then several faults at once: 12 comes first, then the lowest refusal."""
    for kind in 0, 4, 5, 255, *larger(1, 8), *larger(2, 8), *larger(3, 8):
        yield [kind, 1, 1, 5, 6]
    for chain in 0, 17, 18, 255, *larger(1, 8), *larger(16, 8):
        yield [1, chain, 1, 5, 6]
    for number in 2**32, 2**32 + 1, *larger(2**32):
        for kind in 1, 2, 3:
            yield [kind, 1, number, 5, 6]
    for x in SIZE + 1, 2**31, *larger(5), *larger(2**32):
        for kind in 1, 2:
            yield from ([kind, 1, 1, x, 6], [kind, 1, 1, -x, 6], [kind, 1, 1, 5, x], [kind, 1, 1, 5, -x])
    for place in [EAST + 1, 0], [0, NORTH + 1], [-1, 0], [0, -1], [SIZE, SIZE], [-SIZE, -SIZE], [0, -SIZE]:
        yield [2, 0, 2, *place]
    yield from ([0, 0, 2**32, 0, 0], [0, 0, 1, SIZE + 1, 0], [1, 0, 1, SIZE + 1, 0], [1, 0, 2**32, SIZE + 1, 0])
    yield from ([2, 0, 1, -1, SIZE + 1], [2, 0, 1, EAST + 1, -SIZE - 1], [2, 0, 1, -1, b"x"], [9, 9, b"x", 9, 9])
    yield from ([1, 0, 1, 0, b"--1"], [10**30, 10**30, 10**30, 10**30, 10**30], [4, 17, 1, SIZE + 1, SIZE + 1])


def spoilt_records():
    for word in NO_WORDS + NO_READINGS:
        yield from (instead(RECORDS[0], at, word) for at in range(5))
    for word in NO_NUMBERS:
        yield from (instead(RECORDS[2], at, word) for at in range(3))
    yield from (RECORDS[0][:n] for n in range(1, 5))
    yield from (RECORDS[0] + [0], RECORDS[0] * 2, RECORDS[2][:3], [b"LOG", *RECORDS[0]])


def logs():
    good = lines(numbers_of_records())
    yield accepted(to_log(good, "records at the ends of their fields"))
    yield accepted(to_log(good, "records at the ends of their fields", None))
    yield refused(to_log(lines(refused_records()), "records that are refused"))
    yield refused(to_log(lines(spoilt_records()), "lines that are no record"))
    yield to_log(good + lines(refused_records()) + good + lines(spoilt_records()), "good lines among others")
    for bad in line([4, 0, 1, 0, 0]), b"x\n", b"x", b"1 1 1 0 0":
        yield to_log(bad + good, "the first line is refused")
        yield to_log(good + bad, "the last line is refused")
        yield to_log(good + bad, "the last line is refused", None)
    for length in 0, 1, 31, 32, 33, 63, 64, 65, 4096, 65_536, 65_537, 131_071:
        log = (bytes(range(256)) * 512)[:length]
        yield to_log(lines(RECORDS), f"a log of {length} bytes", log)
    for text in b"", b"x\n", b"x", b"1" * 70_000:
        yield to_log(text, "a short last record is told before anything is read", OLD["lay.dat"] + b"\1")
    for given in [b"x"], [b""], [b"--help"]:
        yield to_log(b"x\n", "a short last record is told before arguments, but not before help", b"\1")._replace(arguments=given)


# Blanks, and how lines end


def blanks():
    for tool, right in ("laychain", CHAIN), ("laywrite", RECORDS[0]):
        first = line(right)
        plain = words(right)
        kinds = b" ", b"\t", b"\r", b"  ", b" \t\r ", b"\r\r", b"\t" * 9
        good = [blank.join(plain) + b"\n" for blank in kinds] + [blank + first for blank in kinds]
        good += [first[:-1] + blank + b"\n" for blank in kinds[:2]]
        yield accepted(Run(tool, text=b"".join(good), files=THREE, why="blanks"))
        yield accepted(Run(tool, text=first.replace(b"\n", b"\r\n") * 3, files=THREE, why="carriage returns before newlines"))
        none = [b"\v", b"\f", b"x", b"\rx", b"\r" + first[:-2] + b" x", b"\v".join(plain), b"\0".join(plain)]
        none += [b",".join(plain), "\u00a0".encode().join(plain), b"\0", first[:-1] + b"\0", first[:-1] + b" \0"]
        none += ["\ufeff".encode() + first[:-1]]
        yield refused(Run(tool, text=b"\n".join(none) + b"\n", files=THREE, why="lines without the words"))
        for end in b"", b" ", b"\r", b"\t ", b"\0", b"1", b"\r\n\r", b"\n\n":
            yield Run(tool, text=first * 2 + first[:-1] + end, files=THREE, why="how the last line ends")
            yield Run(tool, text=first[:-1] + end, files={}, why="how the only line ends")
        for alone in b"\n", b" ", b"\0", b"\n\n", first.replace(b"\n", b"\r"), first.replace(b" ", b"\n"):
            yield Run(tool, text=alone, files=THREE, why="lines that are nothing much")


# Long lines and long texts


def stretched(right, length, how):
    """A line of `length` bytes with its newline, made longer by blanks, spare zeros or digits as `how` says."""
    first = line(right)
    more = length - len(first)
    return {
        "front": b" " * more + first,
        "behind": first[:-1] + b"\t" * more + b"\n",
        "between": first.replace(b" ", b" " * (more + 1), 1),
        "zeros": b"0" * more + first,
        "digits": first[:-1] + b"1" * more + b"\n",
    }[how]


def long_lines():
    for tool, right in ("laychain", CHAIN), ("laywrite", [3, 0, 3, 0, 1]):
        first = line(right)
        for how in "front", "behind", "between", "zeros":
            for length in LONGEST - 1, LONGEST, LONGEST + 1, 3 * LONGEST:
                long = stretched(right, length, how)
                yield Run(tool, text=long, files=THREE, why=f"{how}: a line of {length} bytes")
                yield Run(tool, text=first + long + first, files=THREE, why=f"{how}: a second line of {length} bytes")
        for length in LONGEST, LONGEST + 1:
            long = b"x" * (length - 1) + b"\n"
            yield Run(tool, text=b"x\n" + long + b"x\nx\n", files=THREE, why=f"only the last long line ends it: {length} bytes")
            yield Run(tool, text=first * 9 + stretched(right, length, "digits") + b"x\n", files=THREE, why="long numbers")
            yield Run(tool, text=b" " * (length - 1) + b"\nx\n", files=THREE, why=f"a blank line of {length} bytes")
        for length in LONGEST - 1, LONGEST, LONGEST + 1, 70_000, 2 * LONGEST, 131_072:
            yield Run(tool, text=b"0" * length, files=THREE, why=f"{length} bytes without a newline")
            yield Run(tool, text=first + b" " * length, files=THREE, why=f"{length} blanks without a newline")
        yield accepted(Run(tool, text=stretched(right, LONGEST, "front") * 5, files=THREE, why="five of the longest lines"))
    yield accepted(to_table(stretched(CHAIN, 5000, "between") * 16, "a table of 80,000 bytes"))
    yield to_table(stretched(CHAIN, 5000, "between") * 17, "a table of 85,000 bytes")
    yield accepted(to_table(stretched(CHAIN, LONGEST, "zeros") * 16, "a table of a million bytes"))


def filled(length, right):
    """Lines of `length` bytes in all."""
    text = line(right) * ((length - 100) // len(line(right)))
    return text + stretched(right, length - len(text), "front")


def edges():
    """Lines that lie across the end of what is read at a time, cut at each of their bytes; texts that end near there."""
    tail = lines([[1, 16, 77, -10000, -20000], [2, 0, 78, 30001, 40000]])
    for edge, step in (65_536, 1), (131_072, 5):
        for before in range(0, 24, step):
            yield accepted(to_log(filled(edge - before, RECORDS[1]) + tail, f"a line {before} bytes before {edge}"))
        for length in range(edge - 2, edge + 3):
            yield accepted(to_log(filled(length, RECORDS[0]), f"a text of {length} bytes"))
            yield to_log(filled(length, RECORDS[0])[:-1], f"a text of {length} bytes without its last newline")
            yield to_log(filled(length, RECORDS[0]) + b"\n", f"a text of {length} bytes and an empty line")


def long_texts():
    many = [[1 + i % 3, 1 + i % 16, i, i * 9973 % EAST, i * 99_991 % NORTH] for i in range(8_000)]
    yield accepted(to_log(lines(many), "8,000 lines"))
    yield accepted(to_log(lines(many), "8,000 lines, and no log before", None))
    yield to_log(lines(many) + b"4 0 0 0 0\n", "8,000 lines and one that is refused")
    yield to_log(b"0 0 0 0 0\n" + lines(many), "8,000 lines behind one that is refused")
    yield to_log(lines([i % 5, 1, i, i * 99_999, 5] for i in range(8_000)), "thousands of lines, many refused")
    yield to_log(b"x\n" * 1_000, "1,000 lines that are no record")


# Expected readings


def expecting(values, why, files=THREE):
    return Run("layexpect", words(values), files=files, why=why)


def of_chains(*chains, factors=None):
    """A table and its side file, with the usual factors unless others are given."""
    table = table_of(chains)
    return {"chain.dat": table, "scale.dat": units(table) if factors is None else scale_of(*factors)}


def expected():
    for place in *rule.stations(rule.chain_of(CHAIN + OUTER)), [29999, 0], [15000, 20000], [3, 4], [12345, 678]:
        yield expecting([1, *place], "places")
    near = of_chains([1000, 1000, 1000, 1005, 1007, 1000])
    for place in [1000, 1000], [1000, 1005], [1007, 1000], [1000, 1002], [1000, 1003], [1003, 1000], [1003, 1003], [1004, 1000]:
        yield expecting([1, *place], "readings of a few centimetres", near)
    # on the line from the master to A every reading occurs: whole quarters of a metre, which are exact, and those beside them
    for reading in (near + quarter for quarter in (-7525, -100, -50, -25, 0, 25, 50, 75, 100, 4000) for near in (-1, 0, 1)):
        a = 20_000 + reading % 2
        yield expecting([1, (10_000 + a - reading) // 2, 0], "exact and rounded", of_chains([10_000, 0, a, 0, 10_000, 50_000]))
    # the greatest reading that can be written, the next, and the same below zero
    for east in 0, 1, 44_721, 44_722, 44_723, EAST:
        yield expecting([1, 0, 0], "readings about 1,000,000,000", of_chains([0, 0, east, NORTH, 1, 0]))
        yield expecting([1, 0, 0], "readings about 1,000,000,000", of_chains([0, 0, 1, 0, east, NORTH]))
        yield expecting([1, east, NORTH], "readings about -1,000,000,000", of_chains([0, 0, east, NORTH, 7, NORTH]))
    yield expecting([1, 0, 0], "both readings too large", of_chains([0, 0, EAST, NORTH, EAST - 1, NORTH]))
    for place in [EAST + 1, 0], [0, NORTH + 1], *([x, 0] for x in larger(30000)), *([0, y] for y in larger(40000)):
        yield expecting([1, *place], "places out of range")
    for chain in 0, 2, 3, 17, *larger(1, 8):
        yield expecting([chain, 30000, 40000], "chains that are not in the table")
    for spoilt in [b"01", b"030000", b"000040000"], *(instead([1, 30000, 40000], at, b"-0") for at in range(3)):
        yield expecting(spoilt, "spare zeros, and minus nought")
    for at, word in enumerate([word for word in NO_WORDS if b"\0" not in word]):
        yield expecting(instead([1, 30000, 40000], at % 3, word), "a word that is no number")


def expected_tables():
    """Only the chain that is asked for must be sound; then tables of other lengths, and which refusal comes first."""
    unsound = [0, 0, 0, 0, 0, 40000]
    pair = of_chains(unsound, CHAIN)
    for chain in 0, 1, 2, 3:
        yield expecting([chain, 30000, 40000], "a chain that is not sound beside one that is", pair)
    for chain in unsound, instead(CHAIN, 0, EAST + 1), instead(CHAIN, 3, NORTH + 1), [0, 0, 7, 7, 7, 7], [7, 0, 1, 1, 7, 0]:
        yield expecting([1, 30000, 40000], "a chain that is not sound", of_chains(chain))
    many = table_of([i, 2 * i, 30000 + i, i, 7 * i, 40000 + i] for i in range(1, 18))
    factors = scale_of(*range(999_000, 1_001_100, 123))
    for chain in 1, 2, 15, 16, 17:
        yield expecting([chain, 30000, 40000], "one of 16 chains", {"chain.dat": many[:384], "scale.dat": factors[:64]})
    for length in 0, 1, 23, 24, 25, 383, 384, 385, 408:
        yield expecting([1, 30000, 40000], f"a table of {length} bytes", folder_of(chain=many[:length]))
    for chains in 1, 2, 16:
        for length in *range(4 * chains + 6), 1000:
            files = {"chain.dat": many[: 24 * chains], "scale.dat": (factors * 20)[:length]}
            yield expecting([chains, 30000, 40000], f"a side file of {length} bytes for {chains} chains", files)
    yield expecting([1, 30000, 40000], "no table", {})
    yield expecting([1, 30000, 40000], "no table", folder_of(chain=None))
    yield expecting([1, 30000, 40000], "no side file", folder_of(scale=None))
    yield expecting([1, EAST + 1, 0], "1 before 4", folder_of(chain=many[:25]))
    yield expecting([0, EAST + 1, 0], "1 before 4", folder_of(scale=b""))
    yield expecting([1, b"x", 0], "12 before 1", {})
    yield expecting([0, EAST + 1, 0], "4 before 5")
    yield expecting([1, 0, NORTH + 1], "4 before 5", of_chains(unsound))
    yield expecting([0, 0, b"-1"], "12 before 5")
    yield expecting([1, EAST + 1, 0], "4 before 5", of_chains(CHAIN, factors=[0]))


def expected_factors():
    """By factors in range the places of 01 and others, near and far; by one out of range none, unless it is another chain's."""
    for factor in FACTORS:
        for place in [30000, 40000], [30001, 40000], [30000, 40001], [1, 1], [EAST, NORTH], [0, 0]:
            yield accepted(expecting([2, *place], "by a factor", of_chains(OUTER, CHAIN, factors=[0, factor])))
        yield expecting([1, 0, 0], "readings about 1,000,000,000", of_chains([0, 0, 44_721, NORTH, 1, 0], factors=[factor]))
    for files in (of_chains(CHAIN, CHAIN, factors=[factor, rule.UNIT]) for factor in NO_FACTORS):
        yield refused_once(expecting([1, 30000, 40000], "a factor out of range", files))
        yield accepted(expecting([2, 30000, 40000], "a factor that does not matter", files))
    for r, _, corner, *_ in search.CROSSINGS:
        files = of_chains(rule.flat(rule.stations(r.chain)), factors=[r.factor])
        yield accepted(expecting([1, *corner], "the corners of known windows", files))


# How many places


def folder_of(**files):
    """Files are given by the stem of their names. A file not given is 01's, but the side file of another table has the usual
    factors; one given as None is missing."""
    usual = {"scale.dat": units(files.get("chain") or THREE["chain.dat"])}
    named = THREE | usual | {f"{name}.dat": s for name, s in files.items()}
    return {name: s for name, s in named.items() if s is not None}


def asking(values, why, **files):
    """A run of layone with these files."""
    return Run("layone", words(values), files=folder_of(**files), why=why)


WANTED = [1, -10000, -20000]
ALLOWANCES = [0, 1, 2, 3, 4, 5, 6, MANY_VISITS - 1, MANY_VISITS, MANY_VISITS + 1, 2**32, 2**63, 2**64 - 1]


def asked():
    """01's cases, in centimetres and in metres; allowances, also about that with a note; the crossings whose places are known."""
    spare = [b"001", b"-0010000", b"-000200.00"]
    for given in WANTED, *(in_metres(WANTED, at) for at in ([2], [3], [2, 3])), spare:
        yield accepted(asking(given, "P4"))
    for others in {"lay": None}, {"lay": b"x"}, {"notes": b"x"}:
        yield accepted(asking(WANTED, "files that it does not read", **others))
    for changes in {"tolerance": 1}, {"k": 0}, {"easting": 30001, "k": 0}, {"northing": 40001, "k": 0}, {"tolerance": 100_000, "k": 3}:
        for allowance in ALLOWANCES:
            yield asking(WANTED, "01's window and others", job=records.job(**{"allowance": allowance, **changes}))
    for allowance in ALLOWANCES:
        yield asking(WANTED, "allowances", job=records.job(allowance=allowance))
        yield asking([1, 0, 0], "P9", job=records.job(allowance=allowance))
        yield asking([1, 30000, 40000], "a place, and visits after it", job=records.job(easting=0, northing=0, allowance=allowance))
    for place in [30001, 40000], [30000, 40001], [1, 1], [0, 0], [EAST, NORTH]:
        job = records.job(*place, k=0)
        yield asking([1, *rule.readings(rule.chain_of(CHAIN), place)], "the readings of a place", job=job)
    for r, wanted, corner, k, _, visits in search.CROSSINGS:
        for allowance in visits, visits - 1, 2 * MANY_VISITS:
            job, table = records.job(*corner, k=k, allowance=allowance), rule.chain_bytes(r.chain)
            yield asking([1, *wanted], "crossings", chain=table, scale=scale_of(r.factor), job=job)
            pair = {"chain": THREE["chain.dat"] + table, "scale": scale_of(0, r.factor)}
            yield asking(in_metres([2, *wanted], [2, 3]), "crossings in metres", **pair, job=job)
    for x in SIZE, -SIZE, SIZE + 1, -SIZE - 1, b"-0", b"-0.00", b"10000000.00", b"-10000000.00", b"10000000.01", b"-10000000.01":
        yield asking([1, x, -20000], "readings at their limit")
        yield asking([1, -10000, x], "readings at their limit")
    for x in (sign * x for x in larger(10000) for sign in (1, -1)):
        yield asking([1, x, -20000], "readings that are too large")
        yield asking([1, -10000, x], "readings that are too large")
        yield asking([1, x, x], "readings that are too large")


def asked_words():
    """Words that are no numbers and no readings, each in one of the fields."""
    for at, word in enumerate([word for word in NO_WORDS + NO_READINGS if b"\0" not in word]):
        yield refused_once(asking(instead(WANTED, at % 3, word), "a word that is no number"))
    for word in NO_NUMBERS + METRES:
        yield refused_once(asking(instead(WANTED, 0, word), "a word that is no chain's number"))
    for word in METRES:
        yield asking(instead(WANTED, 1, word), "readings in metres")
        yield asking(instead(WANTED, 2, b"-" + word), "readings in metres")


def refused_once(run):
    """The run, once it is checked that it is refused."""
    assert len(outcome(run).refusals) == 1, run
    return run


def asked_tables():
    """The tables and jobs that are asked about: one of several chains, other lengths, missing files, bytes that must be zero."""
    unsound = [0, 0, 0, 0, 0, 40000]
    for number in 0, 1, 2, 3, *larger(2, 8):
        yield asking([number, -10000, -20000], "a chain that is not sound beside one that is", chain=table_of([unsound, CHAIN]))
    for chain in unsound, instead(CHAIN, 0, EAST + 1), instead(CHAIN, 3, NORTH + 1), [0, 0, 7, 7, 7, 7], [7, 0, 1, 1, 7, 0]:
        yield refused_once(asking(WANTED, "a chain that is not sound", chain=table_of([chain])))
    many = table_of([i, 2 * i, 30000 + i, i, 7 * i, 40000 + i] for i in range(1, 5000))
    for number in 1, 2, 15, 16, 17:
        yield asking([number, -10000, -20000], "one of 16 chains", chain=many[:384], job=records.job(k=4, tolerance=9, allowance=500))
    for length in 0, 1, 23, 24, 25, 383, 384, 385, 408, 70_000:
        yield asking(WANTED, f"a table of {length} bytes", chain=many[:length])
    for chains in 1, 2, 16:
        for length in *range(4 * chains + 6), 70_000:
            scale = (scale_of(rule.UNIT) * 20_000)[:length]
            yield asking(WANTED, f"a side file of {length} bytes for {chains} chains", chain=many[: 24 * chains], scale=scale)
    for factor in (*FACTORS, *NO_FACTORS):
        for number in 1, 2:
            pair = {"chain": table_of([CHAIN, CHAIN]), "scale": scale_of(factor, rule.UNIT)}
            yield asking([number, -10000, -20000], "factors", **pair)
            yield asking([number, -10010, -20020], "the readings of the least factor", **pair)
    for length in 0, 1, 31, 33, 64, 100_000:
        yield refused_once(asking(WANTED, f"a job of {length} bytes", job=(THREE["job.dat"] * 4_000)[:length]))
    for at in 9, 10, 11, *range(24, 32):
        yield refused_once(asking(WANTED, "a byte that must be zero", job=changed(THREE["job.dat"], at, 128)))
    for changes in (
        *({"k": k} for k in (24, 25, 32, 255)),
        *({"easting": EAST, "k": k} for k in (0, 1)),
        *({"northing": NORTH, "k": k} for k in (0, 1)),
        *({"easting": x} for x in (EAST + 1, 2**32 - 1)),
        *({"tolerance": t} for t in (100_000, 100_001, 2**32 - 1)),
    ):
        yield asking([1, SIZE, SIZE], "jobs at their limits", job=records.job(**changes))
    for gone in ["chain"], ["scale"], ["job"], ["chain", "scale"], ["scale", "job"], ["chain", "scale", "job", "lay"]:
        for number, a in (1, -10000), (2, SIZE + 1), (b"x", -10000):
            yield refused_once(asking([number, a, -20000], "files that are missing", **dict.fromkeys(gone)))
            yield refused_once(asking([number, a, -20000], "files that are empty", **dict.fromkeys(gone, b"")))
    yield refused_once(asking(WANTED, "no table, and a job of 31 bytes", chain=None, job=THREE["job.dat"][:31]))
    yield refused_once(asking(WANTED, "no job, and a table of 25 bytes", job=None, chain=many[:25]))


def faulty(number=1, a=-10000, b=-20000, table=THREE["chain.dat"], scale=THREE["scale.dat"], length=32, **job):
    """01's question with something wrong in it."""
    files = {"chain": table, "scale": scale, "job": (records.job(**job) + bytes(9))[:length]}
    return asking([number, a, b], f"things that are wrong: {job}", **files)


FAULTS = (
    {"a": b"1.5"},
    {"table": THREE["chain.dat"] + b"\0"},
    {"scale": THREE["scale.dat"][:3]},
    {"scale": THREE["scale.dat"] + b"\0"},
    {"length": 31},
    {"length": 33},
    {"zeros": (0, 1, 0)},
    {"last": 1},
    {"a": -SIZE - 1},
    {"b": SIZE + 1},
    {"number": 2},
    {"table": table_of([[0] * 6])},
    {"scale": scale_of(998_999)},
    {"k": 25},
    {"easting": EAST},
    {"tolerance": 100_001},
    {"allowance": 4},
)


def asked_faults():
    """Every two things wrong at once, then all: the first test that fails answers. A job that is accepted may have a note before."""
    for at, one in enumerate(FAULTS):
        for other in FAULTS[: at + 1]:
            yield refused_once(faulty(**{**other, **one}))
    yield refused_once(faulty(**{name: value for fault in FAULTS[1:] for name, value in fault.items()}))
    for fault in FAULTS[:-1]:
        yield refused_once(faulty(**fault, allowance=2**64 - 1))


# What the files hold


def showing(why, **files):
    """A run of layshow with these files."""
    return Run("layshow", files=folder_of(**files), why=why)


def shown_jobs():
    for at in 9, 10, 11, 24, 31:
        for byte in 1, 128:
            yield showing("a byte that must be zero", job=changed(THREE["job.dat"], at, byte))
    for changes in (
        *({"k": k} for k in (0, 24, 25, 255)),
        *({"easting": east, "k": k} for east in (EAST, EAST + 1, 2**32 - 1) for k in (0, 1)),
        *({"northing": north, "k": k} for north in (NORTH, NORTH + 1, 2**32 - 1) for k in (0, 1)),
        *({"tolerance": t} for t in (100_000, 100_001, 2**32 - 1)),
        *({"allowance": a} for a in (0, 2**32, 2**64 - 1)),
        *({"k": 25, "tolerance": 100_001, "last": last} for last in (0, 1)),
        {"tolerance": 100_001, "zeros": (0, 1, 0)},
        {"k": 24, "easting": EAST - 2**24 + 1, "northing": NORTH - 2**24 + 1},
        {"k": 24, "easting": EAST - 2**24 + 2},
    ):
        yield showing("jobs of 32 bytes", job=records.job(**changes))
    yield showing("a job of 32 bytes", job=b"\xff" * 32)
    for length in 0, 1, 31, 33, 34, 64, 100_000:
        yield showing(f"a job of {length} bytes", job=(bytes(range(1, 256)) * 400)[:length])


def shown_tables():
    unsound = [0, 0, 0, 0, 0, 40000], [5, 6, 7, 8, 5, 6], [1, 1, 9, 9, 9, 9], [0] * 6, [2**32 - 1] * 6
    beyond = [instead(CHAIN, at, limit + 1) for at, limit in enumerate([EAST, NORTH] * 3)]
    for chains in [OUTER], [CHAIN, OUTER], unsound, beyond, [CHAIN, *unsound, OUTER, *beyond, CHAIN]:
        yield showing("chains sound and not", chain=table_of(chains))
    many = table_of([i, 2 * i, 30000 + i, i, 7 * i, 40000 + i] for i in range(1, 5000))
    for length in 0, 1, 23, 24, 25, 47, 48, 383, 384, 385, 386, 408, 70_000:
        yield showing(f"a table of {length} bytes", chain=many[:length])


def shown_scales():
    """Factors in range and out of it, also of chains that are not sound; side files that do not fit the table, by every length
    about the one that does, and of tables that are refused."""
    every = FACTORS + NO_FACTORS
    for at in range(0, len(every), 7):
        few = every[at : at + 7]
        for chain in CHAIN, OUTER, [0] * 6, instead(CHAIN, 2, EAST + 1):
            yield showing("factors", chain=table_of([chain] * len(few)), scale=scale_of(*few))
    many = table_of([[0] * 6] + [[i, 2 * i, 30000 + i, i, 7 * i, 40000 + i] for i in range(1, 17)])
    for chains in 1, 2, 16:
        for length in *range(4 * chains + 6), 65, 66, 70_000:
            scale = (bytes(range(1, 256)) * 300)[:length]
            yield showing(f"a side file of {length} bytes for {chains} chains", chain=many[-24 * chains :], scale=scale)
            yield showing(f"a side file of {length} bytes, a chain not sound", chain=many[: 24 * chains], scale=scale)
    for scale in b"", b"x", THREE["scale.dat"], None:
        for table in b"", many[:25], many, None:
            yield showing("a side file of a table that is refused", chain=table, scale=scale)


def as_record(kind, first, second, chain=0, number=7, **others):
    """A log record; its numbers are floats, or whole numbers that are bit patterns."""
    return records.log(kind, chain, number, first, second, **others)


NANS = [sign + bits for sign in (0, MINUS) for bits in (NAN, NAN + 1, INFINITY + 1, MINUS - 1)]
ODD = [*NANS, *(sign + bits for sign in (0, MINUS) for bits in (INFINITY, 0, 1, 2**52))]
ODD += [1e300, -1e300, 1e7, -1e7, nextafter(1e7, inf), -nextafter(1e7, inf), nextafter(1e7, 0.0), 1e7 + 1]
TIES = [0.125, 0.375, 0.625, 0.875, 1.125, 0.005, 0.015, 0.025, 1.005, 300.01, 9_999_999.995, 4_999_999.125]
PLACES = [-0.001, -0.01, -0.005, 1e6, 1_000_000.005, nextafter(1_000_000.005, 0.0), 1_000_000.01, 42_949_672.96, 9_999_999.99]


def shown_numbers():
    for x in ODD + TIES + [-x for x in TIES] + PLACES:
        for kind in 0, 1, 2, 3, 4:
            yield as_record(kind, x, 1.0)
            yield as_record(kind, 1.0, x)
    for x in ODD:
        for kind in 1, 2, 3, 255:
            yield as_record(kind, x, x, third=x)
            yield as_record(kind, 0, 0, third=x)


def shown_bytes():
    """Records with each byte changed, some in two places; chains and line numbers of any size."""
    for s in rule.pieces(THREE["lay.dat"], 32):
        for at in range(32):
            for byte in 0, 1, 4, 127, 128, 255:
                yield changed(s, at, byte)
    for chain in 0, 1, 16, 17, 255:
        yield from (as_record(kind, 0, 0, chain, 2**32 - 1) for kind in (1, 2, 3, 0))
        yield as_record(1, NAN, 2.0, chain)
    yield as_record(2, 2e6, NAN)
    yield as_record(2, 2e6, INFINITY, two=1)
    yield as_record(1, NAN, 2.0, three=255)
    yield b"\xff" * 32
    yield bytes(32)


def shown_logs():
    yield showing("numbers of every sort", lay=b"".join(shown_numbers()))
    yield showing("bytes changed", lay=b"".join(shown_bytes()))
    for length in 0, 1, 8, 31, 32, 33, 63, 95:
        yield showing(f"a log of {length} bytes", lay=THREE["lay.dat"][:length])
    mixed = b"".join(islice(shown_numbers(), 300)) * 20
    for length in 65_504, 65_535, 65_536, 65_537, 65_567, 65_568, 131_072, 131_073, 192_000:
        yield showing(f"a log of {length} bytes", lay=mixed[:length])
    yield showing("a log of the longest lines", lay=b"\xff" * 131_080)
    for missing in ["job"], ["chain"], ["scale"], ["lay"], ["job", "chain"], ["scale", "lay"], ["job", "chain", "scale", "lay"]:
        yield showing("files that are missing", **dict.fromkeys(missing))
        yield showing("files that are empty", **dict.fromkeys(missing, b""))


def cases():
    yield from examples()
    yield from (*metres(), *passed_over())
    yield from arguments()
    yield from counts()
    yield from (*jobs(), *bad_jobs())
    yield from (*tables(), *chains(), *factors())
    yield from logs()
    yield from (*blanks(), *long_lines(), *edges(), *long_texts())
    yield from (*expected(), *expected_tables(), *expected_factors())
    yield from (*asked(), *asked_words(), *asked_tables(), *asked_faults())
    yield from (*shown_jobs(), *shown_tables(), *shown_scales(), *shown_logs())


# Runs at random

LIMITS = [0, 1, 2, 3, 4, 16, 17, 24, 25, 255, 256, 100_000, 100_001, EAST, EAST + 1, NORTH, NORTH + 1, 2**32 - 1, 2**32, 2**63]
LIMITS += [2**64 - 1, 2**64, 10**30, 10**300]


def drawn(draw, most, wild=0.0):
    """A number up to `most`, of any length; with the chance `wild`, one near some limit."""
    if draw.random() < wild:
        return max(0, draw.choice(LIMITS) + draw.choice((-1, 0, 0, 1)))
    return draw.randint(0, min(most, 10 ** draw.randint(1, 20)))


def drawn_job(draw, wild):
    k = drawn(draw, 24, wild)
    side = 2 ** min(k, 24) - 1
    corner = [drawn(draw, EAST - side, wild), drawn(draw, NORTH - side, wild)]
    return [*corner, k, drawn(draw, 100_000, wild), drawn(draw, 2**64 - 1, wild)]


def drawn_place(draw, wild=0.0):
    return [drawn(draw, EAST, wild), drawn(draw, NORTH, wild)]


def drawn_stations(draw, wild):
    places = [drawn_place(draw, wild) for _ in range(3)]
    if draw.random() < wild:
        places[draw.randrange(3)] = places[draw.randrange(3)]
    return sum(places, [])


def drawn_factor(draw, wild):
    """With the chance `wild`, one out of range or at its ends."""
    return draw.choice(FACTORS + NO_FACTORS) if draw.random() < wild else search.drawn_factor(draw)


def drawn_chain(draw, wild):
    """The numbers of a line for a table, with a factor or without one."""
    return drawn_stations(draw, wild) + [drawn_factor(draw, wild)][: draw.randint(0, 1)]


def drawn_record(draw, wild):
    kind = drawn(draw, 4, wild) if draw.random() < wild else draw.choice((1, 1, 2, 3))
    sign = draw.choice((1, -1))
    readings = [sign * drawn(draw, SIZE, wild), drawn(draw, SIZE, wild)]
    chain = draw.randint(1, 16) if kind == 1 and draw.random() >= wild else drawn(draw, 17, wild)
    return [kind, chain, drawn(draw, 2**32 - 1, wild), *(drawn_place(draw, wild) if kind == 2 else readings)]


def drawn_words(draw, values, wild, lengths):
    """The words of these numbers, some lengths in metres and some words with spare zeros; with the chance `wild`, one is no number,
    missing or too many."""
    given = in_metres(values, [at for at in lengths if draw.random() < 0.2])
    for at in range(len(given)):
        if draw.random() < 0.1:
            zeros = b"0" * draw.choice((1, 2, 9, 400))
            given[at] = b"-" + zeros + given[at][1:] if given[at].startswith(b"-") else zeros + given[at]
    if draw.random() < wild:
        at = draw.randrange(len(given))
        spoilt = draw.choice(draw.choice((NO_WORDS, NO_READINGS, NO_NUMBERS, METRES)))
        given[at : at + draw.randint(0, 1)] = draw.choice(([], [spoilt], [spoilt]))
    return given


def drawn_line(draw, values, wild, lengths):
    """Its words with blanks of any sort between them; a few lines are passed over."""
    blanks = b" ", b" ", b" ", b"\t", b"\r", b"  "
    text = b"".join(word + draw.choice(blanks) for word in drawn_words(draw, values, wild, lengths))
    first = draw.choice((b"", b"", b" ")) if draw.random() < 0.95 else draw.choice((b"\n", b"\t\n", b"# a note\n", b"# ", b"#"))
    return first + (text if draw.random() < 0.2 else text[:-1]) + b"\n"


def is_accepted(bytes_of, text):
    return not taken(lines_in(text), bytes_of)[1]


def drawn_text(draw, values_of, bytes_of, most, lengths):
    """Lines at random; half of the texts have only accepted lines, and a few texts are cut at the end."""
    wild = draw.choice((0.0, 0.02, 0.2))
    many = [drawn_line(draw, values_of(draw, wild), wild, lengths) for _ in range(draw.randint(1, most))]
    if draw.random() < 0.5:
        many = [text for text in many if is_accepted(bytes_of, text)]
    text = b"".join(many)
    return text[: -draw.randint(1, 3)] if draw.random() < 0.05 else text


def drawn_table(draw, wild=0.3):
    return table_of([number % 2**32 for number in drawn_stations(draw, wild)] for _ in range(draw.randint(1, 16)))


def drawn_bytes(draw):
    """A log record of any sort: sound, with a byte changed, with numbers of any size, or of any bytes at all."""
    kind, chain, number, x, y = drawn_record(draw, 0.0)
    sound = record_bytes(1, line([kind, max(1, min(chain, 16)), number, x, y])[:-1])
    return draw.choice((
        sound,
        sound,
        changed(sound, draw.randrange(32), draw.randrange(256)),
        as_record(draw.choice((1, 2)), draw.uniform(-2, 2) * 10 ** draw.randint(-3, 8), draw.random() * 1e7, number=number),
        draw.randbytes(32),
    ))


def drawn_files(draw):
    """Files as they may be found."""
    east, north, *others = (number % 2**bits for number, bits in zip(drawn_job(draw, 0.2), (32, 32, 8, 32, 64)))
    job = rule.job_bytes(rule.Job((east, north), *others))
    log = b"".join(drawn_bytes(draw) for _ in range(draw.randint(0, 60)))
    table = drawn_table(draw)
    scale = scale_of(*(drawn_factor(draw, 0.2) for _ in range(len(table) // 24)))
    return as_found(draw, {"job.dat": job, "chain.dat": table, "scale.dat": scale, "lay.dat": log})


def as_found(draw, files):
    """The same, some missing, some cut or too long."""
    for name in FILES["layshow"]:
        if draw.random() < 0.1:
            files[name] = (files[name] + draw.randbytes(9))[: draw.choice((0, 1, 23, 31, 33, -1, -7, 10_000))]
        if draw.random() < 0.05:
            del files[name]
    return files


def drawn_run(draw, tool):
    files, wild = drawn_files(draw), draw.choice((0.0, 0.1))
    if tool == "layjob":
        job = drawn_job(draw, wild)[: draw.choice((4, 5, 5))]
        return Run(tool, drawn_arguments(draw, job, wild, [1, 2, 4]), files=files)
    if tool == "laychain":
        return Run(tool, text=drawn_text(draw, drawn_chain, chain_bytes, 18, range(1, 7)), files=files)
    if tool == "laywrite":
        return Run(tool, text=drawn_text(draw, drawn_record, record_bytes, 400, [4, 5]), files=files)
    if tool == "layexpect":
        asked = [drawn(draw, 8, wild), *drawn_place(draw, wild)]
        return Run(tool, drawn_arguments(draw, asked, wild, [2, 3]), files=files)
    if tool == "layone":
        return drawn_question(draw, wild)
    return Run(tool, files=files)


def drawn_question(draw, wild):
    """A question as search.py draws them, about one of the chains of a table; its allowance is about what it takes."""
    r, others = search.drawn(draw), drawn_table(draw)[: 24 * draw.randint(0, 15)]
    refusal, _, _, decided = rule.how_many(r.chain, r.wanted, r.job._replace(allowance=2000))
    ends = refusal == 0 and rule.search(r.chain, r.wanted, r.job._replace(allowance=2000), 2000)[0] != 10
    ample = draw.choice((MANY_VISITS, MANY_VISITS + 1, 2**64 - 1)) if ends and not wild else 2000
    job = r.job._replace(allowance=draw.choice((max(0, decided - 1), decided, decided + 1, ample, ample)))
    number = drawn(draw, 17, wild) if draw.random() < wild else len(others) // 24 + 1
    table, scale = others + rule.chain_bytes(r.chain), units(others) + rule.factor_bytes(r.factor)
    files = {"job.dat": rule.job_bytes(job), "chain.dat": table, "scale.dat": scale, "lay.dat": b""}
    files = as_found(draw, files) if wild else files
    return Run("layone", drawn_arguments(draw, [number, *r.wanted], wild, [2, 3]), files=files)


def drawn_arguments(draw, values, wild, lengths):
    return [word for word in drawn_words(draw, values, wild, lengths) if b"\0" not in word]


def at_random(seed):
    draw = random.Random(seed)
    for tool, many in ("layjob", 40), ("laychain", 60), ("laywrite", 100), ("layexpect", 50), ("layone", 100), ("layshow", 50):
        for _ in range(many):
            yield drawn_run(draw, tool)._replace(why=f"at random, seed {seed}")


# Runs and their outcomes, in folders


def put(folder, files):
    folder.mkdir()
    for name, content in files.items():
        (folder / name).write_bytes(content)


def as_text(refusal):
    """A refusal as `saying` has it: `told`, line and number; the sentence in hexadecimal, or `-` if it may be any; then each word at
    fault, with its bytes in hexadecimal, or `-` if it is missing."""
    faults = (f"{at}:{'-' if word is None else word.hex()}" for at, word in refusal.faults.items())
    return " ".join(("told", str(refusal.line), str(refusal.number), refusal.sentence.encode().hex() or "-", *faults))


def write(folder, runs):
    for at, run in enumerate(runs):
        wanted = outcome(run)
        given = {"tool": run.tool.encode(), "input": run.text, "why": run.why.encode()}
        given["arguments"] = b"".join(argument + b"\0" for argument in run.arguments)
        given["saying"] = text_of([*wanted.before, *map(as_text, wanted.refusals), *wanted.behind])
        if wanted.printed is not None:
            given["wanted"] = wanted.printed
        put(folder / f"{at:04}_{run.tool}", given)
        put(folder / f"{at:04}_{run.tool}" / "files", run.files)
        put(folder / f"{at:04}_{run.tool}" / "after", wanted.files)


def content(folder):
    """The bytes of a folder's files by name; None for what is not a file."""
    return {path.name: path.read_bytes() if path.is_file() else None for path in folder.iterdir()}


def compared(what, came, wanted):
    """A pair for each line that is compared, and one if there are too many or too few: what is compared, whether it is right."""
    came, wanted = came.split(b"\n"), wanted.split(b"\n")
    if len(came) != len(wanted):
        yield f"{what}: {len(came) - 1} lines, not {len(wanted) - 1}", False
    for at, (one, other) in enumerate(zip(came, wanted), 1):
        yield f"{what}, line {at}: {one[:200]!r}, not {other[:200]!r}", one == other


def helped(tool, printed):
    """Help is some lines of text that have the name of the tool and of each of its files."""
    named = [tool, *FILES[tool]]
    yield f"help: {printed[:200]!r}", re.fullmatch(rb"([ -~]*\n)+", printed) and all(name.encode() in printed for name in named)


def said_as(tool, said, saying):
    """The lines of standard error; one that tells a refusal as it must is given as `saying` has it."""
    for one, wanted in zip_longest(said.split(b"\n"), saying.split(b"\n")):
        if one is not None:
            yield wanted if wanted is not None and tells(tool, one, wanted) else one


ANY = rb"[!-~][ -~]*"


def tells(tool, one, wanted):
    """That a line tells the refusal `wanted`, which is as `as_text` has it."""
    first, line, number, sentence, *faults = wanted.split(b" ") if wanted.startswith(b"told ") else [b""] * 4
    head = b"%s: %sREFUSED %s: " % (tool.encode(), b"" if line == b"0" else b"line %s " % line, number)
    if not first or not one.startswith(head):
        return False
    rest, known = one[len(head) :], sentence != b"-"
    ending = re.escape(bytes.fromhex(sentence.decode())) if known else ANY
    if faults:
        return any(names(rest, ending, *fault.split(b":")) for fault in faults)
    return re.fullmatch(ending if known else rb"(word [0-9]+, `.*`: )?" + ANY, rest, re.DOTALL)


def names(rest, ending, at, word):
    """That what is said begins with this word, with the whole of it, if it has 40 bytes at most and all of them can be read; and how
    it ends."""
    if word in (b"-", b"") and re.fullmatch(rb"word %s is missing: %s" % (at, ending), rest):
        return True
    text = b"" if word == b"-" else bytes.fromhex(word.decode())
    whole = re.escape(text) if re.fullmatch(rb"[ -~]{0,40}", text) else rb".*"
    return word != b"-" and re.fullmatch(rb"word %s, `%s`: %s" % (at, whole, ending), rest, re.DOTALL)


def checks(folder):
    """What is compared for a run: pairs of words that describe it and whether it is right."""
    run = content(folder)
    tool = run["tool"].decode()
    yield f"status {run['status'].decode().strip()}", run["status"] == b"0\n"
    yield from compared("printed", run["printed"], run["wanted"]) if "wanted" in run else helped(tool, run["printed"])
    yield from compared("said", b"\n".join(said_as(tool, run["said"], run["saying"])), run["saying"])
    files, wanted = content(folder / "files"), content(folder / "after")
    yield f"the files {sorted(files)}, not {sorted(wanted)}", files.keys() == wanted.keys()
    for name in files.keys() & wanted.keys():
        yield f"{name} is not as it must be", files[name] == wanted[name]


def judge(folder):
    """Prints how many things were compared; or stops with what is wrong in the first runs that are not as they must be."""
    passed, failed = 0, []
    for run in sorted(folder.iterdir()):
        results = list(checks(run))
        passed += len(results)
        wrong = [what for what, so in results if not so]
        if wrong:
            why = (run / "why").read_text()
            given = (run / "arguments").read_bytes()[:100].split(b"\0")[:-1]
            failed.append("\n    ".join([f"{run.name} ({why}), arguments {given}", *wrong[:4]]))
    if failed:
        sys.exit("\n".join([*failed[:40], f"{len(failed)} runs are not as they must be"]))
    print(passed)


def main(verb, *rest):
    folder = Path(rest[-1])
    if verb == "judge":
        judge(folder)
    else:
        write(folder, cases() if verb == "cases" else at_random(rest[0]))


if __name__ == "__main__":
    main(*sys.argv[1:])
