#!/usr/bin/env python3
"""Runs the desk's tools while things go wrong beside them, and looks at what they leave.

    desk.py faults FOLDER FAULTS LOADER...     killed, out of space or failing at each of their calls (faults.c)
    desk.py writers FOLDER FAULTS LOADER...    others that write the same file at the same time
    desk.py readers FOLDER FAULTS LOADER...    others that read a table and its side file while these are written
    desk.py keyboard FOLDER FAULTS LOADER...   text that comes slowly, by a pipe or typed at a terminal
    desk.py search FOLDER FAULTS LOADER...     a search that does not end

FOLDER is empty, FAULTS the library that faults.c makes, LOADER the command that runs a program. Prints how many checks held, or ends
with those that did not. What a run must come to is the model's word (tools.py).
"""
import fcntl
import os
import pty
import random
import re
import select
import signal
import subprocess
import sys
import termios
import threading
import time
from itertools import count
from pathlib import Path
from typing import NamedTuple

# Without this the modules beside this one would leave compiled files in the tree.
sys.dont_write_bytecode = True
import rule
import tools
from tools import CHAIN, OUTER, RECORDS, THREE, Run

PROGRAMS = Path(__file__).resolve().parent.parent / "target" / "bin"
SCRIPTS = Path(__file__).resolve().parent.parent / "bin"
# So many seconds may a program take, however busy the machine is, and so many until it says what it has to say.
PATIENCE, SOON = 60, 15

# The mode of the files that are there before a run: not what the umask leaves.
MODE = 0o640

passed, failed = 0, []


def check(words, holds):
    global passed
    if holds:
        passed += 1
    else:
        failed.append(f"failed: {words}")


def end():
    if failed:
        sys.exit("\n".join([*failed[:40], f"{len(failed)} checks failed, {passed} passed"]))
    print(passed)


# Running


class Ended(NamedTuple):
    """How a run ended: its status (below zero if it was killed), what it printed and said, and its calls if they were traced."""

    status: int
    printed: bytes
    said: bytes
    calls: list


class Desk:
    """A folder to work in, and beside it the files of a run: what it is given, prints and says, and its calls."""

    def __init__(self, folder, faults, *loader):
        self.base, self.work = Path(folder).resolve(), Path(folder).resolve() / "work"
        self.loader = [*loader, "--preload", faults]
        self.numbers = count()
        self.work.mkdir()

    def put(self, files):
        """Makes the folder anew, with these files."""
        for path in self.work.iterdir():
            path.unlink()
        for name, content in files.items():
            (self.work / name).write_bytes(content)
            (self.work / name).chmod(MODE)

    def files(self):
        return tools.content(self.work)

    def mode(self, name):
        return (self.work / name).stat().st_mode & 0o7777

    def start(self, run, stdin=None, **faults):
        """Starts a run with these faults (`at`, `do`, `awake`; see faults.c). Its input is the run's text unless `stdin` is given."""
        number = next(self.numbers)
        paths = {name: self.base / f"{number}.{name}" for name in ("input", "printed", "said", "calls")}
        paths["input"].write_bytes(run.text)
        given = {f"FAULTS_{name.upper()}": str(value) for name, value in faults.items()}
        with open(paths["input"]) as text, open(paths["printed"], "wb") as printed, open(paths["said"], "wb") as said:
            process = subprocess.Popen(
                [*self.loader, PROGRAMS / run.tool, *run.arguments],
                stdin=text if stdin is None else stdin,
                stdout=printed,
                stderr=said,
                cwd=self.work,
                env={**os.environ, **given, "FAULTS_TRACE": str(paths["calls"])},
            )
        process.paths = paths
        return process

    def ended(self, process):
        """Waits for the end of a run; one that hangs is killed, and counts as if it had been."""
        try:
            process.wait(PATIENCE)
        except subprocess.TimeoutExpired:
            process.kill()
            process.wait()
        calls = process.paths["calls"]
        came = Ended(
            process.returncode,
            process.paths["printed"].read_bytes(),
            process.paths["said"].read_bytes(),
            calls.read_text().splitlines() if calls.exists() else [],
        )
        for path in process.paths.values():
            path.unlink(missing_ok=True)
        return came

    def run(self, run, **faults):
        return self.ended(self.start(run, **faults))


def wants(run, files):
    """What the run must come to with these files."""
    return tools.outcome(run._replace(files=files))


def files_of(run):
    """The files that a run writes, in the order in which their fresh ones are made."""
    return tools.FILES[run.tool]


def file_of(run):
    return files_of(run)[0]


def fresh_of(run):
    return [f"{name}.new" for name in files_of(run)]


def without(files, *names):
    return {name: content for name, content in files.items() if name not in names}


def waiting(run, name=None):
    """What is said where the fresh file is there: once while it is waited for, and then."""
    tool, name = run.tool, name or file_of(run)
    return (
        f"{tool}: note: {name}.new is there: waiting for the tool that is writing {name}; if none is running, remove {name}.new\n"
        f"{tool}: {name}: {name}.new is there: another tool is writing {name}, or was stopped while it did; {name}, if it is there, is whole. "
        f"If none is running, remove {name}.new and start again\n"
    ).encode()


def waits_for(run, name, said):
    """That this is said for a fresh file of that name. Whether a side file is whole is not always so, and left open."""
    if name == file_of(run):
        return said == waiting(run)
    note, reason = waiting(run, name).splitlines()
    start, end = reason.split(f"; {name}, if it is there, is whole. ".encode())
    told = said.splitlines()
    return len(told) == 2 and told[0] == note and told[1].startswith(start) and told[1].endswith(end)


def is_said(run, said):
    """That each line is a note, or names the tool and a file that the user knows, with a reason."""
    names = "|".join(map(re.escape, files_of(run)))
    line = re.compile(rf"{run.tool}: (note|{names}|chain\.dat|standard input|standard output): [^ ].*".encode())
    scratch = re.compile(rf"({names})\.(?!new\b)[A-Za-z0-9]".encode())
    return all(line.fullmatch(one) and not scratch.search(one) for one in said.splitlines())


def is_printed(wanted, printed):
    """That this is what is to be printed, or its beginning, or all but a line that could not be printed."""
    lines = wanted.splitlines(True)
    return wanted.startswith(printed) or any(printed == b"".join(lines[:at] + lines[at + 1 :]) for at in range(len(lines)))


def says_written(run, came):
    """That a run could not confirm, and said that it wrote."""
    names = "|".join(map(re.escape, files_of(run)))
    note = re.compile(rf"{run.tool}: note: .*({names}) .*written all the same".encode())
    return any(note.fullmatch(one) for one in came.said.splitlines())


def says_again(came):
    """That a run said that the side file is not there, and that it must be run again."""
    return any(b"scale.dat" in one and b"again" in one for one in came.said.splitlines())


def without_notes(run, said):
    return b"".join(one for one in said.splitlines(True) if not one.startswith(f"{run.tool}: note: ".encode()))


# Faults at every call


def records(first, many):
    """So many lines of a log, with line numbers from `first` on."""
    return tools.lines([1, 1, at, at * 7 - 5000, -at * 3] if at % 3 else [2, 0, at, at, 2 * at] for at in range(first, first + many))


def log_of(first, many):
    return b"".join(tools.record_bytes(0, line) for line in records(first, many).splitlines())


SIXTY = {**without(THREE, "job.dat"), "lay.dat": log_of(1, 60)}
# longer than the 65,536 bytes that are read at a time
LONG = {**SIXTY, "lay.dat": log_of(1, 2100)}
NEW_JOB, NEW_TABLE = tools.words([30001, 40007, 3, 5, 77]), tools.lines([OUTER + [999_641], CHAIN + [1_000_500]])
WRITES = {
    "a job": Run("layjob", NEW_JOB),
    "a job in place of another": Run("layjob", NEW_JOB, files=THREE),
    "a table": Run("laychain", text=NEW_TABLE),
    "a table in place of another": Run("laychain", text=NEW_TABLE, files=THREE),
    "a table in place of one as long": Run("laychain", text=tools.line(OUTER + [999_641]), files=THREE),
    "other factors for a table": Run("laychain", text=tools.line(CHAIN + [999_641]), files=THREE),
    "a table without a side file": Run("laychain", text=tools.line(OUTER + [999_641]), files=without(THREE, "scale.dat")),
    "a side file without a table": Run("laychain", text=tools.line(OUTER + [999_641]), files=without(THREE, "chain.dat")),
    "a log": Run("laywrite", text=records(1, 3), files=without(SIXTY, "lay.dat")),
    "a log of 60 records": Run("laywrite", text=records(61, 5), files=SIXTY),
    "a log of 2,100 records": Run("laywrite", text=records(2101, 3), files=LONG),
    "2,100 records for a log": Run("laywrite", text=records(61, 2100), files=SIXTY),
    "no record for a log": Run("laywrite", files=SIXTY),
}


def faults_of(call):
    """The faults that are tried at a call."""
    yield from ("kill", "ENOSPC", "EIO", "full")
    if call.startswith("write "):
        yield from ("torn", "half")
    if call.split()[0] in ("open", "rename", "access", "unlink", "mkstemp"):
        yield "EACCES"


def is_parted(now, old, new):
    """That of a table and its side file, None for a missing one, the second is missing and the first is the old or the new one."""
    return len(now) == 2 and now[1] is None and now[0] in (old[0], new[0])


def is_whole(what, desk, run, came, files):
    """That the files are the old ones or the new ones, with their modes, and the new ones if the run said so, or said nothing else.
    A side file may be missing, which every tool refuses; it is never there beside a table that it does not belong to."""
    names, wanted = files_of(run), wants(run, run.files)
    old, new, now = ([each.get(name) for name in names] for each in (run.files, wanted.files, files))
    check(f"{what}: {names} are neither the old ones nor the new ones", now in (old, new) or is_parted(now, old, new))
    check(f"{what}: there is {sorted(files)}", without(files, *names, *fresh_of(run)) == without(run.files, *names))
    check(f"{what}: it printed {came.printed!r}", is_printed(wanted.printed, came.printed))
    for name in files.keys() & run.files.keys() & set(names):
        check(f"{what}: {name} has the mode {desk.mode(name):o}", desk.mode(name) == MODE)
    if came.printed == wanted.printed:
        check(f"{what}: it is confirmed, and not written", now == new)
    if came.status < 0:
        return
    said = without_notes(run, came.said)
    check(f"{what}: a fresh file is left: {sorted(files)}", not files.keys() & set(fresh_of(run)))
    check(f"{what}: it ended with {came.status}", came.status == 0)
    check(f"{what}: it said {came.said!r}", is_said(run, came.said))
    if not said:
        check(f"{what}: not a word, and not written", now == new)
        check(f"{what}: not a word, and not confirmed", came.printed == wanted.printed)
    elif old != new:
        check(f"{what}: of {names} it said {came.said!r}", says_written(run, came) == (now == new))
        check(f"{what}: without a side file it said {came.said!r}", now in (old, new) or says_again(came))


def goes_on(what, desk, run, files):
    """What the next run does. A fresh file that was left behind keeps it from writing, until that is removed."""
    for name in files_of(run):
        if f"{name}.new" not in files:
            continue
        came = desk.run(run, awake=1)
        check(f"{what}: the next run said {came.said!r}", waits_for(run, name, came.said) and came.printed == b"")
        check(f"{what}: the next run changed something", desk.files() == files)
        (desk.work / f"{name}.new").unlink(missing_ok=True)
        files = without(files, f"{name}.new")
    came, wanted = desk.run(run), wants(run, files)
    check(f"{what}: then the next run said {came.said!r}", came.said == b"" and came.printed == wanted.printed)
    check(f"{what}: then the next run left something else", desk.files() == wanted.files)


READS = {
    "a folder shown": Run("layshow", files={**LONG, "job.dat": THREE["job.dat"]}),
    "readings": Run("layexpect", tools.words([1, 30000, 40000]), files=THREE),
    "a question": Run("layone", tools.words([1, -10000, -20000]), files=THREE),
    "a listing": Run("laylist", files={**LONG, "job.dat": THREE["job.dat"]}),
}


def in_pieces(desk):
    """A file or an input that comes in pieces is read to its end."""
    for name, run in {**WRITES, **READS}.items():
        desk.put(run.files)
        whole, files = desk.run(run), desk.files()
        desk.put(run.files)
        came = desk.run(run, at=1, do="few")
        check(f"{name}: {whole.printed[:200]!r}, {whole.said!r}", whole.printed and not whole.said)
        check(f"{name}, in pieces: {came.printed[:200]!r}, {came.said!r}", came[:3] == whole[:3] and desk.files() == files)


def unread(desk):
    """A tool that reads says why it cannot, by the name of the file; what it does not say so of, it prints whole."""
    for name, run in READS.items():
        desk.put(run.files)
        whole = desk.run(run)
        line = re.compile(rf"{run.tool}: ((job|chain|scale|lay)\.dat|standard output): [^ ].*\n".encode())
        for at, call in enumerate(whole.calls, 1):
            for fault in "EIO", "EACCES", "full", "half":
                came = desk.run(run, at=at, do=fault)
                what = f"{name}, {fault} at call {at}, {call}: {came.said!r}"
                check(what, came.printed == whole.printed if came.said == b"" else line.fullmatch(came.said))
                check(what, came.status == 0 and desk.files() == run.files)


def faults(desk):
    in_pieces(desk)
    unread(desk)
    for name, run in WRITES.items():
        desk.put(run.files)
        whole, wanted = desk.run(run), wants(run, run.files)
        check(f"{name}: {whole.said!r}", whole.said == b"" and whole.printed == wanted.printed and desk.files() == wanted.files)
        check(f"{name}: {whole.calls}", is_stored(run, whole.calls) or wanted.files == run.files)
        for at, call in enumerate(whole.calls, 1):
            for fault in faults_of(call):
                faulty(f"{name}, {fault} at call {at}, {call}", desk, run, at, fault)


def without_scratch(desk, came):
    """The files, but for laywrite's scratch file. That has a name until it is unlinked: who is killed or fails just then leaves it,
    empty, and harms nothing."""
    last = [call.split()[1] for call in came.calls if call.startswith("unlink ")][-1:]
    for name, content in desk.files().items():
        if name in last and content == b"":
            (desk.work / name).unlink()
    return desk.files()


def is_stored(run, calls):
    """That every fresh file is stored, after the last write, before the first file is removed or replaced; that a side file, if
    there is one, is removed first, then the fresh files get their names, and then the folder is stored."""
    steps = [f"unlink {name}" for name in files_of(run)[1:] if name in run.files] + [f"rename {name}" for name in fresh_of(run)]
    at = [calls.index(step) for step in steps if step in calls]
    if len(at) < len(steps) or at != sorted(at):
        return False
    before = [call.split()[0] for call in reversed(calls[: at[0]])]
    stored = "fsync" in before[: before.index("write")] and before.count("fsync") >= len(fresh_of(run))
    return stored and "fsync" in " ".join(calls[at[-1] :]).partition("open .")[2]


def faulty(what, desk, run, at, fault):
    desk.put(run.files)
    came = desk.run(run, at=at, do=fault)
    files = without_scratch(desk, came)
    is_whole(what, desk, run, came, files)
    if fault in ("kill", "torn"):
        check(f"{what}: it was not killed, but ended with {came.status}", came.status == -signal.SIGKILL)
        goes_on(what, desk, run, files)
    if fault == "half":
        check(f"{what}: a write of half the bytes is not gone on with", came.said == b"" and came.printed)


# Several writers


def until_stopped(process):
    """Waits until a process is stopped or has ended, and returns whether it is stopped."""
    _, status = os.waitpid(process.pid, os.WUNTRACED)
    if os.WIFSTOPPED(status):
        return True
    process.returncode = os.waitstatus_to_exitcode(status)
    return False


class Pair(NamedTuple):
    """Two runs for one file: A is stopped at one of its calls, and meanwhile B runs to its end."""

    a: Run
    b: Run


SIXTY_MORE = Run("laywrite", text=records(2001, 60))
PAIRS = {
    "two jobs": Pair(Run("layjob", NEW_JOB, files=THREE), Run("layjob", tools.words([7, 8, 9, 10, 11]))),
    "two tables": Pair(Run("laychain", text=NEW_TABLE, files=THREE), Run("laychain", text=tools.lines([OUTER + [1_000_999]] * 3))),
    "two new logs": Pair(Run("laywrite", text=records(1001, 3), files=without(SIXTY, "lay.dat")), SIXTY_MORE),
    "two logs of 60 records": Pair(Run("laywrite", text=records(1001, 5), files=SIXTY), SIXTY_MORE),
}


def is_confirmed(came):
    """That a run said on standard output that it wrote."""
    return b" written, " in came.printed


def is_written(run, came):
    """That a run confirmed, or could not, and said that it wrote."""
    return is_confirmed(came) or says_written(run, came)


def orders(runs):
    return [[]] if not runs else [[one, *rest] for one in runs for rest in orders([run for run in runs if run is not one])]


def after(files, runs):
    """The files after these runs, one after the other."""
    for run in runs:
        files = wants(run, files).files
    return files


def all_kept(what, desk, start, *runs):
    """That the files are those after every run that wrote, in some order, and after no other. `runs` are pairs of run and end."""
    written, files = [run for run, came in runs if is_written(run, came)], desk.files()
    check(f"{what}: not what the confirmed runs wrote", any(files == after(start, order) for order in orders(written)))
    for run, came in runs:
        check(f"{what}: it ended with {came.status}, and said {came.said!r}", came.status == 0 and is_said(run, came.said))
        silent = not without_notes(run, came.said)
        check(f"{what}: it printed {came.printed!r} and said {came.said!r}", silent == is_confirmed(came))


def calls_of(desk, run):
    """The calls of a run, and between which two of them, from 1, a fresh file is there: from the first of them up to the last."""
    desk.put(run.files)
    calls, fresh = desk.run(run).calls, fresh_of(run)
    made = [at for at, call in enumerate(calls, 1) if call == f"open {fresh[0]}"]
    gone = [at for at, call in enumerate(calls, 1) if call == f"rename {fresh[-1]}"]
    check(f"{run.tool} makes {fresh} and renames them: {calls}", made and gone)
    return calls, range(made[-1] + 1, gone[-1] + 1) if made and gone else range(0)


def resumed(desk, process):
    os.kill(process.pid, signal.SIGCONT)
    return desk.ended(process)


def stopped(desk):
    """A is stopped at each of its calls while B runs."""
    for name, (a, b) in PAIRS.items():
        calls, _ = calls_of(desk, a)
        for at, call in enumerate(calls, 1):
            desk.put(a.files)
            process = desk.start(a, at=at, do="stop")
            until_stopped(process)
            came = desk.run(b, awake=1)
            all_kept(f"{name}, A stopped at call {at}, {call}", desk, a.files, (a, resumed(desk, process)), (b, came))


def removed(desk):
    """The same while A's fresh files are there, which somebody removes. Who is stopped just before it removes a side file then
    removes that of B: it says so, and no tool takes the table alone."""
    for name, (a, b) in PAIRS.items():
        calls, there = calls_of(desk, a)
        for at in there:
            desk.put(a.files)
            process = desk.start(a, at=at, do="stop")
            until_stopped(process)
            for fresh in fresh_of(a):
                (desk.work / fresh).unlink(missing_ok=True)
            came = desk.run(b)
            what = f"{name}, A's fresh files removed at call {at}, {calls[at - 1]}"
            check(f"{what}: B said {came.said!r}", is_confirmed(came))
            ended, left = resumed(desk, process), desk.files()
            if calls[at - 1] == "unlink scale.dat" and "scale.dat" not in left:
                table = without(wants(b, a.files).files, "scale.dat")
                check(f"{what}: A said {ended.said!r}, and left {sorted(left)}", says_again(ended) and left == table)
            else:
                all_kept(what, desk, a.files, (a, ended), (b, came))


def replaced(desk):
    """The same, and C, which has made its own fresh file, is stopped too: A must leave that alone. Between A's last look at it and
    its renaming nothing can help."""
    a, c = PAIRS["two logs of 60 records"]
    calls, there = calls_of(desk, a)
    _, own = calls_of(desk, c._replace(files=a.files))
    looks = [at for at in there[:-1] if calls[at - 1].endswith("stat lay.dat.new")]
    sentence = b"laywrite: lay.dat: lay.dat.new was removed or replaced, or cannot be looked at; nothing is written\n"
    check(f"A looks at its fresh file: {calls}", looks)
    for at in range(there.start, max(looks, default=0) + 1):
        desk.put(a.files)
        process, fresh = desk.start(a, at=at, do="stop"), desk.work / "lay.dat.new"
        until_stopped(process)
        fresh.unlink(missing_ok=True)
        other = desk.start(c, at=own[0], do="stop")
        until_stopped(other)
        came = resumed(desk, process)
        what = f"A's fresh file replaced at call {at}, {calls[at - 1]}"
        check(f"{what}: A removed another's", fresh.exists())
        check(f"{what}: A said {came.said!r}", came.said == sentence)
        all_kept(what, desk, a.files, (a, came), (c, resumed(desk, other)))


def cut_short(desk):
    """Somebody cuts the log while A copies it: A says so, or has copied all of it before."""
    a, sentence = WRITES["a log of 2,100 records"], b"laywrite: lay.dat: it was changed while it was copied; nothing is written\n"
    calls, there = calls_of(desk, a)
    said = []
    for at in (at for at in there if calls[at - 1].startswith("read ")):
        desk.put(a.files)
        process = desk.start(a, at=at, do="stop")
        until_stopped(process)
        os.truncate(desk.work / "lay.dat", 32 * 60)
        came, log = resumed(desk, process), desk.files()["lay.dat"]
        said.append(came.said)
        what = f"a log cut at A's call {at}, {calls[at - 1]}: A said {came.said!r}"
        whole = wants(a, a.files).files["lay.dat"]
        check(what, log == whole if is_confirmed(came) else came.said == sentence and log == whole[: 32 * 60])
    check(f"a log that is cut is noticed: {said}", sentence in said)


def held_open(desk):
    """A waits for its input, B appends 60 records and ends; then A meets a full disk, at any of its calls."""
    a, b = PAIRS["two logs of 60 records"]
    calls, _ = calls_of(desk, a)
    for at, call in enumerate(calls, 1):
        desk.put(a.files)
        reading, writing = os.pipe()
        process = desk.start(a, stdin=reading, at=at, do="full")
        os.close(reading)
        until_reading(process)
        came = desk.run(b)
        ended_with(writing, a.text)
        what = f"A open while B writes, and the disk full from A's call {at}, {call}"
        check(f"{what}: B said {came.said!r}", is_confirmed(came))
        all_kept(what, desk, a.files, (a, desk.ended(process)), (b, came))


def until_reading(process):
    """Waits until a process waits for its standard input, or has ended."""
    calls, limit = process.paths["calls"], time.monotonic() + PATIENCE
    while process.poll() is None and time.monotonic() < limit:
        if calls.exists() and calls.read_text().endswith("read 0\n"):
            return
        time.sleep(0.002)


def ended_with(writing, text):
    """Gives the last of its input to a process, which may be gone already."""
    try:
        os.write(writing, text)
    except BrokenPipeError:
        pass
    os.close(writing)


def until_said(process):
    """Waits until a process has said a line, or has ended, and returns what it said."""
    said, limit = process.paths["said"], time.monotonic() + PATIENCE
    while process.poll() is None and time.monotonic() < limit and not said.read_bytes().endswith(b"\n"):
        time.sleep(0.002)
    return said.read_bytes()


def waits(desk):
    """A run waits for a fresh file of another's to go, and says so once. If it does not go, it is tried 50 times, and 600 times by
    one that has read its input."""
    locked = by_script(desk)
    for name, (_, run) in PAIRS.items():
        files = dict(SIXTY, **{"job.dat": THREE["job.dat"]})
        fresh = desk.work / f"{file_of(run)}.new"
        desk.put(files)
        fresh.touch()
        process = desk.start(run)
        said = until_said(process)
        fresh.unlink(missing_ok=True)
        came, note = desk.ended(process), waiting(run).splitlines(True)[0]
        check(f"{name}: while it waits, it says {said!r}", said == note)
        check(f"{name}: at the end it has said {came.said!r}", came.said == note and is_confirmed(came))
        check(f"{name}: it has written", desk.files() == wants(run, files).files)
        gives_up(f"{name}, a fresh file from the start", desk, run, files, (50,), True)
        if run.tool != "layjob":
            gives_up(f"{name}, a fresh file at the end", desk, run, files, (600,), False)
    gives_up("a dangling link as the fresh file", desk, run, files, (50,), True, lambda path: path.symlink_to("nowhere"))
    # when a side file is first looked for, is left open
    for tries, at_start in ((50, 600), True), ((600,), False):
        gives_up("a fresh side file", desk, PAIRS["two tables"].b, files, tries, at_start, name="scale.dat")
    printed, said = locked.communicate(timeout=PATIENCE)
    check(f"bin/layjob with a fresh file there: {said!r}", said == waiting(Run("layjob")) and printed == b"")
    check(f"bin/layjob with a fresh file there ended with {locked.returncode}", locked.returncode == 1)


def by_script(desk):
    """bin/layjob in a folder with a fresh file: it waits five seconds, while other things are tried."""
    folder = desk.base / "locked"
    folder.mkdir()
    (folder / "job.dat.new").touch()
    command = [SCRIPTS / "layjob", "30000", "40000", "1", "0"]
    return subprocess.Popen(command, stdin=subprocess.DEVNULL, stdout=subprocess.PIPE, stderr=subprocess.PIPE, cwd=folder)


def gives_up(what, desk, run, files, tries, at_start, make=Path.touch, name=None):
    """That a run tries so often, or one of these, 100 ms after each other, and then leaves everything as it was."""
    name = name or file_of(run)
    fresh = desk.work / f"{name}.new"
    desk.put(files)
    if at_start:
        make(fresh)
    reading, writing = os.pipe()
    process = desk.start(run, stdin=reading, awake=1)
    os.close(reading)
    until_reading(process)
    if not at_start:
        make(fresh)
    ended_with(writing, run.text)
    came = desk.ended(process)
    slept = [call for call in came.calls if call.startswith("nanosleep ")]
    often = any(many - 1 <= len(slept) <= many for many in tries)
    check(f"{what}: {len(slept)} times {set(slept)}", set(slept) == {"nanosleep 100000000"} and often)
    check(f"{what}: it said {came.said!r}", waits_for(run, name, came.said) and came.printed == b"")
    check(f"{what}: it left {sorted(desk.files())}", without(desk.files(), fresh.name) == files and not desk.files()[fresh.name])


WRITERS, TURNS = 8, 20


def together(desk):
    """Eight writers, twenty runs each, while layshow looks on. The log has the runs that were confirmed, each as a whole and once, and
    each said how many records there were then; and whenever layshow looked, it had whole runs."""
    desk.put(without(THREE, "lay.dat"))
    came, seen = [], []
    writers = [threading.Thread(target=writes, args=(desk, writer, came)) for writer in range(WRITERS)]
    for thread in writers:
        thread.start()
    while any(thread.is_alive() for thread in writers):
        seen.append(desk.run(Run("layshow")).printed.count(b"LOG "))
    ends, log = {0}, desk.files().get("lay.dat", b"")
    named = {wants(run, {}).files["lay.dat"]: ended for run, ended in came if is_confirmed(ended)}
    while log[32 * max(ends) :] and (found := [s for s in named if log.startswith(s, 32 * max(ends))]):
        many = len(found[0]) // 32
        ends.add(max(ends) + many)
        came_of = named.pop(found[0])
        check(f"a run said {came_of.printed!r}", came_of.printed == tools.written("lay.dat", "record", many, max(ends)))
    check(f"the log has {len(log) // 32} records, but whole runs end at {max(ends)}", 32 * max(ends) == len(log))
    check(f"{len(named)} confirmed runs are not in the log", not named)
    check(f"layshow saw {set(seen) - ends}", set(seen) <= ends)
    for run, ended in came:
        silent = not without_notes(run, ended.said)
        lines = waiting(run).splitlines()
        check(f"a writer said {ended.said!r}", silent == is_confirmed(ended) and set(ended.said.splitlines()) <= set(lines))
    check(f"{len(ends) - 1} runs wrote", len(ends) > WRITERS * TURNS / 2)


def writes(desk, writer, came):
    draw = random.Random(writer)
    for turn in range(TURNS):
        run = Run("laywrite", text=records(100_000 * writer + 100 * turn + 1, draw.randint(1, 60)))
        came.append((run, desk.run(run)))


def writers(desk):
    for test in stopped, removed, replaced, cut_short, held_open, waits, together:
        test(desk)


# Readers beside a table that is written

# Two tables as long as each other, stations and factor. What is asked about a place has another answer by each, and by the table of
# one with the factor of the other.
BEFORE = [5_000_000, 5_000_000, 12_000_000, 5_000_000, 5_000_000, 12_000_000], 999_641
AFTER = [5_000_003, 5_000_001, 12_000_000, 5_000_002, 4_999_998, 12_000_000], 999_643
PLACE, WINDOW = (8_000_000, 9_000_000), rule.Job((7_999_000, 8_999_000), 11, 0, 10**6)
SEEN = rule.readings(rule.chain_of(*BEFORE), PLACE)
READERS = (
    Run("layshow"),
    Run("layexpect", tools.words([1, *PLACE])),
    Run("layone", tools.words([1, *SEEN])),
    Run("laylist"),
)


def folder_with(stations, *factor):
    """The files with this table and its factor; without one the side file is missing."""
    table = {"job.dat": rule.job_bytes(WINDOW), "chain.dat": tools.table_of([stations])}
    log = {"lay.dat": tools.record_bytes(0, tools.line([1, 1, 1, *SEEN])[:-1])}
    return table | log | ({"scale.dat": tools.scale_of(*factor)} if factor else {})


def table_text(stations, factor):
    return tools.line([*stations, factor])


def answer_of(run, files):
    """What a reader prints and says of these files."""
    names = tools.FILES["layshow"]
    if run.tool == "laylist":
        listing = tools.text_of(line for line, _ in rule.listing(*(files.get(name, b"") for name in names)))
        return listing, tools.text_of(tools.missing(run.tool, run._replace(files=files), names))
    wanted = wants(run, files)
    refusals = [f"{run.tool}: REFUSED {each.number}: {each.sentence}" for each in wanted.refusals]
    return wanted.printed, tools.text_of([*wanted.before, *refusals])


def overtaken(desk):
    """A reader is stopped at each of its calls while the table is replaced. It prints what one of the two tables gives, or says
    that the table was changed and prints nothing."""
    write = Run("laychain", text=table_text(*AFTER))
    for run in READERS:
        old, new = (answer_of(run, folder_with(*each)) for each in (BEFORE, AFTER))
        mixed = [answer_of(run, folder_with(one[0], other[1])) for one, other in ((BEFORE, AFTER), (AFTER, BEFORE))]
        changed = b"", f"{run.tool}: chain.dat: this file was changed while it was read; try again\n".encode()
        check(f"{run.tool}: a mixed pair gives another answer", len({old, new, *mixed}) == 4)
        desk.put(folder_with(*BEFORE))
        calls, answers = desk.run(run).calls, []
        for at, call in enumerate(calls, 1):
            desk.put(folder_with(*BEFORE))
            process = desk.start(run, at=at, do="stop")
            until_stopped(process)
            came, ended = desk.run(write), resumed(desk, process)
            what = f"{run.tool}, the table replaced at call {at}, {call}"
            answers.append((ended.printed, ended.said))
            check(f"{what}: {came.said!r}", is_confirmed(came))
            check(f"{what}: {answers[-1]}", answers[-1] in (old, new, changed) and ended.status == 0)
        check(f"{run.tool} before, while and after the table is replaced: {answers}", {old, new, changed} <= set(answers))


def beside_a_writer(desk):
    """Readers while laychain is stopped at each of its calls: they take the old pair, or the new one, or refuse a table alone."""
    write, came = Run("laychain", text=table_text(*AFTER), files=folder_with(*BEFORE)), []
    calls, _ = calls_of(desk, write)
    old, new = ([folder_with(*each)[name] for name in files_of(write)] for each in (BEFORE, AFTER))
    for at, call in enumerate(calls, 1):
        desk.put(write.files)
        process = desk.start(write, at=at, do="stop")
        until_stopped(process)
        files = without(desk.files(), *fresh_of(write))
        now = [files.get(name) for name in files_of(write)]
        what = f"laychain stopped at call {at}, {call}"
        check(f"{what}: not the old pair, nor the new one", now in (old, new) or is_parted(now, old, new))
        for run in READERS:
            ended = desk.run(run)
            check(f"{what}: {run.tool} {ended.printed!r}, {ended.said!r}", (ended.printed, ended.said) == answer_of(run, files))
        came.append(now)
        check(f"{what}: it goes on", is_confirmed(resumed(desk, process)) and desk.files() == folder_with(*AFTER))
    alone = [[table, None] in came for table, _ in (old, new)]
    check("the side file is missing for a while, beside the old table and the new one", all(alone))


def shifted(turn):
    """A table of its own for each turn: its factor follows from its first easting."""
    (easting, *others), _ = BEFORE
    return [easting + turn, *others], 999_000 + turn


def replaces(desk, turns, came):
    for turn in turns:
        came.append(desk.run(Run("laychain", text=table_text(*shifted(turn)))))


def is_own(look):
    """That layshow showed a table of `shifted` with its own factor, or without any, or said that it was changed."""
    found = re.search(rb"CHAIN 1 (\d+)( \d+){5}(?: (\d+))?\n(SCALE REFUSED 1\n)?", look.printed)
    if not look.printed:
        return b"try again" in look.said
    if not found or not found[3]:
        return bool(found and found[4])
    return int(found[3]) - 999_000 == int(found[1]) - BEFORE[0][0] and not found[4]


def looking_on(desk):
    """layshow, while two others write tables: it shows a table with its own factor, or without any."""
    desk.put(folder_with(*shifted(0)))
    came, seen = [], []
    writers = [threading.Thread(target=replaces, args=(desk, range(first, 60, 2), came)) for first in (1, 2)]
    for thread in writers:
        thread.start()
    while any(thread.is_alive() for thread in writers):
        seen.append(desk.run(Run("layshow")))
    wrong = [(each.printed, each.said) for each in seen if not is_own(each)]
    check(f"of {len(seen)} looks layshow saw {wrong}", len(seen) > 10 and not wrong)
    unwritten = [each.said for each in came if not is_confirmed(each)]
    check(f"of {len(came)} runs these wrote nothing: {unwritten}", len(came) == 59 and not unwritten)
    left = desk.files()
    check("the pair that is left is one of theirs", any(left == folder_with(*shifted(turn)) for turn in range(1, 60)))


def readers(desk):
    for test in overtaken, beside_a_writer, looking_on:
        test(desk)


# Text that comes slowly


class Typing:
    """A tool with its standard input at a terminal of its own, or at a pipe, to be typed to."""

    def __init__(self, desk, command, terminal):
        self.said, self.terminal = b"", terminal
        reading, self.into = reversed(pty.openpty()) if terminal else os.pipe()
        self.process = subprocess.Popen(
            command,
            stdin=reading,
            stdout=subprocess.PIPE,
            stderr=subprocess.PIPE,
            cwd=desk.work,
            start_new_session=True,
            preexec_fn=Typing.at_terminal if terminal else None,
        )
        os.close(reading)

    @staticmethod
    def at_terminal():
        """The terminal is the tool's own, and Ctrl-C ends the tool, also if the tests run where that is ignored."""
        fcntl.ioctl(0, termios.TIOCSCTTY, 0)
        signal.signal(signal.SIGINT, signal.SIG_DFL)

    def type(self, text):
        os.write(self.into, text)

    def hears(self, text):
        """That it says this, before anything else is typed."""
        limit = time.monotonic() + SOON
        while text not in self.said and time.monotonic() < limit:
            if select.select([self.process.stderr], [], [], 0.1)[0]:
                more = os.read(self.process.stderr.fileno(), 65536)
                if not more:
                    break
                self.said += more
        return text in self.said

    def end(self):
        """Ends the input, and gives what the tool printed and said, and its status."""
        if self.terminal:
            self.type(b"\x04")
        else:
            os.close(self.into)
        return self.left()

    def left(self):
        try:
            printed, said = self.process.communicate(timeout=SOON)
        except subprocess.TimeoutExpired:
            self.process.kill()
            printed, said = self.process.communicate()
        if self.terminal:
            os.close(self.into)
        return Ended(self.process.returncode, printed, self.said + said, [])


GOOD = {"laywrite": tools.line(RECORDS[0]), "laychain": tools.line(CHAIN)}


def typed_to(desk):
    """What may be typed to: a tool at a pipe or at a terminal, by itself or by bin/, with words for it."""
    for tool in GOOD:
        for terminal in False, True:
            place = "terminal" if terminal else "pipe"
            yield tool, terminal, [*desk.loader, PROGRAMS / tool], f"{tool} at a {place}"
            yield tool, terminal, [SCRIPTS / tool], f"bin/{tool} at a {place}"


def told_at_once(desk):
    """Each refused line is told before the next is typed. At the end laywrite writes the others if they were typed at a terminal."""
    for tool, terminal, command, words in typed_to(desk):
        # where one waits in vain for a word, the others would as well, and long
        if failed:
            return
        desk.put(SIXTY)
        typing = Typing(desk, command, terminal)
        typing.type(GOOD[tool])
        for line, at in (b"x\n", 2), (b"# a note\n\n1 1\n", 5), (b"1 1 1 0 0 0 0 0\n", 6):
            typing.type(line)
            told = typing.hears(f"{tool}: line {at} REFUSED 12: ".encode())
            check(f"{words}: line {at} is not told before the next is typed, but {typing.said!r}", told)
        came, kept = typing.end(), terminal and tool == "laywrite"
        wanted = wants(Run(tool, text=GOOD[tool]), SIXTY) if kept else tools.Outcome(SIXTY)
        ending = "the accepted ones are written" if kept else "nothing is written"
        last = f"{tool}: 3 lines refused (the first is line 2), 1 accepted; {ending}".encode()
        check(f"{words}: at the end it said {came.said!r}", came.said.splitlines()[3:] == [last])
        check(f"{words}: it printed {came.printed!r}", came.printed == wanted.printed)
        check(f"{words}: it left something else", desk.files() == wanted.files)
        check(f"{words}: it ended with {came.status}", came.status == (1 if command[0] == SCRIPTS / tool else 0))


# Lines, and with what each is refused at a terminal and from a pipe. A hold is refused where its record is not there.
LINES = [
    (b"1 1 1 -10000 -20000", 0, 0),
    (b"4 0 2 0 0", 2, 2),
    (b"3 0 3 0 0", 11, 0),
    (b"2 0 4 300.01 400.00", 0, 0),
    (b"3 0 5 0 0", 0, 0),
    (b"1 1 6 300.1 0", 12, 12),
    (b"# a note", 0, 0),
    (b"", 0, 0),
    (b"3 0 7 0 0", 11, 0),
    (b"3 0 8 0 0", 11, 0),
    (b"1 16 9 5 6", 0, 0),
]


def some_refused(desk):
    """Lines of which some are refused: typed, the others are written; from a pipe, nothing is."""
    for terminal in False, True:
        desk.put(SIXTY)
        typing = Typing(desk, [*desk.loader, PROGRAMS / "laywrite"], terminal)
        typing.type(b"".join(line + b"\n" for line, *_ in LINES))
        came = typing.end()
        refused = [(at, answers[not terminal]) for at, (_, *answers) in enumerate(LINES, 1) if answers[not terminal]]
        good = b"".join(line + b"\n" for line, *answers in LINES if not answers[not terminal])
        accepted = good.count(b"\n") - 2
        told = re.findall(rb"^laywrite: line (\d+) REFUSED (\d+): [^ ]", came.said, re.MULTILINE)
        words = "typed lines, some refused" if terminal else "lines of a pipe, some refused"
        check(f"{words}: {came.said!r}", [(int(at), int(number)) for at, number in told] == refused)
        ending = "the accepted ones are written" if terminal else "nothing is written"
        last = f"laywrite: {len(refused)} lines refused (the first is line 2), {accepted} accepted; {ending}".encode()
        check(f"{words}: the sum in {came.said!r}", last in came.said.splitlines())
        note = b"laywrite: note: 1 record names a chain that chain.dat does not have (line 11)"
        check(f"{words}: the note in {came.said!r}", (note in came.said.splitlines()) == terminal)
        check(f"{words}: no more than these in {came.said!r}", len(came.said.splitlines()) == len(refused) + 1 + terminal)
        wanted = wants(Run("laywrite", text=good), SIXTY) if terminal else tools.Outcome(SIXTY)
        check(f"{words}: it printed {came.printed!r}", came.printed == wanted.printed)
        check(f"{words}: it left something else", desk.files() == wanted.files)


def none_refused(desk):
    for tool, terminal, command, words in typed_to(desk):
        desk.put(SIXTY)
        typing = Typing(desk, command, terminal)
        typing.type(GOOD[tool])
        came, wanted = typing.end(), wants(Run(tool, text=GOOD[tool]), SIXTY)
        check(f"{words}: it ended with {came.status} and said {came.said!r}", came.status == 0 and came.said == b"")
        check(f"{words}: it printed {came.printed!r}", came.printed == wanted.printed)
        check(f"{words}: it left something else", desk.files() == wanted.files)


def half_a_line(desk):
    """Ctrl-D in the middle of a line, which is refused, and stops and goes on between two lines: the others are written."""
    desk.put(SIXTY)
    typing = Typing(desk, [*desk.loader, PROGRAMS / "laywrite"], True)
    typing.type(b"x\n")
    check(f"a line before a stop: {typing.said!r}", typing.hears(b"laywrite: line 1 REFUSED 12: "))
    os.kill(typing.process.pid, signal.SIGSTOP)
    os.kill(typing.process.pid, signal.SIGCONT)
    typing.type(GOOD["laywrite"] + b"3 0 9\x04")
    came, wanted = typing.end(), wants(Run("laywrite", text=GOOD["laywrite"]), SIXTY)
    last = b"laywrite: 2 lines refused (the first is line 1), 1 accepted; the accepted ones are written\n"
    check(f"half a line at a terminal: {came.said!r}", b"laywrite: line 3 REFUSED 12: " in came.said and came.said.endswith(last))
    check(f"half a line at a terminal: it printed {came.printed!r}", came.printed == wanted.printed)
    check("half a line at a terminal: it left something else", desk.files() == wanted.files)


def interrupted(desk):
    """Ctrl-C at a terminal ends a tool, and leaves nothing behind."""
    for tool, terminal, command, words in typed_to(desk):
        if not terminal or failed:
            continue
        desk.put(SIXTY)
        typing = Typing(desk, command, terminal)
        typing.type(GOOD[tool] + b"x\n")
        check(f"{words}: a refused line is not told before Ctrl-C, but {typing.said!r}", typing.hears(b"line 2 REFUSED 12"))
        typing.type(b"\x03")
        came = typing.left()
        check(f"{words}: Ctrl-C ends it with {came.status}", came.status in (-signal.SIGINT, 128 + signal.SIGINT))
        check(f"{words}: after Ctrl-C there is {sorted(desk.files())}", desk.files() == SIXTY)
        check(f"{words}: after Ctrl-C it printed {came.printed!r}", came.printed == b"")


def keyboard(desk):
    for test in told_at_once, some_refused, none_refused, half_a_line, interrupted:
        test(desk)


# A search that does not end

# With stations so close together every reading is -1, 0 or 1. Where 5 is wanted, no cell matches and every square of two cells or more
# is divided, as 5 differs by at most 2s + 4 from all: in a window of 2^24 by 2^24 that is months of visits.
CLOSE, WIDE = [0, 0, 1, 0, 0, 1], [5_000_000, 5_000_000, 12_000_000, 5_000_000, 5_000_000, 12_000_000]
FOUND = rule.readings(rule.chain_of(WIDE), (8_000_000, 9_000_000))
ENDLESS = {
    **tools.of_chains(CLOSE, WIDE),
    "lay.dat": b"".join(
        tools.record_bytes(0, tools.line(record)[:-1])
        for record in ([2, 0, 1, 30001, 40000], [1, 2, 2, *FOUND], [3, 0, 3, 0, 0], [1, 1, 4, 5, 5], [2, 0, 5, 30001, 40000])
    ),
}


def endless_job(allowance):
    return rule.job_bytes(rule.Job((0, 0), 24, 0, allowance))


def first_lines(process, many):
    """What a process prints until it has printed so many lines, or has ended, or a while is over."""
    text, limit = b"", time.monotonic() + SOON
    while text.count(b"\n") < many and time.monotonic() < limit:
        if select.select([process.stdout], [], [], 0.1)[0]:
            more = os.read(process.stdout.fileno(), 65536)
            if not more:
                break
            text += more
    return text


def listed(desk, allowance):
    """What laylist prints of this log with this allowance: up to three lines, and whether it then goes on."""
    desk.put({**ENDLESS, "job.dat": endless_job(allowance)})
    process = subprocess.Popen([*desk.loader, PROGRAMS / "laylist"], stdout=subprocess.PIPE, cwd=desk.work)
    text = first_lines(process, 3)
    goes_on = process.poll() is None
    process.kill()
    return text + process.communicate()[0], goes_on


def goes_on_after(process, seconds):
    try:
        process.wait(seconds)
    except subprocess.TimeoutExpired:
        return True
    return False


def question(desk):
    """layone, where the search does not end: it is said before that this may take minutes. If two places are met, it ends at once."""
    note = b"layone: note: job.dat allows more than 100000000 visits: the answer may take minutes\n"
    refused = b"layone: REFUSED 10: the visits that job.dat allows ended before this was decided\n"
    _, answer, _, visits = rule.how_many(rule.chain_of(CLOSE), (0, 0), rule.Job((0, 0), 24, 0, 1000))
    check(f"two places are met soon, {answer} after {visits}", answer == rule.SEVERAL_PLACES)
    for allowance in 2**64 - 1, 10**12, 10**6:
        desk.put({**ENDLESS, "job.dat": endless_job(allowance)})
        came = desk.run(Run("layone", tools.words([1, 0, 0])))
        several = b"SEVERAL %d\n" % visits, note if allowance > 10**8 else b""
        check(f"of {allowance} visits two places take {came.printed!r}, {came.said!r}", (came.printed, came.said) == several)
    came = desk.run(Run("layone", tools.words([1, 5, 5])))
    check(f"with the usual allowance it said {came.said!r}", (came.printed, came.said) == (b"", refused))
    for allowance in 2**64 - 1, 10**12:
        desk.put({**ENDLESS, "job.dat": endless_job(allowance)})
        command = [*desk.loader, PROGRAMS / "layone", "1", "5", "5"]
        process = subprocess.Popen(command, stdout=subprocess.PIPE, stderr=subprocess.STDOUT, cwd=desk.work)
        said = first_lines(process, 1)
        goes_on = goes_on_after(process, 0.3)
        process.kill()
        said += process.communicate()[0]
        check(f"while a question of {allowance} visits is not decided, there is {said!r}", goes_on and said == note)


def search(desk):
    question(desk)
    log = rule.pieces(ENDLESS["lay.dat"], 32)
    short = endless_job(10**6)
    chains = ENDLESS["chain.dat"], ENDLESS["scale.dat"]
    before = tools.text_of(line for line, _ in rule.listing(short, *chains, b"".join(log[:3])))
    for allowance in 2**64 - 1, 2**63, 10**12:
        text, goes_on = listed(desk, allowance)
        check(f"while a search of {allowance} visits runs, there is {text!r}", goes_on and text == before)
    desk.put({**ENDLESS, "job.dat": short})
    came = desk.run(Run("laylist"))
    wanted = before + b"4 REFUSED 10 1000000\n5 GRID 1 0 30001 40000 1\n"
    check(f"with the usual allowance the same log gives {came.printed!r}", came.printed == wanted and came.said == b"")


def main(verb, *rest):
    tests = {"faults": faults, "writers": writers, "readers": readers, "keyboard": keyboard, "search": search}
    tests[verb](Desk(*rest))
    end()


if __name__ == "__main__":
    main(*sys.argv[1:])
