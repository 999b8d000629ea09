#!/usr/bin/env python3
"""Lets memory, devices and threads fail under a built program, and ends it in the midst, and tells what comes of it.

    python3 tests/faults.py PROGRAM [KIND..] [--all] [--seed N]

Each command is run on examples, once without a fault, and then with one fault at a time: each growth refused (`memory`), each
call of a file or a stream failed, cut short or moving nothing (`device`), each thread refused (`thread`), the program ended at
each call (`kill`) or by a limit on the size of files (`size`), and two runs that write one file at once (`together`). Of `run` it can be
asked besides that no growth comes behind its last worker's start, where one starts (`late`, where it is named). Of all
faults a part that the seed chooses is tried, with `--all` all of them. Right is the answer without the fault, or a refusal that
names the fault and leaves every file as it was. It tells how many came out in which way, and ends with `N passed, M failed`.

The faults come from a small library, `faults/refuse.c`, that is compiled by `gcc` and loaded before the C library. Where there
is no `gcc`, or the program can't be run with such a library, nothing is tried, and that is told.
"""

import argparse
import errno
import gc
import multiprocessing
import os
import random
import resource
import shutil
import subprocess
import sys
import tempfile
from collections import Counter
from concurrent.futures import ThreadPoolExecutor
from dataclasses import dataclass, replace
from pathlib import Path

from run import EXAMPLES, TESTS, difference, shown, standing

OLD = b"what stood here before\n"

# The calls of files and streams, as the library names them.
CALLS = ("open", "read", "write", "close", "sync", "rename", "remove", "look")

ERRORS = ("EIO", "ENOSPC", "EAGAIN", "EBADF", "EINTR")

# How many of the faults are tried where not all are: one of so many.
PART = {"memory": 60, "device": 40, "thread": 4, "kill": 20, "size": 4, "together": 4, "late": 1}

# The kinds that are tried where none is named.
USUAL = [kind for kind in PART if kind != "late"]

# Examples by the names of their algorithm, plan, image and schedule.
EXAMPLE_FILES = {
    "tri": ("tri.alg", "tri-guard.plan", "tri.pgm", "tri-guard.sched"),
    "scan": ("scan.alg", "scan.plan", "scan.pgm", None),
    "slide": ("slide.alg", "slide.plan", "slide.pgm", None),
    "two": ("two.alg", "two.plan", "two.pgm", None),
    "hist": ("hist.alg", "hist.plan", "hist.pgm", None),
    "blur3": ("blur3.alg", "blur3.plan", "shapes.pgm", "blur3-tiles.sched"),
}

# Examples of which only `FEW` commands are tried.
MORE_FILES = {
    "inc": ("inc.alg", "inc.plan", "inc.pgm", None),
    "near": ("near.alg", "near.plan", "near.pgm", None),
    "tri-shift": ("tri.alg", "tri-shift.plan", "tri.pgm", "tri-shift.sched"),
    "tri-roundup": ("tri.alg", "tri-roundup.plan", "tri.pgm", "tri-roundup.sched"),
    "tri-outside": ("tri.alg", "tri-outside.plan", "tri.pgm", "tri-outside.sched"),
}

# The case of which each growth that is refused by itself, and each file that can't be opened, is always tried.
ALWAYS = "scan: plain A I out"

# What stands on standard input of the runs whose streams fail behind each byte: for the program without words, and for a copy.
GIVEN = b"P5 2 10 255\n@ABCDEFGHIJKLMNOPQRS"
ROW = b"P5\n4 1\n255\n\x0d\x14\x1e\x24"
COPY = b"pipeline copy; input in u8 [4, 1]; func out u8 (x, y) = in[x, y]; output out [4, 1];"

# What each command is given; of `A`, `P`, `I` and `S` there are files, `T` is a schedule without a word, `cut` is a plan and `bad` a
# schedule that is refused, and `out` is written.
COMMANDS = (
    "compile A S out", "check A P", "run A P I out", "run A P I out --workers 3", "run A P I out --workers 64", "replay A P I order",
    "plain A I out", "compare A I S", "compare A I S --by-first", "cost A P", "show A P", "draw A P out", "format A out",
    "crop A 0 0 1 1 out", "tiles A 8 1 .", "check A cut --explain", "check A P --explain",
    "compile A bad out --explain", "run A cut I out --explain",
    "draw A P out --order order", "run A P I out --at-most 1000000", "plain A I out --at-most 1000000", "compare A I S T",
    "check A cut", "compile A bad out", "run A cut I out",
    "run A P I out --explain", "run A P I out --workers 3 --explain", "replay A P I order --explain", "plain A I out --explain",
    "compare A I S --explain", "cost A cut --explain", "show A cut --explain", "draw A cut out --explain",
)

FEW = ("compile A S out", "check A P", "run A P I out", "run A P I out --workers 3", "replay A P I order", "plain A I out", "compare A I S")


@dataclass
class Case:
    """A command with its files, what it gives and calls without a fault, and what it gives where a text that may be empty is."""

    name: str
    words: list
    files: dict
    given: bytes = b""
    right: object = None
    counts: object = None
    short: object = None
    ended: tuple = ()


@dataclass
class Fault:
    """One fault: its kind, its name, the library's settings, whether it is always tried, and how much is printed where that is sure."""

    kind: str
    name: str
    settings: dict
    always: bool = False
    printed: object = None


@dataclass
class Given:
    """What a run gave: the status, what was printed, and the files afterwards."""

    status: object
    out: bytes
    err: bytes
    files: dict


# ---- cases ----


def cases():
    """Each command on each example, and the program without words."""
    found = []
    for name, (algorithm, plan, image, schedule) in (EXAMPLE_FILES | MORE_FILES).items():
        files = {"A": (EXAMPLES / algorithm).read_bytes(), "P": (EXAMPLES / plan).read_bytes(), "I": (EXAMPLES / image).read_bytes()}
        files |= {"S": (EXAMPLES / schedule).read_bytes() if schedule else b"", "T": b"", "order": b"0 1 0 2 " * 40, "cut": files["P"][:-5], "bad": b"none.parallel(x);"}
        for command in COMMANDS if name in EXAMPLE_FILES else FEW:
            words = command.split()
            given = {word: files[word] for word in words if word in files}
            found.append(Case(f"{name}: {command}", words, given | ({"out": OLD} if "out" in words else {})))
    return [*found, Case("no words", [], {}, GIVEN), Case("plain A - -", ["plain", "A", "-", "-"], {"A": COPY}, ROW)]


def long_cases(program):
    """Commands on a plan that is long enough to be checked in several threads: one group for each of 48 functions."""
    last = 47
    functions = ["func f0 u8 (x) = in[x] + 1u8;", *(f"func f{k} u8 (x) = f{k - 1}[x] + 1u8;" for k in range(1, last + 1))]
    text = "\n".join(["pipeline long;", "input in u8 [4];", *functions, f"output f{last} [4];", ""])
    with tempfile.TemporaryDirectory() as room:
        (Path(room) / "A").write_text(text)
        (Path(room) / "S").write_text("".join(f"f{k}.compute_root();\n" for k in range(last)))
        subprocess.run([program, "compile", "A", "S", "P"], cwd=room, check=True, capture_output=True)
        files = {"A": text.encode(), "P": (Path(room) / "P").read_bytes(), "I": ROW}
    return [Case(f"long: {command}", command.split(), files | ({"out": OLD} if "out" in command else {})) for command in ("check A P", "run A P I out")]


def run(program, case, settings=None, before=None, room=None):
    """Runs a case with the library's settings, in a folder where nothing but its files lies or in one where it ran before."""
    place = Path(room or laid(case))
    environment = {"PATH": "/usr/bin:/bin", **(settings or {})}
    try:
        done = subprocess.run([program, *case.words], cwd=place, env=environment, input=case.given, capture_output=True,
                              timeout=300, check=False, preexec_fn=before)
        given = Given(done.returncode, done.stdout, done.stderr, standing(place))
    except subprocess.TimeoutExpired as late:
        given = Given(None, late.stdout or b"", late.stderr or b"", standing(place))
    if room is None:
        ROOM["files"] = given.files
    return given


# This process's folder for runs, and what lies in it.
ROOM = {}


def laid(case):
    """This process's folder with the files of a case: laid anew where something else lies there, as after a run that wrote."""
    if ROOM.get("files") != case.files:
        if ROOM:
            shutil.rmtree(ROOM["folder"])
        ROOM["folder"] = tempfile.mkdtemp()
        lay(case, Path(ROOM["folder"]))
    return ROOM["folder"]


def lay(case, room):
    """Lays the files of a case into a folder."""
    for name, data in case.files.items():
        (room / name).write_bytes(data)


# ---- the library ----


def library_in(folder):
    """The library, compiled; None where that can't be done."""
    made = Path(folder, "refuse.so")
    words = ["gcc", "-O1", "-fPIC", "-shared", "-Wno-nonnull", "-Wl,-Bsymbolic-functions", str(TESTS / "faults" / "refuse.c"), "-o", str(made)]
    try:
        done = subprocess.run([*words, "-ldl", "-pthread"], capture_output=True, check=False)
    except OSError:
        return None
    return made if done.returncode == 0 else None


def counted(program, library, case, settings):
    """What a case gives with the library's settings, and its calls."""
    with tempfile.NamedTemporaryFile() as log:
        given = run(program, case, {"LD_PRELOAD": str(library), "REFUSE_LOG": log.name} | settings)
        lines = Path(log.name).read_text(encoding="ascii").split("\n")
    return given, {line.split()[0]: int(line.split()[1]) for line in lines if line}


def with_counts(program, library, case):
    """The case with what it gives without a fault, and its calls; None where the library was not loaded."""
    case.right = run(program, case)
    case.ended = tuple(run(program, replace(case, files=case.files | {name: b""})) for name in ("S", "bad", "order") if name in case.files)
    again, case.counts = counted(program, library, case, {})
    _, case.short = counted(program, library, case, {"REFUSE_SHORT": "1"})
    return case if case.counts and case.counts["memory"] and again == case.right else None


# ---- faults ----


def setting(call, number, mode, error):
    """The library's settings for one call."""
    return {"REFUSE_CALL": call, "REFUSE_AT": str(number), "REFUSE_MODE": mode, "REFUSE_ERROR": str(error)}


def of_memory(case):
    """Each growth refused by itself, and it with all later ones."""
    for number in range(1, case.counts["memory"] + 1):
        for mode in ("once", "from"):
            always = case.name == ALWAYS and mode == "once"
            yield Fault("memory", f"growth {number} refused, {mode}", setting("memory", number, mode, errno.ENOMEM), always)


def of_devices(case):
    """Each call failed with each error; each read and write moving nothing; all of them moving a byte, and then failing."""
    yield Fault("device", "a byte a call", {"REFUSE_SHORT": "1"})
    for call in CALLS:
        for number in range(1, case.counts[call] + 1):
            for error in ERRORS:
                always = case.name == ALWAYS and call == "open" and error == "EIO"
                yield Fault("device", f"{call} {number}: {error}", setting(call, number, "once", getattr(errno, error)), always)
            if call in ("read", "write"):
                yield Fault("device", f"{call} {number}: nothing moved", setting(call, number, "once", 0))
    for call in ("read", "write"):
        for number in range(1, min(case.counts[call], 1) * 20):
            short = setting(call, number, "from", errno.EIO) | {"REFUSE_SHORT": "1"}
            yield Fault("device", f"{call} a byte a call, from {number} on EIO", short)


def of_streams(case):
    """Standard input that fails behind so many bytes, at last where its end is asked for, and standard output that has room for no more."""
    short = {"REFUSE_SHORT": "1"}
    first = case.short["read"] - len(case.given)
    for count in range(len(case.given) + 1):
        yield Fault("device", f"standard input fails behind {count} bytes", setting("read", first + count, "from", errno.EIO) | short, True, 0)
    for room in range(len(case.right.out)):
        for what, error in (("fails", errno.EIO), ("takes nothing", 0)):
            yield Fault("device", f"standard output {what} behind {room} bytes", setting("write", room + 1, "from", error) | short, True, room)


def of_threads(case):
    """Each thread refused by itself, and it with all later ones."""
    for number in range(1, case.counts["thread"] + 1):
        for mode in ("once", "from"):
            yield Fault("thread", f"thread {number} refused, {mode}", setting("thread", number, mode, errno.EAGAIN))


def of_ends(case):
    """The program ended at each call."""
    for call in CALLS:
        for number in range(1, case.counts[call] + 1):
            yield Fault("kill", f"ended at {call} {number}", setting(call, number, "kill", 0))


def faults(case, kinds):
    """All faults of a case."""
    ways = {"memory": of_memory, "device": of_devices, "thread": of_threads, "kill": of_ends}
    for kind, way in ways.items():
        if kind in kinds:
            yield from way(case)
    if "device" in kinds and case.given:
        yield from of_streams(case)
    if "size" in kinds and "out" in case.words:
        for size in (0, 1, 10):
            yield Fault("size", f"files of {size} bytes at most", {"size": size})
    if "late" in kinds and "--workers" in case.words and case.counts["thread"]:
        yield Fault("late", "growths behind the last worker's start", {})
    if "together" in kinds and "out" in case.words and case.right.status == 0:
        for number in range(4):
            yield Fault("together", f"two runs at once, {number}", {})


# ---- what comes of them ----


def outputs(case):
    """The files that the command writes."""
    return {name for name in case.right.files if name == "out" or name not in case.files}


def left_over(case, files):
    """The files that have come and are no output."""
    return sorted(set(files) - set(case.right.files) - set(case.files))


def are_kept(case, files):
    """Whether all files are as they were. Of tiles some may have come, each of them whole, but not their list."""
    come = {name: data for name, data in files.items() if name not in case.files}
    whole = all(case.right.files.get(name) == data for name, data in come.items())
    return whole and "list" not in come and all(files.get(name) == data for name, data in case.files.items())


def is_less(case, got):
    """Whether the same refusal came, with less on standard error: a piece of it could not be told. Where it could not be found what
    broke a rule of schedules, the code's page is told behind the refusal's line, which may be longer."""
    right = case.right
    if not right.status or (got.status, got.out, got.files) != (right.status, right.out, right.files):
        return False
    line = right.err.split(b"\n", 1)[0] + b"\n"
    paged = case.words[0] == "compile" and "--explain" in case.words and got.err.startswith(line)
    return len(got.err) < len(right.err) or paged


def tells(case, got, line):
    """Whether a refusal is told in this line, with more behind it where that is asked for, or could not be told."""
    return got.err in (line, b"") or ("--explain" in case.words and got.err.startswith(line))


def classed(case, kind, got):
    """In which way a run with a fault came out; what is wrong begins with `WRONG`."""
    kept = are_kept(case, got.files)
    if got == case.right:
        return "right"
    if is_less(case, got):
        return "right, less told"
    begun = case.right.out.startswith(got.out)
    if kept and begun and got.status == 4 and tells(case, got, b"stencil: M0\n"):
        return "M0" if not got.out or case.words[0] == "compare" else "WRONG: M0 behind a part of the output"
    if kept and begun and kind == "device" and got.status == 5 and tells(case, got, b"stencil: G7\n"):
        return "G7"
    return f"WRONG: status {got.status}, {'files kept' if kept else 'files changed'}"


def of_shorter_files(case, got):
    """What comes of a read that moves nothing: the file ends there. It is refused, or right, also of a text that is empty."""
    if got == case.right:
        return "right"
    if any((got.status, got.out, got.err) == (one.status, one.out, one.err) and got.files.get("out") == one.files.get("out") for one in case.ended):
        return "right of an empty text"
    if got.files == case.files and not got.out and got.status in (1, 3, 5) and got.err.startswith(b"stencil: "):
        return "refused"
    return f"WRONG: status {got.status}"


def after_end(program, case, library, settings, before):
    """What stands after the program was ended, and what the next run makes of it."""
    with tempfile.TemporaryDirectory() as name:
        room = Path(name)
        lay(case, room)
        preload = {"LD_PRELOAD": str(library)} if library else {}
        got = run(program, case, preload | settings, before, room)
        left = left_over(case, got.files)
        written = outputs(case)
        if any(got.files[kept] != data for kept, data in case.files.items() if kept not in written):
            return "WRONG: an input was changed"
        if any(got.files[name] not in (case.files.get(name), case.right.files[name]) for name in written & set(got.files)):
            return "WRONG: half a file"
        if "list" in written & set(got.files) and not written <= set(got.files):
            return "WRONG: a list without its tiles"
        if len(left) > 1 or any(not one.startswith(tuple(f"{name}." for name in written)) for one in left):
            return f"WRONG: left over: {left}"
        again = run(program, case, None, None, room)
        if left_over(case, again.files):
            return f"WRONG: left over after the next run: {left_over(case, again.files)}"
        state = "old file" if got.files.get("out", OLD) == OLD else "new file"
        ended = got.status not in (0, case.right.status)
        return ("ended, " if ended else "not ended, ") + state + (", one left over" if left else "") if again == case.right else "WRONG: next run"


def limited(size):
    """Limits the size of files that are written."""
    return lambda: resource.setrlimit(resource.RLIMIT_FSIZE, (size, size))


def together(program, case):
    """Two runs that write one file at once: each is right, and nothing else comes."""
    with tempfile.TemporaryDirectory() as name:
        room = Path(name)
        lay(case, room)
        with ThreadPoolExecutor(2) as pool:
            both = list(pool.map(lambda _: run(program, case, None, None, room), range(2)))
        if standing(room) != case.right.files:
            return f"WRONG: files afterwards: {sorted(standing(room))}"
        statuses = {got.status for got in both}
        return "right" if statuses == {0} else f"WRONG: statuses {statuses}"


def outcome(program, library, case, fault):
    """In which way a fault came out, and its run."""
    if fault.kind == "together":
        return together(program, case), None
    if fault.kind == "late":
        return f"WRONG: {case.counts['late']} growths" if case.counts["late"] else "right", None
    if fault.kind == "size":
        return after_end(program, case, None, {}, limited(fault.settings["size"])), None
    if fault.kind == "kill":
        return after_end(program, case, library, fault.settings, None), None
    got = run(program, case, {"LD_PRELOAD": str(library), **fault.settings})
    if fault.settings.get("REFUSE_CALL") == "read" and fault.settings["REFUSE_ERROR"] == "0":
        return of_shorter_files(case, got), got
    way = classed(case, fault.kind, got)
    if fault.printed is not None and (way, len(got.out)) != ("G7", fault.printed):
        return f"WRONG: {way}, and {len(got.out)} bytes printed", got
    return way, got


def judged(program, library, case, fault):
    """In which way a fault came out; its run besides, where that is wrong."""
    way, got = outcome(program, library, case, fault)
    return way, got if way.startswith("WRONG") else None


# What a process that was forked does, and the items to which it does it.
WORK = {}


def of_item(number):
    """What comes of the item of this number."""
    return WORK["work"](WORK["items"][number])


def spread(work, items, together):
    """What comes of each item, in their order, by as many processes as there are processors, each taking so many at once.

    Threads would wait for one another, since what is done here beside a run takes Python longer than the run."""
    WORK.update(work=work, items=items)
    gc.freeze()
    # (what stands here is shared with the processes, and their collectors leave it alone)
    with multiprocessing.get_context("fork").Pool(os.cpu_count()) as pool:
        yield from pool.imap(of_item, range(len(items)), together)


def told(fault, case, came, got):
    """Tells of a fault that came out wrong."""
    print(f"FAILED {case.name}: {fault.name}: {came}")
    if got is not None:
        print("   ", *difference("stdout", case.right.out, got.out), *difference("stderr", case.right.err, got.err), sep="\n    ")
        for name in sorted(set(case.right.files) | set(got.files)):
            if got.files.get(name) != case.files.get(name):
                print(f"    file {name}: {shown(got.files.get(name))}", flush=True)


def main():
    words = argparse.ArgumentParser(description=__doc__, formatter_class=argparse.RawDescriptionHelpFormatter)
    words.add_argument("program")
    words.add_argument("kinds", nargs="*", help=", ".join(PART))
    words.add_argument("--all", action="store_true")
    words.add_argument("--seed", type=int, default=1)
    words.add_argument("--only", default="", help="cases whose names have this text")
    given = words.parse_intermixed_args()
    program, chance = str(Path(given.program).resolve()), random.Random(given.seed)
    # (a folder in memory, where the machine has one: some faults write and sync a dozen files)
    memory = "/dev/shm" if os.access("/dev/shm", os.W_OK) else None
    with tempfile.TemporaryDirectory(dir=memory) as folder:
        tempfile.tempdir = folder
        library = library_in(folder)
        if library is None:
            print("not tried: no gcc that makes the library")
            return 0
        chosen = [one for one in [*cases(), *long_cases(program)] if given.only in one.name]
        ready = list(spread(lambda case: with_counts(program, library, case), chosen, 1))
        if None in ready:
            print("not tried: the program does not run with the library")
            return 0
        chosen = [(case, fault) for case in ready for fault in faults(case, given.kinds or USUAL) if given.all or fault.always or chance.randrange(PART[fault.kind]) == 0]
        came, failed = {}, 0
        for (case, fault), (way, got) in zip(chosen, spread(lambda one: judged(program, library, *one), chosen, 32)):
            came.setdefault(fault.kind, Counter())[way.split(":")[0]] += 1
            if way.startswith("WRONG"):
                failed += 1
                told(fault, case, way, got)
    for kind, ways in came.items():
        print(f"{kind}: tried {sum(ways.values())}: " + ", ".join(f"{way} {count}" for way, count in ways.most_common()))
    print(f"{len(chosen) - failed} passed, {failed} failed")
    return 1 if failed else 0


if __name__ == "__main__":
    sys.exit(main())
