#!/usr/bin/env python3
"""Measures six pipelines beside C programs that compute the same, in one run: whole processes that read and write files.

usage: peers.py PROGRAM [--side N] [--repeats N] [--markdown]      (1024 and 5)

bench/peers/NAME.alg holds the algorithm (@W@, @H@, @RIGHT@ and @BOTTOM@ are the width, the height, and one less of each),
NAME.sched and NAME-lanes.sched its schedules, the latter with `vectorize` of 32 lanes, NAME.c the same in C, which is compiled
by gcc -O2 and -O3. All pictures of a pipeline have to be the same. Times are medians in milliseconds; where Netpbm's pnmconvol
or pnmsmooth is installed, it is measured on the 3x3 mean too (its edges differ, so its picture is not compared).
"""
import argparse
import os
import re
import shutil
import statistics
import subprocess
import sys
import tempfile

PEERS = os.path.join(os.path.dirname(os.path.abspath(__file__)), "peers")
NAMES = ["box", "blur5", "unsharp", "curve", "hist", "scan"]


def picture(side, channels):
    """The bytes of a picture of ramps with noise, the same each time."""
    state, samples = 1, bytearray()
    for k in range(side * side * channels):
        state = (state * 1103515245 + 12345) & 0x7FFFFFFF
        samples.append(((k // (side * channels)) + (state >> 20)) & 255)
    return b"P%d\n%d %d\n255\n" % (6 if channels == 3 else 5, side, side) + bytes(samples)


# A small process starts the command and tells milliseconds, memory and status: until it becomes the program, a process counts what
# its parent holds.
MEASURING = """
import os, sys, time
start = time.monotonic()
to = (os.POSIX_SPAWN_OPEN, 1, sys.argv[1], os.O_WRONLY | os.O_CREAT | os.O_TRUNC, 0o644)
child = os.posix_spawnp(sys.argv[2], sys.argv[2:], os.environ, file_actions=[to])
_, status, usage = os.wait4(child, 0)
print((time.monotonic() - start) * 1000, usage.ru_maxrss / 1024, os.waitstatus_to_exitcode(status))
"""


def timed(words, output=None):
    """Milliseconds and peak memory (MiB, some 8 at least) of a command that has to succeed."""
    line = [sys.executable, "-I", "-S", "-c", MEASURING, output or os.devnull, *words]
    told = subprocess.run(line, stdout=subprocess.PIPE, text=True, check=True).stdout.split()
    if told[2] != "0":
        sys.exit(f"{' '.join(words)}: status {told[2]}")
    return float(told[0]), float(told[1])


def measured(words, repeats, output=None):
    """The median of the milliseconds, and the peak memory, of so many runs."""
    runs = [timed(words, output) for _ in range(repeats)]
    return statistics.median(it[0] for it in runs), max(it[1] for it in runs)


def same_picture(path, first):
    """The bytes of a picture, which have to be those of the first where there is one."""
    with open(path, "rb") as file:
        kind, width, height, rest = file.read().split(None, 3)
    greatest = re.match(rb"\d+", rest).group()
    # the white space of the header is free, but for the one byte behind its last number
    found = (kind, width, height, greatest, rest[len(greatest) + 1 :])
    if first is not None and first != found:
        sys.exit(f"{path} is another picture")
    return found


def peer_rows(name, repeats):
    """Rows (what, milliseconds, MiB) of the C programs of a pipeline, and the picture."""
    rows, first = [], None
    for level in ("-O2", "-O3"):
        subprocess.run(["gcc", level, "-o", "peer", os.path.join(PEERS, name + ".c")], check=True)
        rows.append((f"C, gcc {level}", *measured(["./peer", f"{name}.in", "peer.out"], repeats)))
        first = same_picture("peer.out", first)
    if name == "box":
        for words in (["pnmconvol", "-matrix=.111,.111,.111;.111,.111,.111;.111,.111,.111", "box.in"], ["pnmsmooth", "box.in"]):
            if shutil.which(words[0]):
                rows.append((words[0], *measured(words, repeats, "netpbm.out")))
    return rows, first


def own_rows(program, name, side, repeats, first):
    """Rows of the program: `compile` and `run` by one worker of each schedule, and `run` by four of the first."""
    rows = []
    places = {"@W@": side, "@H@": side, "@RIGHT@": side - 1, "@BOTTOM@": side - 1}
    with open(os.path.join(PEERS, name + ".alg")) as file:
        text = file.read()
    for place, number in places.items():
        text = text.replace(place, str(number))
    with open("a.alg", "w") as file:
        file.write(text)
    for schedule in (name, name + "-lanes"):
        path = os.path.join(PEERS, schedule + ".sched")
        if not os.path.exists(path):
            continue
        rows.append((f"compile {schedule}", *measured([program, "compile", "a.alg", path, "a.plan"], repeats)))
        for workers in (1, 4):
            words = [program, "run", "a.alg", "a.plan", f"{name}.in", "own.out", "--workers", str(workers)]
            rows.append((f"run {schedule}, {workers} worker{'s' if workers > 1 else ''}", *measured(words, repeats)))
            same_picture("own.out", first)
        rows.append((f"check {schedule}", *measured([program, "check", "a.alg", "a.plan"], repeats)))
    return rows


def main():
    parser = argparse.ArgumentParser()
    parser.add_argument("program")
    parser.add_argument("--side", type=int, default=1024)
    parser.add_argument("--repeats", type=int, default=5)
    parser.add_argument("--markdown", action="store_true")
    words = parser.parse_args()
    program = os.path.abspath(words.program)
    line = "| {} | {:.0f} | {:.1f} | {:.0f} |" if words.markdown else "{:<32} {:>8.0f} ms {:>7.1f} of C {:>6.0f} MiB"
    with tempfile.TemporaryDirectory() as room:
        os.chdir(room)
        print(f"{words.side} x {words.side}, {os.cpu_count()} processors, medians of {words.repeats}")
        if words.markdown:
            print("| | ms | times C at -O3 | MiB |\n|---|---|---|---|")
        for name in NAMES:
            with open(f"{name}.in", "wb") as file:
                file.write(picture(words.side, 3 if name == "curve" else 1))
            rows, first = peer_rows(name, words.repeats)
            best = rows[1][1]
            for what, milliseconds, memory in rows + own_rows(program, name, words.side, words.repeats, first):
                print(line.format(f"{name}: {what}", milliseconds, milliseconds / best, memory), flush=True)


if __name__ == "__main__":
    main()
