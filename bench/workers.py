#!/usr/bin/env python3
"""Measures `run` of plans of 64 blocks of rows, of 2048 by 2048 samples, by 1, 2, 4 and 64 workers.

usage: workers.py PROGRAM [SIDE]

Two pipelines: a blur of 3 by 3 in two stages, whose samples take less time than what one worker does whatever their number (the
texts, the plan's check, the table, the files), and a mean of 15 by 15 that adds 225 samples for each of its own. Tells the best of
three runs of each in seconds, as a part of the time of one worker, and the peak memory. All pictures of a pipeline have to be
the same.
"""
import os
import subprocess
import sys
import tempfile
import time

BLUR = (
    "pipeline blur3; input in u8 [{n}, {n}]; "
    "func across u16 (x, y) = u16(in[clamp(x - 1, 0, {last}), y]) + u16(in[x, y]) + u16(in[clamp(x + 1, 0, {last}), y]); "
    "func out u8 (x, y) = u8((across[x, clamp(y - 1, 0, {last})] + across[x, y] + across[x, clamp(y + 1, 0, {last})]) / 9u16); "
    "output out [{n}, {n}];"
)
MEAN = (
    "pipeline mean15; input in u8 [{n}, {n}]; func row u16 (x, y) = {row}; "
    "func out u8 (x, y) = u8(({rows}) / 225u16); output out [{n}, {n}];"
)
BLOCKS = "out.split(y, yo, yi, {rows}, guard).parallel(yo);"
REACH = 7
WORKERS = [1, 2, 4, 64]
REPEATS = 3


def blur(side):
    """The algorithm of the blur, and its schedule."""
    return BLUR.format(n=side, last=side - 1), BLOCKS + " across.compute_at(out, yo);"


def coordinate(name, step, side):
    """A variable, so many samples further, moved back to the nearest sample of the picture."""
    if step == 0:
        return name
    return f"clamp({name} {'-' if step < 0 else '+'} {abs(step)}, 0, {side - 1})"


def mean(side):
    """The algorithm of the mean, whose rows of 15 samples are put into the sum of 15 rows, and its schedule."""
    steps = range(-REACH, REACH + 1)
    row = " + ".join(f"u16(in[{coordinate('x', step, side)}, y])" for step in steps)
    rows = " + ".join(f"row[x, {coordinate('y', step, side)}]" for step in steps)
    return MEAN.format(n=side, row=row, rows=rows), BLOCKS


PIPELINES = {"blur of 3 by 3": blur, "mean of 15 by 15": mean}


def picture(side):
    """A picture of a ramp with noise, the same each time."""
    state, samples = 1, bytearray()
    for k in range(side * side):
        state = (state * 1103515245 + 12345) & 0x7FFFFFFF
        samples.append((k // side + (state >> 20)) & 255)
    return b"P5\n%d %d\n255\n" % (side, side) + bytes(samples)


def timed(words):
    """Seconds and peak memory (MiB) of a command that has to succeed."""
    start = time.monotonic()
    child = subprocess.Popen(words)
    _, status, usage = os.wait4(child.pid, 0)
    if status != 0:
        sys.exit(f"{' '.join(words)}: status {os.waitstatus_to_exitcode(status)}")
    return time.monotonic() - start, usage.ru_maxrss / 1024


def measure(program, side, about, pipeline):
    """A line for each number of workers."""
    algorithm, schedule = pipeline(side)
    for name, text in [("a.alg", algorithm), ("a.sched", schedule.format(rows=max(1, side // 64)))]:
        with open(name, "w") as file:
            file.write(text)
    subprocess.run([program, "compile", "a.alg", "a.sched", "a.plan"], check=True)
    print(f"{about}, {side} x {side}, 64 blocks, {os.cpu_count()} processors")
    print(f"{'workers':>8} {'seconds':>8} {'of one':>7} {'MiB':>6}")
    alone, first = None, None
    for workers in WORKERS:
        words = [program, "run", "a.alg", "a.plan", "in.pgm", "out.pgm", "--workers", str(workers)]
        best, memory = min(timed(words) for _ in range(REPEATS))
        alone = alone or best
        with open("out.pgm", "rb") as file:
            out = file.read()
        first = first or out
        if out != first:
            sys.exit(f"{workers} workers give another picture")
        print(f"{workers:>8} {best:>8.2f} {best / alone:>7.2f} {memory:>6.0f}")


def main():
    program = os.path.abspath(sys.argv[1])
    side = int(sys.argv[2]) if len(sys.argv) > 2 else 2048
    with tempfile.TemporaryDirectory() as room:
        os.chdir(room)
        with open("in.pgm", "wb") as file:
            file.write(picture(side))
        for about, pipeline in PIPELINES.items():
            measure(program, side, about, pipeline)


if __name__ == "__main__":
    main()
