#!/usr/bin/env python3
"""Measures `compile` of the gallery's schedules: functions, nodes of the algorithm, lines of the plan, time and peak memory.

usage: compiles.py PROGRAM [NAME ..] [--repeats N] [--markdown]    (all applications where none is named)

At 320 by 240; `check` and `cost` of the plan that comes of it are measured too, and how soon the refused schedule of each
application is told. Times are the best of N (3) in milliseconds, of whole processes; MiB is the greatest peak of `compile` and
`check`. `--markdown` prints the block of docs/SPEED.md.
"""
import argparse
import os
import re
import sys
import tempfile
from pathlib import Path

sys.path[:0] = [str(Path(__file__).resolve().parent.parent / folder) for folder in ("tests", "bench", "examples/gallery")]

from gallery import MAIN, MEMORY, SECONDS, applications, measured, run  # noqa: E402
from halide import machine, number  # noqa: E402
from size import sized  # noqa: E402

COLUMNS = ["schedule", "functions", "nodes", "lines", "compile", "check", "MiB", "cost"]


def nodes(text):
    """How many numbers, names and operators the definitions of an algorithm have, which is near to its nodes."""
    body = re.sub(r"#[^\n]*", "", text)
    return len(re.findall(r"\d+(?:[ui]\d+)?|[A-Za-z_]\w*|[-+*/%]|[<>=!]=?", body))


def best(words, folder, repeats):
    """The least milliseconds and the greatest peak in MiB of some runs."""
    runs = [measured(words, folder) for _ in range(repeats)]
    return min(seconds for seconds, _ in runs) * 1000, max(memory for _, memory in runs)


def figures(program, application, name, repeats):
    """The lines of a schedule's plan, the milliseconds of `compile`, `check` and `cost`, and the peak of the first two."""
    with tempfile.TemporaryDirectory() as folder:
        Path(folder, "a.alg").write_text(sized(application.text, *MAIN))
        Path(folder, "a.sched").write_text(sized(application.schedules[name], *MAIN))
        done = run(program, folder, "compile", "a.alg", "a.sched", "a.plan")
        if done.returncode != 0:
            sys.exit(f"{application.name}-{name}: {done.stderr.decode().strip()}")
        lines = len(Path(folder, "a.plan").read_text().splitlines())
        made, most = best([program, "compile", "a.alg", "a.sched", "again.plan"], folder, repeats)
        check, held = best([program, "check", "a.alg", "a.plan"], folder, repeats)
        cost, _ = best([program, "cost", "a.alg", "a.plan"], folder, 1)
    return lines, made, check, max(most, held), cost


def telling(program, application, repeats):
    """The code that the refused schedule of an application is told with, its milliseconds, and the peak in MiB."""
    with tempfile.TemporaryDirectory() as folder:
        Path(folder, "a.alg").write_text(sized(application.text, *MAIN))
        Path(folder, "a.sched").write_text(sized(application.refused, *MAIN))
        words = ["compile", "a.alg", "a.sched", "a.plan"]
        code = run(program, folder, *words).stderr.decode().split()[1]
        return code, *best([program, *words], folder, repeats)


def line_of(cells, is_markdown):
    """A row as a line."""
    if is_markdown:
        return "| " + " | ".join(cells) + " |"
    return f"{cells[0]:<20}" + "".join(f"{one:>10}" for one in cells[1:])


def main():
    words = argparse.ArgumentParser()
    words.add_argument("program")
    words.add_argument("names", nargs="*")
    words.add_argument("--repeats", type=int, default=3)
    words.add_argument("--markdown", action="store_true")
    given = words.parse_intermixed_args()
    program, rows = os.path.abspath(given.program), []
    print(f"At 320 by 240, best of {given.repeats}, {machine()}.\n")
    print(line_of(COLUMNS, given.markdown))
    if given.markdown:
        print("|" + "---|" * len(COLUMNS))
    for application in applications(given.names):
        text = sized(application.text, *MAIN)
        functions = len(re.findall(r"\bfunc\b", text))
        for name in application.schedules:
            lines, *rest = figures(program, application, name, given.repeats)
            rows.append((f"{application.name}-{name}", *rest))
            cells = [rows[-1][0], str(functions), str(nodes(text)), str(lines), *map(number, rest)]
            print(line_of(cells, given.markdown), flush=True)
    kept = sum(1 for _, made, check, memory, _ in rows if max(made, check) < 1000 * SECONDS and memory < MEMORY)
    print(f"\nWithin {SECONDS} second and {MEMORY} MiB to compile, and to check: {kept} of {len(rows)}; at most "
          f"{number(max(row[1] for row in rows))} ms, {number(max(row[2] for row in rows))} ms and "
          f"{number(max(row[3] for row in rows))} MiB.")
    told = [(one.name, *telling(program, one, given.repeats)) for one in applications(given.names)]
    print("\nRefused: " + ", ".join(f"{name} ({code}) in {number(time)} ms, {number(most)} MiB" for name, code, time, most in told) + ".")


if __name__ == "__main__":
    main()
