#!/usr/bin/env python3
"""Measures the gallery's applications beside Halide 14, on one machine in one run, and compares the pictures.

usage: halide.py PROGRAM|- [NAME ..] [--size W H] [--repeats N] [--pictures] [--own-folds] [--markdown]

Each algorithm and each of its schedules is translated by halide_pipeline.py for Debian's python3-halide, and both compute the
same picture at 320 by 240, or at the size that is named. Halide's picture has to be the program's by the same schedule; with `-`
in the place of the program it has to be the one of tests/gallery_reference.py, and Halide alone is measured. `--pictures`
measures nothing and compares at 13 by 11 too. `--own-folds` leaves folds to Halide. `--markdown` prints the block of
docs/SPEED.md.

Times are the best of N (5) in milliseconds. Of the program: whole processes, files included; `run` checks its plan first, so what
a run takes alone is `run` less `check`. Of Halide: translation, compiler, files and the first run are its whole process, without
the start of Python and the reading of the library; a run alone is one behind the first. Threads are 1 and 4. Memory is the peak
that is resident; Halide's has Python and its compiler in it, and `H. more` is what its process grows by in its runs.
"""

import argparse
import json
import os
import re
import shutil
import subprocess
import sys
import tempfile
import time
from dataclasses import dataclass, field
from pathlib import Path

ROOT = Path(__file__).resolve().parent.parent
sys.path[:0] = [str(ROOT / folder) for folder in ("tests", "bench", "examples/gallery")]

import gallery_reference  # noqa: E402
from gallery import MAIN, applications, measured, picture_by, samples_of, write  # noqa: E402
from png import read  # noqa: E402
from size import sized  # noqa: E402

PIPELINE = str(ROOT / "bench" / "halide_pipeline.py")
TINY = (13, 11)
THREADS = (1, 4)

# So many seconds Halide has for a schedule.
LIMIT = 300

# What of Netpbm and ImageMagick does nearly what an application does. Edges and rounding differ, so pictures aren't compared.
PEERS = [
    ("box", "pnmsmooth -width=15 -height=15 in"),
    ("shading", "pamfunc -multiplier=1.25 in"),
    ("equalise", "pnmhisteq in"),
    ("enlarge", "pamscale -filter=catrom 1.6 in"),
    ("reduce", "pamscale -filter=triangle 0.4 in"),
    ("dither", "pamditherbw -floyd in"),
    ("median", "convert in -statistic Median 3x3 ppm:-"),
    ("box", "convert in -statistic Mean 15x15 pgm:-"),
    ("unsharp", "convert in -unsharp 3x1.2+1+0 ppm:-"),
    ("canny", "convert in -canny 0x1+10%+30% -depth 8 pgm:-"),
    ("morph", "convert in -morphology Open Square:3 -morphology Edge Square:1 pgm:-"),
    ("equalise", "convert in -equalize pgm:-"),
    ("enlarge", "convert in -filter Catrom -resize 160% pgm:-"),
    ("reduce", "convert in -filter Triangle -resize 40% pgm:-"),
]


@dataclass
class Row:
    """A schedule's figures: the program's and Halide's by threads, what became of the pictures, and what Halide said."""

    name: str
    own: dict = field(default_factory=dict)
    halide: dict = field(default_factory=dict)
    pictures: str = ""
    said: str = ""

    def whole(self):
        """The milliseconds of the whole way from texts to the picture: the program's and Halide's."""
        own = self.own["compile"] + self.own["run 4"] if self.own else None
        parts = self.halide.get(4)
        return own, parts and sum(parts[part] for part in ("translate", "compile", "read", "first", "write"))

    def alone(self, threads):
        """The milliseconds of a run by so many threads: the program's and Halide's."""
        own = max(self.own[f"run {threads}"] - self.own["check"], 0.1) if self.own else None
        return own, self.halide[threads]["run"] if threads in self.halide else None


def halides_python():
    """A Python that has Halide, this one or Debian's, or none."""
    for python in (sys.executable, "/usr/bin/python3"):
        words = [python, "-c", "import halide; halide.Func"]
        if shutil.which(python) and subprocess.run(words, cwd="/", capture_output=True).returncode == 0:
            return python
    return None


def by_halide(python, folder, name, threads, words):
    """What halide_pipeline.py tells of a schedule by so many threads."""
    line = [python, PIPELINE, "a.alg", f"{name}.sched", "in", f"{name}.halide", *words]
    room = {**os.environ, "HL_NUM_THREADS": str(threads)}
    try:
        done = subprocess.run(line, cwd=folder, capture_output=True, text=True, timeout=LIMIT, env=room)
    except subprocess.TimeoutExpired:
        return {"refused": f"not done within {LIMIT} s"}
    try:
        return json.loads(done.stdout.splitlines()[-1])
    except (IndexError, ValueError):
        last = (done.stderr.strip().splitlines() or [""])[-1]
        return {"refused": f"status {done.returncode} {last}"}


def own_figures(program, folder, name, repeats):
    """The program's milliseconds by command, and the greatest peak of memory of these."""
    run = [program, "run", "a.alg", f"{name}.plan", "in", "own.out", "--workers"]
    commands = {
        "compile": [program, "compile", "a.alg", f"{name}.sched", "own.plan"],
        "check": [program, "check", "a.alg", f"{name}.plan"],
        "run 1": [*run, "1"],
        "run 4": [*run, "4"],
    }
    figures = {}
    for what, words in commands.items():
        runs = [measured(words, folder) for _ in range(repeats)]
        figures[what] = min(seconds for seconds, _ in runs) * 1000
        figures["MiB"] = max(figures.get("MiB", 0), *(memory for _, memory in runs))
    return figures


def compared(folder, name, wanted):
    """Whether Halide's picture has the samples that are wanted."""
    made = read(Path(folder, f"{name}.halide"))[3]
    if len(made) != len(wanted):
        return "another size"
    wrong = [k for k, (one, other) in enumerate(zip(made, wanted)) if one != other]
    return f"another: {len(wrong)} of {len(wanted)} samples, the first is {wrong[0]}" if wrong else "same"


def row_of(given, folder, application, name, size, reference):
    """Compares a schedule's pictures, and measures it."""
    row = Row(f"{application.name}-{name}")
    Path(folder, f"{name}.sched").write_text(sized(application.schedules[name], *size))
    if given.program:
        picture, code, wrong = picture_by(given.program, folder, name, application.schedules[name], size, THREADS)
        if picture is None:
            row.pictures = f"the program: {code or wrong}"
            return row
        reference = samples_of(picture)
    words = ["--repeats", "0" if given.pictures else str(2 * given.repeats)] + ["--own-folds"] * given.own_folds
    for threads in THREADS[-1:] if given.pictures else THREADS:
        told = by_halide(given.python, folder, name, threads, words)
        if "refused" in told:
            row.pictures, row.said = "refused", " ".join(told["refused"].split())
            break
        row.halide[threads] = told
        row.pictures = compared(folder, name, reference)
        if row.pictures != "same":
            break
    if given.program and not given.pictures:
        row.own = own_figures(given.program, folder, name, given.repeats)
    return row


def rows_at(given, size):
    """The rows of all applications at a size, each told when it is there."""
    for application in applications(given.names):
        with tempfile.TemporaryDirectory() as folder:
            write(folder, application, size, size == TINY)
            reference = None
            if not given.program:
                samples = read(Path(folder, "in"))[3]
                reference = gallery_reference.picture(sized(application.text, *size), samples)[0]
            for name in application.schedules:
                yield row_of(given, folder, application, name, size, reference)


# ---- what is printed ----


def number(value):
    """Milliseconds or a ratio in three figures or so."""
    return "" if value is None else f"{value:.0f}" if value >= 20 else f"{value:.1f}" if value >= 1 else f"{value:.2f}"


def ratio(pair):
    """How many times Halide's time the program takes."""
    return number(pair[0] / pair[1]) if None not in pair else ""


COLUMNS = ["compile", "check", "run 1", "run 4", "MiB", "H. whole", "H. run 1", "H. run 4", "H. MiB", "H. more",
           "whole", "by 1", "by 4", "picture"]


def cells(row):
    """A row's cells in the order of COLUMNS."""
    own = [number(row.own.get(one)) for one in COLUMNS[:5]]
    memory = [number(row.halide.get(4, {}).get(one)) for one in ("MiB", "run MiB")]
    halide = [number(row.whole()[1]), *(number(row.alone(k)[1]) for k in THREADS), *memory]
    return own + halide + [ratio(row.whole()), *(ratio(row.alone(k)) for k in THREADS), row.pictures]


def line_of(row, is_markdown):
    """A row as a line."""
    if is_markdown:
        return f"| {row.name} | " + " | ".join(cells(row)) + " |"
    return f"{row.name:<20}" + "".join(f"{one:>9}" for one in cells(row)[:-1]) + f"  {row.pictures}"


def heading(is_markdown):
    """The line of the columns' names."""
    if is_markdown:
        return "| Schedule | " + " | ".join(COLUMNS) + " |\n|" + "---|" * (len(COLUMNS) + 1)
    return f"{'':<20}" + "".join(f"{one:>9}" for one in COLUMNS[:-1]) + f"  {COLUMNS[-1]}"


def machine():
    """The machine and the day in words."""
    model = re.search(r"model name\s*:\s*(.*)", Path("/proc/cpuinfo").read_text())
    memory = int(re.search(r"MemTotal:\s*(\d+)", Path("/proc/meminfo").read_text())[1]) / (1 << 20)
    day = time.strftime("%d %B %Y").lstrip("0")
    make = model[1] if model else "of unknown make"
    return f"{os.cpu_count()} processors ({make}), {memory:.0f} GB, {day}, load {os.getloadavg()[0]:.1f}"


def version():
    """The version of Debian's package of Halide, where it is told."""
    if not shutil.which("dpkg-query"):
        return "14"
    done = subprocess.run(["dpkg-query", "-W", "-f", "${Version}", "python3-halide"], capture_output=True, text=True)
    return done.stdout.strip() or "14"


def share(rows, pairs, most):
    """How many of the rows keep a goal, and the names of those that don't with how far they are off."""
    found = [(row.name, own / other) for row, (own, other) in zip(rows, pairs) if None not in (own, other)]
    missed = sorted(((times, name) for name, times in found if times > most), reverse=True)
    text = f"{len(found) - len(missed)} of {len(found)}"
    return text + ("; not " + ", ".join(f"{name} ({number(times)})" for times, name in missed) if missed else "")


def summary(rows):
    """What the rows come to, in a few lines."""
    same = sum(1 for row in rows if row.pictures == "same")
    lines = [f"Pictures: {same} of {len(rows)} are the same."]
    lines += [f"{row.name}: {row.pictures}{', ' if row.said else ''}{row.said}" for row in rows if row.pictures != "same"]
    if any(row.own for row in rows):
        lines.append(f"Whole process below Halide's: {share(rows, [row.whole() for row in rows], 1)}.")
        for k in THREADS:
            pairs = [row.alone(k) for row in rows]
            lines.append(f"Run alone within 3 times Halide's, by {k}: {share(rows, pairs, 3)}.")
    return lines


# ---- C ----


def command_of(words):
    """The words of a peer's command where it is installed. A `convert` may be of another making than ImageMagick's."""
    name, rest = words.split(" ", 1)
    if name != "convert":
        return words if shutil.which(name) else None
    for path in (shutil.which("magick"), shutil.which("convert"), "/usr/bin/convert"):
        if path and os.access(path, os.X_OK):
            told = subprocess.run([path, "-version"], capture_output=True, text=True)
            if "Version: ImageMagick" in told.stdout:
                return f"{path} {rest}"
    return None


def peers(given):
    """The lines of a table of what Netpbm and ImageMagick take for nearly the same."""
    lines = ["| In C | ms | MiB |", "|---|---|---|"]
    found = {one.name: one for one in applications([])}
    for name, words in PEERS:
        if given.names and name not in given.names:
            continue
        command = command_of(words)
        if command is None:
            lines.append(f"| {name}: `{words}` | not installed | |")
            continue
        with tempfile.TemporaryDirectory() as folder:
            write(folder, found[name], given.size, False)
            tried = subprocess.run(["sh", "-c", f"{command} > out"], cwd=folder, capture_output=True, text=True)
            if tried.returncode != 0:
                lines.append(f"| {name}: `{words}` | refused: {(tried.stderr.strip().splitlines() or [''])[-1]} | |")
                continue
            runs = [measured(["sh", "-c", f"exec {command} > out"], folder) for _ in range(given.repeats)]
            lines.append(f"| {name}: `{words}` | {number(min(one for one, _ in runs) * 1000)} | {max(one for _, one in runs):.0f} |")
    return lines


def words_given():
    """The words of the command line, with the program's path made whole."""
    parser = argparse.ArgumentParser()
    parser.add_argument("program")
    parser.add_argument("names", nargs="*")
    parser.add_argument("--size", nargs=2, type=int, default=MAIN)
    parser.add_argument("--repeats", type=int, default=5)
    for one in ("--pictures", "--own-folds", "--markdown"):
        parser.add_argument(one, action="store_true")
    given = parser.parse_intermixed_args()
    given.program = None if given.program == "-" else os.path.abspath(given.program)
    given.size, given.python = tuple(given.size), halides_python()
    return given


def main():
    given = words_given()
    if given.python is None:
        print("python3-halide is not installed: nothing is measured beside Halide")
        return 0
    rows = []
    print(f"Halide {version()}, {given.size[0]} by {given.size[1]}, best of {given.repeats}, {machine()}.\n")
    print(heading(given.markdown), flush=True)
    for size in [TINY, given.size] if given.pictures else [given.size]:
        if given.pictures:
            print(f"{size[0]} by {size[1]}")
        for row in rows_at(given, size):
            rows.append(row)
            print(line_of(row, given.markdown), flush=True)
    print("\n" + ("\n\n" if given.markdown else "\n").join(summary(rows)))
    if not given.pictures:
        starts = [parts["library"] for row in rows for parts in row.halide.values()]
        if starts:
            print(f"\nTo read Halide's library into Python takes {number(min(starts))} ms, which is in none of these times.")
        print("\n" + "\n".join(peers(given)))
    return 1 if any(row.pictures != "same" and not row.said for row in rows) else 0


if __name__ == "__main__":
    sys.exit(main())
