#!/usr/bin/env python3
"""Compiles, checks and runs the schedules of the applications in examples/gallery on a built program, and compares the pictures.

    python3 tests/gallery.py PROGRAM [--all] [NAME..]

At a tiny size the picture of each schedule, by one worker and by three, is the one that `plain` gives. At sizes 1x1, 2x3, 7x5, 13x11
and 67x53, which cuts the blocks of most schedules, each schedule gives the picture of the breadth-first one, or is refused by the
code that REFUSED names, and no other. Where gallery_models.py has a model of an application, the pictures of all these sizes are the
model's too, and all of them are those of gallery_reference.py, which reads the text by itself. The schedule that an application
keeps to show a refusal is refused as its first line says. What `--explain` tells of it stands in docs/GALLERY.md; L11 is told soon,
with `--all` within a tenth of a second.

With `--all` each schedule is compiled and its plan checked at the main size, both within a second and 200 MB, and its picture is
that of the breadth-first one by one worker and by three, the reference's and the model's. It ends with `N passed, M failed`.
"""

import argparse
import os
import re
import subprocess
import sys
import tempfile
from concurrent.futures import ThreadPoolExecutor
from dataclasses import dataclass
from pathlib import Path

ROOT = Path(__file__).resolve().parent.parent
GALLERY = ROOT / "examples" / "gallery"
PAGE = ROOT / "docs" / "GALLERY.md"
sys.path[:0] = [str(ROOT / "bench"), str(GALLERY)]

import gallery_reference  # noqa: E402
from gallery_models import MODELS  # noqa: E402
from png import read  # noqa: E402
from scene import scene  # noqa: E402
from size import sized  # noqa: E402

MAIN = (320, 240)
SIZES = [(1, 1), (2, 3), (7, 5), (13, 11), (67, 53)]

# Further sizes of an application: at these, too, a mosaic lacks a colour.
FURTHER = {"photo": [(1, 3), (3, 1)]}

# So many seconds compiling may take, and checking, and so many MiB.
SECONDS, MEMORY = 1, 200
# So many seconds until L11 is told: where much else runs beside it, and alone.
TELLING, TELLING_ALONE = 2, 0.1

# A size at which `plain` is done soon. What it costs grows with the calls that a call leads to.
TINY = {"photo": (3, 2), "canny": (3, 2), "local": (3, 3), "chain": (4, 3), "box": (9, 7), "reduce": (15, 10), "median": (6, 5),
        "dither": (4, 3)}

# So many of a chain's steps are compared with `plain`, which needs five times as long for each further one. Where every eighth step
# is stored, these are the last three of two eights.
STEPS = 6
EIGHTHS = {0: 0, 6: 1, 7: 2, 8: 3, 14: 4, 15: 5, 16: 6}

# By which code an application is refused at a size that is too small for it: a mosaic of one row or column lacks a colour.
REFUSED = {("photo", (1, 1)): "L12", ("photo", (1, 3)): "L12", ("photo", (3, 1)): "L12"}


@dataclass
class Application:
    """An application of the gallery: its name, its text, its schedules by their names, the breadth-first one first, and one
    that is refused."""

    name: str
    text: str
    schedules: dict
    refused: str


@dataclass
class Outcome:
    """What was compared, and what was wrong with it, if anything."""

    what: str
    wrong: str = ""


def applications(names):
    """The applications with these names, or all of them."""
    found = []
    for folder in sorted(one for one in GALLERY.iterdir() if one.is_dir() and (not names or one.name in names)):
        schedules = {path.stem.split("-", 1)[1]: path.read_text() for path in sorted(folder.glob("*-*.sched"))}
        refused, schedules = schedules.pop("refused"), {"breadth": schedules.pop("breadth"), **schedules}
        found.append(Application(folder.name, (folder / f"{folder.name}.alg").read_text(), schedules, refused))
    return found


def kind_of(text, is_random):
    """The kind of picture that an application takes."""
    sort, extents = re.search(r"\binput\s+\w+\s+(\w+)\s*\[([^\]]*)\]", text).groups()
    if sort == "u16":
        return "random12" if is_random else "mosaic"
    if extents.count(",") == 2:
        return "random3" if is_random else "colour"
    return "random" if is_random else "grey"


def shortened(application):
    """The application with fewer of its steps, where it is a chain of them."""
    if application.name != "chain":
        return application

    def cut(text, steps):
        """The lines of these steps alone, with their new numbers; the output reads the last one."""
        kept = [line for line in text.splitlines()
                if not (found := re.match(r"(?:func )?b(\d+)\b", line)) or int(found[1]) in steps]
        return re.sub(r"\bb(\d+)\b", lambda one: f"b{steps.get(int(one[1]), STEPS)}", "\n".join(kept)) + "\n"

    firsts = {number: number for number in range(STEPS + 1)}
    schedules = {name: cut(text, EIGHTHS if "(b8," in text else firsts) for name, text in application.schedules.items()}
    return Application(application.name, cut(application.text, firsts), schedules, "")


# ---- runs ----


def run(program, folder, *words):
    """One run of the program."""
    return subprocess.run([program, *words], cwd=folder, capture_output=True, timeout=1200)


def told(outcome):
    """The code of a refusal, and the whole line where it is none."""
    line = outcome.stderr.decode(errors="replace").strip()
    found = re.match(r"stencil: ([A-Z]\d+)\b", line)
    return found[1] if found else f"status {outcome.returncode} {line}"


def write(folder, application, size, is_random):
    """Puts the texts and the picture of an application into a folder."""
    Path(folder, "a.alg").write_text(sized(application.text, *size))
    Path(folder, "in").write_bytes(scene(kind_of(application.text, is_random), *size))


def picture_by(program, folder, name, schedule, size, workers):
    """The picture of a schedule by one worker, the code of a refusal, and what is wrong."""
    Path(folder, f"{name}.sched").write_text(sized(schedule, *size))
    made = run(program, folder, "compile", "a.alg", f"{name}.sched", f"{name}.plan")
    if made.returncode != 0:
        return None, told(made), ""
    if run(program, folder, "check", "a.alg", f"{name}.plan").returncode != 0:
        return None, None, "a compiled plan is not accepted"
    pictures = []
    for count in workers:
        out = f"{name}.{count}"
        done = run(program, folder, "run", "a.alg", f"{name}.plan", "in", out, "--workers", str(count))
        if done.returncode != 0:
            return None, None, f"run by {count}: {told(done)}"
        pictures.append(Path(folder, out).read_bytes())
    if any(one != pictures[0] for one in pictures):
        return None, None, "workers give different pictures"
    return pictures[0], None, ""


def samples_of(picture):
    """The samples of a picture's file."""
    with tempfile.TemporaryDirectory() as folder:
        Path(folder, "picture").write_bytes(picture)
        return read(Path(folder, "picture"))[3]


def compared(application, size, folder, picture):
    """Whether a picture is the one of the reference, and of the application's model, where there is one."""
    samples, given = samples_of(picture), read(Path(folder, "in"))[3]
    wanted = [("the reference's", gallery_reference.picture(sized(application.text, *size), given)[0])]
    if application.name in MODELS:
        wanted.append(("the model's", MODELS[application.name](*size, given)))
    return [Outcome(f"{application.name} {size}: {whose}", "" if one == samples else "another picture") for whose, one in wanted]


# ---- what is compared ----


def tiny(program, application):
    """Whether each schedule gives `plain`'s picture at a tiny size."""
    short, size = shortened(application), TINY.get(application.name, (12, 10))
    outcomes = []
    with tempfile.TemporaryDirectory() as folder:
        write(folder, short, size, True)
        done = run(program, folder, "plain", "a.alg", "in", "plain")
        if done.returncode != 0:
            return [Outcome(f"{application.name}: plain", told(done))]
        plain = Path(folder, "plain").read_bytes()
        for name, schedule in short.schedules.items():
            picture, code, wrong = picture_by(program, folder, name, schedule, size, (1, 3))
            if not wrong and picture != plain:
                wrong = f"refused: {code}" if code else "another picture than plain's"
            outcomes.append(Outcome(f"{application.name} {name} {size}: plain's", wrong))
    return outcomes


def odd_size(program, application, size):
    """Whether each schedule gives the breadth-first picture and the model's at a size, or is refused where it has to be."""
    outcomes, first = [], None
    with tempfile.TemporaryDirectory() as folder:
        write(folder, application, size, True)
        for name, schedule in application.schedules.items():
            picture, code, wrong = picture_by(program, folder, name, schedule, size, (3,))
            wanted = REFUSED.get((application.name, size))
            if not wrong and code != wanted:
                wrong = f"{code or 'compiled'} where {wanted or 'a picture'} is due"
            first = first or picture
            if not wrong and picture is not None and picture != first:
                wrong = "another picture than the breadth-first one"
            outcomes.append(Outcome(f"{application.name} {name} {size}", wrong))
        if first is not None:
            outcomes += compared(application, size, folder, first)
    return outcomes


def refusal(program, application, telling):
    """Whether the application's refused schedule is refused at the main size as its first line says, and told as on the page."""
    with tempfile.TemporaryDirectory() as folder:
        text = f"{application.name}.alg"
        Path(folder, text).write_text(sized(application.text, *MAIN))
        Path(folder, "refused.sched").write_text(sized(application.refused, *MAIN))
        told = run(program, folder, "compile", text, "refused.sched", "refused.plan", "--explain").stderr.decode(errors="replace")
        seconds = min(measured([program, "compile", text, "refused.sched", "refused.plan"], folder)[0] for _ in range(3))
    wanted = "stencil: " + application.refused.splitlines()[0].removeprefix("# Refused: ")
    line = told.split("\n", 1)[0]
    wrong = "" if line == wanted else f"{line or 'compiled'} where {wanted} is due"
    if not wrong and f"```text\n{told}```\n" not in PAGE.read_text():
        wrong = f"told otherwise than in {PAGE.name}:\n{told}"
    if not wrong and " L11 " in line and seconds >= telling:
        wrong = f"told in {seconds:.2f} s"
    return Outcome(f"{application.name} refused", wrong)


# What a small process tells of a run: a process counts, until it becomes the program, what its parent holds.
MEASURING = """
import os, sys, time
start = time.monotonic()
_, _, usage = os.wait4(os.posix_spawnp(sys.argv[1], sys.argv[1:], os.environ), 0)
print(time.monotonic() - start, usage.ru_maxrss / 1024)
"""


def measured(words, folder):
    """Seconds and MiB that a run takes: the last line, behind what the run itself prints."""
    told = subprocess.run([sys.executable, "-I", "-S", "-c", MEASURING, *words], cwd=folder, capture_output=True, text=True)
    seconds, memory = told.stdout.splitlines()[-1].split()
    return float(seconds), float(memory)


def main_size(program, application):
    """Whether each schedule is compiled soon and gives the breadth-first picture and the model's at the main size."""
    outcomes, first = [], None
    with tempfile.TemporaryDirectory() as folder:
        write(folder, application, MAIN, False)
        for name, schedule in application.schedules.items():
            picture, code, wrong = picture_by(program, folder, name, schedule, MAIN, (1, 3))
            first = first or picture
            if not wrong and picture is None:
                wrong = f"refused: {code}"
            if not wrong and picture != first:
                wrong = "another picture than the breadth-first one"
            for words in (["compile", "a.alg", f"{name}.sched", "again.plan"], ["check", "a.alg", f"{name}.plan"]):
                seconds, memory = measured([program, *words], folder)
                if not wrong and (seconds >= SECONDS or memory >= MEMORY):
                    wrong = f"{words[0]}: {seconds:.2f} s, {memory:.0f} MiB"
            outcomes.append(Outcome(f"{application.name} {name} {MAIN}", wrong))
        if first is not None:
            outcomes += compared(application, MAIN, folder, first)
    return outcomes


def main():
    words = argparse.ArgumentParser()
    words.add_argument("program")
    words.add_argument("names", nargs="*")
    words.add_argument("--all", action="store_true")
    given = words.parse_intermixed_args()
    program = str(Path(given.program).resolve())
    jobs = []
    with ThreadPoolExecutor(os.cpu_count()) as pool:
        for application in applications(given.names):
            jobs.append(pool.submit(tiny, program, application))
            jobs += [pool.submit(odd_size, program, application, size) for size in SIZES + FURTHER.get(application.name, [])]
        if not given.all:
            jobs += [pool.submit(lambda one: [refusal(program, one, TELLING)], one) for one in applications(given.names)]
        outcomes = [one for job in jobs for one in job.result()]
    if given.all:
        outcomes += [refusal(program, one, TELLING_ALONE) for one in applications(given.names)]
        for application in applications(given.names):
            outcomes += main_size(program, application)
    for one in outcomes:
        if one.wrong:
            print(f"FAILED {one.what}: {one.wrong}")
    failed = sum(1 for one in outcomes if one.wrong)
    print(f"{len(outcomes) - failed} passed, {failed} failed")
    return 1 if failed else 0


if __name__ == "__main__":
    sys.exit(main())
