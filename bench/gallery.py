#!/usr/bin/env python3
"""Writes docs/GALLERY.md and its pictures: what each application of the gallery does and what each of its schedules costs.

usage: gallery.py PROGRAM [--compare]

The pictures are what the program writes at 320 by 240, of the scene that scene.py makes; the costs are those that it counts, and
the times are the best of three whole processes. With `--compare` nothing is written: it is told what on the page, but for times,
or in a picture, is not what the program gives now.
"""

import re
import subprocess
import sys
import tempfile
from dataclasses import dataclass
from pathlib import Path

ROOT = Path(__file__).resolve().parent.parent
sys.path[:0] = [str(ROOT / folder) for folder in ("tests", "bench", "examples/gallery")]

import png  # noqa: E402
from gallery import MAIN, applications, kind_of, write  # noqa: E402
from halide import machine, number, own_figures  # noqa: E402
from size import sized  # noqa: E402

PAGE = ROOT / "docs" / "GALLERY.md"
PICTURES = ROOT / "docs" / "gallery"
LARGEST = 40_000

# The order of the page, and by which schedule each picture is made.
ORDER = ["photo", "shading", "median", "bilateral", "unsharp", "local", "equalise", "enlarge", "reduce", "harris", "canny",
         "morph", "box", "chain", "dither"]

# Parts of a picture of 320 by 240: the first one of which both pictures stay below LARGEST is shown.
PARTS = [(0, 0, 320, 240), (40, 60, 240, 160), (60, 80, 200, 130), (70, 90, 180, 110), (80, 90, 150, 100)]

# So many runs of a schedule are measured; the columns of times, and where they stand on a line of the page.
REPEATS = 3
TIMES = ["compile", "check", "run 1", "run 4", "MiB"]
TIMED = re.compile(r"^(\| `\w+` \|(?: [\d,]+ \|){5}).*$|^Times are .*$", re.MULTILINE)

HEAD = """# The gallery

Fifteen applications stand in `examples/gallery/`, each with an algorithm, schedules as one would write them for Halide, and a \
README. Texts have `@W@` and `@H@` where a size stands; `size.py` fills them in, and `bench/scene.py` makes the pictures:

```console
$ python3 bench/scene.py grey 320 240 in.pgm
$ python3 examples/gallery/size.py examples/gallery/canny/canny.alg 320 240 canny.alg
$ stencil compile canny.alg examples/gallery/canny/canny-slide.sched canny.plan
$ stencil run canny.alg canny.plan in.pgm edges.pgm --workers 4
$ stencil compare canny.alg in.pgm examples/gallery/canny/canny-slide.sched examples/gallery/canny/canny-tiles.sched --by-first
%s```

This page is written by `make gallery`, from what the program gives. Costs are counted at 320 by 240: an application's table has \
for each schedule the sums of the columns that `stencil cost` prints, and under it stands each schedule with all of what it \
prints, and last one that is refused, with what `--explain` tells of it. What bounds can't see, and so makes a piece fetch or \
compute more than it needs, stands in [SCHEDULES.md](SCHEDULES.md#what-the-bounds-cant-see).

Times are milliseconds of whole processes, files and the plan's check included, the best of %s: of `compile`, of `check`, and of \
`run` by one worker and by four; `MiB` is the greatest peak of resident memory of them. Measured on %s. Halide's times for the \
same schedules, measured in one run with the program's, stand in [SPEED.md](SPEED.md#beside-halide).
"""


def run(program, folder, *words):
    """What a run that has to succeed prints."""
    done = subprocess.run([program, *words], cwd=folder, capture_output=True, text=True, timeout=3600)
    if done.returncode != 0:
        raise SystemExit(f"{' '.join(words)}: {done.stderr.strip()}")
    return done.stdout


@dataclass
class Figures:
    """What is told of a schedule: the table of what it costs, how many lines its plan has, and its times by their columns."""

    table: str
    lines: int
    times: dict


def figures_of(program, application, name, folder, is_timed):
    """The figures of a schedule; without times where they aren't asked for."""
    Path(folder, f"{name}.sched").write_text(sized(application.schedules[name], *MAIN))
    run(program, folder, "compile", "a.alg", f"{name}.sched", f"{name}.plan")
    lines = len(Path(folder, f"{name}.plan").read_text().splitlines())
    times = own_figures(program, folder, name, REPEATS) if is_timed else {}
    return Figures(run(program, folder, "cost", "a.alg", f"{name}.plan"), lines, times)


def told_of(program, application, folder):
    """What the program tells with `--explain` of the schedule that an application keeps to show a refusal."""
    text = f"{application.name}.alg"
    Path(folder, text).write_text(sized(application.text, *MAIN))
    Path(folder, "refused.sched").write_text(sized(application.refused, *MAIN))
    words = [program, "compile", text, "refused.sched", "refused.plan", "--explain"]
    return subprocess.run(words, cwd=folder, capture_output=True, text=True, timeout=3600).stderr


def compared_by_first(program):
    """What the last command of the page's first block prints."""
    with tempfile.TemporaryDirectory() as folder:
        for name in ("bench", "examples"):
            Path(folder, name).symlink_to(ROOT / name)
        for line in HEAD.split("```console\n")[1].splitlines():
            if line.startswith("$ "):
                words = [program if word == "stencil" else word for word in line[2:].split()]
                done = subprocess.run(words, cwd=folder, capture_output=True, text=True, timeout=3600)
                if done.returncode != 0:
                    raise SystemExit(f"{line}: {done.stderr.strip()}")
    return done.stdout


def picture_of(program, application, folder):
    """The file of an application's picture by the first schedule of rows that it has."""
    name = "rows"
    Path(folder, f"{name}.sched").write_text(sized(application.schedules[name], *MAIN))
    run(program, folder, "compile", "a.alg", f"{name}.sched", f"{name}.plan")
    run(program, folder, "run", "a.alg", f"{name}.plan", "in", "out", "--workers", "4")
    return Path(folder, "out")


def sums(table):
    """The sums of the columns of a table of costs."""
    rows = [[int(one) for one in line.split()[1:]] for line in table.splitlines()[1:]]
    return [sum(column) for column in zip(*rows)]


def shown(picture, number):
    """The bytes of the PNG file of the part with this number of a picture."""
    width, height = png.read(picture)[:2]
    across, down = (width, MAIN[0]), (height, MAIN[1])
    part = tuple(one * have // of for one, (have, of) in zip(PARTS[number], (across, down, across, down)))
    return png.converted(picture, None if number == 0 else part)


def largest_part(picture):
    """The number of the largest part of a picture that stays below LARGEST."""
    for number in range(len(PARTS)):
        if len(shown(picture, number)) < LARGEST:
            return number
    raise SystemExit(f"{picture}: no part of it stays below {LARGEST} bytes")


def pair(name, kind, before, after):
    """The files of an application's two pictures by their names, of the same part of each; the one before comes first."""
    number = max(largest_part(before), largest_part(after))
    return {kind if number == 0 else f"{kind}-{number}": shown(before, number), name: shown(after, number)}


def readme_of(application):
    """The heading of an application's README and what stands under it."""
    text = (ROOT / "examples" / "gallery" / application.name / "README.md").read_text()
    heading, rest = text.split("\n", 1)
    return heading.lstrip("# "), rest.strip()


def folded(name, schedule, told):
    """A schedule with what is told of it, to be unfolded."""
    return ["", "<details>", f"<summary><code>{name}.sched</code></summary>", "", "```", schedule.strip(), "```", "", "```text",
            told.rstrip("\n"), "```", "", "</details>"]


def section(application, before, found, refusal):
    """The part of the page about an application."""
    heading, text = readme_of(application)
    columns = ["Schedule", "Stores", "Private", "Fetched", "Pieces", "Lines of the plan", *TIMES]
    lines = [f"## {heading}", "", text.replace("\n", "\n\n", 1).replace("\n- ", "\n\n- ", 1).replace("\nLook at", "\n\nLook at")
             .replace("\nRefused", "\n\nRefused"), "", f"![before](gallery/{before}.png) ![after](gallery/{application.name}.png)", "",
             "| " + " | ".join(columns) + " |", "|" + "---|" * len(columns)]
    for name, one in found.items():
        costs = [f"{count:,}" for count in sums(one.table)]
        lines.append("| " + " | ".join([f"`{name}`", *costs, str(one.lines), *(number(one.times.get(key)) for key in TIMES)]) + " |")
    for name, one in found.items():
        lines += folded(f"{application.name}-{name}", application.schedules[name], one.table)
    return "\n".join(lines + folded(f"{application.name}-refused", application.refused, refusal)) + "\n"


def made(program, is_timed):
    """The page's text, and the files of its pictures by their names."""
    found = {one.name: one for one in applications(ORDER)}
    parts, pictures = [HEAD % (compared_by_first(program), REPEATS, machine())], {}
    for name in ORDER:
        application = found[name]
        with tempfile.TemporaryDirectory() as folder:
            write(folder, application, MAIN, False)
            both = pair(name, kind_of(application.text, False), Path(folder, "in"), picture_of(program, application, folder))
            pictures.update(both)
            figures = {one: figures_of(program, application, one, folder, is_timed) for one in application.schedules}
            parts.append(section(application, next(iter(both)), figures, told_of(program, application, folder)))
    return "\n".join(parts), pictures


def without_times(page):
    """A page without what is another at each run."""
    return TIMED.sub(lambda found: found[1] or "", page)


def differences(page, pictures):
    """What of the page and its pictures stands otherwise in docs."""
    wrong = [] if PAGE.exists() and without_times(PAGE.read_text()) == without_times(page) else [f"{PAGE}: another text"]
    for name, data in pictures.items():
        path = PICTURES / f"{name}.png"
        if not path.exists() or png.pixels(path.read_bytes()) != png.pixels(data):
            wrong.append(f"{path}: another picture")
    return wrong


def main():
    if len(sys.argv) < 2 or sys.argv[2:] not in ([], ["--compare"]):
        sys.exit(__doc__.splitlines()[2])
    page, pictures = made(str(Path(sys.argv[1]).resolve()), not sys.argv[2:])
    if sys.argv[2:]:
        wrong = differences(page, pictures)
        for line in wrong:
            print(f"FAILED {line}")
        print(f"{len(pictures) + 1 - len(wrong)} passed, {len(wrong)} failed")
        return 1 if wrong else 0
    PICTURES.mkdir(exist_ok=True)
    PAGE.write_text(page)
    for name, data in pictures.items():
        (PICTURES / f"{name}.png").write_bytes(data)
    kilobytes = sum(map(len, pictures.values())) // 1024
    print(f"{PAGE}: {len(page.splitlines())} lines, {len(pictures)} pictures of {kilobytes} KB")
    return 0


if __name__ == "__main__":
    sys.exit(main())
