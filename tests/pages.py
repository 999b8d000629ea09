#!/usr/bin/env python3
"""Runs the commands that pages show, on a built program, and compares what they print.

    python3 tests/pages.py PROGRAM [PAGE..]

A block ```console of a page is run, and so is an indented one that begins with a command: a line that begins with `$ ` is a
command, and the lines behind it, up to the next one, are what it prints. The blocks of a page run one after another in a
folder of their own, in which `examples` and `bench` lie. Without names the pages are README.md and those of docs, and what `explain`
prints is compared with the page of codes.
"""

import os
import re
import shutil
import subprocess
import sys
import tempfile
from pathlib import Path

ROOT = Path(__file__).resolve().parent.parent
BLOCK = re.compile(r"^```console\n(.*?)^```$|((?:^    [^\n]*\n)+)", re.MULTILINE | re.DOTALL)


def blocks(text):
    """The blocks of a page that are run, in their order."""
    for fenced, indented in BLOCK.findall(text):
        block = fenced or re.sub("^    ", "", indented, flags=re.MULTILINE)
        if block.startswith("$ "):
            yield block


def commands(block):
    """The commands of a block, each with the lines that it prints."""
    found = []
    for line in block.splitlines():
        if line.startswith("$ "):
            found.append((line[2:], []))
        else:
            found[-1][1].append(line)
    return found


def run_page(program, page):
    """What differs on a page, and how many commands it has."""
    count, wrong = 0, []
    with tempfile.TemporaryDirectory() as folder:
        for name in ("examples", "bench"):
            shutil.copytree(ROOT / name, Path(folder, name))
        Path(folder, "bin").mkdir()
        Path(folder, "bin", "stencil").symlink_to(program)
        surroundings = {**os.environ, "PATH": f"{folder}/bin:{os.environ['PATH']}"}
        for block in blocks(page.read_text()):
            for command, wanted in commands(block):
                told = subprocess.run(
                    command, shell=True, cwd=folder, env=surroundings, timeout=60, text=True,
                    stdin=subprocess.DEVNULL, stdout=subprocess.PIPE, stderr=subprocess.STDOUT)
                count += 1
                if told.stdout.splitlines() != wanted:
                    wrong.append(f"{page.name}: {command}\n    wanted {wanted}\n    printed {told.stdout.splitlines()}")
    return count, wrong


def explained(program, page):
    """The sections of the page of codes that `explain` prints otherwise, and how many there are."""
    sections = re.findall(r"^### (\S+)\n\n(.*?)(?=^##|\Z)", page.read_text(), re.MULTILINE | re.DOTALL)
    wrong = []
    for code, text in sections:
        told = subprocess.run([program, "explain", code], timeout=60, text=True, stdin=subprocess.DEVNULL, capture_output=True)
        if (told.returncode, told.stdout, told.stderr) != (0, text.rstrip("\n") + "\n", ""):
            wrong.append(f"{page.name}: explain {code}\n    wanted {text!r}\n    printed {told.stdout!r} {told.stderr!r}")
    return len(sections), wrong


def main():
    if len(sys.argv) < 2:
        raise SystemExit(__doc__)
    program = Path(sys.argv[1]).resolve()
    pages = [Path(name) for name in sys.argv[2:]] or [ROOT / "README.md", *sorted((ROOT / "docs").glob("*.md"))]
    count, wrong = 0, []
    for page in pages:
        here, differs = run_page(program, page)
        count += here
        wrong += differs
    if not sys.argv[2:]:
        here, differs = explained(program, ROOT / "docs" / "CODES.md")
        count += here
        wrong += differs
    for line in wrong:
        print("FAILED", line)
    print(f"{count - len(wrong)} passed, {len(wrong)} failed")
    return 1 if wrong else 0


if __name__ == "__main__":
    sys.exit(main())
