#!/usr/bin/env python3
"""Runs the cases of tests/cases on a built program and tells what differs.

    python3 tests/run.py PROGRAM [NAME..]

README.md beside this file says how a case is written.
"""

import json
import os
import re
import subprocess
import sys
import tempfile
import threading
from concurrent.futures import ThreadPoolExecutor
from dataclasses import dataclass
from pathlib import Path

TESTS = Path(__file__).resolve().parent
CASES = TESTS / "cases"
EXAMPLES = TESTS.parent / "examples"

# What a row may say. `name`, `about` and `rows` are for readers and for the list of rows.
KEYS = {
    "name", "about", "rows", "words", "examples", "files", "lines", "folders", "pipes", "stdin", "stdin_from",
    "stdout_to", "stderr_to", "status", "stdout", "stderr", "stdout_begins", "stderr_begins", "writes", "alterations",
    "seconds",
}


@dataclass
class Row:
    """One run of the program: its name, the folder of its case, and what the case says of it."""

    name: str
    folder: Path
    says: dict


@dataclass
class Outcome:
    """What came of a run: the status, what was printed, and the files that stand in its folder afterwards."""

    status: object
    out: bytes
    err: bytes
    files: dict


# ---- what a case says ----


def repeated(part):
    """The bytes of a part: a text, or a text for each number from one to another."""
    if isinstance(part, str):
        return part.encode("latin-1")
    text, first, last = part["repeat"], part["from"], part["to"]
    if "{" not in text:
        return text.encode("latin-1") * (last + 1 - first)
    each = (re.sub(r"\{n([+-]\d+)?\}", lambda found: str(n + int(found[1] or 0)), text) for n in range(first, last + 1))
    return "".join(each).encode("latin-1")


def words_of(says):
    """The words of a run: in place of one there may be a word for each number from one to another."""
    words = []
    for word in says.get("words", []):
        if isinstance(word, dict):
            numbers = range(word["from"], word["to"] + 1)
            words.extend(repeated({**word, "from": number, "to": number}).decode("latin-1") for number in numbers)
        else:
            words.append(word)
    return words


def pixels(width, height, more):
    """A raw PGM file whose pixels differ from their neighbours, each so much greater, modulo 256."""
    raster = bytes(((place * 7) ^ (place >> 8)) + more & 255 for place in range(width * height))
    return b"P5\n%d %d\n255\n" % (width, height) + raster


def content(value):
    """The bytes of a file as a case gives them: each character of a text stands for one byte."""
    if isinstance(value, dict):
        return pixels(*value["pixels"], value.get("more", 0))
    parts = value if isinstance(value, list) else [value]
    return b"".join(repeated(part) for part in parts)


def merged(base, row):
    """What a row says, where the case says the rest; files by name are joined, and all of a stream replaces its beginning."""
    says = {key: value for key, value in base.items() if key not in ("rows", "about")}
    for key, value in row.items():
        says.pop(f"{key}_begins", None)
        both = isinstance(value, dict) and isinstance(says.get(key), dict)
        says[key] = {**says[key], **value} if both else value
    return says


def rows_of(folder):
    """The rows of a case, or the case itself where it has none."""
    base = json.loads((folder / "case.json").read_text(encoding="utf-8"))
    rows = base.get("rows", [{}])
    for says in [base, *rows]:
        unknown = set(says) - KEYS
        if unknown:
            raise SystemExit(f"{folder.name}: unknown keys {sorted(unknown)}")
    return [
        Row(f"{folder.name}: {row['name']}" if "name" in row else folder.name, folder, merged(base, row))
        for row in rows
    ]


# ---- the folder of a run ----


def with_lines(text, lines):
    """The text with other lines at these numbers, counted from 1; a line that is null is left out."""
    old = text.split(b"\n")
    for number, line in lines.items():
        if not 0 < int(number) < len(old):
            raise SystemExit(f"a text of {len(old) - 1} lines has no line {number}")
        old[int(number) - 1] = None if line is None else line.encode("latin-1")
    return b"\n".join(line for line in old if line is not None)


def files_of(row):
    """The files that a run finds: the examples that it names, those of its case, and those that it writes out."""
    files = {name: (EXAMPLES / name).read_bytes() for name in row.says.get("examples", [])}
    for path in sorted(row.folder.iterdir()):
        if path.is_file() and path.name != "case.json":
            files[path.name] = path.read_bytes()
    for name, value in row.says.get("files", {}).items():
        files[name] = content(value)
    for name, lines in row.says.get("lines", {}).items():
        files[name] = with_lines(files[name], lines)
    return files


def lay(room, row):
    """Lays the files, folders and pipes of a run into its folder."""
    for name in row.says.get("folders", []):
        (room / name).mkdir()
    for name in row.says.get("pipes", {}):
        os.mkfifo(room / name)
    for name, data in files_of(row).items():
        (room / name).write_bytes(data)


def standing(room):
    """What stands in a folder: the bytes of each file, and what else has a name."""
    found = {}
    for path in sorted(room.rglob("*")):
        name = str(path.relative_to(room))
        try:
            held = path.read_bytes() if path.is_file() else "a folder" if path.is_dir() else "a pipe"
        except FileNotFoundError:
            continue
        # (another run may have taken it away meanwhile)
        if os.path.lexists(path):
            found[name] = held
    return found


class Pipe(threading.Thread):
    """The other end of a pipe: it gives bytes, or takes what the program writes."""

    def __init__(self, path, gives):
        super().__init__(daemon=True)
        self.path, self.gives, self.taken = path, gives, None
        self.start()

    def run(self):
        """Opens the pipe, which waits for the program, and moves the bytes."""
        try:
            if self.gives is None:
                self.taken = self.path.read_bytes()
            else:
                self.path.write_bytes(self.gives)
        except OSError:
            pass

    def end(self):
        """Lets go of a pipe that the program never opened, and gives what was taken."""
        way = os.O_WRONLY if self.gives is None else os.O_RDONLY
        while self.is_alive():
            try:
                os.close(os.open(self.path, way | os.O_NONBLOCK))
            except OSError:
                pass
            self.join(0.05)
        return self.taken


# ---- a run ----


def stream(room, says, key, otherwise, mode):
    """A file in the place of a standard stream, where the case names one."""
    if key not in says:
        return otherwise
    return os.open(room / says[key], mode)


def printed_by(program, words, room, says):
    """Runs the program in a folder and gives its status and what it printed; the status is None after too long a time."""
    given = stream(room, says, "stdin_from", subprocess.PIPE, os.O_RDONLY)
    out = stream(room, says, "stdout_to", subprocess.PIPE, os.O_WRONLY)
    err = stream(room, says, "stderr_to", subprocess.PIPE, os.O_WRONLY)
    data = content(says.get("stdin", "")) if given == subprocess.PIPE else None
    try:
        done = subprocess.run(
            [program, *words], cwd=room, input=data, stdin=None if data is not None else given, stdout=out, stderr=err,
            timeout=says.get("seconds", 60), check=False)
        return done.returncode, done.stdout or b"", done.stderr or b""
    except subprocess.TimeoutExpired as late:
        return None, late.stdout or b"", late.stderr or b""
    finally:
        for opened in (given, out, err):
            if opened != subprocess.PIPE:
                os.close(opened)


def outcome(program, row, room):
    """Runs a row in a folder in which its files lie."""
    ends = {}
    for name, ways in row.says.get("pipes", {}).items():
        gives = content(ways["gives"]) if "gives" in ways else None
        ends[name] = Pipe(room / name, gives)
    status, out, err = printed_by(program, words_of(row.says), room, row.says)
    taken = {name: end.end() for name, end in ends.items()}
    files = standing(room)
    files.update({name: data for name, data in taken.items() if data is not None})
    return Outcome(status, out, err, files)


def shown(value):
    """A value in print; of many bytes the first ones."""
    if isinstance(value, bytes) and len(value) > 300:
        return f"{value[:300]!r}.. ({len(value)} bytes)"
    return "nothing" if value is None else repr(value)


def difference(what, wanted, found):
    """One line that tells of a difference, where there is one."""
    if wanted == found:
        return []
    if isinstance(wanted, bytes) and isinstance(found, bytes) and max(len(wanted), len(found)) > 300:
        pairs = enumerate(zip(wanted, found))
        first = next((place for place, (one, other) in pairs if one != other), min(len(wanted), len(found)))
        return [f"{what}: from byte {first} wanted {shown(wanted[first:])}, found {shown(found[first:])}"]
    return [f"{what}: wanted {shown(wanted)}, found {shown(found)}"]


def stream_difference(says, key, found):
    """How a stream differs from what the case says of it: all of it, or its beginning."""
    begins = says.get(f"{key}_begins")
    if begins is not None:
        wanted = content(begins)
        return difference(f"{key} begins", wanted, found[:len(wanted)])
    return difference(key, content(says.get(key, "")), found)


def wanted_files(row, before):
    """The files that have to stand there afterwards: those from before, and those that the run writes."""
    wanted = dict(before)
    expected = row.folder / "expected"
    if expected.is_dir() and row.says.get("status", 0) == 0:
        wanted.update({path.name: path.read_bytes() for path in expected.iterdir()})
    wanted.update({name: content(value) for name, value in row.says.get("writes", {}).items()})
    return wanted


def differences(row, before, found):
    """All in which a run differs from what its case says."""
    said = difference("status", row.says.get("status", 0), found.status)
    said += stream_difference(row.says, "stdout", found.out)
    said += stream_difference(row.says, "stderr", found.err)
    wanted = wanted_files(row, before)
    for name in sorted(set(wanted) | set(found.files)):
        said += difference(f"file {name}", wanted.get(name), found.files.get(name))
    return said


def tried(program, row):
    """Runs a row in a folder of its own and gives the differences."""
    with tempfile.TemporaryDirectory() as name:
        room = Path(name)
        lay(room, row)
        before = standing(room)
        return differences(row, before, outcome(program, row, room))


# ---- all cases ----


def tries(program, folder):
    """The names of a case's runs, each with the call that gives its differences."""
    for row in rows_of(folder):
        yield row.name, lambda row=row: tried(program, row)


def main(words):
    """Runs the cases that are named, or all, and tells what failed. The answer is the exit status."""
    if not words:
        print(__doc__.strip(), file=sys.stderr)
        return 2
    program = str(Path(words[0]).resolve())
    known = sorted(path.parent.name for path in CASES.glob("*/case.json"))
    names = words[1:] or known
    for name in names:
        if name not in known:
            print(f"no case {name}", file=sys.stderr)
            return 2
    passed = failed = 0
    with ThreadPoolExecutor(os.cpu_count()) as pool:
        waiting = [(name, pool.submit(call)) for case in names for name, call in tries(program, CASES / case)]
        for name, call in waiting:
            said = call.result()
            passed, failed = passed + (not said), failed + bool(said)
            if said:
                print(f"FAILED {name}", *said, sep="\n    ", flush=True)
    print(f"{passed} passed, {failed} failed")
    return 1 if failed else 0


if __name__ == "__main__":
    sys.exit(main(sys.argv[1:]))
