#!/usr/bin/env python3
"""Tries altered plans on a built program, and tells what it answers.

    python3 tests/hostile.py PROGRAM [NAME..] [--all] [--seed N]

The plans are those of the cases with `alterations`, or of those that are named. Each is tried with one number, one line or one
beginning of it otherwise, one change at a time: of all changes a tenth that the seed chooses, with `--all` all of them. A plan
is refused as plans are, or it is accepted; then every order of workers that is tried finishes it, and one worker and three
compute the picture that `plain` computes. It tells how many were tried and accepted, and how many refused by each code, and
ends with `N passed, M failed` (status 1 where any failed).
"""

import argparse
import os
import random
import re
import sys
import tempfile
from collections import Counter
from concurrent.futures import ThreadPoolExecutor
from dataclasses import dataclass
from pathlib import Path

from run import CASES, Row, difference, files_of, lay, printed_by, rows_of, shown, standing

# A refusal of a plan: its status, and the one line that is printed.
REFUSALS = {1: re.compile(rb"stencil: (K[0-9]+) line [0-9]+\n"), 3: re.compile(rb"stencil: (N[12]) line [0-9]+\n")}

ACCEPTED = re.compile(rb"accepted ([0-9]+) pieces ([0-9]+) cells\n")

# Numbers at limits of plans and of 64 bits, and past them.
PAST = (1048577, 1099511627777, 9223372036854775807, 9223372036854775808)

# Whose turns an order has, again and again.
ORDERS = ("0 ", "0 1 ", "0 1 2 ")

WORKERS = ("1", "3")

# What every run may take: seconds.
TIME = {"seconds": 300}


@dataclass
class Plan:
    """A plan that is right, with its case, and the picture that `plain` computes."""

    row: Row
    text: bytes
    picture: bytes


@dataclass
class Change:
    """A changed plan: what was changed, the text, and the line at which it is no plan any more, where that is sure."""

    name: str
    text: bytes
    line: object = None


# ---- changes ----


def with_numbers(plan):
    """The plan with each number by itself made 0, one more, one less, and numbers that pass limits."""
    for number in re.finditer(rb"[0-9]+", plan):
        value = int(number[0])
        for other in dict.fromkeys((0, value + 1, value - 1, *PAST)):
            if other != value:
                changed = plan[:number.start()] + str(other).encode() + plan[number.end():]
                yield Change(f"{other} at byte {number.start()}", changed)


def with_other_lines(plan):
    """The plan with each line by itself left out, doubled, or changed with the next."""
    lines = plan.splitlines(keepends=True)
    for place, line in enumerate(lines):
        rest = lines[place + 1:]
        changes = {"left out": rest, "doubled": [line, line, *rest]}
        if rest:
            changes["changed with the next"] = [rest[0], line, *rest[1:]]
        for what, after in changes.items():
            yield Change(f"line {place + 1} {what}", b"".join(lines[:place] + after))


def beginnings(plan):
    """Every proper beginning of the plan: it is no plan, from the first line on that is not whole."""
    for length in range(len(plan)):
        yield Change(f"the first {length} bytes", plan[:length], 1 + plan[:length].count(b"\n"))


def inserted(plan, what, places, text):
    """The plan with a text put in at each of these places by itself, and the number of that line."""
    for found in re.finditer(places, plan):
        place = found.start()
        yield Change(f"{what} at byte {place}", plan[:place] + text + plan[place:], 1 + plan[:place].count(b"\n"))


def out_of_order(plan):
    """The plan with two neighbouring terms of a form changed with one another."""
    for found in re.finditer(rb"([+-][0-9]+\*s[0-9]+)(?=([+-][0-9]+\*s[0-9]+))", plan):
        changed = plan[:found.start()] + found[2] + found[1] + plan[found.end(2):]
        yield Change(f"terms out of order at byte {found.start()}", changed, 1 + plan[:found.start()].count(b"\n"))


def second_spellings(plan):
    """The plan with a blank, a CR, a leading zero, a sign or a term too many, or terms out of order: it is no plan, from there on."""
    number = rb"(?<![0-9A-Za-z_])"
    yield from inserted(plan, "a second blank", rb"(?= )", b" ")
    yield from inserted(plan, "an indented line", rb"(?m)^(?=.)", b" ")
    yield from inserted(plan, "a blank at the end", rb"(?m)(?<=.)$", b" ")
    yield from inserted(plan, "CR", rb"\n", b"\r")
    yield from inserted(plan, "a leading zero", number + rb"[0-9]", b"0")
    yield from inserted(plan, "a plus", number + rb"[0-9]", b"+")
    yield from inserted(plan, "a minus", number + rb"0(?![0-9])", b"-")
    yield from inserted(plan, "a term of nothing", rb"(?<=[0-9])(?=[\n :;,#\]+-])", b"+0*s0")
    yield from out_of_order(plan)


WAYS = {"numbers": with_numbers, "lines": with_other_lines, "beginnings": beginnings, "second spellings": second_spellings}


# ---- what is answered ----


def room_with(row, plan=None):
    """A new folder with the files of a row, and this plan in the place of its own."""
    folder = tempfile.TemporaryDirectory()
    lay(Path(folder.name), row)
    if plan is not None:
        Path(folder.name, row.says["words"][2]).write_bytes(plan)
    return folder


def plain_picture(program, row):
    """The picture that `plain` computes."""
    words = row.says["words"]
    with room_with(row) as name:
        told = printed_by(program, ["plain", words[1], words[3], words[4]], Path(name), TIME)
        if told != (0, b"", b""):
            raise SystemExit(f"{row.name}: plain answers {told}")
        return Path(name, words[4]).read_bytes()


def refused(told, line):
    """The code of a refusal, and what is wrong with it: its status, its one line, or the line that it names."""
    status, out, err = told
    refusal = REFUSALS[status].fullmatch(err) if status in REFUSALS else None
    if refusal is None or out:
        return "no answer", [f"no refusal: status {status}, stdout {shown(out)}, stderr {shown(err)}"]
    said = [] if line is None else difference("stderr", b"stencil: N1 line %d\n" % line, err)
    return refusal[1].decode(), said


def another_picture(program, plan, room):
    """Which number of workers does not compute the picture, or does more than that."""
    said, words = [], plan.row.says["words"]
    for workers in WORKERS:
        wanted = {**standing(room), words[4]: plan.picture}
        told = printed_by(program, [*words, "--workers", workers], room, TIME)
        said += difference(f"run by {workers}", (0, b"", b""), told)
        if standing(room) != wanted:
            said.append(f"run by {workers}: not the picture, or other files")
    return said


def unfinished(program, plan, room, pieces, cells):
    """Which order does not finish all pieces of the plan."""
    said, words, turns = [], plan.row.says["words"], plan.row.says["alterations"]["turns"]
    for order in ORDERS:
        (room / "turns").write_text(order * turns, encoding="ascii")
        entries = turns * len(order.split())
        wanted = f"entries {entries}\ndrawn {pieces} of {pieces}\nfinished {pieces} of {pieces}\ncells {cells} of {cells}\n"
        told = printed_by(program, ["replay", *words[1:4], "turns"], room, TIME)
        said += difference(f"order {order}", (0, wanted.encode(), b""), told)
    return said


def answer(program, plan, change):
    """What is answered to a changed plan, in a word, and what is wrong with it."""
    with room_with(plan.row, change.text) as name:
        room, words = Path(name), plan.row.says["words"]
        before = standing(room)
        told = printed_by(program, ["check", *words[1:3]], room, TIME)
        if standing(room) != before:
            return "no answer", ["the check changed a file"]
        accepted = ACCEPTED.fullmatch(told[1])
        if told[0] != 0 or change.line is not None or not accepted or told[2]:
            return refused(told, change.line)
        said = another_picture(program, plan, room)
        return "accepted", said + unfinished(program, plan, room, int(accepted[1]), int(accepted[2]))


# ---- all plans ----


def plans(program, names):
    """The plans of the cases with `alterations`, or of those of these names."""
    for path in sorted(CASES.glob("*/case.json")):
        for row in rows_of(path.parent):
            if "alterations" in row.says and (not names or row.folder.name in names):
                yield Plan(row, files_of(row)[row.says["words"][2]], plain_picture(program, row))


def tries(found, chance):
    """The plans as they are, and their changes, each with its way: all of them, or a tenth."""
    for plan in found:
        yield plan, "unaltered", Change("unaltered", plan.text)
        for way, changes in WAYS.items():
            for change in changes(plan.text):
                if chance is None or chance.randrange(10) == 0:
                    yield plan, way, change


def told_by_code(answers):
    """A line that tells how many answers there were of each kind."""
    first = ["accepted"] if answers["accepted"] else []
    codes = sorted(set(answers) - {"accepted"}, key=lambda code: (code[0], int(code[1:]) if code[1:].isdigit() else 0))
    return ", ".join(f"{code} {answers[code]}" for code in first + codes)


def main():
    words = argparse.ArgumentParser(description=__doc__, formatter_class=argparse.RawDescriptionHelpFormatter)
    words.add_argument("program")
    words.add_argument("names", nargs="*")
    words.add_argument("--all", action="store_true")
    words.add_argument("--seed", type=int, default=1)
    given = words.parse_intermixed_args()
    program = str(Path(given.program).resolve())
    found = list(plans(program, given.names))
    answers, failed = {}, 0
    with ThreadPoolExecutor(os.cpu_count()) as pool:
        chosen = tries(found, None if given.all else random.Random(given.seed))
        waiting = [(plan, way, change, pool.submit(answer, program, plan, change)) for plan, way, change in chosen]
        for plan, way, change, call in waiting:
            code, said = call.result()
            answers.setdefault(way, Counter())[code] += 1
            failed += bool(said)
            if said:
                print(f"FAILED {plan.row.name}: {change.name}", *said, sep="\n    ", flush=True)
    for way, told in answers.items():
        print(f"{way}: tried {sum(told.values())}: {told_by_code(told)}")
    together = sum(answers.values(), Counter())
    print(f"{len(found)} plans: tried {len(waiting)}: {told_by_code(together)}")
    print(f"{len(waiting) - failed} passed, {failed} failed")
    return 1 if failed or not found else 0


if __name__ == "__main__":
    sys.exit(main())
