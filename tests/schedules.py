#!/usr/bin/env python3
"""Compiles random schedules of the algorithms in tests/schedules/ on a built program, and compares the pictures.

    python3 tests/schedules.py PROGRAM [COUNT [SEED]] [--core | --placing | --placing-core]

Half of the schedules split each dimension at most once and no inner loop of a split is parallel: of these each one that
keeps the rules of schedules has to be compiled. The others split loops again and make any outermost loops parallel: what is
compiled of them has to be right, and what the checker refuses is counted by its code. A plan that was compiled is checked
again, run by one worker and by three, those of the first 200 schedules by 2, 7 and 64 too, and its picture is that of `plain`.

What is made up breaks L5, L8 and L10 alone, and a refusal by one of them is taken only where the schedule's text gives cause:
an update and a parallel loop, `shift` (over fewer points than the factor, where the text tells how many), an update that is
not stored. Any other rule that is told is a failure, and so is a plan of a schedule whose text breaks one.

With `--core` all split each dimension at most once and make no inner loop of a split parallel; the first 200 are run as above,
the others compiled and checked.

With `--placing` functions are computed inside the loops of others too: wherever all that reads them is inside, stored at that
loop or at one outside of it, folded or not. Such a schedule may also be refused by L6 (a definition that lacks the loop), L9
(a fold) and L12 (`roundup` inside a loop), where its text gives cause. What the checker refuses is a failure, but for K14,
and where a function that is computed inside a loop is split by `roundup`: K6 and K8 of one that is folded, since what is
computed past the end takes the places of what is still read, and K5 of one with updates, since the end of its blocks is no
form where turns need more of them or fewer.

With `--placing-core` the same of algorithms without updates, and every split is `guard`: then L9 is the only refusal but for
K14, and a schedule that was compiled is compiled with greater folds, too.
"""

import argparse
import random
import re
import subprocess
import sys
import tempfile
from collections import Counter
from concurrent.futures import ThreadPoolExecutor
from dataclasses import dataclass, field
from pathlib import Path

ALGORITHMS = Path(__file__).resolve().parent / "schedules"
FACTORS = [1, 2, 2, 3, 4, 4, 5, 7, 8]
TAILS = ["guard", "roundup", "shift"]

# What is added to each factor of a `fold` that was compiled.
MORE_PLACES = [1, 2, 5, 100]

# The plans of the first so many schedules are run by each of these numbers of workers, the others by few.
CREWS = 200
WORKERS = ["1", "2", "3", "7", "64"]
FEW = ["1", "3"]


@dataclass
class Function:
    """A function of an algorithm, as its text declares it."""

    name: str
    variables: list


@dataclass
class Loops:
    """The loops of a function while directives are made up for it, the innermost first."""

    names: list
    tails: list = field(default_factory=lambda: TAILS)
    inner: dict = field(default_factory=dict)
    directives: list = field(default_factory=list)
    marked: set = field(default_factory=set)


def functions(text):
    """The functions of an algorithm's text, in the order of declaration."""
    found = re.findall(r"\bfunc\s+(\w+)\s+\w+\s*\(([^)]*)\)", text)
    return [Function(name, [one.strip() for one in variables.split(",")]) for name, variables in found]


def raster(text, chance):
    """A PGM or PPM file for the input of an algorithm."""
    extents = [int(one) for one in re.search(r"\binput\s+\w+\s+u8\s*\[([^\]]*)\]", text)[1].split(",")]
    width, height, channels = (extents + [1, 1])[:3]
    samples = bytes(chance.randrange(256) for _ in range(width * height * channels))
    return b"%s\n%d %d\n255\n" % (b"P6" if len(extents) == 3 else b"P5", width, height) + samples


# ---- schedules ----


def split(chance, loops, candidates, fresh):
    """Splits one of the candidates."""
    name = chance.choice(candidates)
    number = next(fresh)
    outer, inner = f"outer{number}", f"inner{number}"
    factor, tail = chance.choice(FACTORS), chance.choice(loops.tails)
    loops.directives.append(f"split({name}, {outer}, {inner}, {factor}, {tail})")
    place = loops.names.index(name)
    loops.names[place:place + 1] = [inner, outer]
    loops.inner.pop(name, None)
    loops.inner[inner] = factor


def reorder(chance, loops):
    """Changes the places of some loops."""
    some = chance.sample(loops.names, chance.randint(2, len(loops.names)))
    places = sorted(loops.names.index(name) for name in some)
    for place, name in zip(places, some):
        loops.names[place] = name
    loops.directives.append("reorder(" + ", ".join(some) + ")")


def outermost(loops, core):
    """The loops that may be parallel, the outermost first."""
    found = []
    for name in reversed(loops.names):
        if core and name in loops.inner:
            break
        found.append(name)
    return found


def directives(chance, function, is_output, core, fresh):
    """Directives for a function; none of them leaves it to be put in."""
    loops = Loops(list(function.variables))
    is_root = is_output or chance.random() < 0.75
    if is_root and not is_output:
        loops.directives.append("compute_root()")
    for _ in range(3):
        candidates = [one for one in loops.names if not core or one in function.variables]
        if candidates and chance.random() < 0.5:
            split(chance, loops, candidates, fresh)
    if len(loops.names) > 1 and chance.random() < 0.6:
        reorder(chance, loops)
    marked = set()
    if is_root and chance.random() < 0.6:
        marked = set(outermost(loops, core)[:chance.randint(1, len(loops.names))])
        loops.directives += [f"parallel({name})" for name in loops.names if name in marked]
    if loops.names[0] in loops.inner and loops.names[0] not in marked and chance.random() < 0.3:
        marked.add(loops.names[0])
        loops.directives.append(f"vectorize({loops.names[0]})")
    loops.directives += [f"unroll({name})" for name in loops.inner if name not in marked and chance.random() < 0.15]
    return loops.directives


def schedule(chance, text, core):
    """A random schedule of an algorithm."""
    fresh = iter(range(1, 1000))
    declared = functions(text)
    parts = []
    for function in declared:
        made = directives(chance, function, function is declared[-1], core, fresh)
        if made:
            parts.append(function.name + "." + ".".join(made) + ";")
    chance.shuffle(parts)
    return " ".join(parts)


# ---- schedules that compute inside loops ----


@dataclass
class Placed:
    """Where a function is computed while directives are made up: its loops, and the loop of another function, if any."""

    loops: Loops
    home: tuple = None
    parallel: set = field(default_factory=set)


def definitions(text, name):
    """The definitions of a function, as the text writes them."""
    return " ".join(re.findall(rf"\b(?:func|update)\s+{name}\b[^;]*;", text))


def users(text, declared, placed, name):
    """The stored functions that read a function, by themselves or through functions that are put in."""
    found = set()
    for other in declared:
        if other.name != name and re.search(rf"\b{name}\s*\[", definitions(text, other.name)):
            found |= {other.name} if other.name in placed else users(text, declared, placed, other.name)
    return found


def is_inside(placed, user, host, turn):
    """Whether all that a function computes lies in a loop of another one."""
    if user == host:
        return True
    home = placed[user].home
    if home is None:
        return False
    if home[0] == host:
        names = placed[host].loops.names
        return names.index(home[1]) <= names.index(turn)
    return is_inside(placed, home[0], host, turn)


def homes(text, declared, placed, name):
    """The loops at which a function may be computed."""
    read_by = users(text, declared, placed, name)
    found = []
    for host, one in placed.items():
        names = one.loops.names
        for place, turn in enumerate(names):
            is_free = not any(inner in one.parallel for inner in names[:place]) and turn not in one.loops.marked
            if read_by and is_free and all(is_inside(placed, user, host, turn) for user in read_by):
                found.append((host, turn))
    return found


def storage(chance, placed, home, variables):
    """Where a function's buffer stands, and how it is folded."""
    host, turn = home
    names = placed[host].loops.names
    outside = [w for w in names[names.index(turn) + 1:]
               if not any(inner in placed[host].parallel for inner in names[:names.index(w)])]
    if not outside or chance.random() < 0.3:
        return []
    made = [f"store_at({host}, {chance.choice(outside)})"]
    if chance.random() < 0.4:
        dimension = variables[-1] if chance.random() < 0.7 else chance.choice(variables)
        made.append(f"fold({dimension}, {chance.choice([1, 2, 3, 4, 5, 8, 32, 100, 100])})")
    return made


def placing_directives(chance, text, declared, placed, function, fresh, tails):
    """Directives for a function that may be computed inside a loop; none of them leaves it to be put in."""
    loops = Loops(list(function.variables), tails)
    is_output = function is declared[-1]
    home = None
    found = homes(text, declared, placed, function.name)
    if not is_output and found and chance.random() < 0.75:
        home = chance.choice(found)
        loops.directives.append("compute_at({}, {})".format(*home))
        loops.directives += storage(chance, placed, home, function.variables)
    elif not is_output:
        if chance.random() < 0.5:
            return []
        loops.directives.append("compute_root()")
    for _ in range(2):
        candidates = [one for one in loops.names if one in function.variables]
        if candidates and chance.random() < (0.4 if home is None else 0.2):
            split(chance, loops, candidates, fresh)
    if len(loops.names) > 1 and chance.random() < 0.5:
        reorder(chance, loops)
    made = Placed(loops, home)
    if home is None and chance.random() < 0.5:
        made.parallel = set(outermost(loops, True)[:chance.randint(1, len(loops.names))])
        loops.directives += [f"parallel({name})" for name in loops.names if name in made.parallel]
    innermost = loops.names[0]
    if innermost in loops.inner and innermost not in made.parallel and chance.random() < 0.2:
        loops.marked.add(innermost)
        loops.directives.append(f"{chance.choice(['vectorize', 'unroll'])}({innermost})")
    placed[function.name] = made
    return loops.directives


def placing_schedule(chance, text, tails):
    """A random schedule that computes some function inside a loop."""
    declared = functions(text)
    while True:
        fresh, placed, parts = iter(range(1, 1000)), {}, []
        for function in reversed(declared):
            made = placing_directives(chance, text, declared, placed, function, fresh, tails)
            if made:
                parts.append(function.name + "." + ".".join(made) + ";")
        if any("compute_at(" in part for part in parts):
            chance.shuffle(parts)
            return " ".join(parts)


# ---- what the text breaks ----


def directives_of(made, function):
    """The directives that a random schedule has of a function."""
    for statement in made.split("; "):
        name, _, rest = statement.rstrip(";").partition(".")
        if name == function:
            return rest
    return ""


def has_updates(text, function):
    """Whether an algorithm's text has an update of a function."""
    return re.search(rf"\bupdate\s+{function}\b", text) is not None


def is_stored(text, made, function):
    """Whether a function is the output or has a `compute_root` or `compute_at`."""
    said = directives_of(made, function)
    return re.search(rf"\boutput\s+{function}\b", text) is not None or "compute_root()" in said or "compute_at(" in said


def is_short(text, made, function):
    """Whether `shift` may go over fewer points than its factor; of the output's variables the text tells how many there are."""
    cuts = re.findall(r"split\((\w+), \w+, \w+, (\d+), shift\)", directives_of(made, function))
    variables = next((one.variables for one in functions(text) if one.name == function), [])
    output = re.search(rf"\boutput\s+{function}\s*\[([^\]]*)\]", text)
    extents = dict(zip(variables, map(int, output[1].split(",")))) if output else {}
    return any(extents.get(name, 0) < int(factor) for name, factor in cuts)


def has_cause(text, made, code, function):
    """Whether a schedule's text gives cause to refuse a function by a rule."""
    said = directives_of(made, function)
    if code == "L5":
        return has_updates(text, function) and "parallel(" in said
    if code == "L6":
        host = re.search(r"compute_at\((\w+),", said)
        return host is not None and has_updates(text, host[1])
    if code == "L8":
        return ("shift" in said and has_updates(text, function)) or is_short(text, made, function)
    if code == "L9":
        return "fold(" in said
    if code == "L12":
        return "compute_at(" in made and "roundup" in made
    return code == "L10" and has_updates(text, function) and not is_stored(text, made, function)


def runs_past(text, made, code):
    """Whether the text gives cause for the checker to refuse a function that is computed past the end."""
    for one in functions(text):
        said = directives_of(made, one.name)
        if "compute_at(" in said and "roundup" in said:
            if (code in ("K6", "K8") and "fold(" in said) or (code == "K5" and has_updates(text, one.name)):
                return True
    return False


def breaks_rule(text, made):
    """Whether a schedule surely breaks L8 or L10."""
    return any(
        has_updates(text, one.name)
        and ("shift" in directives_of(made, one.name) or not is_stored(text, made, one.name))
        for one in functions(text))


# ---- runs ----


def run(program, folder, *words):
    """One run of the program."""
    return subprocess.run([program, *words], cwd=folder, capture_output=True, timeout=120)


def plain_picture(program, text, image):
    """The picture that the algorithm says of an image."""
    with tempfile.TemporaryDirectory() as folder:
        Path(folder, "a.alg").write_text(text)
        Path(folder, "in").write_bytes(image)
        told = run(program, folder, "plain", "a.alg", "in", "out")
        if told.returncode != 0:
            raise SystemExit(f"plain: {told.stderr.decode().strip()}: {text}")
        return Path(folder, "out").read_bytes()


def is_compiled_with(program, folder, made, more):
    """Whether a schedule is compiled with so many more places in each fold, a limit of the checker aside."""
    if "fold(" not in made:
        return True
    Path(folder, "more.sched").write_text(re.sub(r"fold\((\w+), (\d+)\)", lambda it: f"fold({it[1]}, {int(it[2]) + more})", made))
    told = run(program, folder, "compile", "a.alg", "more.sched", "more.plan")
    return told.returncode == 0 or (told.returncode == 1 and b" K14 " in told.stderr)


def outcome(program, workers, text, image, picture, made, kind):
    """What came of a schedule, and whether that is right."""
    with tempfile.TemporaryDirectory() as folder:
        Path(folder, "a.alg").write_text(text)
        Path(folder, "a.sched").write_text(made)
        Path(folder, "in").write_bytes(image)
        told = run(program, folder, "compile", "a.alg", "a.sched", "a.plan")
        if told.returncode != 0 or told.stdout or told.stderr:
            code, place = (told.stderr.decode().split() + ["", "", ""])[1:3]
            is_right = not Path(folder, "a.plan").exists() and (
                (told.returncode == 3 and has_cause(text, made, code, place))
                or (told.returncode == 1 and code[:1] == "K"
                    and (kind == "split again" or code == "K14" or runs_past(text, made, code))))
            return code, is_right
        if breaks_rule(text, made):
            return "compiled, against a rule", False
        if kind == "inside loops, guarded" and not all(is_compiled_with(program, folder, made, more) for more in MORE_PLACES):
            return "not compiled with a greater fold", False
        if run(program, folder, "check", "a.alg", "a.plan").returncode != 0:
            return "compiled, not accepted", False
        for count in workers:
            told = run(program, folder, "run", "a.alg", "a.plan", "in", f"out{count}", "--workers", count)
            if told.returncode != 0 or Path(folder, f"out{count}").read_bytes() != picture:
                return f"another picture by {count}", False
        return "compiled", True


def placing_tries(chance, texts, count, is_core):
    """The same of schedules that compute functions inside the loops of others."""
    several = [k for k, text in enumerate(texts) if len(functions(text)) > 1 and not (is_core and "update " in text)]
    tails, kind = (["guard"], "inside loops, guarded") if is_core else (TAILS, "inside loops")
    made = []
    for _ in range(count):
        which = chance.choice(several)
        made.append((which, placing_schedule(chance, texts[which], tails), kind))
    return made


def tries_of(chance, texts, count, is_core):
    """For each try the number of its algorithm, the schedule and its kind."""
    made = []
    for number in range(count):
        which = chance.randrange(len(texts))
        core = is_core or number % 2 == 0
        made.append((which, schedule(chance, texts[which], core), "split once" if core else "split again"))
    return made


def main():
    words = argparse.ArgumentParser()
    words.add_argument("program")
    words.add_argument("count", nargs="?", type=int, default=500)
    words.add_argument("seed", nargs="?", type=int, default=1)
    kinds = words.add_mutually_exclusive_group()
    kinds.add_argument("--core", action="store_true")
    kinds.add_argument("--placing", action="store_true")
    kinds.add_argument("--placing-core", action="store_true")
    given = words.parse_args()
    program = str(Path(given.program).resolve())
    chance = random.Random(given.seed)
    texts = [path.read_text() for path in sorted(ALGORITHMS.glob("*.alg"))]
    images = [raster(text, chance) for text in texts]
    pictures = [plain_picture(program, text, image) for text, image in zip(texts, images)]
    if given.placing or given.placing_core:
        tries = placing_tries(chance, texts, given.count, given.placing_core)
    else:
        tries = tries_of(chance, texts, given.count, given.core)
    with ThreadPoolExecutor() as pool:
        others = [] if given.core else FEW
        crews = [WORKERS if number < CREWS else others for number in range(len(tries))]
        found = list(pool.map(
            lambda crew, one: outcome(program, crew, texts[one[0]], images[one[0]], pictures[one[0]], one[1], one[2]),
            crews, tries))
    for (code, is_right), (which, made, _) in zip(found, tries):
        if not is_right:
            print(f"{code}: {made}\n    {texts[which].strip()}")
    for kind in dict.fromkeys(kind for _, _, kind in tries):
        told = Counter(code for (code, _), one in zip(found, tries) if one[2] == kind)
        print(f"{kind}: " + ", ".join(f"{code} {n}" for code, n in sorted(told.items())))
    failed = sum(not is_right for _, is_right in found)
    print(f"{len(found) - failed} passed, {failed} failed")
    sys.exit(1 if failed else 0)


if __name__ == "__main__":
    main()
