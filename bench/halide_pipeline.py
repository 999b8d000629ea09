#!/usr/bin/env python3
"""Translates an algorithm and a schedule into Halide 14 (Debian's python3-halide), runs it on a picture, and tells how long it took.

usage: halide_pipeline.py ALG SCHED IN OUT [--repeats N] [--own-folds] [--nest]

The number of threads is HL_NUM_THREADS. A line of JSON tells the milliseconds of each part and the peak memory in MiB, or, as
`refused`, what Halide says where it takes the schedule not. `--own-folds` leaves out each `fold`, so that Halide folds as it sees
fit. `--nest` prints the loops on standard error.

What is translated how:
- An input is an ImageParam with the extents of the text, and the output is bound to its own, since extents are fixed here.
- Each value has the type that the text gives it: literals and casts are casts. Halide's `/`, `%`, `min`, `max`, `clamp` and
  `select` are the language's. Sums of `i32` that pass the type are no value in Halide; all others wrap.
- A directive of a function is one of its pure definition, and of each of its updates in which that loop stands. Tails go by
  their names. `tile` is two splits and a `reorder`. `fold` is `fold_storage`. A vectorised loop of an update is put inside of
  the loops of its reduction. Variables have the names of the text.
"""

import argparse
import array
import json
import operator
import re
import sys
import time
from dataclasses import dataclass
from pathlib import Path

BEGUN = time.perf_counter()
HERE = Path(__file__).resolve().parent
# The folder of this file holds another halide.py.
sys.path[:] = [one for one in sys.path if Path(one or ".").resolve() != HERE]
import halide as hl  # noqa: E402

sys.path.append(str(HERE.parent / "tests"))
from gallery_reference import Reader  # noqa: E402

LOADED = time.perf_counter()

TYPES = {"u8": hl.UInt(8), "u16": hl.UInt(16), "u32": hl.UInt(32), "i8": hl.Int(8), "i16": hl.Int(16), "i32": hl.Int(32)}
OPERATORS = {"+": operator.add, "-": operator.sub, "*": operator.mul, "/": operator.truediv, "%": operator.mod,
             "<": operator.lt, "<=": operator.le, ">": operator.gt, ">=": operator.ge, "==": operator.eq, "!=": operator.ne}
TAILS = {"guard": hl.TailStrategy.GuardWithIf, "roundup": hl.TailStrategy.RoundUp, "shift": hl.TailStrategy.ShiftInwards}


def literal(number, sort):
    """A constant of a type. From Python, Halide takes numbers up to 2^31 - 1."""
    if number < 1 << 31:
        return hl.cast(TYPES[sort], hl.Expr(number))
    return literal(number >> 16, sort) * literal(1 << 16, sort) + literal(number & 0xFFFF, sort)


class Stage:
    """A definition of a function: what Halide gives to schedule it, its loops' names, and the variables of its reduction."""

    def __init__(self, handle, loops, reduction):
        self.handle, self.loops, self.reduction = handle, set(loops), reduction

    def split(self, old, outer, inner, factor, tail):
        if old in self.loops:
            self.handle.split(hl.Var(old), hl.Var(outer), hl.Var(inner), int(factor), TAILS[tail])
            self.loops = self.loops - {old} | {outer, inner}

    def tile(self, x, y, xo, yo, xi, yi, width, height, tail):
        self.split(x, xo, xi, width, tail)
        self.split(y, yo, yi, height, tail)
        self.reorder(xi, yi, xo, yo)

    def reorder(self, *names):
        kept = [hl.Var(name) for name in names if name in self.loops]
        if len(kept) > 1:
            self.handle.reorder(*kept)

    def unroll(self, name):
        if name in self.loops:
            self.handle.unroll(hl.Var(name))

    def parallel(self, name):
        if name in self.loops:
            self.handle.parallel(hl.Var(name))

    def vectorize(self, name):
        if name in self.loops:
            if self.reduction:
                self.handle.reorder(hl.Var(name), *self.reduction)
            self.handle.vectorize(hl.Var(name))


@dataclass
class Translated:
    """A function: its type, Halide's function, its variables' names, its definitions."""

    sort: str
    func: hl.Func
    variables: list
    stages: list


class Translator(Reader):
    """Reads an algorithm; what its base class reads to texts it reads to Halide's expressions."""

    def __init__(self, text):
        super().__init__(text)
        self.names, self.image = {}, None
        _, _, output, self.extents = self.algorithm()
        self.output = self.functions[output]
        for name, extent in zip(self.output.variables, self.extents):
            self.output.func.bound(hl.Var(name), 0, extent)

    def called(self, name):
        """What is called by a name: a function, or the image."""
        if name != self.input[0]:
            return self.functions[name].func
        if self.image is None:
            self.image = hl.ImageParam(TYPES[self.input[1]], len(self.input[2]), name)
            for k, extent in enumerate(self.input[2]):
                self.image.dim(k).set_bounds(0, extent)
        return self.image

    def joined(self, part, signs):
        left, sort = part()
        while self.next() and self.next() in signs:
            left = OPERATORS[self.take()](left, part()[0])
        return left, sort

    def unary(self):
        if self.next() != "-":
            return self.primary()
        self.take()
        inner, sort = self.unary()
        return -inner, sort

    def primary(self):
        token = self.take()
        if token == "(":
            inside = self.expression()
            self.take(")")
            return inside
        if token[0].isdigit():
            number, sort = re.fullmatch(r"(\d+)([ui]\d+)?", token).groups()
            return literal(int(number), sort or "i32"), sort or "i32"
        if self.next() == "(":
            return self.worded(token)
        if self.next() != "[":
            return self.names[token], "i32"
        self.take()
        indices = [index for index, _ in self.listed("]", self.expression)]
        read = self.called(token)[tuple(indices)]
        return read if isinstance(read, hl.Expr) else hl.Expr(read), self.sort_of(token)

    def worded(self, word):
        """What follows a type's name, `min`, `max`, `clamp` or `select`."""
        self.take("(")
        if word == "select":
            condition = self.condition()
            self.take(",")
            (first, sort), (second, _) = self.listed(")", self.expression)
            return hl.select(condition, first, second), sort
        parts = self.listed(")", self.expression)
        values = [value for value, _ in parts]
        if word in TYPES:
            return hl.cast(TYPES[word], *values), word
        return {"min": hl.min, "max": hl.max, "clamp": hl.clamp}[word](*values), parts[0][1]

    def condition(self):
        if self.next() in ("not", "all", "any"):
            word = self.take()
            self.take("(")
            parts = self.listed(")", self.condition)
            return hl.logical_not(parts[0]) if word == "not" else parts[0] & parts[1] if word == "all" else parts[0] | parts[1]
        left, _ = self.expression()
        return OPERATORS[self.take()](left, self.expression()[0])

    def function(self):
        self.take("func")
        name, sort = self.take(), self.take()
        self.take("(")
        variables = self.listed(")", self.take)
        self.take("=")
        self.names = {one: hl.Expr(hl.Var(one)) for one in variables}
        func = hl.Func(name)
        func[tuple(hl.Var(one) for one in variables)] = self.expression()[0]
        self.functions[name] = Translated(sort, func, variables, [Stage(func, variables, [])])
        self.take(";")

    def update(self):
        self.take("update")
        function, reduction = self.functions[self.take()], []
        own = {one: hl.Expr(hl.Var(one)) for one in function.variables}
        self.names = dict(own)
        if self.next() == "over":
            self.take()
            self.take("(")
            domain = self.listed(")", self.domain)
            variables = hl.RDom([hl.Range(span.start, len(span)) for _, span in domain])
            reduction = [variables[k] for k in range(len(domain))]
            self.names.update({name: hl.Expr(one) for (name, _), one in zip(domain, reduction)})
        self.take("[")
        left = [index for index, _ in self.listed("]", self.expression)]
        self.take("=")
        free = [name for name, index in zip(function.variables, left) if index is own[name]]
        # on the right side a variable that the left side replaces is what the left side puts there
        self.names.update(zip(function.variables, left))
        function.func[tuple(left)] = self.expression()[0]
        number = function.func.num_update_definitions() - 1
        function.stages.append(Stage(function.func.update(number), free, reduction))
        self.take(";")


# ---- schedules ----

STATEMENT = re.compile(r"\s*(\w+)((?:\s*\.\s*\w+\s*\([^()]*\))+)\s*;")
DIRECTIVE = re.compile(r"\.\s*(\w+)\s*\(([^()]*)\)")


def statements(text):
    """Each function's name with a directive and its words, in the order of a schedule's text."""
    text = re.sub(r"#[^\n]*", "", text).rstrip()
    at = 0
    while at < len(text):
        found = STATEMENT.match(text, at)
        if not found:
            raise ValueError(f"no directives: {text[at:at + 40]}")
        for directive, words in DIRECTIVE.findall(found[2]):
            yield found[1], directive, [one.strip() for one in words.split(",") if one.strip()]
        at = found.end()


def schedule(functions, text, is_own_folds=False):
    """Schedules the translated functions."""
    for name, directive, words in statements(text):
        func = functions[name].func
        if directive == "compute_root":
            func.compute_root()
        elif directive in ("compute_at", "store_at"):
            getattr(func, directive)(functions[words[0]].func, hl.Var(words[1]))
        elif directive == "fold":
            if not is_own_folds:
                func.fold_storage(hl.Var(words[0]), int(words[1]))
        else:
            for stage in functions[name].stages:
                getattr(stage, directive)(*words)


# ---- pictures ----


def raster_of(picture):
    """The raster of a raw PGM or PPM file."""
    head = re.match(rb"P[56]\s+\d+\s+\d+\s+\d+\s", re.sub(rb"#[^\n]*", lambda one: b" " * len(one[0]), picture[:4096]))
    if not head:
        raise ValueError("no raw PGM or PPM file")
    return picture[head.end():]


def buffer_over(raw, sort, extents):
    """Halide's buffer over bytes in which x goes fastest, then y, then the channel."""
    shape = list(reversed(extents))
    view = memoryview(raw).cast("B" if sort == "u8" else "H", shape)
    buffer = hl.Buffer(view)
    for k in range(len(shape) // 2):
        buffer.transpose(k, len(shape) - 1 - k)
    return buffer


def read(path, sort, extents):
    """A picture's file as a buffer, with its channels one behind the other."""
    raster = raster_of(Path(path).read_bytes())
    if sort == "u16":
        words = array.array("H", raster)
        words.byteswap()
        raster = words.tobytes()
    channels = extents[2] if len(extents) == 3 else 1
    raw = bytearray(b"".join(raster[k::channels] for k in range(channels)) if channels > 1 else raster)
    return buffer_over(raw, sort, extents)


def write(path, raw, sort, extents):
    """Writes the bytes of such a buffer as a picture's file."""
    width, height, channels = (extents + [1, 1])[:3]
    if sort == "u16":
        words = array.array("H", raw)
        words.byteswap()
        raw = words.tobytes()
    elif channels > 1:
        raster, size = bytearray(len(raw)), width * height
        for k in range(channels):
            raster[k::channels] = raw[k * size:(k + 1) * size]
        raw = raster
    head = b"%s\n%d %d\n%d\n" % (b"P6" if channels == 3 else b"P5", width, height, 255 if sort == "u8" else 65535)
    Path(path).write_bytes(head + raw)


# ---- runs ----


def memory(key="VmHWM"):
    """The peak of resident memory since it was last reset, in MiB, or another of the process's figures."""
    return int(re.search(rf"{key}:\s*(\d+)", Path("/proc/self/status").read_text())[1]) / 1024


def forget_peak():
    """Begins the peak of resident memory anew, where the system lets a process do so."""
    try:
        Path("/proc/self/clear_refs").write_text("5")
    except OSError:
        pass


class Watch:
    """Keeps the milliseconds that parts of a run take."""

    def __init__(self):
        self.parts, self.last = {}, time.perf_counter()

    def told(self, part):
        now = time.perf_counter()
        self.parts[part] = (now - self.last) * 1000
        self.last = now


def measured(words, watch):
    """Translates, compiles and runs; the parts' times are the watch's. Gives the peak memory, all and of the runs alone."""
    algorithm = Translator(Path(words.algorithm).read_text())
    schedule(algorithm.functions, Path(words.schedule).read_text(), words.own_folds)
    out, sort = algorithm.output.func, algorithm.output.sort
    watch.told("translate")
    if words.nest:
        out.print_loop_nest()
    target = hl.get_jit_target_from_environment()
    out.compile_jit(target)
    watch.told("compile")
    # Halide keeps no hold of Python's bytes: `given` and `raw` do
    given = read(words.input, algorithm.input[1], algorithm.input[2])
    if algorithm.image is not None:
        algorithm.image.set(given)
    count = 1
    for extent in algorithm.extents:
        count *= extent
    raw = bytearray(count * (1 if sort == "u8" else 2))
    made = buffer_over(raw, sort, algorithm.extents)
    watch.told("read")
    whole = memory()
    forget_peak()
    held = memory("VmRSS")
    out.realize(made, target)
    watch.told("first")
    write(words.output, raw, sort, algorithm.extents)
    watch.told("write")
    best = min(timed(out, made, target) for _ in range(words.repeats)) if words.repeats else watch.parts["first"]
    return {"run": best, "MiB": max(whole, memory()), "run MiB": memory() - held}


def timed(out, made, target):
    """Milliseconds of one more run."""
    start = time.perf_counter()
    out.realize(made, target)
    return (time.perf_counter() - start) * 1000


def main():
    parser = argparse.ArgumentParser()
    for one in ("algorithm", "schedule", "input", "output"):
        parser.add_argument(one)
    parser.add_argument("--repeats", type=int, default=5)
    parser.add_argument("--own-folds", action="store_true")
    parser.add_argument("--nest", action="store_true")
    words, watch = parser.parse_args(), Watch()
    try:
        more = measured(words, watch)
    except (RuntimeError, ValueError, KeyError, TypeError) as fault:
        print(json.dumps({"refused": f"{type(fault).__name__}: {fault}".strip()}))
        return 1
    print(json.dumps({"library": (LOADED - BEGUN) * 1000, **watch.parts, **more}))
    return 0


if __name__ == "__main__":
    sys.exit(main())
