#!/usr/bin/env python3
"""A reader of algorithms of its own, in Python, that computes the picture that an algorithm says and remembers each value.

usage: gallery_reference.py ALG IN OUT

`plain` remembers nothing, so a chain of 32 steps, or a photograph of usual size, is out of its reach; this is not. It reads the
text by the grammar of docs/LANGUAGE.md, checks no rule, and gives the values of the language: wrapped to their types, divisions
rounded so that remainders are not negative, updates in the order of their domains. It shares nothing with the program.
"""

import itertools
import re
import sys
from dataclasses import dataclass, field
from pathlib import Path

TOKEN = re.compile(r"\s*(?:#[^\n]*\n?\s*)*(?:(\d+(?:[ui](?:8|16|32))?)|([A-Za-z_]\w*)|(\.\.|<=|>=|==|!=|[-+*/%<>=()\[\],;]))")
TYPES = {"u8": (8, False), "u16": (16, False), "u32": (32, False), "i8": (8, True), "i16": (16, True), "i32": (32, True)}


def wrapped(code, sort):
    """Python's text for a value wrapped to a type."""
    bits, is_signed = TYPES[sort]
    mask = (1 << bits) - 1
    if not is_signed:
        return f"(({code}) & {mask})"
    half = 1 << bits - 1
    return f"((({code}) + {half} & {mask}) - {half})"


def quotient(a, b):
    """The quotient whose remainder is not negative; 0 where the divisor is 0."""
    return 0 if b == 0 else a // b if b > 0 else -(a // -b)


def remainder(a, b):
    """That remainder."""
    return 0 if b == 0 else a % abs(b)


@dataclass
class Update:
    """An update: its domain's names and ends, the left side's indices and the right side, as Python's texts."""

    domain: list
    left: list
    right: str


@dataclass
class Function:
    """A function: its type, its variables, the pure definition as Python's text, its updates."""

    name: str
    sort: str
    variables: list
    pure: str
    updates: list = field(default_factory=list)


class Reader:
    """Reads a text; each method reads what its name says from the tokens that are left."""

    def __init__(self, text):
        self.tokens = [number or name or sign for number, name, sign in TOKEN.findall(text)]
        self.place = 0
        self.functions = {}
        self.input = None

    def next(self):
        return self.tokens[self.place] if self.place < len(self.tokens) else ""

    def take(self, wanted=None):
        token = self.next()
        if wanted is not None and token != wanted:
            raise ValueError(f"{token} where {wanted} is due")
        self.place += 1
        return token

    def listed(self, last, one):
        """What stands between commas, up to the sign `last`."""
        found = [one()]
        while self.next() == ",":
            self.take()
            found.append(one())
        self.take(last)
        return found

    def expression(self):
        return self.joined(self.term, "+-")

    def term(self):
        return self.joined(self.unary, "*/%")

    def joined(self, part, signs):
        code, sort = part()
        while self.next() and self.next() in signs:
            sign = self.take()
            other, _ = part()
            if sign in "/%":
                is_plain = re.fullmatch(r"[1-9]\d*", other)
                call = "quotient" if sign == "/" else "remainder"
                made = f"{code} {'//' if sign == '/' else '%'} {other}" if is_plain else f"{call}({code}, {other})"
            else:
                made = f"{code} {sign} {other}"
            code = wrapped(made, sort)
        return code, sort

    def unary(self):
        if self.next() != "-":
            return self.primary()
        self.take()
        code, sort = self.unary()
        return wrapped(f"-{code}", sort), sort

    def primary(self):
        token = self.take()
        if token == "(":
            code, sort = self.expression()
            self.take(")")
            return f"({code})", sort
        if token[0].isdigit():
            number, sort = re.fullmatch(r"(\d+)([ui]\d+)?", token).groups()
            return number, sort or "i32"
        if token in TYPES:
            self.take("(")
            code, _ = self.expression()
            self.take(")")
            return wrapped(code, token), token
        if token in ("min", "max", "clamp"):
            self.take("(")
            parts = self.listed(")", self.expression)
            codes = [code for code, _ in parts]
            if token == "clamp":
                return f"max(min({codes[0]}, {codes[2]}), {codes[1]})", parts[0][1]
            return f"{token}({', '.join(codes)})", parts[0][1]
        if token == "select":
            self.take("(")
            condition = self.condition()
            self.take(",")
            first, second = self.listed(")", self.expression)
            return f"({first[0]} if {condition} else {second[0]})", first[1]
        if self.next() != "[":
            return f"v_{token}", "i32"
        self.take()
        indices = [code for code, _ in self.listed("]", self.expression)]
        return f"f_{token}({', '.join(indices)})", self.sort_of(token)

    def sort_of(self, name):
        return self.input[1] if name == self.input[0] else self.functions[name].sort

    def condition(self):
        if self.next() in ("not", "all", "any"):
            word = self.take()
            self.take("(")
            parts = self.listed(")", self.condition)
            return f"(not {parts[0]})" if word == "not" else f"({parts[0]} {'and' if word == 'all' else 'or'} {parts[1]})"
        left, _ = self.expression()
        sign = self.take()
        right, _ = self.expression()
        return f"({left} {sign} {right})"

    def bound(self):
        sign = -1 if self.next() == "-" else 1
        if sign < 0:
            self.take()
        return sign * int(self.take())

    def domain(self):
        name, low = self.take(), self.bound()
        self.take("..")
        return name, range(low, self.bound() + 1)

    def function(self):
        self.take("func")
        name, sort = self.take(), self.take()
        self.take("(")
        variables = self.listed(")", self.take)
        self.functions[name] = Function(name, sort, variables, "0")
        self.take("=")
        self.functions[name].pure = self.expression()[0]
        self.take(";")

    def update(self):
        self.take("update")
        function, over = self.functions[self.take()], []
        if self.next() == "over":
            self.take()
            self.take("(")
            over = self.listed(")", self.domain)
        self.take("[")
        left = [code for code, _ in self.listed("]", self.expression)]
        self.take("=")
        function.updates.append(Update(over, left, self.expression()[0]))
        self.take(";")

    def size(self):
        self.take("[")
        return [int(one) for one in self.listed("]", self.take)]

    def algorithm(self):
        """The input's name, type and size, the functions, the output's name and size."""
        for word in ("pipeline", None, ";", "input"):
            self.take(word)
        name, sort = self.take(), self.take()
        self.input = (name, sort, self.size())
        self.take(";")
        while self.next() in ("func", "update"):
            self.function() if self.next() == "func" else self.update()
        self.take("output")
        name = self.take()
        return self.input, self.functions, name, self.size()


def remembering(function):
    """The function with its values remembered."""
    known = {}

    def value(*point):
        if point not in known:
            known[point] = function(*point)
        return known[point]

    return value


def updated(function, names):
    """A function with updates: for each place of the variables that every update leaves alone, all its steps are taken at once."""
    own = [f"v_{one}" for one in function.variables]
    fixed = [k for k, one in enumerate(own) if all(update.left[k] == one for update in function.updates)]
    moving = [k for k in range(len(own)) if k not in fixed]
    pure = names["pure_" + function.name]
    known = {}

    def cell(values, point):
        place = tuple(point[k] for k in moving)
        return values[place] if place in values else pure(*point)

    def taken(key):
        values = {}
        room = {**names, "f_" + function.name: lambda *point: cell(values, point)}
        room.update({own[k]: one for k, one in zip(fixed, key)})
        for update in function.updates:
            left = [compile(update.left[k], "left", "eval") for k in moving]
            right = compile(update.right, "right", "eval")
            order = [f"v_{name}" for name, _ in reversed(update.domain)]
            free = [own[k] for k in moving if update.left[k] == own[k]]
            if free:
                raise ValueError(f"{function.name}: a variable is free in one update and not in another")
            for step in itertools.product(*(numbers for _, numbers in reversed(update.domain))):
                room.update(zip(order, step))
                place = tuple(eval(one, room) for one in left)
                room.update({own[k]: one for k, one in zip(moving, place)})
                values[place] = eval(right, room)
        return values

    def value(*point):
        key = tuple(point[k] for k in fixed)
        if key not in known:
            known[key] = taken(key)
        return cell(known[key], point)

    return value


def reader_of(extents, samples):
    """The input as a function of a point; it is 0 off its extents."""
    width, height, channels = (extents + [1, 1])[:3]

    def value(x, y=0, c=0):
        is_inside = 0 <= x < width and 0 <= y < height and 0 <= c < channels
        return samples[(y * width + x) * channels + c] if is_inside else 0

    return value


def picture(text, samples):
    """The samples of the picture that an algorithm says of an input, in raster order, the picture's size and its type."""
    source, functions, output, size = Reader(text).algorithm()
    names = {"quotient": quotient, "remainder": remainder, "f_" + source[0]: reader_of(source[2], samples)}
    for function in functions.values():
        head = ", ".join(f"v_{one}" for one in function.variables)
        pure = eval(f"lambda {head}: {function.pure}", names)
        names["pure_" + function.name] = pure
        names["f_" + function.name] = updated(function, names) if function.updates else remembering(pure)
    width, height, channels = (size + [1, 1])[:3]
    value, room = names["f_" + output], range(len(size))
    points = ((x, y, c) for y in range(height) for x in range(width) for c in range(channels))
    return [value(*(point[k] for k in room)) for point in points], size, functions[output].sort


def main():
    if len(sys.argv) != 4:
        sys.exit(__doc__.splitlines()[2])
    sys.path.insert(0, str(Path(__file__).resolve().parent.parent / "bench"))
    from png import read
    text = Path(sys.argv[1]).read_text()
    made, size, sort = picture(text, read(sys.argv[2])[3])
    width, height, channels = (size + [1, 1])[:3]
    head = b"%s\n%d %d\n%d\n" % (b"P6" if channels == 3 else b"P5", width, height, 255 if sort == "u8" else 65535)
    raster = bytes(made) if sort == "u8" else b"".join(one.to_bytes(2, "big") for one in made)
    Path(sys.argv[3]).write_bytes(head + raster)


if __name__ == "__main__":
    main()
