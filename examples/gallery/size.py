#!/usr/bin/env python3
"""Fills in the size of a text of the gallery: each `@..@` of it is arithmetic over the width W and the height H.

usage: size.py TEXT WIDTH HEIGHT [OUT]    (standard output where no OUT is named)

Whole numbers, `+`, `-`, `*`, `/` (rounded down), `%`, `min(..)`, `max(..)` and parentheses are understood. Nothing else of a text
changes, so a divisor that happens to be the width stays what it is.
"""

import ast
import re
import sys
from pathlib import Path

OPERATIONS = {
    ast.Add: lambda a, b: a + b,
    ast.Sub: lambda a, b: a - b,
    ast.Mult: lambda a, b: a * b,
    ast.Div: lambda a, b: a // b,
    ast.Mod: lambda a, b: a % b,
}
CALLS = {"min": min, "max": max}


def value(node, names):
    """The number that a piece of arithmetic gives."""
    if isinstance(node, ast.Expression):
        return value(node.body, names)
    if isinstance(node, ast.Constant) and type(node.value) is int:
        return node.value
    if isinstance(node, ast.Name) and node.id in names:
        return names[node.id]
    if isinstance(node, ast.BinOp) and type(node.op) in OPERATIONS:
        return OPERATIONS[type(node.op)](value(node.left, names), value(node.right, names))
    if isinstance(node, ast.UnaryOp) and isinstance(node.op, ast.USub):
        return -value(node.operand, names)
    if isinstance(node, ast.Call) and isinstance(node.func, ast.Name) and node.func.id in CALLS and node.args:
        return CALLS[node.func.id](*(value(one, names) for one in node.args))
    raise ValueError("no arithmetic over W and H")


def sized(text, width, height):
    """The text for a picture of that width and height."""
    names = {"W": width, "H": height}
    return re.sub(r"@([^@\n]+)@", lambda found: str(value(ast.parse(found[1].strip(), mode="eval"), names)), text)


def main():
    if len(sys.argv) not in (4, 5):
        sys.exit(__doc__.splitlines()[2])
    text = sized(Path(sys.argv[1]).read_text(), int(sys.argv[2]), int(sys.argv[3]))
    if len(sys.argv) == 5:
        Path(sys.argv[4]).write_text(text)
    else:
        sys.stdout.write(text)


if __name__ == "__main__":
    main()
