#!/usr/bin/env python3
"""Measures how long a built program takes to refuse texts at their limit of bytes: a plan of which one line is a beginning and
one piece of text, again and again, and algorithms, schedules, images and orders that are one piece again and again.

usage: lines.py PROGRAM [BYTES]    (65,536 bytes where nothing is said)

No line is to cost more than its length: each is answered within 0.2 seconds. It prints those that are not, and the slowest.
"""
import os
import sys
import tempfile

from checks import measured

ALGORITHM = "pipeline p; input in u8 [2]; func out u8 (x) = in[x]; output out [2];\n"
HEAD = "plan 1 p\ninput in u8 [2]\noutput out u8 [2]\n"
GROUP = HEAD + "group 0 out [0:1] grid 1\nalloc b0 out [0#2]\n"
CERTIFICATE = GROUP + "for s1 0:1 serial\nstore b0 0 x=0+1*s1 in[x]\nend\npublish @0\ncert\n"

# The lines before, and how the line begins.
LINES = {
    "plan": ("", "plan 1 "), "input": (HEAD[:9], "input in u8 ["), "output": (HEAD[:25], "output out u8 ["),
    "group": (HEAD, "group 0 out ["), "grid": (HEAD, "group 0 out [0:1] grid "), "alloc": (GROUP[:-19], "alloc b0 out ["),
    "for": (GROUP, "for s1 "), "let": (GROUP, "let s1 min "), "guard": (GROUP, "guard "), "first": (GROUP, "first s"),
    "fetch": (GROUP, "fetch b0 0 ["), "store": (GROUP, "store b0 0 "), "stored": (GROUP, "store b0 0 x=0 "), "publish": (GROUP, "publish @"),
    "own": (CERTIFICATE, "own 0 ["), "need": (CERTIFICATE, "need 0 0 ["), "claim": (CERTIFICATE, "claim 0 8 b0 out 0 ["),
    "window": (CERTIFICATE, "window 0 s1 0 1 "),
}

PIECES = (
    "(", ")", "[", "]", "0", "9", "x", "_", "+", "-", "*", "/", "%", ",", ";", ":", "=", "#", "@", "!", "<", " ", "\t", "\r", "\0", "\x7f", "\u00e9",
    "(-", "-(", "1,", "0:1;", "0#1;", "+1*s0", "x=0 ", "x~0 ", "x~(", "~", "in[", "min(", "clamp(", "select(", "all(", "not(", "u8(", "@0[", "(x+", "1u8",
)

TEXTS = (
    "pipeline ", "func ", "input ", "update ", "(", ")", "[", "]", "-", "+", ",", ";", "x", "0", "1u8 ", "min(", "select(", "in[x]+", "u8(", "/", "# ",
    "//", "\n", "\t", "\0", "\u00e9", "x.split(", "f.compute_root();", ".", "out.", "0.0",
)


def filled(beginning, piece, end, size):
    """A line or a text of so many bytes at most."""
    room = size - len(beginning.encode()) - len(end)
    return beginning + piece * (room // len(piece.encode())) + end


def hostile(size):
    """The name of each text, the words of the command, and the files."""
    for name, (before, beginning) in LINES.items():
        for piece in PIECES:
            for end in ("", " x"):
                line = filled(beginning, piece, end, size)
                yield f"{name} {piece!r} {end}".rstrip(), ["check", "a.alg", "a.plan"], {"a.alg": ALGORITHM, "a.plan": f"{before}{line}\nend\n"}
    for piece in TEXTS:
        text = filled("", piece, "", size)
        yield f"algorithm {piece!r}", ["format", "a.alg", "out"], {"a.alg": text}
        yield f"algorithm, behind a func {piece!r}", ["format", "a.alg", "out"], {"a.alg": filled("pipeline p; input in u8 [2]; func out u8 (x) = ", piece, "", size)}
        yield f"schedule {piece!r}", ["compile", "a.alg", "a.sched", "out"], {"a.alg": ALGORITHM, "a.sched": text}
        yield f"image {piece!r}", ["plain", "a.alg", "in", "out"], {"a.alg": ALGORITHM, "in": filled("P2 ", piece, "", size)}


def main():
    program, size = os.path.abspath(sys.argv[1]), int(sys.argv[2]) if len(sys.argv) > 2 else 65536
    took = []
    with tempfile.TemporaryDirectory() as folder:
        os.chdir(folder)
        for name, words, files in hostile(size):
            for file, text in files.items():
                with open(file, "wb") as it:
                    it.write(text.encode())
            said, status, seconds, _ = measured([program, *words])
            took.append((seconds, name))
            if seconds > 0.2:
                print(f"{name}: {seconds:.2f} s: {said} (status {status})", flush=True)
    took.sort(reverse=True)
    over = sum(seconds > 0.2 for seconds, _ in took)
    print(f"{len(took)} texts of {size:,} bytes: {over} took more than 0.2 s; the slowest: " + ", ".join(f"{name} {seconds:.3f} s" for seconds, name in took[:5]))


if __name__ == "__main__":
    main()
