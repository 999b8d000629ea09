#!/usr/bin/env python3
"""Measures `check` of plans that ask much of the checker: seconds, processor seconds and peak memory.

usage: hostile.py PROGRAM [WORD ..]    (only the plans whose name has one of the words)
"""
import os
import resource
import sys
import tempfile

from checks import PLANS, measured

SIDE = 64


def ladder(stores, loads, different=False):
    """Five nested loops, each with four lower and four upper bounds by the loop around it, round stores of so many loads.

    A bound of the innermost symbol takes 4 + 16 + .. + 1024 = 1364 replacements. Where the loads are `different`, no two
    of them have the same index.
    """
    last = SIDE - 1
    sides = [(",".join(["0"] * 4), ",".join([str(last)] * 4))] + [(",".join([f"0+1*s{loop}"] * 4),) * 2 for loop in range(1, 5)]
    loops = "".join(f"for s{number} {low}:{high} serial\n" for number, (low, high) in enumerate(sides, 1))
    points = [f"in[(x-{number}),y]" if different else "in[x,y]" for number in range(loads)]
    value = points[0]
    for point in points[1:]:
        value = f"({value}+{point})"
    text = (
        f"plan 1 p\ninput in u8 [{SIDE},{SIDE}]\noutput out u8 [{SIDE},{SIDE}]\n"
        f"group 0 out [0:{last};0:{last}] grid 1\nalloc b0 out [0#{SIDE};0#{SIDE}]\n{loops}"
        + f"store b0 0 x=0+1*s5 y=0+1*s5 {value}\n" * stores
        + "end\n" * 5
        + f"publish @0\ncert\nown 0 [0:{last};0:{last}]\nclaim 0 {15 + stores} b0 out 0 [0:{last};0:{last}]\nend\n"
    )
    algorithm = f"pipeline p; input in u8 [{SIDE}, {SIDE}]; func out u8 (x, y) = {value}; output out [{SIDE}, {SIDE}];"
    return algorithm, text, SIDE, SIDE


HOSTILE = {
    "20 loads in five loops of four bounds": lambda: ladder(1, 20),
    "2,400 loads in five loops of four bounds": lambda: ladder(60, 40),
    "20 different loads in five loops of four bounds": lambda: ladder(1, 20, different=True),
    "2,400 different loads in five loops of four bounds": lambda: ladder(60, 40, different=True),
    **{name: PLANS[name] for name in ("2,000 flat stores", "65,536 pieces of a cell", "200 nested empty loops")},
}


def main():
    program, words = os.path.abspath(sys.argv[1]), sys.argv[2:]
    with tempfile.TemporaryDirectory() as folder:
        for name, made in HOSTILE.items():
            if words and not any(word in name for word in words):
                continue
            algorithm, plan, width, height = made()
            for file, text in (("a.alg", algorithm.replace("{w}", str(width)).replace("{h}", str(height))), ("a.plan", plan)):
                with open(os.path.join(folder, file), "w", encoding="ascii") as it:
                    it.write(text)
            before = resource.getrusage(resource.RUSAGE_CHILDREN).ru_utime
            words_run = [program, "check", *(os.path.join(folder, it) for it in ("a.alg", "a.plan"))]
            said, status, seconds, memory = measured(words_run)
            spent = resource.getrusage(resource.RUSAGE_CHILDREN).ru_utime - before
            told = f"{seconds:.2f} s ({spent:.2f} s of processors), {memory / 2**20:.0f} MiB"
            print(f"check {name}, {len(plan):,} bytes: {told}: {said} (status {status})", flush=True)


if __name__ == "__main__":
    main()
