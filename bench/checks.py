#!/usr/bin/env python3
"""Measures `check` of plans that are long, have many pieces or cells, or ask, need or fetch much: seconds and peak memory.

usage: checks.py PROGRAM
"""
import os
import subprocess
import sys
import tempfile
import time

ALGORITHM = "pipeline inc; input in u8 [{w}, {h}]; func out u8 (x, y) = in[x, y] + 1u8; output out [{w}, {h}];"
HEAD = "plan 1 inc\ninput in u8 [{w},{h}]\noutput out u8 [{w},{h}]\n"
STORE = "store b0 0 x={x} y={y} (in[x,y]+1u8)\n"


def flat_stores(count):
    """One piece of 8192 points, with `count` stores of a line each before the nest that stores them all."""
    lines = "".join(STORE.format(x=i % 8192, y=0) for i in range(count))
    text = HEAD + (
        "group 0 out [0:{r};0:0] grid 1\nalloc b0 out [0#{w};0#1]\n" + lines + "for s1 0:0 serial\nfor s2 0:{r} serial\n"
        "store b0 0 x=0+1*s2 y=0+1*s1 (in[x,y]+1u8)\nend\nend\npublish @0\ncert\nown 0 [0:{r};0:0]\n"
        "claim 0 {line} b0 out 0 [0:{r};0:0]\nend\n"
    )
    return ALGORITHM, text.format(w=8192, h=1, r=8191, line=10 + count), 8192, 1


def pieces(side_w, side_h, needs=""):
    """A piece for each point, with need lines of its own group."""
    text = HEAD + (
        "group 0 out [0:{r};0:{b}] grid {w} {h}\nalloc b0 out [0+1*s0#1;0+1*s1#1]\nfor s2 0+1*s1:0+1*s1 serial\n"
        "for s3 0+1*s0:0+1*s0 serial\nstore b0 0 x=0+1*s3 y=0+1*s2 (in[x,y]+1u8)\nend\nend\npublish @0\ncert\n"
        "own 0 [0+1*s0:0+1*s0;0+1*s1:0+1*s1]\n{needs}claim 0 10 b0 out 0 [0+1*s0:0+1*s0;0+1*s1:0+1*s1]\nend\n"
    )
    return ALGORITHM, text.format(w=side_w, h=side_h, r=side_w - 1, b=side_h - 1, needs=needs), side_w, side_h


def apart_needs(count):
    """A piece for each point, with need lines of which two dimensions exclude one another only together."""
    places = [divmod(i, 1000) for i in range(1, count + 1)]
    needs = [f"need 0 0 [{x},{x + 200}-1*s0+1*s1:{x};{y},{y + 1}+1*s0-1*s1:{y}]\n" for y, x in places]
    return pieces(1024, 1024, "".join(needs))


def rows_of(side):
    """A piece for each row of a square."""
    text = HEAD + (
        "group 0 out [0:{r};0:{r}] grid {h}\nalloc b0 out [0#{w};0+1*s0#1]\nfor s1 0+1*s0:0+1*s0 serial\n"
        "for s2 0:{r} serial\nstore b0 0 x=0+1*s2 y=0+1*s1 (in[x,y]+1u8)\nend\nend\npublish @0\ncert\n"
        "own 0 [0:{r};0+1*s0:0+1*s0]\nclaim 0 10 b0 out 0 [0:{r};0+1*s0:0+1*s0]\nend\n"
    )
    return ALGORITHM, text.format(w=side, h=side, r=side - 1), side, side


def empty_loops(count):
    """A nest of loops that hold nothing but one another, before the pixels are stored."""
    loops = "".join(f"for s{i + 1} 0:0 serial\n" for i in range(count))
    text = HEAD + (
        "group 0 out [0:1;0:9] grid 1\nalloc b0 out [0#2;0#10]\n" + loops + "end\n" * count + "for s{a} 0:9 serial\n"
        "for s{b} 0:1 serial\nstore b0 0 x=0+1*s{b} y=0+1*s{a} (in[x,y]+1u8)\nend\nend\npublish @0\ncert\n"
        "own 0 [0:1;0:9]\nclaim 0 {line} b0 out 0 [0:1;0:9]\nend\n"
    )
    return ALGORITHM, text.format(w=2, h=10, a=count + 1, b=count + 2, line=10 + 2 * count), 2, 10


def many_needs(count, region):
    """A group of 1024 x 1023 pieces with `count` need lines, each of which names some of the 16 pieces of another group."""
    algorithm = (
        "pipeline many; input in u8 [16]; func f u8 (x) = in[x] + 1u8; func out u8 (x, y) = f[0]; output out [{w}, {h}];"
    )
    needs = "".join(f"need 1 0 [{region(i)}]\n" for i in range(count))
    text = (
        "plan 1 many\ninput in u8 [16]\noutput out u8 [{w},{h}]\ngroup 0 f [0:15] grid 16\nalloc b0 f [0+1*s0#1]\n"
        "for s1 0+1*s0:0+1*s0 serial\nstore b0 0 x=0+1*s1 (in[x]+1u8)\nend\npublish @0\n"
        "group 1 out [0:{r};0:{b}] grid {w} {h}\nalloc b0 f [0#1]\nalloc b1 out [0+1*s0#1;0+1*s1#1]\nfetch b0 0 [0:0]\n"
        "for s2 0+1*s1:0+1*s1 serial\nfor s3 0+1*s0:0+1*s0 serial\nstore b1 0 x=0+1*s3 y=0+1*s2 @1[0]\nend\nend\n"
        "publish @2\ncert\nown 0 [0+1*s0:0+1*s0]\nown 1 [0+1*s0:0+1*s0;0+1*s1:0+1*s1]\n{needs}"
        "claim 0 8 b0 f 0 [0+1*s0:0+1*s0]\nclaim 1 13 b0 f 0 [0:0]\n"
        "claim 2 18 b1 out 0 [0+1*s0:0+1*s0;0+1*s1:0+1*s1]\nend\n"
    )
    return algorithm, text.format(w=1024, h=1023, r=1023, b=1022, needs=needs), 1024, 1023


def self_needs(count, region):
    """A group of 2^20 pieces in one coordinate, of which the first 1024 own a column each, with `count` need lines of itself."""
    needs = "".join(f"need 0 0 [{region(i)}]\n" for i in range(1, count + 1))
    text = HEAD + (
        "group 0 out [0:{r};0:{r}] grid 1048576\nalloc b0 out [0+1*s0#1;0#{w}]\nfor s1 0:{r} serial\n"
        "for s2 0+1*s0:0+1*s0,{r} serial\nstore b0 0 x=0+1*s2 y=0+1*s1 (in[x,y]+1u8)\nend\nend\npublish @0\ncert\n"
        "own 0 [0+1*s0:0+1*s0,{r};0:{r}]\n{needs}claim 0 10 b0 out 0 [0+1*s0:0+1*s0,{r};0:{r}]\nend\n"
    )
    return ALGORITHM, text.format(w=1024, h=1024, r=1023, needs=needs), 1024, 1024


def many_fetches(count):
    """A piece behind 2^19 of another group, with `count` fetch lines of 2048 cells each: 32,768 of them read 2^26 cells."""
    algorithm = (
        "pipeline many; input in u8 [{w}, {h}]; func f u8 (x, y) = in[x, y] + 1u8; func out u8 (x) = f[0, 0]; output out [1];"
    )
    text = (
        "plan 1 many\ninput in u8 [{w},{h}]\noutput out u8 [1]\ngroup 0 f [0:{r};0:{b}] grid {w} {g}\n"
        "alloc b0 f [0+1*s0#1;0+2*s1#2]\nfor s2 0+2*s1:1+2*s1 serial\nfor s3 0+1*s0:0+1*s0 serial\n"
        "store b0 0 x=0+1*s3 y=0+1*s2 (in[x,y]+1u8)\nend\nend\npublish @0\ngroup 1 out [0:0] grid 1\n"
        "alloc b0 f [0#{w};0#2]\nalloc b1 out [0#1]\n{fetches}for s1 0:0 serial\nstore b1 0 x=0+1*s1 @1[0,0]\nend\n"
        "publish @2\ncert\nown 0 [0+1*s0:0+1*s0;0+2*s1:1+2*s1]\nown 1 [0:0]\nneed 1 0 [0:{r};0:0]\n"
        "claim 0 10 b0 f 0 [0+1*s0:0+1*s0;0+2*s1:1+2*s1]\nclaim 1 {fetched} b0 f 0 [0:{r};0:1]\n"
        "claim 2 {stored} b1 out 0 [0:0]\nend\n"
    )
    fetches = "fetch b0 0 [0:1023;0:1]\n" * count
    text = text.format(w=1024, h=1024, r=1023, b=1023, g=512, fetches=fetches, fetched=14 + count, stored=17 + count)
    return algorithm, text, 1024, 1024


def one_gap(count):
    """`count` groups of a piece of 512 x 512 cells each, of which the last leaves a row out, and one that has a cell."""
    functions = " ".join(f"func f{i} u8 (x, y) = in[x, y] + {i}u8;" for i in range(count))
    algorithm = "pipeline gap; input in u8 [{w}, {h}]; " + functions + " func out u8 (x) = f0[0, 0]; output out [1];"
    groups = "".join(
        f"group {i} f{i} [0:511;0:511] grid 1\nalloc b0 f{i} [0#512;0#512]\nfor s1 0:511 serial\nfor s2 0:511 serial\n"
        f"store b0 0 x=0+1*s2 y=0+1*s1 (in[x,y]+{i}u8)\nend\nend\npublish @{i}\n"
        for i in range(count)
    )
    owns = "".join(f"own {i} [0:511;0:{510 if i == count - 1 else 511}]\n" for i in range(count))
    claims = "".join(f"claim {i} {10 + 8 * i} b0 f{i} 0 [0:511;0:511]\n" for i in range(count))
    text = (
        f"plan 1 gap\ninput in u8 [512,512]\noutput out u8 [1]\n{groups}group {count} out [0:0] grid 1\nalloc b0 f0 [0#1;0#1]\n"
        f"alloc b1 out [0#1]\nfetch b0 0 [0:0;0:0]\nfor s1 0:0 serial\nstore b1 0 x=0+1*s1 @{count}[0,0]\nend\n"
        f"publish @{count + 1}\ncert\n{owns}own {count} [0:0]\nneed {count} 0 [0:0]\n{claims}"
        f"claim {count} {7 + 8 * count} b0 f0 0 [0:0;0:0]\nclaim {count + 1} {10 + 8 * count} b1 out 0 [0:0]\nend\n"
    )
    return algorithm, text, 512, 512


PLANS = {
    "2,000 flat stores": lambda: flat_stores(2000),
    "65,521 flat stores, 65,536 lines": lambda: flat_stores(65521),
    "65,536 pieces of a cell": lambda: pieces(256, 256),
    "2^20 pieces of a cell": lambda: pieces(1024, 1024),
    "2^24 cells in 4096 pieces": lambda: rows_of(4096),
    "200 nested empty loops": lambda: empty_loops(200),
    "65,500 need lines and 2^20 pieces": lambda: many_needs(65500, lambda i: f"0:{i % 16}"),
    "65,500 need lines that repeat 8 with a symbol, and 2^20 pieces": lambda: many_needs(
        65500, lambda i: f"0,{-1023 - i % 8}+1*s0:0"
    ),
    "65,000 need lines with a symbol, each in the next, and 2^20 pieces": lambda: self_needs(
        65000, lambda i: f"0,{-i}+1*s0:-1+1*s0"
    ),
    "65,000 need lines of a piece each, and 2^20 pieces": lambda: self_needs(65000, lambda i: f"0,{-i}+1*s0:{-i}+1*s0"),
    "65,000 need lines each of which is one piece's alone, and 2^20 pieces": lambda: self_needs(
        65000, lambda i: f"{i},{-6 * i - 3}+1*s0,{8 * i + 3}-1*s0:{i}"
    ),
    "65,000 need lines without a point at most of 2^20 pieces": lambda: self_needs(
        65000, lambda i: f"{i}+1*s0:1000-1*s0"
    ),
    "65,000 need lines whose ends move together and never meet, and 2^20 pieces": lambda: self_needs(
        65000, lambda i: f"1+1000*s0,{-i}-1*s0:0+1000*s0,{70000 - i}+2000*s0"
    ),
    "65,000 need lines of which two dimensions exclude one another only together, and 2^20 pieces": lambda: apart_needs(65000),
    "65,000 need lines that name the same piece at most of 2^20 pieces": lambda: self_needs(
        65000, lambda i: f"0,{i}-1*s0:0,{524288 + i}-1*s0"
    ),
    "32,769 fetch lines of a piece behind 2^19 of another group, too many cells": lambda: many_fetches(32769),
    "60 groups of 2^18 cells, of which the last leaves some out": lambda: one_gap(60),
}


def measured(words):
    """What a run prints, its status, its seconds and its peak memory in bytes."""
    start = time.monotonic()
    process = subprocess.Popen(words, stdout=subprocess.PIPE, stderr=subprocess.STDOUT, text=True)
    said = process.stdout.read().strip()
    _, status, usage = os.wait4(process.pid, 0)
    return said, os.waitstatus_to_exitcode(status), time.monotonic() - start, usage.ru_maxrss * 1024


def main():
    program = os.path.abspath(sys.argv[1])
    with tempfile.TemporaryDirectory() as folder:
        for name, made in PLANS.items():
            algorithm, plan, width, height = made()
            for file, text in (("a.alg", algorithm.format(w=width, h=height)), ("a.plan", plan)):
                with open(os.path.join(folder, file), "w", encoding="ascii") as it:
                    it.write(text)
            words = [program, "check", *(os.path.join(folder, it) for it in ("a.alg", "a.plan"))]
            said, status, seconds, memory = measured(words)
            print(f"check {name}: {seconds:.2f} s, {memory / 2**20:.0f} MiB: {said} (status {status})", flush=True)


if __name__ == "__main__":
    main()
