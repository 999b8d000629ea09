#!/usr/bin/env python3
"""Measures `check` and `run` of plans with a piece a row, and `plain`: seconds and peak memory on square images.

usage: rows.py PROGRAM [SIDE ..]    (1024 and 4096 where no side is named)
"""
import os
import subprocess
import sys
import tempfile
import time

INCREMENT = "pipeline inc; input in u8 [{n}, {n}]; func out u8 (x, y) = in[x, y] + 1u8; output out [{n}, {n}];"
BLUR = (
    "pipeline blur3; input in u8 [{n}, {n}]; "
    "func across u16 (x, y) = u16(in[clamp(x - 1, 0, {last}), y]) + u16(in[x, y]) + u16(in[clamp(x + 1, 0, {last}), y]); "
    "func out u8 (x, y) = u8((across[x, clamp(y - 1, 0, {last})] + across[x, y] + across[x, clamp(y + 1, 0, {last})]) / 9u16); "
    "output out [{n}, {n}];"
)
INCREMENT_PLAN = """plan 1 inc
input in u8 [{n},{n}]
output out u8 [{n},{n}]
group 0 out [0:{last};0:{last}] grid {n}
alloc b0 out [0#{n};0+1*s0#1]
for s1 0+1*s0:0+1*s0 serial
for s2 0:{last} serial
store b0 0 x=0+1*s2 y=0+1*s1 (in[x,y]+1u8)
end
end
publish @0
cert
own 0 [0:{last};0+1*s0:0+1*s0]
claim 0 10 b0 out 0 [0:{last};0+1*s0:0+1*s0]
end
"""
BLUR_PLAN = """plan 1 blur3
input in u8 [{n},{n}]
output out u8 [{n},{n}]
group 0 out [0:{last};0:{last}] grid {n}
alloc b0 across [0#{n};-1+1*s0#3]
alloc b1 out [0#{n};0+1*s0#1]
for s1 -1+1*s0,0:1+1*s0,{last} serial
for s2 0:{last} serial
store b0 0 x=0+1*s2 y=0+1*s1 ((u16(in[clamp((x-1),0,{last}),y])+u16(in[x,y]))+u16(in[clamp((x+1),0,{last}),y]))
end
end
for s3 0+1*s0:0+1*s0 serial
for s4 0:{last} serial
store b1 0 x=0+1*s4 y=0+1*s3 u8((((@0[x,clamp((y-1),0,{last})]+@0[x,y])+@0[x,clamp((y+1),0,{last})])/9u16))
end
end
publish @1
cert
own 0 [0:{last};0+1*s0:0+1*s0]
claim 0 11 b0 across 0 [0:{last};-1+1*s0,0:1+1*s0,{last}]
claim 1 16 b1 out 0 [0:{last};0+1*s0:0+1*s0]
end
"""
TEXTS = {"increment": (INCREMENT, INCREMENT_PLAN), "blur3": (BLUR, BLUR_PLAN)}


def write(folder, name, text):
    """Writes a text file in the folder and returns its path."""
    path = os.path.join(folder, name)
    with open(path, "w", encoding="ascii") as it:
        it.write(text)
    return path


def files(folder, name, side):
    """Returns the paths of the algorithm, the plan, the image and the picture of a pipeline on a square of that side."""
    algorithm, plan = (it.format(n=side, last=side - 1) for it in TEXTS[name])
    image = os.path.join(folder, "in.pgm")
    with open(image, "wb") as it:
        it.write(b"P5 %d %d 255\n" % (side, side))
        it.write(bytes(x * 7 + 3 & 255 for x in range(side)) * side)
    return write(folder, "a.alg", algorithm), write(folder, "a.plan", plan), image, os.path.join(folder, "out.pgm")


def measured(program, command, name, side, folder):
    """Returns the seconds and the peak memory in bytes of one run of the command."""
    algorithm, plan, image, picture = files(folder, name, side)
    words = {"check": [algorithm, plan], "run": [algorithm, plan, image, picture], "plain": [algorithm, image, picture]}[command]
    start = time.monotonic()
    process = subprocess.Popen([program, command, *words])
    _, status, usage = os.wait4(process.pid, 0)
    if status:
        sys.exit(f"{command} {name} {side}: status {os.waitstatus_to_exitcode(status)}")
    return time.monotonic() - start, usage.ru_maxrss * 1024


def main():
    """Prints a line for each command, pipeline and side."""
    program, sides = sys.argv[1], [int(it) for it in sys.argv[2:]] or [1024, 4096]
    # without a plan nothing is remembered, so the smallest side is enough
    jobs = [(command, name, side) for name in TEXTS for side in sides for command in ("check", "run")]
    with tempfile.TemporaryDirectory() as folder:
        for command, name, side in jobs + [("plain", "blur3", min(sides))]:
            seconds, memory = measured(program, command, name, side, folder)
            print(f"{command} {name} {side}x{side}: {seconds:.2f} s, {memory / 2**20:.0f} MiB, {memory / side**2:.1f} bytes a pixel")


main()
