#!/usr/bin/env python3
"""Runs the scripts of `examples/cluster` on the engines that are there, and compares their pictures with the whole one.

    python3 tests/engines.py PROGRAM

A picture of 1024 by 1024 samples is made in 256 tiles: by GNU parallel, with `plain` and with plans by 1 and 3 workers; again
after tiles were taken away and after one was killed midway; by Dask on two processes; and by GDAL from a GeoTIFF to a GeoTIFF.
A tile that fails stops the script with its status, and no picture is written. What is not installed is passed over with a word.
"""

import os
import shutil
import subprocess
import sys
import tempfile
from pathlib import Path

from tiles import EXAMPLES, made_image, read_image

CLUSTER = EXAMPLES / "cluster"

SIDE, TILE = 1024, 64

BLUR = """pipeline blur;
input in u8 [1024, 1024];
func at u16 (x, y) = u16(in[clamp(x, 0, 1023), clamp(y, 0, 1023)]);
func across u16 (x, y) = at[x - 2, y] + at[x, y] + at[x + 1, y];
func out u8 (x, y) = u8((across[x, y - 1] + across[x, y] + across[x, y + 3]) / 9u16);
output out[1024, 1024];
"""

ROWS = "out.split(y, block, row, 16, guard).parallel(block);\n"

# A program in place of `stencil` that does as it, but for one tile: there it writes half a picture and is killed.
KILLED = """#!/bin/sh
case "$*" in *"{part}"*) printf 'P5\\n64 64\\n255\\nhalf' > "$4"; kill -9 $$ ;; esac
exec {program} "$@"
"""

# The same, but for one tile there is no picture: it is refused with a status.
REFUSED = """#!/bin/sh
case "$*" in *"{part}"*) echo 'stencil: G3' >&2; exit 3 ;; esac
exec {program} "$@"
"""

DASK = """import sys
import numpy as np
from dask.distributed import Client, LocalCluster
sys.path.insert(0, sys.argv[1])
import dask_tiles
if __name__ == "__main__":
    image = dask_tiles.samples(open(sys.argv[3], "rb").read())
    with LocalCluster(n_workers=2, threads_per_worker=1, processes=True, host="127.0.0.1", dashboard_address=None) as cluster:
        with Client(cluster) as client:
            open(sys.argv[4], "wb").write(dask_tiles.pnm(dask_tiles.picture(client, sys.argv[2], image)))
"""


class Bench:
    """A folder with an algorithm, a schedule, an image, and the picture of the whole."""

    def __init__(self, program, room):
        self.program, self.room = program, Path(room)
        self.file("a.alg").write_text(BLUR)
        self.file("a.sched").write_text(ROWS)
        self.file("in.pgm").write_bytes(made_image([SIDE, SIDE], 1).file())
        self.stencil("compile", "a.alg", "a.sched", "a.plan")
        self.stencil("run", "a.alg", "a.plan", "in.pgm", "whole.pgm")
        self.whole = self.file("whole.pgm").read_bytes()

    def file(self, name):
        return self.room / name

    def stencil(self, *words):
        subprocess.run([self.program, *words], cwd=self.room, check=True, capture_output=True)

    def script(self, *words, program=None, **settings):
        """Runs a script; its status."""
        environment = {**os.environ, "STENCIL": str(program or self.program), **settings}
        return subprocess.run(list(map(str, words)), cwd=self.room, env=environment, capture_output=True, check=False).returncode

    def parallel(self, out, *more, program=None, **settings):
        """The status of the picture's making by GNU parallel, and the picture."""
        script = [CLUSTER / "parallel.sh", "a.alg", "in.pgm", TILE, TILE, out, *more]
        status = self.script("sh", *script, program=program, **settings)
        made = self.file(out)
        return status, made.read_bytes() if made.exists() else None

    def instead(self, text):
        """A program that does as the text says, where the part of the tenth tile is meant."""
        path = self.file("instead.sh")
        path.write_text(text.format(part="/made/10.", program=self.program))
        path.chmod(0o755)
        return path


def by_parallel(bench):
    """What is wrong with the pictures of GNU parallel."""
    if bench.parallel("plain.pgm") != (0, bench.whole):
        yield "parallel.sh by `plain`"
    for workers in ("1", "3"):
        if bench.parallel(f"run{workers}.pgm", "a.sched", WORKERS=workers) != (0, bench.whole):
            yield f"parallel.sh by plans with {workers} workers"
    kept = bench.file("plain.pgm.tiles/made/3.pnm").stat().st_mtime_ns
    for number in (1, 77, 256):
        bench.file(f"plain.pgm.tiles/made/{number}.pnm").unlink()
    if bench.parallel("plain.pgm") != (0, bench.whole) or bench.file("plain.pgm.tiles/made/3.pnm").stat().st_mtime_ns != kept:
        yield "parallel.sh after tiles were taken away"


def by_broken_tiles(bench):
    """What is wrong where a tile fails, and after it."""
    status, made = bench.parallel("broken.pgm", program=bench.instead(REFUSED))
    if status != 3 or made is not None or bench.file("broken.pgm.tiles/made/10.pnm").exists():
        yield f"parallel.sh with a tile that is refused: status {status}"
    status, made = bench.parallel("broken.pgm", program=bench.instead(KILLED))
    if status == 0 or made is not None or bench.file("broken.pgm.tiles/made/10.pnm").exists():
        yield f"parallel.sh with a tile that is killed: status {status}"
    if bench.parallel("broken.pgm") != (0, bench.whole):
        yield "parallel.sh started again after a tile was killed"


def by_dask(bench, python):
    """What is wrong with Dask's picture."""
    bench.file("dask").mkdir()
    bench.stencil("tiles", "a.alg", str(TILE), str(TILE), "dask")
    bench.file("run.py").write_text(DASK)
    status = bench.script(python, "run.py", CLUSTER, "dask", "in.pgm", "dask.pgm")
    made = bench.file("dask.pgm")
    if status != 0 or made.read_bytes() != bench.whole:
        yield f"dask_tiles.py: status {status}"


def by_gdal(bench):
    """What is wrong with GDAL's picture, or with where it lies."""
    corners = ["-a_srs", "EPSG:32632", "-a_ullr", "500000", "5200000", "510240", "5189760"]
    subprocess.run(["gdal_translate", "-q", *corners, "in.pgm", "in.tif"], cwd=bench.room, check=True)
    status = bench.script("sh", CLUSTER / "mosaic.sh", "a.alg", "in.tif", "256", "256", "out.tif")
    subprocess.run(["gdal_translate", "-q", "-of", "PNM", "out.tif", "gdal.pgm"], cwd=bench.room, check=False)
    made = bench.file("gdal.pgm")
    if status != 0 or not made.exists() or read_image(made.read_bytes()).raster != read_image(bench.whole).raster:
        yield f"mosaic.sh: status {status}"
        return
    if where(bench, "in.tif") != where(bench, "out.tif"):
        yield "mosaic.sh: the picture lies elsewhere"


def where(bench, name):
    """The lines that tell where a GeoTIFF lies."""
    told = subprocess.run(["gdalinfo", name], cwd=bench.room, capture_output=True, check=True).stdout
    return [line for line in told.splitlines() if line.startswith((b"Origin", b"Pixel Size", b"Upper Left"))]


def has_gnu_parallel():
    """Whether GNU parallel and Netpbm are there; another program of that name is not meant."""
    if not all(map(shutil.which, ("parallel", "pamcut", "pnmcat"))):
        return False
    return b"GNU parallel" in subprocess.run(["parallel", "--version"], capture_output=True, check=False).stdout


def python_with_dask():
    """A Python that has Dask, if there is one."""
    for python in (sys.executable, "/usr/bin/python3"):
        words = [python, "-c", "import dask.distributed, numpy"]
        if os.path.exists(python) and subprocess.run(words, capture_output=True, check=False).returncode == 0:
            return python
    return None


def main():
    has_parallel = has_gnu_parallel()
    has_gdal = all(map(shutil.which, ("gdal_translate", "gdalbuildvrt", "gdalinfo", "gdalsrsinfo")))
    python = python_with_dask()
    with tempfile.TemporaryDirectory() as room:
        bench = Bench(os.path.abspath(sys.argv[1]), room)
        tests = [("parallel and netpbm", has_parallel, by_parallel, 4), ("parallel and netpbm", has_parallel, by_broken_tiles, 3)]
        tests += [("python3-dask", python, lambda at: by_dask(at, python), 1), ("gdal-bin", has_gdal, by_gdal, 1)]
        passed, wrong = 0, []
        for package, there, test, count in tests:
            if not there:
                print(f"{package}: not installed, passed over")
                continue
            found = list(test(bench))
            passed += count - len(found)
            wrong += found
    print("\n".join([*wrong, f"{passed} passed, {len(wrong)} failed"]))
    return 1 if wrong else 0


if __name__ == "__main__":
    sys.exit(main())
