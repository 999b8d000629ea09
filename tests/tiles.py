#!/usr/bin/env python3
"""Cuts algorithms into tiles by a built program, and compares the tiles' pictures with the cut of the whole one.

    python3 tests/tiles.py PROGRAM

Each algorithm of `examples` is cut at the whole output, at corners, edges, the interior, single samples and strips: `plain` of
the tile's algorithm on the part that `crop` tells is the cut of `plain`'s picture, and the crop of a crop is the crop. Then an
algorithm is cut into 256 tiles, and they are put together.
"""

import os
import re
import subprocess
import sys
import tempfile
from concurrent.futures import ThreadPoolExecutor
from dataclasses import dataclass
from pathlib import Path

EXAMPLES = Path(__file__).resolve().parent.parent / "examples"

SOFT = """pipeline soft;
input in u8 [64, 64];
func at u8 (x, y) = in[clamp(x, 0, 63), clamp(y, 0, 63)];
func out u8 (x, y) = u8((4u16 * u16(at[x, y]) + u16(at[x - 2, y]) + u16(at[x + 1, y]) + u16(at[x, y - 1]) + u16(at[x, y + 3])) / 8u16);
output out [64, 64];
"""


@dataclass
class Image:
    """Samples in raster order, of so many bytes each, in rows of so many pixels of so many channels."""

    width: int
    height: int
    channels: int
    size: int
    raster: bytes

    def cut(self, x, y, width, height):
        """The samples of a rectangle."""
        pixel = self.channels * self.size
        rows = (((y + row) * self.width + x) * pixel for row in range(height))
        return Image(width, height, self.channels, self.size, b"".join(self.raster[at : at + width * pixel] for at in rows))

    def file(self):
        """A raw PGM or PPM file."""
        return b"P%d\n%d %d\n%d\n" % (6 if self.channels == 3 else 5, self.width, self.height, 256**self.size - 1) + self.raster


def read_image(file):
    """The image of a raw file that the program wrote."""
    sort, sides, most, raster = file.split(b"\n", 3)
    width, height = map(int, sides.split())
    return Image(width, height, 3 if sort == b"P6" else 1, 2 if int(most) > 255 else 1, raster)


def made_image(extents, size):
    """An image whose samples differ from their neighbours."""
    width, height, channels = (*extents, 1, 1)[:3]
    count = width * height * channels * size
    return Image(width, height, channels, size, bytes(((n * 7919) ^ (n >> 3) * 31) >> 2 & 255 for n in range(count)))


class Cutter:
    """An algorithm's file, an image for it and its picture."""

    def __init__(self, program, room, algorithm):
        self.program, self.room, self.algorithm = program, Path(room), algorithm
        text = self.run("format", algorithm, "-").stdout.decode()
        self.name, sort, extents = re.search(r"^input (\w+) (\w+) \[([0-9, ]+)\]", text, re.M).groups()
        self.image = made_image([int(n) for n in extents.split(",")], 2 if sort == "u16" else 1)
        extents = [int(n) for n in re.search(r"^output \w+ ?\[([0-9, ]+)\]", text, re.M).group(1).split(",")]
        self.width, self.height = (*extents, 1)[:2]
        self.picture = self.plain(algorithm, self.image)

    def run(self, *words, given=b"", status=0):
        """Runs the program."""
        done = subprocess.run([self.program, *map(str, words)], input=given, capture_output=True, timeout=120)
        if done.returncode != status:
            raise AssertionError(f"{' '.join(map(str, words))}: status {done.returncode}: {done.stderr.decode()}")
        return done

    def plain(self, algorithm, image):
        """The picture of an algorithm."""
        return read_image(self.run("plain", algorithm, "-", "-", given=image.file()).stdout)

    def crop(self, algorithm, rectangle, out):
        """The part that the algorithm of a tile reads; its text is written."""
        told = self.run("crop", algorithm, *rectangle, out).stdout.decode().split()
        if told[0] != self.name or len(told) != 5:
            raise AssertionError(f"told {told}")
        return tuple(map(int, told[1:]))

    def check(self, rectangle):
        """What is wrong with a tile, if something is."""
        x, y, width, height = rectangle
        tile = self.room / f"{self.algorithm.stem}-{'-'.join(map(str, rectangle))}.alg"
        part = self.crop(self.algorithm, rectangle, tile)
        if self.plain(tile, self.image.cut(*part)) != self.picture.cut(*rectangle):
            return f"{self.algorithm.name} {rectangle}: another picture"
        inner = (width // 2, height // 2, (width + 1) // 2, (height + 1) // 2)
        again, direct = tile.with_suffix(".again"), tile.with_suffix(".direct")
        second = self.crop(tile, inner, again)
        first = self.crop(self.algorithm, (x + inner[0], y + inner[1], *inner[2:]), direct)
        if again.read_bytes() != direct.read_bytes() or (part[0] + second[0], part[1] + second[1], *second[2:]) != first:
            return f"{self.algorithm.name} {rectangle}: the crop of the crop is not the crop"
        return None

    def rectangles(self):
        """The whole, corners, edges, the interior, single samples and strips."""
        width, height = self.width, self.height
        half, low = (width + 1) // 2, (height + 1) // 2
        found = {(0, 0, width, height), (0, 0, half, low), (width - half, 0, half, low), (0, height - low, half, low)}
        found |= {(width - half, height - low, half, low), (0, 0, 1, 1), (width - 1, height - 1, 1, 1), (width // 2, height // 2, 1, 1)}
        found |= {(0, height // 2, width, 1), (width // 2, 0, 1, height), (0, 0, width, low), (0, 0, half, height)}
        found |= {(width // 3, height // 3, (width + 2) // 3, (height + 2) // 3), (width // 4, 0, half, low), (0, height // 4, half, low)}
        return sorted(found)


def mosaic(cutter, width, height):
    """What is wrong with the tiles of an algorithm, if something is."""
    folder = cutter.room / "tiles"
    folder.mkdir()
    told = cutter.run("tiles", cutter.algorithm, width, height, folder).stdout.decode()
    before = {path.name: path.read_bytes() for path in folder.iterdir()}
    again = cutter.run("tiles", cutter.algorithm, width, height, folder).stdout.decode()
    if told != again or before != {path.name: path.read_bytes() for path in folder.iterdir()}:
        return "tiles again writes other bytes"
    lines = [tuple(map(int, line.split())) for line in before["list"].decode().splitlines()]
    kinds = {line[8] for line in lines}
    wanted = f"{len(lines)} tiles {len(kinds)} kinds, largest part {max(w * h for *_, w, h, _ in lines) * cutter.image.channels}"
    if told != f"{wanted} of {len(cutter.image.raster) // cutter.image.size} samples\n" or set(before) != {"list", *(f"{k}.alg" for k in kinds)}:
        return f"told {told}"
    rows = [bytearray() for _ in range(cutter.height)]
    with ThreadPoolExecutor(os.cpu_count()) as pool:
        made = pool.map(lambda line: cutter.plain(folder / f"{line[8]}.alg", cutter.image.cut(*line[4:8])), lines)
        for (x, y, tile_width, tile_height, *_), tile in zip(lines, made):
            pixel = tile.channels * tile.size
            for row in range(tile_height):
                if len(rows[y + row]) != x * pixel:
                    return f"the tile at {x}, {y} is not where the last one ends"
                rows[y + row] += tile.cut(0, row, tile_width, 1).raster
    return None if b"".join(rows) == cutter.picture.raster else "the tiles together are another picture"


def main():
    program = os.path.abspath(sys.argv[1])
    passed, wrong = 0, []
    with tempfile.TemporaryDirectory() as room:
        for algorithm in sorted(EXAMPLES.glob("*.alg")):
            cutter = Cutter(program, room, algorithm)
            with ThreadPoolExecutor(os.cpu_count()) as pool:
                found = list(pool.map(cutter.check, cutter.rectangles()))
            passed += found.count(None)
            wrong += [fault for fault in found if fault]
        soft = Path(room, "soft.alg")
        soft.write_text(SOFT)
        fault = mosaic(Cutter(program, room, soft), 4, 4)
        passed += fault is None
        wrong += [fault] if fault else []
    print("\n".join([*wrong, f"{passed} passed, {len(wrong)} failed"]))
    return 1 if wrong else 0


if __name__ == "__main__":
    sys.exit(main())
