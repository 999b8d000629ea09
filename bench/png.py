#!/usr/bin/env python3
"""Writes a PGM or PPM file as a PNG file of 8 bits a sample, with Python's standard library alone.

usage: png.py IN OUT [X Y WIDTH HEIGHT]

The rectangle that is named is cut out first. Samples of a PGM file of 16 bits are divided so that the largest one is 255.
"""

import struct
import sys
import zlib
from pathlib import Path


def read(path):
    """Width, height, channels and the samples in raster order of a raw PGM or PPM file, and its greatest sample."""
    data = Path(path).read_bytes()
    words, at = [], 0
    while len(words) < 4:
        while data[at:at + 1].isspace():
            at += 1
        end = at
        while not data[end:end + 1].isspace():
            end += 1
        words.append(data[at:end])
        at = end
    if words[0] not in (b"P5", b"P6"):
        raise ValueError("no raw PGM or PPM file")
    width, height, largest = map(int, words[1:])
    channels = 3 if words[0] == b"P6" else 1
    raster = data[at + 1:]
    if largest > 255:
        raster = [raster[k] * 256 + raster[k + 1] for k in range(0, len(raster), 2)]
    if len(raster) != width * height * channels:
        raise ValueError("the raster has another size")
    return width, height, channels, list(raster), largest


def to_bytes(samples, largest):
    """The samples as numbers from 0 to 255."""
    if largest <= 255:
        return bytes(samples)
    most = max(max(samples), 1)
    return bytes(one * 255 // most for one in samples)


def cut(width, channels, samples, rectangle):
    """The samples of a rectangle of a raster."""
    left, top, wide, high = rectangle
    rows = [samples[((top + y) * width + left) * channels:((top + y) * width + left + wide) * channels] for y in range(high)]
    return b"".join(rows)


def paeth(a, b, c):
    """The predictor of PNG's fourth filter."""
    p = a + b - c
    pa, pb, pc = abs(p - a), abs(p - b), abs(p - c)
    return a if pa <= pb and pa <= pc else b if pb <= pc else c


def filtered(row, above, step):
    """A row behind the filter that leaves the smallest numbers, with the filter's number before it."""
    left = bytes(step) + row[:-step] if len(row) >= step else bytes(len(row))
    corner = bytes(step) + above[:-step] if len(row) >= step else bytes(len(row))
    guesses = [
        bytes(len(row)), left, above, bytes((a + b) // 2 for a, b in zip(left, above)),
        bytes(paeth(a, b, c) for a, b, c in zip(left, above, corner)),
    ]
    made = [bytes([number]) + bytes(one - guess & 255 for one, guess in zip(row, guessed))
            for number, guessed in enumerate(guesses)]
    return min(made, key=lambda one: sum(min(k, 256 - k) for k in one[1:]))


def chunk(name, data):
    """A chunk of a PNG file."""
    return struct.pack(">I", len(data)) + name + data + struct.pack(">I", zlib.crc32(name + data))


def png(width, height, channels, raster):
    """The bytes of a PNG file."""
    long = width * channels
    rows = [raster[y * long:(y + 1) * long] for y in range(height)]
    plain = b"".join(b"\0" + row for row in rows)
    best = b"".join(filtered(row, above, channels) for row, above in zip(rows, [bytes(long)] + rows))
    data = min((zlib.compress(one, 9) for one in (plain, best)), key=len)
    head = struct.pack(">IIBBBBB", width, height, 8, 2 if channels == 3 else 0, 0, 0, 0)
    return b"\x89PNG\r\n\x1a\n" + chunk(b"IHDR", head) + chunk(b"IDAT", data) + chunk(b"IEND", b"")


def pixels(data):
    """Width, height and channels of a PNG file that `png` wrote, and its raster."""
    width, height, _, sort = struct.unpack(">IIBB", data[16:26])
    channels, at, packed = (3 if sort == 2 else 1), 8, b""
    while at < len(data):
        long = struct.unpack(">I", data[at:at + 4])[0]
        packed += data[at + 8:at + 8 + long] if data[at + 4:at + 8] == b"IDAT" else b""
        at += 12 + long
    stream, size = zlib.decompress(packed), width * channels + 1
    above, rows = bytes(width * channels), []
    for y in range(height):
        above = unfiltered(stream[y * size], stream[y * size + 1:(y + 1) * size], above, channels)
        rows.append(above)
    return width, height, channels, b"".join(rows)


def unfiltered(number, row, above, step):
    """A row of which the filter with this number left the differences."""
    made = bytearray(row)
    for k in range(len(row)):
        left = made[k - step] if k >= step else 0
        corner = above[k - step] if k >= step else 0
        guess = (0, left, above[k], (left + above[k]) // 2, paeth(left, above[k], corner))[number]
        made[k] = made[k] + guess & 255
    return bytes(made)


def converted(path, rectangle=None):
    """The bytes of the PNG file of a PGM or PPM file, or of a rectangle of it."""
    width, height, channels, samples, largest = read(path)
    raster = to_bytes(samples, largest)
    if rectangle is not None:
        raster, width, height = cut(width, channels, raster, rectangle), rectangle[2], rectangle[3]
    return png(width, height, channels, raster)


def main():
    if len(sys.argv) not in (3, 7):
        sys.exit(__doc__.splitlines()[2])
    rectangle = tuple(map(int, sys.argv[3:])) if len(sys.argv) == 7 else None
    Path(sys.argv[2]).write_bytes(converted(sys.argv[1], rectangle))


if __name__ == "__main__":
    main()
