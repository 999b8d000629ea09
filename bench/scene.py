#!/usr/bin/env python3
"""Makes the pictures that the gallery's applications take: edges, ramps, texture, noise, a Bayer mosaic; always the same ones.

usage: scene.py KIND WIDTH HEIGHT OUT [SEED]

KIND is one of
  colour   a PPM file of 8 bits: a house in a dark and a bright half, hills, bars, a chequerboard, thin lines, some noise
  grey     its grey as a PGM file of 8 bits
  mosaic   the same scene as a sensor sees it: PGM, 12 of 16 bits, red first (RGGB), linear, black at 64, with the fall of light
           towards the corners, the cast of daylight, noise and some hot and dead pixels
  random   a PGM file of 8 bits, each sample by chance; `random3` a PPM file; `random12` a PGM file of 12 of 16 bits
"""

import sys
from pathlib import Path

# The scene is drawn in a frame of this size, whatever the picture's size is.
FRAME = (320, 240)


def hashed(*numbers):
    """A number from 0 to 65535 that rests on the numbers given alone."""
    state = 0x9E3779B9
    for number in numbers:
        state = ((state ^ (number & 0xFFFFFFFF)) * 0x01000193 + 0x7F4A7C15) & 0xFFFFFFFF
        state ^= state >> 15
    state = (state * 0x2C1B3C6D) & 0xFFFFFFFF
    return (state ^ (state >> 13)) >> 8 & 0xFFFF


def noise(seed, x, y, reach):
    """A number from -reach to reach, the middle ones more often."""
    one = hashed(seed, x, y, 1) + hashed(seed, x, y, 2)
    return one * (2 * reach + 1) // 131071 - reach


def mixed(first, second, part, whole):
    """A colour between two, `part` of `whole` from the first to the second."""
    return tuple(a + (b - a) * part // whole for a, b in zip(first, second))


def is_sky(x, y):
    """Whether a point lies above the hills."""
    return y < 100 + abs((x + 40) % 120 - 60) // 3 + abs(x % 34 - 17) // 4


def background(x, y):
    """Sky with a sun, and hills with grass."""
    if is_sky(x, y):
        far = (x - 252) ** 2 + (y - 44) ** 2
        if far < 23 ** 2:
            return (255, 244, 190)
        return mixed((86, 132, 214), (206, 222, 240), min(y, 130), 130)
    grass = hashed(x // 2, y // 3, 5) % 40 + hashed(x, y, 6) % 14
    return (38 + grass, 84 + grass, 30 + grass // 2)


def house(x, y):
    """A house of bricks with a roof and windows, or nothing at this point."""
    if 52 <= x < 142 and 84 <= y < 168:
        for left in (62, 92, 118):
            if left <= x < left + 16 and 104 <= y < 128:
                is_bar = (x - left) % 8 == 0 or (y - 104) % 12 == 0
                return (70, 60, 52) if is_bar else (236, 216, 150)
        if 88 <= x < 106 and y >= 136:
            return (74, 52, 40) if (x - 88) % 6 else (52, 36, 28)
        is_joint = y % 6 == 0 or (x + (y // 6 % 2) * 6) % 12 == 0
        return (150, 138, 126) if is_joint else mixed((176, 84, 62), (148, 66, 50), hashed(x // 12, y // 6) % 8, 8)
    if 52 <= y < 84 and abs(x - 97) <= (y - 46) * 3 // 2:
        return (92, 44, 52) if (y + x // 5) % 7 else (66, 30, 38)
    return None


def charts(x, y):
    """A chequerboard, slanted lines, a star of thin rays, steps of grey, bars of colour, or nothing at this point."""
    if 196 <= x < 256 and 128 <= y < 188:
        return (236, 236, 232) if ((x - 196) // 10 + (y - 128) // 10) % 2 else (24, 24, 28)
    if 152 <= x < 190 and 128 <= y < 188:
        return (226, 220, 210) if (x + 2 * y) // 4 % 2 else (60, 58, 70)
    if 264 <= x < 312 and 128 <= y < 188:
        across, down = x - 288, y - 158
        ray = (across * 3 // (abs(down) + 1)) + (down * 3 // (abs(across) + 1))
        return (240, 70, 60) if ray % 2 else (250, 244, 236)
    if 206 <= y < 222:
        return tuple(x * 255 // 320 for _ in range(3))
    if y >= 222:
        bar = x // 40
        level = 210 - (y - 222) * 8
        return tuple(level if bar >> place & 1 else 34 for place in (2, 1, 0))
    return None


def point(seed, x, y, width, height):
    """The colour of a pixel, each part from 0 to 255."""
    across, down = x * FRAME[0] // width, y * FRAME[1] // height
    colour = charts(across, down) or house(across, down)
    is_shaded = across < 150 and down < 206 and (colour is not None or not is_sky(across, down))
    colour = colour or background(across, down)
    if is_shaded:
        colour = tuple(one * 2 // 5 for one in colour)
    reach = 9 if 180 <= across < 262 and down < 206 else 2
    return tuple(min(max(one + noise(seed, x, y * 3 + k, reach), 0), 255) for k, one in enumerate(colour))


def grey(colour):
    """The grey of a colour."""
    return (77 * colour[0] + 150 * colour[1] + 29 * colour[2]) // 256


def sensed(seed, x, y, width, height):
    """What a sensor's pixel tells of the scene, from 0 to 4095."""
    which = (0, 1, 1, 2)[x % 2 + y % 2 * 2]
    chance = hashed(seed, x, y, 77) % 1500
    if chance < 2:
        return 4095 if chance else 0
    level = point(seed, x, y, width, height)[which]
    light = level * level // 19 * (140, 256, 166)[which] // 256
    far = ((2 * x - width) ** 2 * 256 // width ** 2 + (2 * y - height) ** 2 * 256 // height ** 2) // 2
    light = light * (256 - far * 110 // 256) // 256
    return min(max(light + 64 + noise(seed + 1, x, y, 5 + light // 150), 0), 4095)


def samples(kind, width, height, seed):
    """The samples of a picture in raster order, how many there are a pixel, and the largest that there may be."""
    points = [(x, y) for y in range(height) for x in range(width)]
    if kind == "colour":
        return [one for x, y in points for one in point(seed, x, y, width, height)], 3, 255
    if kind == "grey":
        return [grey(point(seed, x, y, width, height)) for x, y in points], 1, 255
    if kind == "mosaic":
        return [sensed(seed, x, y, width, height) for x, y in points], 1, 65535
    if kind == "random12":
        return [hashed(seed, x, y) >> 4 for x, y in points], 1, 65535
    if kind == "random3":
        return [hashed(seed, x, y, k) >> 8 for x, y in points for k in range(3)], 3, 255
    if kind == "random":
        return [hashed(seed, x, y) >> 8 for x, y in points], 1, 255
    raise ValueError(f"no kind of picture: {kind}")


def scene(kind, width, height, seed=1):
    """The bytes of a picture's file."""
    made, channels, largest = samples(kind, width, height, seed)
    head = b"%s\n%d %d\n%d\n" % (b"P6" if channels == 3 else b"P5", width, height, largest)
    return head + (bytes(made) if largest == 255 else b"".join(one.to_bytes(2, "big") for one in made))


def main():
    if len(sys.argv) not in (5, 6):
        sys.exit(__doc__.splitlines()[2])
    kind, width, height, out = sys.argv[1:5]
    Path(out).write_bytes(scene(kind, int(width), int(height), int(sys.argv[5]) if len(sys.argv) == 6 else 1))


if __name__ == "__main__":
    main()
