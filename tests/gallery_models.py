"""Independent models of applications of the gallery, in whole numbers that never wrap: a picture's samples from its input's.

Each model takes the width, the height and the input's samples in raster order, and gives the output's samples in raster order. They
are written from the methods and not from the texts: the photograph works on the mosaic and not on four planes, the median
sorts, Canny's classes grow by sets of points.
"""

from math import isqrt


def grid(function):
    """A function of a point that remembers its values."""
    known = {}

    def value(x, y):
        if (x, y) not in known:
            known[x, y] = function(x, y)
        return known[x, y]

    return value


def held(number, low, high):
    """The number moved to the nearest from low to high."""
    return max(min(number, high), low)


def image(width, height, samples, channels=1, channel=0):
    """The samples of a channel as a function of a point, which has the edge's samples past the edge."""
    return lambda x, y: samples[(held(y, 0, height - 1) * width + held(x, 0, width - 1)) * channels + channel]


def raster(width, height, *channels):
    """The samples of a picture whose channels are functions of a point."""
    return [channel(x, y) for y in range(height) for x in range(width) for channel in channels]


# ---- the photograph ----


def site(place, extent):
    """The place nearest to one that the mosaic has and that has the same colour."""
    first = place % 2
    last = extent - 1 - (extent - 1 - first) % 2
    return held(place, first, last)


def balanced_mosaic(width, height, samples):
    """The mosaic without hot pixels and black, with balanced colours."""
    gains = {(0, 0): 468, (1, 0): 256, (0, 1): 256, (1, 1): 395}

    def raw(x, y):
        return samples[site(y, height) * width + site(x, width)]

    def balanced(x, y):
        around = [raw(x - 2, y), raw(x + 2, y), raw(x, y - 2), raw(x, y + 2)]
        level = held(raw(x, y), min(around), max(around))
        return min(max(level - 64, 0) * gains[x % 2, y % 2] // 256, 4095)

    return grid(balanced)


def demosaicked(mosaic):
    """The three colours of each point of a mosaic."""

    def greens(x, y):
        if (x + y) % 2:
            return mosaic(x, y)
        beside, upright = (mosaic(x - 1, y), mosaic(x + 1, y)), (mosaic(x, y - 1), mosaic(x, y + 1))
        chosen = beside if abs(beside[0] - beside[1]) < abs(upright[0] - upright[1]) else upright
        return (sum(chosen) + 1) // 2

    green = grid(greens)
    above_green = grid(lambda x, y: mosaic(x, y) - green(x, y))

    def colour(parity):
        def value(x, y):
            beside, below = x % 2 != parity, y % 2 != parity
            if not beside and not below:
                return mosaic(x, y)
            if beside and below:
                falling, rising = [(x - 1, y - 1), (x + 1, y + 1)], [(x + 1, y - 1), (x - 1, y + 1)]
                steps = [abs(mosaic(*one) - mosaic(*other)) for one, other in (falling, rising)]
                ends = falling if steps[0] < steps[1] else rising
            else:
                ends = [(x - 1, y), (x + 1, y)] if beside else [(x, y - 1), (x, y + 1)]
            return green(x, y) + sum(above_green(*end) for end in ends) // 2
        return grid(value)

    return colour(0), green, colour(1)


def photo(width, height, samples):
    """The photograph of a raw mosaic."""
    colours = demosaicked(balanced_mosaic(width, height, samples))
    matrix = [(330, -60, -14), (-30, 320, -34), (-6, -70, 332)]

    def screen(weights):
        def value(x, y):
            light = sum(weight * colour(x, y) for weight, colour in zip(weights, colours)) // 256
            return isqrt(16 * held(light, 0, 4095))
        return grid(value)

    screens = [screen(weights) for weights in matrix]
    grey = grid(lambda x, y: sum(w * one(x, y) for w, one in zip((77, 150, 29), screens)) // 256)

    def sharpened(one):
        def value(x, y):
            soft = sum((2 - abs(i)) * (2 - abs(j)) * grey(x + i, y + j) for i in (-1, 0, 1) for j in (-1, 0, 1))
            return held(one(x, y) + (16 * grey(x, y) - soft) // 16, 0, 255)
        return value

    return raster(width, height, *(sharpened(one) for one in screens))


# ---- Canny's edges ----


def canny(width, height, samples):
    """The edges of a grey picture, 255 on black."""
    pixel = image(width, height, samples)
    taps = list(zip(range(-2, 3), (1, 4, 6, 4, 1)))
    soft = grid(lambda x, y: (sum(a * b * pixel(x + i, y + j) for i, a in taps for j, b in taps) + 128) // 256)

    def slopes(x, y):
        across = sum((2 - abs(j)) * (soft(x + 1, y + j) - soft(x - 1, y + j)) for j in (-1, 0, 1))
        down = sum((2 - abs(i)) * (soft(x + i, y + 1) - soft(x + i, y - 1)) for i in (-1, 0, 1))
        return across, down

    slope = grid(slopes)
    size = grid(lambda x, y: sum(map(abs, slope(x, y))))

    def step(x, y):
        across, down = slope(x, y)
        if 5 * abs(down) <= 2 * abs(across):
            return 1, 0
        if 5 * abs(across) <= 2 * abs(down):
            return 0, 1
        return (1, 1) if across * down > 0 else (-1, 1)

    def is_ridge(x, y):
        i, j = step(x, y)
        return size(x - i, y - j) < size(x, y) >= size(x + i, y + j)

    around = [(x, y) for y in range(-2, height + 2) for x in range(-2, width + 2) if is_ridge(x, y)]
    strong = {point for point in around if size(*point) >= 140}
    weak = {point for point in around if 50 <= size(*point) < 140}
    for _ in range(2):
        strong |= {(x, y) for x, y in weak if any((x + i, y + j) in strong for i in (-1, 0, 1) for j in (-1, 0, 1))}
    return [255 if (x, y) in strong else 0 for y in range(height) for x in range(width)]


# ---- local contrast ----


def halved(level):
    """A level of the pyramid from the one before it."""
    weights = list(zip((-1, 0, 1, 2), (1, 3, 3, 1)))
    across = grid(lambda x, y: sum(w * level(2 * x + k, y) for k, w in weights) // 8)
    return grid(lambda x, y: sum(w * across(x, 2 * y + k) for k, w in weights) // 8)


def doubled(level):
    """A level enlarged to the size of the one before it."""

    def second(place):
        return place // 2 + (1 if place % 2 else -1)

    across = grid(lambda x, y: (3 * level(x // 2, y) + level(second(x), y) + 2) // 4)
    return grid(lambda x, y: (3 * across(x, y // 2) + across(x, second(y)) + 2) // 4)


def local(width, height, samples):
    """The picture with more local contrast."""
    pixel = image(width, height, samples)
    levels = [grid(lambda x, y: 16 * pixel(x, y))]
    for _ in range(3):
        levels.append(halved(levels[-1]))
    made = grid(lambda x, y: (3 * levels[3](x, y) + 2048) // 4)
    for fine, coarse, most in ((levels[2], levels[3], 240), (levels[1], levels[2], 240), (levels[0], levels[1], 160)):
        made = added(doubled(made), fine, doubled(coarse), most)
    return raster(width, height, lambda x, y: held((made(x, y) + 8) // 16, 0, 255))


def added(below, fine, coarse, most):
    """What a level has more than the coarser one, made larger, on top of what was put together below it."""

    def value(x, y):
        more = fine(x, y) - coarse(x, y)
        return below(x, y) + more + held(more, -most, most)

    return grid(value)


# ---- the median, the box, the bilateral filter, the chain, error diffusion ----


def median(width, height, samples):
    """The median of 3 by 3 of each colour."""

    def channel(number):
        pixel = image(width, height, samples, 3, number)
        return lambda x, y: sorted(pixel(x + i, y + j) for i in (-1, 0, 1) for j in (-1, 0, 1))[4]

    return raster(width, height, *map(channel, range(3)))


def box(width, height, samples):
    """The mean of the pixels within seven of each pixel."""

    def mean(x, y):
        some = [samples[j * width + i] for j in range(max(y - 7, 0), min(y + 8, height))
                for i in range(max(x - 7, 0), min(x + 8, width))]
        return (sum(some) + len(some) // 2) // len(some)

    return raster(width, height, mean)


def bilateral(width, height, samples):
    """The mean of the neighbours within two that are near in place and in value."""
    alike = [max(256 - d * d // 8, 0) for d in range(256)]
    places = [(i, j, (3 - abs(i)) * (3 - abs(j))) for j in range(-2, 3) for i in range(-2, 3)]
    made = []
    for y in range(height):
        for x in range(width):
            here, weights, total = samples[y * width + x], 0, 0
            for i, j, near in places:
                there = samples[held(y + j, 0, height - 1) * width + held(x + i, 0, width - 1)]
                weight = near * alike[abs(there - here)]
                weights += weight
                total += weight * there
            made.append((total + weights // 2) // weights)
    return made


def chain(width, height, samples, steps=32):
    """Heat that spreads."""
    pixel = image(width, height, samples)
    reach = steps
    now = {(x, y): 16 * pixel(x, y) for y in range(-reach, height + reach) for x in range(-reach, width + reach)}
    for step in range(1, steps + 1):
        reach = steps - step
        now = {(x, y): (now[x - 1, y] + now[x + 1, y] + now[x, y - 1] + now[x, y + 1] + 4 * now[x, y] + 4) // 8
               for y in range(-reach, height + reach) for x in range(-reach, width + reach)}
    return [(now[x, y] + 8) // 16 for y in range(height) for x in range(width)]


def dither(width, height, samples):
    """Four greys by error diffusion, each pixel's lack given to the pixels after it."""
    sixteenths = [8] * (width * height)
    made = []
    for y in range(height):
        for x in range(width):
            wish = samples[y * width + x] + sixteenths[y * width + x] // 16
            grey = held((wish + 42) // 85, 0, 3) * 85
            made.append(grey)
            for i, j, weight in ((1, 0, 7), (-1, 1, 3), (0, 1, 5), (1, 1, 1)):
                if 0 <= x + i < width and y + j < height:
                    sixteenths[(y + j) * width + x + i] += weight * (wish - grey)
    return made


def equalise(width, height, samples):
    """Each value as the part of the pixels that are not brighter."""
    count = [0] * 256
    for one in samples:
        count[one] += 1
    return [sum(count[:one + 1]) * 255 // len(samples) for one in samples]


MODELS = {"photo": photo, "canny": canny, "local": local, "median": median, "box": box, "chain": chain, "dither": dither,
          "equalise": equalise, "bilateral": bilateral}
