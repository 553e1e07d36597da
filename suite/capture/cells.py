"""Cells of a picture: the points of a cell, and its two colours with the points that have the one that is rarer."""

WIDTH, HEIGHT, COLUMNS, ROWS = 12, 16, 60, 36
MARGIN = 1                                              # a point at each side, into which the colours of the next cell run
COUNT = (WIDTH - 2 * MARGIN) * (HEIGHT - 2 * MARGIN)


def points(picture, column, row, shift):
    """The points of a cell, row by row, without its margin; what lies off the picture is black."""
    left, right = column * WIDTH + shift[0] + MARGIN, (column + 1) * WIDTH + shift[0] - MARGIN
    top, below = row * HEIGHT + shift[1] + MARGIN, (row + 1) * HEIGHT + shift[1] - MARGIN
    found = []
    for y in range(top, below):
        line = picture.rows[y] if 0 <= y < picture.height else b""
        if 0 <= left and right <= picture.width and line:
            part = line[3 * left:3 * right]
            found += zip(part[::3], part[1::3], part[2::3])
        else:
            found += [tuple(line[3 * x:3 * x + 3]) if line and 0 <= x < picture.width else (0, 0, 0) for x in range(left, right)]
    return found


def mean(some):
    count = len(some) or 1
    return tuple(sum(point[channel] for point in some) / count for channel in range(3))


def distance(one, other):
    return sum((a - b) * (a - b) for a, b in zip(one, other))


def luma(point):
    return 0.299 * point[0] + 0.587 * point[1] + 0.114 * point[2]


def variance(values):
    count = len(values)
    return sum(value * value for value in values) / count - (sum(values) / count) ** 2


def unrest(some):
    """How much the points of a cell differ: in brightness, and in the channel that differs most."""
    return variance([luma(point) for point in some]), max(variance(channel) for channel in zip(*some))


def parted(some, by_luma=True):
    """Two colours of a cell, and for each point whether it is nearer to the second, as bits of a number; the first is more frequent.

    Points are told apart by their brightness, which 4:2:0 leaves alone, or by all of their colour.
    """
    axis = luma if by_luma else lambda point: point
    apart = (lambda one, other: (one - other) ** 2) if by_luma else distance
    channel = max(range(3), key=lambda which: max(point[which] for point in some) - min(point[which] for point in some))
    measure = luma if by_luma else lambda point: point[channel]
    low, high = min(some, key=measure), max(some, key=measure)
    for _ in range(3):
        here, there = axis(low), axis(high)
        sides = [apart(axis(point), there) < apart(axis(point), here) for point in some]
        near = [point for point, side in zip(some, sides) if not side]
        far = [point for point, side in zip(some, sides) if side]
        low, high = mean(near or [low]), mean(far or [high])
    if len(far) > len(near):
        low, high, sides = high, low, [not side for side in sides]
    return low, high, sum(1 << at for at, side in enumerate(sides) if side)


def in_luma(colour):
    """Brightness and the two differences of colour."""
    bright = luma(colour)
    return bright, 0.564 * (colour[2] - bright), 0.713 * (colour[0] - bright)
