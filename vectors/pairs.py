"""Whether the images about 18 have every two areas of 1 to 4 axes in every way that they can lie to each other, and beside 14 and 15."""

import itertools
import math
import struct
import sys
from collections import Counter

# Of any two areas; of two that are alike in size; of two that are not; where the first can be the longer.
ALWAYS = (
    "touching, the first before",
    "touching, the second before",
    "8 bytes shared, the first before",
    "8 bytes shared, the second before",
)
ALIKE = ("the same bytes",)
UNLIKE = ("the same start", "the same end", "the first inside")
LONGER = ("the second inside",)


def pairs_of(axes):
    """Every two areas of so many axes, the values last."""
    return list(itertools.combinations(range(axes + 1), 2))


def sizes(counts):
    """The bytes of each area, the values last."""
    return [8 * count for count in (*counts, math.prod(counts))]


def laid(image):
    """The bytes of each area by the header alone, wherever they lie."""
    counts = struct.unpack_from(f"<{image[1]}H", image, 8)
    starts = struct.unpack_from(f"<{image[1]}I", image, 16) + struct.unpack_from("<I", image, 32)
    return [range(start, start + size) for start, size in zip(starts, sizes(counts))]


def way(one, other):
    """How two areas lie to each other; nothing where it is no way that is asked for."""
    if one == other:
        return "the same bytes"
    if one.start == other.start:
        return "the same start"
    if one.stop == other.stop:
        return "the same end"
    if one.start < other.start and other.stop < one.stop:
        return "the second inside"
    if other.start < one.start and one.stop < other.stop:
        return "the first inside"
    # Neither holds the other.
    before = "first" if one.start < other.start else "second"
    shared = min(one.stop, other.stop) - max(one.start, other.start)
    return {0: f"touching, the {before} before", 8: f"8 bytes shared, the {before} before"}.get(shared)


def met(case):
    """The pairs that a case is about, each with its way."""
    areas, (number, *told) = laid(case.image), case.wanted
    nodes, values = sum(map(len, areas[:-1])) // 8, len(areas[-1]) // 8
    ways = {pair: way(areas[pair[0]], areas[pair[1]]) for pair in pairs_of(len(areas) - 1)}
    if number == 0:
        yield from ways.items()
    elif number == 18:
        pair = tuple(told)
        yield pair, ways[pair]
        if case.nodes < nodes:
            yield pair, "before 15 of the nodes"
        elif case.values < values:
            yield pair, "before 15 of the values"
    elif number == 14:
        shared = [pair for pair in ways if set(areas[pair[0]]) & set(areas[pair[1]])]
        yield from [(pair, f"after 14 of area {told[0]}") for pair in shared[:1]]


def asked(axes, other):
    """What must be met of a pair with that second area. The values are as long as the only axis, and longer than each of several."""
    beside = ["before 15 of the nodes", "before 15 of the values", *(f"after 14 of area {area}" for area in range(axes + 1))]
    if other < axes:
        return [*beside, *ALWAYS, *ALIKE, *UNLIKE, *LONGER]
    return [*beside, *ALWAYS, *(ALIKE if axes == 1 else UNLIKE)]


def check_pairs(cases):
    counted = Counter((case.image[1], *both) for case in cases for both in met(case))
    for axes in range(1, 5):
        for pair in pairs_of(axes):
            for its in asked(axes, pair[1]):
                if not counted[axes, pair, its]:
                    sys.exit(f"axes {axes}, areas {pair}: no image has {its!r}")
