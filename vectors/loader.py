"""What loading an image must answer: "The image" and "Loading checks" of document 01, row by row in the paper's order, and request C-12.

Written from the papers alone, over bytes and patterns of bits.
"""

import itertools
import math
import struct
from typing import NamedTuple

HEADER = 40
MOST_BYTES = 36_864
MOST_VALUES = 4_096


class Refusal(Exception):
    """The first fault found: number, axis, place."""


class Shape(NamedTuple):
    axes: int
    counts: tuple


class Outcome(NamedTuple):
    """The answer, the shape, and both outputs as they are afterwards, as bits."""

    answer: tuple
    shape: Shape
    nodes: list
    values: list


NO_SHAPE = Shape(0, (0, 0, 0, 0))


def need(holds, number, axis, place):
    if not holds:
        raise Refusal(number, axis, place)


def word(image, at, width):
    return int.from_bytes(image[at : at + width], "little")


def number_of(bits):
    return struct.unpack("<d", struct.pack("<Q", bits))[0]


def finite(bits):
    return (bits >> 52) & 0x7FF != 0x7FF


def check_start(image):
    """Under 40 bytes (13); byte 0; byte 1 (1); bytes 2-3; length, equal to the lent length and 40 to 36,864."""
    need(len(image) >= HEADER, 13, 0, 0)
    need(image[0] == 1, 13, 0, 0)
    need(1 <= image[1] <= 4, 1, 0, 0)
    need(word(image, 2, 2) == 0, 13, 0, 2)
    length = word(image, 4, 4)
    need(length == len(image) and HEADER <= length <= MOST_BYTES, 13, 0, 4)


def values_of(shape):
    return math.prod(shape.counts[: shape.axes])


def nodes_of(shape):
    return sum(shape.counts[: shape.axes])


def check_counts(shape):
    """Counts axis by axis (2, or 13 if unused); product (2)."""
    for axis, count in enumerate(shape.counts):
        if axis < shape.axes:
            need(2 <= count <= 64, 2, axis, 0)
        else:
            need(count == 0, 13, 0, 8 + 2 * axis)
    need(values_of(shape) <= MOST_VALUES, 2, 0, 0)


def check_rest(image, shape):
    """Unused offsets; bytes 36-39."""
    for axis in range(shape.axes, 4):
        at = 16 + 4 * axis
        need(word(image, at, 4) == 0, 13, 0, at)
    need(word(image, 36, 4) == 0, 13, 0, 36)


def area(image, number, at, count):
    """Areas (14): the offset is at least 40 and a multiple of 8, and the area ends inside the image. Gives its bytes' places."""
    need(at >= HEADER and at % 8 == 0 and at + 8 * count <= len(image), 14, number, 0)
    return range(at, at + 8 * count)


def areas(image, shape):
    """The area of each axis, then of the values, which is told by the number of axes."""
    starts = [word(image, 16 + 4 * axis, 4) for axis in range(shape.axes)] + [word(image, 32, 4)]
    counts = [*shape.counts[: shape.axes], values_of(shape)]
    return [area(image, number, *its) for number, its in enumerate(zip(starts, counts))]


def check_shared(its_areas):
    """C-12 (18): no two areas share a byte; the lowest pair first, values counted last."""
    places = [set(its_places) for its_places in its_areas]
    for one, other in itertools.combinations(range(len(places)), 2):
        need(places[one].isdisjoint(places[other]), 18, one, other)


def bits_in(image, places):
    return [word(image, at, 8) for at in places[::8]]


def check_rooms(shape, node_room, value_room):
    """Room (15)."""
    need(node_room >= nodes_of(shape), 15, 0, 0)
    need(value_room >= values_of(shape), 15, 0, 1)


def check_axis(axis, nodes):
    """Node by node: finite (4), above the one before (5), its difference from that one finite (6)."""
    for place, bits in enumerate(nodes):
        need(finite(bits), 4, axis, place)
        if place > 0:
            lower, upper = number_of(nodes[place - 1]), number_of(bits)
            need(upper > lower, 5, axis, place)
            need(math.isfinite(upper - lower), 6, axis, place)


def check_values(values):
    for place, bits in enumerate(values):
        need(finite(bits), 7, 0, place)


def judged(image, node_room, value_room):
    """The shape, the nodes and the values of an image without a fault."""
    check_start(image)
    shape = Shape(image[1], struct.unpack_from("<4H", image, 8))
    check_counts(shape)
    check_rest(image, shape)
    its_areas = areas(image, shape)
    check_shared(its_areas)
    check_rooms(shape, node_room, value_room)
    *axes, values = [bits_in(image, places) for places in its_areas]
    for axis, nodes in enumerate(axes):
        check_axis(axis, nodes)
    check_values(values)
    return shape, sum(axes, []), values


def load(image, nodes, values):
    """Loads an image into two outputs, lists of bits; a refusal writes nothing, and what is not needed stays."""
    try:
        shape, its_nodes, its_values = judged(image, len(nodes), len(values))
    except Refusal as refusal:
        return Outcome(refusal.args, NO_SHAPE, nodes, values)
    nodes = its_nodes + nodes[len(its_nodes) :]
    values = its_values + values[len(its_values) :]
    return Outcome((0, 0, 0), shape, nodes, values)
