"""What writing an image must answer: "The image" of document 01, and "it checks 1 to 7, then 15".

Written from the paper alone, over bytes and patterns of bits. What a refusal is and the checks of nodes and values (4 to 7) are loader.py's.
"""

import struct
from typing import NamedTuple

from loader import HEADER, MOST_VALUES, Refusal, check_axis, check_values, need, nodes_of, values_of


class Written(NamedTuple):
    """The answer, the image's length, and the whole output as it is afterwards."""

    answer: tuple
    length: int
    out: bytes


def axes_of(shape, nodes):
    """The nodes axis by axis: they lie flat, axis after axis."""
    axes, at = [], 0
    for count in shape.counts[: shape.axes]:
        axes.append(nodes[at : at + count])
        at += count
    return axes


def length_of(shape):
    return HEADER + 8 * nodes_of(shape) + 8 * values_of(shape)


def check(shape, nodes, values, room):
    """1 to 7, then 15."""
    need(1 <= shape.axes <= 4, 1, 0, 0)
    for axis, count in enumerate(shape.counts[: shape.axes]):
        need(2 <= count <= 64, 2, axis, 0)
    need(values_of(shape) <= MOST_VALUES, 2, 0, 0)
    need(len(nodes) == nodes_of(shape), 3, 0, 0)
    need(len(values) == values_of(shape), 3, 0, 1)
    for axis, its in enumerate(axes_of(shape, nodes)):
        check_axis(axis, its)
    check_values(values)
    need(room >= length_of(shape), 15, 0, 2)


def image_of(shape, nodes, values):
    """The header; the axes from byte 40 without gaps; then the values."""
    counts, offsets, at = [0] * 4, [0] * 4, HEADER
    for axis in range(shape.axes):
        counts[axis], offsets[axis] = shape.counts[axis], at
        at += 8 * counts[axis]
    header = struct.pack("<BBHI4H4III", 1, shape.axes, 0, length_of(shape), *counts, *offsets, at, 0)
    return header + b"".join(bits.to_bytes(8, "little") for bits in nodes + values)


def write(shape, nodes, values, out):
    """Writes a table into an output; a refusal writes nothing, and what is not needed stays."""
    try:
        check(shape, nodes, values, len(out))
    except Refusal as refusal:
        return Written(refusal.args, 0, out)
    image = image_of(shape, nodes, values)
    return Written((0, 0, 0), len(image), image + out[len(image) :])
