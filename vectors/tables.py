"""The tables that the images are made of, and how an image is laid out."""

import struct
from typing import NamedTuple

LARGEST = 0x7FEF_FFFF_FFFF_FFFF
INFINITE = 0x7FF0_0000_0000_0000
MINUS = 0x8000_0000_0000_0000


class Table(NamedTuple):
    """The nodes of each axis and the values, as bits."""

    axes: list
    values: list


class Writing(NamedTuple):
    """How many nodes and values are lent to the writer, and how many bytes its output has."""

    nodes: int
    values: int
    room: int


class Case(NamedTuple):
    """An image, the rooms lent with it, and the answer that the group of cases is made for, where it knows one.

    What is lent to the writer afterwards: the table that was loaded, and room for its image, where nothing else is said.
    """

    name: str
    image: bytes
    nodes: int
    values: int
    wanted: tuple = None
    lent: Writing = None


def bits_of(x):
    return struct.unpack("<Q", struct.pack("<d", x))[0]


def bits_of_all(xs):
    return [bits_of(x) for x in xs]


def table(axes, values):
    return Table([bits_of_all(nodes) for nodes in axes], bits_of_all(values))


def rising(count, first=0.0, step=1.0):
    return [first + step * i for i in range(count)]


def plain(*counts):
    """A table of these counts; no two numbers of it are alike."""
    axes = [rising(count, 1000.0 * axis - 3.5, 0.75) for axis, count in enumerate(counts)]
    size = 1
    for count in counts:
        size *= count
    return table(axes, rising(size, -100_000.25, 2.0))


PAPER = table([[0.0, 2.0]], [10.0, 20.0])
TWO = plain(2, 3)
THREE = plain(2, 3, 2)
FOUR = plain(2, 2, 2, 2)
SMALL = [("paper", PAPER), ("two axes", TWO), ("three axes", THREE), ("four axes", FOUR)]


def parts(its):
    return its.axes + [its.values]


def packed(its, first=40, gap=0):
    """The places of the areas: the axes from a byte on, then the values."""
    starts = []
    for part in parts(its):
        starts.append(first)
        first += 8 * len(part) + gap
    return starts


def header(counts, starts, length):
    unused = [0] * (4 - len(counts))
    fields = [1, len(counts), 0, length] + counts + unused + starts[:-1] + unused + [starts[-1], 0]
    return struct.pack("<BBHI4H4III", *fields)


def lay(its, starts=None, length=None, filler=0):
    """The image of a table; where areas overlap, the later one is seen. The filler stands in gaps."""
    starts = starts or packed(its)
    end = max(start + 8 * len(part) for start, part in zip(starts, parts(its)))
    length = length or end
    image = bytearray([filler]) * length
    for start, part in zip(starts, parts(its)):
        image[start : start + 8 * len(part)] = struct.pack(f"<{len(part)}Q", *part)
    image[:40] = header([len(nodes) for nodes in its.axes], starts, length)
    return bytes(image)


def nodes_in(its):
    return sum(len(nodes) for nodes in its.axes)


def case(name, its, image, wanted=None):
    """A case with rooms that are a little longer than the table needs."""
    return Case(name, image, nodes_in(its) + 2, len(its.values) + 3, wanted)


def changed(image, at, width, number):
    return image[:at] + number.to_bytes(width, "little") + image[at + width :]


def restated(image):
    """The image with its own length stated, as far as it has the bytes."""
    return (image[:4] + len(image).to_bytes(4, "little") + image[8:])[: len(image)]


def with_node(its, axis, place, bits):
    axes = [list(nodes) for nodes in its.axes]
    axes[axis][place] = bits
    return Table(axes, its.values)


def with_value(its, place, bits):
    values = list(its.values)
    values[place] = bits
    return Table(its.axes, values)
