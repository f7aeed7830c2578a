"""What a record must be answered: the axis rules, the table rules and the input of the program, of document 01, in plain Python, whose
floats are binary64.

Slow, and written from the paper alone. The loading checks are loader.py's, with request C-12.
"""

import math
import struct
from typing import NamedTuple

from loader import HEADER, MOST_BYTES, MOST_VALUES, Refusal, judged, need, number_of

MOST_RECORDS = 1_000_000
MOST_NODES = 4 * 64


class Table(NamedTuple):
    """The nodes of each axis, and the values."""

    grid: list
    values: list


class Opened(NamedTuple):
    """What an input has: its table, the records that are read, a short last one too, and whether a byte comes after them."""

    table: Table
    records: list
    past: bool


class Answer(NamedTuple):
    number: int
    axis: int
    place: int
    value: float


# The axis rules


def lower_index(nodes, p):
    return min(max(sum(node < p for node in nodes) - 1, 0), len(nodes) - 2)


def located(nodes, p):
    """An exact node, or a lower index and a fraction."""
    lower = lower_index(nodes, p)
    for index in (lower, lower + 1):
        if nodes[index] == p:
            return index, None
    return lower, (p - nodes[lower]) / (nodes[lower + 1] - nodes[lower])


def located_uniform(nodes, p):
    step = nodes[1] - nodes[0]
    t = (p - nodes[0]) / step
    lower = 0 if t < 0 or t >= 2.0**64 else min(math.floor(t), len(nodes) - 2)
    return lower, (p - nodes[lower]) / step


def nearest_index(nodes, p):
    lower = lower_index(nodes, p)
    return lower if p - nodes[lower] < nodes[lower + 1] - p else lower + 1


def step_lower(nodes, p):
    return max(i for i, node in enumerate(nodes) if node <= p)


def step_upper(nodes, p):
    return min(i for i, node in enumerate(nodes) if node >= p)


# The table rules


def stored(table, indices):
    place = 0
    for nodes, index in zip(table.grid, indices):
        place = place * len(nodes) + index
    return table.values[place]


def blended(locations, value):
    """Axis 0 first; `value` gives the number at a list of indices."""
    if not locations:
        return value(())
    (index, fraction), rest = locations[0], locations[1:]
    if fraction is None:
        return blended(rest, lambda others: value((index,) + others))
    return blended(
        rest, lambda others: value((index,) + others) * (1.0 - fraction) + value((index + 1,) + others) * fraction
    )


def check_uniform(grid):
    for axis, nodes in enumerate(grid):
        gaps = [upper - lower for lower, upper in zip(nodes, nodes[1:])]
        for interval, gap in enumerate(gaps):
            need(abs(gap - gaps[0]) <= gaps[0] * 2.0**-42, 8, axis, interval)


def check_readings(grid, readings):
    """10 for all axes; 11 for all axes."""
    for axis, p in enumerate(readings):
        need(math.isfinite(p), 10, axis, 0)
    for axis, (nodes, p) in enumerate(zip(grid, readings)):
        need(p >= nodes[0], 11, axis, 0)
        need(p <= nodes[-1], 11, axis, 1)


def look_up(table, kind, readings):
    if kind == 1:
        check_uniform(table.grid)
    need(kind <= 4, 9, 0, 0)
    check_readings(table.grid, readings)
    locate = (located, located_uniform, nearest_index, step_lower, step_upper)[kind]
    places = [locate(nodes, p) for nodes, p in zip(table.grid, readings)]
    if kind <= 1:
        value = blended(places, lambda indices: stored(table, indices))
    else:
        value = stored(table, places)
    need(math.isfinite(value), 12, 0, 0)
    return value


# The program's input


def load(image):
    shape, nodes, values = judged(image, MOST_NODES, MOST_VALUES)
    numbers = map(number_of, nodes)
    grid = [[next(numbers) for _ in range(count)] for count in shape.counts[: shape.axes]]
    return Table(grid, [number_of(bits) for bits in values])


def image_length(data):
    """It reads 40 bytes, then up to the stated length where that is 40 to 36,864."""
    if len(data) >= HEADER:
        (stated,) = struct.unpack_from("<I", data, 4)
        if HEADER <= stated <= MOST_BYTES:
            return stated
    return HEADER


def record_size(table):
    return 1 + 8 * len(table.grid)


def opened(data, most=MOST_RECORDS):
    """An input without a fault in its image; at most so many records are read."""
    first = image_length(data)
    table = load(data[:first])
    size = record_size(table)
    starts = range(first, len(data), size)
    return Opened(table, [data[at : at + size] for at in starts[:most]], len(starts) > most)


def readings_of(table, record):
    return struct.unpack_from(f"<{len(table.grid)}d", record, 1)


def answer(table, record):
    try:
        need(len(record) == record_size(table), 3, 0, 2)
        return Answer(0, 0, 0, look_up(table, record[0], readings_of(table, record)))
    except Refusal as refusal:
        return Answer(*refusal.args, 0.0)
