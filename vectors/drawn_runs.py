"""Whole inputs with drawn tables and records. The draws are fixed, so every run gives the same bytes."""

import math

from drawn import Draws
from loader import number_of
from contents import NOT_FINITE
from runs import LEAST, MOST, Run, record
from tables import MINUS, Table, bits_of, bits_of_all, lay, rising

SHAPES = [(2,), (5,), (64,), (2, 2), (7, 3), (3, 40), (2, 3, 4), (6, 5, 4), (9, 2, 9), (2, 3, 2, 5), (4, 4, 4, 4), (3, 2, 6, 7), (2, 2, 2, 64), (2, 2, 64, 2)]


def drawn_bits(draws):
    """Any finite number."""
    sign = MINUS * draws.below(2)
    return sign | draws.below(0x7FF) << 52 | draws.below(1 << 26) << 26 | draws.below(1 << 26)


def even(draws, count):
    return bits_of_all(rising(count, draws.below(100) - 50.0, draws.of([1.0, 0.5, 0.1, 3.0, 2.0**-30])))


def uneven(draws, count):
    nodes = [draws.below(1000) / 8 - 100.0]
    while len(nodes) < count:
        nodes.append(nodes[-1] + (1 + draws.below(40)) / 16)
    return bits_of_all(nodes)


def neighbours(draws, count):
    """Numbers next to each other, or nearly: subnormal ones, or above a power of 2."""
    bits = draws.of([0, 1, 1 << 52, bits_of(1.0), bits_of(2.0**600)])
    nodes = []
    while len(nodes) < count:
        nodes.append(bits)
        bits += 1 + draws.below(3)
    return nodes


def of_all_sizes(draws, count):
    return bits_of_all(sorted({number_of(drawn_bits(draws)) / 2 for _ in range(8 * count)}))[:: 8][:count]


def drawn_table(draws, counts):
    axes = [draws.of([even, even, uneven, neighbours, of_all_sizes])(draws, count) for count in counts]
    return Table(axes, [drawn_bits(draws) for _ in range(math.prod(counts))])


def within(draws, nodes):
    """On a node, one number beside it, or somewhere in a cell."""
    lower = draws.below(len(nodes) - 1)
    low, high = number_of(nodes[lower]), number_of(nodes[lower + 1])
    which = draws.below(6)
    if which < 2:
        return bits_of((low, high)[which])
    if which == 2:
        return bits_of(math.nextafter(low, high))
    if which == 3:
        return bits_of(math.nextafter(high, low))
    return bits_of(low + (high - low) * (draws.below(64) / 64))


def without(draws, nodes):
    """Not finite, or outside."""
    first, last = number_of(nodes[0]), number_of(nodes[-1])
    beside = [math.nextafter(first, -math.inf), math.nextafter(last, math.inf), first - 1.0, last + 1.0, -MOST, MOST, -LEAST]
    return draws.of(NOT_FINITE + [bits_of(p) for p in beside if math.isfinite(p)] * 2)


def drawn_record(draws, its):
    kind = draws.below(5) if draws.below(20) else draws.below(256)
    bits = [within(draws, nodes) for nodes in its.axes]
    if draws.below(5) == 0:
        axis = draws.below(len(bits))
        bits[axis] = without(draws, its.axes[axis])
    return record(kind, *bits)


def long_run():
    """Records over several of the program's blocks of 32,768 bytes, none of which ends with a record, and a short one at last."""
    draws = Draws(11_112_027)
    its = drawn_table(draws, (9, 5, 7))
    records = b"".join(drawn_record(draws, its) for _ in range(5_000))
    return Run("5,000 records and a piece", lay(its) + records + drawn_record(draws, its)[:17])


def runs():
    draws = Draws(11_112_026)
    for i, counts in enumerate(SHAPES + SHAPES):
        its = drawn_table(draws, counts)
        records = b"".join(drawn_record(draws, its) for _ in range(200 + draws.below(200)))
        cut = draws.of([0, 0, 1 + draws.below(8 * len(counts))])
        yield Run(f"drawn {i}, counts {counts}", lay(its) + records[: len(records) - cut])
