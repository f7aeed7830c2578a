"""Damaged nodes and values, and images that are half of one calibration and half of another."""

import itertools

from tables import INFINITE, LARGEST, MINUS, SMALL, Table
from tables import bits_of, case, lay, packed, plain, rising, table, with_node, with_value

# Two signalling, two quiet; each with both signs.
NANS = [sign | bits for bits in (INFINITE + 1, 0x7FF4 << 48, 0x7FF8 << 48, MINUS - 1) for sign in (0, MINUS)]
NOT_FINITE = NANS + [INFINITE, MINUS | INFINITE]


def wild_nodes():
    for name, its in SMALL:
        for axis, nodes in enumerate(its.axes):
            for place in range(len(nodes)):
                for bits in NOT_FINITE:
                    image = lay(with_node(its, axis, place, bits))
                    yield case(f"{name}, node {axis} {place} {bits:016x}", its, image, (4, axis, place))


def wild_values():
    for name, its in SMALL:
        for place in range(len(its.values)):
            for bits in NOT_FINITE:
                yield case(f"{name}, value {place} {bits:016x}", its, lay(with_value(its, place, bits)), (7, 0, place))
    long = plain(19)
    for place in range(19):
        for bits in (INFINITE, NANS[2]):
            yield case(f"19 values, value {place} {bits:016x}", long, lay(with_value(long, place, bits)), (7, 0, place))
    for first, second in ((0, 1), (3, 18), (7, 8), (8, 15), (16, 17)):
        image = lay(with_value(with_value(long, first, INFINITE), second, NANS[0]))
        yield case(f"19 values, values {first} and {second}", long, image, (7, 0, first))
    large = plain(64, 64)
    yield case("64 x 64, the last value", large, lay(with_value(large, 4095, INFINITE)), (7, 0, 4095))
    yield case("64 x 64, the last node", large, lay(with_node(large, 1, 63, INFINITE)), (4, 1, 63))


def no_rise():
    """Nodes equal to the one before, and the next number below it."""
    for name, its in SMALL + [("seven nodes", plain(7)), ("three and four nodes", plain(3, 4))]:
        for axis, nodes in enumerate(its.axes):
            for place in range(1, len(nodes)):
                before = nodes[place - 1]
                # The next number below: its bits are one more where it is negative.
                lower = before + 1 if before & MINUS else before - 1 if before else MINUS | 1
                for bits in (before, lower, bits_of(-1e300), MINUS | LARGEST):
                    image = lay(with_node(its, axis, place, bits))
                    yield case(f"{name}, node {axis} {place} {bits:016x}", its, image, (5, axis, place))


def zeros():
    """Plus and minus zero are equal."""
    for axis in ([0.0, 0.0], [-0.0, 0.0], [0.0, -0.0], [-0.0, -0.0]):
        its = table([axis], [1.0, 2.0])
        yield case(f"axis {axis}", its, lay(its), (5, 0, 1))


def too_wide():
    """Neighbours too far apart, at each place of each axis."""
    for counts in ((2,), (5,), (2, 3), (3, 2, 4), (2, 2, 2, 2)):
        its = plain(*counts)
        for axis, count in enumerate(counts):
            for place in range(1, count):
                below = [MINUS | (LARGEST - i) for i in range(place)]
                above = [LARGEST - (count - 1 - i) for i in range(place, count)]
                axes = its.axes[:axis] + [below + above] + its.axes[axis + 1 :]
                image = lay(Table(axes, its.values))
                yield case(f"counts {counts}, axis {axis} wide at {place}", its, image, (6, axis, place))
    half = 2.0**1023
    for nodes in ([-half, half], [-half, half - 2.0**970], [-half / 2, half * 1.5], [half * -1.75, half / 4]):
        its = table([nodes], [1.0, 2.0])
        yield case(f"axis {nodes}", its, lay(its), (6, 0, 1))
    its = table([[half, -half]], [1.0, 2.0])
    yield case("wide, and falling", its, lay(its), (5, 0, 1))


TENS = table([rising(8, 10.0, 10.0)], rising(8, 100.0, 0.5))
FIVES = table([rising(8, 5.0, 10.0)], rising(8, -7.0, 0.25))
LOW = table([[1.0, 2.0, 3.0, 4.0, 5.0, 15.0, 25.0, 35.0]], rising(8, 900.0, 3.0))


def halves():
    """The first bytes of one calibration, the rest of another, cut at every byte."""
    for (name, one), (others, other) in itertools.permutations((("tens", TENS), ("fives", FIVES), ("low", LOW)), 2):
        for cut in range(len(lay(one)) + 1):
            yield case(f"{name}, then {others}, cut at {cut}", one, lay(one)[:cut] + lay(other)[cut:])
    # Without gaps the areas of a mixed header may share bytes; with 8 bytes between them they do not.
    for gap in (0, 8):
        for counts, others in itertools.permutations(((2,), (2, 3), (3, 2), (2, 2, 2)), 2):
            one, other = [lay(its, packed(its, 40, gap)) for its in (plain(*counts), plain(*others))]
            for cut in range(41):
                name = f"{counts}, then {others}, {gap} bytes between areas, cut at {cut}"
                yield case(name, plain(*counts), one[:cut] + other[cut:])


def half_nodes():
    """Half of the nodes from each: an axis that falls, and two in good form."""
    for one, other, wanted in ((TENS, LOW, (5, 0, 4)), (TENS, FIVES, (0, 0, 0)), (LOW, TENS, (0, 0, 0))):
        its = Table([one.axes[0][:4] + other.axes[0][4:]], one.values[:4] + other.values[4:])
        yield case("half of the nodes and of the values", its, lay(its), wanted)
    square = plain(3, 8)
    its = Table([square.axes[0], TENS.axes[0][:4] + LOW.axes[0][4:]], square.values)
    yield case("the second axis of two halves", its, lay(its), (5, 1, 4))


def cases():
    for group in (wild_nodes, wild_values, no_rise, zeros, too_wide, halves, half_nodes):
        yield from group()
