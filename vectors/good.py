"""Images that load: whole tables, areas in any order and apart, every kind of finite number."""

import itertools

from tables import LARGEST, MINUS, PAPER, SMALL, Case, Table
from tables import bits_of_all, case, lay, nodes_in, packed, parts, plain, rising, table

LOADS = (0, 0, 0)

# Zero, the least number, the largest subnormal, the least normal, one, the largest; each with both signs.
KINDS = [sign | bits for bits in (0, 1, (1 << 52) - 1, 1 << 52, 0x3FF << 52, LARGEST) for sign in (0, MINUS)]

LONG = [(64,), (2, 64), (64, 2), (2, 2, 64), (64, 2, 2, 2), (3, 5, 7, 4), (64, 64), (16, 16, 16), (8, 8, 8, 8)]


def whole():
    for name, its in SMALL:
        yield case(name, its, lay(its), LOADS)
        yield Case(f"{name}, rooms that fit", lay(its), nodes_in(its), len(its.values), LOADS)
    for counts in LONG:
        its = plain(*counts)
        yield case(f"counts {counts}", its, lay(its), LOADS)


def in_any_order():
    for name, its in SMALL:
        for order in itertools.permutations(range(len(parts(its)))):
            starts, at = [0] * len(order), 40
            for which in order:
                starts[which] = at
                at += 8 * len(parts(its)[which])
            yield case(f"{name}, areas in the order {order}", its, lay(its, starts), LOADS)


def apart():
    """What lies between areas and after them is not looked at."""
    for name, its in SMALL:
        for first, gap in ((48, 0), (40, 8), (96, 24)):
            image = lay(its, packed(its, first, gap), None, 0xFF)
            yield case(f"{name}, from {first} on, {gap} bytes between", its, image, LOADS)
        for more in (1, 2, 7, 8, 9):
            yield case(f"{name}, {more} bytes after", its, lay(its, None, len(lay(its)) + more, 0xFF), LOADS)


def kinds():
    its = Table(plain(4, 3).axes, KINDS)
    yield case("every kind of value", its, lay(its), LOADS)
    below = [MINUS | bits for bits in (LARGEST >> 1, 1 << 52, (1 << 52) - 1, 1)]
    above = [0, 1, (1 << 52) - 1, 1 << 52, 0x3FF << 52, LARGEST - 1, LARGEST]
    its = Table([below + above], bits_of_all(rising(11)))
    yield case("every kind of node", its, lay(its), LOADS)
    least = [(MINUS, 1), (MINUS | 1, 0), (MINUS | 1, MINUS), (MINUS | 2, MINUS | 1)]
    for first, second in least + [(0, LARGEST), (MINUS | LARGEST, MINUS)]:
        its = Table([[first, second]], PAPER.values)
        yield case(f"nodes {first:016x} and {second:016x}", its, lay(its), LOADS)
    wide = table([[-(2.0**1023), 2.0**1023 - 2.0**971]], [1.0, 2.0])
    yield case("neighbours whose difference is the largest number", wide, lay(wide), LOADS)


def cases():
    for group in (whole, in_any_order, apart, kinds):
        yield from group()
