"""Rooms, and images with two faults, of which the earlier check is told."""

import itertools
from typing import Callable, NamedTuple

from tables import INFINITE, LARGEST, MINUS, SMALL, THREE, Case, changed, lay, nodes_in, plain

NAN = 0x7FF8 << 48


def rooms():
    for name, its in SMALL:
        nodes, values = nodes_in(its), len(its.values)
        some_nodes = (0, 1, nodes - 1, nodes, nodes + 1, 512)
        some_values = (0, 1, values - 1, values, values + 1, 4160)
        for a, b in itertools.product(some_nodes, some_values):
            wanted = (15, 0, 0) if a < nodes else (15, 0, 1) if b < values else (0, 0, 0)
            yield Case(f"{name}, rooms {a} and {b}", lay(its), a, b, wanted)
    large = lay(plain(64, 64))
    for a, b, wanted in ((127, 4096, (15, 0, 0)), (128, 4095, (15, 0, 1)), (128, 4096, (0, 0, 0))):
        yield Case(f"64 x 64, rooms {a} and {b}", large, a, b, wanted)


class Fault(NamedTuple):
    """What is told, and how a case is damaged so."""

    told: tuple
    damage: Callable


def field(told, at, width, number):
    return Fault(told, lambda c: c._replace(image=changed(c.image, at, width, number)))


def shared(areas, starts):
    """Two of the four areas of a table of three axes, and where each starts; the values are area 3."""

    def damage(c):
        for area, start in zip(areas, starts):
            c = c._replace(image=changed(c.image, 32 if area == 3 else 16 + 4 * area, 4, start))
        return c

    return Fault((18, *areas), damage)


def node(told, place, bits):
    """A node of the three axes' flat nodes, and the one before it where bits has two."""
    at = 40 + 8 * (place + 1 - len(bits))
    number = sum(x << 64 * i for i, x in enumerate(bits))
    return field(told, at, 8 * len(bits), number)


WIDE = [MINUS | LARGEST, LARGEST]
FALLING = [LARGEST, MINUS | LARGEST]

# Of a table of 2, 3 and 2 nodes, in the order of the checks.
FAULTS = [
    Fault((13, 0, 0), lambda c: c._replace(image=c.image[:39])),
    field((13, 0, 0), 0, 1, 2),
    field((1, 0, 0), 1, 1, 5),
    field((13, 0, 2), 2, 2, 1),
    field((13, 0, 4), 4, 4, 193),
    field((2, 0, 0), 8, 2, 65),
    field((2, 1, 0), 10, 2, 65),
    field((2, 2, 0), 12, 2, 65),
    field((13, 0, 14), 14, 2, 2),
    field((2, 0, 0), 8, 6, 0x0040_0040_0040),
    field((13, 0, 28), 28, 4, 40),
    field((13, 0, 36), 36, 4, 1),
    field((14, 0, 0), 16, 4, 32),
    field((14, 1, 0), 20, 4, 60),
    field((14, 2, 0), 24, 4, 184),
    field((14, 3, 0), 32, 4, 104),
    shared((0, 1), (40, 48)),
    shared((0, 2), (40, 40)),
    shared((0, 3), (176, 96)),
    shared((1, 2), (72, 80)),
    shared((1, 3), (96, 96)),
    shared((2, 3), (160, 96)),
    Fault((15, 0, 0), lambda c: c._replace(nodes=6)),
    Fault((15, 0, 1), lambda c: c._replace(values=11)),
    node((4, 0, 0), 0, [NAN]),
    node((4, 0, 1), 1, [INFINITE]),
    node((5, 0, 1), 1, FALLING),
    node((6, 0, 1), 1, WIDE),
    node((4, 1, 0), 2, [MINUS | INFINITE]),
    node((4, 1, 1), 3, [NAN]),
    node((5, 1, 1), 3, [0, MINUS]),
    node((6, 1, 1), 3, WIDE),
    node((4, 1, 2), 4, [NAN + 1]),
    node((5, 1, 2), 4, [0]),
    node((4, 2, 0), 5, [INFINITE + 1]),
    node((4, 2, 1), 6, [NAN]),
    node((5, 2, 1), 6, FALLING),
    node((6, 2, 1), 6, WIDE),
    field((7, 0, 0), 96, 8, INFINITE),
    field((7, 0, 11), 184, 8, NAN),
]


def two_faults():
    base = Case("", lay(THREE), nodes_in(THREE), len(THREE.values))
    for i, fault in enumerate(FAULTS):
        yield fault.damage(base)._replace(name=f"fault {i} alone", wanted=fault.told)
    for (i, early), (j, late) in itertools.combinations(enumerate(FAULTS), 2):
        both = early.damage(late.damage(base))
        yield both._replace(name=f"faults {i} and {j}", wanted=early.told)
    for i, fault in enumerate(FAULTS):
        all_from = base
        for late in reversed(FAULTS[i:]):
            all_from = late.damage(all_from)
        yield all_from._replace(name=f"all faults from {i} on", wanted=fault.told)


def cases():
    for group in (rooms, two_faults):
        yield from group()
