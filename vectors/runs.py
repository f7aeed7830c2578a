"""Whole inputs made by hand: an image and records, and the lines that the report on them must have."""

import math
import struct
from typing import NamedTuple

from contents import NANS, NOT_FINITE
from good import apart, in_any_order
from loader import MOST_BYTES, number_of
from orders import FAULTS
from overlaps import over_each_other, touching
from tables import FOUR, PAPER, SMALL, THREE, TWO, Case
from tables import bits_of_all, changed, lay, plain, restated, rising, table

KINDS = LINEAR, LINEAR_UNIFORM, NEAREST, STEP_LOWER, STEP_UPPER = range(5)
SEARCHED = [LINEAR, NEAREST, STEP_LOWER, STEP_UPPER]
MOST = 1.7976931348623157e308
LEAST = 2.0**-1074


class Run(NamedTuple):
    """An input, and the lines that it is made for, where the group knows them, without the cells in which nothing is counted."""

    name: str
    input: bytes
    wanted: tuple = None


def record(kind, *bits):
    return struct.pack(f"<B{len(bits)}Q", kind, *bits)


def at(kind, *readings):
    return record(kind, *bits_of_all(readings))


def run(name, its, records, *wanted):
    return Run(name, lay(its) + b"".join(records), wanted)


def one_axis(*nodes):
    """A table of one axis; its values are its places."""
    return table([nodes], rising(len(nodes)))


def cells(axis, counts):
    """The lines of an axis: how many each cell counts."""
    return tuple(f"cell {axis} {cell} {count}" for cell, count in enumerate(counts) if count)


A = one_axis(0.0, 1.0, 2.0, 4.0)
E = one_axis(0.0, 1.0, 2.0, 3.0)


def numbers_of(nodes):
    return [number_of(bits) for bits in nodes]


def middles(nodes):
    """A reading within each cell."""
    nodes = numbers_of(nodes)
    return [lower + (upper - lower) / 2 for lower, upper in zip(nodes, nodes[1:])]


def first_cells(its):
    return [middles(nodes)[0] for nodes in its.axes]


# The paper's run, no records, every kind


def paper():
    yield run("document 01's run", PAPER, [at(0, 0.5), at(2, 1.0), at(0, 3.0)], "cell 0 0 2", "no 11 1")


def nothing():
    for name, its in SMALL + [("64 nodes", plain(64)), ("64 x 64", plain(64, 64)), ("3, 5, 7, 4", plain(3, 5, 7, 4))]:
        yield run(f"{name}, no records", its, [])


def kinds():
    for kind in KINDS:
        for name, its in (SMALL[0], SMALL[3]):
            wanted = [f"cell {axis} 0 1" for axis in range(len(its.axes))]
            yield run(f"{name}, kind {kind} alone", its, [at(kind, *first_cells(its))], *wanted)
    for name, its in SMALL:
        first, last = first_cells(its), [middles(nodes)[-1] for nodes in its.axes]
        records = [at(kind, *reading) for kind in KINDS for reading in (first, last, last)]
        wanted = []
        for axis, nodes in enumerate(its.axes):
            wanted += cells(axis, [15]) if len(nodes) == 2 else cells(axis, [5] + [0] * (len(nodes) - 3) + [10])
        yield run(f"{name}, every kind in the first and the last cells", its, records, *wanted)


# Where readings lie


def on_nodes():
    records = [at(kind, node) for kind in SEARCHED for node in (0.0, 1.0, 2.0, 4.0)]
    yield run("A, on every node", A, records, *cells(0, [8, 4, 4]))
    records = [at(kind, node) for kind in KINDS for node in (0.0, 1.0, 2.0, 4.0)]
    yield run("A, on every node, LinearUniform too", A, records, *cells(0, [8, 4, 4]), "no 8 4")
    records = [at(kind, node) for kind in KINDS for node in (0.0, 1.0, 2.0, 3.0)]
    yield run("E, on every node, in the cell below for LinearUniform too", E, records, *cells(0, [10, 5, 5]))
    its = plain(64)
    records = [at(place % 5, node) for place, node in enumerate(numbers_of(its.axes[0]))]
    yield run("64 nodes, on every node", its, records, *cells(0, [2] + [1] * 62))
    first, last = [[nodes[end] for nodes in FOUR.axes] for end in (0, -1)]
    for name, bits in (("first", first), ("last", last)):
        wanted = [f"cell {axis} 0 5" for axis in range(4)]
        yield run(f"four axes, on the {name} nodes", FOUR, [record(kind, *bits) for kind in KINDS], *wanted)


def beside_nodes():
    beside = [math.nextafter(node, way) for node in (0.0, 1.0, 2.0, 4.0) for way in (-math.inf, math.inf)]
    records = [at(kind, p) for kind in SEARCHED for p in beside]
    yield run("A, beside every node", A, records, *cells(0, [8, 8, 8]), "no 11 8")
    tenths = [0.0]
    for _ in range(63):
        tenths.append(tenths[-1] + 0.1)
    its = one_axis(*tenths)
    above = [math.nextafter(node, math.inf) for node in tenths[:-1]]
    below = [math.nextafter(node, -math.inf) for node in tenths[1:]]
    for name, some in (("LinearUniform", [LINEAR_UNIFORM]), ("the other kinds", SEARCHED)):
        records = [at(kind, p) for kind in some for p in tenths]
        yield run(f"0.1 added 63 times, on every node, {name}", its, records, *cells(0, [2 * len(some)] + [len(some)] * 62))
        records = [at(kind, p) for kind in some for p in above + below]
        yield run(f"the same, beside every node, {name}", its, records, *cells(0, [2 * len(some)] * 63))


def between_nodes():
    yield run("A, Nearest that picks upper nodes", A, [at(NEAREST, p) for p in (0.9, 1.9, 3.9, 3.0)], *cells(0, [1, 1, 2]))
    yield run("A, Step to upper nodes", A, [at(STEP_UPPER, p) for p in (0.1, 1.1, 2.1)], *cells(0, [1, 1, 1]))
    its = plain(64)
    within = middles(its.axes[0])
    yield run("64 nodes, a reading in every cell", its, [at(0, p) for p in reversed(within)], *cells(0, [1] * 63))
    records = [at(i % 5, p) for cell, p in enumerate(within) for i in range(cell)]
    yield run("64 nodes, i readings in cell i", its, records, *cells(0, range(63)))
    its = plain(64, 64)
    within = [middles(nodes) for nodes in its.axes]
    records = [at(0, p, within[1][0]) for p in within[0]] + [at(2, within[0][62], p) for p in within[1]]
    yield run("64 x 64, along two edges", its, records, *cells(0, [1] * 62 + [64]), *cells(1, [64] + [1] * 62))
    records = [at(3, p, q) for p, q in zip(within[0], reversed(within[1]))]
    yield run("64 x 64, from corner to corner", its, records, *cells(0, [1] * 63), *cells(1, [1] * 63))


def large_tables():
    for counts in ((2, 2, 64), (64, 2, 2, 2), (3, 5, 7, 4), (16, 16, 16), (8, 8, 8, 8)):
        its = plain(*counts)
        within = [middles(nodes) for nodes in its.axes]
        records = [at(i % 5, *(w[i % len(w)] for w in within)) for i in range(60)]
        wanted = []
        for axis, w in enumerate(within):
            wanted += cells(axis, [len(range(cell, 60, len(w))) for cell in range(len(w))])
        yield run(f"counts {counts}, 60 records", its, records, *wanted)


def zeros():
    """Plus and minus zero are equal."""
    for name, nodes in (("0", (-1.0, 0.0, 1.0)), ("-0", (-1.0, -0.0, 1.0))):
        records = [at(kind, p) for kind in KINDS for p in (0.0, -0.0)]
        yield run(f"a node {name} between, read at both zeros", one_axis(*nodes), records, *cells(0, [10, 0]))
    for name, nodes in (("0", (0.0, 1.0, 2.0)), ("-0", (-0.0, 1.0, 2.0))):
        records = [at(kind, p) for kind in KINDS for p in (0.0, -0.0, 1.0, -LEAST)]
        yield run(f"a first node {name}, read at both zeros", one_axis(*nodes), records, *cells(0, [15, 0]), "no 11 5")
    records = [at(kind, p) for kind in KINDS for p in (0.0, -0.0, LEAST)]
    yield run("a last node -0, read at both zeros", one_axis(-2.0, -1.0, -0.0), records, *cells(0, [0, 10]), "no 11 5")


def small_and_large():
    its = one_axis(0.0, LEAST, 2 * LEAST, 2.0**-1022)
    readings = [0.0, LEAST, 2 * LEAST, 3 * LEAST, 2.0**-1023, 2.0**-1022]
    records = [at(kind, p) for kind in SEARCHED for p in readings]
    yield run("subnormal nodes", its, records, *cells(0, [8, 4, 12]))
    yield run("P4, the least number", one_axis(0.0, 2.0**1000), [at(kind, LEAST) for kind in KINDS], *cells(0, [5]))
    its = one_axis(1.0, 1.0 + 2.0**-52, 1.0 + 2.0**-51)
    records = [at(kind, 1.0 + i * 2.0**-52) for kind in KINDS for i in range(3)]
    yield run("neighbouring numbers", its, records, *cells(0, [10, 5]))
    its = one_axis(-MOST, -LEAST, LEAST, MOST)
    records = [at(kind, p) for kind in SEARCHED for p in (-MOST, -1.0, -LEAST, 0.0, LEAST, 1.0, MOST)]
    yield run("from end to end of the finite numbers", its, records, *cells(0, [12, 8, 8]))
    records = [at(kind, 1 - 2.0**-53) for kind in KINDS]
    yield run("P3, a fraction of 1", one_axis(-1.0, 1.0), records, *cells(0, [5]))
    yield run("P6, a nearest that is not nearest", one_axis(-1.0, 1.0, 3.0), [at(NEAREST, -(2.0**-60))], *cells(0, [1, 0]))


# What is refused


def not_uniform():
    for axes in range(1, 5):
        for bad in range(axes):
            its = table([[0.0, 1.0, 4.0] if axis == bad else [0.0, 1.0, 2.0] for axis in range(axes)], rising(3**axes))
            records = [at(kind, *[1.5] * axes) for kind in KINDS] + [record(LINEAR_UNIFORM, *NANS[:axes])]
            wanted = [f"cell {axis} 1 4" for axis in range(axes)]
            yield run(f"axis {bad} of {axes} not uniform", its, records, *wanted, "no 8 2")
    just, beyond = one_axis(0.0, 1.0, 2 + 2.0**-42), one_axis(0.0, 1.0, 2 + 2.0**-41)
    yield run("P10, uniform", just, [at(1, 0.5), at(1, 1.5)], *cells(0, [1, 1]))
    yield run("P10, not uniform", beyond, [at(1, 0.5), at(1, 1.5), at(0, 1.5)], *cells(0, [0, 1]), "no 8 2")


def unknown_kinds():
    yield run("every byte as a kind", PAPER, [at(kind, 0.5) for kind in range(256)], "cell 0 0 5", "no 9 251")
    records = [record(kind, bits) for kind in (5, 6, 127, 128, 254, 255) for bits in NOT_FINITE]
    yield run("unknown kinds, readings not finite", A, records, "no 9 60")
    yield run("unknown kinds outside", THREE, [at(kind, -1e9, 1e9, 0.0) for kind in (5, 9, 255)], "no 9 3")


def not_finite():
    for name, its in SMALL:
        bits = bits_of_all(first_cells(its))
        records = []
        for axis in range(len(bits)):
            for wild in NOT_FINITE:
                records += [record(kind, *bits[:axis], wild, *bits[axis + 1 :]) for kind in KINDS]
        wanted = [f"cell {axis} 0 1" for axis in range(len(bits))]
        yield run(f"{name}, readings not finite", its, records + [record(0, *bits)], *wanted, f"no 10 {len(records)}")


def outside():
    for name, its in SMALL:
        within = first_cells(its)
        records = []
        for axis, nodes in enumerate(map(numbers_of, its.axes)):
            below, above = math.nextafter(nodes[0], -math.inf), math.nextafter(nodes[-1], math.inf)
            for p in (below, above, -MOST, MOST):
                records += [at(kind, *within[:axis], p, *within[axis + 1 :]) for kind in KINDS]
        wanted = [f"cell {axis} 0 2" for axis in range(len(within))]
        yield run(f"{name}, outside", its, [at(0, *within)] + records + [at(4, *within)], *wanted, f"no 11 {len(records)}")


def which_first():
    nan = math.nan
    yield run("outside axis 0 and NaN on axis 1", TWO, [at(kind, -9e9, nan) for kind in KINDS], "no 10 5")
    bad = table([[0.0, 1.0, 4.0], [0.0, 1.0]], rising(6))
    records = [at(1, 0.5, nan), at(1, 9.0, 0.5), at(9, 0.5, nan), at(0, 9.0, math.inf), at(0, 9.0, 0.5)]
    yield run("8, 9, 10 and 11, each before the later ones", bad, records, "no 8 2", "no 9 1", "no 10 1", "no 11 1")


# Uniform as the default tolerance has it; at its last node the fraction is above 1.
END = 2 + 2.0**-42
OVER = table([[0.0, 1.0, END]], [0.0, -MOST, MOST])


def not_finite_results():
    yield run("LinearUniform past the largest number", OVER, [at(kind, END) for kind in KINDS], *cells(0, [0, 4]), "no 12 1")
    records = [at(1, p) for p in (END, 0.0, 1.0, 1.5, END, 2.0)]
    yield run("the same at other readings", OVER, records, *cells(0, [2, 2]), "no 12 2")
    wide = table([[-MOST, 0.0, MOST]], [10.0, 11.0, 12.0])
    records = [at(kind, p) for kind in KINDS for p in (-MOST, 0.0, MOST)]
    yield run("an axis from end to end, LinearUniform at its end", wide, records, *cells(0, [10, 4]), "no 12 1")
    # Blended first, the infinite number times 0 is no number; blended last, the fraction 1 has left it out before.
    its = table([[0.0, 1.0, END], [0.0, 1.0]], [0.0, 0.0, -MOST, 0.0, MOST, 0.0])
    records = [at(kind, END, p) for kind in (0, 1) for p in (0.0, 1.0)]
    yield run("past the largest number on axis 0 of two", its, records, "cell 0 1 2", "cell 1 0 2", "no 12 2")
    its = table([[0.0, 1.0], [0.0, 1.0, END]], [0.0, -MOST, MOST, 0.0, 0.0, 0.0])
    records = [at(kind, p, END) for kind in (0, 1) for p in (0.0, 1.0)]
    yield run("past the largest number on axis 1 of two", its, records, "cell 0 0 3", "cell 1 1 3", "no 12 1")


def every_number():
    records = [at(0, 3.0), at(1, 3.0), at(7, 3.0), at(2, math.nan), at(4, 5.0), at(3, 0.0), b"\0"]
    wanted = *cells(0, [1, 0, 1]), "no 3 1", "no 8 1", "no 9 1", "no 10 1", "no 11 1"
    yield run("3, 8, 9, 10 and 11", A, records, *wanted)
    records = [at(1, END), at(1, 2.5), at(255, END), at(1, -math.inf), at(1, 1.5), at(1, -1.0), at(1, 3.0), b"\1\0"]
    wanted = *cells(0, [0, 1]), "no 3 1", "no 9 1", "no 10 1", "no 11 3", "no 12 1"
    yield run("3, 9, 10, 11 and 12", OVER, records, *wanted)


# How long an input is


def short_records():
    for name, its in SMALL:
        size = 1 + 8 * len(its.axes)
        whole = at(0, *first_cells(its))
        lengths = range(1, size) if size < 18 else [1, 2, 8, 9, 16, 17, size - 2, size - 1]
        for length in lengths:
            # Every other one has an unknown kind: 3 comes first.
            last = (whole if length % 2 else b"\xff" * size)[:length]
            wanted = [f"cell {axis} 0 2" for axis in range(len(its.axes))]
            yield run(f"{name}, {length} of {size} bytes at last", its, [whole, whole, last], *wanted, "no 3 1")
    yield run("one byte alone", PAPER, [b"\0"], "no 3 1")
    yield run("four axes, 32 bytes alone", FOUR, [b"\0" * 32], "no 3 1")


def many_records():
    records = [at(0, 0.5)] * 4436
    yield run("as many records as fit", PAPER, records, "cell 0 0 4436")
    yield run("the same, one byte more", PAPER, records[1:] + [b"\0"], "cell 0 0 4435", "no 3 1")
    records = [at(9 if i % 4 == 3 else i % 5, 0.5 if i % 3 else 9.0) for i in range(4000)]
    yield run("4,000 records, many refused", PAPER, records, "cell 0 0 2000", "no 9 1000", "no 11 1000")


# Images


def on_first_nodes(image):
    """Records at the first nodes, which lie where the header says; the first cell is theirs."""
    firsts = [int.from_bytes(image[16 + 4 * axis : 20 + 4 * axis], "little") for axis in range(image[1])]
    bits = [int.from_bytes(image[first : first + 8], "little") for first in firsts]
    return b"".join(record(kind, *bits) for kind in SEARCHED)


def good_images():
    old, new = rising(8, 10.0, 10.0), rising(8, -35.0, 10.0)
    its = table([new[:4] + old[4:]], rising(8))
    readings = (-20.0, 55.0, 22.5, -35.0, -5.0, 50.0, 80.0, 81.0)
    records = [at(kind, p) for kind in (0, 1) for p in readings]
    yield run("a mixed table in good form", its, records, *cells(0, [1, 1, 1, 2, 1, 0, 1]), "no 8 8", "no 11 1")
    for case in [*list(in_any_order())[::25], *list(apart())[::7], *list(touching())[::11]]:
        wanted = [f"cell {axis} 0 4" for axis in range(case.image[1])]
        yield Run(case.name, case.image + on_first_nodes(case.image), tuple(wanted))
    its = lay(PAPER, None, MOST_BYTES) + at(0, 0.5) + at(1, 2.0) + at(2, -0.5)
    yield Run("the longest image", its, ("cell 0 0 2", "no 11 1"))


def stated_lengths():
    records = at(0, 0.5) + at(2, 1.0) + at(0, 3.0)
    image = lay(PAPER)
    yield Run("a length that takes one record in", changed(image, 4, 4, 81) + records, ("cell 0 0 1", "no 11 1"))
    yield Run("a length that takes all records in", changed(image, 4, 4, 99) + records, ())
    yield Run("a length that takes in half of the last", changed(image, 4, 4, 94) + records, ("no 3 1",))
    for stated in (0, 39, 100, MOST_BYTES, MOST_BYTES + 1, (1 << 32) - 1):
        yield Run(f"a length of {stated}", changed(image, 4, 4, stated) + records, ("no 13 0 4",))
    yield Run("a length of 71", changed(image, 4, 4, 71) + records, ("no 14 1 0",))
    yield Run("a length of 40", changed(image, 4, 4, 40) + records, ("no 14 0 0",))


def cut_images():
    for name, its, lengths in (("paper", PAPER, (0, 1, 39, 40, 71)), ("three axes", THREE, (8, 41, 191))):
        for length in lengths:
            yield Run(f"{name}, {length} bytes", lay(its)[:length], ("no 13 0 4" if length >= 40 else "no 13 0 0",))
    yield Run("too few bytes, and five axes", changed(lay(PAPER), 1, 1, 5)[:60], ("no 1 0 0",))
    yield Run("too few bytes, so stated", restated(lay(THREE)[:120]), ("no 14 3 0",))


def refused_images():
    """Every fault of an image, before records. A room too short (15) is not an image's; a cut, and a length of one byte more, leave no
    room for records."""
    for fault in FAULTS:
        image = fault.damage(Case("", lay(THREE), 7, 12)).image
        if fault.told[0] != 15:
            stays = len(image) == len(lay(THREE)) and fault.told != (13, 0, 4)
            records = at(0, *first_cells(THREE)) * 3 if stays else b""
            yield Run("refused {} {} {}".format(*fault.told), image + records, ("no {} {} {}".format(*fault.told),))
    for case in over_each_other():
        yield Run(case.name, case.image + on_first_nodes(case.image), ("no {} {} {}".format(*case.wanted),))
    yield run("a value not finite", table([[0.0, 2.0]], [10.0, math.inf]), [at(0, 0.5)], "no 7 0 1")
    yield run("an axis that falls", table([[10.0, 20.0, 30.0, 40.0, 5.0]], rising(5)), [at(0, 12.0)], "no 5 0 4")


READINGS = [on_nodes, beside_nodes, between_nodes, large_tables, zeros, small_and_large]
REFUSALS = [not_uniform, unknown_kinds, not_finite, outside, which_first, not_finite_results, every_number]
IMAGES = [good_images, stated_lengths, cut_images, refused_images]


def runs():
    for group in [paper, nothing, kinds] + READINGS + REFUSALS + [short_records, many_records] + IMAGES:
        yield from group()
