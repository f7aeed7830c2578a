"""Areas that share bytes (18, of request C-12), and areas that touch and so share none.

Most images are a header and numbers of which each is above the one before it: whatever lies in an area is good, and by document 01
alone it would load.
"""

import itertools
import math
import struct

from headers import BIG
from orders import FALLING, NAN, WIDE
from pairs import check_pairs, pairs_of, sizes
from tables import FOUR, PAPER, THREE, TWO, Case, bits_of_all, case, changed, header, lay, rising, table

LOADS = (0, 0, 0)

# Of 1 to 4 axes. Where there are several, each is in one table longer than the others by two nodes or more, so that they fit inside it, and
# every two are alike in one.
COUNTS = [(2,), (3,), (2, 5), (4, 2), (3, 3), (2, 2, 4), (2, 5, 2), (4, 2, 2)]
COUNTS += [(2, 2, 2, 4), (2, 2, 4, 2), (2, 4, 2, 2), (4, 2, 2, 2)]

# One of each number of axes.
FEW = [(3,), (4, 2), (2, 3, 2), (3, 2, 4, 2)]


def made(name, counts, starts, wanted):
    """An image with its areas there, the last of them at its end, in rooms a little longer than it needs."""
    length = max(map(sum, zip(starts, sizes(counts))))
    numbers = bits_of_all(rising((length - 40) // 8, -20.5))
    image = header(list(counts), list(starts), length) + struct.pack(f"<{len(numbers)}Q", *numbers)
    return Case(f"counts {counts}, {name}", image, sum(counts) + 2, math.prod(counts) + 3, wanted)


def two(counts, pair, distance, from_end=False):
    """Where the areas start: of two the second so many bytes after the first, then the others, 8 bytes apart.

    From the end all is mirrored: the others come first, and of the two the second ends so many bytes before the first ends.
    """
    its = sizes(counts)
    first, second = 40 + max(0, -distance), 40 + max(0, distance)
    starts, at = [0] * len(its), max(first + its[pair[0]], second + its[pair[1]]) + 8
    for other in [area for area in range(len(its)) if area not in pair]:
        starts[other] = at
        at += its[other] + 8
    starts[pair[0]], starts[pair[1]] = first, second
    return [at + 32 - start - size for start, size in zip(starts, its)] if from_end else starts


def each_pair(chosen):
    for counts, from_end in itertools.product(COUNTS, (False, True)):
        for one, other in pairs_of(len(counts)):
            for distance in chosen(sizes(counts)[one], sizes(counts)[other]):
                starts = two(counts, (one, other), distance, from_end)
                name = f"area {other} {starts[other] - starts[one]} bytes after area {one}, {'last' if from_end else 'first'}"
                yield name, counts, starts, (one, other)


def touching():
    """The second after the first, and before it."""
    for name, counts, starts, _ in each_pair(lambda size, its: (size, -its)):
        yield made(name, counts, starts, LOADS)


def distances(size, its):
    """For two areas of these sizes: 8 bytes shared at either end, the same start, the same end, the shorter 8 bytes inside the longer."""
    inside = 8 if size > its else -8 if size < its else 0
    return sorted({size - 8, 8 - its, 0, size - its, inside})


def sharing():
    for name, counts, starts, pair in each_pair(distances):
        yield made(name, counts, starts, (18, *pair))


def partitions(count):
    """Every way to put so many areas into heaps; each heap rises."""
    ways = [[]]
    for area in range(count):
        alone = [way + [[area]] for way in ways]
        ways = alone + [way[:i] + [way[i] + [area]] + way[i + 1 :] for way in ways for i in range(len(way))]
    return ways


def heaps():
    """Areas that start at the same byte, in every way: the lowest two of a heap are told, of the heap whose two are lowest."""
    for counts in FEW:
        for parts in partitions(len(counts) + 1):
            starts, at = [0] * (len(counts) + 1), 40
            for heap in parts:
                for area in heap:
                    starts[area] = at
                at += max(sizes(counts)[area] for area in heap)
            told = min([tuple(heap[:2]) for heap in parts if len(heap) > 1], default=None)
            yield made(f"heaps {parts}", counts, starts, (18, *told) if told else LOADS)


def chains():
    """Each area starts on the last number of the one before it, in every order."""
    for counts in FEW:
        for order in itertools.permutations(range(len(counts) + 1)):
            starts, at = [0] * len(order), 40
            for area in order:
                starts[area] = at
                at += sizes(counts)[area] - 8
            told = min(tuple(sorted(both)) for both in zip(order, order[1:]))
            yield made(f"a chain {order}", counts, starts, (18, *told))


def beside_others():
    """14 of any area is told before; rooms too short, and what is wrong in any area, are not."""
    for counts in FEW:
        for pair in pairs_of(len(counts)):
            starts = two(counts, pair, 0)
            base = made(f"areas {pair} at one byte", counts, starts, (18, *pair))
            nodes, values = sum(counts), math.prod(counts)
            for rooms in ((0, 0), (nodes - 1, values), (nodes, values - 1)):
                yield base._replace(name=f"{base.name}, rooms {rooms}", nodes=rooms[0], values=rooms[1])
            for number, start in enumerate(starts):
                is_axis = number < len(counts)
                for offset in (32, start + 4, len(base.image) - 8):
                    image = changed(base.image, 16 + 4 * number if is_axis else 32, 4, offset)
                    yield base._replace(name=f"{base.name}, area {number} at {offset}", image=image, wanted=(14, number, 0))
                # 4, 5 and 6 at the first nodes; 7 at the last value.
                for bits in ([NAN], FALLING, WIDE) if is_axis else ([NAN],):
                    at = start if is_axis else start + sizes(counts)[-1] - 8
                    image = changed(base.image, at, 8 * len(bits), sum(x << 64 * i for i, x in enumerate(bits)))
                    yield base._replace(name=f"{base.name}, {bits[0]:016x} at byte {at}", image=image)


def tables():
    """The values on the last node, otherwise as the writer places areas; then others that loaded before C-12."""
    for counts in COUNTS + [(64,), (64, 64), (8, 8, 8, 8)]:
        starts = list(itertools.accumulate(sizes(counts)[:-1], initial=40))
        starts[-1] -= 8
        yield made("values on the last node", counts, starts, (18, len(counts) - 1, len(counts)))
    yield case("two areas that share bytes, in the longest image", TWO, lay(TWO, [BIG - 72, BIG - 24, BIG - 72], BIG), (18, 0, 2))
    yield from over_each_other()


def over_each_other():
    shared = table([rising(2), rising(3), rising(4)], rising(24))
    yield case("all areas from one place on", shared, lay(shared, [40, 40, 40, 40]), (18, 0, 1))
    yield case("an axis in the middle of another", shared, lay(shared, [48, 40, 40, 72]), (18, 0, 1))
    yield case("a value that is a node", PAPER, lay(PAPER, [40, 48], 72), (18, 0, 1))
    yield case("both axes within the values", TWO, lay(TWO, [48, 64, 40]), (18, 0, 2))
    yield case("axes over the last value and each other", THREE, lay(THREE, [152, 40, 160, 64]), (18, 0, 2))
    yield case("two axes in one place, twice", FOUR, lay(FOUR, [40, 40, 56, 56, 72]), (18, 0, 1))


def cases():
    groups = (touching, sharing, heaps, chains, beside_others, tables)
    its_cases = [its for group in groups for its in group()]
    check_pairs(its_cases)
    return its_cases
