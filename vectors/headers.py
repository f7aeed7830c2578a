"""Damaged headers: every byte, every field at its limits, every length, every offset."""

from tables import PAPER, SMALL, THREE, case, changed, lay, packed, parts, plain, restated

BIG = 36_864


def each_byte():
    for name, its in SMALL:
        image = lay(its)
        for at in range(40):
            old = image[at]
            for new in (0, 1, 255, (old + 1) % 256, (old - 1) % 256, old ^ 128):
                yield case(f"{name}, byte {at} {new}", its, changed(image, at, 1, new))


def each_bit():
    image = lay(PAPER)
    for bit in range(8 * len(image)):
        new = image[bit // 8] ^ (1 << bit % 8)
        yield case(f"paper, bit {bit % 8} of byte {bit // 8}", PAPER, changed(image, bit // 8, 1, new))


def first_bytes():
    """Byte 0 and byte 1, every value; bytes 2-3 and 36-39."""
    for name, its in SMALL:
        image = lay(its)
        for new in range(256):
            if its is PAPER and new != 1:
                yield case(f"{name}, byte 0 {new}", its, changed(image, 0, 1, new), (13, 0, 0))
            if its is PAPER or new < 6:
                wanted = None if 1 <= new <= 4 else (1, 0, 0)
                yield case(f"{name}, axes {new}", its, changed(image, 1, 1, new), wanted)
        for new in (1, 255, 256, 0x8000, 0xFFFF):
            yield case(f"{name}, bytes 2-3 {new}", its, changed(image, 2, 2, new), (13, 0, 2))
        for new in (1, 40, 255, 256, 1 << 16, 1 << 24, 1 << 31, (1 << 32) - 1):
            yield case(f"{name}, bytes 36-39 {new}", its, changed(image, 36, 4, new), (13, 0, 36))


def stated_lengths():
    for name, its in SMALL:
        image = lay(its)
        true = len(image)
        limits = [0, 1, 39, 40, 41, true - 8, true - 1, true + 1, true + 8, BIG - 1, BIG, BIG + 1]
        for stated in limits + [true + (1 << shift) for shift in (8, 16, 24, 31)] + [true << 8, (1 << 32) - 1]:
            yield case(f"{name}, length {stated}", its, changed(image, 4, 4, stated), (13, 0, 4))


def lent_lengths():
    image = lay(PAPER)
    yield case("a header alone", PAPER, restated(image[:40]), (14, 0, 0))
    for lent in (BIG - 1, BIG):
        yield case(f"{lent} bytes", PAPER, lay(PAPER, None, lent), (0, 0, 0))
    for number, part in enumerate(parts(THREE)):
        starts = packed(THREE)
        starts[number] = BIG - 8 * len(part)
        yield case(f"area {number} ends the longest image", THREE, lay(THREE, starts, BIG), (0, 0, 0))
    image = changed(lay(PAPER, None, BIG), 32, 4, BIG - 8)
    yield case("an area that ends past the longest image", PAPER, image, (14, 1, 0))
    yield case(f"{BIG + 1} bytes", PAPER, lay(PAPER, None, BIG + 1), (13, 0, 4))
    yield case(f"{BIG + 1} bytes, length {BIG}", PAPER, changed(lay(PAPER, None, BIG + 1), 4, 4, BIG), (13, 0, 4))
    yield case(f"{BIG} bytes, length {BIG + 1}", PAPER, changed(lay(PAPER, None, BIG), 4, 4, BIG + 1), (13, 0, 4))


def truncations():
    for name, its in (("paper", PAPER), ("three axes", THREE)):
        image = lay(its)
        for lent in range(len(image)):
            cut = image[:lent]
            yield case(f"{name}, {lent} bytes", its, cut, (13, 0, 4 if lent >= 40 else 0))
            yield case(f"{name}, {lent} bytes, so stated", its, restated(cut), None if lent >= 40 else (13, 0, 0))


def counts():
    for name, its in SMALL:
        image = lay(its)
        for axis in range(4):
            at = 8 + 2 * axis
            used = axis < len(its.axes)
            for count in (0, 1, 2, 3, 63, 64, 65, 255, 256, 258, 0x8000, 0x8002, 0xFFFF):
                wanted = (2, axis, 0) if used else (13, 0, at)
                fits = 2 <= count <= 64 if used else count == 0
                yield case(f"{name}, count {axis} {count}", its, changed(image, at, 2, count), None if fits else wanted)
    for few in (1, 65):
        for places in ((few,), (few, 2), (2, few), (2, 2, few), (2, 2, 2, few)):
            its = plain(*places)
            yield case(f"counts {places}, all there", its, lay(its), (2, places.index(few), 0))


# 4,100 is the least product above 4,096 that counts up to 64 have.
TOO_MANY = [(41, 50, 2), (41, 25, 4), (41, 10, 5, 2), (64, 64, 2), (2, 64, 64), (17, 16, 16), (8, 8, 8, 9), (64,) * 4]
MOST = [(64, 64), (64, 32, 2), (16, 16, 16), (2, 2, 16, 64), (8, 8, 8, 8), (63, 13, 5)]


def products():
    """Headers alone: a product too large is told before the areas are looked at."""
    for shape in TOO_MANY:
        yield case(f"product of {shape}", PAPER, head_of(shape), (2, 0, 0))
    for shape in MOST:
        yield case(f"product of {shape}", PAPER, head_of(shape), (14, 0, 0))
    its = plain(41, 50, 2)
    yield case("product of 4,100, all there", its, lay(its), (2, 0, 0))


def head_of(shape):
    image = changed(restated(lay(PAPER)[:40]), 1, 1, len(shape))
    for axis, count in enumerate(shape):
        image = changed(image, 8 + 2 * axis, 2, count)
    return image


def offsets():
    for name, its in SMALL:
        image = lay(its)
        for axis, part in enumerate(parts(its)):
            at = 32 if axis == len(its.axes) else 16 + 4 * axis
            size = 8 * len(part)
            last = len(image) - size
            early = [0, 1, 8, 16, 24, 32, 39]
            odd = [41, 42, 44, 47, 49, last - 1, last - 4, last + 1, last + 4]
            late = [last + 8, len(image) - 8, len(image), len(image) + 8, BIG, 1 << 16, 1 << 31]
            # Those that 32 bits would bring round to a place inside, too.
            far = [(1 << 32) - less for less in (1, 4, 8, 16, size, size - 8, max(8, size - 40))]
            for offset in (40, 48, last - 8, last):
                yield case(f"{name}, area {axis} at {offset}", its, changed(image, at, 4, offset))
            # The same with the other areas out of the way, so that it loads.
            starts, length = packed(its, 48 + size), 48 + size + len(image)
            for offset in (40, 48, length - size - 8, length - size):
                moved = lay(its, starts[:axis] + [offset] + starts[axis + 1 :], length)
                yield case(f"{name}, area {axis} alone at {offset}", its, moved, (0, 0, 0))
            for offset in early + odd + late + far:
                yield case(f"{name}, area {axis} at {offset}", its, changed(image, at, 4, offset), (14, axis, 0))


def unused_offsets():
    for name, its in SMALL:
        for axis in range(len(its.axes), 4):
            at = 16 + 4 * axis
            for new in (1, 8, 40, 255, 256, 1 << 16, 1 << 24, 1 << 31, (1 << 32) - 1):
                yield case(f"{name}, unused offset {axis} {new}", its, changed(lay(its), at, 4, new), (13, 0, at))


def large_areas():
    """Areas of a table as large as can be, one place too far."""
    its = plain(64, 64)
    image = lay(its)
    yield case("64 x 64, an axis that ends past it", its, changed(image, 20, 4, len(image) - 504), (14, 1, 0))
    yield case("64 x 64, values that end past it", its, changed(image, 32, 4, len(image) - 8 * 4095), (14, 2, 0))
    yield case("64 x 64, one byte less, so stated", its, restated(image[:-1]), (14, 2, 0))


GROUPS = [each_byte, each_bit, first_bytes, stated_lengths, lent_lengths, truncations, counts, products]


def cases():
    for group in GROUPS + [offsets, unused_offsets, large_areas]:
        yield from group()
