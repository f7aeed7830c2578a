"""Images with several drawn changes at once. The draws are fixed, so every run gives the same bytes."""

from contents import NOT_FINITE
from tables import LARGEST, MINUS, SMALL, Case, changed, lay, nodes_in, restated

WIDTHS = [1, 1, 2, 4, 2, 2, 2, 2, 4, 4, 4, 4, 4, 4]
BYTES = [0, 1, 2, 3, 4, 5, 255]
SHORTS = [0, 1, 2, 3, 4, 64, 65, 256]
WORDS = [0, 8, 32, 40, 44, 48, 56, 64, 72, 96, 104, 128, 192, 232, 36_864, (1 << 32) - 8]
NUMBERS = NOT_FINITE + [0, MINUS, 1, LARGEST, MINUS | LARGEST, 0x3FF << 52]


class Draws:
    def __init__(self, seed):
        self.state = seed

    def below(self, n):
        self.state = (self.state * 6_364_136_223_846_793_005 + 1_442_695_040_888_963_407) % (1 << 64)
        return (self.state >> 33) % n

    def of(self, things):
        return things[self.below(len(things))]


def with_field(draws, image):
    """A field of the header, with a number that it may have somewhere; the length is mostly left right."""
    which = draws.below(len(WIDTHS))
    width = WIDTHS[which]
    number = draws.of({1: BYTES, 2: SHORTS, 4: WORDS}[width])
    image = changed(image, sum(WIDTHS[:which]), width, number)
    return image if draws.below(4) == 0 else restated(image)


def with_number(draws, image):
    return changed(image, 40 + 8 * draws.below((len(image) - 40) // 8), 8, draws.of(NUMBERS))


def one(draws, i):
    name, its = draws.of(SMALL)
    image = lay(its)
    for _ in range(1 + draws.below(3)):
        image = draws.of([with_field, with_field, with_number])(draws, image)
    if draws.below(5) == 0:
        image = restated(image[: len(image) - draws.below(32)])
    nodes = nodes_in(its) + draws.of([-1, 0, 0, 1, 8])
    values = len(its.values) + draws.of([-1, 0, 0, 1, 8])
    return Case(f"drawn {i}, {name}", image, nodes, values)


def cases():
    draws = Draws(20_140_607)
    for i in range(600):
        yield one(draws, i)
