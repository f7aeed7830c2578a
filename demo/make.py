#!/usr/bin/env python3
"""Makes the demos: for each NAME the input NAME.bin of a program, and the lines NAME.out that it prints. The program is `lookup`, for
the demo coverage `coverage`.

    python3 demo/make.py           writes them
    python3 demo/make.py --check   compares with the files that are there

README.md says what each shows. Python 3 alone is needed.
"""
import math
import struct
import sys
from pathlib import Path

HERE = Path(__file__).resolve().parent

sys.dont_write_bytecode = True
sys.path.append(str(HERE.parent / 'vectors'))
from lines import lines
from report import report
from tables import lay, table

LINEAR, LINEAR_UNIFORM, NEAREST, STEP_LOWER, STEP_UPPER = range(5)

# Two calibrations: nodes, then values.
OLD = [10, 20, 30, 40, 50, 60, 70, 80], [100, 110, 120, 130, 140, 150, 160, 170]
NEW = [-35, -25, -15, -5, 5, 15, 25, 35], [200, 210, 220, 230, 240, 250, 260, 270]


def halves(first, second):
    """The first half of one calibration, then the second half of the other."""
    return tuple(a[:4] + b[4:] for a, b in zip(first, second))


def recording(axes, values, *records, starts=None):
    """An image, as document 01's writer places it or with its areas from these bytes on, and records of a kind and a reading for each
    axis."""
    return lay(table(axes, values), starts) + b''.join(struct.pack(f'<B{len(axes)}d', *record) for record in records)


def demo(nodes, values, *records, starts=None):
    """A table of one axis, and records."""
    return recording([nodes], values, *records, starts=starts)


def site():
    """What a site recorded: volts and hertz; it lives in two corners of the table."""
    volts, hertz = [180, 200, 220, 240, 260], [48, 49.5, 50.5, 52]
    day = [(LINEAR, 182 + i, 48.25 + i / 16) for i in range(18)] + [(LINEAR, 180, 48), (NEAREST, 200, 49.5)]
    night = [(LINEAR, 246 + i, 50.75 + i / 16) for i in range(12)] + [(LINEAR, 260, 52)]
    outside = [(LINEAR, 176, 48.5), (LINEAR, 171.5, 48.125), (LINEAR, 262.5, 51.5)]
    wrong = [(LINEAR, 190, math.nan), (LINEAR_UNIFORM, 190, 49), (LINEAR_UNIFORM, 250, 51)]
    # The recorder lost its power within the last record.
    return recording([volts, hertz], range(100, 120), *day, *outside, *night, *wrong, (LINEAR, 191, 48.5))[:-8]


def demos():
    beside_one = 1 - 2.0 ** -53
    below_zero = -(2.0 ** -60)
    four = [10, 20, 30, 40], [100, 110, 120, 130]
    return {
        'example': demo([0, 2], [10, 20], (LINEAR, 0.5), (NEAREST, 1), (LINEAR, 3)),
        'falling': demo(*halves(OLD, NEW), (LINEAR, 12), (NEAREST, 12)),
        'fraction': demo([-1, 1], [10, 20], (LINEAR, beside_one), (LINEAR_UNIFORM, beside_one)),
        'node': demo([0, 1, 2, 4], [0.1, 0.2, 0.3, 0.4], *((kind, 2) for kind in range(5))),
        'nearest': demo([-1, 1], [10, 20], (NEAREST, below_zero), (NEAREST, -0.5), (NEAREST, 0)),
        'mixed': demo(*halves(NEW, OLD), (LINEAR, -20), (LINEAR, 55), (LINEAR, 22.5), (LINEAR_UNIFORM, 22.5)),
        # The last node is at byte 64; where two areas overlap, the values are seen.
        'overlap': demo(*four, (LINEAR, 35), starts=[40, 64]),
        'touching': demo(*four, (LINEAR, 35), starts=[40, 72]),
        'coverage': site(),
    }


def files():
    for name, data in demos().items():
        printed = report if name == 'coverage' else lines
        yield HERE / f'{name}.bin', data
        yield HERE / f'{name}.out', printed(data).encode()


def main():
    if sys.argv[1:] == ['--check']:
        for path, data in files():
            if not path.exists() or path.read_bytes() != data:
                sys.exit(f'{path.name} is not what is made')
        print('the demos are as committed')
    elif not sys.argv[1:]:
        for path, data in files():
            path.write_bytes(data)
    else:
        sys.exit(__doc__)


if __name__ == '__main__':
    main()
