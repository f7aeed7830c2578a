#!/usr/bin/env python3
"""Makes an input of `coverage` with exactly so many records, and the report on it: for runs about the limit of 1,000,000 records.

    python3 vectors/coverage_limit.py N B AXES            writes an image of 1 to 4 axes, N records and B bytes more to standard output
    python3 vectors/coverage_limit.py N B AXES --expect   writes the report that `coverage` must print on it
    python3 vectors/coverage_limit.py --check             compares such reports with records counted one by one, at small limits

B is less than a record has; the bytes are the front of the next record. The records go round in a cycle of 1,009, so the report is worked
out from the counts of one cycle; 1,009 is a prime, so that a program's blocks do not fall in step with it.
"""

import itertools
import sys
from collections import Counter

sys.dont_write_bytecode = True

from drawn import Draws
from drawn_runs import drawn_record
from records import MOST_RECORDS, load
from report import Tally, report, tally_of, text_of
from tables import lay, rising, table

CYCLE = 1_009


def table_of(axes):
    """Axes of 4 nodes, the last one of 5 and not uniform, so that 8 is met."""
    return table([rising(4)] * (axes - 1) + [[0.0, 1.0, 2.0, 4.0, 8.0]], rising(5 * 4 ** (axes - 1)))


def cycle_of(its):
    draws = Draws(1_000_003)
    return [drawn_record(draws, its) for _ in range(CYCLE)]


def input_of(n, more, axes):
    its = table_of(axes)
    cycle = cycle_of(its)
    rounds, rest = divmod(n, CYCLE)
    return lay(its) + b"".join(cycle) * rounds + b"".join(cycle[:rest]) + cycle[rest][:more]


def times(count, tally):
    return Tally(*(Counter({key: count * n for key, n in part.items()}) for part in tally))


def expected(n, more, axes, most=MOST_RECORDS):
    its = table_of(axes)
    read, loaded, cycle = min(n, most), load(lay(its)), cycle_of(its)
    rounds, rest = divmod(read, CYCLE)
    round_of, rest_of = times(rounds, tally_of(loaded, cycle)), tally_of(loaded, cycle[:rest])
    # A short record is read only before the limit.
    short = Counter({3: 1} if more and n < most else {})
    tally = Tally(round_of.cells + rest_of.cells, round_of.numbers + rest_of.numbers + short)
    return text_of(loaded, tally, n > most or (n == most and more > 0))


def check_all(n, more, axes):
    """The reports at limits about n, and how many they are."""
    data, limits = input_of(n, more, axes), {1, max(n - 1, 1), max(n, 1), n + 1, 5 * CYCLE}
    for most in limits:
        if expected(n, more, axes, most) != report(data, most):
            sys.exit(f"{n} records, {more} bytes, {axes} axes, at most {most}: not what is counted one by one")
    return len(limits)


def check():
    cases = itertools.product((0, 1, CYCLE - 1, CYCLE, 2 * CYCLE + 7), (0, 1, 8), range(1, 5))
    print(f"{sum(check_all(*case) for case in cases)} reports are what is counted one by one")


def main(words):
    if words == ["--check"]:
        check()
        return
    expect = words[3:] == ["--expect"]
    if len(words) != 3 + expect or not all(word.isdecimal() for word in words[:3]):
        sys.exit(__doc__)
    n, more, axes = map(int, words[:3])
    if not (1 <= axes <= 4 and more <= 8 * axes):
        sys.exit(__doc__)
    if expect:
        sys.stdout.write(expected(n, more, axes))
    else:
        sys.stdout.buffer.write(input_of(n, more, axes))


if __name__ == "__main__":
    main(sys.argv[1:])
