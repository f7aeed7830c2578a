#!/usr/bin/env python3
"""Request C-11 in plain Python: the report that `coverage` prints for an input.

    python3 vectors/report.py < INPUT

The answers are those of records.py.
"""

import sys
from collections import Counter
from typing import NamedTuple

sys.dont_write_bytecode = True

from loader import Refusal
from records import MOST_RECORDS, answer, lower_index, opened, readings_of


class Tally(NamedTuple):
    """The accepted readings of each axis and cell, and the refused records of each number."""

    cells: Counter
    numbers: Counter


def tally_of(table, records):
    tally = Tally(Counter(), Counter())
    for record in records:
        number = answer(table, record).number
        if number:
            tally.numbers[number] += 1
            continue
        for axis, (nodes, p) in enumerate(zip(table.grid, readings_of(table, record))):
            tally.cells[axis, lower_index(nodes, p)] += 1
    return tally


def text_of(table, tally, past):
    """Every cell of every axis, then each number met, ascending, then 17 where bytes come after the last record that is read."""
    lines = [
        f"cell {axis} {cell} {tally.cells[axis, cell]}"
        for axis, nodes in enumerate(table.grid)
        for cell in range(len(nodes) - 1)
    ]
    lines += [f"no {number} {tally.numbers[number]}" for number in sorted(tally.numbers)]
    if past:
        lines.append("no 17 0 0")
    return "".join(line + "\n" for line in lines)


def report(data, most=MOST_RECORDS):
    try:
        table, records, past = opened(data, most)
    except Refusal as refusal:
        return "no {} {} {}\n".format(*refusal.args)
    return text_of(table, tally_of(table, records), past)


def is_refusal(text):
    """Whether a report is a refused image's one line, `no NUMBER AXIS PLACE`."""
    return text.startswith("no ") and len(text.split()) == 4


if __name__ == "__main__":
    sys.stdout.write(report(sys.stdin.buffer.read()))
