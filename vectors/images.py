#!/usr/bin/env python3
"""Makes the list of good and damaged images that crates/test_damaged runs, and the line that each must get.

    python3 vectors/images.py           writes crates/test_damaged/stdin and crates/test_damaged/stdout
    python3 vectors/images.py --check   compares with the files that are there
    python3 vectors/images.py --list    prints what each line of crates/test_damaged/stdout is about

The lines come from loader.py and writer.py, which have document 01's checks, request C-12 and the image; nothing of the crates is read.
Python 3 alone is needed.

The list: for each image a head of 24 bytes, six little-endian u32, then the image. The six are the image's length, at most 40,000; how many
places the output of nodes has, at most 512; how many that of values, at most 4,160; how many nodes and how many values are lent to the
writer; how many bytes its output has, at most 40,000.

Before each load, place p of the output of nodes holds 2^52 + p, of the output of values 2^53 + 2p: the patterns of bits
0x4330000000000000 + p and 0x4340000000000000 + p. A line is

    NUMBER AXIS PLACE VALUE shape AXES N N N N nodes SUM values SUM

with the 16 hexadecimal digits of the answer's value, and a sum over the bits of each whole output after the load: from
0 on, for the lower and then the upper half of each place, sum = (sum * 1000003 + half) mod 4294967311. The modulus is
a prime above 2^32, so that no two halves count alike.

Where the image loads, what is at the fronts of the two outputs is lent to the writer, with the shape that was loaded. Before it, byte p of
its output holds p mod 251. The line goes on

    .. write NUMBER AXIS PLACE VALUE length LENGTH bytes SUM

with such a sum over all bytes of the output. Where that is not refused, the image that was written is loaded into the two outputs, which are
marked anew, and the line goes on with that load:

    .. load NUMBER AXIS PLACE VALUE shape AXES N N N N nodes SUM values SUM
"""

import struct
import sys
from collections import Counter
from pathlib import Path

# Before the imports of the files beside this one, so that nothing is left there.
sys.dont_write_bytecode = True

import contents
import drawn
import good
import headers
import orders
import overlaps
import writes
from loader import load, nodes_of, values_of
from tables import Writing
from writer import length_of, write

FOLDER = Path(__file__).resolve().parent.parent / "crates" / "test_damaged"
NODE_MARK = 0x4330 << 48
VALUE_MARK = 0x4340 << 48


def sum_of(halves):
    total = 0
    for half in halves:
        total = (total * 1_000_003 + half) % 4_294_967_311
    return total


def halves_of(output):
    return [half for bits in output for half in (bits % (1 << 32), bits >> 32)]


def loaded(image, case):
    nodes = [NODE_MARK + place for place in range(case.nodes)]
    values = [VALUE_MARK + place for place in range(case.values)]
    return load(image, nodes, values)


def outcome_of(case):
    outcome = loaded(case.image, case)
    if case.wanted not in (None, outcome.answer):
        sys.exit(f"{case.name}: made for {case.wanted}, but the checks give {outcome.answer}")
    return outcome


def lent_of(case, outcome):
    """What is lent to the writer: the table that was loaded, and room for its image; nothing where none was."""
    if outcome.answer[0]:
        return Writing(0, 0, 0)
    return case.lent or Writing(nodes_of(outcome.shape), values_of(outcome.shape), length_of(outcome.shape))


def told(answer):
    # No answer of the loader or the writer carries a value: it is +0.0.
    return " ".join(map(str, answer)) + f" {0:016x}"


def load_line(outcome):
    shape = " ".join(map(str, (outcome.shape.axes, *outcome.shape.counts)))
    sums = [sum_of(halves_of(output)) for output in (outcome.nodes, outcome.values)]
    return f"{told(outcome.answer)} shape {shape} nodes {sums[0]} values {sums[1]}"


def line_of(case, outcome):
    line = load_line(outcome)
    if outcome.answer[0]:
        return line
    lent = lent_of(case, outcome)
    out = bytes(place % 251 for place in range(lent.room))
    made = write(outcome.shape, outcome.nodes[: lent.nodes], outcome.values[: lent.values], out)
    line += f" write {told(made.answer)} length {made.length} bytes {sum_of(made.out)}"
    if made.answer[0]:
        return line
    again = loaded(made.out[: made.length], case)
    # "loading and writing gives an image that loads the same"
    if again != outcome:
        sys.exit(f"{case.name}: the image that was written does not load the same")
    return f"{line} load {load_line(again)}"


def entry_of(case, outcome):
    """What the list has of a case."""
    return struct.pack("<6I", len(case.image), case.nodes, case.values, *lent_of(case, outcome)) + case.image


def all_cases():
    """The cases of all groups with their outcomes; none stands there twice."""
    seen = set()
    for group in (good, headers, contents, orders, overlaps, drawn, writes):
        for case in group.cases():
            outcome = outcome_of(case)
            key = (case.image, case.nodes, case.values, lent_of(case, outcome))
            if key not in seen:
                seen.add(key)
                yield case, outcome


def counts_of(outcomes):
    counts = Counter(outcome.answer[0] for outcome in outcomes)
    refused = ", ".join(f"{number}: {counts[number]}" for number in sorted(counts) if number)
    return f"{len(outcomes)} images, {counts[0]} load; refused {refused}"


def main(mode):
    cases, outcomes = zip(*all_cases())
    lines = [line_of(case, outcome) for case, outcome in zip(cases, outcomes)]
    files = {
        "stdin": b"".join(entry_of(case, outcome) for case, outcome in zip(cases, outcomes)),
        "stdout": "".join(line + "\n" for line in lines).encode(),
    }
    if mode == "--list":
        for at, (case, line) in enumerate(zip(cases, lines), 1):
            print(f"{at}: {case.name}; rooms {case.nodes}, {case.values}: {line}")
    elif mode == "--check":
        for name, made in files.items():
            if not (FOLDER / name).exists() or (FOLDER / name).read_bytes() != made:
                sys.exit(f"{name} is not as committed: {counts_of(outcomes)}")
        print(f"the list is as committed: {counts_of(outcomes)}")
    else:
        for name, made in files.items():
            (FOLDER / name).write_bytes(made)
        print(f"the list is written: {counts_of(outcomes)}")


if __name__ == "__main__":
    if sys.argv[1:] not in ([], ["--check"], ["--list"]):
        sys.exit("usage: python3 vectors/images.py [--check | --list]")
    main("".join(sys.argv[1:]))
