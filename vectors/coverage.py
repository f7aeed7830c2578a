#!/usr/bin/env python3
"""Makes the list of whole inputs that crates/test_coverage runs, the long one that crates/coverage itself runs, and the report on each.

    python3 vectors/coverage.py                  writes stdin and stdout of crates/test_coverage and of crates/coverage
    python3 vectors/coverage.py --check          compares with the files that are there
    python3 vectors/coverage.py --list           prints what each run is about
    python3 vectors/coverage.py --against-whole  holds the answers that are counted to the lines of crates/test_whole and crates/lookup

The reports come from report.py, which has request C-11 over the answers of records.py; of the crates nothing but those lines is read, and
they only for --against-whole. Python 3 alone is needed.

The list: before each input its length, at most 40,000, four bytes, little-endian. The reports: for each input the line `run K`, counted
from 0, and then what `coverage` prints.
"""

import struct
import sys
from collections import Counter
from pathlib import Path

# Before the imports of the files beside this one, so that nothing is left there.
sys.dont_write_bytecode = True

import drawn_runs
import runs
from against import against_whole, counts_in
from records import image_length
from report import is_refusal, report

CRATES = Path(__file__).resolve().parent.parent / "crates"
MOST_BYTES = 40_000


def all_runs():
    """The runs of both groups; none stands there twice."""
    seen = set()
    for run in (*runs.runs(), *drawn_runs.runs()):
        if len(run.input) > MOST_BYTES:
            sys.exit(f"{run.name}: {len(run.input)} bytes are too many")
        if run.input not in seen:
            seen.add(run.input)
            yield run


def check_wanted(run, text):
    """The lines that the run was made for, without the cells in which nothing is counted."""
    lines = [line for line in text.splitlines() if not (line.startswith("cell") and line.endswith(" 0"))]
    if run.wanted is not None and list(run.wanted) != lines:
        sys.exit(f"{run.name}: made for {run.wanted}, but the report has {lines}")


def check_sums(run, text):
    """Every cell has its line, and on each axis the cell counts and the refused counts are the records read."""
    counts = struct.unpack_from(f"<{run.input[1]}H", run.input, 8)
    cells = [f"cell {axis} {cell} " for axis, count in enumerate(counts) for cell in range(count - 1)]
    lines = text.splitlines()
    if not all(line.startswith(cell) for cell, line in zip(cells, lines)) or len(lines) < len(cells):
        sys.exit(f"{run.name}: a cell has no line")
    read = -(-(len(run.input) - image_length(run.input)) // (1 + 8 * len(counts)))
    numbers, accepted = counts_in(text)
    if accepted != {read - numbers.total()}:
        sys.exit(f"{run.name}: {accepted} accepted and {numbers} refused are not the {read} records")


def report_of(run):
    text = report(run.input)
    check_wanted(run, text)
    if not is_refusal(text):
        check_sums(run, text)
    return text


def made():
    both = [(run, report_of(run)) for run in all_runs()]
    long = drawn_runs.long_run()
    files = {
        "test_coverage/stdin": b"".join(struct.pack("<I", len(run.input)) + run.input for run, _ in both),
        "test_coverage/stdout": "".join(f"run {i}\n{text}" for i, (_, text) in enumerate(both)).encode(),
        "coverage/stdin": long.input,
        "coverage/stdout": report_of(long).encode(),
    }
    return both, files


def totals_of(both):
    loaded = [counts_in(text) for _, text in both if not is_refusal(text)]
    numbers = sum((numbers for numbers, _ in loaded), Counter())
    accepted = sum(max(accepted) for _, accepted in loaded)
    refused = ", ".join(f"{number}: {numbers[number]}" for number in sorted(numbers))
    records = f"{accepted + numbers.total()} records, {accepted} accepted; refused {refused}"
    return f"{len(both)} runs, {len(both) - len(loaded)} images refused; {records}"


def main(mode):
    if mode == "--against-whole":
        print(against_whole(CRATES))
        return
    both, files = made()
    if mode == "--list":
        for i, (run, text) in enumerate(both):
            print(f"{i}: {run.name}: {len(run.input)} bytes, lines {len(text.splitlines())}")
    elif mode == "--check":
        for name, data in files.items():
            if not (CRATES / name).exists() or (CRATES / name).read_bytes() != data:
                sys.exit(f"{name} is not as committed: {totals_of(both)}")
        print(f"the list is as committed: {totals_of(both)}")
    else:
        for name, data in files.items():
            (CRATES / name).write_bytes(data)
        print(f"the list is written: {totals_of(both)}")


if __name__ == "__main__":
    if sys.argv[1:] not in ([], ["--check"], ["--list"], ["--against-whole"]):
        sys.exit("usage: python3 vectors/coverage.py [--check | --list | --against-whole]")
    main("".join(sys.argv[1:]))
