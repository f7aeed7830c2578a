"""Holds records.py and report.py to the lines of crates/test_whole and crates/lookup, whose values the unchanged Rust gave."""

import struct
import sys
from collections import Counter

from loader import Refusal
from records import answer, opened
from report import is_refusal, report
from tables import bits_of


def answers_in(text):
    """The answers that lines tell, values as bits."""
    for line in text.splitlines():
        words = line.split()
        yield (0, 0, 0, int(words[1], 16)) if words[0] == "ok" else (*map(int, words[1:]), 0)


def answers_to(data):
    """The answers that the records of an input get; where its image is refused, that one."""
    try:
        table, records, _ = opened(data)
    except Refusal as refusal:
        return [(*refusal.args, 0)]
    answers = [answer(table, record) for record in records]
    return [(number, axis, place, bits_of(value)) for number, axis, place, value in answers]


def inputs_of(data):
    at = 0
    while at < len(data):
        (length,) = struct.unpack_from("<I", data, at)
        yield data[at + 4 : at + 4 + length]
        at += 4 + length


def texts_of(lines):
    """The lines after each line `run K`."""
    texts = []
    for line in lines:
        if line == f"run {len(texts)}\n":
            texts.append("")
        else:
            texts[-1] += line
    return texts


def runs_in(crates):
    """The fixed runs, each with its name and lines: a list of them, and one alone."""
    listed, alone = crates / "test_whole", crates / "lookup"
    texts = texts_of((listed / "stdout").read_text().splitlines(keepends=True))
    for i, (data, text) in enumerate(zip(inputs_of((listed / "stdin").read_bytes()), texts, strict=True)):
        yield f"{listed.name}, run {i}", data, text
    yield alone.name, (alone / "stdin").read_bytes(), (alone / "stdout").read_text()


def counts_in(text):
    """The refused counts that a report has, and the accepted records on each axis."""
    numbers, accepted = Counter(), Counter()
    for words in map(str.split, text.splitlines()):
        if words[0] == "no":
            numbers[int(words[1])] += int(words[2])
        else:
            accepted[int(words[1])] += int(words[3])
    return numbers, set(accepted.values())


def check_run(name, data, text):
    """Each answer, then the report's counts beside the lines'; gives how often each number is told."""
    told = list(answers_in(text))
    for i, (ours, theirs) in enumerate(zip(answers_to(data), told, strict=True)):
        if ours != theirs:
            sys.exit(f"{name}: answer {i} is {ours}, but the lines tell {theirs}")
    got, counts = report(data), Counter(number for number, *_ in told)
    if is_refusal(got):
        if got != text:
            sys.exit(f"{name}: the image's line is {got!r}, but {text!r} is told")
        return Counter()
    refused = Counter({number: count for number, count in counts.items() if number})
    if counts_in(got) != (refused, {counts[0]}):
        sys.exit(f"{name}: the lines count {counts}, but the report is {got!r}")
    return counts


def against_whole(crates):
    runs, counts = 0, Counter()
    for name, data, text in runs_in(crates):
        counts += check_run(name, data, text)
        runs += 1
    refused = ", ".join(f"{number}: {counts[number]}" for number in sorted(counts) if number)
    return f"{runs} runs, {sum(counts.values())} records, every answer the one that is told: {counts[0]} accepted; refused {refused}"
