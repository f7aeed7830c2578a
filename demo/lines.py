#!/usr/bin/env python3
"""Document 01's program in plain Python, with request C-12's 18: the lines that `lookup` prints for an input.

    python3 demo/lines.py < INPUT

The answers are those of vectors/records.py, which is written from the documents alone. make.py takes the expected lines of the demos
from here.
"""
import struct
import sys
from pathlib import Path

sys.dont_write_bytecode = True
sys.path.append(str(Path(__file__).resolve().parent.parent / 'vectors'))
from loader import Refusal
from records import answer, opened


def line(number, axis, place, value):
    if number:
        return f'no {number} {axis} {place}\n'
    return f"ok {struct.pack('>d', value).hex()}\n"


def lines(data):
    try:
        table, records, _ = opened(data)
    except Refusal as refusal:
        return line(*refusal.args, 0.0)
    return ''.join(line(*answer(table, record)) for record in records)


if __name__ == '__main__':
    sys.stdout.write(lines(sys.stdin.buffer.read()))
