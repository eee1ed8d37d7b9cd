#!/usr/bin/env python3
"""Writes inputs, with the results of `fuzz/expected.py`, for the tests of the bindings.

usage: cases.py [--seed N] [--inputs N] > CASES

The inputs are those of the table of whole runs in `tests/programs/runs.py`, and N of the hostile
ones of `fuzz/inputs.py`. Each is a case as it is, and a case for one version, which varies. A case
is

- one byte each for the version, or 255, the status and the detail;
- eight bytes each, little-endian, for the payload units, the forms, the bytes taken, the length of
  the input and that of the form;
- the input and the form.
"""
import argparse
import os
import random
import struct
import sys

TOP = os.path.realpath(os.path.join(os.path.dirname(os.path.abspath(__file__)), "..", ".."))
sys.path[:0] = [os.path.join(TOP, ".ci"), os.path.join(TOP, "fuzz")]

import built
import expected
import inputs

# The status of each row of the table of refusals in docs/PROTOCOL.md, by its number.
STATUS = {0: 0, 1: 1, 2: 2, 3: 3, 4: 4, 5: 5, 6: 6, 7: 1, 8: 7}

# Longer inputs are skipped.
MOST = 1 << 18


def runs():
    """Yields the inputs of the table of whole runs."""
    return [row[2] for row in built.script("tests/programs/runs.py").RUNS]


def detail(row, rest):
    """Returns the detail of the status: a type, a version, or the rule that a prefix breaks."""
    if row in (2, 3):
        return rest[1 if row == 2 else 0]
    if row == 8:
        width = expected.WIDTHS[rest[1]]
        return 1 if rest[9] > width else 2 if rest[10] > width else 3
    return 0


def case(data, version):
    """Encodes a case."""
    units = forms = taken = 0
    form, _, _, row = expected.answer(data, version)
    while True:
        rest = data[taken:]
        if expected.when_refused(rest)[0] > 0:
            break
        taken += expected.number(rest[4:8])
        if rest[1] == 7:
            break
        units += 1
        forms += version is None or expected.PAYLOAD_TYPES[rest[1]] <= version
    head = bytes([255 if version is None else version, STATUS[row], detail(row, data[taken:])])
    return head + struct.pack("<5Q", units, forms, taken, len(data), len(form)) + data + form


def main():
    parser = argparse.ArgumentParser(usage=__doc__.splitlines()[2])
    parser.add_argument("--seed", type=int, default=1)
    parser.add_argument("--inputs", type=int, default=3000)
    args = parser.parse_args()
    hostile = (inputs.make(random.Random(f"{args.seed} {n}"))[1] for n in range(args.inputs))
    for number, data in enumerate([*runs(), *hostile]):
        if len(data) <= MOST:
            sys.stdout.buffer.write(case(bytes(data), None))
            sys.stdout.buffer.write(case(bytes(data), number % 3))


if __name__ == "__main__":
    main()
