#!/usr/bin/env python3
"""Gives hostile inputs to the program, and compares what it does with docs/PROTOCOL.md.

usage: run.py [--seconds N] [--seed N] [--program PATH] [--version V] [--workers N] [--input N]

Output, status and the line on standard error are compared with the answer of `expected.py`. If that
doesn't depend on where the input ends, small inputs are kept open, and the program has to end by
itself.

The inputs of a seed are numbered, and each is always the same: --input tries one of them alone.
With --version the program is asked to write for that version of the protocol.

At a difference the input is saved to a file as hex, and the exit status is 1. It is also 1 if a run
of 20 seconds or more met no input for some row of the table of refusals. Otherwise it is 0.
"""
import argparse
import collections
import concurrent.futures
import os
import random
import subprocess
import sys
import tempfile
import threading
import time

import expected
import inputs

TOP = os.path.join(os.path.dirname(os.path.abspath(__file__)), "..")
sys.path.insert(0, os.path.join(TOP, ".ci"))

import built  # noqa: E402  (it lies in another folder)

# The program is killed after this many seconds on one input.
LIMIT = 10

# A pipe buffers this many bytes before anyone reads it.
PIPE_SIZE = 4096

# A run of this many seconds has to meet each row.
WHOLE_RUN = 20

# Set when a worker has found a difference.
FOUND = threading.Event()


def input_of(seed, number):
    """Returns the kind and the bytes of an input of this seed."""
    return inputs.make(random.Random(f"{seed} {number}"))


def run_on_open(command, data):
    """Runs the program on an input that is kept open."""
    reading, writing = os.pipe()
    try:
        os.write(writing, data)
        return subprocess.run(command, stdin=reading, capture_output=True, timeout=LIMIT)
    finally:
        os.close(reading)
        os.close(writing)


def program_answer(args, data, row):
    """Returns output, status and line of the program. A small input that isn't short is kept
    open."""
    command = [args.program]
    if args.version is not None:
        command += ["--version", str(args.version)]
    try:
        if row not in expected.SHORT_ROWS and len(data) <= PIPE_SIZE:
            ran = run_on_open(command, data)
        else:
            ran = subprocess.run(command, input=data, capture_output=True, timeout=LIMIT)
    except subprocess.TimeoutExpired:
        return [b"", "none in time", ""]
    return [ran.stdout, ran.returncode, ran.stderr.decode(errors="replace")]


def first_difference(left, right):
    """Returns the first offset at which two byte strings differ."""
    shorter = min(len(left), len(right))
    return next((offset for offset in range(shorter) if left[offset] != right[offset]), shorter)


def difference(args, number, data, got, model):
    """Writes the input to a file, and returns a text with the difference and the file's name."""
    path = os.path.join(tempfile.gettempdir(), f"rtr_normalise-{args.seed}-{number}.hex")
    with open(path, "w", encoding="ascii") as file:
        file.write(data.hex("\n", -32) + "\n")
    version = "" if args.version is None else f" --version {args.version}"
    call = f"--seed {args.seed} --input {number}{version}"
    lines = [f"{call} differs: {len(data)} bytes, kept in {path}"]
    if got[0] != model[0]:
        offset = first_difference(got[0], model[0])
        lines += [f"output: {len(got[0])} bytes, and not {len(model[0])}; at byte {offset}"]
        for output, word in ((got[0], "got"), (model[0], "wanted")):
            lines += [f"  {output[offset : offset + 16].hex(' ') or 'its end'} ({word})"]
    if got[1:] != model[1:]:
        lines += [f"status {got[1]} with line {got[2]!r}, and not {model[1]} with {model[2]!r}"]
    return "\n".join(lines)


def try_input(args, number):
    """Returns the kind of an input, the row that refuses it or 0, and the difference, if there is
    one."""
    kind, data = input_of(args.seed, number)
    *model, row = expected.answer(data, args.version)
    got = program_answer(args, data, row)
    return kind, row, "" if got == model else difference(args, number, data, got, model)


def work(args, number, end):
    """Tries this worker's inputs from this number on, until the end or a difference."""
    seen = collections.Counter()
    while time.monotonic() < end and not FOUND.is_set():
        kind, row, differs = try_input(args, number)
        seen[kind, row] += 1
        if differs:
            FOUND.set()
            return seen, differs
        number += args.workers
    return seen, ""


def totals(seen, seconds):
    """Returns how many inputs of each kind were tried, and what was expected of them."""
    kinds, rows = collections.Counter(), collections.Counter()
    for (kind, row), times in seen.items():
        kinds[kind] += times
        rows[row] += times
    total = sum(seen.values())
    return [
        f"{total} inputs in {seconds:.0f} seconds, {total / seconds:.0f} a second",
        "made: " + ", ".join(f"{kinds[make.__name__]} {make.__name__}" for make in inputs.KINDS),
        f"accepted: {rows[0]}",
        "refused: " + ", ".join(f"{rows[row]} {name}" for row, name in expected.ROWS.items()),
    ]


def run(args):
    """Tries inputs in parallel for the time asked for, and returns the exit status."""
    start = time.monotonic()
    with concurrent.futures.ThreadPoolExecutor(args.workers) as pool:
        numbers = range(args.workers)
        results = list(pool.map(lambda number: work(args, number, start + args.seconds), numbers))
    seen = sum((counted for counted, _ in results), collections.Counter())
    wrong = [differs for _, differs in results if differs]
    met = {row for _, row in seen}
    missed = [name for row, name in expected.ROWS.items() if row not in met]
    print(*totals(seen, time.monotonic() - start), *wrong, sep="\n")
    if missed and not wrong and args.seconds >= WHOLE_RUN:
        wrong = [f"no input for {', '.join(missed)}"]
        print(*wrong)
    return 1 if wrong else 0


def main():
    parser = argparse.ArgumentParser()
    parser.add_argument("--seconds", type=float, default=WHOLE_RUN)
    parser.add_argument("--seed", type=int, default=1)
    parser.add_argument("--program")
    parser.add_argument("--version", type=int, choices=[0, 1, 2])
    parser.add_argument("--workers", type=int, default=len(os.sched_getaffinity(0)))
    parser.add_argument("--input", type=int)
    args = parser.parse_args()
    args.program = args.program or built.program("rtr_normalise")
    if not os.path.isfile(args.program):
        sys.exit(f"fuzz: no program {args.program}")
    if args.input is None:
        sys.exit(run(args))
    kind, row, differs = try_input(args, args.input)
    print(f"{kind}: {expected.ROWS.get(row, 'accepted')}", differs or "nothing differs", sep="\n")
    sys.exit(1 if differs else 0)


if __name__ == "__main__":
    main()
