#!/usr/bin/env python3
"""Measures the package for Python: reading units beside the same by hand with `struct`, and data
and changes beside the same calls in C.

usage: bench/python.py [--write] [--units N] [--rounds N]

Prints a table of the least processor times of N rounds, 9 by default, over N prefixes, 100000 by
default, and as ratios; --write puts the table into docs/SPEED.md. By hand a loop reads each unit by
`unpack_from`, checks its type, its length and its prefix lengths, and makes the same kind of frozen
dataclass. The old and the new data differ in one prefix of a hundred.
"""
import argparse
import ipaddress
import os
import re
import struct
import subprocess
import sys
import tempfile
import time
from dataclasses import dataclass

from speed_page import write

TOP = os.path.realpath(os.path.join(os.path.dirname(os.path.abspath(__file__)), ".."))
MARKER = "<!-- measured: python -->"
RUN = re.compile(r"Python: the least of \d+ rounds over \d+ prefixes\.$")
LAYOUT = struct.Struct(">BBHIBBBB4sI")


@dataclass(frozen=True)
class ByHand:
    """The object that the loop by hand makes from a unit."""

    prefix: ipaddress.IPv4Network
    max_length: int
    asn: int
    announce: bool = True
    version: int = 1


def by_hand(data):
    """Yields the units of data in which all are IPv4 prefixes."""
    at, end, unpack = 0, len(data), LAYOUT.unpack_from
    while at < end:
        version, kind, _, length, flags, bits, most, _, address, asn = unpack(data, at)
        if kind != 4 or length != LAYOUT.size or not bits <= most <= 32:
            raise ValueError(at)
        network = ipaddress.IPv4Network((address, bits))
        yield ByHand(network, most, asn, flags & 1 == 1, version)
        at += length


def prefixes(numbers):
    """Returns the units of these prefixes, each a number of 24 bits."""
    return b"".join(
        LAYOUT.pack(1, 4, 0, LAYOUT.size, 1, 24, 24, 0, (number << 8).to_bytes(4, "big"), 64496)
        for number in numbers)


def least(rounds, *jobs):
    """Returns the least processor times of jobs, in seconds: in turns, so that what else the
    machine does is the same for all."""
    times = [[] for _ in jobs]
    for _ in range(rounds):
        for job, took in zip(jobs, times):
            start = time.process_time()
            job()
            took.append(time.process_time() - start)
    return [min(took) for took in times]


def drained(items):
    """Goes over all of them."""
    for _ in items:
        pass


def in_c(folder, old, new, rounds):
    """Returns the times of both calls in C, and what they write."""
    paths = [os.path.join(folder, name) for name in ("old", "new")]
    for path, data in zip(paths, (old, new)):
        with open(path, "wb") as file:
            file.write(bytes(data))
    program = os.path.join(folder, "calls")
    subprocess.run([os.environ.get("CC", "cc"), "-O2", "-o", program, "-I",
                    os.path.join(TOP, "bindings/c"), os.path.join(TOP, "bench/python_calls.c"),
                    os.path.join(TOP, f"prebuilt/{os.uname().machine}/librtr_wire.a")], check=True)
    done = subprocess.run([program, *paths, str(rounds)], check=True, stdout=subprocess.PIPE)
    return [[int(word) for word in line.split()] for line in done.stdout.splitlines()]


def main():
    parser = argparse.ArgumentParser(usage=__doc__.splitlines()[3][7:])
    parser.add_argument("--write", action="store_true")
    parser.add_argument("--units", type=int, default=100_000)
    parser.add_argument("--rounds", type=int, default=9)
    args = parser.parse_args()
    with tempfile.TemporaryDirectory() as folder:
        library = os.path.join(folder, "librtr_wire.so")
        subprocess.run([os.path.join(TOP, "bindings/package.py"), "--library", library], check=True)
        os.environ["RTR_WIRE_LIBRARY"] = library
        sys.dont_write_bytecode = True
        sys.path.insert(0, os.path.join(TOP, "bindings/python/src"))
        lines = list(measured(folder, args.units, args.rounds))
    said = f"Python: the least of {args.rounds} rounds over {args.units} prefixes."
    if args.write:
        write(MARKER, lines, RUN, said)
    else:
        print(*lines, "", said, sep="\n")


def measured(folder, count, rounds):
    """Yields the lines of the table."""
    from rtr_wire import Data, EndOfData, units

    table = prefixes(range(count))
    hand, ours = least(rounds, lambda: drained(by_hand(table)), lambda: drained(units(table)))
    step = max(count // 100, 1)
    changed = prefixes(number if number % 100 else number + 2**23 for number in range(count))
    old = Data.from_bytes(table + bytes(EndOfData(1, 1)))
    new = Data.from_bytes(changed + bytes(EndOfData(1, 2)))
    changes = old.delta(new)
    assert len(changes) == 2 * step and old.apply(changes) == new
    times = least(rounds, lambda: old.delta(new), lambda: old.apply(changes))
    calls = zip(("`Data.delta`", "`Data.apply`"), times, (len(bytes(changes)), len(bytes(new))))
    yield "| Job | Beside | Python | Other | Ratio |"
    yield "|---|---|---|---|---|"
    yield (f"| `units`, a unit | `struct` by hand | {ours / count * 1e9:.0f} ns "
           f"| {hand / count * 1e9:.0f} ns | {ours / hand:.2f} |")
    for (name, took, length), (other, written) in zip(calls, in_c(folder, old, new, rounds)):
        assert length == written
        yield (f"| {name} | C | {took * 1e3:.2f} ms | {other / 1e6:.2f} ms "
               f"| {took / other * 1e9:.2f} |")


if __name__ == "__main__":
    main()
