#!/usr/bin/env python3
"""Measures lookups of routes by `rtr_validate` and `rtr_validate_many`, and in rtrlib's table.

usage: bench/validate.py [--check | --write] [--rounds N]

Prints a table: for made-up lists of VRPs how long our tables and rtrlib's take to make, and how
long a lookup takes by each, as the median of N rounds, 7 by default, over a million routes, a third
of each state; and a table of the same routes in the order of their addresses. All runs are of one
program, routes.c, over the archive of .ci/built.py. The exit status is 1 if a result differs from
rtrlib's, or one of `rtr_validate_many` from those of `rtr_validate`.

--write renews the tables of docs/SPEED.md. With --check only the results for a short list are
compared. If rtrlib (librtr-dev) isn't installed, its columns are left out, with a loud message.
"""
import argparse
import os
import shutil
import subprocess
import sys
import tempfile

TOP = os.path.realpath(os.path.join(os.path.dirname(os.path.abspath(__file__)), ".."))
sys.path.insert(0, os.path.join(TOP, ".ci"))

import built  # noqa: E402  (it lies in another folder)
from speed_page import write

MARKER, IN_ORDER = "<!-- measured: validate -->", "<!-- measured: validate_many -->"

# How many VRPs the lists have, how many routes are looked up, and the same for --check.
LISTS, ROUTES = [1_000, 500_000, 1_000_000], 1_000_000
CHECKED, CHECKED_ROUTES = 20_000, 60_000

HEAD = ["| VRPs | Tables, ms | rtrlib's, ms | IPv4, ns | rtrlib, ns | IPv6, ns | rtrlib, ns "
        "| both, ns | rtrlib, ns | as a share |", "|" + "---|" * 10]
HEAD_IN_ORDER = ["| VRPs | IPv4, ns | many, ns | rtrlib, ns | IPv6, ns | many, ns | rtrlib, ns |",
                 "|" + "---|" * 7]


def warn(text):
    """Warns of what is left out."""
    print(f"!!! bench/validate.py: {text}", file=sys.stderr)




def compiler():
    """Returns a C compiler of the machine that finds rtrlib's header."""
    return next((name for name in ("gcc", "clang") if shutil.which(name)), None)


def has_rtrlib(by):
    """Reports whether a program can be compiled with rtrlib."""
    result = subprocess.run([by, "-x", "c", "-", "-o", "/dev/null", "-lrtr"], capture_output=True,
                            input=b"#include <rtrlib/rtrlib.h>\nint main(void) { return 0; }\n")
    return result.returncode == 0


def has_call(archive):
    """Reports whether the archive has the calls: a prebuilt one may be older than it."""
    with open(archive, "rb") as file:
        return b"rtr_validate_many_nonnull" in file.read()


def compiled(by, folder, archive, theirs):
    """Returns the path of the program."""
    program = os.path.join(folder, "routes")
    flags = ["-DWITH_RTRLIB"] if theirs else []
    subprocess.run([by, "-std=c11", "-D_POSIX_C_SOURCE=200809L", "-Wall", "-Wextra", "-O2", *flags,
                    "-I", os.path.join(TOP, "bindings", "c"), "-o", program,
                    os.path.join(TOP, "bench", "routes.c"), archive,
                    *(["-lrtr"] if theirs else [])], check=True)
    return program


def measured(program, vrps, routes, rounds):
    """Returns the numbers that a run prints."""
    result = subprocess.run([program, str(vrps), str(routes), str(rounds)], capture_output=True,
                            text=True)
    if result.returncode not in (0, 1) or not result.stdout:
        sys.exit(f"bench/validate.py: {result.stderr or result.returncode}")
    return [float(number) for number in result.stdout.split()]


def row(numbers, theirs):
    """Returns the line of the table for a run."""
    many, _, making, building, ours4, ours6, ours, their4, their6, their, *_ = numbers
    of_theirs = [f"{building:.0f}", f"{their4:.0f}", f"{their6:.0f}", f"{their:.0f}",
                 f"{ours / their:.2f}"] if theirs else ["-"] * 5
    return (f"| {many:,.0f} | {making:.3f} | {of_theirs[0]} | {ours4:.0f} | {of_theirs[1]} | "
            f"{ours6:.0f} | {of_theirs[2]} | {ours:.0f} | {of_theirs[3]} | {of_theirs[4]} |")


def row_in_order(numbers, theirs):
    """Returns the line of the table of routes in order for a run."""
    columns = [f"{number:.0f}" for number in numbers[10:16]]
    if not theirs:
        columns[2] = columns[5] = "-"
    return f"| {numbers[0]:,.0f} | " + " | ".join(columns) + " |"


def main():
    parser = argparse.ArgumentParser()
    parser.add_argument("--check", action="store_true")
    parser.add_argument("--write", action="store_true")
    parser.add_argument("--rounds", type=int, default=7)
    asked = parser.parse_args()
    by = compiler()
    if by is None:
        warn("neither gcc nor clang is here: nothing is measured")
        return 0 if asked.check else 1
    archive = built.program("rtr_c")
    if not has_call(archive):
        warn("the prebuilt archive is older than rtr_validate_many: nothing is measured")
        return 0 if asked.check else 1
    theirs = has_rtrlib(by)
    if not theirs:
        warn("no rtrlib here (librtr-dev): nothing is compared with it")
        if asked.check or asked.write:
            return 0 if asked.check else 1
    lists = [(CHECKED, CHECKED_ROUTES)] if asked.check else [(many, ROUTES) for many in LISTS]
    with tempfile.TemporaryDirectory() as folder:
        program = compiled(by, folder, archive, theirs)
        runs = [measured(program, *sizes, 1 if asked.check else asked.rounds) for sizes in lists]
    wrong = 0
    for many, *_, not_found, valid, invalid, differ in runs:
        print(f"{many:.0f} VRPs: {not_found:.0f} routes not found, {valid:.0f} valid, "
              f"{invalid:.0f} invalid; {differ:.0f} answers differ")
        wrong += differ
    if not asked.check:
        for marker, lines in (
                (MARKER, HEAD + [row(numbers, theirs) for numbers in runs]),
                (IN_ORDER, HEAD_IN_ORDER + [row_in_order(numbers, theirs) for numbers in runs])):
            if asked.write:
                write(marker, lines)
            print(*lines, sep="\n")
    return 1 if wrong else 0


if __name__ == "__main__":
    sys.exit(main())
