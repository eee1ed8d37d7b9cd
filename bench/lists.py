#!/usr/bin/env python3
"""Counts the instructions a unit of `rtr_list --csv`, `--vrps` and `--summary` and of `rtr_diff`,
beside the last release.

usage: bench/lists.py [--check | --write] [--release VERSION] [--jobs N]

Prints a table as the second of bench/count.py: a cell says `now / released = ratio`, with
instructions a unit by callgrind, as the difference of an input of 2000 units and one of none. Units
are announcements of version 2, in no order. rtr_diff reads two such recordings, of which one unit
in ten differs; its numbers are for a unit of both. The programs are those of .ci/built.py.

With --check the table of docs/SPEED.md is compared, --write renews it, and --release writes what
was counted into bench/released.txt first, all as in bench/count.py.
"""
import os
import struct
import subprocess
import sys
import tempfile
from concurrent.futures import ThreadPoolExecutor

import count
import released
from speed_page import write

MARKER = "<!-- counted: lists -->"

JOBS = ["rtr_list --csv", "rtr_list --vrps", "rtr_list --summary", "rtr_diff"]

# The two recordings of rtr_diff differ in one unit of this many.
DIFFERS = 10

KINDS = count.KINDS


def warn(text):
    """Warns of what is left out."""
    print(f"!!! bench/lists.py: {text}", file=sys.stderr)


def units_of(content):
    """Returns the units of a recording, without its end of data, and that."""
    units, at = [], 0
    while at < len(content):
        size = struct.unpack_from(">I", content, at + 4)[0]
        units.append(content[at:at + size])
        at += size
    return units[:-1], units[-1]


def make_samples(folder):
    """Makes the inputs: for each kind and length the paths of an old and a new recording."""
    found = {}
    for kind, mix in KINDS.items():
        for length in count.LENGTHS:
            contents = [subprocess.run([count.source("generate.py"), "--units", str(length),
                                        "--mix", mix, "--clean", "--seed", seed],
                                       stdout=subprocess.PIPE, check=True).stdout
                        for seed in ("1", "2")]
            (old, end), (other, _) = map(units_of, contents)
            new = [other[place] if place % DIFFERS == 0 else unit for place, unit in enumerate(old)]
            paths = [os.path.join(folder, f"{kind}.{length}.{which}") for which in ("old", "new")]
            for path, units in zip(paths, (old, new)):
                with open(path, "wb") as file:
                    file.write(b"".join(units) + end)
            found[kind, length] = paths
    return found


def command_of(job, paths):
    """Returns the command of a job, and its standard input."""
    name, *words = job.split()
    program = [count.built.program(name), *words]
    return (program + paths, os.devnull) if name == "rtr_diff" else (program, paths[0])


def count_all(folder, pool):
    """Returns instructions a unit by job and kind."""
    samples = make_samples(folder)
    runs = {(job, kind, length): pool.submit(count.callgrind, *command_of(job, paths))
            for job in JOBS for (kind, length), paths in samples.items()}
    return {(job, kind): count.a_unit([runs[job, kind, length].result()
                                       for length in count.LENGTHS])
            / (2 if job == "rtr_diff" else 1) for job in JOBS for kind in KINDS}


def main():
    asked = count.options("--jobs", os.cpu_count(), releases=True)
    if not count.can_count(warn, "valgrind"):
        return 0 if asked.check else 1
    used = count.tools([])
    if asked.check and not count.same_tools(used):
        warn(f"docs/SPEED.md wasn't counted with {', '.join(used)}: nothing is compared")
        return 0
    with tempfile.TemporaryDirectory() as folder, ThreadPoolExecutor(asked.jobs) as pool:
        counted = count_all(folder, pool)
    if asked.release:
        released.write(asked.release, counted)
    if asked.check:
        wrong = list(released.faults(MARKER, KINDS, counted))
        print(*wrong, f"{len(JOBS)} rows of lists compared, {len(wrong)} wrong", sep="\n")
        return 1 if wrong else 0
    print(*released.table(KINDS, counted), sep="\n")
    if asked.write:
        write(MARKER, released.table(KINDS, counted))
    return 0


if __name__ == "__main__":
    sys.exit(main())
