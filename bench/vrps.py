#!/usr/bin/env python3
"""Measures `rtr_make --csv` against the kit's `csv` and `Data` with the same list of VRPs.

usage: bench/vrps.py [--check | --write] [--runs N]

Prints a table: instructions a VRP by callgrind, as the difference of a list of 20,000 VRPs and an
empty one, divided by its length; and for a million VRPs the median of the processor time of N runs,
5 by default. generate_vrps.py makes the lists. Instructions are the same in each run; times are
not.

`rows` reads the rows, `origins` also makes an origin of each, and `data` also announces it: runs of
bench_data, which `rt run < stdin` in its folder builds. `Data` alone is what `data` takes more
than `origins`. `rtr_make`, the program of .ci/built.py, also keeps the list, and writes units.

--write renews the table of docs/SPEED.md. With --check instructions are counted and the table is
compared: a number may differ by 3 in a hundred. The exit status is 1 if a number differs more, or
if rtr_make takes more than 1.6 times the instructions of `data`.
"""
import os
import re
import resource
import statistics
import subprocess
import sys
import tempfile

import count
from speed_page import lines_of_page, table_at, write

MARKER = "<!-- measured: vrps -->"
ROW = re.compile(r"\| (.*?) \| ([\d.]+) \| [\d.]+ \|$")

# The lengths of the lists that are counted and timed.
COUNTED, TIMED = 20_000, 1_000_000

# How many times the kit's instructions rtr_make may take, and by how much a number of the page may
# differ.
MOST, SHARE = 1.6, 0.03

BENCH = "bench_data"
GOALS = ["rows", "origins", "data"]

# The row whose number may be MOST at most.
SHARE_ROW = "as a share of both together"




def warn(text):
    """Warns of what is left out."""
    print(f"!!! bench/vrps.py: {text}", file=sys.stderr)


def commands():
    """Returns the names of what is measured, with the commands."""
    bench = count.built.program(BENCH)
    return {goal: [bench, goal] for goal in GOALS} | {
        "rtr_make": [count.built.program("rtr_make"), "--csv"]}


def make_list(folder, length):
    """Writes a list of `length` VRPs, and returns its path."""
    path = os.path.join(folder, str(length))
    with open(path, "wb") as file:
        subprocess.run([count.source("generate_vrps.py"), "--vrps", str(length)], stdout=file,
                       check=True)
    return path


def counted(folder):
    """Returns instructions a VRP of each command."""
    full, empty = make_list(folder, COUNTED), make_list(folder, 0)
    return {name: (count.callgrind(command, full) - count.callgrind(command, empty)) / COUNTED
            for name, command in commands().items()}


def seconds(command, path):
    """Returns the processor time of a run."""
    before = resource.getrusage(resource.RUSAGE_CHILDREN)
    with open(path, "rb") as file:
        subprocess.run(command, stdin=file, stdout=subprocess.DEVNULL, check=True)
    after = resource.getrusage(resource.RUSAGE_CHILDREN)
    return after.ru_utime - before.ru_utime + after.ru_stime - before.ru_stime


def timed(folder, runs):
    """Returns the median time of each command, of runs that take turns."""
    path = make_list(folder, TIMED)
    found = {name: [] for name in commands()}
    for _ in range(runs):
        for name, command in commands().items():
            found[name].append(seconds(command, path))
    return {name: statistics.median(times) for name, times in found.items()}


def rows(found):
    """Returns the numbers of the table, by the names of its rows."""
    rows_alone = found["rows"]
    data_alone = found["data"] - found["origins"]
    return {
        "`csv` alone, which reads the rows": rows_alone,
        "`Data` alone, to which origins are announced": data_alone,
        "`csv` and `Data` together, with the origins made of the rows": found["data"],
        "`rtr_make --csv`": found["rtr_make"],
        SHARE_ROW: found["rtr_make"] / found["data"],
        "as a share of the sum of each alone": found["rtr_make"] / (rows_alone + data_alone),
    }


def table(instructions, times):
    """Returns the lines of the table."""
    head = ["| What | Instructions a VRP | Seconds for a million |", "|---|---|---|"]
    return head + [f"| {name} | {number:.{0 if number > 10 else 2}f} | {times[name]:.2f} |"
                   for name, number in instructions.items()]


def check(instructions):
    """Compares the page; returns how many numbers are wrong."""
    lines = lines_of_page()
    begin, end = table_at(lines, MARKER)
    said = dict(found.groups() for found in map(ROW.match, lines[begin:end]) if found)
    wrong = 0
    for name, number in instructions.items():
        if abs(float(said.get(name, "0")) - number) > max(SHARE * number, 0.01):
            print(f"docs/SPEED.md: {name}: {said.get(name)}, counted {number:.2f}")
            wrong += 1
    if instructions[SHARE_ROW] > MOST:
        print(f"rtr_make takes {instructions[SHARE_ROW]:.2f} times what csv and Data take, which "
              f"is more than {MOST}")
        wrong += 1
    print(f"{len(instructions)} rows of instructions a VRP compared, {wrong} wrong")
    return wrong


def main():
    asked = count.options("--runs", 5)
    if not count.can_count(warn, "valgrind"):
        return 0 if asked.check else 1
    if not count.built.fresh(BENCH):
        warn(f"{BENCH} isn't built: nothing is counted")
        return 0 if asked.check else 1
    used = count.tools([])
    if asked.check and not count.same_tools(used):
        warn(f"docs/SPEED.md wasn't counted with {', '.join(used)}: nothing is compared")
        return 0
    with tempfile.TemporaryDirectory() as folder:
        instructions = rows(counted(folder))
        if asked.check:
            return 1 if check(instructions) else 0
        lines = table(instructions, rows(timed(folder, asked.runs)))
    if asked.write:
        write(MARKER, lines)
    print(*lines, sep="\n")
    return 0


if __name__ == "__main__":
    sys.exit(main())
