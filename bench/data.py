#!/usr/bin/env python3
"""Counts the instructions of calls on data and deltas, beside the last release.

usage: bench/data.py [--check | --write] [--release VERSION] [--jobs N]

Prints two tables. generate_data.py makes old and new data for them, of which one origin in a
thousand differs.

The first has the calls `rtr_delta` and `rtr_apply` over data in canonical form: instructions a unit
of both inputs by callgrind, as the difference of two lengths of input, in cells
`now / released = ratio` as in the second table of bench/count.py; and the same as passes of
`rtr_normalise_slice` over both inputs.

The second, which is only printed, has the ways to apply changes in no order to data: `rtr_order`
and then `rtr_apply`, and `rtr_apply_in_order`, for a delta and for an answer that has all of the
new data.

--write renews the first table in docs/SPEED.md. With --check it is compared: a number may differ by
3 in a hundred. --release writes what the calls take into bench/released.txt first.
"""
import os
import re
import subprocess
import sys
import tempfile
from concurrent.futures import ThreadPoolExecutor

import count
import released
from speed_page import lines_of_page, table_at, write

MARKER = "<!-- measured: data calls -->"

# How many units the data have.
COUNTED = 10_000

# By how much a number of passes on the page may differ, as a share or as a number.
SHARE, LEAST = 0.03, 0.02

# The columns of the first table.
KINDS = {"IPv4": "ipv4=1", "IPv6": "ipv6=1", "both": "ipv4=3,ipv6=1"}

# The calls of the first table, each with the job whose passes its second row counts.
CALLS = {"rtr_delta": "normalise_both", "rtr_apply": "normalise_changes"}
PASSES = "as passes of `rtr_normalise_slice`"

# The rows of the second table: the name and the job.
ORDER_ROWS = [
    ("a delta by `rtr_order` and `rtr_apply`", "order_apply"),
    ("by `rtr_apply_in_order`", "in_order"),
    ("all data by `rtr_order` and `rtr_apply`", "order_apply_all"),
    ("by `rtr_apply_in_order`", "in_order_all"),
]


def warn(text):
    """Warns of what is left out."""
    print(f"!!! bench/data.py: {text}", file=sys.stderr)


def compiled(folder):
    """Returns the path of data_calls, compiled."""
    program = os.path.join(folder, "data_calls")
    files = [count.source("data_calls.c"), count.built.needed("rtr_c")[0]]
    if subprocess.run(["gcc", *count.FLAGS, "-o", program, *files]).returncode != 0:
        sys.exit("bench/data.py: data_calls.c FAILED to compile: is the archive that of rtr.h?")
    return program


def make_data(folder, name, *words):
    """Returns the path of an old and a new data."""
    path = os.path.join(folder, name)
    with open(path, "wb") as file:
        subprocess.run([count.source("generate_data.py"), *words], stdout=file, check=True)
    return path


def of_kind(folder, program, kind):
    """Returns instructions that each job of data_calls takes over origins of this kind."""
    files = [make_data(folder, f"{kind}.{length}", "--units", str(length), "--mix", KINDS[kind])
             for length in (0, COUNTED)]
    dump = os.path.join(folder, f"{kind}.dump")
    count.callgrind([program, *files], dump=dump)
    with open(dump, encoding="ascii") as file:
        taken = re.findall(r"Client Request: (.*) \S+\.(\d+)\n(?:.*\n)*?summary: (\d+)",
                           file.read())
    taken = {(job, int(length)): int(number) for job, length, number in taken}
    return {job: taken[job, COUNTED] - taken[job, 0] for job, _ in taken}


def units_of(job):
    """Returns how many units both inputs of a job have."""
    if job.endswith("_all"):
        return COUNTED
    return 2 * COUNTED if "delta" in job else COUNTED + 2 * (COUNTED // 1000)


def of_calls(folder, program, pool):
    """Returns instructions a unit by job and kind, the passes of each call, and the rows of the
    second table: the name, and a number for each kind."""
    runs = {kind: pool.submit(of_kind, folder, program, kind) for kind in KINDS}
    taken = {kind: run.result() for kind, run in runs.items()}
    counted = {(job, kind): taken[kind][job] / units_of(job) for job in CALLS for kind in KINDS}
    passes = {job: [taken[kind][job] / taken[kind][by] for kind in KINDS]
              for job, by in CALLS.items()}
    return counted, passes, [(row, [taken[kind][job] / units_of(job) for kind in KINDS])
                             for row, job in ORDER_ROWS]


def plain_row(name, numbers):
    """Returns a row without the last release."""
    cells = (f"{value:.{0 if value >= 30 else 2}f}" for value in numbers)
    return f"| {name} | " + " | ".join(cells) + " |"


def calls_table(counted, passes):
    """Returns the lines of the first table."""
    lines = released.head("Instructions a unit of both inputs", KINDS)
    for job in CALLS:
        lines += [released.row(job, KINDS, counted), plain_row(PASSES, passes[job])]
    return lines


def is_near(shown, exact):
    """Reports whether a number of passes on the page is near enough."""
    return re.fullmatch(r"[\d.]+", shown) and abs(float(shown) - exact) <= max(LEAST, SHARE * exact)


def faults(counted, passes):
    """Yields what is wrong with the page."""
    lines = lines_of_page()
    head, *rows = lines[slice(*table_at(lines, MARKER))]
    expected = calls_table(counted, passes)
    if head != expected[0] or len(rows) != len(expected) - 1:
        yield "docs/SPEED.md: the table of the calls has another head, or other rows"
        return
    for place, job in enumerate(CALLS):
        call, passed = rows[1 + 2 * place:3 + 2 * place]
        yield from released.faults_of_row(call, job, KINDS, counted)
        name, *cells = (text.strip() for text in passed.strip("|").split("|"))
        if (name, len(cells)) != (PASSES, len(KINDS)) or not all(map(is_near, cells, passes[job])):
            yield f"docs/SPEED.md: `{passed}`, counted `{plain_row(PASSES, passes[job])}`"


def main():
    asked = count.options("--jobs", os.cpu_count(), releases=True)
    if not count.can_count(warn, "valgrind", "gcc"):
        return 0 if asked.check else 1
    used = count.tools(["gcc"])
    if asked.check and not count.same_tools(used):
        warn(f"docs/SPEED.md wasn't counted with {', '.join(used)}: nothing is compared")
        return 0
    with tempfile.TemporaryDirectory() as folder, ThreadPoolExecutor(asked.jobs) as pool:
        counted, passes, orders = of_calls(folder, compiled(folder), pool)
    if asked.release:
        released.write(asked.release, counted)
    if asked.check:
        wrong = list(faults(counted, passes))
        print(*wrong, f"{2 * len(CALLS)} rows of data compared, {len(wrong)} wrong", sep="\n")
        return 1 if wrong else 0
    table = calls_table(counted, passes)
    if asked.write:
        write(MARKER, table)
    print(*table, "", *(plain_row(*row) for row in orders), sep="\n")
    return 0


if __name__ == "__main__":
    sys.exit(main())
