#!/usr/bin/env python3
"""Runs the programs with each read of standard input and each write of standard output made to
fail in turn, and compares the output, standard error and status of each run.

A preloaded library (`fail.c`) moves one byte per call. So a call fails at each position of the
input and of the output, and the output shows that no read or write is missing. Other runs record
the size of each write: they show when buffered bytes are written. The programs are those of
`built.py`. Prints nothing if all is well.
"""
import os
import subprocess
import sys
import tempfile
from concurrent.futures import ThreadPoolExecutor

TOP = os.path.realpath(os.path.join(os.path.dirname(os.path.abspath(__file__)), "..", ".."))
sys.path.insert(0, os.path.join(TOP, ".ci"))

import built  # noqa: E402  (it lies in another folder)

# The time limit of a run in seconds.
SECONDS = 60

# Units as they come, and their forms.
UNITS = built.script("tests/programs/cleans.py")
NOTIFY, QUERY, RESPONSE, REPORT = UNITS.NOTIFY, UNITS.QUERY, UNITS.RESPONSE, UNITS.REPORT
ASKS_STRAY, ASKS, RESET_STRAY = UNITS.ASKS_STRAY, UNITS.ASKS, UNITS.RESET_STRAY
IPV4_STRAY, IPV4, IPV6_STRAY, IPV6 = UNITS.IPV4_STRAY, UNITS.IPV4, UNITS.IPV6_STRAY, UNITS.IPV6
KEY, GONE_STRAY, GONE = UNITS.KEY, UNITS.GONE_STRAY, UNITS.GONE
END, END_IN_0 = UNITS.END_1, UNITS.END_0
UNKNOWN_TYPE, NONE = UNITS.UNKNOWN_TYPE, UNITS.NONE

FOR_0 = ["--version", "0"]
WRONG = ["--version", "3"]

PAYLOAD = [(IPV4_STRAY, IPV4), (IPV6_STRAY, IPV6), (KEY, KEY), (GONE_STRAY, GONE)]
IN_0 = [(given, b"\x00" + form[1:] if form in (IPV4, IPV6) else NONE) for given, form in PAYLOAD]
ANSWER = [(RESPONSE, RESPONSE), *PAYLOAD, (END, END)]

# Successful runs: the program, its arguments, its units, each as it comes and as it is written, and
# how many reads follow them. `rtr_normalise` reads none after an end of data; `rtr_clean` reads
# once more, and finds the end.
WELL = [
    ("rtr_normalise", [], [*PAYLOAD, (END, END)], 0),
    ("rtr_normalise", FOR_0, [*IN_0, (END, END_IN_0)], 0),
    ("rtr_clean", [], [(NOTIFY, NOTIFY), (ASKS_STRAY, ASKS), *ANSWER, (REPORT, REPORT)], 1),
    ("rtr_clean", FOR_0, [(RESPONSE, RESPONSE), *IN_0, (END, END_IN_0)], 1),
]

# Refused runs: the program, its arguments, what it reads and writes before, what it refuses, and
# its message. A flush that fails then changes neither status nor message.
REFUSED = [
    ("rtr_normalise", [], IPV4_STRAY, IPV4, REPORT, "unit type 10 is not allowed here"),
    ("rtr_normalise", FOR_0, KEY, NONE, NONE, "unexpected end of input"),
    ("rtr_clean", [], IPV4_STRAY, IPV4, UNKNOWN_TYPE,
     "rtr_clean: offset 20: unit type 12 is not allowed here"),
]

# Writes with no fault: the program, its arguments, its input and the size of each write. A flush
# after a unit that doesn't end an answer would make two writes of one.
WRITES = [
    ("rtr_normalise", [], IPV4_STRAY + KEY + END, [80]),
    ("rtr_normalise", [], IPV4_STRAY + KEY + REPORT, [56]),
    ("rtr_normalise", [], REPORT, []),
    ("rtr_normalise", WRONG, END, []),
    ("rtr_clean", [], NONE, []),
    ("rtr_clean", [], RESPONSE + IPV4_STRAY + END, [52]),
    ("rtr_clean", [], RESPONSE + IPV4_STRAY + IPV6_STRAY + KEY + GONE_STRAY + END, [132]),
    ("rtr_clean", [], RESPONSE + IPV4_STRAY + END + RESPONSE + KEY + END, [52, 68]),
    ("rtr_clean", [], NOTIFY + QUERY + ASKS_STRAY, [12, 12, 8]),
    ("rtr_clean", [], RESET_STRAY + REPORT + GONE_STRAY, [8, 18, 12]),
    ("rtr_clean", [], RESPONSE + IPV4_STRAY, [28]),
    ("rtr_clean", [], NOTIFY + RESPONSE + UNKNOWN_TYPE, [12, 8]),
    ("rtr_clean", FOR_0, RESPONSE + IPV4_STRAY + KEY + END, [40]),
    ("rtr_clean", WRONG, NOTIFY, []),
]

# The system's reason, after the name of the program.
REASON = "Input/output error (os error 5)"


def failed(program, what):
    """Returns the message of a program whose reads, or writes, fail."""
    if program == "rtr_normalise":
        return f"{what} failed\n"
    return f"{program}: {what} failed: {REASON}\n"


# What the other programs read: data, for `rtr_make` a list of VRPs; in the file NEW no payload.
DATA = RESPONSE + IPV4_STRAY + KEY + END
LIST = (b"ASN,IP Prefix,Max Length,Trust Anchor\n"
        b"AS65551,192.0.2.0/23,26,x\nAS65551,2001:db8::/32,48,x\n")
NEW = "new"

# Runs of the other programs: the program, its arguments, how many reads follow the input, and
# whether it writes as it reads, so that after a failed read it has written the output for the input
# up to there. The others write nothing before they have read everything.
OTHERS = [
    ("rtr_list", [], 1, True),
    ("rtr_list", ["--json"], 1, True),
    ("rtr_list", ["--check"], 1, True),
    ("rtr_list", ["--summary"], 1, True),
    ("rtr_list", ["--csv"], 1, False),
    ("rtr_list", ["--vrps"], 1, False),
    ("rtr_make", ["--csv"], 1, False),
    ("rtr_diff", ["-", NEW], 1, False),
    ("rtr_diff", ["--units", "-", NEW], 1, False),
    ("rtr_validate", ["-", "192.0.2.0/24", "AS65551"], 1, False),
    ("rtr_validate", ["--json", "-", "192.0.2.0/24", "AS65551"], 1, False),
]


def run(shim, program, arguments, given, **settings):
    """Returns the output, standard error and status of the program, and the sizes of its writes."""
    reading, writing = os.pipe()
    names = {name: str(number) for name, number in settings.items()}
    names |= {"LD_PRELOAD": shim, "SEEN": str(writing)}
    try:
        ran = subprocess.run([program, *arguments], input=given, capture_output=True, env=names,
                             cwd=os.path.dirname(shim), pass_fds=[writing], timeout=SECONDS)
    finally:
        os.close(writing)
    with os.fdopen(reading, "rb") as pipe:
        seen = pipe.read()
    sizes = [int.from_bytes(seen[at:at + 4], "little") for at in range(0, len(seen), 4)]
    return ran.stdout, ran.stderr.decode(), ran.returncode, sizes


def well_rows():
    """Yields a row for each read and write of the successful runs, and for one too many."""
    for program, arguments, units, reads_after in WELL:
        given, form = (b"".join(each) for each in zip(*units))
        reads = len(given) + reads_after
        for count in range(1, reads + 2):
            taken, written = 0, NONE
            for unit, its_form in units:
                taken += len(unit)
                written += its_form if taken < count else NONE
            ends = ("", 0) if count > reads else (failed(program, "read"), 3)
            yield program, arguments, given, {"READING": count}, (written, *ends)
        for count in range(1, len(form) + 2):
            ends = ("", 0) if count > len(form) else (failed(program, "write"), 3)
            yield program, arguments, given, {"WRITING": count}, (form[:count - 1], *ends)


def rows():
    """Yields all runs with a fault: the program, its arguments, its input, the fault, and the
    result."""
    yield from well_rows()
    for program, arguments, taken, form, refused, line in REFUSED:
        for count in range(1, len(form) + 2):
            came = form[:count - 1], line + "\n", 1
            yield program, arguments, taken + refused, {"WRITING": count}, came
    for program, line in (("rtr_normalise", "usage: rtr_normalise [--version 0|1|2]"),
                          ("rtr_clean", "rtr_clean: --version: \"3\" isn't 0, 1 or 2")):
        came = NONE, line + "\n", 2
        yield program, WRONG, END, {"READING": 1, "WRITING": 1}, came


def problem(shim, program, row):
    """Returns how a run with a fault differs from its row."""
    _, arguments, given, fault, expected = row
    *came, _ = run(shim, program, arguments, given, MOST=1, **fault)
    if tuple(came) != expected:
        return f"{program} {arguments} {given.hex(' ')} {fault}: {came}, not {expected}"
    return None


def sizes_problem(shim, program, row):
    """Returns the differences in the sizes of the writes."""
    _, arguments, given, expected = row
    *_, sizes = run(shim, program, arguments, given)
    if sizes != expected:
        return f"{program} {arguments} {given.hex(' ')}: writes of {sizes} bytes, not {expected}"
    return None


def first_line(line):
    """Returns standard error without the last line of `rtr_list --check`."""
    return line.split("rtr_list: looked at")[0]


def fails(line, what):
    """Reports whether the line says that a read, or a write, failed, with or without the system's
    reason."""
    return first_line(line).endswith((f"{what} failed: {REASON}\n", f"{what} failed\n"))


def without_end(output):
    """Returns lines without the findings of `rtr_list --check` at the end of the input, and of a
    summary without its completeness."""
    return b"".join(line for line in output.splitlines(True)
                    if not line.endswith(b" without an end of data\n")
                    and not line.startswith(b"complete:"))


def other_problem(shim, program, row):
    """Returns how a run of another program with a fault differs from one without."""
    name, arguments, reads_after, writes_as_it_reads = row
    given = LIST if name == "rtr_make" else DATA
    status = 3
    whole, *well, _ = run(shim, program, arguments, given)
    for count in range(1, len(given) + reads_after + 1):
        before = NONE
        if writes_as_it_reads:
            before = without_end(run(shim, program, arguments, given[:count - 1])[0])
        output, line, ended, _ = run(shim, program, arguments, given, MOST=1, READING=count)
        found = without_end(output) if writes_as_it_reads else output
        if (found, ended) != (before, status) or not fails(line, "read"):
            return f"{program} {arguments}, read {count}: {output}, {line}, {ended}"
    for count in range(1, len(whole) + 2):
        output, line, ended, _ = run(shim, program, arguments, given, MOST=1, WRITING=count)
        is_well = [line, ended] == well
        if count <= len(whole):
            is_well = ended == status and fails(line, "write")
        if output != whole[:count - 1] or not is_well:
            return f"{program} {arguments}, write {count}: {output}, {line}, {ended}"
    return None if whole else f"{program} {arguments} writes nothing"


def main():
    names = ("rtr_normalise", "rtr_clean", *dict.fromkeys(name for name, *_ in OTHERS))
    programs = {name: built.needed(name) for name in names}
    with tempfile.TemporaryDirectory() as folder, ThreadPoolExecutor(os.cpu_count()) as pool:
        shim = os.path.join(folder, "fail.so")
        built.compile_library("tests/programs/fail.c", shim)
        with open(os.path.join(folder, NEW), "wb") as file:
            file.write(END)
        tasks = [pool.submit(check, shim, program, row)
                 for check, table in ((other_problem, OTHERS), (problem, rows()),
                                      (sizes_problem, WRITES))
                 for row in table for program in programs[row[0]]]
        problems = [text for text in (task.result() for task in tasks) if text]
    for text in problems:
        print(f"faults: {text}")
    if problems or not tasks:
        sys.exit("faults: FAILED")


if __name__ == "__main__":
    main()
