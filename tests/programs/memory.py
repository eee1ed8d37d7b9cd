#!/usr/bin/env python3
"""Checks that memory is freed: runs use a fixed amount of memory, however many units they read.

A million units of each kind, and more than a thousand of 65535 bytes, go through

- `rtr_normalise`;
- the three listings of `rtr_list`;
- its summary, which keeps a line of each answer: the million has no end of data;
- `rtr_clean`;
- the two tables of `rtr_list`, and `rtr_diff`, whose data doesn't grow, as each is withdrawn again;
- as lines of routes, `rtr_validate`, whose file has one VRP;
- as keys, ASPAs, prefixes and refused prefixes, calls of `same_meaning` that `test_rows` makes, and
  as all kinds, calls of `apply`.

Each run has ROOM of address space. A run that kept 32 bytes of each unit, the least that malloc
allocates, would need more, and fail with a message.

The programs are those of `built.py`. Prints nothing if all is well.
"""
import os
import struct
import subprocess
import sys
import tempfile
import threading
from concurrent.futures import ThreadPoolExecutor

TOP = os.path.realpath(os.path.join(os.path.dirname(os.path.abspath(__file__)), "..", ".."))
sys.path.insert(0, os.path.join(TOP, ".ci"))

import built  # noqa: E402  (it lies in another folder)
import samples  # noqa: E402
from samples import withdrawn  # noqa: E402

# The address space of a run, in KiB: that of the program and its libraries, and some more.
ROOM = 24 * 1024

# The time limit of a run in seconds.
SECONDS = 120

MANY = 1_000_000
FEW = 1_000

IPV4 = samples.unit("IPv4 prefix")
IPV4_LONG = samples.unit("prefix length above that of an address")
IPV6 = samples.unit("announced IPv6 prefix")
KEY = samples.unit("router key of four bytes")
ASPA = samples.unit("ASPA of large numbers", version=1)
ASPA_GONE = samples.unit("withdrawn ASPA of a large number", version=1)
END_0 = samples.unit("end of data of version 0")
END = samples.unit("end of data")

# Units that are no payload.
OTHERS = [samples.unit(name, version=1) for name in (
    "serial notify", "serial query", "reset query", "cache reset", "report without a unit",
    "cache response")]

# The longest key, ASPA and report. The report has a unit and a text.
LONG_KEY = bytes.fromhex("01 09 01 00 00 00 ff ff") + KEY[8:32] + bytes(65503)
LONG_ASPA = bytes.fromhex("01 0b 01 00 00 00 ff fc 00 01 00 0f") + struct.pack(
    ">16380I", *range(16380)
)
LONG_REPORT = bytes.fromhex("01 0a 00 03 00 00 ff ff 00 00 80 00") + bytes(32768) + (
    bytes.fromhex("00 00 7f ef") + b"~" * 32751
)


# Lines of `rtr_validate`, short ones and one of many spaces.
ROUTE = b"2001:db8::/32 AS65551\n"
LONG_ROUTE = b" " * 65536 + ROUTE


# Payload units, each followed by its withdrawal, so that none stays announced.
PAYLOADS = b"".join(unit + withdrawn(unit) for unit in (IPV4, IPV6, KEY)) + ASPA + ASPA_GONE
LONG_PAYLOADS = LONG_KEY + withdrawn(LONG_KEY) + LONG_ASPA + ASPA_GONE

# A sequence with each kind of unit, and one of long units. Each unit breaks one rule at most: a key
# or an ASPA in a version that lacks it, a report that isn't UTF-8.
OPEN_SESSION = b"".join(OTHERS) + PAYLOADS
SESSION = OPEN_SESSION + END
LONG_SESSION = LONG_PAYLOADS + LONG_REPORT + END

# The names of the rows, and the rows. Each side of a comparison has 500 units at most, or one long
# unit.
NAMES = {
    "A": ASPA,
    "B": IPV4_LONG,
    "E": END,
    "K": KEY,
    "P": IPV4,
    "Q": IPV6,
    "W": PAYLOADS,
}
ROWS = [
    (1000, "same_meaning by=whole to=whole K*500 E | K*500 E => true"),
    (1000, "same_meaning by=whole to=whole A*500 E | A*500 E => true"),
    (500, "same_meaning by=whole to=whole P*500 Q*500 E | P*500 Q*500 E => true"),
    (1000, "same_meaning by=whole to=whole K*500 | E => Short"),
    (1000, "same_meaning by=whole to=whole E | A*500 => Short"),
    (2000, "same_meaning by=whole to=whole 0109010000 00ffff ..65527 E | E => false"),
    (2000, "same_meaning by=whole to=whole E | 010b0100 0000fffc ..65524 E => false"),
    (1000, "apply by=whole to=whole | W*100 E => End 1 4660 3735928559 3600 600 7200 "
     f"{100 * len(PAYLOADS) + 24} Ok :"),
    (1000, "apply by=whole to=whole P Q K | W*100 E => 0 Duplicate 20 Ok : "
     + b"".join(b"\x02" + unit[1:] for unit in (IPV4, IPV6, KEY)).hex()),
    (250000, "same_meaning B | => Refused"),
    (250000, "same_meaning E | B => Refused"),
]


def block(unit):
    """Returns the unit repeated to about a million bytes, and how often."""
    times = max(1, 1_000_000 // len(unit))
    return unit * times, times


def feed(run, first, unit, count, last):
    """Gives the program the first bytes, the unit `count` times, and the last bytes."""
    try:
        piece, times = block(unit)
        run.stdin.write(first)
        for _ in range(count // times):
            run.stdin.write(piece)
        run.stdin.write(unit * (count % times) + last)
        run.stdin.close()
    except BrokenPipeError:
        pass


def problem(name, words, unit, count, last, status, first=b""):
    """Returns what is wrong with a run of the program over `count` units, or None."""
    command = ["sh", "-c", f'ulimit -v {ROOM}; exec "$0" "$@"', built.program(name), *words]
    pipes = {"stdin": subprocess.PIPE, "stdout": subprocess.DEVNULL, "stderr": subprocess.PIPE}
    with subprocess.Popen(command, **pipes) as run:
        hangs = threading.Timer(SECONDS, run.kill)
        hangs.start()
        feed(run, first, unit, count, last)
        errors = run.stderr.read().decode()
        got = run.wait()
        hangs.cancel()
    if words == ["--check"]:
        errors = errors[errors.startswith("rtr_list: looked at ") and len(errors):]
    if (got, errors) != (status, ""):
        return f"{name} {words} {count} times {unit[:8].hex(' ')}: status {got}, {errors}"
    return None


def row_problem(count, row):
    """Returns what is wrong with `count` calls of the row, or None."""
    names = "".join(f"{name} = {unit.hex()}\n" for name, unit in NAMES.items())
    line = f"{row}\n".encode()
    return problem("test_rows", [], line, count, b"", 0, names.encode())


def runs(alone, listed):
    """Yields the runs of the programs: their arguments, units and number of units, what comes last,
    and the status. The file `alone` has an end of data, `listed` also a VRP."""
    for words in ([], ["--version", "0"], ["--version", "1"], ["--version", "2"]):
        yield "rtr_normalise", words, PAYLOADS, MANY, END, 0
        yield "rtr_normalise", words, LONG_PAYLOADS, FEW, END, 0
    for words, status in (([], 0), (["--json"], 0), (["--check"], 1), (["--summary"], 0)):
        units = OPEN_SESSION if words == ["--summary"] else SESSION
        yield "rtr_list", words, units, MANY, END_0, status
        yield "rtr_list", words, LONG_SESSION, FEW, END_0, status
    for words in ([], ["--version", "0"], ["--version", "2"]):
        yield "rtr_clean", words, SESSION, MANY, END_0, 0
        yield "rtr_clean", words, LONG_SESSION, FEW, END_0, 0
    for words in (["--csv"], ["--vrps"]):
        yield "rtr_list", words, PAYLOADS, MANY, END, 0
        yield "rtr_list", words, LONG_PAYLOADS, FEW, END, 0
    for words in (["-", alone], [alone, "-"], ["--units", "-", alone]):
        yield "rtr_diff", words, PAYLOADS, MANY, END, 0
        yield "rtr_diff", words, LONG_PAYLOADS, FEW, END, 0
    for words in ([listed], ["--json", listed]):
        yield "rtr_validate", words, ROUTE, MANY, ROUTE, 0
        yield "rtr_validate", words, LONG_ROUTE, FEW, ROUTE, 0


def main():
    with tempfile.NamedTemporaryFile() as alone, tempfile.NamedTemporaryFile() as listed, \
            ThreadPoolExecutor(os.cpu_count()) as pool:
        for file, content in ((alone, END), (listed, IPV4 + END)):
            file.write(content)
            file.flush()
        problems = [pool.submit(problem, *run) for run in runs(alone.name, listed.name)]
        problems += [pool.submit(row_problem, *row) for row in ROWS]
    problems = [done.result() for done in problems if done.result()]
    for text in problems:
        print(f"memory: {text}")
    if problems:
        sys.exit("memory: FAILED")


if __name__ == "__main__":
    main()
