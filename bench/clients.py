#!/usr/bin/env python3
"""Measures what our clients take for a full table, beside rtrlib's, in one run.

usage: bench/clients.py [--check | --write] [--rounds N]

A small cache sends the same made-up table to each client, which exits after it: the examples of
bindings/ in C, Go and Rust, client.py, tokio_client.rs and client.mjs, and `rtrclient -e` of rtrlib
(rtr-tools): once in the order of payloads and once in no order. Each prints all of it to /dev/null.
Prints a table: the least processor time of N rounds, 5 by default, in each of which every client
runs once, and the median of the runs' peak memory; for clients that run in valgrind the
instructions a prefix, as the difference of a table of 20,000 and an empty one; and for ours the
least time of N runs from the query for 1,000 changes of the table to the last line about them. The
archive is that of .ci/built.py.

--write renews the table of docs/SPEED.md. With --check each of our clients has to print the small
table as it is computed here, and then the changes, and the instructions of clients that the page
has are compared: a number may differ by 3 in a hundred. What isn't installed is left out with a
loud message.
"""
import contextlib
import glob
import hashlib
import ipaddress
import os
import re
import shutil
import socket
import statistics
import struct
import subprocess
import sys
import tempfile
import threading
import time

TOP = os.path.realpath(os.path.join(os.path.dirname(os.path.abspath(__file__)), ".."))
sys.path.insert(0, os.path.join(TOP, "interop"))
# Behind the others, since it has other modules of these names.
sys.path.append(os.path.join(TOP, "tests", "faults"))

import count
import processes  # noqa: E402  (it lies in another folder)
from cache import SECONDS, Table, load_examples
from speed_page import lines_of_page, table_at, write

MARKER = "<!-- measured: clients -->"
RUN = re.compile(r"Measured with .*\.$")

# The numbers of prefixes of the timed and of the counted table.
TIMED, COUNTED = 500_000, 20_000

# The clients whose runtimes valgrind can't run, or not in useful time.
UNCOUNTED = ("in Go", "in Python", "in JavaScript")

# By how much a number of the page may differ.
SHARE = 0.03

HEAD = ["| Client | Instructions a prefix | in order, s | MiB | in no order, s | MiB "
        "| 1,000 changes, ms |", "|---|---|---|---|---|---|---|"]

# What answers name: a version and a session.
VERSION, SESSION = 1, 4660

# The project of tokio_client.rs, compiled as programs for release are.
OVER_TOKIO = """[package]
name = "tokio_client"
version = "0.0.0"
edition = "2021"

[[bin]]
name = "tokio_client"
path = "{here}/../../bench/tokio_client.rs"

[dependencies]
rtr-wire = {{ path = "{rust}" }}
rtr-wire-tokio = {{ path = "{rust}/tokio" }}
tokio = {{ version = "1", features = ["macros", "net", "rt", "time"] }}

[profile.dev]
opt-level = 3
debug-assertions = false
overflow-checks = false
incremental = false
"""

# A cache that prints its port, and answers each query of version 1 with a table: the first of the
# two data that generate_data.py writes to its standard input.
CACHE = """
import socket, struct, sys, threading
data, at = bytearray(sys.stdin.buffer.read()), 0
while data[at + 1] != 7:
    data[at] = 1
    at += struct.unpack_from(">I", data, at + 4)[0]
data[at] = 1
answer = bytes([1, 3, *data[at + 2:at + 4], 0, 0, 0, 8]) + data[:at + 24]
def serve(client):
    while client.recv(12):
        client.sendall(answer)
with socket.create_server(("127.0.0.1", 0)) as listener:
    print(listener.getsockname()[1], flush=True)
    while True:
        threading.Thread(target=serve, args=(listener.accept()[0],), daemon=True).start()
"""


def warn(text):
    """Warns of what is left out."""
    print(f"!!! bench/clients.py: {text}", file=sys.stderr)


examples = load_examples()
faults = count.built.script("tests/faults/programs.py")


def generated(units, shuffled):
    """Starts the script that writes a table, and returns its process."""
    words = [os.path.join(TOP, "bench", "generate_data.py"), "--units", str(units), "--differ",
             str(max(1, units))]
    return subprocess.Popen(words + ["--shuffled"] * shuffled, stdout=subprocess.PIPE)


@contextlib.contextmanager
def cache(units, shuffled=False):
    """Runs a cache of a table, and yields its port. It is a process of its own, so that its memory
    isn't counted as a client's."""
    with generated(units, shuffled) as maker, subprocess.Popen(
            [sys.executable, "-c", CACHE], stdin=maker.stdout, stdout=subprocess.PIPE) as server:
        try:
            yield int(server.stdout.readline())
        finally:
            server.kill()


def units_of(content):
    """Yields the units of prefixes at the front of some bytes."""
    offset = 0
    while offset < len(content) and content[offset + 1] != 7:
        size = struct.unpack_from(">I", content, offset + 4)[0]
        yield content[offset:offset + size]
        offset += size


def line_of(unit):
    """Returns the line on a change."""
    sign, (length, most), asn = "-+"[unit[8]], unit[9:11], struct.unpack(">I", unit[-4:])[0]
    address = ipaddress.ip_address(unit[12:-4])
    return f"{sign} IPv{address.version} prefix {address}/{length}-{most} AS{asn}\n"


def lines_of_table(units):
    """Yields the lines that announce the small table."""
    with generated(units, False) as maker:
        yield from map(line_of, units_of(maker.stdout.read()))


def answer(units, serial, timings):
    """Returns an answer with these units (RFC 8210 section 8)."""
    return b"".join([struct.pack(">BBHI", VERSION, 3, SESSION, 8),
                     *(bytes([VERSION]) + unit[1:] for unit in units),
                     struct.pack(">BBHII", VERSION, 7, SESSION, 24, serial), timings])


class Answers:
    """A table, and the changes to another one."""

    def __init__(self, units):
        table = Table(units)
        old, new = (list(units_of(content)) for content in table.data)
        announced, withdrawn = set(new) - set(old), set(old) - set(new)
        self.changes = [unit for unit in new if unit in announced]
        self.changes += [unit[:8] + b"\0" + unit[9:] for unit in old if unit in withdrawn]
        self.prefixes, self.first = len(old), answer(old, 1, table.timings)
        self.second = answer(self.changes, 2, table.timings)

    def follow(self, words):
        """Returns the time from a client's query for the changes to its last line about them, and
        these lines."""
        with socket.create_server(("127.0.0.1", 0)) as listener:
            listener.settimeout(SECONDS)
            command = words(listener.getsockname()[1], once=False)
            with subprocess.Popen(command, text=True, stdout=subprocess.PIPE,
                                  stderr=subprocess.DEVNULL) as process:
                timer = threading.Timer(SECONDS, process.kill)
                timer.start()
                try:
                    return self.served(listener.accept()[0], process.stdout)
                finally:
                    timer.cancel()
                    process.kill()

    def served(self, router, output):
        """Answers both queries of a client; returns as `follow`."""
        with router:
            router.settimeout(SECONDS)
            router.recv(8)
            router.sendall(self.first)
            for _ in range(self.prefixes):
                output.readline()
            router.sendall(struct.pack(">BBHII", VERSION, 0, SESSION, 12, 2))
            router.recv(12)
            since = time.monotonic()
            router.sendall(self.second)
            lines = [output.readline() for _ in self.changes]
            return time.monotonic() - since, lines


def our_words(*front, after=()):
    """Returns the command of a client of ours for a port, which ends after the first data or
    follows the cache."""
    return lambda port, once=True: [*front, f"127.0.0.1:{port}", *after, *["--once"] * once]


def their_words(port, once=True):
    """Returns the command of rtrlib's client, which ends after the first data."""
    return ["rtrclient", "-e", "-t", "csv", "-o", os.devnull, "tcp", "127.0.0.1", str(port)]


def over_tokio(folder):
    """Returns the command of the client over tokio, which it builds, or warns."""
    if not shutil.which("cargo") or not glob.glob(f"{faults.REGISTRY}/tokio-[0-9]*"):
        return warn("the client over tokio is left out: no cargo or no librust-tokio-dev here")
    archives = os.environ["RTR_LIB_DIR"]
    made = faults.rust_project("over_tokio", OVER_TOKIO, archives, folder)
    return our_words(os.path.join(made, "tokio_client"))


def in_python(folder):
    """Returns the command of the client in Python, for which it links the library."""
    faults.python_package(os.environ["RTR_LIB_DIR"], folder)
    return our_words(sys.executable, count.source("client.py"))


def in_javascript(_):
    """Returns the command of the client for Node, or warns."""
    if not shutil.which("node"):
        return warn("the client in JavaScript is left out: no node here")
    return our_words("node", count.source("client.mjs"), after=[count.built.module()])


# The clients that aren't examples.
MORE = {"in Rust, over tokio": over_tokio, "in Python": in_python, "in JavaScript": in_javascript}


def clients(folder):
    """Returns the command of each installed client, by its name."""
    found = {}
    for example in (examples.Example(name, "client", folder) for name in examples.BUILDS):
        if example.lacks():
            warn(f"{example.name} is left out: {example.lacks()}")
        else:
            found[f"in {example.name}"] = our_words(example.built())
    found |= {name: words for name, words in ((name, made(folder)) for name, made in MORE.items())
              if words}
    if shutil.which("rtrclient"):
        found["`rtrclient`"] = their_words
    else:
        warn("no rtrclient here (rtr-tools): nothing is compared with it")
    return found


def ours(found):
    """Returns those of these clients that are ours."""
    return {name: words for name, words in found.items() if words is not their_words}


def is_whole(errors, units):
    """Reports whether a client reports the whole table."""
    return f": {units} payloads" in errors or f"received {units} Prefix PDUs" in errors


def run(words, units):
    """Returns the processor time and the memory of a run, in seconds and in MiB."""
    with subprocess.Popen(words, stdout=subprocess.DEVNULL, stderr=subprocess.PIPE,
                          text=True) as process:
        errors = process.stderr.read()
        _, status, used = os.wait4(process.pid, 0)
        process.returncode = status
    if status or not is_whole(errors, units):
        sys.exit(f"bench/clients.py: {words[0]} ended with {status}, and said {errors[-300:]}")
    return used.ru_utime + used.ru_stime, used.ru_maxrss / 1024


def timed(found, rounds, shuffled):
    """Returns the least time and the median of the memory of each client."""
    with cache(TIMED, shuffled) as port:
        runs = [{name: run(words(port), TIMED) for name, words in found.items()}
                for _ in range(rounds)]
    return {name: (min(each[name][0] for each in runs),
                   statistics.median(each[name][1] for each in runs)) for name in found}


def counted(found):
    """Returns the instructions a prefix of each client that valgrind runs."""
    numbers = {}
    for name, words in found.items():
        if name not in UNCOUNTED:
            totals = []
            for units in (0, COUNTED):
                with cache(units) as port:
                    totals.append(count.callgrind(words(port)))
            numbers[name] = (totals[1] - totals[0]) / COUNTED
    return numbers


def changed(found, rounds):
    """Returns the least time of each client of ours for the changes, in seconds."""
    answers = Answers(TIMED)
    runs = [{name: answers.follow(words)[0] for name, words in ours(found).items()}
            for _ in range(rounds)]
    return {name: min(each[name] for each in runs) for name in ours(found)}


def rows(found, rounds):
    """Yields the table."""
    numbers = counted(found)
    times = [timed(found, rounds, shuffled) for shuffled in (False, True)]
    seconds = changed(found, rounds)
    for name in found:
        instructions = f"{numbers[name]:.0f}" if name in numbers else ""
        cells = [cell for each in times
                 for cell in (f"{each[name][0]:.2f}", f"{each[name][1]:.0f}")]
        took = f"{1000 * seconds[name]:.1f}" if name in seconds else ""
        yield "| " + " | ".join([name, instructions, *cells, took]) + " |"


def how(loads):
    """Returns the machine and the versions that it was measured with."""
    tools = [count.version(name) for name in ("gcc", "rustc") if shutil.which(name)]
    if shutil.which("go"):
        version = subprocess.run(["go", "version"], capture_output=True, text=True).stdout
        tools.append(f"go {re.search(r'go([0-9.]+)', version)[1]}")
    tools.append(f"rtr-tools {processes.package_version('rtr-tools')}")
    least, most = min(loads), max(loads)
    return (f"Measured with {', '.join(tools)}, on {os.cpu_count()} processors under a load of "
            f"{least:.0f} to {most:.0f}.")


def wrong_lines(found):
    """Yields an error for each client of ours that prints another table, or other changes."""
    expected = hashlib.sha256("".join(lines_of_table(COUNTED)).encode()).hexdigest()
    answers = Answers(COUNTED)
    changes = sorted(map(line_of, answers.changes))
    with cache(COUNTED) as port:
        for name, words in ours(found).items():
            printed = subprocess.run(words(port), capture_output=True).stdout
            if hashlib.sha256(printed).hexdigest() != expected:
                yield f"{name}: the lines aren't those of the table"
            elif sorted(answers.follow(words)[1]) != changes:
                yield f"{name}: the lines aren't those of the changes"


def check(found):
    """Yields an error for each client that prints other lines, and for instructions that differ
    from the page."""
    yield from wrong_lines(found)
    lines = lines_of_page()
    run_line = next(line for line in lines if RUN.match(line))
    here = [count.version(name) for name in ("gcc", "rustc") if shutil.which(name)]
    if any(tool not in run_line for tool in here):
        warn(f"docs/SPEED.md wasn't measured with {' and '.join(here)}: no instructions compared")
        return
    rows_said = lines[slice(*table_at(lines, MARKER))][2:]
    table = {row.split(" | ")[0][2:]: row.split(" | ")[1] for row in rows_said}
    said = {name: words for name, words in ours(found).items() if name in table}
    for name, number in counted(said).items():
        if abs(number - float(table[name])) > SHARE * number:
            yield f"{name}: the page says {table[name]} instructions a prefix, counted {number:.0f}"


def main():
    asked = count.options("--rounds", 5)
    missing = [name for name in ("valgrind", "gcc") if not shutil.which(name)]
    if missing:
        warn(f"no {' and no '.join(missing)} here: nothing is measured")
        return 0 if asked.check else 1
    with tempfile.TemporaryDirectory() as folder:
        found = clients(folder)
        if asked.check:
            wrong = list(check(found))
            print(*wrong, f"{len(found)} clients, {len(wrong)} wrong", sep="\n")
            return 1 if wrong else 0
        loads = [os.getloadavg()[0]]
        table = HEAD + list(rows(found, asked.rounds))
        loads.append(os.getloadavg()[0])
    print(*table, how(loads), sep="\n")
    if asked.write:
        write(MARKER, table, RUN, how(loads))
    return 0


if __name__ == "__main__":
    sys.exit(main())
