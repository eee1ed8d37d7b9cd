#!/usr/bin/env python3
"""Measures caches with many routers at once beside a program that sends the same bytes by sendfile,
in one run.

usage: bench/scale.py [--write] [--routers N[:VRPS],..] [SERVER]..

Each server sends a made-up table of VRPS, 500,000 by default, to N routers at once, on addresses of
127.0.0.0/8; many.c has the routers, sends.c the program over sendfile. By default N are 1, 100,
1,000 with 50,000 VRPs and 10,000 with 5,000. For each server and N it prints a row:

- how many bytes a second all routers get while each asks for all data;
- the processor time that the server takes for it, also as a share of that of sendfile: the least of
  several rounds for few routers;
- the server's peak memory from its start to its end, and how much of it, while all data are sent, a
  router takes beyond that after the first router; files in memory count;
- the time from a change of 1,000 VRPs in its file, by renaming, until the last router has the end
  of data of it.

A server is stopped at 6 GiB of memory, or if a step takes more than two minutes, and then isn't
tried with more routers. SERVER is sendfile, c, go, rust, rtr-cache or stayrtr; by default all that
are installed are measured. --write renews the table of docs/SPEED.md and the line below it.
"""
import argparse
import contextlib
import itertools
import os
import re
import resource
import struct
import subprocess
import sys
import tempfile
import threading
import time

import cache
from speed_page import write

TOP = os.path.realpath(os.path.join(os.path.dirname(os.path.abspath(__file__)), ".."))
MARKER = "<!-- measured: scale -->"
RUN = re.compile(r"Scale: measured with .*\.$")
HEAD = ["| Server | Routers | GB a second | Processor, s | of `sendfile`'s | MiB | KiB a router "
        "| 1,000 changes, s |", "|" + "---|" * 8]

COUNTS = "1,100,1000:50000,10000:5000"
VRPS = 500_000
# Up to this many routers ask for all data this often; no round begins after ENOUGH seconds in all.
ROUNDS, ENOUGH = [(1, 20), (100, 3)], 10
MOST_SECONDS, MOST_MEMORY = 120, 6 << 30
SENDFILE = "`sendfile`"




class Stopped(Exception):
    """A measurement had to be stopped; the text says why."""


def compiled(name, folder):
    """Returns the path of a program of bench/."""
    program = os.path.join(folder, name)
    subprocess.run(["cc", "-std=c11", "-Wall", "-Wextra", "-O2", "-o", program,
                    os.path.join(TOP, "bench", f"{name}.c")], check=True)
    return program


class Sender(cache.Cache):
    """The server that sends an answer by sendfile."""

    ending = "answer"

    def content(self):
        """Returns all data in version 1, behind a cache response."""
        content, offset = bytearray(self.table.sequence(self.serial)), 0
        while offset < len(content):
            content[offset] = cache.VERSION
            offset += struct.unpack_from(">I", content, offset + 4)[0]
        return struct.pack(">BBHI", cache.VERSION, cache.RESPONSE, 4660, 8) + content


class Memory:
    """The memory of a process: as the system counts it, and its files that aren't mapped."""

    def __init__(self, process):
        self.process, self.most, self.is_above = process, 0, False
        self.ends = threading.Event()
        threading.Thread(target=self.watch, daemon=True).start()

    def watch(self):
        """Kills the process if it has too much memory."""
        with contextlib.suppress(OSError, StopIteration):
            while not self.ends.wait(0.2):
                if cache.counted(self.process, "VmRSS") > MOST_MEMORY:
                    self.is_above = True
                    self.process.kill()

    def peak(self):
        """Returns the peak since the last reset."""
        found = cache.counted(self.process, "VmHWM") + cache.in_files(self.process)
        self.most = max(self.most, found)
        return found

    def forget_peak(self):
        """Resets the peak to the present memory, and returns that."""
        self.peak()
        with open(f"/proc/{self.process.pid}/clear_refs", "w", encoding="ascii") as file:
            file.write("5")
        return cache.counted(self.process, "VmRSS") + cache.in_files(self.process)


class Routers:
    """The routers of a server: many.c."""

    def __init__(self, program, server, count, memory):
        words = [program, str(server.port), str(count), str(MOST_SECONDS)]
        self.memory = memory
        self.process = subprocess.Popen(words, stdin=subprocess.PIPE, stdout=subprocess.PIPE,
                                        text=True, preexec_fn=raise_limit)

    def __enter__(self):
        return self

    def __exit__(self, *_):
        self.process.kill()
        self.process.wait()

    def begin(self, step):
        """Starts a step."""
        with contextlib.suppress(BrokenPipeError):
            self.process.stdin.write(step + "\n")
            self.process.stdin.flush()

    def finish(self):
        """Returns the step's start and end, and how many bytes came."""
        words = self.process.stdout.readline().split()
        if self.memory.is_above:
            raise Stopped(f"stopped above {MOST_MEMORY >> 30} GiB")
        if not words:
            raise Stopped("stopped by an error")
        if words[0] == "late":
            raise Stopped(f"stopped after {MOST_SECONDS} s, with {int(words[2]) / 1e9:.1f} GB sent")
        begun, ended, size = map(int, words[1:])
        return begun / 1e9, ended / 1e9, size

    def take(self, step):
        """Runs a step to its end."""
        self.begin(step)
        return self.finish()


def raise_limit():
    """Raises the limit of file descriptors to its maximum."""
    _, most = resource.getrlimit(resource.RLIMIT_NOFILE)
    resource.setrlimit(resource.RLIMIT_NOFILE, (most, most))


def used(process):
    """Returns the processor time that a process has taken, in seconds."""
    return time.clock_gettime(~process.pid << 3 | 2)


def measured(server, many, count, shares):
    """Returns the cells of a server."""
    rounds = next((rounds for most, rounds in ROUNDS if count <= most), 1)
    memory = Memory(server.process)
    with server, Routers(many, server, count, memory) as routers:
        routers.finish()
        before = memory.forget_peak()
        routers.take("connect")
        seconds, rate = [], 0
        for _ in range(rounds):
            since = used(server.process)
            begun, ended, size = routers.take("all")
            seconds.append(used(server.process) - since)
            rate = max(rate, size / (ended - begun))
            if sum(seconds) > ENOUGH:
                break
        beside = (memory.peak() - before) / count / 1024
        took = ""
        if server.name != SENDFILE:
            server.serial += 1
            server.put()
            routers.begin("changes")
            since = server.change()
            took = f"{routers.finish()[1] - since:.2f}"
        memory.peak()
        memory.ends.set()
    shares.setdefault(count, min(seconds))
    least = f"{min(seconds):.{4 if count == 1 else 2}f}"
    return [f"{rate / 1e9:.1f}", least, f"{min(seconds) / shares[count]:.2f}",
            f"{memory.most / (1 << 20):.0f}", f"{beside:.1f}" if count > 1 else "", took]


def words_of(words, count):
    """Returns the command of a server for this many routers."""
    return lambda path, port: words(path, port, count + 1)


def servers(examples, folder, asked):
    """Yields the kind, the name and the command of each server that is asked for and installed."""
    def limited(program):
        return lambda path, port, most: [*program, path, "--listen", f"127.0.0.1:{port}",
                                         "--max-clients", str(most)]
    sends = compiled("sends", folder)
    yield Sender, SENDFILE, lambda path, port, _: [sends, path, str(port)]
    for example in examples.caches(folder):
        if not asked or example.name.lower() in asked:
            yield cache.Cache, f"in {example.name}", limited([example.built()])
    program = examples.Program("rtr-cache", folder)
    if not asked or "rtr-cache" in asked:
        if program.lacks():
            cache.warn(f"no rtr-cache: {program.lacks()}")
        else:
            words = limited([*program.words(), "--max-per-address", "200", "--sequence"])
            yield cache.Cache, "`rtr-cache`", words
    for kind, name, theirs in cache.caches(examples, folder, ["stayrtr"]):
        if not asked or "stayrtr" in asked:
            yield kind, name, lambda path, port, _: theirs(path, port)


def row(kind, name, words, table, size, many, shares):
    """Returns the row of a server with a number of routers."""
    count, vrps = size
    amount = f"{count:,}" + (f", {vrps:,} VRPs" if vrps != VRPS else "")
    with tempfile.TemporaryDirectory() as folder:
        try:
            server = kind(name, words_of(words, count), table, folder)
            server.comes_up()
            cells = measured(server, many, count, shares)
        except Stopped as why:
            shares.setdefault(name, 0)
            cells = [str(why), *[""] * 5]
    return f"| {name} | {amount} | {' | '.join(cells)} |"


def sizes(text):
    """Yields the numbers of routers and of VRPs in an argument."""
    for word in text.split(","):
        count, _, vrps = word.partition(":")
        yield int(count), int(vrps or VRPS)


def main():
    parser = argparse.ArgumentParser()
    parser.add_argument("--write", action="store_true")
    parser.add_argument("--routers", default=COUNTS)
    parser.add_argument("servers", nargs="*", metavar="SERVER")
    asked = parser.parse_args()
    raise_limit()
    examples, shares, rows = cache.load_examples(), {}, []
    with tempfile.TemporaryDirectory() as folder:
        many = compiled("many", folder)
        found = list(servers(examples, folder, asked.servers))
        loads, tables = [os.getloadavg()[0]], {}
        for (kind, name, words), size in itertools.product(found, sizes(asked.routers)):
            if name in shares:
                continue  # it was stopped with fewer
            table = tables[size[1]] = tables.get(size[1]) or cache.Table(size[1])
            rows.append(row(kind, name, words, table, size, many, shares))
            print(rows[-1], flush=True)
            loads.append(os.getloadavg()[0])
    run_line = cache.how("Scale", loads)
    print(*HEAD, *rows, run_line, sep="\n")
    if asked.write:
        write(MARKER, [*HEAD, *rows], RUN, run_line)
    return 0


if __name__ == "__main__":
    sys.exit(main())
