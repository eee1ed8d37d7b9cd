#!/usr/bin/env python3
"""Measures what a change of its file costs rtr-cache, by one or several builds of it in one run.

usage: bench/change.py [--rounds N] [--vrps N] [--version V] RTR-CACHE..

Each cache saves its state and reads the JSON of a validator with 500,000 VRPs, of which 1,000
change in each of N rounds, 5 by default. Prints for each build, as the median of the rounds:

- the processor time in milliseconds that the process takes from the change of the file to the last
  byte of the changes that a router of version V, 2 by default, gets after the notify;
- that of rtr_make, which reads the file for it;
- the peak memory in MiB during a change, with files in memory, and that after it.

Builds take turns, so that another load disturbs all of them. `programs/build FOLDER` builds one.
"""
import argparse
import contextlib
import os
import select
import shutil
import socket
import statistics
import struct
import subprocess
import sys
import tempfile
import time

import cache

SECONDS = 180
NOTIFY, SERIAL_QUERY, RESET_QUERY, END = 0, 1, 2, 7


class Router:
    """A router that reads whole units."""

    def __init__(self, port, version):
        self.version, self.rest = version, b""
        self.socket = socket.create_connection(("127.0.0.1", port), SECONDS)

    def asks(self, kind, session=0, body=b""):
        """Sends a query."""
        head = struct.pack(">BBHI", self.version, kind, session, 8 + len(body))
        self.socket.sendall(head + body)

    def gets(self, kind):
        """Reads until the end of a unit of this kind, and returns it and the size of all."""
        size = 0
        while True:
            while len(self.rest) < 8 or len(self.rest) < struct.unpack_from(">I", self.rest, 4)[0]:
                if not select.select([self.socket], [], [], SECONDS)[0]:
                    sys.exit("bench/change.py: a router waits in vain")
                piece = self.socket.recv(1 << 20)
                if not piece:
                    sys.exit("bench/change.py: the cache closed a connection")
                self.rest += piece
            length, offset = struct.unpack_from(">I", self.rest, 4)[0], 0
            while len(self.rest) >= offset + length:
                unit, offset = self.rest[offset:offset + length], offset + length
                if unit[1] == kind:
                    self.rest = self.rest[offset:]
                    return unit, size + offset
                if len(self.rest) < offset + 8:
                    break
                length = struct.unpack_from(">I", self.rest, offset + 4)[0]
            self.rest, size = self.rest[offset:], size + offset


class Build:
    """A running build of rtr-cache."""

    def __init__(self, program, lists, folder, version):
        self.program, self.lists, self.version = program, lists, version
        self.folder = tempfile.mkdtemp(dir=folder)
        self.file, self.turn, self.rows = os.path.join(self.folder, "f"), 0, []
        shutil.copy(lists[0], self.file)
        with socket.create_server(("127.0.0.1", 0)) as free:
            self.port = free.getsockname()[1]
        path = os.pathsep.join([os.environ["PATH"], os.path.join(cache.TOP, "prebuilt", "x86_64")])
        with open(os.path.join(self.folder, "log"), "wb") as log:
            self.process = subprocess.Popen(
                [program, "--json", "f", "--state", "state", "--listen", f"127.0.0.1:{self.port}"],
                cwd=self.folder, stdout=log, stderr=log, env={**os.environ, "PATH": path})
        self.comes_up()

    def comes_up(self):
        """Waits until the cache has data."""
        end = time.monotonic() + SECONDS
        while time.monotonic() < end and self.process.poll() is None:
            with contextlib.suppress(OSError):
                probe = Router(self.port, self.version)
                probe.asks(RESET_QUERY)
                if probe.socket.recv(8)[1:2] == bytes([3]):
                    return
            time.sleep(0.2)
        with open(os.path.join(self.folder, "log"), encoding="utf-8") as log:
            sys.exit(f"bench/change.py: {self.program} doesn't come up: {log.read()}")

    def used(self):
        """Returns the processor time of its threads, and of ended children, in milliseconds."""
        folder, own = f"/proc/{self.process.pid}", 0
        for thread in os.listdir(f"{folder}/task"):
            with open(f"{folder}/task/{thread}/schedstat", encoding="ascii") as file:
                own += int(file.read().split()[0])
        with open(f"{folder}/stat", encoding="ascii") as file:
            fields = file.read().rpartition(")")[2].split()
        children = (int(fields[13]) + int(fields[14])) * 1000 / os.sysconf("SC_CLK_TCK")
        return own / 1e6, children

    def memory(self, which):
        """Returns its peak memory, or its present memory, in MiB."""
        own = cache.counted(self.process, which)
        return (own + cache.in_files(self.process)) / (1 << 20)

    def changes(self):
        """Puts a changed list in place, and measures until a router has the changes."""
        router = Router(self.port, self.version)
        router.asks(RESET_QUERY)
        end, _ = router.gets(END)
        session, serial = struct.unpack_from(">2xH4xI", end)
        self.turn += 1
        shutil.copy(self.lists[self.turn % 2], f"{self.file}.new")
        time.sleep(1)  # what the router's answer left to do is done
        with open(f"/proc/{self.process.pid}/clear_refs", "w", encoding="ascii") as file:
            file.write("5")  # the peak begins anew
        before = self.used()
        os.replace(f"{self.file}.new", self.file)
        router.gets(NOTIFY)
        router.asks(SERIAL_QUERY, session, struct.pack(">I", serial))
        _, size = router.gets(END)
        after = self.used()
        if size < 20 * 1000:
            sys.exit(f"bench/change.py: {size} bytes of changes")
        peak = self.memory("VmHWM")
        router.socket.close()
        time.sleep(1)
        self.rows.append([after[0] - before[0], after[1] - before[1], peak, self.memory("VmRSS")])

    def ends(self):
        """Ends the cache."""
        self.process.terminate()
        self.process.wait()


def main():
    parser = argparse.ArgumentParser()
    parser.add_argument("--rounds", type=int, default=5)
    parser.add_argument("--vrps", type=int, default=500_000)
    parser.add_argument("--version", type=int, default=2)
    parser.add_argument("builds", nargs="+", metavar="RTR-CACHE")
    asked = parser.parse_args()
    builds = []
    with tempfile.TemporaryDirectory() as folder:
        table, lists = cache.Table(asked.vrps), []
        for serial in 1, 2:
            lists.append(os.path.join(folder, f"{serial}.json"))
            with open(lists[-1], "wb") as file:
                file.write(table.json(serial))
        try:
            for program in asked.builds:
                program = os.path.realpath(program)
                builds.append(Build(program, lists, folder, asked.version))
            for _ in range(asked.rounds):
                for build in builds:
                    build.changes()
        finally:
            for build in builds:
                build.ends()
    print("| Build | Processor, ms | rtr_make's, ms | Peak, MiB | after, MiB |")
    print("|---|---|---|---|---|")
    for build in builds:
        cells = [f"{statistics.median(column):.0f}" for column in zip(*build.rows)]
        print(f"| {os.path.relpath(build.program)} | {' | '.join(cells)} |")
    print(f"Under a load of {os.getloadavg()[0]:.0f}.")
    return 0


if __name__ == "__main__":
    sys.exit(main())
