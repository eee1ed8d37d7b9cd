#!/usr/bin/env python3
"""Measures our caches beside stayrtr, in one run.

usage: bench/cache.py [--write] [--rounds N] [CACHE]..

The caches serve the same made-up table of 500,000 VRPs, one after the other. Prints a table:

- the processor time that a cache takes while ten clients ask for all data at once, and its peak
  memory until then, including that of files in memory, from which sockets take data;
- the time from the change of its file to the last byte that the last of 100 clients gets, where
  1,000 VRPs change: the least and the most of N rounds, 3 by default, each with new clients, since
  a cache tells a client of a change once a minute at most;
- but for stayrtr, the memory that a cache has after 15 more such changes, before each of which
  three clients ask for all data and then read nothing.

CACHE is c, go, rust or stayrtr; by default all installed caches are measured, and the missing ones
are left out with a loud message. --write renews the table of docs/SPEED.md and the line below it.
"""
import argparse
import contextlib
import importlib
import ipaddress
import json
import os
import re
import selectors
import shutil
import signal
import socket
import struct
import subprocess
import sys
import tempfile
import time

TOP = os.path.realpath(os.path.join(os.path.dirname(os.path.abspath(__file__)), ".."))
sys.path[:0] = [os.path.join(TOP, ".ci"), os.path.join(TOP, "interop")]

import built  # noqa: E402  (it lies in another folder)
import count
import processes  # noqa: E402  (it lies in another folder)
from speed_page import write

MARKER = "<!-- measured: cache -->"
RUN = re.compile(r"Caches: measured with .*\.$")
HEAD = ["| Cache | All data to ten clients, s | MiB | 1,000 changes to 100 clients, s "
        "| with stalled clients, MiB |", "|---|---|---|---|---|"]

UNITS, CHANGES = 500_000, 1000
ASKING, NOTIFIED = 10, 100
STALLED, STALLED_CHANGES = 3, 15

# The version that clients ask in, as routers do.
VERSION = 1
NOTIFY, SERIAL_QUERY, RESET_QUERY, RESPONSE, END = 0, 1, 2, 3, 7

# How long a cache may take to start, and its clients to get what they wait for.
SECONDS = 180
PIECE = 1 << 20


def warn(text):
    """Warns of what is left out."""
    print(f"!!! bench/cache.py: {text}", file=sys.stderr)


def counted(process, name):
    """Returns a number of the system about the memory of a process, in bytes."""
    with open(f"/proc/{process.pid}/status", encoding="ascii") as file:
        return int(next(line for line in file if line.startswith(name)).split()[1]) << 10


def in_files(process):
    """Returns the bytes of its files in memory that aren't mapped, which the system doesn't count
    to it."""
    folder, size = f"/proc/{process.pid}/fd", 0
    for name in os.listdir(folder):
        with contextlib.suppress(OSError):
            path = os.path.join(folder, name)
            if os.readlink(path).startswith("/memfd:"):
                size += os.stat(path).st_blocks * 512
    return max(0, size - counted(process, "RssShmem"))


def load_examples():
    """Returns the module that builds our caches, with the archive that is picked here."""
    archive = built.program("rtr_c")
    os.environ["RTR_ARCHIVE"] = archive
    os.environ["RTR_LIB_DIR"] = os.path.dirname(archive)
    os.environ["CGO_LDFLAGS"] = f"-L{os.path.dirname(archive)} -g -O2"
    return importlib.import_module("ours")


class Table:
    """Two data that differ in CHANGES of their VRPs: their units, without the ends of data."""

    def __init__(self, units=UNITS):
        words = [sys.executable, os.path.join(TOP, "bench", "generate_data.py"), "--units",
                 str(units), "--differ", str(2 * units // CHANGES)]
        content = subprocess.run(words, stdout=subprocess.PIPE, check=True).stdout
        size = next(self.ends(content))
        self.timings = content[size + 12:size + 24]
        self.data = [content[:size], content[size + 24:-24]]

    @staticmethod
    def ends(content):
        """Yields the offsets of the ends of data."""
        offset = 0
        while offset < len(content):
            if content[offset + 1] == END:
                yield offset
            offset += struct.unpack_from(">I", content, offset + 4)[0]

    def sequence(self, serial):
        """Returns a file of ours at this serial number: odd ones have the first data."""
        end = struct.pack(">BBHII", 2, END, 4660, 24, serial) + self.timings
        return self.data[(serial + 1) % 2] + end

    def json(self, serial):
        """Returns the same data in stayrtr's format."""
        content, offset, roas = self.data[(serial + 1) % 2], 0, []
        while offset < len(content):
            size = struct.unpack_from(">I", content, offset + 4)[0]
            length, most = content[offset + 9:offset + 11]
            address = ipaddress.ip_address(content[offset + 12:offset + size - 4])
            asn = struct.unpack_from(">I", content, offset + size - 4)[0]
            roas.append({"prefix": f"{address}/{length}", "maxLength": most, "asn": asn, "ta": ""})
            offset += size
        return json.dumps({"metadata": {"counts": len(roas)}, "roas": roas}).encode()


class Client:
    """A client: what it waits for, and the bytes that came since its query."""

    def __init__(self, port, query, capacity=None):
        self.socket = socket.socket()
        if capacity:
            self.socket.setsockopt(socket.SOL_SOCKET, socket.SO_RCVBUF, capacity)
        self.socket.settimeout(SECONDS)
        self.socket.connect(("127.0.0.1", port))
        self.socket.setblocking(False)
        self.came, self.last = 0, b""
        self.socket.send(query)

    def read(self):
        """Reads some of the bytes that came."""
        piece = self.socket.recv(PIECE)
        if not piece:
            raise ConnectionError("the cache closed a connection")
        self.came += len(piece)
        self.last = (self.last + piece)[-24:]

    def has_end(self):
        """Reports whether the last unit that came is an end of data."""
        return len(self.last) == 24 and self.last[:2] == bytes([VERSION, END]) \
            and self.last[4:8] == bytes([0, 0, 0, 24])

    def is_notified(self):
        """Reports whether the last unit that came is a notify."""
        return self.last[-12:-10] == bytes([VERSION, NOTIFY])


def reset_query():
    """Returns a reset query (RFC 8210 section 5.4)."""
    return struct.pack(">BBHI", VERSION, RESET_QUERY, 0, 8)


def serial_query(session, serial):
    """Returns a serial query (RFC 8210 section 5.3)."""
    return struct.pack(">BBHII", VERSION, SERIAL_QUERY, session, 12, serial)


def read_until(clients, is_done):
    """Lets all clients read until `is_done` reports so; it may send their next query."""
    with selectors.DefaultSelector() as ready:
        for client in clients:
            ready.register(client.socket, selectors.EVENT_READ, client)
        end, left = time.monotonic() + SECONDS, len(clients)
        while left:
            for key, _ in ready.select(1):
                key.data.read()
                if is_done(key.data):
                    ready.unregister(key.fileobj)
                    left -= 1
            if time.monotonic() > end:
                sys.exit(f"bench/cache.py: {left} clients wait in vain")


def read_all(port, count):
    """Lets `count` clients read all data at once; returns what names the data."""
    clients = [Client(port, reset_query()) for _ in range(count)]
    read_until(clients, Client.has_end)
    for client in clients:
        client.socket.close()
    sizes = {client.came for client in clients}
    if len(sizes) != 1 or sizes.pop() < 20 * UNITS:
        sys.exit("bench/cache.py: an answer is too short")
    return struct.unpack(">2xH4xI12x", clients[0].last)


class Cache:
    """A cache in a process of its own."""

    ending = "sequence"
    stalls = True

    def __init__(self, name, words, table, folder):
        self.name, self.table, self.serial = name, table, 1
        self.path = os.path.join(folder, f"{name}.{self.ending}")
        self.put()
        os.replace(self.path + ".new", self.path)
        self.log = os.path.join(folder, f"{name}.log")
        with socket.create_server(("127.0.0.1", 0)) as free:
            self.port = free.getsockname()[1]
        with open(self.log, "wb") as log:
            self.process = subprocess.Popen(words(self.path, self.port), stdout=log, stderr=log)

    def __enter__(self):
        return self

    def __exit__(self, *_):
        self.process.terminate()
        self.process.wait()

    def put(self):
        """Writes the file of the serial number beside the one that is served."""
        with open(self.path + ".new", "wb") as file:
            file.write(self.content())

    def content(self):
        """Returns the content of the file."""
        return self.table.sequence(self.serial)

    def change(self):
        """Puts a changed file in place, and returns the time of it."""
        os.replace(self.path + ".new", self.path)
        return time.monotonic()

    def comes_up(self):
        """Waits until the cache has data."""
        end = time.monotonic() + SECONDS
        while time.monotonic() < end and self.process.poll() is None:
            with contextlib.suppress(OSError), \
                    socket.create_connection(("127.0.0.1", self.port), 5) as probe:
                probe.sendall(reset_query())
                if probe.recv(8)[1:2] == bytes([RESPONSE]):
                    return
            time.sleep(0.2)
        sys.exit(f"bench/cache.py: {self.name} doesn't come up: see {self.log}")

    def used(self):
        """Returns the processor time that it has taken, in seconds."""
        with open(f"/proc/{self.process.pid}/stat", encoding="ascii") as file:
            fields = file.read().rpartition(")")[2].split()
        return (int(fields[11]) + int(fields[12])) / os.sysconf("SC_CLK_TCK")

    def memory(self, which="VmHWM"):
        """Returns its peak memory in MiB, or its present memory: VmRSS."""
        return (counted(self.process, which) + in_files(self.process)) / (1 << 20)


class StayRTR(Cache):
    """stayrtr, which reloads its file at a signal."""

    ending = "json"
    stalls = False

    def content(self):
        return self.table.json(self.serial)

    def change(self):
        since = super().change()
        self.process.send_signal(signal.SIGHUP)
        return since


def seconds_of_change(cache, session, serial):
    """Returns how long it takes until a change has come to all clients, which know the data before
    it; the serial number then."""
    known = serial_query(session, serial)
    clients = [Client(cache.port, known) for _ in range(NOTIFIED)]
    read_until(clients, Client.has_end)
    cache.serial += 1
    cache.put()

    def is_done(client):
        if client.is_notified():
            client.last = b""
            client.socket.send(known)
        return client.has_end()

    since = cache.change()
    read_until(clients, is_done)
    seconds = time.monotonic() - since
    for client in clients:
        client.socket.close()
    serials = {struct.unpack_from(">I", client.last, 8)[0] for client in clients}
    if len(serials) != 1 or serials == {serial} or min(c.came for c in clients) < 20 * CHANGES:
        sys.exit(f"bench/cache.py: {cache.name} gave no {CHANGES} changes")
    return seconds, serials.pop()


def memory_with_stalled(cache, session, serial):
    """Returns the memory after changes beside clients that ask for all data and read nothing."""
    stalled = []
    for _ in range(STALLED_CHANGES):
        stalled += [Client(cache.port, reset_query(), 4096) for _ in range(STALLED)]
        watching = Client(cache.port, serial_query(session, serial))
        read_until([watching], Client.has_end)
        cache.serial += 1
        cache.put()
        cache.change()
        read_until([watching], Client.is_notified)
        watching.socket.close()
        serial = struct.unpack_from(">I", watching.last, len(watching.last) - 4)[0]
    memory = cache.memory("VmRSS")
    for client in stalled:
        client.socket.close()
    return memory


def measured(cache, rounds):
    """Returns the row of a cache."""
    with cache:
        cache.comes_up()
        before = cache.used()
        session, serial = read_all(cache.port, ASKING)
        used, memory, seconds = cache.used() - before, cache.memory(), []
        for _ in range(rounds):
            took, serial = seconds_of_change(cache, session, serial)
            seconds.append(took)
        held = f"{memory_with_stalled(cache, session, serial):.0f}" if cache.stalls else ""
    took = f"{min(seconds):.1f} to {max(seconds):.1f}"
    return f"| {cache.name} | {used:.2f} | {memory:.0f} | {took} | {held} |"


def our_words(program):
    """Returns the command of a cache of ours."""
    return lambda path, port: [program, path, "--listen", f"127.0.0.1:{port}"]


def their_words(path, port):
    """Returns the command of stayrtr."""
    return ["stayrtr", "-cache", path, "-checktime=false", "-refresh", "3600", "-protocol",
            str(VERSION), "-metrics.addr", "127.0.0.1:0", "-bind", f"127.0.0.1:{port}"]


def caches(examples, folder, asked):
    """Yields the kind, the name and the command of each cache that is asked for and installed."""
    for example in examples.caches(folder):
        if not asked or example.name.lower() in asked:
            yield Cache, f"in {example.name}", our_words(example.built())
    if not asked or "stayrtr" in asked:
        if shutil.which("stayrtr"):
            yield StayRTR, "stayrtr", their_words
        else:
            warn("no stayrtr here: nothing is compared with it")


def how(name, loads):
    """Returns the machine and the versions that it was measured with."""
    tools = [count.version(name) for name in ("gcc", "rustc") if shutil.which(name)]
    if shutil.which("go"):
        version = subprocess.run(["go", "version"], capture_output=True, text=True).stdout
        tools.append(f"go {re.search(r'go([0-9.]+)', version)[1]}")
    tools.append(f"stayrtr {processes.package_version('stayrtr')}")
    return (f"{name}: measured with {', '.join(tools)}, on {os.cpu_count()} processors under a "
            f"load of {min(loads):.0f} to {max(loads):.0f}.")


def main():
    parser = argparse.ArgumentParser()
    parser.add_argument("--write", action="store_true")
    parser.add_argument("--rounds", type=int, default=3)
    parser.add_argument("caches", nargs="*", metavar="CACHE")
    asked = parser.parse_args()
    examples = load_examples()
    with tempfile.TemporaryDirectory() as folder:
        found = list(caches(examples, folder, asked.caches))
        table, loads, rows = Table(), [os.getloadavg()[0]], list(HEAD)
        for kind, name, words in found:
            rows.append(measured(kind(name, words, table, folder), asked.rounds))
            print(rows[-1], flush=True)
            loads.append(os.getloadavg()[0])
    run_line = how("Caches", loads)
    print(*rows, run_line, sep="\n")
    if asked.write:
        write(MARKER, rows, RUN, run_line)
    return 0


if __name__ == "__main__":
    sys.exit(main())
