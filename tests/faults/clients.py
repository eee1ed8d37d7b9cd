"""Runs a client beside a cache that behaves, with faults in the client's calls on sockets: whatever
fails, the client prints each change of the cache's data once, in order; it reconnects only after a
fault that ends a connection; and at the end it has as many descriptors and threads as after its
first data.
"""
import base64
import collections
import ipaddress
import os
import select
import signal
import socket
import struct
import subprocess
import threading
import time
from concurrent.futures import Future

import process_state
import tls
from cache import is_reset
from units import AS, ASPAS, KEYS, NOTIFY, REPORT, RESET_QUERY, RESPONSE, SERIAL_QUERY, SESSION
from units import TIMEOUT, Aspa, RouterKey, Wrong, changes, end, payloads, size_of, unit

RECONNECTS, RECONNECTS_OVER_TLS = 4, 2
LINES = 20  # of what a client wrote to standard error, that a failure shows

# Two hundred connects of a client. It counts its allocated memory after each connection: after the
# two hundredth it has as much as after the first.
CONNECTS = "two hundred connects"
# The same, but all connects after the first connection fail, at both addresses of the name.
FAILING = "two hundred failing connects"
PAUSE = "10"  # milliseconds between two connections
HUNDRED = 100
# The most objects, one for each second connection, and bytes by which a client may grow.
MOST_GROWTH = (HUNDRED // 2, 1 << 12)
NOT_COUNTING = ("Rust",)  # another program counts
IN_C = ("C client", "C link", "C client over TLS")  # they free what the system found for a name
IN_GO = ("Go", "Go over TLS")
READING_AT_ONCE = ("asyncio over TLS", "Node over TLS")  # several records of TLS

# A cache whose first answer is a unit of a type that nobody knows: the client has to send a whole
# report of this code about it (RFC 8210 section 12), and asks again. Where waits are interrupted,
# every other one is.
REFUSED = "a report by sends of a byte"
INTERRUPTED = "a report by interrupted waits"
UNKNOWN_TYPE = 5

# The same, but the cache doesn't close when the client has closed for writing: that gives it two
# seconds (RTR_LAST_REPORT_LIMIT), and connects again after one at most. The seconds in which it has
# to do that: less than with twice that limit.
STAYS = "a report to a cache that doesn't close"
STAYS_LONGER = "interrupted waits for a cache that doesn't close"
STAYING = (STAYS, STAYS_LONGER)
MOST_STAY = 4
REPORTING = (REFUSED, INTERRUPTED, *STAYING)

# A name whose first address takes no connection and refuses none: a client has to leave it in time
# to try the second, where the cache is.
SILENT = "a first address that doesn't answer"
SILENT_RECONNECTS = 1  # each takes some fifteen seconds, half of the time to connect

# The first data, of which each change drops the first.
DATA = ["10.0.0.0/8", KEYS[0], ASPAS[0], "192.0.2.0/24", "2001:db8::/32", "2001:db8:2::/48",
        KEYS[1], ASPAS[1]]

# What is injected: faults that end a connection, or keep one from being opened, and all.
BREAKING = {
    "a pipe that breaks at the first query": "send:1:1:EPIPE",
    "a pipe that breaks at the second query": "send:2:2:EPIPE",
    "a reset at the first read": "receive:1:1:ECONNRESET",
    "a reset in the first answer": "receive:1:3:9 receive:4:4:ECONNRESET",
    "a timeout of the system in a read": "receive:2:2:ETIMEDOUT",
    "a timeout of the system in a send": "send:2:2:ETIMEDOUT",
    "refused connections": "connect:1:2:ECONNREFUSED",
    "a network that can't be reached": "connect:1:1:ENETUNREACH connect:3:3:ETIMEDOUT",
}
FAULTS = {
    "nothing": "",
    SILENT: "",
    STAYS: "",
    STAYS_LONGER: "wait:1:0:EINTR:2 receive:1:0:EAGAIN:2",
    FAILING: f"connect:3:{2 + 2 * 2 * HUNDRED}:ECONNREFUSED",
    "sends of a byte": "send:1:0:1",
    REFUSED: "send:1:0:1",
    INTERRUPTED: "send:1:0:16 wait:1:0:EINTR:2",
    "reads of a byte": "receive:1:0:1",
    "an interrupted send": "send:1:1:EINTR send:3:3:EINTR",
    "sends that would block": "send:1:2:EAGAIN send:4:4:EAGAIN",
    "interrupted reads": "receive:1:2:EINTR receive:4:4:EINTR",
    "spurious wakes": "receive:1:3:EAGAIN receive:5:5:EAGAIN",
    "interrupted waits": "wait:1:2:EINTR wait:5:6:EINTR",
    "all at once": "send:1:0:3 receive:1:0:7 wait:2:4:EINTR wait:9:9:EINTR",
    **BREAKING,
}


# Clients over TLS ask in version 1. They make more calls: those faults may end a handshake, and
# these come also after it. A client that reads the head and the rest of each record makes some
# eighteen reads until it has its first data, another one three.
BREAKING_OVER_TLS = {
    "pipes that break at queries over TLS": "send:3:3:EPIPE send:6:6:EPIPE",
    "resets in answers over TLS": "receive:16:16:ECONNRESET receive:34:34:ECONNRESET",
    "resets in answers that come at once over TLS": "receive:3:3:ECONNRESET receive:6:6:ECONNRESET",
}
OVER_TLS = {
    "spurious wakes over TLS": "receive:2:0:EAGAIN:2",
    "interrupted sends over TLS": "send:3:0:EINTR:2",
    "sends that would block over TLS": "send:3:0:EAGAIN:2",
    **BREAKING_OVER_TLS,
}
BREAKING.update(BREAKING_OVER_TLS)
FAULTS.update(OVER_TLS)
# What isn't played over TLS: the front has the connection of the cache; names are looked up, and
# addresses tried, as without TLS. Other faults take the place of three that come only in a
# handshake, where the client in Rust makes calls that wait.
NOT_OVER_TLS = {FAILING, SILENT, *STAYING, "refused connections", "a network that can't be reached",
                "spurious wakes", "an interrupted send", "sends that would block"}


def line(item, sign):
    """Returns the line of rtr_diff about an item (docs/man/rtr_list.1)."""
    if isinstance(item, RouterKey):
        info = base64.b64encode(item.info).decode().rstrip("=")
        return f"{sign} router key {item.identifier.hex()} AS{item.asn} {info}"
    if isinstance(item, Aspa):
        providers = "".join(f" AS{asn}" for asn in item.providers) if sign == "+" else ""
        return f"{sign} ASPA AS{item.customer} providers{providers}"
    net = ipaddress.ip_network(item)
    return f"{sign} IPv{net.version} prefix {net}-{net.prefixlen} AS{AS}"


class Cache:
    """A cache that answers queries as RFC 8210 says, with data that change; but the first one by
    `refused`, if that isn't empty. If it stays, it doesn't close the connection of a report."""

    def __init__(self, family, data, refused, stays):
        host = "::1" if family == socket.AF_INET6 else "127.0.0.1"
        self.listener = socket.create_server((host, 0), family=family)
        self.port = self.listener.getsockname()[1]
        self.lock = threading.Lock()
        self.serial, self.history = 1, {1: data}
        self.connections, self.accepted = [], 0
        self.refused, self.reports, self.queries = refused, [], []
        self.stays, self.wait, self.is_reset = stays, None, None
        self.client = Future()  # the process, which may ask before its number is known here
        # The seconds from the end of a report's connection to the next one, but those in which the
        # client was busy, and whether it has closed the first one then.
        self.stay, self.is_closed = None, False
        threading.Thread(target=self.accept, daemon=True).start()

    def accept(self):
        while True:
            try:
                connection, _ = self.listener.accept()
            except OSError:
                return
            self.accepted += 1
            if self.accepted == 2 and self.wait:
                _, self.stay = self.wait.seconds()
                self.is_closed = is_reset(self.connections[0])
            self.connections.append(connection)
            threading.Thread(target=self.serve, args=(connection,), daemon=True).start()

    def serve(self, connection):
        """Answers queries until the connection ends."""
        unread, stays = b"", False
        try:
            while received := connection.recv(4096):
                unread += received
                while len(unread) >= 8 and len(unread) >= (size := size_of(unread)):
                    query, unread = unread[:size], unread[size:]
                    with self.lock:
                        connection.sendall(self.answer(query))
                    stays = self.stays and query[1] == REPORT
            if stays:
                self.wait = process_state.Wait(self.client.result(TIMEOUT))
                self.is_reset = is_reset(connection)
        except OSError:
            pass
        finally:
            if not stays:
                connection.close()

    def answer(self, query):
        since = struct.unpack(">I", query[8:12])[0] if query[1] == SERIAL_QUERY else None
        if query[1] == REPORT:
            self.reports.append(query)
        if query[1] not in (SERIAL_QUERY, RESET_QUERY):
            return b""
        self.queries.append(query)
        if self.refused:
            refused, self.refused = self.refused, b""
            return refused
        version = query[0]
        announced, withdrawn = changes(self.history.get(since, []), self.history[self.serial])
        units = payloads(announced, 1, version) + payloads(withdrawn, 0, version)
        start = unit(RESPONSE, SESSION, version=version)
        return start + b"".join(units) + end(self.serial, version)

    def change(self, data, notifies):
        """Serves these data under the next serial number."""
        with self.lock:
            self.serial += 1
            self.history[self.serial] = data
            if notifies:
                for connection in self.connections:
                    try:
                        connection.sendall(unit(NOTIFY, SESSION, struct.pack(">I", self.serial),
                                                self.queries[-1][0]))
                    except OSError:
                        pass

    def hang_up(self):
        with self.lock:
            for connection in self.connections:
                try:
                    connection.shutdown(socket.SHUT_RDWR)
                except OSError:
                    pass
            self.connections.clear()

    def end(self):
        self.listener.close()
        self.hang_up()


def silent_at(port):
    """Returns sockets that fill the queue of the first address."""
    listener = socket.socket()
    listener.bind(("127.0.0.2", port))
    listener.listen(0)
    return listener, socket.create_connection(("127.0.0.2", port))


def is_connecting(port):
    """Reports whether a connection to the first address is still being opened."""
    with open("/proc/net/tcp", encoding="ascii") as file:
        return any(line.split()[2:4] == [f"0200007F:{port:04X}", "02"] for line in file)


class Run:
    """Runs a client beside a cache, with these faults; one that counts what it has allocated
    reconnects after a short pause."""

    def __init__(self, command, faults, library, folder, name):
        identity = tls.identity_in(command)
        self.version = 1 if identity else 2
        self.unknown = unit(UNKNOWN_TYPE, 0, version=self.version)
        self.counts = name in (CONNECTS, FAILING)
        # After a connection without an answer a client may ask in a lower version (section 7).
        least = self.version - 1 if name in BREAKING else self.version
        data = [item for item in DATA if payloads([item], 1, least)]
        refused = self.unknown if name in REPORTING else b""
        self.cache = Cache(socket.AF_INET, data, refused, name in STAYING)
        self.front = tls.Front(self.cache.port, identity) if identity else None
        # The name has two addresses in sockets.c, and the cache is at the second.
        self.port = self.front.port if self.front else self.cache.port
        self.silent = silent_at(self.port) if name == SILENT else ()
        self.fault_log, self.state_path, self.memory_path = (
            os.path.join(folder, name) for name in ("seen", "state", "memory"))
        counting = {"FAULTS_PAUSE": PAUSE, "FAULTS_MEMORY": self.memory_path} if self.counts else {}
        self.output_file = open(os.path.join(folder, "said"), "w+b")
        words = [word.replace("ADDRESS", f"localhost:{self.port}") for word in command]
        self.process = subprocess.Popen(
            words, stdout=subprocess.PIPE, stderr=self.output_file,
            env={**os.environ, "LD_PRELOAD": library, "FAULTS": faults,
                 "FAULTS_SEEN": self.fault_log, "FAULTS_STATE": self.state_path, **counting})
        self.cache.client.set_result(self.process.pid)
        self.unread, self.lines = b"", collections.deque()

    def read(self, expected):
        """Checks that the client prints these lines next, those of one change in any order."""
        deadline = time.monotonic() + TIMEOUT
        while len(self.lines) < len(expected):
            remaining = deadline - time.monotonic()
            if remaining <= 0 or not select.select([self.process.stdout], [], [], remaining)[0]:
                raise Wrong(f"it printed {list(self.lines)} alone, not {expected}")
            received = os.read(self.process.stdout.fileno(), 4096)
            if not received:
                raise Wrong(f"it ended with status {self.process.wait()}")
            self.unread += received
            *whole, self.unread = self.unread.split(b"\n")
            self.lines.extend(line.decode() for line in whole)
        printed = [self.lines.popleft() for _ in expected]
        if sorted(printed) != sorted(expected):
            raise Wrong(f"it printed {printed}, not {expected}")

    def accepted(self):
        """Returns how often the client connected, also without a handshake."""
        return (self.front or self.cache).accepted

    def resources(self):
        """Returns how many descriptors, and threads or goroutines, the client has."""
        descriptors = len(os.listdir(f"/proc/{self.process.pid}/fd"))
        return descriptors, process_state.tasks(self.process, self.state_path)

    def wait_for_resources(self, limits):
        """Waits until the client has at most these numbers of descriptors and threads."""
        deadline = time.monotonic() + TIMEOUT
        while any(count > limit for count, limit in zip(self.resources(), limits)):
            if time.monotonic() > deadline:
                raise Wrong(f"it has {self.resources()} descriptors and threads, and had {limits}")
            time.sleep(0.1)

    def change(self, number):
        """Changes the data, and checks that the client prints the changes: after a notify if the
        number is 0, else over a new connection."""
        data = self.cache.history[self.cache.serial]
        new = [*data[1:], f"198.51.{number}.0/24"]
        self.cache.change(new, notifies=not number)
        if number:
            self.cache.hang_up()
        self.read(self.lines_of(data[:1], "-") + self.lines_of(new[-1:], "+"))

    def lines_of(self, items, sign):
        """Returns the lines about those items that the client's version has."""
        return [line(item, sign) for item in items if payloads([item], 1, self.version)]

    def play(self, may_break, reconnects):
        self.read(self.lines_of(self.cache.history[1], "+"))
        if self.silent and is_connecting(self.port):
            raise Wrong("it has data, and still opens a connection to the first address")
        first = self.resources()
        for number in range(1 + reconnects):
            self.change(number)
            if may_break and not number:
                first = self.resources()  # the first connection may have ended before that
            if not may_break and not number:
                self.check_queries()
            if number and number % HUNDRED == 0:
                self.wait_for_resources(first)
        if self.counts:
            self.check_memory()
        self.wait_for_resources(first)
        if not may_break and self.accepted() != 1 + reconnects:
            raise Wrong(f"it connected {self.accepted()} times, not {1 + reconnects}")
        self.process.send_signal(signal.SIGTERM)
        status = self.process.wait(TIMEOUT)
        if status not in (0, -signal.SIGTERM):
            raise Wrong(f"it ended with status {status} at SIGTERM")
        if self.lines or self.unread:
            raise Wrong(f"it printed more: {list(self.lines)}")

    def check_queries(self):
        """Checks that the client asked for all data, and at the notify for the changes (RFC 8210
        section 8.2), on one connection: the refresh time is an hour."""
        queries, accepted = self.cache.queries, self.accepted()
        expected = [unit(RESET_QUERY, 0, version=self.version),
                    unit(SERIAL_QUERY, SESSION, struct.pack(">I", 1), self.version)]
        if queries != expected:
            raise Wrong(f"its queries are {[query.hex() for query in queries]}")
        if accepted != 1:
            raise Wrong(f"it connected {accepted} times before a connection ended")

    def check_memory(self):
        """Checks that the client has allocated as much after 200 connections as after 100."""
        with open(self.memory_path, encoding="ascii") as file:
            earlier, later = ([int(word) for word in counted.split()] for counted in file)
        if any(after > before + most for after, before, most in zip(later, earlier, MOST_GROWTH)):
            raise Wrong(f"it has {later} objects and bytes, and had {earlier} before")

    def check_report(self):
        """Checks that the client sent one report, about the unit of an unknown type."""
        reports = self.cache.reports
        code = bytes([REPORT, 0, UNKNOWN_TYPE])
        about = struct.pack(">I", len(self.unknown)) + self.unknown
        if len(reports) != 1 or reports[0][1:4] != code or not reports[0][8:].startswith(about):
            raise Wrong(f"it sent these reports: {[report.hex() for report in reports]}")

    def check_stay(self):
        """Checks that the client closed the connection of its report for writing, and read on, but
        not for long."""
        if self.cache.is_reset is not False or self.cache.stay is None:
            raise Wrong("after its report it closed the connection, and not for writing alone")
        if self.cache.stay > MOST_STAY:
            raise Wrong(f"it connected {self.cache.stay:.1f} seconds after its report")
        if not self.cache.is_closed:
            raise Wrong("it connected, and still has the connection of its report")

    def end(self):
        self.process.kill()
        self.process.wait()
        self.process.stdout.close()
        self.cache.end()
        if self.front:
            self.front.close()
        for silent in self.silent:
            silent.close()
        self.output_file.seek(0)
        output = b"".join(collections.deque(self.output_file, LINES)).decode(errors="replace")
        self.output_file.close()
        return output


def play(command, name, library, folder):
    """Plays a client with the faults of this name. Returns a text of what was wrong, or None."""
    faults = FAULTS.get(name, "")
    run = Run(command, faults, library, folder, name)
    wrong = None
    try:
        usual = RECONNECTS_OVER_TLS if run.front else RECONNECTS
        reconnects = {CONNECTS: 2 * HUNDRED, SILENT: SILENT_RECONNECTS, FAILING: 1}.get(
            name, usual)
        run.play(name in BREAKING or name in (CONNECTS, FAILING, *REPORTING), reconnects)
        if name in REPORTING:
            run.check_report()
        if name in STAYING:
            run.check_stay()
        if faults and not os.path.exists(run.fault_log):
            raise Wrong("the fault wasn't injected")
    except (Wrong, OSError, subprocess.TimeoutExpired) as error:
        wrong = error
    output = run.end()
    return wrong and f"{wrong}\n{output}"


def names(program):
    """Returns the names of the runs of a client. In Go only calls of connections get faults, and a
    short write is one whose time is over, after which no more of a report is sent; and names are
    looked up by Go itself. Over TLS another program has the connection of the cache."""
    counts = [] if program in NOT_COUNTING else [CONNECTS]
    if program == "Rust that counts":
        return counts
    is_over_tls = program.endswith(tls.OVER)
    left_out = {*NOT_OVER_TLS} if is_over_tls else {*OVER_TLS, FAILING}
    if program in IN_C:
        left_out -= {FAILING, SILENT}
    if program in IN_GO:
        left_out |= {"interrupted waits", INTERRUPTED, STAYS_LONGER, SILENT}
    if program == "Go":
        left_out.add(REFUSED)
    if program in READING_AT_ONCE:
        left_out.add("resets in answers over TLS")
    return [*(name for name in FAULTS if name not in left_out), *counts]
