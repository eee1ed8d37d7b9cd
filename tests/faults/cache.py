"""A cache program over a file, with faults in its calls, and routers that ask it."""
import collections
import contextlib
import http.client
import itertools
import os
import re
import resource
import select
import signal
import socket
import ssl
import statistics
import struct
import subprocess
import time

import process_state
import tls
from units import END, NO_DATA, NOTIFY, REPORT, RESET_QUERY, RESPONSE, SERIAL_QUERY, SESSION
from units import TIMEOUT, Wrong, changes, end, payloads, size_of, unit

# The errors of a router's connection that ended, also over TLS.
ENDED = ConnectionError, ssl.SSLError
# Errors that end the connection on whose call they are injected.
ENDING = {"EPIPE", "ECONNRESET", "ETIMEDOUT", "EHOSTUNREACH", "EIO"}

MINUTE = 60  # the least seconds between two notifies of a connection
STATE = "STATE"  # the word of a command for the folder that rtr-cache saves in
METRICS = "--metrics"  # its word for the address of its metrics
COLLECTS = {"GOGC": "1"}  # so that a program in Go has little garbage
RESET_WAIT = 100  # milliseconds: the loopback interface passes a reset at once
LOOKS, LOOK = 5, 0.03  # how often a cache's descriptors are counted at rest, and the pause between
# The numbers of answers of which the median of goroutines, and the least memory, count.
ANSWERS, MEASURED = 5, 20
# How many goroutines more than at the start are allowed: those of a metrics answer.
COLLECTING = 3


def is_reset(connection):
    """Sends bytes on a connection whose other end sends nothing any more, and reports whether it is
    reset: then that end was closed, and not for writing alone."""
    errors = select.poll()
    errors.register(connection, 0)
    with contextlib.suppress(*ENDED):
        connection.sendall(bytes(8))
    return bool(errors.poll(RESET_WAIT))


class Lost(Exception):
    """The connection of a router ended."""


class Cache:
    """A cache program. `path` is the file of data that it serves, and `saved_path` the file that it
    saves. rtr-cache saves in a folder and draws its session; all others take that of the data. It
    serves metrics, by HTTP, which have its numbers of goroutines and of bytes of memory."""

    def __init__(self, command, faults, library, folder, calls=None):
        """Starts the program. `calls` is the name of a file for the tracer's list of calls."""
        self.path = os.path.join(folder, "data")
        self.calls = calls and os.path.join(folder, calls)
        self.saved_path = saved_path(command, folder)
        self.draws_session = STATE in command
        identity = tls.identity_in(command)
        self.context = tls.router_context(identity) if identity else None
        self.session = None if self.draws_session else SESSION
        self.fault_log, self.log_path = os.path.join(folder, "seen"), os.path.join(folder, "log")
        self.state_path, self.memory_path = (
            os.path.join(folder, name) for name in ("state", "memory"))
        with open(self.log_path, "wb") as log:
            words = [word.replace(STATE, os.path.dirname(self.saved_path)) for word in command]
            self.process = subprocess.Popen(
                [*words, self.path, "--listen", "127.0.0.1:0"], stdout=log, stderr=log,
                env={**os.environ, **COLLECTS, "LD_PRELOAD": library, "FAULTS": faults,
                     "FAULTS_SEEN": self.fault_log, "FAULTS_STATE": self.state_path,
                     "FAULTS_MEMORY": self.memory_path,
                     **({"FAULTS_CALLS": self.calls} if calls else {})})
        self.port = int(self.wait_for_line(r"listening (?:on|at) 127\.0\.0\.1:(\d+).*")[1])
        self.metrics = None
        if METRICS in command:
            found = self.wait_for_line(r"metrics are at http://([\d.]+:\d+)/metrics.*")
            self.metrics = http.client.HTTPConnection(found[1], timeout=TIMEOUT)

    def log_text(self):
        with open(self.log_path, encoding="utf-8") as log:
            return log.read()

    def wait_until(self, condition, text):
        """Waits until a condition holds, and returns its value. Raises Wrong with `text` if it
        never holds."""
        deadline = time.monotonic() + TIMEOUT
        while not (found := condition()):
            if self.process.poll() is not None:
                raise Wrong(f"it ended with status {self.process.poll()} before: {text}")
            if time.monotonic() > deadline:
                raise Wrong(f"it never happened: {text}")
            time.sleep(0.02)
        return found

    def wait_for_line(self, pattern):
        """Waits until a line of the log ends with a pattern, and returns the match."""
        return self.wait_until(
            lambda: re.search(f"{pattern}$", self.log_text(), re.MULTILINE), pattern)

    def wait_for_serial(self, serial):
        """Waits until the cache serves the data of this serial number. A cache in Go then opens
        /dev/null, to have a descriptor for the next file."""
        session = self.session or r"\d+"
        line = self.wait_for_line(rf"session ({session}) serial {serial}: \d+ payloads?.*")
        self.session = int(line[1])
        if os.path.exists(self.state_path):
            self.wait_until(self.links_with_spare, "it has loaded the data")

    def replace(self, content):
        replace_file(self.path, content)

    def resources(self):
        """Returns the numbers of descriptors except files in memory, of threads or goroutines, and
        of files in memory, which hold encoded data. It ignores the list of faults. A cache in Go
        lacks its spare descriptor while it looks at its file: this waits until it has it."""
        links = self.links()
        if os.path.exists(self.state_path):
            links = self.wait_until(self.links_with_spare, "it has a spare descriptor")
        memory = sum(link.startswith("/memfd:") for link in links)
        return len(links) - memory, self.tasks(), memory

    def usual_resources(self):
        """Returns the `resources` that most of some looks find: while a cache looks for its file,
        or tries to save, it has one descriptor more or less for a moment."""
        looks = []
        for _ in range(LOOKS):
            looks.append(self.resources())
            time.sleep(LOOK)
        return statistics.mode(looks)

    def tasks(self):
        """Returns the number of threads or goroutines; of rtr-cache, which serves each question by
        a varying number of them, that of most answers."""
        if self.metrics:
            return statistics.median(self.metric("go_goroutines") for _ in range(ANSWERS))
        return process_state.tasks(self.process, self.state_path)

    def metric(self, name):
        """Returns the value of a metric."""
        for _ in range(2):
            try:
                self.metrics.request("GET", "/metrics")
                text = self.metrics.getresponse().read().decode()
                return int(float(re.search(rf"^{name} (.*)$", text, re.MULTILINE)[1]))
            except (http.client.HTTPException, ConnectionError):
                self.metrics.close()  # it was closed since nothing was asked for long
        raise Wrong("it serves no metrics")

    def links_with_spare(self):
        """Returns the targets of its descriptors if it opened /dev/null itself, else None."""
        links = self.links()
        return links if "/dev/null" in links[3:] else None

    def links(self):
        """Returns the targets of its descriptors, except the list of faults, and sockets of the
        metrics."""
        folder = f"/proc/{self.process.pid}/fd"
        links, others = [], process_state.sockets_at("127.0.0.2") if self.metrics else ()
        for name in sorted(os.listdir(folder), key=int):
            try:
                link = os.readlink(f"{folder}/{name}")
            except FileNotFoundError:
                continue  # it was closed meanwhile
            if link != self.fault_log and link not in others:
                links.append(link)
        return links

    def wait_for_resources(self, first, memory, routers=0):
        """Waits until it has the `first` numbers of descriptors and threads, one more for each
        connected router, and at most `memory` files in memory. In Go a router also has a
        goroutine. The numbers of rtr-cache vary, so what it leaves shows after several routers."""
        tasks = routers if self.metrics or os.path.exists(self.state_path) else 0
        expected = first[0] + routers, first[1] + tasks

        def is_settled():
            descriptors, running, files = self.resources()
            extra = running - expected[1]
            is_running = extra <= COLLECTING if self.metrics else extra == 0
            return descriptors == expected[0] and is_running and files <= memory
        try:
            self.wait_until(is_settled, "descriptors and threads as at the start")
        except Wrong as wrong:
            raise Wrong(f"{wrong}: {self.resources()}, not {expected} and {memory}") from None

    def memory_size(self):
        """Returns its resident memory in bytes, or in Go and Node that of its heap."""
        if self.metrics:
            return min(self.metric("go_memstats_heap_alloc_bytes") for _ in range(MEASURED))
        counts = os.path.exists(self.memory_path)
        return process_state.memory(self.process, self.memory_path if counts else self.state_path)

    def cpu_seconds(self):
        """Returns the processor's time that it has used."""
        with open(f"/proc/{self.process.pid}/stat", encoding="ascii") as file:
            words = file.read().rpartition(")")[2].split()
        return (int(words[11]) + int(words[12])) / os.sysconf("SC_CLK_TCK")

    def starve(self):
        """Lowers the limit of its descriptors to those that it has. Returns its former limits."""
        used = {int(name) for name in os.listdir(f"/proc/{self.process.pid}/fd")}
        free = next(number for number in itertools.count() if number not in used)
        soft, hard = resource.prlimit(self.process.pid, resource.RLIMIT_NOFILE)
        resource.prlimit(self.process.pid, resource.RLIMIT_NOFILE, (free, hard))
        return soft, hard

    def feed(self, limits):
        """Sets the limits of its descriptors."""
        resource.prlimit(self.process.pid, resource.RLIMIT_NOFILE, limits)

    def injected_faults(self):
        """Returns the faults that were injected, as words: the call, its number, the fault."""
        if not os.path.exists(self.fault_log):
            return []
        with open(self.fault_log, encoding="ascii") as file:
            return [line.split() for line in file]

    def may_close(self):
        """Reports whether it closes new connections while it has no descriptors, as Node does by
        one that it has in reserve."""
        return os.path.exists(self.memory_path)

    def terminate(self):
        """Ends the program by SIGTERM, and checks its status."""
        self.process.send_signal(signal.SIGTERM)
        status = self.process.wait(TIMEOUT)
        if status not in (0, -signal.SIGTERM):
            raise Wrong(f"it ended with status {status} at SIGTERM")

    def kill(self):
        """Kills the program, if it runs."""
        self.process.kill()
        self.process.wait()


def saved_path(command, folder):
    """Returns the path of the file that a cache saves below a folder."""
    return os.path.join(folder, "saved/editions" if STATE in command else "data.kept")


def replace_file(path, content):
    """Replaces a file by renaming another one."""
    with open(path + ".other", "wb") as file:
        file.write(content)
    os.replace(path + ".other", path)


class Router:
    """A connection to a cache, in a version of the protocol; over TLS if the cache is."""

    def __init__(self, cache, version=2, buffer_size=None):
        self.version, self.session, self.unread, self.offset = version, cache.session, b"", 0
        self.is_notified, self.connected_at = False, time.monotonic()
        self.socket = socket.socket()
        if buffer_size:
            self.socket.setsockopt(socket.SOL_SOCKET, socket.SO_RCVBUF, buffer_size)
        if cache.context:
            self.socket = tls.router_end(cache.context, self.socket)
        self.socket.settimeout(TIMEOUT)
        self.socket.connect(("127.0.0.1", cache.port))

    def close(self):
        self.socket.close()

    def reset(self):
        """Closes the connection by a reset."""
        self.socket.setsockopt(socket.SOL_SOCKET, socket.SO_LINGER, struct.pack("ii", 1, 0))
        self.socket.close()

    def unit(self, kind, field=0, body=b""):
        return unit(kind, field, body, self.version)

    def send(self, query):
        try:
            self.socket.sendall(query)
        except ENDED as error:
            raise Lost from error

    def ask_all(self):
        self.send(self.unit(RESET_QUERY))

    def ask_after(self, serial):
        self.send(self.unit(SERIAL_QUERY, self.session, struct.pack(">I", serial)))

    def read_unit(self):
        """Reads one unit."""
        while True:
            head = self.unread[self.offset:self.offset + 8]
            after = self.offset + (size_of(head) if len(head) == 8 else 8)
            if after <= len(self.unread):
                whole, self.offset = self.unread[self.offset:after], after
                return whole
            self.unread, self.offset = self.unread[self.offset:] + self.receive(), 0

    def receive(self, limit=1 << 16):
        try:
            received = self.socket.recv(limit)
        except ENDED as error:
            raise Lost from error
        except socket.timeout as error:
            raise Wrong("the cache sent nothing") from error
        if not received:
            raise Lost
        return received

    def trickle(self, limit, pause, stop):
        """Receives at most `limit` bytes at a time, with a pause in seconds before each, until the
        event `stop`."""
        try:
            while not stop.wait(pause):
                self.unread += self.receive(limit)
        except (Lost, Wrong):
            pass  # the next read meets it, too

    def expect(self, expected):
        """Reads a unit, and checks that it is this one."""
        received = self.read_unit()
        if received != expected:
            raise Wrong(f"a router got {received.hex()}, not {expected.hex()}")

    def notify(self, serial):
        return self.unit(NOTIFY, self.session, struct.pack(">I", serial))

    def expect_notify(self, serial):
        self.expect(self.notify(serial))
        self.is_notified = True

    def expect_no_data(self):
        """Expects a report that there are no data (RFC 8210 section 8.4) about a reset query."""
        self.expect_report(NO_DATA, self.unit(RESET_QUERY))

    def expect_report(self, code, refused):
        """Expects a report of this code about this unit."""
        report = self.read_unit()
        size = struct.unpack(">I", report[8:12])[0]
        head = struct.pack(">BBH", self.version, REPORT, code)
        if report[:4] != head or report[12:12 + size] != refused:
            raise Wrong(f"a router got {report.hex()}, not a report of code {code}")

    def expect_last_report(self, code, refused):
        """Expects a report of this code about this unit, and then the end of what the cache sends.
        It still reads: a reset may let a system drop what wasn't read yet."""
        self.expect_report(code, refused)
        try:
            rest = self.unread[self.offset:] + self.socket.recv(1)
        except ENDED as error:
            raise Wrong(f"after a report: {error}") from error
        if rest:
            raise Wrong(f"after a report a router got {rest.hex()}")
        if is_reset(self.socket):
            raise Wrong("after a report the cache closed the connection, and not for writing alone")

    def may_be_notified(self):
        """Reports whether a notify may have come: the first of a connection, or another one if the
        connection has lasted for a minute (RFC 8210 section 5.2)."""
        return not self.is_notified or time.monotonic() > self.connected_at + MINUTE

    def expect_answer(self, serial, items, withdrawn=()):
        """Expects a whole answer: the units of these items that the version has, in any order
        between a response and an end. A notify may come before it."""
        while (first := self.read_unit()) == self.notify(serial) and self.may_be_notified():
            self.is_notified = True
        if first != self.unit(RESPONSE, self.session):
            raise Wrong(f"a router got {first.hex()}, not a response")
        units = []  # they are compared later, since the cache closes if nothing is read for long
        while (received := self.read_unit())[1] != END:
            units.append(received)
        found = collections.Counter(units)
        expected = collections.Counter(payloads(items, 1, self.version))
        expected += collections.Counter(payloads(withdrawn, 0, self.version))
        expected_end = end(serial, self.version, self.session)
        if received != expected_end:
            raise Wrong(f"a router got the end {received.hex()}, not {expected_end.hex()}")
        if found != expected:
            extra, missing = list(found - expected), list(expected - found)
            raise Wrong(f"a router got {[unit.hex() for unit in extra[:3]]} of {len(extra)} too "
                        f"many, and lacks {[unit.hex() for unit in missing[:3]]} of {len(missing)}")

    def skip_answer(self, serial, items):
        """Reads as many bytes as a whole answer with these items has, and checks its end."""
        units = [self.unit(RESPONSE, self.session), *payloads(items, 1, self.version),
                 end(serial, self.version, self.session)]
        size = sum(map(len, units))
        while len(self.unread) < size:
            self.unread += self.receive()
        if not self.unread.endswith(units[-1]) or len(self.unread) > size:
            raise Wrong(f"a router got {len(self.unread)} bytes, not an answer of {size}")
        self.unread = b""

    def expect_changes(self, before, after, serial):
        """Expects an answer with the changes from one list of items to another."""
        self.expect_answer(serial, *changes(before, after))
