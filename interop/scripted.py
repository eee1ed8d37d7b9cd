"""Scripted caches: each answers as a scene says, and records when each unit came, by the system's
time, since on a busy machine a thread sees bytes late. Their units are made here, without the
library."""
import contextlib
import socket
import struct
import threading
import time
from typing import NamedTuple

import payloads
import recorder
from payloads import REPORT, RESET, RESPONSE, TIMINGS
from processes import on_port
from tap import close, listener_on

SESSION = 4660

# The code of a report of no data (RFC 8210 section 12).
NO_DATA = 2

# The offsets in struct tcp_info (linux/tcp.h) of how many milliseconds ago data were last sent and
# received. Before the first sent byte, the first is the age of the connection.
SENT, RECEIVED = 44, 52
INFO_BYTES = 104

# Both clocks are read within this many seconds; the system's times are in ticks of this many.
READ_SECONDS, TICK = 0.005, 0.01


def when(connection, field):
    """Returns when the system sent or received the last data of a connection, by its own clock."""
    while True:
        before = time.monotonic()
        info = connection.getsockopt(socket.IPPROTO_TCP, socket.TCP_INFO, INFO_BYTES)
        if time.monotonic() - before < READ_SECONDS:
            return before - struct.unpack_from("=I", info, field)[0] / 1000


def notify(version, serial):
    """Returns a serial notify (RFC 8210 section 5.2)."""
    return struct.pack(">BBHII", version, payloads.NOTIFY, SESSION, 12, serial)


def report(query, code=0, text=b"another session"):
    """Returns an error report about a query (RFC 8210 sections 5.11 and 12)."""
    rest = struct.pack(">I", len(query)) + query + struct.pack(">I", len(text)) + text
    return struct.pack(">BBHI", query[0], REPORT, code, 8 + len(rest)) + rest


def cache_reset(query):
    """Returns a cache reset in the version of a query (RFC 8210 section 5.9)."""
    return struct.pack(">BBHI", query[0], RESET, 0, 8)


def response(version):
    """Returns a cache response (RFC 8210 section 5.5)."""
    return struct.pack(">BBHI", version, RESPONSE, SESSION, 8)


def whole(listed, version, serial, timings=TIMINGS):
    """Returns the answer with all payloads of a list."""
    return response(version) + payloads.sequence(listed, version, SESSION, serial, timings)


def nothing_new(version, serial, timings=TIMINGS):
    """Returns the answer without changes."""
    return response(version) + payloads.end_of_data(version, SESSION, serial, timings)


class Query(NamedTuple):
    """A unit of a router: when the system received it, on which connection, and its bytes."""
    when: float
    connection: int
    unit: bytes

    @property
    def version(self):
        """Its protocol version."""
        return self.unit[0]

    @property
    def kind(self):
        """Its type."""
        return self.unit[1]


class Router:
    """A connection of a router."""

    def __init__(self, cache, connection, number):
        self.cache, self.socket, self.number = cache, connection, number

    def send(self, content):
        """Sends bytes, if the router still reads."""
        with contextlib.suppress(OSError):
            self.socket.sendall(content)

    def close(self):
        """Closes the connection, and records when it first did."""
        self.cache.closed.setdefault(self.number, time.monotonic())
        close(self.socket)


class Cache:
    """A cache on the loopback interface. Its scene's `answer` gets each unit of a router."""

    def __init__(self):
        self.queries = []
        # When connections were made, and, by number, when the cache closed them.
        self.came, self.closed = [], {}
        self.routers = []
        self.port = self.listener = None
        self.listen()

    def __enter__(self):
        return self

    def __exit__(self, *_):
        self.end()

    def listen(self):
        """Accepts connections, after `end` on the same port again."""
        self.listener = on_port(listener_on, self.port)
        self.port = self.listener.getsockname()[1]
        threading.Thread(target=self.accept, args=(self.listener,), daemon=True).start()

    def end(self):
        """Stops like a dying cache: its connections are closed, and new ones refused."""
        close(self.listener)
        for router in self.routers:
            router.close()

    def accept(self, listener):
        """Accepts connections until the listener is closed."""
        with contextlib.suppress(OSError):
            while True:
                connection, _ = listener.accept()
                router = Router(self, connection, len(self.came))
                self.came.append(when(connection, SENT))
                self.routers.append(router)
                if listener.fileno() < 0:  # it ended meanwhile
                    router.close()
                threading.Thread(target=self.serve, args=(router,), daemon=True).start()

    def serve(self, router):
        """Answers the queries of a connection, to its end."""
        content = b""
        with contextlib.suppress(OSError):
            while piece := router.socket.recv(1 << 16):
                content += piece
                for unit in recorder.units(content):
                    content = content[len(unit):]
                    query = Query(when(router.socket, RECEIVED), router.number, unit)
                    self.queries.append(query)
                    self.answer(router, query)
        close(router.socket)

    def answer(self, router, query):
        """Answers a unit of a router."""
        raise NotImplementedError

    def asked(self, *kinds):
        """Returns the queries of these types so far."""
        return [query for query in self.queries if query.kind in kinds]

    def seen(self):
        """Returns what it saw so far, in short: connections and queries, after how many seconds."""
        events = [(came, f"connection {number}") for number, came in enumerate(self.came)]
        events += [(query.when, f"type {query.kind} v{query.version}") for query in self.queries]
        events += [(closed, f"closed {number}") for number, closed in self.closed.items()]
        first = min(events, default=(0, ""))[0]
        return "; ".join(f"{time - first:.2f} {what}" for time, what in sorted(events))
