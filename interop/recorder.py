"""Sessions with a cache, recorded byte for byte, each direction in a file."""
import os
import socket
import struct
import time

from payloads import END, NOTIFY, REPORT, RESET, RESET_QUERY, RESPONSE, SERIAL_QUERY, TIMINGS

# The most bytes of an answer, and its time limit.
BYTES = 1 << 24
SECONDS = 30


def reset_query(version):
    """Returns a reset query (RFC 8210 section 5.4)."""
    return struct.pack(">BBHI", version, RESET_QUERY, 0, 8)


def serial_query(version, session, serial):
    """Returns a serial query (RFC 8210 section 5.3)."""
    return struct.pack(">BBHII", version, SERIAL_QUERY, session, 12, serial)


def units(content):
    """Yields the whole units of these bytes."""
    found = []
    while len(content) >= 8:
        length = struct.unpack_from(">I", content, 4)[0]
        if length < 8 or length > len(content):
            break
        found.append(content[:length])
        content = content[length:]
    return found


class End:
    """The fields of an end of data."""

    def __init__(self, unit):
        self.version, _, self.session = struct.unpack_from(">BBH", unit)
        self.serial = struct.unpack_from(">I", unit, 8)[0]
        self.timings = struct.unpack_from(">3I", unit, 12) if len(unit) == 24 else TIMINGS


class Answer:
    """An answer: what a cache sent after a query, up to its last unit."""

    def __init__(self, content, closed):
        self.content = content
        self.closed = closed
        self.units = units(content)
        self.last = self.units[-1][1] if self.units else None

    def end(self):
        """Returns its end of data."""
        if self.last != END:
            raise ValueError(f"an answer without an end of data: {self.content[:64].hex(' ')}")
        return End(self.units[-1])

    def sequence(self):
        """Returns its payload units and its end of data, without what comes before."""
        first = next(i for i, unit in enumerate(self.units) if unit[1] == RESPONSE)
        return b"".join(self.units[first + 1:])

    def kinds(self):
        """Describes it: the types of its units other than payloads, as words."""
        names = {NOTIFY: "serial notify", RESPONSE: "cache response", END: "end of data",
                 RESET: "cache reset", REPORT: "error report"}
        words = []
        for unit in self.units:
            if unit[1] in names:
                code = f" code {struct.unpack_from('>H', unit, 2)[0]}" if unit[1] == REPORT else ""
                words.append(f"{names[unit[1]]} v{unit[0]}{code}")
        if self.closed:
            words.append("closed")
        return ", ".join(words) or "nothing"


class Session:
    """A connection to a cache. Received bytes are stored in NAME.answers, sent ones in
    NAME.queries; a later session of the same name overwrites them."""

    def __init__(self, port, folder, name):
        self.path = os.path.join(folder, name + ".answers")
        self.socket = socket.create_connection(("127.0.0.1", port), SECONDS)
        self.answers = open(self.path, "wb")
        self.queries = open(os.path.join(folder, name + ".queries"), "wb")
        self.pending = b""

    def __enter__(self):
        return self

    def __exit__(self, *_):
        self.socket.close()
        self.answers.close()
        self.queries.close()

    def send(self, query):
        """Sends bytes, and stores them."""
        self.queries.write(query)
        self.queries.flush()
        self.socket.sendall(query)

    def ask(self, query, seconds=SECONDS):
        """Sends a query, and returns everything up to the end of data, cache reset or report after
        it."""
        self.send(query)
        return self.read({END, RESET, REPORT}, seconds)

    def notified(self, seconds):
        """Waits for a serial notify."""
        return self.read({NOTIFY}, seconds)

    def read(self, types, seconds):
        """Reads whole units up to one of these types, the end, or for this many seconds."""
        end = time.monotonic() + seconds
        taken, closed = 0, False
        while True:
            for unit in units(self.pending[taken:]):
                taken += len(unit)
                if unit[1] in types:
                    return self.taken(taken, closed)
            if closed or time.monotonic() >= end or len(self.pending) > BYTES:
                return self.taken(taken, closed)
            closed = not self.receive(end)

    def receive(self, end):
        """Reads what comes until this time, and returns whether the connection is still open."""
        self.socket.settimeout(max(0.05, end - time.monotonic()))
        try:
            content = self.socket.recv(1 << 16)
        except TimeoutError:
            return True
        except ConnectionError:
            return False
        self.answers.write(content)
        self.answers.flush()
        self.pending += content
        return bool(content)

    def taken(self, count, closed):
        """Removes and returns the first received bytes, which belong to this answer."""
        content, self.pending = self.pending[:count], self.pending[count:]
        return Answer(content, closed)
