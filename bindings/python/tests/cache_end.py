"""A Server with a simulated clock and loop, as an end of a connection (tests/joined/README.md)."""
import ctypes
import selectors

from rtr_wire import server as server_module
from rtr_wire._rtr import Entry
from rtr_wire.data import Data
from rtr_wire.server import Server, UpdateError
from rtr_wire.serving import ServerLimits
from rtr_wire.store import SavedFile, Store

from .scene_input import play

NEVER = 2**64 - 1


class Timer:
    """A timer of the loop, at a simulated time."""

    def __init__(self, when, call):
        self.when, self.call = when, call

    def cancel(self):
        self.call = None


class Loop:
    """The clock of a server and its event loop, with one connection."""

    def __init__(self):
        self.time, self.timer = 0, None
        self.watched = {}  # what the connection calls when it can be read, or written

    def now(self):
        return self.time

    def until(self, when):
        return when

    def call_later(self, when, call):
        self.timer = Timer(when, call)
        return self.timer

    def call_soon(self, call):
        call()

    call_soon_threadsafe = call_soon

    def add_reader(self, _, call):
        self.watched[selectors.EVENT_READ] = call

    def add_writer(self, _, call):
        self.watched[selectors.EVENT_WRITE] = call

    def remove_reader(self, _):
        del self.watched[selectors.EVENT_READ]

    def remove_writer(self, _):
        del self.watched[selectors.EVENT_WRITE]

    def create_future(self):
        return None


class Nowhere(SavedFile):
    """A file that isn't written."""

    def save(self, store):
        pass


class Socket:
    """The socket of the connection. The router reads at most `window` bytes."""

    def __init__(self, end):
        self.end, self.came, self.window = end, b"", NEVER
        self.has_closed = self.is_broken = False

    def send(self, data):
        if self.is_broken:
            raise BrokenPipeError
        taken = bytes(data[:self.window])
        if not taken:
            raise BlockingIOError
        self.window -= len(taken)
        self.end.does(f"cache> {taken.hex()}")
        return len(taken)

    def recv(self, most):
        if self.is_broken:
            raise ConnectionResetError
        if not self.came and not self.has_closed:
            raise BlockingIOError
        taken, self.came = self.came[:most], self.came[most:]
        return taken

    def shutdown(self, _):
        self.end.closes()

    def close(self):
        self.end.closes()


class End:
    """A cache, as a scene needs it."""

    def __init__(self):
        self.limits, self.begun = {}, 0
        self.loop, self.socket, self.connection, self._server = Loop(), None, None, None
        server_module._date = lambda: self.begun + self.loop.time

    @property
    def server(self):
        if self._server is None:
            self._server = Server(ServerLimits(**self.limits))
            self._server._clock = self.loop
        return self._server

    def does(self, what):
        print(self.loop.time, what)

    def closes(self):
        """The connection is over: all bytes before the end were sent."""
        if self.socket is not None:
            self.socket = None
            self.does("closes")

    def settle(self):
        """Runs the connection until it waits."""
        while True:
            ready, sock = None, self.socket
            if sock is not None and selectors.EVENT_READ in self.loop.watched:
                if sock.came or sock.has_closed or sock.is_broken:
                    ready = self.loop.watched[selectors.EVENT_READ]
            elif sock is not None and (sock.window or sock.is_broken):
                ready = self.loop.watched.get(selectors.EVENT_WRITE)
            if ready is None:
                return
            ready()

    @property
    def wakes(self):
        timer = self.loop.timer
        return NEVER if self.socket is None or timer is None else timer.when

    def passes(self, time):
        """Advances the clock to this time."""
        while self.wakes <= time:
            self.loop.time = max(self.loop.time, self.wakes)
            self.connection.go_on()
            self.settle()
        self.loop.time = time

    def connects(self, entry):
        run = server_module._Run(self.server, self.loop, [], None)
        run.over = Over()
        self.server._runs = {run}
        self.socket, self.loop.watched, self.loop.timer = Socket(self), {}, None
        self.connection = server_module._Connection(run, self.socket, None, entry)
        run._connections.add(self.connection)
        self.connection.go_on()

    def updates(self, data):
        """Gives the server data. For a scene that goes back to a session, the server forgets which
        ones it left."""
        try:
            self.server._update(data, Nowhere("", is_own=True))
        except UpdateError as error:
            if error.status != server_module.StoresStatus.SESSION_LEFT:
                raise
            self.server._store = Store()
            self.server._update(data, Nowhere("", is_own=True))

    def forgets(self, serial):
        """Drops the changes from a serial number and from earlier ones."""
        edition = self.server._edition
        kept = list(edition.known)[:list(edition.known).index(serial)]
        edition.known = (ctypes.c_uint32 * len(kept))(*kept)

    def take_step(self, step, words):
        """Carries out a step of the router or the data."""
        if step == "data":
            self.updates(Data.from_bytes(bytes.fromhex("".join(words[1:-1]))))
        elif step == "forgets":
            self.forgets(int(words[0]))
        elif step == "saves":
            self.server.save(words[0])
        elif step == "restores":
            self.server.restore(words[0])
            self.server._file = Nowhere("", is_own=True)  # the file stays as it is
        elif words[0] == "connects":
            self.connects(Entry.REFUSE if words[1:] else Entry.SERVE)
        elif self.socket is not None:
            self.takes_of_router(step, words)
        self.settle()

    def takes_of_router(self, step, words):
        sock = self.socket
        if step == "router>":
            sock.came += bytes.fromhex("".join(words))
        elif words[0] == "takes":
            sock.window = int(words[1])
        elif words[0] == "closes":
            sock.has_closed = True
        elif words[0] == "breaks":
            sock.is_broken = True

    def set(self, name, value):
        if name == "date":
            self.begun = value
        elif name in ("keep_bytes", "refuses"):
            self.limits[name] = value
        elif name != "usual":
            self.limits[name] = value / 1000


class Over:
    """The future of a call of `Server.serve`, which doesn't end."""

    def done(self):
        return True


if __name__ == "__main__":
    play(End, "cache")
