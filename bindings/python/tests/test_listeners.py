"""What a server does with its listener, its timers and the options of its sockets, and updates of
two threads at once."""
import asyncio
import contextlib
import errno
import socket
import threading
import unittest
from unittest import mock

from rtr_wire import Server, UpdateError

from .test_server import Servers, data

FAILURES = 9  # one less than the failures in a row that end a listener
HOUR = 3600  # seconds of a pause that lasts longer than the test
NOT_MET = 0.5  # seconds for what must not happen
BUFFER = 1 << 17  # bytes of a connection's send buffer


class Listener(socket.socket):
    """A listener that fails before it accepts each connection, as often as these numbers say."""

    def __init__(self, failures):
        super().__init__(socket.AF_INET, socket.SOCK_STREAM)
        self.failures = list(failures)
        self.bind(("127.0.0.1", 0))
        self.listen()

    def accept(self):
        """Fails, or accepts."""
        if self.failures and self.failures[0]:
            self.failures[0] -= 1
            raise OSError(errno.EPROTO, "failed")
        accepted = super().accept()
        self.failures = self.failures[1:]
        return accepted


class Listeners(Servers):
    """A server with data over such a listener."""

    def listens(self, *failures):
        """Starts the server, and returns it."""
        server, self.listener = Server(), Listener(failures)
        server.update(data(1, [1]))
        self.port = self.listener.getsockname()[1]
        self.tasks.append(asyncio.ensure_future(server.serve(sock=self.listener)))
        return server

    async def answered(self):
        """Connects a router, which gets the data."""
        router = await self.router()
        router.asks_all()
        await router.answer()

    async def test_failures_that_are_not_in_a_row(self):
        """A connection between failures ends their row, so the listener goes on."""
        with mock.patch("rtr_wire.server._PAUSE", 0.001):
            self.listens(FAILURES, FAILURES, FAILURES)
            for _ in range(3):
                await self.answered()
        self.assertEqual((self.listener.failures, self.tasks[0].done()), ([], False))

    async def test_options(self):
        """A connection sends a small unit at once, and has the server's size of a send buffer, of
        which Linux reports the double."""
        server = self.listens()
        await self.answered()
        run, = server._runs
        connection, = run._connections
        option = connection._socket.getsockopt
        self.assertEqual(option(socket.IPPROTO_TCP, socket.TCP_NODELAY), 1)
        self.assertIn(option(socket.SOL_SOCKET, socket.SO_SNDBUF), (BUFFER, 2 * BUFFER))

    async def test_timers(self):
        """A server that is closed cancels the timers of its connections, and that of a listener
        that pauses."""
        loop, timers = asyncio.get_running_loop(), []
        later = loop.call_later

        def sets(*words):
            timers.append(later(*words))
            return timers[-1]

        with mock.patch("rtr_wire.server._PAUSE", HOUR), \
                mock.patch.object(loop, "call_later", sets):
            server = self.listens(0, 1)
            await self.answered()
            await self.router()
            await self.has(lambda: self.listener.failures == [0])
            server.close()
            left = [timer for timer in timers if not timer.cancelled()]
        self.assertGreater(len(timers), 1)
        self.assertEqual(left, [])


class Updates(unittest.TestCase):
    """Updates of a server that saves."""

    def test_two_threads(self):
        """An update waits until another one has saved its data."""
        server, at_once, met = Server(), threading.Event(), []
        saving = threading.Semaphore(1)

        def saves(*_):
            if not saving.acquire(blocking=False):
                at_once.set()
                return
            met.append(at_once.wait(NOT_MET))
            saving.release()

        def updates(serial):
            with contextlib.suppress(UpdateError):  # the other one came first
                server.update_saved(data(serial, [serial]), "data.kept")

        with mock.patch("rtr_wire.store.save", saves):
            threads = [threading.Thread(target=updates, args=(serial,)) for serial in (1, 2)]
            for thread in threads:
                thread.start()
            for thread in threads:
                thread.join()
        self.assertEqual((server.end.serial, any(met)), (2, False))
