"""Caches by preference, followed in threads and for asyncio (RFC 8210 section 10)."""
import asyncio
import contextlib
import gc
import socket
import threading
import unittest

from rtr_wire import (CacheResponse, Client, Data, EndOfData, ErrorReport, NoPayloads, SerialQuery,
                      aio)
from rtr_wire import follow as follow_in_threads

from .test_client import (ASKED, FIRST, LATEST, ONE, RESET, SECOND, SOON, TWO, Cache, answer,
                          both, closes_all, says, unreachable)

EMPTY = Data((), EndOfData(7, 3))
THIRD = Data([ONE, TWO], EndOfData(9, 1))


def stays(connection, queries):
    """Plays a cache that ignores all queries until the client closes; the client asks again
    soon."""
    for _ in queries:
        pass


class Scripted(Cache):
    """A cache that keeps connections open until the test lets it continue."""

    def __init__(self, *scripts):
        super().__init__(*scripts)
        self.goes_on = threading.Event()

    def then(self, connection, queries):
        """Plays a cache that waits until the test continues."""
        self.goes_on.wait(60)

    def answers_and_closes(self, data):
        """Returns a script that sends data, waits until the test continues, and closes."""
        return both(says(RESET, answer(data)), self.then)


class Preferring:
    """Tests of both loops: `follow` collects this many updates, with the index of their client, and
    calls `after` after each."""

    def test_first(self):
        """The preferred cache is followed, and no other is asked."""
        with Cache(both(says(RESET, answer(FIRST)), stays)) as cache, \
                socket.create_server(("127.0.0.1", 0)) as other:
            other.settimeout(0)
            taken = self.follow([cache.port, other.getsockname()[1]], 1)
            self.assertEqual(taken, [(0, FIRST, {*FIRST})])
            with self.assertRaises(BlockingIOError):
                other.accept()

    def test_next(self):
        """If the first cache can't be reached, the data of the next one are used, and those of the
        first as soon as it has some. The changes are those from one to the other."""
        failures = []
        with Cache(both(says(RESET, answer(FIRST)), stays)) as cache, unreachable() as port:
            taken = self.follow([port, cache.port], 1, failures=failures)
        self.assertEqual(taken, [(1, FIRST, {*FIRST})])
        self.assertEqual((failures[0][0], type(failures[0][1])), (0, ConnectionRefusedError))

    def test_back(self):
        """Data of a failing cache stay until the next one has some; the client returns as soon as
        the first has data again. If the first fails again, the next one restarts without data."""
        first, other, ends = Scripted(), Scripted(), threading.Event()
        changes = bytes(CacheResponse(7)) + bytes(FIRST.delta(SECOND))
        first.scripts = (first.answers_and_closes(FIRST),
                         both(other.then, says(SerialQuery(7, 1), changes),
                              lambda *_: ends.wait(60)))
        other.scripts = (both(says(RESET, answer(THIRD)), stays),
                         both(says(RESET, answer(FIRST)), stays))

        def after(count):
            (first.goes_on, other.goes_on, ends)[min(count, 3) - 1].set()

        with first, other:
            taken = self.follow([first.port, other.port], 4, after=after)
        self.assertEqual([(member, data) for member, data, _ in taken],
                         [(0, FIRST), (1, THIRD), (0, SECOND), (1, FIRST)])
        self.assertEqual(taken[2][2], set())
        self.assertEqual(taken[3][2], {*SECOND.delta(FIRST)})

    def test_silent(self):
        """The next cache is asked after the patience if the first is silent."""
        with Cache(both(says(RESET), stays)) as silent, \
                Cache(both(says(RESET, answer(FIRST)), stays)) as cache:
            taken = self.follow([silent.port, cache.port], 1, patience=0.2)
        self.assertEqual(taken, [(1, FIRST, {*FIRST})])

    def test_empty(self):
        """An answer without payloads is a failure, unless there is only one cache, or
        `empty_is_data` is set."""
        empty = both(says(RESET, answer(EMPTY)), stays)
        with Cache(empty) as cache:
            self.assertEqual(self.follow([cache.port], 1), [(0, EMPTY, set())])
        failures = []
        with Cache(empty) as cache, Cache(both(says(RESET, answer(FIRST)), stays)) as other:
            taken = self.follow([cache.port, other.port], 1, failures=failures)
        self.assertEqual([(member, data) for member, data, _ in taken], [(1, FIRST)])
        self.assertEqual((failures[0][0], type(failures[0][1]), str(failures[0][1])),
                         (0, NoPayloads, "the cache has no payloads"))
        with Cache(empty) as cache:
            taken = self.follow([cache.port, 9], 1, empty_is_data=True)
        self.assertEqual(taken, [(0, EMPTY, set())])

    def test_expired(self):
        """If no cache has data any more, an update without data withdraws all."""
        cache = Scripted()
        cache.scripts = (cache.answers_and_closes(FIRST),)
        with cache, unreachable() as port:
            taken = self.follow([port, cache.port], 2, expire=1,
                                after=lambda count: cache.goes_on.set())
        self.assertEqual([data for _, data, _ in taken], [FIRST, None])
        self.assertEqual({unit.announce for unit in taken[1][2]}, {False})

    def test_told(self):
        """An exception of the callback `failed` ends the loop and its connections."""
        def raises(client, error):
            raise KeyError(error)

        report = bytes(ErrorReport(2))
        with Cache(both(says(RESET, report), stays)) as cache, self.assertRaises(KeyError):
            self.follow([cache.port], 1, failed=raises)

    def test_not_a_failure(self):
        """An error of the program in `connect` ends the loop."""
        with self.assertRaises(ZeroDivisionError):
            self.follow([1], 1, connect=lambda *_: 1 // 0)

    def test_how_many(self):
        """No client, and more than 16, are refused at once."""
        for count in (0, 17, 100):
            with self.assertRaises(ValueError):
                self.many(count)


class InThreads(Preferring, unittest.TestCase):
    """follow."""

    def follow(self, ports, count, failures=None, after=None, expire=None, failed=None,
               connect=None, **settings):
        def tells(client, error):
            if failures is not None:
                failures.append((clients.index(client), error))

        client_settings = SOON if expire is None else type(SOON)(**{**vars(SOON), "expire": expire})
        clients = [Client("127.0.0.1", port, client_settings, connect=connect)
                   for port in ports]
        taken = []
        with closes_all(self):
            updates = follow_in_threads(clients, failed=failed or tells, **settings)
            with contextlib.closing(updates):
                for client, update in updates:
                    taken.append((clients.index(client), update.data, {*update.changes}))
                    if after is not None:
                        after(len(taken))
                    if len(taken) == count:
                        break
        left = [thread.name for thread in threading.enumerate()
                if thread.name.startswith("rtr client")]
        self.assertEqual(left, [])
        return taken

    def many(self, count):
        follow_in_threads([Client("127.0.0.1", 9)] * count)

    def test_ask_now(self):
        """A followed client asks each time its caller requests it."""
        with Cache(ASKED) as cache:
            client = Client("127.0.0.1", cache.port, SOON)
            with contextlib.closing(follow_in_threads([client])) as updates:
                self.assertEqual(next(updates)[1].data, FIRST)
                client.ask_now()
                self.assertEqual(next(updates)[1].data, SECOND)
                client.ask_now()
                self.assertEqual(next(updates)[1].data, LATEST)


class ForAsyncio(Preferring, unittest.TestCase):
    """aio.follow."""

    def follow(self, ports, count, failures=None, after=None, expire=None, failed=None,
               connect=None, **settings):
        def tells(client, error):
            if failures is not None:
                failures.append((clients.index(client), error))

        async def taken():
            found = []
            updates = aio.follow(clients, failed=failed or tells, **settings)
            try:
                async for client, update in updates:
                    found.append((clients.index(client), update.data, {*update.changes}))
                    if after is not None:
                        after(len(found))
                    if len(found) == count:
                        return found
            finally:
                await updates.aclose()
                self.assertEqual(len(asyncio.all_tasks()), 1)

        client_settings = SOON if expire is None else type(SOON)(**{**vars(SOON), "expire": expire})
        clients = [aio.AsyncClient("127.0.0.1", port, client_settings, connect=connect)
                   for port in ports]
        with closes_all(self):
            return asyncio.run(taken())

    def many(self, count):
        aio.follow([aio.AsyncClient("127.0.0.1", 9)] * count)

    def test_cancelled(self):
        """A cancelled task leaves no task and no connection."""
        async def follows(port):
            async for _ in aio.follow([aio.AsyncClient("127.0.0.1", port, SOON)]):
                answered.set()

        async def cancelled(port):
            task = asyncio.create_task(follows(port))
            while not answered.is_set():
                await asyncio.sleep(0.01)
            task.cancel()
            with self.assertRaises(asyncio.CancelledError):
                await task

        answered = threading.Event()
        with Cache(both(says(RESET, answer(FIRST)), stays)) as cache:
            asyncio.run(cancelled(cache.port))


def tearDownModule():
    gc.collect()  # open resources cause warnings, and warnings are errors


if __name__ == "__main__":
    unittest.main()
