"""Several loops over one client, and loops that follow each other over one router."""
import asyncio
import contextlib
import queue
import socket
import threading
import time
import unittest

from rtr_wire import (AsyncClient, CacheResponse, Client, Connect, Data, EndOfData, Router,
                      SerialQuery, Settings, aio, following)
from rtr_wire.group import Group
from rtr_wire.loops import Clock

from .test_client import (FIRST, KEY, RESET, SECOND, SOON, TWO, Cache, answer, both, patient, says,
                          waits)
from .test_races import TURNS, turns

THIRD = Data([TWO, KEY], EndOfData(7, 3))


def asked_twice(old, new):
    """Returns the script of a cache that has newer data when it is asked again."""
    changes = bytes(CacheResponse(7)) + bytes(old.delta(new))
    return both(says(RESET, answer(old)), says(SerialQuery(7, old.serial), changes), waits)


class Blocking(unittest.TestCase):
    """Client."""

    def test_two_loops(self):
        """Each of two loops over a client has a connection and data of its own, and gets requests.
        One loop continues after the other is left."""
        with Cache(asked_twice(FIRST, SECOND)) as cache, Cache(asked_twice(SECOND, THIRD)) as other:
            ports = iter((cache.port, other.port))
            client = Client(settings=SOON, failed=patient(), connect=lambda seconds:
                            socket.create_connection(("127.0.0.1", next(ports)), seconds))
            with contextlib.closing(iter(client)) as first, \
                    contextlib.closing(iter(client)) as second:
                self.assertEqual([next(first).data, next(second).data], [FIRST, SECOND])
                client.ask_now()
                self.assertEqual(next(first).data, SECOND)
                first.close()
                self.assertEqual(next(second).data, THIRD)

    def test_a_router_in_two_loops(self):
        """A router that a loop runs is refused to another loop, until the first one is left."""
        with Cache(both(says(RESET, answer(FIRST)), waits), says(RESET, answer(SECOND))) as cache:
            client, router, clock = Client("127.0.0.1", cache.port, SOON), Router(SOON), Clock()
            with contextlib.closing(client.run(router, clock)) as steps:
                self.assertEqual(next(steps).data, FIRST)
                with self.assertRaisesRegex(RuntimeError, "a loop runs the router already"):
                    next(client.run(router, clock, lambda: True))
            router.again()
            with contextlib.closing(client.run(router, clock)) as steps:
                self.assertEqual(next(steps).data, SECOND)


class ForAsyncio(unittest.TestCase):
    """AsyncClient."""

    def test_two_loops(self):
        """Each of two loops over a client has a connection and data of its own, and gets requests.
        One loop continues after the other is left."""
        async def follows(*caches):
            ports = iter([cache.port for cache in caches])
            client = AsyncClient(settings=SOON, failed=patient(), connect=lambda:
                                 asyncio.open_connection("127.0.0.1", next(ports)))
            first, second = client.__aiter__(), client.__aiter__()
            try:
                self.assertEqual((await first.__anext__()).data, FIRST)
                self.assertEqual((await second.__anext__()).data, SECOND)
                client.ask_now()
                self.assertEqual((await first.__anext__()).data, SECOND)
                await first.aclose()
                self.assertEqual((await second.__anext__()).data, THIRD)
            finally:
                await first.aclose()
                await second.aclose()

        with Cache(asked_twice(FIRST, SECOND)) as cache, Cache(asked_twice(SECOND, THIRD)) as other:
            asyncio.run(follows(cache, other))

    def test_a_router_in_two_loops(self):
        """A router that a loop runs is refused to another loop, until the first one is left."""
        async def follows(port):
            client, router, clock = AsyncClient("127.0.0.1", port, SOON), Router(SOON), Clock()
            for data in (FIRST, SECOND):
                steps = client.run(router, clock)
                self.assertEqual((await steps.__anext__()).data, data)
                with self.assertRaisesRegex(RuntimeError, "a loop runs the router already"):
                    await asyncio.wait_for(client.run(router, clock).__anext__(), 5)
                await steps.aclose()
                router.again()

        with Cache(*(both(says(RESET, answer(data)), waits) for data in (FIRST, SECOND))) as cache:
            asyncio.run(follows(cache.port))


class Clocks(unittest.TestCase):
    """The clock of a loop."""

    def test_waits(self):
        """A wait has at least a millisecond, and at most an hour: no wait of the system is too long
        for it, even if there is no time to wait for."""
        for time_asked, seconds in (0, 0.001), ((1 << 64) - 1, 3600):
            self.assertEqual(Clock().until(time_asked), seconds)


class Restarted(unittest.TestCase):
    """A client of a group that is started again after it was stopped (docs/SESSIONS.md, "Caches by
    preference")."""

    SETTINGS = Settings(pause=1, retry=1000)

    def waits_grow(self, loop):
        """Fails a client once in each run: it waits twice as long as in the run before, less up to
        half by chance."""
        now = 0
        for usual in (1000, 2000, 4000, 8000):
            router = loop._router(0)
            while router.step(now) != Connect():
                now = router.wakes
            router.lost(ConnectionRefusedError())
            while router.step(now) is not None:
                pass
            self.assertIn(router.wakes - now, range(usual // 2, usual + 1))

    def test_waits_in_threads(self):
        clients = [Client(settings=self.SETTINGS)]
        self.waits_grow(following._Following(clients, Group(1, None, None), None))

    def test_waits_in_tasks(self):
        clients = [AsyncClient(settings=self.SETTINGS)]
        self.waits_grow(aio._Following(clients, Group(1, None, None), None))

    def test_after_the_last_thread(self):
        """It doesn't run before its last run has ended."""
        happened, ends = queue.Queue(), threading.Event()

        class Slow(Client):
            def run(self, router, clock, is_stopped):
                happened.put("begins")
                while not is_stopped():
                    time.sleep(0.01)
                ends.wait(60)
                happened.put("ends")
                return iter(())

        loop = following._Following([Slow()], Group(1, None, None), None)
        loop._start(0)
        self.assertEqual(happened.get(timeout=60), "begins")
        loop._stop(0)
        loop._start(0)
        time.sleep(0.2)  # for a run that begins too early
        ends.set()
        self.assertEqual([happened.get(timeout=60) for _ in range(2)], ["ends", "begins"])
        loop._stop(0)
        self.assertEqual(happened.get(timeout=60), "ends")

    def test_threads_end_with_the_program(self):
        """A client that is still connecting doesn't keep a program from its end."""
        class Ended(Client):
            def run(self, router, clock, is_stopped):
                return iter(())

        loop = following._Following([Ended()], Group(1, None, None), None)
        loop._start(0)
        loop._runs[0].thread.join(60)
        self.assertTrue(loop._runs[0].thread.daemon)

    def test_after_the_last_task(self):
        """It doesn't run before its last run has ended."""
        happened = []

        class Slow(AsyncClient):
            async def run(self, router, clock):
                happened.append("begins")
                try:
                    await asyncio.sleep(3600)
                    yield
                finally:
                    await turns(TURNS)
                    happened.append("ends")

        async def restarts():
            loop = aio._Following([Slow()], Group(1, None, None), None)
            loop._start(0)
            await turns(TURNS)
            loop._stop(0)
            loop._start(0)
            await turns(4 * TURNS)
            loop._stop(0)
            await asyncio.wait([loop._runs[0].task])

        asyncio.run(restarts())
        self.assertEqual(happened, ["begins", "ends"] * 2)


if __name__ == "__main__":
    unittest.main()
