"""What may happen at the same time: a cancellation and bytes or a connection, and a request while a
loop looks for one; news of a run that is stopped. And whose failure a group tells."""
import asyncio
import contextlib
import threading
import unittest

from rtr_wire import (AsyncClient, CacheResponse, Client, Data, EndOfData, Failed, NoPayloads,
                      Update, aio, following)
from rtr_wire._rtr import Cause, TodoKind, rtr_todo
from rtr_wire.group import Decision, Group
from rtr_wire.loops import Asking

from .test_client import FIRST, SECOND, SOON

LONG = 120  # seconds for what has to happen
# How many turns of the event loop a test lets pass at most between two things.
TURNS = 8

# What a client does at new data, at their loss, and at a lost connection that has none.
DATA = rtr_todo(kind=TodoKind.DATA)
LOSS = rtr_todo(kind=TodoKind.CLOSE, cause=Cause.LOST, drops=True)
FAILURE = rtr_todo(kind=TodoKind.CLOSE, cause=Cause.LOST)


class Streams:
    """A pair of streams without a socket."""

    def __init__(self):
        self.reader, self.is_aborted = asyncio.StreamReader(), False
        self.transport = self

    def write(self, data):
        pass

    def abort(self):
        self.is_aborted = True


async def turns(count):
    for _ in range(count):
        await asyncio.sleep(0)


class Cancelled(unittest.TestCase):
    """A task ends when it is cancelled, and its connection is closed."""

    async def ends(self, follow, happens, count):
        """Cancels a task `count` turns of the loop after something happens."""
        task = asyncio.ensure_future(follow)
        await turns(TURNS)
        happens()
        await turns(count)
        task.cancel()
        await asyncio.wait([task], timeout=5)
        has_ended = task.done()
        while not task.done():
            task.cancel()
            await asyncio.sleep(0.1)
        self.assertTrue(has_ended, f"cancelled after {count} turns")
        with contextlib.suppress(asyncio.CancelledError):
            await task

    def client(self, streams, connects=None):
        async def connect():
            if connects is not None:
                await connects.wait()
            return streams.reader, streams

        return AsyncClient(settings=SOON, connect=connect)

    async def at_bytes(self, count):
        streams = Streams()
        happens = lambda: streams.reader.feed_data(bytes(CacheResponse(7)))  # noqa: E731
        await self.ends(self.client(streams).fetch(), happens, count)
        self.assertTrue(streams.is_aborted)

    async def at_connection(self, count):
        streams, connects = Streams(), asyncio.Event()
        await self.ends(self.client(streams, connects).fetch(), connects.set, count)
        self.assertTrue(streams.is_aborted or count == 0)

    def test_bytes(self):
        for count in range(TURNS):
            asyncio.run(self.at_bytes(count))

    def test_connection(self):
        for count in range(TURNS):
            asyncio.run(self.at_connection(count))


class Asked(unittest.TestCase):
    def test_while_a_loop_looks(self):
        """A request that comes while a loop looks for one is found when it looks again."""
        class Told:
            count = 0

            def asked(self):
                self.count += 1

        class Raced(Asking):
            """Another thread asks when the loop has looked once."""

            looks = 0

            @property
            def _asked(self):
                self.looks += 1
                return 0 if self.looks == 1 else 1

            @_asked.setter
            def _asked(self, count):
                pass

        client, router = Raced(), Told()
        asked = client._pass_requests(router, 0)
        client._pass_requests(router, asked)
        self.assertEqual(router.count, 1)


class Stopped(unittest.TestCase):
    """Data of a run that was stopped while they waited in the queue change nothing."""

    def test_thread(self):
        loop = following._Following([Client()], Group(1, None, None), None)
        stopped = threading.Event()
        stopped.set()
        loop._news.put(following._News(0, stopped, Update(FIRST, None), DATA))
        self.assertEqual(loop._next(), Decision())

    def test_event_of_a_stopped_run(self):
        """A thread whose run is stopped doesn't wait until there is room for its event."""
        loop = following._Following([Client()], Group(1, None, None), None)
        stopped = threading.Event()
        stopped.set()
        news = following._News(0, stopped, Update(FIRST, None), DATA)
        loop._news.put(news)
        thread = threading.Thread(target=loop._publish, args=(news,), daemon=True)
        thread.start()
        thread.join(LONG)
        self.assertFalse(thread.is_alive())

    def test_task(self):
        async def decision():
            loop, run = aio._Following([AsyncClient()], Group(1, None, None), None), aio._Run()
            loop._news, run.is_stopped = asyncio.Queue(1), True
            await loop._news.put(aio._News(0, run, Update(FIRST, None), DATA))
            return await loop._next()

        self.assertEqual(asyncio.run(decision()), Decision())


class Groups(unittest.TestCase):
    def changes_nothing(self, decision, error, member):
        """A decision only reports this failure of a member."""
        self.assertEqual(decision[:3], (error, member, None))
        self.assertEqual((len(decision.stop), decision.start), (0, None))

    def test_whose_failure(self):
        """An empty answer of the cache that is used is its failure, also if the data of another one
        are shown then."""
        group, error = Group(2, None, None), ConnectionResetError()
        self.assertEqual(group.happens(0, 0, Update(FIRST, None), DATA).update.data, FIRST)
        self.assertEqual(group.happens(1, 0, Failed(error), FAILURE)[:2], (error, 0))
        decision = group.happens(2, 1, Update(SECOND, None), DATA)
        self.assertEqual((decision.source, decision.update.data), (1, SECOND))
        decision = group.happens(3, 1, Update(Data((), EndOfData(7, 3)), None), DATA)
        self.assertEqual((type(decision.error), decision.member), (NoPayloads, 1))
        self.assertEqual((decision.source, decision.update.data), (0, FIRST))

    def test_whose_loss(self):
        """The failure that comes with a loss of data is that of the cache which had them."""
        group, error, lost = Group(2, None, None), ConnectionResetError(), ConnectionAbortedError()
        group.happens(0, 0, Failed(error), FAILURE)
        group.happens(1, 1, Update(FIRST, None), DATA)
        decision = group.happens(2, 1, Update(None, None), LOSS)
        self.assertEqual((decision.source, decision.update.data), (1, None))
        self.changes_nothing(group.happens(2, 1, Failed(lost), None), lost, 1)

    def test_failure_after_an_answer(self):
        """The failure that comes with a loss of data stops and starts nobody, also if the next
        client answers between them."""
        group, lost = Group(3, None, None), ConnectionAbortedError()
        group.happens(0, 0, Update(FIRST, None), DATA)
        self.assertEqual(group.happens(1, 0, Update(None, None), LOSS).start, 1)
        self.assertEqual(group.happens(2, 1, Update(SECOND, None), DATA).update.data, SECOND)
        self.changes_nothing(group.happens(3, 0, Failed(lost), None), lost, 0)


if __name__ == "__main__":
    unittest.main()
