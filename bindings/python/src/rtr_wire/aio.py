"""The client for asyncio, and several of them by preference: loops around a `Router`, over
asyncio streams."""
from __future__ import annotations

import asyncio
import ssl as tls
from typing import (Any, AsyncGenerator, AsyncIterator, Awaitable, Callable, List, NamedTuple,
                    Optional, Sequence, Tuple, TypeVar, Union)

from ._library import number
from ._rtr import Cause, rtr_todo
from .data import Data
from .group import Decision, Group
from .loops import (CHUNK, LAST_BYTES, LOOK, Asking, Clock, OnFailure, new_router,
                    strict_names)
from .router import Close, Connect, Failed, Router, SessionError, Settings, Update

Streams = Tuple[asyncio.StreamReader, asyncio.StreamWriter]

# Seconds without an answer after which the next address of a host name is tried too: the delay that
# RFC 8305 section 5 recommends.
_NEXT_ADDRESS = 0.25

_Result = TypeVar("_Result")


async def _within(seconds: Optional[float], awaited: Awaitable[_Result],
                  unused: Callable[[_Result], Any] = lambda result: None) -> _Result:
    """Awaits something for at most this time, and else raises asyncio.TimeoutError. If the caller
    is cancelled, a result that is there already is passed to `unused`: asyncio.wait_for returns
    it, before Python 3.12, and forgets that it was cancelled."""
    task = asyncio.ensure_future(awaited)
    try:
        await asyncio.wait([task], timeout=seconds)
    except asyncio.CancelledError:
        await _end(task)
        if not task.cancelled() and task.exception() is None:
            unused(task.result())
        raise
    await _end(task)
    if task.cancelled():
        raise asyncio.TimeoutError
    return task.result()


async def _end(task: asyncio.Future[Any]) -> None:
    """Cancels a task, unless it is done, and waits for its end."""
    if not task.done():
        task.cancel()
        await asyncio.wait([task])


class AsyncClient(Asking):
    """`Client` for asyncio.

        async for update in AsyncClient("cache.example", 3323):
            print(update.data)

    Leave the loop through `contextlib.aclosing`, or cancel the task, so that the connection closes
    at once. Several loops, and `fetch`, may run at once, as those of a `Client`.

    Args:
        host, port: the address of the cache
        settings: limits and times; by default those of `Settings()`, in version 1
        ssl: a context for TLS; the cache's certificate is checked against `host`. The context is
            set to take only its alternative names (RFC 8210 section 9.2)
        failed: is called with the reason when a connection ends or there is no answer yet; may
            raise
        connect: opens the pair of streams, instead of TCP and TLS
    """

    def __init__(self, host: str = "", port: int = 0, settings: Settings = Settings(), *,
                 ssl: Optional[tls.SSLContext] = None, failed: Optional[OnFailure] = None,
                 connect: Optional[Callable[[], Awaitable[Streams]]] = None) -> None:
        super().__init__()
        self.host, self.port, self.settings = host, number("port", port, 16), settings
        self._ssl, self._failed = strict_names(ssl), failed
        self._connect = connect if connect is not None else self._over_tcp

    async def fetch(self) -> Data:
        """Asks for all data once, and falls back to the cache's version.

        Raises the first failure: a `Fault`, a `SessionError`, an OSError or a MemoryError.
        """
        def failed(error: Exception) -> None:
            raise error

        updates = self._updates(failed)
        try:
            async for update in updates:
                if update.data is not None:
                    return update.data
        finally:
            await updates.aclose()
        raise SessionError(Cause.LOST)

    def __aiter__(self) -> AsyncIterator[Update]:
        return self._updates(self._failed)

    async def _updates(self, failed: Optional[OnFailure]) -> AsyncGenerator[Update, None]:
        steps = self.run(new_router(self.settings), Clock())
        try:
            async for step in steps:
                if isinstance(step, Update):
                    yield step
                elif failed is not None:
                    failed(step.error)
        finally:
            await steps.aclose()

    async def run(self, router: Router, clock: Clock
                  ) -> AsyncGenerator[Union[Update, Failed], None]:
        """Yields the router's updates and failures, until the generator is closed.

        Raises a RuntimeError if another loop runs the router.
        """
        with router.alone():
            streams, asked = None, self._asked
            try:
                while True:
                    asked = self._pass_requests(router, asked)
                    step = router.step(clock.now())
                    if step is None:
                        await _wait(router, clock, streams)
                    elif isinstance(step, Connect):
                        streams = await self._connected(router, clock)
                    elif isinstance(step, Close):
                        closed, streams = streams, None
                        await _close_streams(closed, router.output,
                                             self.settings.report_seconds())
                    else:
                        yield step
            finally:
                if streams is not None:
                    _abort(streams)

    async def _over_tcp(self) -> Streams:
        return await asyncio.open_connection(self.host, self.port, ssl=self._ssl,
                                             happy_eyeballs_delay=_NEXT_ADDRESS)

    async def _connected(self, router: Router, clock: Clock) -> Optional[Streams]:
        """Opens the streams that the router asks for, and reports them or their failure to the
        router."""
        try:
            streams = await _within(clock.until(router.wakes), self._connect(), _abort)
        except (OSError, asyncio.TimeoutError) as error:
            if not clock.is_at(router.wakes):
                router.lost(error)
            return None
        router.connected()
        return streams


def _abort(streams: Streams) -> None:
    """Closes the connection at once."""
    streams[1].transport.abort()


async def _wait(router: Router, clock: Clock, streams: Optional[Streams]) -> None:
    """Sends the unsent bytes, and waits for bytes or the router's next time."""
    seconds = min(clock.until(router.wakes), LOOK)
    if streams is None:
        await asyncio.sleep(seconds)
        return
    reader, writer = streams
    try:
        output = router.output
        if output:
            writer.write(output)
            router.sent(len(output))
        router.received(await _within(seconds, reader.read(CHUNK)))
    except MemoryError as error:
        router.lost(error)
    except (OSError, asyncio.TimeoutError) as error:
        # Without an error of the stream, only the timer ended.
        if reader.exception() is not None or reader.at_eof():
            router.lost(error)


async def _close_streams(streams: Optional[Streams], last: bytes, seconds: float) -> None:
    """Sends a last unit, if there is one, lets the cache read it, both in this time, and closes the
    connection."""
    if streams is None:
        return
    reader, writer = streams
    try:
        if last:
            await _within(seconds, _last(reader, writer, last))
    except (OSError, asyncio.TimeoutError):
        pass  # the connection is closing anyway
    finally:
        _abort(streams)


async def _last(reader: asyncio.StreamReader, writer: asyncio.StreamWriter, last: bytes) -> None:
    writer.write(last)
    await writer.drain()
    if writer.can_write_eof():
        writer.write_eof()
    left = LAST_BYTES
    while left > 0:
        count = len(await reader.read(CHUNK))
        left = left - count if count else 0


# A function that is called with the client that failed, and the error.
OnFailureOf = Callable[[AsyncClient, Exception], Any]


def follow(clients: Sequence[AsyncClient], *, patience: Optional[float] = None,
           empty_is_data: Optional[bool] = None, failed: Optional[OnFailureOf] = None
           ) -> AsyncGenerator[Tuple[AsyncClient, Update], None]:
    """`rtr_wire.follow` for asyncio, with the same arguments and errors.

        async for client, update in follow([AsyncClient("first.example", 323), ..]):
            print(client.host, update.data)

    Leave the loop through `contextlib.aclosing`, or cancel the task, so that all connections close
    at once.
    """
    group = Group(len(clients), patience, empty_is_data)
    return _Following(clients, group, failed).updates()


class _Run:
    """One run of a client, in a task."""

    def __init__(self) -> None:
        self.task: Optional[asyncio.Task[None]] = None
        self.is_stopped = False


class _News(NamedTuple):
    """An event of a client's run."""

    member: int
    run: _Run
    step: Union[Update, Failed, Exception]
    todo: Optional[rtr_todo] = None


class _Following:
    """Clients in tasks; a group decides which run, and whose data are used."""

    def __init__(self, clients: Sequence[AsyncClient], group: Group,
                 failed: Optional[OnFailureOf]) -> None:
        self._clients, self._group, self._failed = list(clients), group, failed
        self._clock = Clock()
        self._routers: List[Optional[Router]] = [None] * len(self._clients)
        self._runs: List[Optional[_Run]] = [None] * len(self._clients)
        self._news: asyncio.Queue[_News]

    async def updates(self) -> AsyncGenerator[Tuple[AsyncClient, Update], None]:
        self._news = asyncio.Queue(1)
        try:
            self._start(0)
            while True:
                decision = await self._next()
                if decision.error is not None and self._failed is not None:
                    self._failed(self._clients[decision.member], decision.error)
                for member in decision.stop:
                    self._stop(member)
                if decision.start is not None:
                    self._start(decision.start)
                if decision.update is not None:
                    yield self._clients[decision.source], decision.update
        finally:
            for member in range(len(self._clients)):
                self._stop(member)
            tasks = [run.task for run in self._runs if run is not None and run.task is not None]
            await asyncio.gather(*tasks, return_exceptions=True)

    async def _next(self) -> Decision:
        """Waits for an event of a client, or the group's next time."""
        wakes = self._group.wakes
        seconds = None if wakes is None else self._clock.until(wakes)
        try:
            news = await _within(seconds, self._news.get())
        except asyncio.TimeoutError:
            return self._group.ticks(self._clock.now())
        if news.run.is_stopped:
            return Decision()
        if isinstance(news.step, Exception):
            raise news.step
        return self._group.happens(self._clock.now(), news.member, news.step, news.todo)

    def _start(self, member: int) -> None:
        """Starts a client after its last run has ended."""
        before, run = self._runs[member], _Run()
        self._runs[member] = run
        run.task = asyncio.get_running_loop().create_task(self._run(member, run, before))

    def _stop(self, member: int) -> None:
        run = self._runs[member]
        if run is not None and run.task is not None:
            run.is_stopped = True
            run.task.cancel()

    async def _run(self, member: int, run: _Run, before: Optional[_Run]) -> None:
        """Runs a client until its task is cancelled."""
        if before is not None and before.task is not None:
            await asyncio.wait([before.task])
        try:
            client, router = self._clients[member], self._router(member)
            steps = client.run(router, self._clock)
            try:
                async for step in steps:
                    await self._news.put(_News(member, run, step, router.take_todo()))
            finally:
                await steps.aclose()
        except Exception as error:
            await self._news.put(_News(member, run, error))

    def _router(self, member: int) -> Router:
        """Returns the router of a client, restarted if it ran before."""
        router = self._routers[member]
        if router is None:
            router = self._routers[member] = new_router(self._clients[member].settings)
        else:
            router.again()
        return router
