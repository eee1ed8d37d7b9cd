"""Follows several caches by preference, each by a `Client` in a thread."""
from __future__ import annotations

import contextlib
import queue
import threading
from typing import Any, Callable, Iterator, List, NamedTuple, Optional, Sequence, Tuple, Union

from ._rtr import rtr_todo
from .client import Client
from .group import Decision, Group
from .loops import LOOK, Clock, new_router
from .router import Failed, Router, Update

# A function that is called with the client that failed, and the error.
OnFailureOf = Callable[[Client, Exception], Any]


def follow(clients: Sequence[Client], *, patience: Optional[float] = None,
           empty_is_data: Optional[bool] = None, failed: Optional[OnFailureOf] = None
           ) -> Iterator[Tuple[Client, Update]]:
    """Follows the data of the most preferred cache that answers (RFC 8210 section 10;
    docs/SESSIONS.md has the rules). The first client is preferred most. If the cache in use fails,
    its data stay until another one has sent a whole answer, or they expire.

        for client, update in follow([Client("first.example", 323), Client("second.example", 323)]):
            print(client.host, update.data)

    The loop yields an `Update` whenever the data in use change, with the client that has them, or
    that lost the last ones. Its changes are those from the data yielded before, even if another
    client had these. Leave the loop through `contextlib.closing`, so that all connections close; a
    thread that is connecting at that time ends when it has connected or failed to.

    Args:
        clients: at most 16. Their own `failed` isn't called
        patience: how long, in seconds, a client may have no whole answer before the next one is
            started too, while none has data (default 5)
        empty_is_data: whether a whole answer without payloads counts as data (default: only if
            there is one client). Otherwise it is a failure (`NoPayloads`)
        failed: is called with a client and the reason when one of its connections ends, or there is
            no answer yet; may raise

    Raises ValueError for no client, or too many.
    """
    group = Group(len(clients), patience, empty_is_data)
    return _Following(clients, group, failed).updates()


class _Run(NamedTuple):
    """One run of a client."""

    thread: threading.Thread
    stopped: threading.Event


class _News(NamedTuple):
    """An event of a client's run."""

    member: int
    stopped: threading.Event
    step: Union[Update, Failed, BaseException]
    todo: Optional[rtr_todo] = None


class _Following:
    """Clients in threads; a group decides which run, and whose data are used."""

    def __init__(self, clients: Sequence[Client], group: Group,
                 failed: Optional[OnFailureOf]) -> None:
        self._clients, self._group, self._failed = list(clients), group, failed
        self._clock = Clock()
        self._routers: List[Optional[Router]] = [None] * len(self._clients)
        self._runs: List[Optional[_Run]] = [None] * len(self._clients)
        self._news: queue.Queue[_News] = queue.Queue(1)

    def updates(self) -> Iterator[Tuple[Client, Update]]:
        try:
            self._start(0)
            while True:
                decision = self._next()
                if decision.error is not None and self._failed is not None:
                    self._failed(self._clients[decision.member], decision.error)
                for member in decision.stop:
                    self._stop(member)
                if decision.start is not None:
                    self._start(decision.start)
                if decision.update is not None:
                    yield self._clients[decision.source], decision.update
        finally:
            for member in range(len(self._clients)):
                self._stop(member)
            for run in filter(None, self._runs):
                run.thread.join(4 * LOOK)

    def _next(self) -> Decision:
        """Waits for an event of a client, or the group's next time."""
        wakes = self._group.wakes
        try:
            news = self._news.get(timeout=None if wakes is None else self._clock.until(wakes))
        except queue.Empty:
            return self._group.ticks(self._clock.now())
        if news.stopped.is_set():
            return Decision()
        if isinstance(news.step, BaseException):
            raise news.step
        return self._group.happens(self._clock.now(), news.member, news.step, news.todo)

    def _start(self, member: int) -> None:
        """Starts a client after its last run has ended."""
        before, stopped = self._runs[member], threading.Event()
        thread = threading.Thread(target=self._run, args=(member, stopped, before), daemon=True,
                                  name=f"rtr client {member}")
        self._runs[member] = _Run(thread, stopped)
        thread.start()

    def _stop(self, member: int) -> None:
        run = self._runs[member]
        if run is not None:
            run.stopped.set()

    def _run(self, member: int, stopped: threading.Event, before: Optional[_Run]) -> None:
        """Runs a client until it is stopped; the target of its thread."""
        if before is not None:
            before.thread.join()
        try:
            client, router = self._clients[member], self._router(member)
            steps = client.run(router, self._clock, stopped.is_set)
            with contextlib.closing(steps):
                for step in steps:
                    self._publish(_News(member, stopped, step, router.take_todo()))
        except BaseException as error:
            self._publish(_News(member, stopped, error))

    def _router(self, member: int) -> Router:
        """Returns the router of a client, restarted if it ran before."""
        router = self._routers[member]
        if router is None:
            router = self._routers[member] = new_router(self._clients[member].settings)
        else:
            router.again()
        return router

    def _publish(self, news: _News) -> None:
        """Passes an event to the loop, unless the run is stopped before the loop takes it."""
        while not news.stopped.is_set():
            try:
                return self._news.put(news, timeout=LOOK)
            except queue.Full:
                pass
