"""The client that follows a cache: a loop around a `Router`, with a socket."""
from __future__ import annotations

import contextlib
import socket
import ssl as tls
import time
from typing import Callable, Generator, Iterator, Optional, Union

from ._library import number
from ._rtr import Cause
from .data import Data
from .loops import (CHUNK, LAST_BYTES, LOOK, Asking, Clock, OnFailure, new_router, seconds_until,
                    share_ends, strict_names)
from .router import Close, Connect, Failed, Router, SessionError, Settings, Update


class Client(Asking):
    """A router's end over TCP: it asks a cache for data, and follows their changes (RFC 8210
    sections 6 to 8). The library's proved client decides what it does when; docs/SESSIONS.md has
    the rules.

        for update in Client("cache.example", 3323):
            for unit in update.changes:
                print(unit)

    The loop yields an `Update` whenever the data change, until the caller leaves it; it reconnects
    when a connection ends. The settings limit the memory and time that a cache can cost.

    Several loops over a client, and `fetch`, may run at once, also in several threads: each has a
    connection and data of its own.

    Args:
        host, port: the address of the cache
        settings: limits and times; by default those of `Settings()`, in version 1
        ssl: a context for TLS; the cache's certificate is checked against `host`. The context is
            set to take only its alternative names (RFC 8210 section 9.2)
        failed: is called with the reason when a connection ends or there is no answer yet; may
            raise
        connect: opens the connection, instead of TCP and TLS: it gets the seconds that it may take,
            and returns an object with the methods of a socket
    """

    def __init__(self, host: str = "", port: int = 0, settings: Settings = Settings(), *,
                 ssl: Optional[tls.SSLContext] = None, failed: Optional[OnFailure] = None,
                 connect: Optional[Callable[[float], socket.socket]] = None) -> None:
        super().__init__()
        self.host, self.port, self.settings = host, number("port", port, 16), settings
        self._ssl, self._failed = strict_names(ssl), failed
        self._connect = connect if connect is not None else self._over_tcp

    def fetch(self) -> Data:
        """Asks for all data once, and falls back to the cache's version.

        Raises the first failure: a `Fault`, a `SessionError`, an OSError or a MemoryError.
        """
        def failed(error: Exception) -> None:
            raise error

        with contextlib.closing(self._updates(failed)) as updates:
            for update in updates:
                if update.data is not None:
                    return update.data
        raise SessionError(Cause.LOST)

    def __iter__(self) -> Iterator[Update]:
        return self._updates(self._failed)

    def _updates(self, failed: Optional[OnFailure]) -> Generator[Update, None, None]:
        with contextlib.closing(self.run(new_router(self.settings), Clock())) as steps:
            for step in steps:
                if isinstance(step, Update):
                    yield step
                elif failed is not None:
                    failed(step.error)

    def run(self, router: Router, clock: Clock, is_stopped: Callable[[], bool] = lambda: False
            ) -> Generator[Union[Update, Failed], None, None]:
        """Yields the router's updates and failures, until `is_stopped`, which is checked while the
        router waits.

        Raises a RuntimeError if another loop runs the router.
        """
        with router.alone():
            yield from self._steps(router, clock, is_stopped)

    def _steps(self, router: Router, clock: Clock, is_stopped: Callable[[], bool]
               ) -> Generator[Union[Update, Failed], None, None]:
        connection, asked = None, self._asked
        try:
            while not is_stopped():
                asked = self._pass_requests(router, asked)
                step = router.step(clock.now())
                if step is None:
                    self._wait(router, clock, connection)
                elif isinstance(step, Connect):
                    connection = self._connected(router, clock)
                elif isinstance(step, Close):
                    closed, connection = connection, None
                    _close(closed, router.output, self.settings.report_seconds())
                else:
                    yield step
        finally:
            if connection is not None:
                connection.close()

    def _over_tcp(self, seconds: float) -> socket.socket:
        """Connects to the first address that answers; each gets its share of the remaining time."""
        end = time.monotonic() + seconds
        error: Exception = OSError(f"{self.host} has no address")
        addresses = socket.getaddrinfo(self.host, self.port, type=socket.SOCK_STREAM)
        for index, address in enumerate(addresses):
            until = share_ends(end, len(addresses) - index)
            connection = socket.socket(address[0], address[1])
            try:
                connection.settimeout(seconds_until(until))
                connection.connect(address[4])
                if self._ssl is None:
                    return connection
                connection.settimeout(seconds_until(until))
                return self._ssl.wrap_socket(connection, server_hostname=self.host)
            except OSError as failed:
                connection.close()
                error = failed
        raise error

    def _connected(self, router: Router, clock: Clock) -> Optional[socket.socket]:
        """Opens the connection that the router asks for, and reports it or its failure to the
        router."""
        try:
            connection = self._connect(clock.until(router.wakes))
        except OSError as error:
            if not clock.is_at(router.wakes):
                router.lost(error)
            return None
        router.connected()
        return connection

    def _wait(self, router: Router, clock: Clock, connection: Optional[socket.socket]) -> None:
        """Sends the unsent bytes, and waits for bytes or the router's next time."""
        seconds = min(clock.until(router.wakes), LOOK)
        if connection is None:
            time.sleep(seconds)
            return
        try:
            connection.settimeout(seconds)
            output = router.output
            if output:
                router.sent(connection.send(output))
            else:
                router.received(connection.recv(CHUNK))
        except (BlockingIOError, tls.SSLWantReadError, tls.SSLWantWriteError):
            return  # only the time has passed
        except (OSError, MemoryError) as error:
            # The timeout of `settimeout` has no errno, unlike ETIMEDOUT of the connection.
            if not isinstance(error, socket.timeout) or error.errno is not None:
                router.lost(error)


def _close(connection: Optional[socket.socket], last: bytes, seconds: float) -> None:
    """Sends a last unit, if there is one, lets the cache read it, both in this time, and closes the
    connection. Unread bytes of the cache would reset the connection, and the unit might be lost, so
    they are read."""
    if connection is None:
        return
    end = time.monotonic() + seconds
    try:
        if last:
            connection.settimeout(seconds_until(end))
            connection.sendall(last)
            connection.shutdown(socket.SHUT_WR)
            left = LAST_BYTES
            while left > 0 and time.monotonic() < end:
                connection.settimeout(seconds_until(end))
                count = len(connection.recv(CHUNK))
                left = left - count if count else 0
    except OSError:
        pass  # the connection is closing anyway
    finally:
        connection.close()
