"""A cache for asyncio: sockets and timers around the proved machines of `serving`."""
from __future__ import annotations

import asyncio
import contextlib
import errno
import os
import selectors
import socket
import ssl as tls
import threading
import time
from typing import Any, Callable, List, Optional, Set, TypeVar

from . import _library, _rtr
from ._library import CALLS, number
from ._rtr import Entry, Named, Step, StoresStatus, TimeRule
from .data import Data
from .loops import Clock
from .serving import CHUNK, Edition, Served, ServerLimits
from .store import Path, SavedFile, Store, load, save
from .units import EndOfData

# A function that is called with the address of a router, and why its connection ended.
OnEnd = Callable[[Any, Exception], Any]

# The size of a connection's send buffer: the system buffers no more for a slow router. It is the
# same in C, Go and Rust.
_SEND_BUFFER = 1 << 17

# How many errors of a listener in a row are tolerated, and the pause after one in seconds, in which a
# listener that fails at once would take the processor. One that fails for a fifth of a second isn't
# taken to recover, and `serve` raises, so that its caller can listen anew. The same as in Go; no
# router sees them.
_MOST_FAILURES = 10
_PAUSE = 0.02

# The errors of a system that has no descriptor or memory for another connection.
_FULL = (errno.EMFILE, errno.ENFILE, errno.ENOBUFS, errno.ENOMEM)

# The errors of a system that doesn't have an address, or its family.
_ABSENT = (errno.EAFNOSUPPORT, errno.EADDRNOTAVAIL)

_Result = TypeVar("_Result")


class ServerClosed(Exception):
    """The server is closed."""

    def __str__(self) -> str:
        return _rtr.FAILURE_CLOSED


class UpdateError(ValueError):
    """Data that a server doesn't serve; it still serves its present data.

    Attributes:
        status: why the store refuses them: `StoresStatus.OLD_SERIAL`, `OTHER_TIMES`,
            `SESSION_LEFT`, `OTHER_SESSION` or `OTHER_VERSION`; OK if `rule` is broken
        rule: the rule for times that they break (RFC 8210 section 6), or `TimeRule.NONE`
    """

    def __init__(self, text: str, status: StoresStatus, rule: TimeRule = TimeRule.NONE) -> None:
        super().__init__(text)
        self.status, self.rule = status, rule


_TEXTS = {StoresStatus.OLD_SERIAL: _rtr.FAILURE_OLD_SERIAL,
          StoresStatus.OTHER_TIMES: _rtr.FAILURE_OTHER_TIMES,
          StoresStatus.SESSION_LEFT: _rtr.FAILURE_SESSION_LEFT,
          StoresStatus.OTHER_SESSION: _rtr.FAILURE_OTHER_SESSION,
          StoresStatus.OTHER_VERSION: _rtr.FAILURE_HIGHER_VERSION}


class Server:
    """A cache (RFC 8210) for routers of versions 0 to 2, over TCP or TLS, in one event loop.

        server = Server(ended=lambda address, error: print(address, error))
        server.update(data)
        await server.serve("::", 3323)

    Proved machines decide the answer to each router, when it is notified of new data, and when its
    connection ends (docs/SESSIONS.md). No router waits until another one has received or sent
    something. Routers share the bytes of answers. Plain TCP neither encrypts nor authenticates (RFC
    8210 section 9).

    Args:
        limits: on what routers may cost, and on what is kept for them
        ended: is called with the address of a router and the reason when its connection ends,
            unless the router closed it between two units: a `ServerError`, a `Fault` of a unit, an
            OSError of the connection, a MemoryError, or `ServerClosed`
    """

    def __init__(self, limits: ServerLimits = ServerLimits(), *,
                 ended: Optional[OnEnd] = None) -> None:
        self.limits = limits
        self._settings, self._ended = limits.for_library(), ended
        self._door, self._clock = _rtr.rtr_door(), Clock()
        CALLS.rtr_door_init(self._door, self._settings)
        self._updating = threading.Lock()  # guards the store
        self._store, self._edition = Store(), Edition()
        self._file: Optional[SavedFile] = None  # None as long as no file is named
        self._may_change = False
        self._runs: Set[_Run] = set()
        self._is_closed = False

    # ---- data

    @property
    def end(self) -> Optional[EndOfData]:
        """The end of the data that are served, with their session and serial number; None before
        the first data."""
        history = self._edition.history
        return None if history is None else history.end

    def update(self, data: Data) -> bool:
        """Serves these data from now on, with the session and serial number of their end of data,
        and notifies routers. Connections of routers that have data of another session are closed.
        Returns whether they differ from the present data.

        A server with a file, which `restore` or `update_saved` named, first saves the data to it,
        as `update_saved` does. Without a file a server doesn't save: all its data are of one
        session, which it may not have used at an earlier start (RFC 8210 section 5.1). Any thread
        may call it, so that the event loop doesn't wait:

            await asyncio.to_thread(server.update, data)

        Serial number 0 isn't recommended: after a cut in the first answer BIRD 2.0 asks for the
        changes since serial number 0, and keeps the part of the data that it has.

        Raises UpdateError, the OSError of the file, or ServerClosed after `close`; then the present
        data are still served.
        """
        return self._update(data, None)

    def update_saved(self, data: Data, path: Path) -> bool:
        """`update` that first saves the new data to this file, as `save` does, and lets later calls
        of `update` save to it. So the file has every serial number that a router may have data of,
        whenever the process ends, and after a restart none of them is used for other data. Restore
        the file first, if there is one: a file that this server neither restored nor wrote isn't
        replaced, as one that `restore` refused, until it is removed. All data are saved to one
        file, which further calls may name by another path to it, but not by another link. It blocks
        on the file system.

        Raises as `update`; a NotRestoredError, which is an OSError, or an OtherFileError; a
        RuntimeError if the server has data that it didn't save.
        """
        return self._update(data, SavedFile(path))

    def change_session(self) -> None:
        """Lets the next data of a server that doesn't save be of another session, under which it
        never served data, at no earlier start either (RFC 8210 section 5.1). The present data are
        served until then. A server that saves knows the sessions that it left, and ignores this
        call."""
        with self._updating:
            self._may_change = True

    def save(self, path: Path) -> None:
        """Writes what a restart needs to a file: the sessions that the server left, the present
        data, and the changes from earlier data. It writes and syncs a file beside it, `.new`,
        renames that, and syncs the folder. Without data it writes nothing. Servers of each language
        of this library read the file.

        Raises the OSError of the file; then no new file is left, and the old one is unchanged,
        unless the error is an `UnsyncedError`. Raises a RuntimeError if the server doesn't save its
        data before it serves them, since a restart from the file wouldn't know all of them.
        """
        with self._updating:
            self._check_saved()
            store = self._store.served()
            if store is not None:
                save(store, path)

    def restore(self, path: Path) -> Data:
        """Serves what `save` wrote, and returns the data. With the saved session and serial number
        routers get changes after a restart; later data are saved to this file before they are
        served. Call it before the first data. It syncs the folder, since the process that saved may
        have ended before that.

        Raises the OSError of the file; DamagedError; UpdateError for times that RFC 8210 section 6
        doesn't allow; ServerClosed after `close`; a RuntimeError if the server has data. Then
        nothing changes.
        """
        with self._updating:
            self._check_open()
            if self._edition.history is not None:
                raise RuntimeError("the server has data")
            store, history = load(path)
            _check_times(history.end)
            self._store, self._file = store, SavedFile(path, is_own=True)
            self._begin_edition()
        return history.data()

    def _update(self, data: Data, file: Optional[SavedFile]) -> bool:
        """Takes new data, saves their store to this file from now on, if there is one, and serves
        them."""
        if not isinstance(data, Data):
            raise TypeError(f"data must be Data, not {type(data).__name__}")
        _check_times(data.end)
        with self._updating:
            self._check_open()
            self._name(file)
            store = self._store_for(data)
            limits = _rtr.rtr_history_limits(self._settings.keep, self._settings.keep_bytes)
            answer = store.take(self._as_kept(data), _date(), limits)
            if answer.status == StoresStatus.SAME_DATA:
                return False
            if answer.status != StoresStatus.OK:
                raise self._refusal(StoresStatus(answer.status), data)
            if self._file is not None:
                try:
                    self._file.save(store.to_save())
                except BaseException:
                    store.give_up()
                    raise
            store.saved()
            self._store, self._may_change = store, False
            self._begin_edition()
        return True

    def _name(self, file: Optional[SavedFile]) -> None:
        """Saves to this file from now on, if it isn't None, and checks that the file may be
        replaced. It stays named even if saving then fails, since it may have the data all the
        same."""
        if self._file is not None:
            self._file.check_named(self._file.path if file is None else file.path)
            self._file.check()
        elif file is not None:
            self._check_saved()
            file.check()
            self._file = file

    def _store_for(self, data: Data) -> Store:
        """Returns the store that takes new data: another one for the first data of a session of a
        server that doesn't save."""
        if self._file is None:
            end = self.end
            if end is None or self._may_change and data.session != end.session:
                return Store.unsaved(data.session)
        return self._store

    def _check_saved(self) -> None:
        """Raises a RuntimeError if data are served that weren't saved."""
        if self._file is None and self._edition.history is not None:
            raise RuntimeError(_rtr.FAILURE_UNSAVED)

    def _as_kept(self, data: Data) -> Data:
        """Returns data in the version in which the store takes them."""
        end = self.end
        version = CALLS.rtr_stores_version(self._edition.present, 0 if end is None else end.version,
                                           data.session, data.version)
        return data if data.version == version else data.for_version(version)

    def _refusal(self, status: StoresStatus, data: Data) -> UpdateError:
        """Returns the error for data that the store doesn't take."""
        text = _TEXTS[status]
        if status == StoresStatus.OLD_SERIAL:
            text += f": new {data.serial}, present {self._edition.present.serial}"
        return UpdateError(text, status)

    def _begin_edition(self) -> None:
        """Shows routers what the store serves."""
        self._edition = Edition(self._edition.number + 1, self._store.history(), self._settings)
        for run in list(self._runs):
            run.wake()

    # ---- routers

    async def serve(self, host: Optional[str] = None, port: int = 0, *,
                    sock: Optional[socket.socket] = None,
                    ssl: Optional[tls.SSLContext] = None) -> None:
        """Serves routers until the task is cancelled, or `close` is called. Then it closes what it
        listens at, and all connections that came there.

        Args:
            host, port: the addresses to listen at: all those of the host that this system has; by
                default all of this system
            sock: a listening socket, instead of these; it is closed in the end
            ssl: a context for TLS, with the server's certificate

        Raises the OSError of the listener, after ten in a row; errors don't count while the system
        has no descriptor for another connection. Raises ServerClosed if the server is closed.
        """
        listeners = [sock] if sock is not None else await _bound(host, number("port", port, 16))
        run = _Run(self, asyncio.get_running_loop(), listeners, ssl)
        self._runs.add(run)
        try:
            self._check_open()
            run.listen()
            await run.over
        finally:
            self._runs.discard(run)
            run.close()

    def close(self) -> None:
        """Closes all listeners and connections at once; `serve` returns. The server can't be used
        again. Call it in the event loop."""
        self._is_closed = True
        for run in list(self._runs):
            run.close()

    def _check_open(self) -> None:
        if self._is_closed:
            raise ServerClosed

    def _enter(self, has_spare: bool) -> Entry:
        """Counts a connection that was accepted."""
        return Entry(CALLS.rtr_door_enter(self._door, has_spare))

    def _may_accept(self) -> bool:
        """Reports whether a new connection would be served or refused now."""
        return bool(CALLS.rtr_door_next(self._door, True) != Entry.WAIT)

    def _leave(self, entry: Entry) -> None:
        """Records that a connection was closed, so that another one may be accepted."""
        CALLS.rtr_door_leave(self._door, entry)
        for run in list(self._runs):
            run.listen()


def _check_times(end: EndOfData) -> None:
    """Raises an UpdateError for times that a cache may not send."""
    rule = TimeRule(CALLS.rtr_end_rule(end.version, end.refresh, end.retry, end.expire))
    if rule != TimeRule.NONE:
        raise UpdateError(_library.name(Named.TIME_RULE, rule), StoresStatus.OK, rule)


def _date() -> int:
    """Returns the time in milliseconds since 1970."""
    return time.time_ns() // 1_000_000


async def _bound(host: Optional[str], port: int) -> List[socket.socket]:
    """Returns sockets that listen at those addresses of a host that the system has."""
    found = await asyncio.get_running_loop().getaddrinfo(
        host, port, type=socket.SOCK_STREAM, flags=socket.AI_PASSIVE)
    listeners: List[socket.socket] = []
    missing: Optional[OSError] = None
    try:
        for family, _, _, _, address in dict.fromkeys(found):
            try:
                listeners.append(_listener(family, address))
            except OSError as error:
                if error.errno not in _ABSENT:
                    raise
                missing = error
        if missing is not None and not listeners:
            raise missing
    except BaseException:
        for listener in listeners:
            listener.close()
        raise
    return listeners


def _listener(family: int, address: Any) -> socket.socket:
    """Returns a socket that listens at an address."""
    listener = socket.socket(family, socket.SOCK_STREAM)
    try:
        listener.setsockopt(socket.SOL_SOCKET, socket.SO_REUSEADDR, 1)
        if family == socket.AF_INET6:
            listener.setsockopt(socket.IPPROTO_IPV6, socket.IPV6_V6ONLY, 1)
        listener.bind(address)
        listener.listen(socket.SOMAXCONN)
    except BaseException:
        listener.close()
        raise
    return listener


class _Run:
    """A call of `Server.serve`: its listeners and connections, in an event loop."""

    def __init__(self, server: Server, loop: asyncio.AbstractEventLoop,
                 listeners: List[socket.socket], ssl: Optional[tls.SSLContext]) -> None:
        self.server, self.loop, self.ssl = server, loop, ssl
        self.over: asyncio.Future[None] = loop.create_future()
        self._connections: Set[_Connection] = set()
        self._listeners = [_Listener(self, listener) for listener in listeners]
        self._is_closed = False

    def listen(self) -> None:
        """Accepts connections, unless they have to wait."""
        if not self._is_closed:
            for listener in self._listeners:
                listener.listen()

    def fail(self, error: OSError) -> None:
        """Ends the call with this error."""
        if not self.over.done():
            self.over.set_exception(error)

    def wake(self) -> None:
        """Notifies connections of a new edition. Any thread may call it."""
        with contextlib.suppress(RuntimeError):  # the loop is closed
            self.loop.call_soon_threadsafe(self._wake_all)

    def _wake_all(self) -> None:
        for connection in list(self._connections):
            self.loop.call_soon(connection.go_on)

    def take(self, accepted: socket.socket, address: Any) -> None:
        """Serves or refuses a connection that was accepted."""
        entry = self.server._enter(_has_spare(accepted))
        if entry == Entry.WAIT:
            accepted.close()
            return
        try:
            ready = _prepared(accepted, self.ssl)
        except OSError as error:
            accepted.close()
            self.server._leave(entry)
            self.tell(address, error)
            return
        connection = _Connection(self, ready, address, entry)
        self._connections.add(connection)
        connection.go_on()

    def left(self, connection: _Connection, entry: Entry) -> None:
        """Records that a connection was closed."""
        self._connections.discard(connection)
        self.server._leave(entry)

    def tell(self, address: Any, error: Exception) -> None:
        """Reports why a connection ended."""
        if self.server._ended is None:
            return
        try:
            self.server._ended(address, error)
        except Exception as raised:
            self.loop.call_exception_handler(
                {"message": "the callback of a Server raised", "exception": raised})

    def close(self) -> None:
        """Closes the listeners and the connections."""
        self._is_closed = True
        for listener in self._listeners:
            listener.close()
        for connection in list(self._connections):
            connection.close(ServerClosed())
        if not self.over.done():
            self.over.set_result(None)


def _has_spare(accepted: socket.socket) -> bool:
    """Reports whether the system has another descriptor, as for a file."""
    try:
        os.close(os.dup(accepted.fileno()))
    except OSError:
        return False
    return True


def _prepared(accepted: socket.socket, ssl: Optional[tls.SSLContext]) -> socket.socket:
    """Returns a connection that doesn't block, and maybe one over TLS, whose handshake is part of
    the first reads and writes."""
    accepted.setblocking(False)
    accepted.setsockopt(socket.SOL_SOCKET, socket.SO_SNDBUF, _SEND_BUFFER)
    if accepted.family in (socket.AF_INET, socket.AF_INET6):
        accepted.setsockopt(socket.IPPROTO_TCP, socket.TCP_NODELAY, 1)
    if ssl is None:
        return accepted
    return ssl.wrap_socket(accepted, server_side=True, do_handshake_on_connect=False)


class _Listener:
    """A listening socket. While connections have to wait, they stay in the queue of the system."""

    def __init__(self, run: _Run, listener: socket.socket) -> None:
        self._run, self._socket = run, listener
        self._socket.setblocking(False)
        self._failures = 0
        self._is_watched = False
        self._timer: Optional[asyncio.TimerHandle] = None

    def listen(self) -> None:
        """Waits for a connection, unless it does already, or it pauses."""
        if not self._is_watched and self._timer is None:
            self._run.loop.add_reader(self._socket, self._accept)
            self._is_watched = True

    def _stop(self) -> None:
        if self._is_watched:
            self._run.loop.remove_reader(self._socket)
            self._is_watched = False

    def _accept(self) -> None:
        """Accepts one connection."""
        if not self._run.server._may_accept():
            self._stop()  # until a connection has left
            return
        try:
            accepted, address = self._socket.accept()
        except (BlockingIOError, InterruptedError, ConnectionAbortedError):
            return
        except OSError as error:
            self._fail(error)
            return
        self._failures = 0
        self._run.take(accepted, address)

    def _fail(self, error: OSError) -> None:
        """Pauses after an error."""
        self._failures += error.errno not in _FULL
        if self._failures == _MOST_FAILURES:
            self._run.fail(error)
            return
        self._stop()
        self._timer = self._run.loop.call_later(_PAUSE, self._resume)

    def _resume(self) -> None:
        self._timer = None
        self.listen()

    def close(self) -> None:
        self._stop()
        if self._timer is not None:
            self._timer.cancel()
        self._socket.close()


class _Connection:
    """The socket and the timer of a router's connection. It waits to read or to write, never for
    both, and sends at most one chunk before other connections get their turn."""

    def __init__(self, run: _Run, connected: socket.socket, address: Any, entry: Entry) -> None:
        self._run, self._socket, self._address, self._entry = run, connected, address, entry
        server, now = run.server, run.server._clock.now()
        self._served = Served(now, server._settings)
        if entry == Entry.REFUSE:
            self._served.refuse(now, server._edition)
        self._step = Step.WAIT
        self._blocked = 0  # the event that TLS waits for, if it isn't that of the step
        self._watched = 0  # the event that the loop waits for
        self._timer: Optional[asyncio.TimerHandle] = None
        self._has_finished = self._is_closed = False

    def go_on(self) -> None:
        """Carries out steps until it has to wait."""
        if self._is_closed:
            return
        try:
            self._advance()
        except (OSError, MemoryError) as error:
            self._served.lost(error)
            self._advance()

    def _advance(self) -> None:
        server, served = self._run.server, self._served
        edition = server._edition
        step = served.next(server._clock.now(), edition)
        if step == Step.SEND:
            self._send()
            step = served.next(server._clock.now(), edition)
        if step == Step.CLOSE:
            self.close(served.error)
            return
        if step == Step.FINISH:
            self._finish()
        self._step = step
        usual = selectors.EVENT_WRITE if step == Step.SEND else selectors.EVENT_READ
        self._watch(self._blocked or usual)
        self._wake_at(served.wakes(edition))

    def _ready(self) -> None:
        """Handles a socket that can be read or written."""
        try:
            if self._step != Step.SEND:
                self._receive()
        except (OSError, MemoryError) as error:
            self._served.lost(error)
        self.go_on()

    def _receive(self) -> None:
        # A record of TLS fits, so that TLS buffers no part of it.
        received = self._attempt(lambda: self._socket.recv(CHUNK))
        if received is not None:
            self._served.received(self._run.server._clock.now(), received)

    def _send(self) -> None:
        count = self._attempt(lambda: self._socket.send(self._served.output))
        if count is not None:
            self._served.sent(self._run.server._clock.now(), count)

    def _attempt(self, call: Callable[[], _Result]) -> Optional[_Result]:
        """Makes a call on the socket; returns None if it would block."""
        self._blocked = 0
        try:
            return call()
        except tls.SSLWantReadError:
            self._blocked = selectors.EVENT_READ
        except tls.SSLWantWriteError:
            self._blocked = selectors.EVENT_WRITE
        except (BlockingIOError, InterruptedError):
            pass
        return None

    def _finish(self) -> None:
        """Shuts the connection down for writing, once TLS has sent its own end."""
        if self._has_finished:
            return
        self._blocked = 0
        if isinstance(self._socket, tls.SSLSocket):
            try:
                self._socket.unwrap()
            except tls.SSLWantWriteError:
                self._blocked = selectors.EVENT_WRITE
                return
            except (OSError, ValueError):
                pass  # SSLWantReadError: the router hasn't sent its end
        self._has_finished = True
        self._socket.shutdown(socket.SHUT_WR)

    def _watch(self, event: int) -> None:
        """Waits only for this event; 0 for none."""
        if event == self._watched:
            return
        loop = self._run.loop
        if self._watched == selectors.EVENT_READ:
            loop.remove_reader(self._socket)
        elif self._watched == selectors.EVENT_WRITE:
            loop.remove_writer(self._socket)
        if event == selectors.EVENT_READ:
            loop.add_reader(self._socket, self._ready)
        elif event == selectors.EVENT_WRITE:
            loop.add_writer(self._socket, self._ready)
        self._watched = event

    def _wake_at(self, when: int) -> None:
        """Sets the timer."""
        if self._timer is not None:
            self._timer.cancel()
        seconds = self._run.server._clock.until(when)
        self._timer = self._run.loop.call_later(seconds, self.go_on)

    def close(self, error: Optional[Exception]) -> None:
        """Closes the connection, and reports the reason, if there is one."""
        if self._is_closed:
            return
        self._is_closed = True
        self._watch(0)
        if self._timer is not None:
            self._timer.cancel()
        self._socket.close()
        self._run.left(self, self._entry)
        if error is not None:
            self._run.tell(self._address, error)
        self._served.error = None  # else its traceback keeps this connection, and TLS, in a cycle
