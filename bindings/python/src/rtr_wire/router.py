"""A router's end of a session, without sockets or a clock."""
from __future__ import annotations

import contextlib
import math
import threading
from collections import deque
from dataclasses import dataclass
from typing import Any, ClassVar, Deque, Iterator, List, Optional, Union

from . import _library, _rtr
from ._library import CALLS, Buffer
from ._rtr import Cause, ClientFailure, TodoKind
from .data import Changes, Data, difference
from .faults import refusal
from .link import Link
from .reader import Units
from .units import ErrorReport


def report_text_of(report: ErrorReport) -> str:
    """Returns what an error report says."""
    return _library.report_text(report.code, report.text or b"")


class SessionError(Exception):
    """Why a connection ended, or why there is no answer yet, if the reason isn't an invalid unit (a
    `Fault`). docs/SESSIONS.md has the causes.

    Attributes:
        cause: the `Cause`
        unit: the bytes of the unit that it is about, or none
        code: the error code that was reported to the cache, or None
        reported: the cache's error report, of a `Cause.REPORTED` and a `NoData`
    """

    def __init__(self, cause: Cause, unit: bytes = b"", code: Optional[int] = None,
                 reported: Optional[ErrorReport] = None) -> None:
        super().__init__(cause, unit, code, reported)
        self.cause = cause
        self.unit = unit
        self.code = code
        self.reported = reported

    def __str__(self) -> str:
        text = _library.name(_rtr.Named.CAUSE, self.cause)
        return text if self.reported is None else f"{text}: {report_text_of(self.reported)}"


class NoData(SessionError):
    """The cache has no data yet; the router will ask again."""


@dataclass(frozen=True, init=False)
class Settings:
    """The settings of a router. None stands for the default of rtr.h. Times are in seconds. All but
    the version are keyword-only.

    Attributes:
        version: the highest version that it asks in, 0 to 2. ASPAs need version 2, for which caches
            in use have several layouts
        refresh, retry, expire: used instead of the cache's (RFC 8210 section 6)
        pause: the least time between two queries or connections
        connect_limit: the time limit for connecting
        response_limit: the time limit from a query to its end of data
        most_bytes: the most bytes of an answer's payload units
        most_units: the most payload units of an answer
        report_limit: for a last report to be sent, and read by the cache. A `Router` leaves it to
            its host
    """

    version: int = _rtr.USUAL_VERSION
    refresh: Optional[float] = None
    retry: Optional[float] = None
    expire: Optional[float] = None
    pause: Optional[float] = None
    connect_limit: Optional[float] = None
    response_limit: Optional[float] = None
    most_bytes: Optional[int] = None
    most_units: Optional[int] = None
    report_limit: Optional[float] = None

    _TIMES: ClassVar[List[str]] = ["refresh", "retry", "expire", "pause", "connect_limit",
                                   "response_limit"]

    def __init__(self, version: int = _rtr.USUAL_VERSION, *, refresh: Optional[float] = None,
                 retry: Optional[float] = None, expire: Optional[float] = None,
                 pause: Optional[float] = None, connect_limit: Optional[float] = None,
                 response_limit: Optional[float] = None, most_bytes: Optional[int] = None,
                 most_units: Optional[int] = None, report_limit: Optional[float] = None) -> None:
        self.__dict__.update(
            version=version, refresh=refresh, retry=retry, expire=expire, pause=pause,
            connect_limit=connect_limit, response_limit=response_limit, most_bytes=most_bytes,
            most_units=most_units, report_limit=report_limit)

    def for_library(self, chance: int) -> _rtr.rtr_settings:
        """Returns the struct. `chance` is a random number of 16 bits, which spreads the waits of
        routers."""
        settings = _rtr.rtr_settings()
        self.report_seconds()  # checks it
        CALLS.rtr_settings_usual(settings, _library.octet(self.version))
        for name in self._TIMES:
            seconds = getattr(self, name)
            if seconds is not None:
                setattr(settings, name, milliseconds(name, seconds))
        if self.most_bytes is not None:
            settings.most_bytes = bounded("most_bytes", self.most_bytes, 64)
        if self.most_units is not None:
            settings.most_units = bounded("most_units", self.most_units, 32)
        settings.chance = _library.number("chance", chance, 16)
        return settings

    def report_seconds(self) -> float:
        """Returns the time for a last report, which the struct doesn't have."""
        if self.report_limit is None:
            return _rtr.LAST_REPORT_LIMIT / 1000
        return milliseconds("report_limit", self.report_limit) / 1000


def milliseconds(name: str, seconds: float) -> int:
    """Returns the time in milliseconds, at most 2**32 - 1; only 0 seconds are rounded to 0."""
    if not isinstance(seconds, (int, float)):
        raise TypeError(f"{name} must be a number of seconds, not {type(seconds).__name__}")
    if not 0 <= seconds < math.inf:
        raise ValueError(f"{name} is {seconds}: it must be from 0 on")
    return bounded(name, round(seconds * 1000) or int(seconds > 0), 32)


def bounded(name: str, value: int, bits: int) -> int:
    """Returns the number, or if it is larger, the largest of this many bits."""
    if _library.integer(name, value) < 0:
        raise ValueError(f"{name} is {value}: it must be from 0 on")
    return min(value, (1 << bits) - 1)


@dataclass(frozen=True)
class Connect:
    """Open a connection, then call `Router.connected` or `Router.lost`."""


@dataclass(frozen=True)
class Close:
    """Send the rest of `Router.output`, and close the connection."""


@dataclass(frozen=True)
class Update:
    """The data changed.

    Attributes:
        data: all data, as the cache had them at one serial number; None if they expired, or the
            cache has other data and hasn't sent them yet
        changes: the changes from the data before, which are computed when they are first used
    """

    data: Optional[Data]
    changes: Changes


@dataclass(frozen=True)
class Failed:
    """A connection ended, or there is no answer yet; the router continues.

    Attributes:
        error: a `Fault` of a unit or of changes, a `SessionError`, an OSError of the connection, or
            a MemoryError
    """

    error: Exception


Step = Union[Connect, Close, Update, Failed]


class Router:
    """A router's end of a session (RFC 8210) without sockets or a clock: it takes bytes and times,
    and returns what to do. A proved client decides that (`struct rtr_link` of rtr.h;
    docs/SESSIONS.md has its states).

    After each event that it reports, a program calls `step` until that returns None, and carries
    out each step. Times are in milliseconds, by a monotonic clock, and below 2**63.
    """

    def __init__(self, settings: Settings = Settings(), *, chance: int = 0) -> None:
        self._link = Link(_settings(settings).for_library(chance))
        self._steps: Deque[Step] = deque()
        self._asked = False  # whether the caller requests current data
        self._todo: Optional[_rtr.rtr_todo] = None  # for a group, until it is taken
        self._in_loop = threading.Lock()  # held by the loop that runs the router
        self._begin(is_wanted=False)

    @contextlib.contextmanager
    def alone(self) -> Iterator[None]:
        """Keeps other loops from running the router. Raises a RuntimeError if one does already: it
        would get some of the steps, such as `Close`, for the connection of this one."""
        if not self._in_loop.acquire(blocking=False):
            raise RuntimeError("a loop runs the router already: make another one")
        try:
            yield
        finally:
            self._in_loop.release()

    def _begin(self, is_wanted: bool) -> None:
        """Resets the state of the connection; `is_wanted` if one is to be opened."""
        self._is_wanted, self._is_open = is_wanted, False
        self._received = b""  # received bytes that the link hasn't read yet
        self._ended = False  # whether the connection ended, which the link doesn't know yet
        self._is_lost = False  # whether it ended, and isn't closed yet
        self._error: Optional[Exception] = None

    def again(self) -> None:
        """Restarts without data, with the same settings and cache: the waits for a failing cache
        continue to grow. The caller closes the connection, if there is one."""
        self._link.again()
        self._steps.clear()
        self._asked, self._todo = False, None
        self._begin(is_wanted=False)

    def data(self, now: int) -> Optional[Data]:
        """Returns the data at this time; None if there are none, or they have expired, even if no
        step has reported that yet."""
        time = _library.number("now", now, 64)
        return self._link.data if self._link.has_data(time) else None

    @property
    def wakes(self) -> int:
        """When to call `step` if nothing happens before."""
        return self._link.wakes

    @property
    def output(self) -> bytes:
        """The bytes to send."""
        return self._link.output

    def sent(self, count: int) -> None:
        """Reports that this many bytes of the output were sent."""
        unsent = len(self._link.output)
        if _library.integer("count", count) not in range(unsent + 1):
            raise ValueError(f"count is {count}: it must be from 0 to {unsent}")
        self._link.sent(count)

    def connected(self) -> None:
        """Reports that the connection is established. Raises a RuntimeError unless `Connect` asked
        for it and neither `lost` nor `Close` followed."""
        self._link.opened()
        self._is_wanted, self._is_open = False, True

    def lost(self, error: Optional[Exception] = None) -> None:
        """Reports that connecting failed, or the connection broke. Ignored if there is none."""
        if self._is_wanted or self._is_open:
            self._error, self._ended, self._is_lost = error, True, True

    def asked(self) -> None:
        """Requests current data: the router asks as soon as allowed, or connects."""
        self._asked = True

    def received(self, data: Buffer) -> None:
        """Passes received bytes; none means that the cache has closed. Ignored without a
        connection."""
        received = _library.whole(data)
        if self._is_open:
            self._received += received
            self._ended = self._ended or not received
            self._is_lost = self._is_lost or not received

    def step(self, now: int) -> Optional[Step]:
        """Returns what to do at this time; None means to wait."""
        _library.number("now", now, 64)
        while not self._steps:
            before, todo = self._link.data, self._link.next(now, self._takes_request())
            if todo.kind != TodoKind.WAIT:
                self._perform(todo, before)
            elif not self._feed():
                return None
        return self._steps.popleft()

    def _takes_request(self) -> bool:
        """Takes the caller's request, unless the connection is lost: then it waits until that is
        closed."""
        takes = self._asked and not self._is_lost
        self._asked = self._asked and self._is_lost
        return takes

    def take_todo(self) -> Optional[_rtr.rtr_todo]:
        """Returns what the link asked for last, once, for a group: the first of several steps of
        one todo gets it; then None."""
        taken, self._todo = self._todo, None
        return taken

    def _feed(self) -> bool:
        """Passes received bytes to the link, or that the connection ended; returns whether there
        was either."""
        if self._received:
            self._received = self._received[self._link.received(self._received):]
        elif self._ended:
            self._link.lost()
            self._is_wanted = self._is_open = self._ended = False
        else:
            return False
        return True

    def _perform(self, todo: _rtr.rtr_todo, before: Optional[Data]) -> None:
        """Queues the steps for what the link asks for. `before` are its data before."""
        kind, link = todo.kind, self._link
        self._todo = _rtr.rtr_todo.from_buffer_copy(todo)
        if kind == TodoKind.CONNECT:
            self._begin(is_wanted=True)
            self._steps.append(Connect())
        elif kind == TodoKind.DATA:
            self._steps.append(Update(link.data, difference(before, link.data)))
        elif kind == TodoKind.NO_DATA:
            self._steps.append(Failed(NoData(Cause.REPORTED, reported=self._report(todo))))
        elif before is not None and link.data is None:
            self._steps.append(Update(None, difference(before, None)))
        if kind == TodoKind.DROPPED:
            self._steps.append(Failed(SessionError(Cause.EXPIRED)))
        elif kind == TodoKind.CLOSE:
            self._steps.append(Close())
            self._explain(todo)
            self._begin(is_wanted=False)

    def _explain(self, todo: _rtr.rtr_todo) -> None:
        """Queues why the connection ends."""
        try:
            error = self._reason(todo)
        except MemoryError as cause:
            error = _no_memory(cause)
        if error is not None:
            self._steps.append(Failed(error))

    def _reason(self, todo: _rtr.rtr_todo) -> Optional[Exception]:
        """Returns why the connection ends; None if it does for a lower or a higher version."""
        error, cause = self._error, Cause(todo.cause)
        gave_up = self._link.gave_up or isinstance(error, MemoryError)
        failure = CALLS.rtr_todo_failure(todo, gave_up)
        if failure == ClientFailure.NONE:
            return None
        if failure == ClientFailure.MEMORY:
            return _no_memory(error if isinstance(error, MemoryError) else None)
        if failure == ClientFailure.LOST and error is not None:
            return error
        if failure == ClientFailure.REPORTED:
            return SessionError(cause, reported=self._report(todo))
        about = self._link.about(todo.offset)
        if failure == ClientFailure.REFUSED:
            return refusal(todo.status, todo.detail, about, 0, offset=todo.position,
                           side=2 if cause == Cause.NOT_APPLIED else 0)
        if not todo.reports:
            return SessionError(cause)
        _, size, _ = _library.unit_size(about)
        return SessionError(cause, about[:size], todo.code)

    def _report(self, todo: _rtr.rtr_todo) -> Optional[ErrorReport]:
        """Returns the cache's error report, at the offset in `todo`."""
        unit: Any = next(Units(self._link.about(todo.offset)), None)
        return unit if isinstance(unit, ErrorReport) else None


def _no_memory(cause: Optional[MemoryError]) -> MemoryError:
    """Returns the error of a lack of memory, with its text; those of the interpreter may have
    none."""
    error = MemoryError(_rtr.FAILURE_NO_MEMORY)
    error.__cause__ = cause
    return error


def _settings(settings: Settings) -> Settings:
    if not isinstance(settings, Settings):
        raise TypeError(f"settings must be Settings, not {type(settings).__name__}")
    return settings
