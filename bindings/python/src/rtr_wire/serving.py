"""A cache's end of a connection, without sockets or a clock, and the data that connections
share."""
from __future__ import annotations

import ctypes
from dataclasses import dataclass, fields
from typing import Any, Dict, Optional, Tuple, Union

from . import _library, _rtr
from ._library import CALLS
from ._rtr import Cut, Named, Reason, ServingKind, Step
from .faults import refusal
from .reader import Units
from .router import bounded, milliseconds, report_text_of
from .store import History, form_of
from .units import ErrorReport

# The most bytes of a send; a large answer is sent without a copy.
CHUNK = 1 << 16

# The limits that are times, and the limits that are numbers, with their bits.
_TIMES = ("first_limit", "idle_limit", "pause", "unit_limit", "write_limit", "response_limit",
          "report_limit", "keep")
_NUMBERS = {"most_connections": 32, "most_refused": 32, "most_behind": 32,
            "keep_bytes": 8 * ctypes.sizeof(ctypes.c_size_t)}

_USUAL = _rtr.rtr_server_settings()
CALLS.rtr_server_settings_usual(_USUAL)


def _holder(settings: _rtr.rtr_server_settings, name: str) -> Any:
    """Returns the struct that has the field of this name."""
    return settings.cache if hasattr(settings.cache, name) else settings


def _usual(name: str) -> Any:
    """Returns the default of a limit, a time in seconds."""
    value = getattr(_holder(_USUAL, name), name)
    return value / 1000 if name in _TIMES else value


@dataclass(frozen=True)
class ServerLimits:
    """What a `Server` allows its routers, and what it keeps for them. The defaults are those of
    rtr.h. Pass the limits by name. Times are in seconds.

    Attributes:
        most_connections: the most connections that are served at once
        most_refused: the most connections above that limit that get a report of code 1 at once;
            further ones aren't accepted until one of them ends
        first_limit: from the connection to the first query
        unit_limit: from the first byte of a unit to its last
        idle_limit: from one query to the next
        write_limit: for which a router may take no byte of an answer
        response_limit: for a whole answer
        report_limit: for a last report to be sent, and read by the router
        pause: the least time between two notifies to a router (RFC 8210 section 8.2)
        most_behind: how many newer data may come while a router is sent an answer
        keep: for which the changes from data are kept, at least, after newer data came
        keep_bytes: the most bytes of these changes, with 16 for each; and the most of the answers
            that are computed from them
        refuses: whether a serial query whose changes aren't known is answered by a report of code
            0, and the end, instead of a cache reset
    """

    most_connections: int = _usual("most_connections")
    most_refused: int = _usual("most_refused")
    first_limit: float = _usual("first_limit")
    unit_limit: float = _usual("unit_limit")
    idle_limit: float = _usual("idle_limit")
    write_limit: float = _usual("write_limit")
    response_limit: float = _usual("response_limit")
    report_limit: float = _usual("report_limit")
    pause: float = _usual("pause")
    most_behind: int = _usual("most_behind")
    keep: float = _usual("keep")
    keep_bytes: int = _usual("keep_bytes")
    refuses: bool = _usual("refuses")

    def for_library(self) -> _rtr.rtr_server_settings:
        """Returns the struct."""
        settings = _rtr.rtr_server_settings()
        for name in (field.name for field in fields(self)):
            value = getattr(self, name)
            if name in _TIMES:
                value = milliseconds(name, value)
            elif name in _NUMBERS:
                value = bounded(name, value, _NUMBERS[name])
            setattr(_holder(settings, name), name, value)
        return settings


class ServerError(Exception):
    """Why a server ended a connection, if the reason isn't an invalid unit (a `Fault`) or an error
    of the connection (an OSError). docs/SESSIONS.md has the reasons.

    Attributes:
        reason: the `Reason`
        unit: the bytes of the unit that it is about, or none
        code: the error code that was reported to the router, or None
        reported: the router's error report, of a `Reason.REPORTED`
    """

    def __init__(self, reason: Reason, unit: bytes = b"", code: Optional[int] = None,
                 reported: Optional[ErrorReport] = None) -> None:
        super().__init__(reason, unit, code, reported)
        self.reason = reason
        self.unit = unit
        self.code = code
        self.reported = reported

    def __str__(self) -> str:
        text = _library.name(Named.REASON, self.reason)
        return text if self.reported is None else f"{text}: {report_text_of(self.reported)}"


class BehindError(ServerError):
    """More newer data came than `ServerLimits.most_behind` while the router was sent an answer."""

    def __init__(self) -> None:
        super().__init__(Reason.SLOW)

    def __str__(self) -> str:
        return _rtr.FAILURE_BEHIND


def _cut_error(cut: int) -> ServerError:
    """Returns the error for the limit that ended a connection."""
    if cut == Cut.BEHIND:
        return BehindError()
    return ServerError(Reason.NEW_SESSION if cut == Cut.NEW_SESSION else Reason.SLOW)


class Edition:
    """The data of a server at one serial number, with their history and the answers that were made
    of them, which connections share. Before its first data a server has one without a history.

    Attributes:
        number: counts the editions of a server
        history: has the data
        present: their session and serial number
        known: the earlier serial numbers from which there are changes
    """

    def __init__(self, number: int = 0, history: Optional[History] = None,
                 settings: _rtr.rtr_server_settings = _USUAL) -> None:
        self.number, self.history, self._settings = number, history, settings
        self.present = _rtr.rtr_present()
        known = [] if history is None else history.known()
        self.known = (ctypes.c_uint32 * len(known))(*known)
        self._forms: Dict[int, memoryview] = {}
        self._changes: Dict[Tuple[int, int], bytes] = {}
        self._kept_bytes = 0  # of the changes
        if history is not None:
            self.present.has = True
            self.present.session, self.present.serial = history.end.session, history.end.serial

    def all(self, version: int) -> memoryview:
        """Returns all data as encoded for a version."""
        assert self.history is not None, "there are data"
        form = self._forms.get(version)
        if form is None:
            if version == self.history.end.version:
                form = self.history.present.view()
            else:
                part = form_of(self.history.present, version)
                form = memoryview(part.memory).cast("B")[:part.length]
            self._forms[version] = form
        return form

    def since(self, serial: int, version: int) -> memoryview:
        """Returns the changes from a known serial number, or from the present one, as encoded for a
        version."""
        assert self.history is not None, "there are data"
        changes = self._changes.get((serial, version))
        if changes is None:
            if serial == self.present.serial:
                changes = self.history.nothing(version)
            else:
                changes = self.history.since(serial, version)
            if CALLS.rtr_server_keeps(self._settings, self._kept_bytes, len(changes)):
                self._kept_bytes += len(changes)
                self._changes[serial, version] = changes
        return memoryview(changes)


class Served:
    """A cache's end of a connection (RFC 8210): its bytes, and the proved machines of rtr.h, which
    decide the answers (struct rtr_cache) and when it sends, waits and ends (struct rtr_connection).

    Its host reports what happens, calls `next` after that, when there is a new edition, and at the
    time that `wakes` returns, and does the step that `next` returns. Times are in milliseconds, by
    a monotonic clock.

    Attributes:
        error: why the connection ended; None if the router closed it between two units
    """

    def __init__(self, now: int, settings: _rtr.rtr_server_settings) -> None:
        self._cache, self._connection = _rtr.rtr_cache(), _rtr.rtr_connection()
        self._serving, self._cut = _rtr.rtr_serving(), ctypes.c_uint8()
        CALLS.rtr_cache_init(self._cache, now, settings.cache)
        CALLS.rtr_connection_init(self._connection, now, settings)
        self._input = b""
        self._offset = 0  # of the input in all bytes received
        self._has_closed = False
        self._head, self._body = b"", memoryview(b"")  # of the answer
        self._sent = 0  # bytes of it
        self.error: Optional[Exception] = None

    # ---- events

    def refuse(self, now: int, edition: Edition) -> None:
        """Ends the connection by a report, since the limit of connections is reached."""
        CALLS.rtr_cache_full(self._cache, now, edition.present, self._serving)
        self._perform(now, edition)

    def received(self, now: int, data: bytes) -> None:
        """Reports received bytes; none mean that the router has closed."""
        if not data:
            self._has_closed = True
            CALLS.rtr_connection_closed(self._connection)
        elif not self.has_ended:
            self._input += data
            CALLS.rtr_connection_received(self._connection, now, len(data))

    def lost(self, error: Exception) -> None:
        """Reports that the connection broke: nothing is sent on it any more. This is the reason,
        unless the connection has ended before."""
        if not self.has_ended:
            self.error = error
        CALLS.rtr_connection_broke(self._connection)

    def sent(self, now: int, count: int) -> None:
        """Reports that this many bytes of the output were sent."""
        CALLS.rtr_connection_sent(self._connection, now, count)
        self._sent += count
        if self._sent == len(self._head) + len(self._body):
            self._begin(b"", memoryview(b""))

    # ---- what to do

    def next(self, now: int, edition: Edition) -> Step:
        """Returns what to do now: `Step.WAIT`, SEND, FINISH or CLOSE."""
        while True:
            step = CALLS.rtr_connection_next(
                self._connection, now, self._cache, edition.present, edition.number,
                ctypes.byref(self._cut))
            if step == Step.HEAR:
                self._hear(now, edition)
            elif step == Step.TICK:
                CALLS.rtr_cache_tick(self._cache, now, edition.present, self._serving)
                self._perform(now, edition)
            elif step == Step.LOSE:
                CALLS.rtr_cache_lost(self._cache, now, edition.present, self._serving)
                self._perform(now, edition)
            else:
                if self._cut.value != Cut.NONE:
                    self.error = _cut_error(self._cut.value)
                return Step(step)

    def wakes(self, edition: Edition) -> int:
        """Returns when to call `next`, if nothing happens before. The time may be in the past."""
        return int(CALLS.rtr_connection_wakes(self._connection, self._cache, edition.present))

    @property
    def output(self) -> Union[bytes, memoryview]:
        """The next bytes to send. They stay the same until `sent` is called."""
        offset = self._sent - len(self._head)
        if offset < 0:
            return self._head[offset:] + bytes(self._body[:CHUNK])
        return self._body[offset:offset + CHUNK]

    @property
    def has_ended(self) -> bool:
        """Whether the connection broke, or ends once all bytes are sent."""
        return self._connection.state != 0

    # ---- answers

    def _hear(self, now: int, edition: Edition) -> None:
        """Passes the input to the machine, and begins the answer to its first unit."""
        CALLS.rtr_cache_read_nonnull(
            self._cache, now, edition.present, edition.known, len(edition.known), self._input,
            len(self._input), self._has_closed, self._serving)
        taken = self._serving.taken
        CALLS.rtr_connection_heard(self._connection, now, taken)
        self._perform(now, edition)
        self._input, self._offset = self._input[taken:], self._offset + taken

    def _perform(self, now: int, edition: Edition) -> None:
        """Begins the answer of the machine, or ends the connection."""
        serving = self._serving
        version, body = serving.version, memoryview(b"")
        if serving.kind == ServingKind.WAIT:
            return
        if serving.kind == ServingKind.ALL:
            body = edition.all(version)
        elif serving.kind == ServingKind.CHANGES:
            body = edition.since(serving.serial, version)
        head = self._report() if serving.reports else self._unit()
        size = len(head) + len(body)
        if serving.kind == ServingKind.END:
            self.error = self._reason()
            CALLS.rtr_connection_ends(self._connection, now, size)
        else:
            CALLS.rtr_connection_answers(self._connection, now, size, edition.number)
        self._begin(head, body)

    def _begin(self, head: bytes, body: memoryview) -> None:
        """Sets the output."""
        self._head, self._body, self._sent = head, body, 0

    def _unit(self) -> bytes:
        """Returns the first unit of the answer, if it has one."""
        output = ctypes.create_string_buffer(_rtr.SERIAL_SIZE)
        length = CALLS.rtr_cache_unit_nonnull(self._serving, output, len(output))
        return output.raw[:length]

    def _report(self) -> bytes:
        """Returns the report that is owed."""
        output, length = ctypes.create_string_buffer(_rtr.LONGEST_UNIT), ctypes.c_size_t()
        CALLS.rtr_cache_report_nonnull(self._serving, self._input, len(self._input), output,
                                       len(output), ctypes.byref(length))
        return output.raw[:length.value]

    def _reason(self) -> Optional[Exception]:
        """Returns why the machine ends the connection; None if the router has closed it."""
        serving, reason = self._serving, Reason(self._serving.reason)
        if reason == Reason.LOST:
            return None
        if reason == Reason.FAULTY:
            return refusal(serving.status, serving.detail, self._input, 0, offset=self._offset)
        if reason == Reason.REPORTED:
            unit: Any = next(Units(self._input), None)
            return ServerError(reason, reported=unit if isinstance(unit, ErrorReport) else None)
        if not serving.reports or reason == Reason.FULL:
            return ServerError(reason, code=serving.code if serving.reports else None)
        _, size, _ = _library.unit_size(self._input)
        return ServerError(reason, self._input[:size], serving.code)
