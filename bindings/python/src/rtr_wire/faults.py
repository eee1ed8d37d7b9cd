"""Faults of units and calls: each status has an exception class of its own."""
from __future__ import annotations

from typing import Any, ClassVar, Dict, Optional, Type

from . import _library, _rtr
from ._rtr import Cause, Status


class Fault(ValueError):
    """An input that the library refuses. Each status has a class of its own below; they are checked
    in the order of docs/PROTOCOL.md.

    Attributes:
        status: the status, a `Status`
        detail: the type for a UnitTypeError, the version for a UnitVersionError or an
            OtherVersionError, the broken `PrefixRule` for a PrefixError; else 0
        offset: the offset in the input, in bytes, of the unit at fault; None if no unit is
        unit: the bytes of that unit, as far as they are available and its length is valid
        side: the input that has the unit, for a call on data or on two inputs: 1 or 2; else 0
        before: the result of `normalise` before the fault; else None
    """

    status: ClassVar[Status]

    def __init__(self, detail: int = 0, offset: Optional[int] = None, unit: bytes = b"",
                 side: int = 0) -> None:
        super().__init__(detail, offset, unit, side)
        self.detail = detail
        self.offset = offset
        self.unit = unit
        self.side = side
        self.before: Any = None

    def __str__(self) -> str:
        if self.offset is None:
            return _library.status_text(self.status, self.detail)
        return _library.status_text_at(self.status, self.detail, self.offset)

    @property
    def code(self) -> Optional[int]:
        """The code of the error report that the peer is owed (RFC 8210 section 12), or None: if no
        unit is at fault, or the unit is itself an error report (section 5.11).
        """
        return None if self.offset is None else _library.error_code(self.status, self.unit)

    def report(self, version: int) -> Optional[bytes]:
        """Returns the error report that the peer is owed (RFC 8210 section 5.11), encoded for a
        session of this version, or None. It encloses the unit, and its text is the status.
        """
        code = self.code
        if code is None:
            return None
        cause = Cause.FAULTY if self.status <= Status.PREFIX else Cause.NOT_APPLIED
        action = _rtr.rtr_action(
            kind=_rtr.ActionKind.END, cause=cause, status=self.status, detail=self.detail,
            code=code, version=_library.number("version", version, 8), reports=True)
        return _library.report(action, self.unit)


class ShortError(Fault):
    """The input ends inside a unit, or a sequence before its end of data."""

    status = Status.SHORT


class UnitTypeError(Fault):
    """A unit of a type that is not allowed here."""

    status = Status.UNIT_TYPE


class UnitVersionError(Fault):
    """A unit of a version that is not allowed here, or data of different versions."""

    status = Status.UNIT_VERSION


class TooLongError(Fault):
    """A router key, an ASPA or an error report that is longer than a unit may be."""

    status = Status.TOO_LONG


class UnitLengthError(Fault):
    """A length that is wrong for the type."""

    status = Status.UNIT_LENGTH


class EmptyProvidersError(Fault):
    """An ASPA that is announced without providers."""

    status = Status.EMPTY_PROVIDERS


class PrefixError(Fault):
    """A prefix whose length or max length breaks a `PrefixRule`."""

    status = Status.PREFIX


class TooManyError(Fault):
    """The limit of units was reached before an end of data."""

    status = Status.TOO_MANY


class NoRoomError(Fault):
    """The output is too short."""

    status = Status.NO_ROOM


class NoFormError(Fault):
    """No unit has these fields."""

    status = Status.NO_FORM


class NotCanonicalError(Fault):
    """A unit, or an end of data, that breaks the canonical form of data or changes."""

    status = Status.NOT_CANONICAL


class OtherSessionError(Fault):
    """Changes or data of another session than the data; an end of data of another session than its
    answer."""

    status = Status.OTHER_SESSION


class DuplicateError(Fault):
    """A payload is announced that is already present (RFC 8210 section 12, code 7)."""

    status = Status.DUPLICATE


class UnknownError(Fault):
    """A payload is withdrawn that isn't present (RFC 8210 section 12, code 6)."""

    status = Status.UNKNOWN


class UndecidedError(Fault):
    """An ASPA is announced and then withdrawn, so the net change depends on the data."""

    status = Status.UNDECIDED


class NoIndexError(Fault):
    """The index was too short for the units."""

    status = Status.NO_INDEX


class OtherVersionError(Fault):
    """A unit in a recording, of another version than its answer or the data that it changes."""

    status = Status.OTHER_VERSION


class OldSerialError(Fault):
    """An end of data in a recording whose serial number comes before that of the data that its
    answer changes."""

    status = Status.OLD_SERIAL


class ResetInsideError(Fault):
    """A cache reset inside an answer."""

    status = Status.RESET_INSIDE


class ReportInsideError(Fault):
    """An error report inside an answer."""

    status = Status.REPORT_INSIDE


_CLASSES: Dict[int, Type[Fault]] = {kind.status: kind for kind in Fault.__subclasses__()}


def fault(status: int, detail: int = 0) -> Fault:
    """Returns the fault of a status without a unit."""
    return _CLASSES[status](detail)


def refusal(status: int, detail: int, data: bytes, start: int, *, offset: Optional[int] = None,
            side: int = 0) -> Fault:
    """Returns the fault of the unit at `start` in these bytes. `offset` is its offset in the input,
    if the bytes are only a part of that.
    """
    known, size, _ = _library.unit_size(data, start)
    if status in (Status.TOO_MANY, Status.NO_ROOM):
        size = 0
    elif known not in (Status.OK, Status.SHORT):
        size = _library.HEADER
    return _CLASSES[status](detail, start if offset is None else offset,
                            data[start:start + size], side)
