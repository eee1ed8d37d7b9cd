"""Caches by preference (RFC 8210 section 10): whose data are used, and which ones are asked."""
from __future__ import annotations

from typing import List, NamedTuple, Optional, Sequence, Union

from . import _library, _rtr
from ._library import CALLS
from ._rtr import GroupShown, GroupStatus, Status
from .data import Data, difference
from .router import Failed, Update, milliseconds

# The library's time for "never".
_NEVER = 2**64 - 1


class NoPayloads(Exception):
    """A cache has no payloads, which `follow` doesn't accept as data (docs/SESSIONS.md)."""

    def __str__(self) -> str:
        return _rtr.FAILURE_EMPTY


class Decision(NamedTuple):
    """What a loop does, in this order.

    Attributes:
        error, member: a failure to report, or None, and the member that failed
        update, source: new data to yield, and the member that has them, or that lost the last ones;
            the update is None if the data in use stay
        stop: the members to stop, if they are running
        start: the member to start, or None
    """

    error: Optional[Exception] = None
    member: int = 0
    update: Optional[Update] = None
    source: int = 0
    stop: Sequence[int] = ()
    start: Optional[int] = None


class Group:
    """Wraps a struct rtr_group of rtr.h, which is proved, and decides for a loop that follows
    members by preference. Member 0 is preferred most; the loop starts it at once. Times are in
    milliseconds, by a monotonic clock.

    Args:
        members: the number of members
        patience: how long, in seconds, a member may have no whole answer before the next one is
            started too, while none is current (None: the default)
        empty_is_data: whether a whole answer without payloads counts as data (None: only if there
            is one member)

    Raises ValueError for no member, or too many.
    """

    def __init__(self, members: int, patience: Optional[float],
                 empty_is_data: Optional[bool]) -> None:
        self._group, self._answer = _rtr.rtr_group(), _rtr.rtr_group_answer()
        settings = _rtr.rtr_group_settings()
        CALLS.rtr_group_usual(settings)
        if patience is not None:
            settings.patience = milliseconds("patience", patience)
        settings.empty_is_data = members == 1 if empty_is_data is None else empty_is_data
        if not members:
            raise ValueError("there is no client to follow")
        status = CALLS.rtr_group_init(self._group, settings, members, 0)
        if status != Status.OK:
            raise ValueError(_library.status_text(status, 0))
        self._data: List[Optional[Data]] = [None] * members
        self._shown: Optional[Data] = None

    @property
    def wakes(self) -> Optional[int]:
        """When to call `ticks`, if nothing happens before; None for never."""
        when = int(CALLS.rtr_group_wakes(self._group))
        return None if when == _NEVER else when

    def ticks(self, now: int) -> Decision:
        """Reports that time has passed."""
        CALLS.rtr_group_tick(self._group, now, self._answer)
        return self._decided(0, None)

    def happens(self, now: int, member: int, step: Union[Update, Failed],
                todo: Optional[_rtr.rtr_todo]) -> Decision:
        """Reports a step of a running member, and what its router was told to do then
        (`Router.take_todo`)."""
        error, payloads = None, 0
        if isinstance(step, Failed):
            error = step.error
        else:
            self._data[member] = step.data
            if step.data is not None:
                payloads = int(bool(step.data))  # a group asks only whether there are any
                if not CALLS.rtr_group_counts(self._group, payloads):
                    error = NoPayloads()
        if todo is None:
            return Decision(error, member)
        status = CALLS.rtr_group_tell(self._group, now, member, todo, payloads, self._answer)
        if status != GroupStatus.TOLD:
            raise RuntimeError(f"a group refuses a todo: {GroupStatus(status).name}")
        return self._decided(member, error)

    def _decided(self, member: int, error: Optional[Exception]) -> Decision:
        """Returns the group's decision on an event of a member, and drops the data of the members
        that stop."""
        answer, update, source = self._answer, None, member
        if answer.shown == GroupShown.DATA:
            source = answer.member
            update = self._show(self._data[source])
        elif answer.shown == GroupShown.NOTHING:
            update = self._show(None)
        stop = range(answer.stop, len(self._data)) if answer.stops else range(0)
        for stopped in stop:
            self._data[stopped] = None
        start = answer.start if answer.starts else None
        return Decision(error, member, update, source, stop, start)

    def _show(self, data: Optional[Data]) -> Optional[Update]:
        """Replaces the data in use, perhaps by none, and returns the update."""
        before, self._shown = self._shown, data
        if before is None and data is None:
            return None
        return Update(data, difference(before, data))
