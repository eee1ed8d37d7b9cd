"""A router's end of a session with its bytes and its data, without sockets or a clock."""
from __future__ import annotations

import ctypes
from typing import Any, Optional

from . import _library, _rtr
from ._library import CALLS, memory, start_of
from ._rtr import LinkStatus, TodoKind
from .data import Data, Part, data_in, fitted, part_of

# The sizes of the input, unless an answer needs more, and of the output, unless much of it is
# unsent: the library needs space for the longest unit behind the unsent bytes.
_INPUT = 1 << 16
_OUTPUT = 2 * _rtr.LONGEST_UNIT

# The size of an entry of the index.
_ENTRY = ctypes.sizeof(ctypes.c_size_t)

_NOTHING = Part(b"", 0)


class Link:
    """Owns a struct rtr_link of rtr.h, which is proved, and its buffers. `next` returns what to do,
    and grows the buffers that the struct asks for. Times are in milliseconds, by a monotonic clock,
    and below 2**63; else a call raises a ValueError. A call out of turn raises a RuntimeError, and
    changes nothing.

    Data are immutable: each answer is written to new memory.

    Attributes:
        data: the data, even if they have expired; None without data
        gave_up: whether the last `next` ended the connection for lack of memory
    """

    def __init__(self, settings: _rtr.rtr_settings) -> None:
        self._link, self._todo = _rtr.rtr_link(), _rtr.rtr_todo()
        self._state = _rtr.rtr_link_state()
        self._input, self._output = bytearray(_INPUT), bytearray(_OUTPUT)
        self.data: Optional[Data] = None
        self._next_data: Any = b""  # the buffer for the next data
        self._index: Any = b""
        self._now = 0  # the latest time
        self._filled = 0  # bytes in the input before the last action
        self.gave_up = False
        CALLS.rtr_link_init(self._link, settings)
        self._refresh(0)

    def again(self) -> None:
        """Restarts without data, with the same settings and cache: the waits for a failing cache
        continue to grow."""
        self._check(CALLS.rtr_link_again(self._link))
        self._forget()
        self._refresh(self._now)

    # ---- events

    def opened(self) -> None:
        """Reports that the connection is open that `next` asked for."""
        self._check(CALLS.rtr_link_opened(self._link))

    def lost(self) -> None:
        """Reports that connecting failed, or that the connection was closed or broke."""
        self._check(CALLS.rtr_link_lost(self._link))

    def received(self, data: bytes) -> int:
        """Reads received bytes, as many as memory allows, and returns their number: at least one
        after `next` returned `TodoKind.WAIT`."""
        filled, size = self._state.filled, len(data)
        self._lengthen_input(filled + size)
        count = min(size, len(self._input) - filled)
        with memoryview(self._input) as view:
            view[filled:filled + count] = data if count == size else data[:count]
        self._check(CALLS.rtr_link_received_nonnull(
            self._link, start_of(self._input), len(self._input), count))
        self._refresh(self._now)
        return count

    def sent(self, count: int) -> None:
        """Reports that this many bytes of the output were sent."""
        self._check(CALLS.rtr_link_sent_nonnull(
            self._link, start_of(self._output), len(self._output), count))
        self._refresh(self._now)

    # ---- what to do

    def next(self, now: int, asks: bool = False) -> _rtr.rtr_todo:
        """Returns what to do at this time; `asks` requests current data. The kind is WAIT, CONNECT,
        CLOSE, DATA, DROPPED or NO_DATA of `TodoKind`, which rtr.h explains. The struct is valid
        until the next call."""
        todo, call = self._todo, self._ask_now if asks else self._next
        if todo.kind in (TodoKind.CLOSE, TodoKind.DATA):
            self._shorten()
        self.gave_up = False
        call(now)
        while todo.kind == TodoKind.GO or todo.kind >= TodoKind.INPUT_ROOM:
            if todo.kind == TodoKind.GO:
                call = self._next
                call(now)
            elif self._grow(todo.kind, todo.room):
                call(now)
            else:
                self._give_up(now)
        return todo

    @property
    def output(self) -> bytes:
        """The bytes to send."""
        return bytes(self._output[:self._state.unsent])

    @property
    def wakes(self) -> int:
        """When to call `next` if nothing happens before."""
        return int(self._state.wakes)

    def has_data(self, now: int) -> bool:
        """Reports whether there are data that haven't expired at this time."""
        self._refresh(now)
        return bool(self._state.has_data)

    def about(self, offset: int) -> bytes:
        """Returns the unit, and perhaps more, that was at this offset of the input before the last
        action."""
        return bytes(self._input[offset:min(self._filled, offset + _rtr.LONGEST_UNIT)])

    # ---- calls

    def _check(self, status: int) -> None:
        """Raises an error if a call was refused."""
        if status == LinkStatus.BAD_TIME:
            raise ValueError("now must be below 2**63, and no earlier time than before")
        if status != LinkStatus.OK:
            raise RuntimeError(f"a call of the link is refused: {LinkStatus(status).name}")

    def _side(self, second: bool) -> Part:
        """Returns the first or the second data buffer: one has the data, one is for the next
        data."""
        if second != self._state.second:
            return Part(self._next_data, len(self._next_data))
        return _NOTHING if self.data is None else part_of(self.data)

    def _refresh(self, now: int) -> None:
        """Updates the state of the buffers."""
        self._check(CALLS.rtr_link_state_of(
            self._link, now, len(self._input), self._side(False).length,
            self._side(True).length, len(self._output), self._state))

    def _next(self, now: int) -> None:
        self._filled = self._state.filled
        self._check(CALLS.rtr_link_next_nonnull(
            self._link, now, start_of(self._input), len(self._input), *self._side(False),
            *self._side(True), self._index, len(self._index) // _ENTRY, start_of(self._output),
            len(self._output), self._todo))
        self._finish(now)

    def _ask_now(self, now: int) -> None:
        self._call(CALLS.rtr_link_ask_now_nonnull, now)

    def _give_up(self, now: int) -> None:
        self._call(CALLS.rtr_link_give_up_nonnull, now)
        self.gave_up = True

    def _call(self, call: Any, now: int) -> None:
        self._filled = self._state.filled
        self._check(call(self._link, now, start_of(self._input), len(self._input),
                        start_of(self._output), len(self._output), self._todo))
        self._finish(now)

    def _finish(self, now: int) -> None:
        """Takes over new data after an action, or drops the data."""
        self._now, todo = now, self._todo
        self._refresh(now)
        if todo.kind == TodoKind.DATA:
            self.data = data_in(fitted(self._next_data, self._state.shown, len(self._next_data)))
            self._next_data = self._index = b""
        elif todo.kind == TodoKind.DROPPED or todo.drops:
            self._forget()

    # ---- buffers

    def _forget(self) -> None:
        """Frees the data, and the buffers for the next ones."""
        self.data = None
        self._next_data = self._index = b""

    def _grow(self, kind: int, needed: int) -> bool:
        """Grows a buffer as the struct asks; returns False without memory."""
        try:
            if kind == TodoKind.INPUT_ROOM:
                self._lengthen_input(needed)
                return len(self._input) >= needed
            if kind == TodoKind.OUTPUT_ROOM:
                _library.lengthen(self._output, needed)
            elif kind == TodoKind.INDEX_ROOM:
                self._index = memory(_ENTRY * needed)
            else:
                self._next_data = memory(needed)
        except MemoryError:
            return False
        return True

    def _lengthen_input(self, needed: int) -> None:
        """Grows the input to twice its size or at least the needed one, if memory allows."""
        length = len(self._input)
        for size in (max(2 * length, needed), needed):
            if length < needed:
                try:
                    _library.lengthen(self._input, size)
                    return
                except MemoryError:
                    pass

    def _shorten(self) -> None:
        """Shrinks the buffers after an answer."""
        del self._input[max(self._state.filled, _INPUT):]
        del self._output[max(self._state.unsent, _OUTPUT):]
        self._index = b""
        if self._todo.kind == TodoKind.CLOSE:
            self._next_data = b""
