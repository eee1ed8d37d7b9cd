"""What a server serves and saves: the proved stores and histories of rtr.h, in memory and files."""
from __future__ import annotations

import contextlib
import ctypes
import errno
import os
from typing import Any, Dict, List, NamedTuple, Optional, Sequence, Tuple, Union

from . import _library, _rtr
from ._library import CALLS, memory
from ._rtr import Room, Status, StoresStatus
from .data import Data, Part, data_in, end_of, fitted, part_of
from .router import milliseconds

Path = Union[str, "os.PathLike[str]"]

_HEAD = ctypes.sizeof(_rtr.rtr_store_head)
_ENTRY = ctypes.sizeof(ctypes.c_size_t)

# A first guess for the buffers of a call: a few bytes more than a unit. Few changes fit in them.
_SLACK = 1 << 12

# The buffers of `Store.take` by their number; the output is the last.
_PLACES: Dict[int, int] = {Room.BUFFER: 0, Room.SPARE: 1}

_NOTHING = Part(b"", 0)


class DamagedError(ValueError):
    """A file isn't as `Server.save` wrote it."""

    def __str__(self) -> str:
        return f"{self.args[0]}: {_rtr.FAILURE_DAMAGED}"


class UnsyncedError(OSError):
    """A file has the new store, but its folder couldn't be synced: after a power cut the file may
    have the former one."""


class NotRestoredError(FileExistsError):
    """A file exists that the server neither restored nor wrote, so it isn't replaced: a restart
    would lack the sessions that the file names. `filename` is its path."""

    def __str__(self) -> str:
        return f"{self.filename}: {self.strerror}"


class OtherFileError(RuntimeError):
    """The server saves its data in another file than this path names. Paths are compared as absolute
    paths without `.` and `..`, and links as what they are called.

    Attributes:
        path: the file that was refused
        saved: the absolute path of the file that has the data
    """

    def __init__(self, path: str, saved: str) -> None:
        super().__init__(path, saved)
        self.path, self.saved = path, saved

    def __str__(self) -> str:
        return f"{self.path}: {_rtr.FAILURE_OTHER_FILE}: {self.saved}"


def retry_after(previous: float = 0.0) -> float:
    """Returns how many seconds a program waits before it calls `Server.update_saved` again with
    data that couldn't be saved, given its pause before the last try, or 0 after the first: one
    second at first, then twice the last pause, at most a minute."""
    pause: int = CALLS.rtr_retry_after(milliseconds("previous", previous))
    return pause / 1000


class Span(NamedTuple):
    """Bytes in memory that don't change any more."""

    memory: Any
    offset: int
    length: int

    @property
    def address(self) -> int:
        """Their address. Keep the span alive while the address is used."""
        return _library.address_of(self.memory) + self.offset

    def after(self, length: int) -> Span:
        """Returns the bytes after the first `length`."""
        return Span(self.memory, self.offset + length, self.length - length)

    def view(self) -> memoryview:
        """Returns a view of the bytes, without a copy."""
        return memoryview(self.memory).cast("B")[self.offset:self.offset + self.length]


def form_of(data: Span, version: int) -> Part:
    """Returns canonical units in the form of a version, without those that it can't carry."""
    answer = _rtr.rtr_answer()
    capacity = data.length + _rtr.LONGEST_END
    output = memory(capacity)
    status = CALLS.rtr_normalise_for_slice_nonnull(
        data.address, data.length, output, capacity, _library.at_most(None), version, answer)
    assert status == Status.OK, "canonical units have a form in each version"
    return fitted(output, answer.written, capacity)


class History:
    """The data that are served, and the steps back to earlier data of their session (RFC 8210
    section 5.1), in memory that doesn't change."""

    def __init__(self, span: Span) -> None:
        self._span = span
        found = _first_of(span)
        assert found is not None, "a history has data"
        self._taken, self.present = found
        self.end = end_of(self.present.address, self.present.length)

    def data(self) -> Data:
        """Returns a copy of the present data."""
        present = self.present
        return data_in(Part(ctypes.string_at(present.address, present.length), present.length))

    def known(self) -> List[int]:
        """Returns the earlier serial numbers from which there are changes, the latest first."""
        _, count = self._serials(0)
        serials, _ = self._serials(count)
        return list(serials)

    def _serials(self, count: int) -> Tuple[Any, int]:
        """Returns the earlier serial numbers, if this is their number, and else their number."""
        serials, answer = (ctypes.c_uint32 * count)(), _rtr.rtr_stores_answer()
        CALLS.rtr_history_serials_nonnull(self._span.address, self._span.length, serials, count,
                                          answer)
        return serials, answer.wanted

    def nothing(self, version: int) -> bytes:
        """Returns the empty changes from the present data, as encoded for a version."""
        end = bytes(self.end)
        return _library.front(*form_of(Span(end, 0, len(end)), version))

    def since(self, serial: int, version: int) -> bytes:
        """Returns the changes from the data of a known serial number to the present data, as
        encoded for a version."""
        span, steps = self._span, self._span.length - self._taken
        sizes = {Room.INDEX: steps // _rtr.SHORTEST_PAYLOAD, Room.BUFFER: 2 * steps,
                 Room.SPARE: span.length, Room.OUTPUT: 2 * steps + _rtr.LONGEST_END}
        answer = _rtr.rtr_stores_answer()
        while True:
            buffers = {kind: memory(_size(kind, count)) for kind, count in sizes.items()}
            arguments = [argument for kind in sizes for argument in (buffers[kind], sizes[kind])]
            status = CALLS.rtr_history_since_nonnull(span.address, span.length, serial, version,
                                                     *arguments, answer)
            if status != StoresStatus.NO_ROOM:
                break
            sizes[Room(answer.room)] = answer.wanted
        assert status == StoresStatus.OK, StoresStatus(status).name
        return _library.front(buffers[Room.OUTPUT], answer.length)


def _size(kind: Room, count: int) -> int:
    """Returns the bytes of a buffer, whose index has entries."""
    return _ENTRY * count if kind == Room.INDEX else count


def _first_of(history: Span) -> Optional[Tuple[int, Span]]:
    """Returns the sequence at the start of a history, or of the steps behind its data, and where
    the next step begins; None if there is none."""
    offset, length = ctypes.c_size_t(), ctypes.c_size_t()
    if not CALLS.rtr_history_data_nonnull(history.address, history.length, ctypes.byref(offset),
                                          ctypes.byref(length)):
        return None
    begins = history.offset + offset.value
    return offset.value + length.value, Span(history.memory, begins, length.value)


class Store:
    """Owns a struct rtr_stores of rtr.h, which is proved, and its two buffers: one has the served
    store, the other one the pending store. A buffer isn't written any more once its store is
    served, since connections send parts of it."""

    def __init__(self) -> None:
        self._stores = _rtr.rtr_stores()
        self._buffers = [_NOTHING, _NOTHING]
        CALLS.rtr_stores_new(self._stores)

    @classmethod
    def unsaved(cls, session: int) -> Store:
        """Returns the store of a cache that doesn't save: it takes data of this session only, and
        serves them at once."""
        store = cls()
        CALLS.rtr_stores_unsaved(store._stores, session)
        return store

    @classmethod
    def start(cls, store: bytes) -> Optional[Store]:
        """Returns the store that these saved bytes hold, for a restart; None if they aren't a
        store."""
        stores, answer, size = cls(), _rtr.rtr_stores_answer(), len(store)
        entries = size // _rtr.SHORTEST_PAYLOAD
        status = CALLS.rtr_stores_start_nonnull(
            stores._stores, size, store, size, memory(_ENTRY * (entries + 1)), entries,
            memory(size), size, answer)
        stores._buffers[0] = Part(store, size)
        return stores if status == StoresStatus.OK else None

    def take(self, data: Data, now: int, limits: _rtr.rtr_history_limits) -> _rtr.rtr_stores_answer:
        """Takes new data at this time, in milliseconds since 1970. If the answer's status is OK,
        their store waits until `saved` or `give_up` is called, unless the cache doesn't save; else
        nothing changes."""
        part, answer = part_of(data), _rtr.rtr_stores_answer()
        state = self._state()
        other = 0 if state.second else 1
        sizes = self._first_sizes(state, part.length)
        while True:
            changes, spare, output = map(memory, sizes)
            self._buffers[other] = Part(output, sizes[2])
            status = CALLS.rtr_stores_take_nonnull(
                self._stores, part.memory, part.length, now, limits, changes, sizes[0], spare,
                sizes[1], *self._buffers[0], *self._buffers[1], answer)
            if status != StoresStatus.NO_ROOM:
                break
            sizes[_PLACES.get(answer.room, 2)] = answer.wanted
        self._buffers[other] = fitted(output, answer.length, sizes[2])
        return answer

    def _first_sizes(self, state: _rtr.rtr_stores_state, length: int) -> List[int]:
        """Returns sizes of the buffers to take data of this length, enough for few changes."""
        history = self.history()
        steps = state.length - (history.present.length if history else 0)
        changes = (state.offset + state.length + length) // 32 + _SLACK
        spare = length + changes + steps + _SLACK
        return [changes, spare, state.offset + spare + _SLACK]

    def to_save(self) -> Span:
        """Returns the pending store."""
        state = self._state()
        return Span(self._buffers[0 if state.second else 1].memory, 0, state.taken)

    def saved(self) -> None:
        """Serves the pending store, if there is one, and frees the previous one."""
        CALLS.rtr_stores_saved(self._stores)
        self._drop_other()

    def give_up(self) -> None:
        """Drops the store that waited."""
        CALLS.rtr_stores_give_up(self._stores)
        self._drop_other()

    def served(self) -> Optional[Span]:
        """Returns the store that is served."""
        state = self._state()
        if not state.serves:
            return None
        served = self._buffers[1 if state.second else 0].memory
        return Span(served, 0, state.offset + state.length)

    def history(self) -> Optional[History]:
        """Returns the history that is served."""
        served = self.served()
        return None if served is None else History(served.after(self._state().offset))

    def _state(self) -> _rtr.rtr_stores_state:
        """Returns what the buffers hold."""
        state = _rtr.rtr_stores_state()
        status = CALLS.rtr_stores_state_nonnull(self._stores, *self._buffers[0],
                                                *self._buffers[1], state)
        assert status == StoresStatus.OK, StoresStatus(status).name
        return state

    def _drop_other(self) -> None:
        """Frees the buffer without the store that is served."""
        self._buffers[0 if self._state().second else 1] = _NOTHING


# ---- files

def save(store: Span, path: Path) -> None:
    """Replaces a file by one with this store: writes and syncs another one beside it, renames that,
    and syncs the folder. After an error no new file is left."""
    head = _rtr.rtr_store_head()
    CALLS.rtr_store_seal_nonnull(store.address, store.length, head)
    beside = _beside(path)
    try:
        _write(beside, (bytes(head), store.view()))
        os.replace(beside, path)
    except BaseException:
        with contextlib.suppress(OSError):
            os.unlink(beside)
        raise
    try:
        _sync_folder(path)
    except OSError as error:
        raise UnsyncedError(*error.args) from error


class SavedFile:
    """The file of a server, to which no other process may write."""

    def __init__(self, path: Path, is_own: bool = False) -> None:
        self.path = os.fspath(path)
        self._full = os.path.abspath(path)  # without . and ..
        self._is_own = is_own  # the server restored the file, or wrote it

    def check_named(self, path: str) -> None:
        """Raises an OtherFileError unless this path names the file now: links count as what they
        are called."""
        if os.path.abspath(path) != self._full:
            raise OtherFileError(path, self._full)

    def check(self) -> None:
        """Raises a NotRestoredError if there is a file that the server neither restored nor wrote,
        or the OSError of looking for it. It is called just before a save, which would replace a
        file that is written in between."""
        if self._is_own:
            return
        try:
            os.lstat(self.path)
        except FileNotFoundError:
            return
        raise NotRestoredError(errno.EEXIST, _rtr.FAILURE_NOT_RESTORED, self.path)

    def save(self, store: Span) -> None:
        """Saves a store. The file is the server's from then on, unless it wasn't replaced."""
        try:
            save(store, self.path)
        except UnsyncedError:
            self._is_own = True
            raise
        self._is_own = True


def load(path: Path) -> Tuple[Store, History]:
    """Returns what `save` wrote. It removes the new file of a save that was killed, if the folder
    can be written, and syncs the folder, since that save may have ended before it did."""
    with contextlib.suppress(OSError):
        os.unlink(_beside(path))
    with open(path, "rb") as file:
        content = file.read()
    saved = _unsealed(content)
    store = None if saved is None else Store.start(saved)
    history = None if store is None else store.history()
    if store is None or history is None:
        raise DamagedError(os.fspath(path))
    _sync_folder(path)
    return store, history


def _unsealed(content: bytes) -> Optional[bytes]:
    """Returns the store in a file, also in one that begins with rtrkept1, of libraries before
    0.3.0; None if the file isn't whole."""
    size = len(content)
    if CALLS.rtr_store_open_nonnull(content, size):
        return content[_HEAD:]
    output, answer = memory(size), _rtr.rtr_stores_answer()
    status = CALLS.rtr_store_open_old_nonnull(content, size, output, size, answer)
    return _library.front(output, size) if status == StoresStatus.OK else None


def _beside(path: Path) -> str:
    """Returns the name of the new file beside the old one."""
    return os.fspath(path) + ".new"


def _write(path: str, parts: Sequence[Union[bytes, memoryview]]) -> None:
    """Writes a file, and syncs it."""
    with open(path, "wb") as file:
        for part in parts:
            file.write(part)
        file.flush()
        os.fsync(file.fileno())


def _sync_folder(path: Path) -> None:
    """Syncs the folder of a file, if its file system can sync folders."""
    folder = os.open(os.path.dirname(os.fspath(path)) or ".", os.O_RDONLY | os.O_DIRECTORY)
    try:
        os.fsync(folder)
    except OSError as error:
        if error.errno != errno.EINVAL:
            raise
    finally:
        os.close(folder)

