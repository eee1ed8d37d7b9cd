"""Reading units from bytes and files, and sequences of them as a whole."""
from __future__ import annotations

import ctypes
from functools import partial
from typing import Any, BinaryIO, Callable, Iterator, NamedTuple, Optional, Union

from . import _library, _rtr
from ._library import CALLS, FIELDS, Buffer, address_of, octet, whole
from ._rtr import Kind, Status
from .faults import fault, refusal
from .units import KIND_INDEX, MAKERS, AnyUnit

# The most bytes that are read, or copied, at once.
_CHUNK = 1 << 16

# Units per call of the library: a call costs more than a unit.
_BATCH = 64

_next_units = CALLS.rtr_next_many_nonnull


class Units(Iterator[AnyUnit]):
    """An iterator over the units of bytes in memory, or of a binary file.

    It buffers the bytes of one read, and of an incomplete unit at most its length, which is checked
    before it is trusted. It ends if the input ends after a whole unit.

    Raises, at the next unit:
        ShortError: the input ends inside of it
        UnitTypeError, UnitVersionError, TooLongError, UnitLengthError, EmptyProvidersError: its
            header is refused. The start of the next unit isn't known: each call raises it again
        PrefixError: the lengths of a prefix break their rule. The next call skips it
    and what the file raises. Then the bytes stay buffered, and the next call continues.
    """

    def __init__(self, source: Union[Buffer, BinaryIO]) -> None:
        self._data = b""
        self._at = 0
        self._before = 0  # bytes of the input before those in _data
        self._shown = (_rtr.rtr_unit * _BATCH)()
        self._iteration: Iterator[AnyUnit] = iter(())
        if type(source) is bytes:
            self._data = source
        self._more = _reads_of(source)
        self._address = address_of(self._data)

    @property
    def offset(self) -> int:
        """The offset of the next unit in the input, in bytes."""
        return self._before + self._at

    def __next__(self) -> AnyUnit:
        for unit in self:
            return unit
        raise StopIteration

    def __iter__(self) -> Iterator[AnyUnit]:
        # After a loop was left the same generator continues; after a fault, a new one.
        if getattr(self._iteration, "gi_frame", None) is None:
            self._iteration = self._each()
        return self._iteration

    def _each(self) -> Iterator[AnyUnit]:
        shown, fields_of = self._shown, FIELDS.iter_unpack
        view, size = memoryview(shown).cast("B"), ctypes.sizeof(_rtr.rtr_unit)
        count, taken = ctypes.c_size_t(), ctypes.c_size_t()
        counted, all_taken = ctypes.byref(count), ctypes.byref(taken)
        while True:
            data, offset = self._data, self._at
            status = _next_units(self._address + offset, len(data) - offset, shown, _BATCH, counted,
                                 all_taken)
            for fields in fields_of(view[:size * count.value]):
                self._at = offset + fields[0]
                yield MAKERS[fields[KIND_INDEX]](fields, data, offset)
                offset = self._at
            if not status or status == Status.SHORT and self._grown():
                continue
            if self._ends(status, shown[count.value]):
                return

    def _grown(self) -> bool:
        """Reads more bytes, and reports whether any came."""
        more = self._more()
        if more is None:
            raise BlockingIOError("the file has nothing to read now")
        if more:
            self._before += self._at
            self._data = self._data[self._at:] + more
            self._at = 0
            self._address = address_of(self._data)
        return bool(more)

    def _ends(self, status: int, refused: _rtr.rtr_unit) -> bool:
        """Reports whether there is no next unit; raises the fault of the next unit if there is
        one."""
        data, start = self._data, self._at
        if status == Status.SHORT and start == len(data):
            return True
        # The size is 0, except after a PrefixError, which skips the prefix.
        self._at += refused.size
        raise refusal(status, refused.detail, data, start, offset=self._before + start)


def _reads_of(source: Any) -> Callable[[], Optional[bytes]]:
    """Returns a function that reads the next bytes of a file or a buffer; it returns none at the
    end."""
    read: Optional[Callable[[int], Optional[bytes]]] = getattr(
        source, "read1", getattr(source, "read", None))
    if read is not None:
        return partial(read, _CHUNK)
    if type(source) is bytes:
        return _slices(memoryview(b"")).__next__
    try:
        view = memoryview(source).cast("B")
    except TypeError:
        kind = type(source).__name__
        raise TypeError(f"source must be bytes-like or a binary file, not {kind}") from None
    return _slices(view).__next__


def _slices(view: memoryview) -> Iterator[bytes]:
    """Yields the bytes of a view piece by piece, and then empty bytes forever."""
    for start in range(0, len(view), _CHUNK):
        yield bytes(view[start:start + _CHUNK])
    while True:
        yield b""


def count_units(memory: Any, length: int) -> int:
    """Counts the units in memory of this length, which have to be valid."""
    shown, address = (_rtr.rtr_unit * _BATCH)(), address_of(memory)
    count, taken, offset, total = ctypes.c_size_t(), ctypes.c_size_t(), 0, 0
    while offset < length:
        _next_units(address + offset, length - offset, shown, _BATCH, ctypes.byref(count),
                    ctypes.byref(taken))
        assert count.value, "a unit is refused"
        offset, total = offset + taken.value, total + count.value
    return total


def units(source: Union[Buffer, BinaryIO]) -> Units:
    """Iterates over the units of bytes, a bytearray or a memoryview, or of a binary file: with
    `read1`, as open(path, "rb") returns it, or with `read`.

        for unit in units(open("recording", "rb")):
            print(unit)
    """
    return Units(source)


class Normalised(NamedTuple):
    """The result of `normalise`.

    Attributes:
        form: the form of the units, and of the end of data
        units: how many payload units were read
        forms: how many of these were written; fewer only for one version
        taken: how many bytes of the input were read
    """

    form: bytes
    units: int
    forms: int
    taken: int


def normalise(sequence: Buffer, *, version: Optional[int] = None,
              limit: Optional[int] = None) -> Normalised:
    """Returns the form of the sequence at the start of the input: payload units up to an end of
    data. Two sequences have the same form if and only if they mean the same. Later bytes aren't
    read.

    With a version, it writes the payloads that this version has, in this version. It reads at most
    `limit` units, including the end of data.

    Raises a Fault whose `before` has the whole units before it, in this order: UnitVersionError for
    an unknown version; TooManyError; ShortError to PrefixError.
    """
    data, answer, most = whole(sequence, "sequence"), _rtr.rtr_answer(), _library.at_most(limit)
    output = _library.memory(len(data) + FIELDS.size)
    if version is None:
        status = CALLS.rtr_normalise_slice_nonnull(
            data, len(data), output, len(output), most, answer)
    else:
        version = octet(version)
        status = CALLS.rtr_normalise_for_slice_nonnull(
            data, len(data), output, len(output), most, version, answer)
    form = _library.front(output, answer.written)
    result = Normalised(form, answer.units, answer.forms, answer.taken)
    if status == Status.OK:
        return result
    if version is None or CALLS.rtr_version_has(version, Kind.END_OF_DATA):
        refused = refusal(status, answer.detail, data, answer.taken)
    else:
        refused = fault(status, answer.detail)  # there is no such version
    refused.before = result
    raise refused


def same_meaning(left: Buffer, right: Buffer, *, limit: Optional[int] = None) -> bool:
    """Reports whether both inputs begin with sequences that mean the same, of fewer than `limit`
    payload units each.

    Raises TooManyError, or ShortError to PrefixError: that of left, or if left is accepted, that of
    right. Its `side` is the input.
    """
    inputs, answer = (whole(left, "left"), whole(right, "right")), _rtr.rtr_comparison()
    most = _library.at_most(limit)
    status = CALLS.rtr_same_meaning_nonnull(
        inputs[0], len(inputs[0]), inputs[1], len(inputs[1]), most, answer)
    if status != Status.OK:
        raise refusal(status, answer.detail, inputs[answer.side - 1], answer.offset,
                      side=answer.side)
    return bool(answer.same)
