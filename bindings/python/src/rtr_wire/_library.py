"""The shared library, and conversions of the arguments and results of its calls."""
from __future__ import annotations

import ctypes
import operator
import os
import pathlib
import platform
import struct
from typing import Any, Optional, Tuple, Union

from . import _rtr

# Bytes in memory that callers pass.
Buffer = Union[bytes, bytearray, memoryview]


def _load() -> ctypes.CDLL:
    """Loads the library beside this file, or the one that RTR_WIRE_LIBRARY names."""
    beside = pathlib.Path(__file__).with_name("librtr_wire.so")
    path = os.environ.get("RTR_WIRE_LIBRARY") or str(beside)
    try:
        library = ctypes.CDLL(path)
        version = library.rtr_wire_version()
    except (OSError, AttributeError) as error:
        raise ImportError(
            "the shared library of rtr_wire can't be loaded "
            f"(RTR_WIRE_LIBRARY chooses another): {error}") from error
    if version != _rtr.VERSION_NUMBER:
        raise ImportError(f"{path} is of version {version}, not {_rtr.VERSION_NUMBER}")
    for name, (result, arguments) in _rtr.PROTOTYPES.items():
        function = getattr(library, name)
        function.restype, function.argtypes = result, arguments
    return library


CALLS = _load()

# The layouts of a struct rtr_unit and a struct rtr_route.
FIELDS = struct.Struct(_rtr.UNIT_LETTERS)
ROUTE = struct.Struct(_rtr.ROUTE_LETTERS)

# The size of a buffer for any text.
_LONGEST_TEXT = _rtr.REPORT_TEXT_ROOM

# Blocks of at least this many bytes aren't zeroed.
_LARGE = 1 << 16


def whole(buffer: Buffer, name: str = "data") -> bytes:
    """Returns the bytes of a buffer: the buffer itself if it is immutable, else a copy. Errors
    name it."""
    if type(buffer) is bytes:
        return buffer
    try:
        return bytes(memoryview(buffer))
    except TypeError:
        kind = type(buffer).__name__
        raise TypeError(f"{name} must be a bytes-like object, not {kind}") from None


def integer(name: str, value: Any) -> int:
    """Converts a value to an integer. `name` appears in errors."""
    try:
        return operator.index(value)
    except TypeError:
        raise TypeError(f"{name} must be an integer, not {type(value).__name__}") from None


def number(name: str, value: Any, bits: int) -> int:
    """Converts a value to an unsigned integer of this many bits. `name` appears in errors."""
    found = integer(name, value)
    if not 0 <= found < 1 << bits:
        raise ValueError(f"{name} is {found}: it must be from 0 to {(1 << bits) - 1}")
    return found


def address_of(data: Any) -> int:
    """Returns the address of bytes, or of memory that `memory` returned. Keep it alive while the
    address is used."""
    if type(data) is not bytes:
        return ctypes.addressof(data)
    return ctypes.cast(ctypes.c_char_p(data), ctypes.c_void_p).value or 0


def memory(size: int) -> Any:
    """Allocates `size` bytes for the library to write to. Don't share them before it has."""
    if size < _LARGE or platform.python_implementation() != "CPython":
        return ctypes.create_string_buffer(size)
    # A bytes object with unset contents, which the interpreter's C API allows to fill.
    allocate = ctypes.pythonapi.PyBytes_FromStringAndSize
    allocate.restype, allocate.argtypes = ctypes.py_object, [ctypes.c_void_p, ctypes.c_ssize_t]
    return allocate(None, size)


def lengthen(buffer: bytearray, size: int) -> None:
    """Grows a buffer to `size` bytes; the new ones aren't zeroed, if the interpreter allows that.
    After a MemoryError the buffer is unchanged."""
    if platform.python_implementation() != "CPython":
        buffer.extend(bytes(size - len(buffer)))
        return
    resize = ctypes.pythonapi.PyByteArray_Resize
    resize.restype, resize.argtypes = ctypes.c_int, [ctypes.py_object, ctypes.c_ssize_t]
    resize(buffer, size)


def start_of(buffer: bytearray) -> int:
    """Returns the address of a buffer that isn't empty. Don't resize the buffer while it is
    used."""
    return ctypes.addressof(ctypes.c_char.from_buffer(buffer))


def front(output: Any, length: int) -> bytes:
    """Returns the first bytes of memory."""
    if type(output) is bytes and len(output) == length:
        return output
    return ctypes.string_at(output, length)


def at_most(limit: Optional[int]) -> int:
    """Converts a limit for the library; None is no limit."""
    largest = 2**64 - 1
    if limit is None:
        return largest
    if integer("limit", limit) < 0:
        raise ValueError(f"limit is {limit}: it must be from 0 on")
    return min(limit, largest)


def octet(version: int) -> int:
    """Returns a version as one byte: 255, which is no version, if it doesn't fit."""
    found = integer("version", version)
    return found if 0 <= found <= 255 else 255


def unit_size(data: bytes, offset: int = 0) -> Tuple[int, int, int]:
    """Returns the status, the size and the detail of rtr_unit_size for the unit at this offset."""
    size, detail = ctypes.c_size_t(), ctypes.c_uint8()
    status = CALLS.rtr_unit_size_nonnull(address_of(data) + offset, len(data) - offset,
                                         ctypes.byref(size), ctypes.byref(detail))
    return status, size.value, detail.value


# The size of a header, from which the length of a unit is known.
HEADER = unit_size(b"")[1]


def written(fields: Tuple[Any, ...], part: bytes) -> Tuple[int, bytes]:
    """Returns the status of rtr_write_unit for a unit with these fields, and its form."""
    unit, length = _rtr.rtr_unit(), ctypes.c_size_t()
    FIELDS.pack_into(unit, 0, *fields)
    capacity = FIELDS.size + len(part)
    while True:
        output = ctypes.create_string_buffer(capacity)
        status = CALLS.rtr_write_unit_nonnull(unit, part, len(part), output, capacity,
                                              ctypes.byref(length))
        if status != _rtr.Status.NO_ROOM:
            return status, output.raw[:length.value]
        capacity *= 2


def error_code(status: int, unit: bytes) -> Optional[int]:
    """Returns the error code that is owed for a status of a unit, or None."""
    code = ctypes.c_uint16()
    owed = CALLS.rtr_error_code_nonnull(status, unit, len(unit), ctypes.byref(code))
    return code.value if owed else None


def _text_of(call: Any, *values: Any) -> str:
    """Returns the text that a call writes for these values."""
    output, length = ctypes.create_string_buffer(_LONGEST_TEXT), ctypes.c_size_t()
    call(*values, output, len(output), ctypes.byref(length))
    return output.raw[:length.value].decode("ascii")


def status_text(status: int, detail: int) -> str:
    """Returns the text of a status with its detail."""
    return _text_of(CALLS.rtr_text_nonnull, status, detail)


def status_text_at(status: int, detail: int, offset: int) -> str:
    """Returns the text of a status with its detail, and the offset of a unit."""
    return _text_of(CALLS.rtr_text_at_nonnull, status, detail, offset)


def report_text(code: int, text: bytes) -> str:
    """Returns what an error report says: the name of its code, and the first bytes of its text."""
    return _text_of(CALLS.rtr_report_text_nonnull, code, text, len(text))


def name(named: _rtr.Named, number: int) -> str:
    """Returns the name of a number."""
    return _text_of(CALLS.rtr_name_nonnull, named, number)


def report(action: _rtr.rtr_action, about: bytes) -> bytes:
    """Returns the report that an action owes about the unit at the start of these bytes, or
    nothing."""
    capacity, length = FIELDS.size + len(about), ctypes.c_size_t()
    while action.reports:
        output = ctypes.create_string_buffer(capacity)
        if CALLS.rtr_router_report_nonnull(action, about, len(about), output, capacity,
                                           ctypes.byref(length)):
            return output.raw[:length.value]
        if capacity > 2 * len(about) + 2**16:
            break
        capacity *= 2
    return b""
