"""Units as lines of text, as the program rtr_list prints them, and changes as rtr_diff does."""
from __future__ import annotations

import ctypes
from typing import Any, Iterator

from . import _rtr
from ._library import CALLS, Buffer, address_of, whole
from ._rtr import LINE_ROOM, Status
from .faults import refusal
from .units import Unit


def unit_lines(data: Buffer) -> Iterator[str]:
    """Yields the line of each unit in these bytes, without a newline; like rtr_list also of a
    prefix whose lengths break their rule.

    Raises, at the next unit, what Units raises, except PrefixError.
    """
    return _each(CALLS.rtr_line_nonnull, whole(data))


def unit_objects(data: Buffer) -> Iterator[str]:
    """Yields each unit as a JSON object, as rtr_list --json prints it."""
    return _each(CALLS.rtr_json_nonnull, whole(data))


def _each(call: Any, data: bytes) -> Iterator[str]:
    """Yields the text that a call writes for each unit."""
    offset, output, line = 0, ctypes.create_string_buffer(LINE_ROOM), _rtr.rtr_line()
    while offset < len(data):
        status = call(address_of(data) + offset, len(data) - offset, offset, output, len(output),
                      ctypes.byref(line))
        if status == Status.NO_ROOM:
            output = ctypes.create_string_buffer(line.length)
        elif status != Status.OK:
            raise refusal(status, line.detail, data, offset)
        else:
            yield ctypes.string_at(output, line.length).decode()
            offset += line.size


def change_line(unit: Unit) -> str:
    """Returns the line of a payload unit, without a newline, as rtr_diff prints it; an empty text
    for other units.
    """
    return _change(CALLS.rtr_change_line_nonnull, unit)


def change_json(unit: Unit) -> str:
    """Returns the change as a JSON object, as rtr_diff --json prints it."""
    return _change(CALLS.rtr_change_json_nonnull, unit)


def _change(call: Any, unit: Unit) -> str:
    """Returns the text that a call writes for the change of a unit."""
    form, line, capacity = bytes(unit), _rtr.rtr_line(), LINE_ROOM
    while True:
        output = ctypes.create_string_buffer(capacity)
        status = call(form, len(form), output, capacity, ctypes.byref(line))
        if status == Status.OK:
            return ctypes.string_at(output, line.length).decode("ascii")
        capacity = line.length
