"""Finds breaches of the protocol's rules in a recording, as the program rtr_list --check does."""
from __future__ import annotations

import ctypes
from dataclasses import dataclass
from typing import Iterator, Set

from . import _rtr
from ._library import CALLS, Buffer, address_of, whole
from ._rtr import FINDING_ROOM, NAME_ROOM, Rule, Status
from .faults import refusal


@dataclass(frozen=True)
class Finding:
    """A rule that the unit at an offset breaks, or that all units together break; then the offset
    is their length. Its text is the line of rtr_list."""

    offset: int
    rule: Rule
    line: str

    def __str__(self) -> str:
        return self.line


def check(data: Buffer) -> Iterator[Finding]:
    """Yields the rules of rtr_list --check that the units in these bytes break, in order.

    Raises, at the next unit, what Units raises, except PrefixError.
    """
    return _findings(whole(data))


def _findings(data: bytes) -> Iterator[Finding]:
    """Yields the findings in these bytes."""
    offset = 0
    state, checked, named = _rtr.rtr_check(), _rtr.rtr_checked(), _rtr.rtr_naming()
    output = ctypes.create_string_buffer(NAME_ROOM)
    names: Set[bytes] = set()
    while offset < len(data):
        address, left = address_of(data) + offset, len(data) - offset
        status = CALLS.rtr_check_name_nonnull(address, left, output, NAME_ROOM, ctypes.byref(named))
        if status != Status.OK:
            raise refusal(status, named.detail, data, offset)
        name = ctypes.string_at(output, named.length)
        CALLS.rtr_check_unit_nonnull(ctypes.byref(state), address, left, name in names,
                                     ctypes.byref(checked))
        for found in checked.findings:
            if found.rule:
                yield _finding(found, offset)
        if named.begins:
            names.clear()
        if named.announces:
            names.add(name)
        else:
            names.discard(name)
        offset += named.size
    last = _rtr.rtr_finding()
    CALLS.rtr_check_end(ctypes.byref(state), ctypes.byref(last))
    if last.rule:
        yield _finding(last, offset)


def _finding(found: _rtr.rtr_finding, offset: int) -> Finding:
    """Converts a struct to a finding."""
    line = ctypes.create_string_buffer(FINDING_ROOM)
    length = CALLS.rtr_finding_line_nonnull(ctypes.byref(found), offset, line, FINDING_ROOM)
    return Finding(offset, Rule(found.rule), ctypes.string_at(line, length).decode("ascii"))
