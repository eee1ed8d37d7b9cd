"""The rows that all languages test: from the file that an environment variable names, or else fewer
rows from the scripts in tests/libraries."""
from __future__ import annotations

import ipaddress
import itertools
import os
import pathlib
import struct
import subprocess
import sys
from typing import Iterator, List, NamedTuple, Optional, Tuple

BINDINGS = pathlib.Path(__file__).resolve().parent.parent.parent
TESTS = BINDINGS.parent / "tests"
SAMPLES = BINDINGS.parent / "crates"

sys.path.insert(0, str(TESTS))
import findings  # noqa: E402,F401  (recordings that break rules, and what is found in them)
import listed_units  # noqa: E402,F401  (expected objects, and random units)
import samples  # noqa: E402,F401  (the sample units of all languages)


def rows(variable: str, *script: str) -> bytes:
    """Returns the bytes of the rows."""
    if path := os.environ.get(variable):
        return pathlib.Path(path).read_bytes()
    words = [sys.executable, TESTS / "libraries" / script[0], *script[1:]]
    return subprocess.run(words, check=True, stdout=subprocess.PIPE).stdout


class Taken:
    """Reads numbers and bytes from the start of bytes."""

    def __init__(self, data: bytes) -> None:
        self.data, self.at = data, 0

    def __bool__(self) -> bool:
        return self.at < len(self.data)

    def bytes(self, count: int) -> bytes:
        self.at += count
        return self.data[self.at - count:self.at]

    def numbers(self, letters: str) -> Tuple[int, ...]:
        return struct.unpack("<" + letters, self.bytes(struct.calcsize("<" + letters)))


class Case(NamedTuple):
    """A row of tests/libraries/cases.py; the version is 255 if there is none."""

    version: int
    status: int
    detail: int
    units: int
    forms: int
    taken: int
    input: bytes
    form: bytes


def cases() -> Iterator[Case]:
    taken = Taken(rows("RTR_CASES", "cases.py", "--inputs", "300"))
    while taken:
        *head, length, written = taken.numbers("3B5Q")
        yield Case(*head, taken.bytes(length), taken.bytes(written))


class Answer(NamedTuple):
    """A unit, or its fault, as tests/libraries/sessions.py expects it."""

    numbers: Tuple[int, ...]
    address: bytes
    identifier: bytes
    form: bytes


def sessions() -> Iterator[Tuple[bytes, List[Answer]]]:
    taken = Taken(rows("RTR_SESSIONS", "sessions.py", "cases"))
    while taken:
        length, count = taken.numbers("2Q")
        data, answers = taken.bytes(length), []
        for _ in range(count):
            numbers, address = taken.numbers("22Q"), taken.bytes(16)
            identifier, (written,) = taken.bytes(20), taken.numbers("Q")
            answers.append(Answer(numbers, address, identifier, taken.bytes(written)))
        yield data, answers


class Change(NamedTuple):
    """A row of tests/libraries/deltas.py: a call, and its result."""

    call: int
    status: int
    side: int
    detail: int
    offset: int
    first: bytes
    second: bytes
    output: bytes


def changes() -> Iterator[Change]:
    taken = Taken(rows("RTR_DELTAS", "deltas.py"))
    while taken:
        *head, first, second, output, _ = taken.numbers("4B5Q")
        yield Change(*head, taken.bytes(first), taken.bytes(second), taken.bytes(output))


class Route(NamedTuple):
    """A route of tests/libraries/validity.py, with the index, the AS, the prefix length, the max
    length and the mismatch of each VRP that covers it."""

    prefix: str
    asn: int
    validity: int
    covering: List[Tuple[int, ...]]


def tables() -> Iterator[Tuple[bytes, List[Route]]]:
    taken = Taken(rows("RTR_VALIDITY", "validity.py"))
    while taken:
        length, count = taken.numbers("2I")
        data, routes = taken.bytes(length), []
        for _ in range(count):
            family, bits, validity, many, asn = taken.numbers("4BI")
            address = ipaddress.ip_address(taken.bytes(16)[:4 if family == 4 else 16])
            covering = [taken.numbers("2I4B")[:5] for _ in range(many)]
            routes.append(Route(f"{address}/{bits}", asn, validity, covering))
        yield data, routes


class Load:
    """A recording of tests/loads, and its expected result."""

    def __init__(self, name: str) -> None:
        self.name = name
        self.units: List[bytes] = []
        self.data = b""
        self.refused: Optional[Tuple[int, str]] = None
        self.has_cut = False

    @property
    def recording(self) -> bytes:
        return b"".join(self.units)

    @property
    def is_one_answer(self) -> bool:
        """Whether only the whole recording results in data."""
        return self.refused is None and sum(unit[1] == 7 for unit in self.units) == 1

    @property
    def offsets(self) -> List[int]:
        """The offsets of the units, and of the end."""
        return list(itertools.accumulate(map(len, self.units), initial=0))


def loads() -> List[Load]:
    found: List[Load] = []
    for row in (TESTS / "loads").read_text(encoding="ascii").splitlines():
        word, _, rest = row.partition(" ")
        if word == "load":
            found.append(Load(rest))
        elif word == "unit":
            found[-1].units.append(bytes.fromhex(rest))
        elif word == "data":
            found[-1].data += bytes.fromhex(rest)
        elif word == "refused":
            offset, _, text = rest.partition(" ")
            found[-1].refused = int(offset), text
        elif word == "cut":
            found[-1].has_cut = True
        else:
            assert word in ("", "#"), row
    return found
