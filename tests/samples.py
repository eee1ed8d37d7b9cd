"""The sample units of the file `samples`, which documents their contents."""
from __future__ import annotations

import dataclasses
import pathlib
from typing import Dict, Optional

FILE = pathlib.Path(__file__).resolve().with_suffix("")


@dataclasses.dataclass
class Sample:
    """A sample, with None for what it doesn't have."""

    unit: str
    part: str  # of the file, by its heading
    bytes: bytes = b""
    form: Optional[bytes] = None
    refused: Optional[str] = None
    line: Optional[str] = None
    json: Optional[str] = None
    change: Optional[str] = None
    object: Optional[str] = None
    # The digits of bytes and form as they stand in the file.
    spaced: Dict[str, str] = dataclasses.field(default_factory=dict)

    @property
    def written(self):
        """The canonical form: the bytes that are written for it."""
        return self.form or self.bytes

    def line_at(self, offset):
        """Returns its line at this offset."""
        return f"{offset}{self.line[1:]}"


def read():
    """Returns all samples, in their order."""
    found, part = [], ""
    for row in FILE.read_text(encoding="utf-8").split("\n"):
        word, _, rest = row.partition(" ")
        if rest.startswith("---- "):
            part = rest[5:]
        if not word or word == "#":
            continue
        if word == "unit":
            found.append(Sample(rest, part))
        else:
            if word in ("bytes", "form"):
                found[-1].spaced[word] = rest
            setattr(found[-1], word, bytes.fromhex(rest) if word in found[-1].spaced else rest)
    return found


SAMPLES = read()
BY_NAME = {sample.unit: sample for sample in SAMPLES}
assert len(BY_NAME) == len(SAMPLES), "two samples have one name"


def unit(name, version=None):
    """Returns the bytes of the sample of this name, or the same in another version."""
    found = BY_NAME[name].bytes
    return found if version is None else bytes([version]) + found[1:]


def form(name):
    """Returns the canonical form of the sample of this name."""
    return BY_NAME[name].written


def withdrawn(announced):
    """Returns the unit that withdraws what this one announces: for an ASPA only its customer."""
    if announced[1] == 11:
        return announced[:2] + bytes.fromhex("00 00 00 00 00 0c") + announced[8:12]
    offset = 2 if announced[1] == 9 else 8
    return announced[:offset] + b"\0" + announced[offset + 1:]
