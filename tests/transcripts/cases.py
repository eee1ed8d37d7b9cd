"""The units that may come in each state, good ones and refused ones."""
from dataclasses import dataclass, replace

import rules
import units
from rules import (ASPA, END, KEY, NOTIFY, PREFIX, QUERY, REFUSED, REPORT, RESET, RESPONSE)
from states import SERIAL
from units import OTHER_SESSION, SESSION

LATER, OPPOSITE = SERIAL + 2, (SERIAL + 2**31) % 2**32
NEW = 9  # the AS of what is announced


@dataclass
class Case:
    """A unit of some kind, built in a version."""
    name: str
    kind: str
    make: callable
    session: int = SESSION
    serial: int = LATER
    code: int = None  # of a report, or of that for a refused unit
    text: str = ""  # of the report for a refused unit
    about: int = 8  # how many of its bytes the report copies
    least: int = 0  # the first version that has it

    def notes(self, state, version):
        """Returns the notes that a row may have on the unit beside its kind and version."""
        notes = {str(self.code)} if self.kind == REPORT else set()
        if self.kind == REFUSED and self.code is None:
            notes.add("report")
        if self.kind in (NOTIFY, RESPONSE, END) and self.session != SESSION:
            # Without data and without a response there is no session to differ from.
            if state.has_data or state.phase == "reading":
                notes.add("other")
        if self.kind == NOTIFY and state.has_data and self.serial == SERIAL:
            notes.add("known")
        if self.kind == END and self.serial == SERIAL - 1:
            notes.add("back")
        if version >= self.least and self.kind in rules.PAYLOAD:
            notes.add("has")
        return notes


def bad_length(kind, length):
    return lambda version: units.unit(version, kind, 0, bytes(12))[:4] + length.to_bytes(4, "big")


def bad_prefix(lengths):
    def make(version):
        good = units.ipv4(version, NEW)
        return good[:9] + bytes(lengths) + good[11:]
    return make


GOOD = [
    Case("notify", NOTIFY, lambda v: units.notify(v, LATER)),
    Case("notify-known", NOTIFY, lambda v: units.notify(v, SERIAL), serial=SERIAL),
    Case("notify-other-session", NOTIFY, lambda v: units.notify(v, LATER, OTHER_SESSION),
         session=OTHER_SESSION),
    Case("serial-query", QUERY, lambda v: units.serial_query(v, SERIAL)),
    Case("reset-query", QUERY, units.reset_query),
    Case("response", RESPONSE, units.response),
    Case("response-other-session", RESPONSE, lambda v: units.response(v, OTHER_SESSION),
         session=OTHER_SESSION),
    Case("ipv4-prefix", PREFIX, lambda v: units.ipv4(v, NEW)),
    Case("ipv6-prefix", PREFIX, lambda v: units.ipv6(v, NEW)),
    Case("router-key", KEY, lambda v: units.key(v, NEW), least=1),
    Case("aspa", ASPA, lambda v: units.aspa(v, NEW, [1, 2]), least=2),
    Case("end", END, lambda v: units.end(v, LATER)),
    Case("end-same-serial", END, lambda v: units.end(v, SERIAL), serial=SERIAL),
    Case("end-earlier-serial", END, lambda v: units.end(v, SERIAL - 1), serial=SERIAL - 1),
    Case("end-opposite-serial", END, lambda v: units.end(v, OPPOSITE), serial=OPPOSITE),
    Case("end-other-session", END, lambda v: units.end(v, LATER, OTHER_SESSION),
         session=OTHER_SESSION),
    Case("cache-reset", RESET, units.cache_reset),
] + [Case(f"report-{code}", REPORT, lambda v, code=code: units.report(v, code, b"", b"no"),
          code=code) for code in range(10)]

LENGTH, LONG = "invalid unit length", "unit is longer than 65535 bytes"

BAD = [Case(f"type-{kind}", REFUSED, lambda v, kind=kind: units.unit(v, kind, 0), code=5,
            text=f"unit type {kind} is not allowed here") for kind in (5, 12, 255)] + [
    Case("notify-length", REFUSED, bad_length(units.NOTIFY, 8), code=0, text=LENGTH),
    Case("response-length", REFUSED, bad_length(units.RESPONSE, 12), code=0, text=LENGTH),
    Case("prefix-length", REFUSED, bad_length(units.IPV4, 21), code=0, text=LENGTH),
    Case("huge-prefix", REFUSED, bad_length(units.IPV6, 2**32 - 1), code=0, text=LENGTH),
    Case("no-length", REFUSED, bad_length(units.END, 0), code=0, text=LENGTH),
    Case("long-key", REFUSED, bad_length(units.KEY, 65536), code=0, text=LONG),
    Case("long-aspa", REFUSED, bad_length(units.ASPA, 2**32 - 4), code=0, text=LONG),
    Case("long-report", REFUSED, bad_length(units.REPORT, 2**32 - 1), code=None),
    Case("short-report", REFUSED, bad_length(units.REPORT, 12), code=None),
    Case("aspa-of-none", REFUSED, lambda v: units.unit(v, units.ASPA, 256, bytes(4))[:8],
         code=9, text="ASPA unit has no providers"),
    Case("prefix-over", REFUSED, bad_prefix([33, 33]), code=0, text="prefix length too large",
         about=20),
    Case("max-length-over", REFUSED, bad_prefix([8, 33]), code=0, text="max-length too large",
         about=20),
    Case("max-length-under", REFUSED, bad_prefix([8, 7]), code=0,
         text="max-length smaller than prefix length", about=20),
]


def as_in(case, version):
    """Returns the case in this version, in which an end of data may be refused by its header."""
    if case.kind == END and version > 2:
        return replace(case, kind=REFUSED, code=4, text=f"version {version} is not supported here")
    return case
