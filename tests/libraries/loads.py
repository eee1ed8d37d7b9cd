#!/usr/bin/env python3
"""Recordings at random, and the data that each leaves, computed by RFC 8210 without the library:
data is a Python dict of payloads.

usage: loads.py [SEED] > ROWS    rows as those of the file tests/loads
"""
import random
import struct
import sys

from deltas import ANNOUNCE, WITHDRAW, end_form, form, name, stray, written
from sessions import (ASPA, END, IPV4, IPV6, KEY, NOTIFY, QUERY, REPORT, RESET, RESET_QUERY,
                      RESPONSE, unit)

COUNT, MOST_UNITS = 1500, 14

# A number that no type of unit has.
NO_TYPE = 5

TEXTS = {"short": "unexpected end of input", "type": "unit type 5 is not allowed here",
         "twice": "duplicate announcement", "unknown": "withdrawal of an unknown record",
         "version": "of another version than the units before", "session": "of another session",
         "serial": "serial number before that of the data",
         RESET: "cache reset inside an answer", REPORT: "error report inside an answer"}

PAYLOADS = [(IPV4, bytes([10, 0, third, 0]), 24, 24 + third, 64496) for third in range(3)] + [
    (IPV6, bytes([32, 1]) + bytes(14), 16, 32, 64497), (KEY, bytes(20), 64498, b"key"),
    (ASPA, 64499, (1, 2)), (ASPA, 64499, (3,)), (ASPA, 64500, (1,))]

# The times of an end of data.
TIMES = (3600, 600, 7200)


class Answer:
    """An answer whose end of data hasn't come."""

    def __init__(self, reader, session):
        last, before = reader.last, reader.answer
        self.is_all = reader.asked if reader.asked is not None else bool(before and before.is_all)
        anew = self.is_all or not last or (session is not None and session != last[1])
        self.session = session
        self.held = {} if anew else dict(reader.data)
        self.version, _, self.since = (None,) * 3 if anew else last


class Reader:
    """A router that reads a recording."""

    def __init__(self):
        self.data, self.last, self.answer, self.asked, self.has_cut = {}, None, None, None, False

    def begin(self, session):
        """Opens an answer."""
        self.answer, self.asked = Answer(self, session), None

    def take(self, kind, version, *fields):
        """Takes a unit; returns the name of its fault, or None."""
        if kind in (RESET, REPORT) and self.answer:
            return kind
        if kind == NO_TYPE:
            return "type"
        if kind in (RESET, RESET_QUERY, QUERY):
            self.asked = kind != QUERY
        if kind == RESPONSE:
            self.has_cut |= self.answer is not None
            self.begin(*fields)
        if kind not in ("payload", END):
            return None
        if not self.answer:
            self.begin(self.last and self.last[1])
        if self.answer.version not in (None, version):
            return "version"
        self.answer.version = version
        return self.close(version, *fields) if kind == END else self.change(*fields)

    def change(self, action, payload):
        """Changes the data of the answer."""
        held, of = self.answer.held, name(payload)
        if action == WITHDRAW:
            return None if held.pop(of, None) else "unknown"
        if of in held and payload[0] != ASPA:
            return "twice"
        held[of] = payload
        return None

    def close(self, version, session, serial):
        """Closes the answer."""
        if self.answer.session not in (None, session):
            return "session"
        if self.answer.since is not None and serial < self.answer.since:
            return "serial"
        self.data, self.last, self.answer = self.answer.held, (version, session, serial), None
        return None


def encoded(rng, kind, version, *fields):
    """Returns the bytes of a unit."""
    if kind == "payload":
        return stray(rng, form(version, *fields))
    if kind == END:
        return end_form((version, *fields, TIMES))
    if kind in (NOTIFY, QUERY):
        return unit(version, kind, 7, struct.pack(">I", 1))
    if kind == REPORT:
        return unit(version, kind, 2, bytes(8))
    return unit(version, kind, *fields or (0,), b"")


def right_end(rng, reader, version):
    """Returns an end of data that may follow."""
    if not reader.answer:
        _, session, since = reader.last or (version, 7, 1)
    else:
        session, since = reader.answer.session or 7, reader.answer.since or 1
    return END, version, session, rng.randrange(since, 4)


def any_unit(rng, reader, version):
    """Returns a unit that may follow, or not."""
    kind = rng.choices([END, RESPONSE, RESET, RESET_QUERY, QUERY, NOTIFY, REPORT, NO_TYPE,
                        "payload"], [18, 8, 1, 3, 3, 3, 1, 1, 62])[0]
    version = rng.choice([0, 1, 2]) if rng.random() < 0.02 else version
    if kind == RESPONSE:
        return kind, version, rng.choice([7, 7, 7, 8])
    if kind == END and rng.random() < 0.1:
        return kind, version, rng.choice([7, 7, 7, 8]), rng.randrange(1, 4)
    if kind == END:
        return right_end(rng, reader, version)
    if kind == "payload":
        payload = rng.choice(PAYLOADS)
        held = reader.answer.held if reader.answer else reader.data
        announces = (name(payload) in held) == (rng.random() < 0.1)
        return kind, version, ANNOUNCE if announces else WITHDRAW, payload
    return kind, version


def rows(rng, number):
    """Returns a recording and what it leaves."""
    reader, wrong, at, version = Reader(), None, 0, rng.randrange(3)
    lines = [f"load {number}"]
    for left in reversed(range(rng.randint(1, MOST_UNITS))):
        fields = any_unit(rng, reader, version)
        if left == 0 and rng.random() < 0.8:
            fields = right_end(rng, reader, version)
        unit = encoded(rng, *fields)
        lines.append(f"unit {unit.hex()}")
        wrong = wrong or reader.take(*fields)
        at += 0 if wrong else len(unit)
    if not wrong and (reader.answer or not reader.last):
        wrong = "short"
    if wrong:
        return [*lines, f"refused {at} {TEXTS[wrong]}"]
    left = written([(ANNOUNCE, payload) for payload in reader.data.values()], (*reader.last, TIMES))
    return [*lines, f"data {left.hex()}", *["cut off"][:reader.has_cut]]


def main():
    rng = random.Random(sys.argv[1] if sys.argv[1:] else 1)
    for number in range(COUNT):
        print("\n".join(rows(rng, number)))


if __name__ == "__main__":
    main()
