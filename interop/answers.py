"""Whole answers in recordings: the data that a router has after them, and their serial number. The
data of a serial number never change, and are those of one list that was served."""
import functools
import hashlib
import struct

import payloads
import recorder
from payloads import (ASPA, END, IPV4, IPV6, NOTIFY, REPORT, RESET, RESPONSE, ROUTER_KEY,
                      SERIAL_QUERY)

# The offset of the flags in a payload unit (RFC 8210 sections 5.6, 5.7 and 5.10).
FLAGS = {IPV4: 8, IPV6: 8, ROUTER_KEY: 2, ASPA: 2}
LAST = (END, RESET, REPORT)


@functools.cache
def announced(payload, version):
    """Returns the unit that announces a payload."""
    return payload.unit(version, 1)


def digest(units):
    """Returns a short name of a set of units."""
    return hashlib.sha256(b"".join(sorted(units))).digest()


def flags(unit):
    """Returns the flags of a payload unit."""
    return unit[FLAGS[unit[1]]]


def key(unit):
    """Returns what a withdrawal shares with its announcement: all but the flags, or of an ASPA the
    customer."""
    if unit[1] == ASPA:
        return unit[1], unit[8:12]
    offset = FLAGS[unit[1]]
    return unit[:offset] + unit[offset + 1:]


def applied(data, units):
    """Returns data, announcements by key, after the payload units of an answer."""
    data = dict(data)
    for unit in units:
        if unit[1] in FLAGS and flags(unit) & 1:
            data[key(unit)] = unit
        elif unit[1] in FLAGS:
            data.pop(key(unit), None)
    return data


def split(sent):
    """Yields the answers among these units, without the notifies between them: each up to its last
    unit. A truncated answer is left out."""
    answer = []
    for unit in sent:
        if unit[1] == NOTIFY:
            continue
        answer.append(unit)
        if unit[1] in LAST:
            yield answer
            answer = []


class Answers:
    """The data of one cache's answers, over all routers and restarts."""

    def __init__(self):
        self.lists = {version: set() for version in (0, 1, 2)}
        self.served = {}
        self.wrong = []
        self.whole = 0

    def lists_have(self, listed):
        """Adds a list that is served."""
        for version, known in self.lists.items():
            known.add(digest(announced(payload, version)
                             for payload in payloads.in_version(listed, version)))

    def look(self, asked, sent):
        """Checks the traffic of a connection: queries and answers. Returns the last serial number
        that the router then has, or None."""
        number = None
        for query, answer in zip(recorder.units(asked), split(recorder.units(sent))):
            if answer[-1][1] == END and answer[0][1] == RESPONSE:
                number = self.take(query, answer)
        return number

    def take(self, query, answer):
        """Takes a whole answer, and returns its serial number."""
        end = recorder.End(answer[-1])
        number = (end.version, end.session, end.serial)
        base = {}
        if query[1] == SERIAL_QUERY:
            base = self.served.get((query[0], *struct.unpack_from(">HxxxxI", query, 2)))
        self.whole += 1
        if base is None:
            self.wrong.append(f"an answer to {query.hex()}, whose data nobody got")
            return number
        data = applied(base, answer)
        if self.served.setdefault(number, data) != data:
            self.wrong.append(f"{number} has other data than before")
        if digest(data.values()) not in self.lists[end.version]:
            self.wrong.append(f"{number} has data of no list, {len(data)} payloads")
        return number
