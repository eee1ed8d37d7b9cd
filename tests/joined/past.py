"""All data that a cache had, to check those that a client shows."""
from dataclasses import dataclass

import units
from editions import Payload

# In the order of canonical forms (rtr.h): two of one customer are never present at once.
PAYLOADS = (*(Payload("ipv4", asn) for asn in range(6)),
            *(Payload("ipv6", asn) for asn in range(3)), *(Payload("key", asn) for asn in range(3)),
            *(Payload("aspa", asn, providers) for asn in (1, 2) for providers in ((7,), (7, 8))))
ASPAS = len(PAYLOADS) - 4
WRITTEN = [[payload.unit(version) for version in range(3)] for payload in PAYLOADS]
LEAST = [payload.least() for payload in PAYLOADS]
MOST_AHEAD = 2**31 - 1  # the range of serial numbers in a session (RFC 1982)
WRAP = 2**32


@dataclass(frozen=True)
class Edition:
    """Data at a serial number, as the cache got them, in a version."""
    session: int
    serial: int
    version: int
    chosen: tuple  # indexes of payloads
    times: tuple   # refresh, retry and expire, as they go out in versions that have them

    def data(self, version):
        """Returns the part of them that a version has (RFC 8210 sections 5.6 to 5.8 and 5.10)."""
        own = [WRITTEN[index][version] for index in self.chosen if LEAST[index] <= version]
        return b"".join(own) + units.end(version, self.serial, self.session, self.times)


class Past:
    """Makes random data, and remembers them."""

    def __init__(self, random):
        self.random = random
        self.had = {}
        self.sessions, self.first = set(), 1
        self.chosen = [False] * len(PAYLOADS)
        self.change_session()

    def change_session(self):
        """Begins another session. Its serial numbers begin shortly before the greatest, where those
        of the former session began, or anywhere."""
        self.session = self.random.randrange(2**16)
        while self.session in self.sessions:
            self.session = (self.session + 1) % 2**16
        self.sessions.add(self.session)
        self.first = self.random.choice((WRAP - self.random.randrange(1, 9), self.first,
                                         self.random.randrange(WRAP)))
        self.serial, self.ahead = self.first, 0

    def renew(self):
        """Makes new data of the session, if its serial numbers last; else of another one."""
        further = 1 if self.random.random() < 0.8 else self.random.randrange(1, 2**28)
        if self.ahead + further > MOST_AHEAD:
            self.change_session()
        self.ahead += further
        self.serial = (self.serial + further) % WRAP
        for _ in range(self.random.randrange(4)):
            index = self.random.randrange(len(PAYLOADS))
            self.chosen[index] = not self.chosen[index]
        version = self.random.choice((0, 1, 2, 2, 2, 2))
        edition = Edition(self.session, self.serial, version, self.places(version),
                          units.USUAL if version == 0 else self.times())
        self.had[self.session, self.serial] = edition
        return edition

    def places(self, version):
        """Returns the chosen payloads, of those that a version has; the longer one of two ASPAs of
        a customer."""
        def comes(index):
            doubled = index >= ASPAS and (index - ASPAS) % 2 == 0 and self.chosen[index + 1]
            return self.chosen[index] and LEAST[index] <= version and not doubled
        return tuple(filter(comes, range(len(PAYLOADS))))

    def times(self):
        """Returns times of an end of data, within the limits of RFC 8210 section 6."""
        if self.random.random() < 0.5:
            return units.USUAL
        return self.random.randrange(1, 7201), self.random.randrange(1, 601), self.random.randrange(
            7201, 20000)
