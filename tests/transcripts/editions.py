"""The data of a cache at each serial number, and the answers that it owes (RFC 8210 section 8)."""
from dataclasses import dataclass

import units
from units import ANNOUNCE, SESSION, WITHDRAW


@dataclass(frozen=True)
class Payload:
    """A payload. Two may have the same name and other values, as ASPAs of one customer."""
    kind: str
    asn: int
    providers: tuple = ()

    def name(self):
        return self.kind, self.asn

    def least(self):
        """Returns the first version that has the payload."""
        return {"key": 1, "aspa": 2}.get(self.kind, 0)

    def unit(self, version, action=ANNOUNCE):
        if self.kind == "aspa":
            providers = self.providers if action == ANNOUNCE else ()
            return units.aspa(version, self.asn, providers, action)
        make = {"ipv4": units.ipv4, "ipv6": units.ipv6, "key": units.key}[self.kind]
        return make(version, self.asn, action)


def ipv4(*asns):
    return tuple(Payload("ipv4", asn) for asn in asns)


IPV6, KEY = Payload("ipv6", 1), Payload("key", 3)
ASPA, LONGER = Payload("aspa", 4, (1,)), Payload("aspa", 4, (1, 2))

# The payloads at each serial number, in canonical order.
AT = {
    3: ipv4(1),
    4: (*ipv4(1, 2), KEY, ASPA),
    5: (*ipv4(1, 2), KEY, LONGER),
    6: (*ipv4(2, 9), KEY),
    7: (*ipv4(2, 9, 10), IPV6, KEY),
    8: (*ipv4(2, 10), IPV6, LONGER),
}


def data(serial, session=SESSION, version=2, payloads=None):
    """Returns data in canonical form, in a version."""
    own = AT[serial] if payloads is None else payloads
    parts = [payload.unit(version) for payload in own if payload.least() <= version]
    return b"".join(parts) + units.end(version, serial, session)


def everything(version, serial, session=SESSION, payloads=None):
    """Returns the answer to a reset query (8.1)."""
    return units.response(version, session) + data(serial, session, version, payloads)


def delta(old, new, version):
    """Returns the units that announce new payloads, and then those that withdraw old ones."""
    names = {payload.name() for payload in new}
    announced = [payload.unit(version) for payload in new
                 if payload not in old and payload.least() <= version]
    withdrawn = [payload.unit(version, WITHDRAW) for payload in old
                 if payload.name() not in names and payload.least() <= version]
    return b"".join(announced + withdrawn)


def changes(version, since, serial, session=SESSION):
    """Returns the answer to a serial query whose changes the cache knows (8.2)."""
    return (units.response(version, session) + delta(AT[since], AT[serial], version)
            + units.end(version, serial, session))
