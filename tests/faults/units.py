"""Units of RFC 8210 section 5, and what the tests of this folder share."""
import functools
import socket
import struct
from typing import NamedTuple

SESSION = 4660
TIMINGS = (3600, 600, 7200)
AS = 64496
TIMEOUT = 300  # seconds for each wait
TICK = 0.001  # seconds: programs count whole milliseconds, so a wait may be shorter by as much

# The types of units; the last one is of draft-ietf-sidrops-8210bis.
NOTIFY, SERIAL_QUERY, RESET_QUERY, RESPONSE, IPV4, IPV6, END, REPORT = 0, 1, 2, 3, 4, 6, 7, 10
ROUTER_KEY, ASPA = 9, 11

# Codes of reports (section 12): the cache has no data yet; about a unit that a router doesn't send.
NO_DATA, INVALID_REQUEST = 2, 3


class Wrong(Exception):
    """A program did something that it must not do."""


class RouterKey(NamedTuple):
    """A router key: its identifier of 20 bytes, its AS number, and its key info."""

    identifier: bytes
    asn: int
    info: bytes


class Aspa(NamedTuple):
    """An ASPA: the AS numbers of a customer and its providers."""

    customer: int
    providers: tuple


# Items of data.
KEYS = [RouterKey(bytes([number] * 20), 64496 + number, b"key info " * number)
        for number in (1, 2, 3)]
# The last one is another of the second one's customer.
ASPAS = [Aspa(64500, (64501, 64502)), Aspa(64510, (64511, 64512, 64513)),
         Aspa(64510, (64511, 64514))]


def unit(kind, field, body=b"", version=2):
    return struct.pack(">BBHI", version, kind, field, 8 + len(body)) + body


def prefix(text, announce, version=2):
    address, length = text.split("/")
    kind, family = (IPV6, socket.AF_INET6) if ":" in address else (IPV4, socket.AF_INET)
    head = struct.pack(">BBBB", announce, int(length), int(length), 0)
    return unit(kind, 0, head + socket.inet_pton(family, address) + struct.pack(">I", AS), version)


@functools.lru_cache(maxsize=None)
def payload(item, announce, version=2):
    """Returns the unit of a prefix, a router key or an ASPA. The flags of the last two are in byte
    2 (section 5.10), and a withdrawn ASPA has only its customer."""
    if isinstance(item, RouterKey):
        body = item.identifier + struct.pack(">I", item.asn) + item.info
        return unit(ROUTER_KEY, announce << 8, body, version)
    if isinstance(item, Aspa):
        numbers = (item.customer, *item.providers) if announce else (item.customer,)
        return unit(ASPA, announce << 8, struct.pack(f">{len(numbers)}I", *numbers), version)
    return prefix(item, announce, version)


def payloads(items, announce, version=2):
    """Returns the units of those items that a version has: router keys since version 1, ASPAs since
    version 2."""
    least = {RouterKey: 1, Aspa: 2}
    return [payload(item, announce, version) for item in items
            if version >= least.get(type(item), 0)]


def changes(before, after):
    """Returns the items that are announced and withdrawn between two lists. An ASPA that replaces
    another of its customer is announced."""
    customers = {item.customer for item in after if isinstance(item, Aspa)}
    stays = set(after)
    withdrawn = [item for item in before if item not in stays
                 and not (isinstance(item, Aspa) and item.customer in customers)]
    was_there = set(before)
    return [item for item in after if item not in was_there], withdrawn


def end(serial, version=2, session=SESSION, times=TIMINGS):
    """Returns an end of data with a refresh, a retry and an expire time in seconds; that of version
    0 has none (RFC 6810 section 5.8)."""
    timings = struct.pack(">III", *times) if version else b""
    return unit(END, session, struct.pack(">I", serial) + timings, version)


def size_of(head):
    """Returns the size of the unit that begins with these eight bytes."""
    return struct.unpack(">I", head[4:8])[0]
