#!/usr/bin/env python3
"""Routes and VRPs, and the validity of each route by RFC 6811: `covering`, `mismatch` and `state`,
which check all VRPs. `interop/run.py` uses it, too.

usage: validity.py [SEED] > TABLES    for the tests of the bindings

A table is, with little-endian numbers,

- four bytes each for the length of its data and for how many routes there are, and the data: units
  that announce VRPs in their order, and an end of data;
- each route: one byte each for the family, 4 or 6, the prefix length, the validity and how many
  VRPs cover it, four for the AS, 16 for the address; then
- each VRP that covers it, in the order of payloads: four bytes each for its place and its AS, one
  each for the prefix length, the max length and the mismatch, and one that is zero.

In the addresses of routes bits after the prefix may be set: they are ignored.
"""
import ipaddress
import random
import struct
import sys
from collections import namedtuple

# A VRP, and a route: `width` is that of addresses of the family, in bits, and `prefix` is a number.
Vrp = namedtuple("Vrp", "width prefix length most asn")
Route = namedtuple("Route", "width prefix length asn")

VALIDITIES = ["not found", "valid", "invalid"]
MATCHES, AS_ZERO, OTHER_AS, TOO_LONG = range(4)

# An end of data of session 4660 (RFC 8210 section 5.8).
END = bytes.fromhex("01 07 12 34 00 00 00 18 00 00 00 01 00 00 0e 10 00 00 02 58 00 00 1c 20")


# ---- RFC 6811 section 2

def covering(vrps, route):
    """Returns the VRPs whose prefix covers that of the route."""
    return [vrp for vrp in vrps
            if vrp.width == route.width and vrp.length <= route.length
            and vrp.prefix >> vrp.width - vrp.length == route.prefix >> vrp.width - vrp.length]


def mismatch(vrp, route):
    """Returns why a VRP that covers the route doesn't match it."""
    if vrp.asn == 0:
        return AS_ZERO
    if vrp.asn != route.asn:
        return OTHER_AS
    return TOO_LONG if route.length > vrp.most else MATCHES


def state(found, route):
    """Returns the validity of the route that these VRPs cover."""
    if any(mismatch(vrp, route) == MATCHES for vrp in found):
        return "valid"
    return "invalid" if found else "not found"


# ---- as text and as units

def shown(prefix, width, length):
    """Returns the text of a prefix."""
    kind = ipaddress.IPv4Address if width == 32 else ipaddress.IPv6Address
    return f"{kind(prefix)}/{length}"


def vrp_of(text, asn):
    """Returns the VRP of a prefix with a max length, as 192.0.2.0/23-24, and an AS."""
    prefix, _, most = text.partition("-")
    network = ipaddress.ip_network(prefix)
    return Vrp(network.max_prefixlen, int(network.network_address), network.prefixlen,
               int(most or network.prefixlen), asn)


def route_of(text, asn):
    """Returns the route of a prefix and an AS."""
    return Route(*vrp_of(text, asn)[:3], asn)


def units_of(vrps):
    """Returns the units that announce the VRPs (RFC 8210 sections 5.6 and 5.7)."""
    return b"".join(
        bytes([1, 4 if vrp.width == 32 else 6, 0, 0, 0, 0, 0, 12 + vrp.width // 8 + 4,
               1, vrp.length, vrp.most, 0])
        + vrp.prefix.to_bytes(vrp.width // 8, "big") + vrp.asn.to_bytes(4, "big") for vrp in vrps)


# ---- rows

ROA = [("192.0.2.0/24", 65551)]
WIDE = [("192.0.0.0/22-23", 65551)]
NONE_MAY = [("192.0.2.0/24-32", 0)]
SIX = [("2001:db8::/32-48", 65551)]

# VRPs, a route, and its validity.
ROWS = [
    # RFC 6483 section 2: a route of the AS of a ROA, and of another AS, by the route's prefix.
    (ROA, "198.51.100.0/24", 65551, "not found"), (ROA, "198.51.100.0/24", 65550, "not found"),
    (ROA, "192.0.2.0/23", 65551, "not found"), (ROA, "192.0.2.0/23", 65550, "not found"),
    (ROA, "192.0.2.0/24", 65551, "valid"), (ROA, "192.0.2.0/24", 65550, "invalid"),
    (ROA, "192.0.2.0/25", 65551, "invalid"), (ROA, "192.0.2.128/25", 65550, "invalid"),
    # The same by its max length.
    (WIDE, "192.0.0.0/22", 65551, "valid"), (WIDE, "192.0.2.0/23", 65551, "valid"),
    (WIDE, "192.0.2.0/24", 65551, "invalid"), (WIDE, "192.0.0.0/21", 65551, "not found"),
    # RFC 6483 section 4: a ROA of AS 0 says that no AS may announce it, unless another ROA does.
    (NONE_MAY, "192.0.2.0/24", 65551, "invalid"), (NONE_MAY, "192.0.2.0/24", 0, "invalid"),
    (NONE_MAY, "192.0.2.1/32", 65551, "invalid"), (NONE_MAY, "192.0.2.0/23", 65551, "not found"),
    (NONE_MAY + ROA, "192.0.2.0/24", 65551, "valid"), (NONE_MAY + ROA, "192.0.2.0/24", 0, "invalid"),
    (NONE_MAY + ROA, "192.0.2.0/25", 65551, "invalid"),
    # RFC 6811 section 2: one matching VRP is enough, whatever others cover the route.
    (ROA + [("192.0.2.0/24", 65550)], "192.0.2.0/24", 65550, "valid"),
    (ROA + [("192.0.0.0/16-24", 65550)], "192.0.2.0/24", 65550, "valid"),
    (ROA + [("192.0.0.0/16-23", 65550)], "192.0.2.0/24", 65550, "invalid"),
    # A route that has no one origin AS is matched by nothing.
    (ROA, "192.0.2.0/24", 0, "invalid"), (ROA, "198.51.100.0/24", 0, "not found"),
    # The families are separate, and prefixes of length 0 cover all of theirs.
    (SIX, "2001:db8::/32", 65551, "valid"), (SIX, "2001:db8:ffff::/48", 65551, "valid"),
    (SIX, "2001:db8::/49", 65551, "invalid"), (SIX, "2001:db9::/48", 65551, "not found"),
    (SIX, "32.1.13.184/32", 65551, "not found"), ([("0.0.0.0/0-32", 1)], "::/0", 1, "not found"),
    ([("0.0.0.0/0", 1)], "0.0.0.0/0", 1, "valid"), ([("0.0.0.0/0", 1)], "192.0.2.0/24", 1, "invalid"),
    ([("::/0-128", 1)], "ffff::/128", 1, "valid"), ([("::/0-127", 1)], "ffff::/128", 1, "invalid"),
    ([("0.0.0.0/0-32", 4294967295)], "255.255.255.255/32", 4294967295, "valid"),
    ([], "192.0.2.0/24", 65551, "not found"), ([], "::/0", 0, "not found"),
]


def row_tables():
    """Yields the VRPs of each row in order, its route, and the route's validity."""
    for texts, prefix, asn, expected in ROWS:
        yield sorted(vrp_of(*text) for text in texts), route_of(prefix, asn), expected


# ---- random tables

def clear(prefix, width, length):
    """Returns the prefix with zero after its first bits."""
    return prefix >> width - length << width - length


def vrp_at(choice, width, prefix, length, asn=None):
    """Returns a VRP of this prefix, with a max length at a bound or between."""
    most = choice.choice([length, length, width, min(length + 1, width),
                          choice.randint(length, width)])
    return Vrp(width, clear(prefix, width, length), length, most,
               choice.choice([0, 1, 2, 3, 65551, 4294967295]) if asn is None else asn)


def anywhere(choice, width):
    """Returns VRPs of prefixes of any length, anywhere."""
    return [vrp_at(choice, width, choice.getrandbits(width), choice.randint(0, width))
            for _ in range(120)]


def nested(choice, width):
    """Returns VRPs of all lengths at one address, and at others next to it."""
    address = choice.getrandbits(width)
    return [vrp_at(choice, width, address ^ (choice.random() < 0.3) << choice.randrange(width),
                   length)
            for length in range(width + 1) for _ in range(2)]


def many_at_one(choice, width):
    """Returns many ASes and max lengths at few prefixes."""
    address, length = choice.getrandbits(width), choice.randint(1, width - 1)
    return [vrp_at(choice, width, address, choice.choice([length - 1, length, length + 1]), asn)
            for asn in range(80)]


def bounds(choice, width):
    """Returns VRPs at the ends of the address space, of the least and the greatest lengths."""
    ends = [0, 1, (1 << width) - 1, (1 << width) - 2, 1 << width - 1, (1 << width - 1) - 1]
    return [vrp_at(choice, width, choice.choice(ends), choice.choice([0, 1, 2, width - 1, width]))
            for _ in range(100)]


def crowded(choice, width):
    """Returns VRPs close to each other, as in a table of a region."""
    base = choice.getrandbits(width)
    return [vrp_at(choice, width, base ^ choice.getrandbits(width // 2),
                   choice.randint(width // 4, width)) for _ in range(300)]


KINDS = [anywhere, nested, many_at_one, bounds, crowded]


def table(choice, kind, widths):
    """Returns a table of this kind, as a sorted list without duplicates: IPv4 before IPv6."""
    return sorted({each for width in widths for each in kind(choice, width)})


def routes(choice, vrps, many):
    """Returns routes at and next to the prefixes of VRPs, and anywhere, of ASes of the table and of
    others."""
    asns = [vrp.asn for vrp in vrps] + [0, 7]
    for _ in range(many):
        near = choice.choice(vrps)
        width = near.width
        length = choice.choice([near.length, near.most, near.most + 1, near.length - 1, width, 0,
                                choice.randint(0, width)])
        length = max(0, min(length, width))
        low = choice.choice([0, choice.getrandbits(width) & (1 << width - near.length) - 1])
        prefix = choice.choice([near.prefix | low] * 6 + [
            near.prefix ^ 1 << choice.randrange(width), choice.getrandbits(width)])
        asn = choice.choice([near.asn, near.asn, choice.choice(asns)])
        yield Route(width, clear(prefix, width, length), length, asn)


def tables(seed):
    """Yields the kind of each table, the widths of its families, and its seed."""
    for kind in KINDS:
        for widths in ((32,), (128,), (32, 128)):
            yield kind, widths, random.Random(f"{seed} {kind.__name__} {widths}")


# ---- for the tests of the bindings

def written(choice, vrps, asked):
    """Encodes a table with these routes."""
    data = units_of(vrps) + END
    content = struct.pack("<2I", len(data), len(asked)) + data
    places = {vrp: index for index, vrp in enumerate(vrps)}
    for route in asked:
        found = covering(vrps, route)[:255]
        host = choice.choice([0, choice.getrandbits(route.width - route.length)])
        address = (route.prefix | host) << (128 - route.width)
        content += struct.pack("<4BI", 4 if route.width == 32 else 6, route.length,
                               VALIDITIES.index(state(found, route)), len(found), route.asn)
        content += address.to_bytes(16, "big")
        content += b"".join(struct.pack("<2I4B", places[vrp], vrp.asn, vrp.length, vrp.most,
                                        mismatch(vrp, route), 0) for vrp in found)
    return content


def main():
    if len(sys.argv) > 2:
        sys.exit(__doc__)
    seed = sys.argv[1] if len(sys.argv) > 1 else "1"
    choice = random.Random(seed)
    for vrps, route, expected in row_tables():
        if state(covering(vrps, route), route) != expected:
            sys.exit(f"validity.py: the model doesn't say {expected} of {route}")
        sys.stdout.buffer.write(written(choice, vrps, [route]))
    for kind, widths, chosen in tables(seed):
        vrps = table(chosen, kind, widths)
        sys.stdout.buffer.write(written(chosen, vrps, list(routes(chosen, vrps, 300))))


if __name__ == "__main__":
    main()
