#!/usr/bin/env python3
"""Writes two made-up sequences, one after the other, to standard output: an old and a new data.

usage: generate_data.py [--units N] [--differ N] [--mix KIND=SHARE,..] [--shuffled] [--seed N]

Each has --units units of version 2 that announce different origins, and an end of data. Of each
--differ units, 1000 by default, one isn't in the other sequence; these are spread evenly. KIND is
ipv4 or ipv6, SHARE a whole number; without --mix three origins in four are of IPv4. They come in
the order of payloads, as the C calls require, or with --shuffled in no order. The same arguments
give the same bytes.
"""
import argparse
import random
import struct
import sys

from generate_vrps import FAMILIES, GLOBAL_UNICAST

VERSION, SESSION = 2, 0x1234

# The type and the length of a unit of each family.
UNITS = {4: (4, 20), 6: (6, 32)}


def origin(rng, family):
    """Returns an origin: its family, address, prefix length, max length and ASN, which is its
    order."""
    width, shortest, longest = FAMILIES[family]
    length = rng.randint(shortest, longest)
    bits = rng.getrandbits(length)
    if family == 6:
        bits = GLOBAL_UNICAST << (length - 3) | bits >> 3
    return (family, bits << (width - length), length, rng.randint(length, longest),
            rng.randint(1, 400_000))


def unit(family, address, length, max_length, asn):
    """Returns the unit that announces the origin."""
    kind, size = UNITS[family]
    front = struct.pack(">BBHIBBBB", VERSION, kind, 0, size, 1, length, max_length, 0)
    return front + address.to_bytes(size - 16, "big") + struct.pack(">I", asn)


def end(serial):
    """Returns an end of data."""
    return struct.pack(">BBHIIIII", VERSION, 7, SESSION, 24, serial, 3600, 600, 7200)


def origins(rng, shares, count):
    """Returns this many origins in order."""
    families = rng.choices(list(shares), weights=list(shares.values()), k=count)
    found = {origin(rng, family) for family in families}
    while len(found) < count:
        found.add(origin(rng, rng.choice(families)))
    return sorted(found)


def main():
    parser = argparse.ArgumentParser()
    parser.add_argument("--units", type=int, default=1_000_000)
    parser.add_argument("--differ", type=int, default=1000)
    parser.add_argument("--mix", default="ipv4=3,ipv6=1")
    parser.add_argument("--shuffled", action="store_true")
    parser.add_argument("--seed", type=int, default=1)
    asked = parser.parse_args()
    shares = {int(kind.removeprefix("ipv")): int(share)
              for kind, share in (part.split("=") for part in asked.mix.split(","))}
    rng = random.Random(asked.seed)
    differing = asked.units // asked.differ
    candidates = origins(rng, shares, asked.units + differing)
    apart = [(2 * index + 1) * len(candidates) // (4 * differing) for index in range(2 * differing)]
    for serial, left_out in enumerate((set(apart[::2]), set(apart[1::2]))):
        data = [each for index, each in enumerate(candidates) if index not in left_out]
        if asked.shuffled:
            rng.shuffle(data)
        sys.stdout.buffer.write(b"".join(unit(*each) for each in data) + end(serial + 1))


if __name__ == "__main__":
    main()
