#!/usr/bin/env python3
"""Writes a made-up list of VRPs as CSV, as validators print it, to standard output.

usage: generate_vrps.py [--vrps N] [--seed N]

The VRPs are of both families and in no order. One in twenty came before, as the same VRP comes from
several ROAs. The same arguments give the same bytes.
"""
import argparse
import ipaddress
import random
import sys

HEADER = "ASN,IP Prefix,Max Length,Trust Anchor"

# How many of a hundred VRPs are of IPv4, and how many came before.
IPV4, AGAIN = 75, 5

# For each family the bits of an address, and the shortest and longest prefix length.
FAMILIES = {4: (32, 8, 24), 6: (128, 19, 48)}

# The first bits of IPv6 addresses.
GLOBAL_UNICAST = 0b001


def vrp(rng):
    """Returns a line of the list."""
    family = 4 if rng.randrange(100) < IPV4 else 6
    width, shortest, longest = FAMILIES[family]
    length = rng.randint(shortest, longest)
    bits = rng.getrandbits(length)
    if family == 6:
        bits = GLOBAL_UNICAST << (length - 3) | bits >> 3
    address = bits << (width - length)
    shown = ipaddress.IPv4Address(address) if family == 4 else ipaddress.IPv6Address(address)
    return f"AS{rng.randint(1, 400_000)},{shown}/{length},{rng.randint(length, longest)},made-up"


def main():
    parser = argparse.ArgumentParser()
    parser.add_argument("--vrps", type=int, default=1_000_000)
    parser.add_argument("--seed", type=int, default=1)
    asked = parser.parse_args()
    rng = random.Random(asked.seed)
    lines = []
    for _ in range(asked.vrps):
        again = lines and rng.randrange(100) < AGAIN
        lines.append(rng.choice(lines) if again else vrp(rng))
    sys.stdout.write("\n".join([HEADER, *lines]) + "\n")


if __name__ == "__main__":
    main()
