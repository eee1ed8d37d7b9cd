#!/usr/bin/env python3
"""Writes a sequence of payload units and an end of data to standard output.

usage: generate.py [--units N] [--seed N] [--mix KIND=SHARE,..] [--clean]

KIND is ipv4, ipv6, key (91 bytes of key info) or aspa (1 to 8 providers), SHARE a whole number;
without --mix all units are ipv4. The same arguments give the same bytes. With --clean all units are
of version 2 and announce, bits without meaning are zero, and providers ascend: a full table as a
cache sends it.
"""
import argparse
import random
import struct
import sys


def header(version, kind, session, length):
    return struct.pack(">BBHI", version, kind, session, length)


def prefix(rng, kind, width):
    length = rng.randint(8, width)
    max_length = rng.randint(length, width)
    flags = rng.randint(0, 255)
    body = struct.pack(">BBBB", flags, length, max_length, rng.randint(0, 255))
    body += rng.getrandbits(width).to_bytes(width // 8, "big")
    body += rng.getrandbits(32).to_bytes(4, "big")
    return header(1, kind, rng.getrandbits(16), 8 + len(body)) + body


def key(rng):
    body = rng.getrandbits(160).to_bytes(20, "big") + rng.getrandbits(32).to_bytes(4, "big")
    body += rng.getrandbits(8 * 91).to_bytes(91, "big")
    return header(1, 9, rng.randint(0, 255) << 8, 8 + len(body)) + body


def aspa(rng):
    count = rng.randint(1, 8)
    body = rng.getrandbits(32 * (1 + count)).to_bytes(4 * (1 + count), "big")
    return header(2, 11, rng.randint(0, 255) << 8, 8 + len(body)) + body


def cleaned(unit):
    """Returns the unit as it is in a full table."""
    kind, fields = unit[1], bytearray(unit)
    if kind in (4, 6):
        width = 32 if kind == 4 else 128
        shift = width - fields[9]
        address = int.from_bytes(fields[12:-4], "big") >> shift << shift
        fields[8:12] = 1, fields[9], fields[10], 0
        fields[12:-4] = address.to_bytes(width // 8, "big")
    if kind == 11:
        offsets = range(12, len(fields), 4)
        providers = sorted({bytes(fields[offset:offset + 4]) for offset in offsets})
        fields[12:] = b"".join(providers)
    fields[:8] = header(2, kind, 0 if kind in (4, 6) else 0x100, len(fields))
    return bytes(fields)


KINDS = {
    "ipv4": lambda rng: prefix(rng, 4, 32),
    "ipv6": lambda rng: prefix(rng, 6, 128),
    "key": key,
    "aspa": aspa,
}


def main():
    parser = argparse.ArgumentParser()
    parser.add_argument("--units", type=int, default=1_000_000)
    parser.add_argument("--seed", type=int, default=1)
    parser.add_argument("--mix", default="ipv4=1")
    parser.add_argument("--clean", action="store_true")
    args = parser.parse_args()
    parts = (part.split("=") for part in args.mix.split(","))
    shares = {kind: int(share) for kind, share in parts}
    rng = random.Random(args.seed)
    kinds = rng.choices(list(shares), weights=list(shares.values()), k=args.units)
    out = sys.stdout.buffer
    for kind in kinds:
        unit = KINDS[kind](rng)
        out.write(cleaned(unit) if args.clean else unit)
    timings = struct.pack(">III", 3600, 600, 7200)
    out.write(header(2 if args.clean else 1, 7, 0x1234, 24) + struct.pack(">I", 7) + timings)


if __name__ == "__main__":
    main()
