#!/usr/bin/env python3
"""Forwards between a client and a cache, and sets the free bits in the cache's units.

usage: interop/soil.py PORT

It reads queries from standard input, forwards them to the cache at PORT of this machine, and writes
the answers to standard output: in each payload unit all bits without a meaning are set: those that
RFC 8210 calls zero, the other bits of the flags, and the address after the prefix length.
"""
import os
import socket
import struct
import sys
import threading

from payloads import IPV4, IPV6, ROUTER_KEY

PIECE = 1 << 16


def soiled(unit):
    """Returns a unit with all of its free bits set."""
    kind, unit = unit[1], bytearray(unit)
    if kind in (IPV4, IPV6):
        unit[2:4] = b"\xff\xff"
        unit[8] |= 0xFE
        unit[11] = 0xFF
        size = 32 if kind == IPV4 else 128
        span = slice(12, 12 + size // 8)
        address = int.from_bytes(unit[span], "big") | ((1 << (size - unit[9])) - 1)
        unit[span] = address.to_bytes(size // 8, "big")
    elif kind == ROUTER_KEY:
        unit[2] |= 0xFE
        unit[3] = 0xFF
    return bytes(unit)


def answer(cache):
    """Writes what the cache sends, unit by unit."""
    with cache.makefile("rb") as stream, os.fdopen(1, "wb", buffering=0) as output:
        while len(head := stream.read(8)) == 8:
            rest = stream.read(struct.unpack_from(">I", head, 4)[0] - 8)
            output.write(soiled(head + rest))
    os._exit(0)


def main():
    """Forwards both directions until one ends."""
    cache = socket.create_connection(("127.0.0.1", int(sys.argv[1])), 5)
    cache.settimeout(None)
    threading.Thread(target=answer, args=(cache,), daemon=True).start()
    while query := os.read(0, PIECE):
        cache.sendall(query)


if __name__ == "__main__":
    main()
