"""Prints the events of a router that gets 300,000 payloads, then others, then none until its data
expire, while the process may allocate only this much more memory: limited.py MIB"""
import pathlib
import resource
import struct
import sys

from rtr_wire import (CacheReset, CacheResponse, Connect, EndOfData, Failed, Router, Settings,
                      Update)

PAYLOADS = 300_000


def answer(first, serial):
    """Encodes all data, with these payloads."""
    units = b"".join(
        struct.pack(">BBHIBBBBII", 1, 4, 0, 20, 1, 24, 24, 0, number << 8, 64496)
        for number in range(first, first + PAYLOADS))
    end = EndOfData(7, serial, refresh=3600, retry=600, expire=7200)
    return bytes(CacheResponse(7)) + units + bytes(end)


def settle(router, now):
    """Runs the router until it waits, and prints events."""
    while (step := router.step(now)) is not None:
        if isinstance(step, Connect):
            router.connected()
        elif isinstance(step, Update):
            print("data" if step.data is not None else "expired")
        elif isinstance(step, Failed) and isinstance(step.error, MemoryError):
            print(type(step.error).__name__)
    router.sent(len(router.output))


def comes(router, now, data):
    for at in range(0, len(data), 1 << 16):
        router.received(data[at:at + (1 << 16)])
        settle(router, now)


def main():
    first, second = answer(0, 1), answer(PAYLOADS, 2)
    router = Router(Settings(pause=0.01))
    settle(router, 0)
    comes(router, 0, first)
    pages = int(pathlib.Path("/proc/self/statm").read_text().split()[0])
    most = pages * resource.getpagesize() + (int(sys.argv[1]) << 20)
    resource.setrlimit(resource.RLIMIT_AS, (most, most))
    router.asked()
    settle(router, 20)
    comes(router, 20, bytes(CacheReset()))
    comes(router, 20, second)
    settle(router, 7_200_020)


main()
