"""Follows a cache with the package for Python, and prints the lines of rtr_diff.

usage: follow.py HOST:PORT --version N [--asyncio] [--tls IDENTITY]

IDENTITY is a file with a certificate for the host, by which both ends are known, and its key.
If FAULTS_PAUSE has milliseconds, it reconnects after these. If FAULTS_MEMORY names a file, that
gets a line at each hundredth end of a connection: how many objects and bytes are allocated. At
another time there may be a buffer of 64 KiB, into which a thread reads.
"""
import asyncio
import gc
import os
import ssl
import sys
import tracemalloc

import rtr_wire


def show(update):
    """Prints what changed."""
    for unit in update.changes:
        print(rtr_wire.change_line(unit))
    sys.stdout.flush()


async def show_all(client):
    async for update in client:
        show(update)


class Counter:
    """Counts what is allocated, and writes it to a file."""

    def __init__(self, path):
        self.ends, self.file = 0, open(path, "w", encoding="ascii")
        tracemalloc.start()

    def write(self):
        """Writes a line at each hundredth call."""
        self.ends += 1
        if self.ends % 100 == 0:
            gc.collect()
            sizes = [trace.size for trace in tracemalloc.take_snapshot().traces]
            print(len(sizes), sum(sizes), file=self.file, flush=True)


def secured():
    """Returns the context of TLS, or nothing."""
    if "--tls" not in sys.argv:
        return None
    identity = sys.argv[sys.argv.index("--tls") + 1]
    context = ssl.create_default_context(cafile=identity)
    context.load_cert_chain(identity)
    return context


def main():
    host, _, port = sys.argv[1].rpartition(":")
    client_class = rtr_wire.AsyncClient if "--asyncio" in sys.argv else rtr_wire.Client
    pause, path = os.environ.get("FAULTS_PAUSE"), os.environ.get("FAULTS_MEMORY")
    settings = rtr_wire.Settings(int(sys.argv[3]), pause=pause and int(pause) / 1000)
    counter = Counter(path) if path else None

    def failed(error):
        print(error, file=sys.stderr, flush=True)
        if counter:
            counter.write()
        if pause:
            client.ask_now()
    client = client_class(host.strip("[]"), int(port), settings, ssl=secured(), failed=failed)
    if client_class is rtr_wire.AsyncClient:
        asyncio.run(show_all(client))
    for update in client:
        show(update)


main()
