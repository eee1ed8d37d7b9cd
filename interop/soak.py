#!/usr/bin/env python3
"""Changes the list of a cache a thousand times while clients connect, leave and misbehave.

usage: interop/soak.py MINUTES [CACHE]

CACHE is go, rust or stayrtr; by default each of our caches that can be built is run in turn, or
stayrtr. At the end the tables of all routers and clients have to equal the list, and the memory of
the cache has to be what it was after the first minute, or after a fifth of the time if that is
less. It prints what it saw, and exits with status 1 if anything failed.
"""
import contextlib
import os
import random
import signal
import socket
import sys
import tempfile
import threading
import time

import caches
import payloads
import processes
import recorder
import results
import routers
import routing

CHANGES = 1000

# Clients at once that come and go.
AT_ONCE = 8

# How long a client waits, and a table after the last change, also on a machine under load: a cache
# notifies at most once a minute.
CLIENT_SECONDS = 30
LAST_SECONDS = 180

# The growth of the cache's memory that is allowed.
MORE_KIB = 8192


def memory(process):
    """Returns the resident memory of a process, in KiB."""
    with open(f"/proc/{process.pid}/status", encoding="ascii") as file:
        return int(next(line for line in file if line.startswith("VmRSS")).split()[1])


class Crowd:
    """Clients that connect and leave: good ones, some that stall, some that leave early, hostile
    ones."""

    def __init__(self, port):
        self.port = port
        self.ended = threading.Event()
        self.counts = dict.fromkeys(("good", "stalled", "left", "hostile", "failed"), 0)
        self.faults = []
        self.failures = []
        self.threads = [
            threading.Thread(target=self.run, args=(random.Random(seed),), daemon=True)
            for seed in range(AT_ONCE)
        ]
        for thread in self.threads:
            thread.start()

    def run(self, chance):
        """Runs one client after the other, until the end."""
        while not self.ended.wait(chance.random() / 2):
            what = chance.choice(["good", "good", "stalled", "left", "hostile"])
            try:
                getattr(self, what)(chance)
                self.counts[what] += 1
            except OSError as error:
                self.counts["failed"] += 1
                self.failures.append(f"{what}: {error!r}")

    def good(self, chance):
        """Asks for all data, and checks that each payload comes once before an end of data; a
        notify may follow."""
        with socket.create_connection(("127.0.0.1", self.port), CLIENT_SECONDS) as client:
            client.sendall(recorder.reset_query(chance.choice([0, 1])))
            client.settimeout(CLIENT_SECONDS)
            content = b""
            units = []
            while not any(unit[1] == payloads.END for unit in units):
                piece = client.recv(1 << 16)
                if not piece:
                    raise ConnectionError
                content += piece
                units = recorder.units(content)
            sent = [unit for unit in units if unit[1] in (payloads.IPV4, payloads.IPV6)]
            if len(set(sent)) != len(sent):
                self.faults.append("a payload came twice")

    def stalled(self, chance):
        """Asks and doesn't read, for some seconds."""
        with socket.create_connection(("127.0.0.1", self.port), CLIENT_SECONDS) as client:
            client.sendall(recorder.reset_query(1) * 20)
            self.ended.wait(chance.uniform(0, 5))

    def left(self, chance):
        """Leaves in the middle of an answer."""
        with socket.create_connection(("127.0.0.1", self.port), CLIENT_SECONDS) as client:
            client.sendall(recorder.reset_query(1))
            client.settimeout(CLIENT_SECONDS)
            client.recv(chance.randrange(1, 5000))

    def hostile(self, chance):
        """Sends what no client may send."""
        if not routing.refused(self.port, chance.choice(routing.HOSTILE)):
            self.faults.append("a hostile client was answered")

    def end(self):
        """Stops all of them."""
        self.ended.set()
        for thread in self.threads:
            thread.join(CLIENT_SECONDS)


def change_often(cache, listed, seconds):
    """Changes the list a thousand times in this many seconds; returns the last list, and the memory
    then."""
    start, warm = time.monotonic(), None
    for turn in range(1, CHANGES + 1):
        cache.change(payloads.varied(listed, turn))
        passed = time.monotonic() - start
        if warm is None and passed > min(60, seconds / 5):
            warm = memory(cache.server.process)
        time.sleep(max(0, seconds * turn / CHANGES - passed))
    return payloads.varied(listed, CHANGES), warm


def soak(found, maker, folder, seconds):
    """Soaks one cache."""
    listed, _ = payloads.made_up()
    names = ("soak", maker.name, "v1", maker.release())
    with results.Pair(found, *names) as pair, contextlib.ExitStack() as stack:
        cache = maker(os.path.join(folder, f"soak.{maker.__name__.lower()}"), 1)
        stack.enter_context(cache.serve(listed))
        makers = (*routers.ROUTERS, *routers.ours(folder))
        beside = [routing.Beside(found, cache, each, stack, "soak") for each in makers]
        beside = [each for each in beside if each.live]
        routing.all_hold(beside, "holds the list", cache.serves(listed), routing.FIRST_SECONDS)
        crowd = Crowd(cache.port)
        last, warm = change_often(cache, listed, seconds)
        crowd.end()
        what = f"holds the list after {CHANGES} changes"
        routing.all_hold(beside, what, cache.serves(last), LAST_SECONDS)
        after = memory(cache.server.process)
        clients = ", ".join(f"{count} {what}" for what, count in crowd.counts.items())
        pair.equal("faults that clients saw", crowd.faults, [], sum(crowd.counts.values()))
        pair.holds(f"memory of {warm} KiB, at the end {after}", after <= warm + MORE_KIB, "it grew")
        print(f"{maker.name}: {CHANGES} changes in {seconds:.0f} s, clients {clients}")
        for failure in sorted(set(crowd.failures)):
            print(f"{maker.name}: {crowd.failures.count(failure)} clients failed, {failure}")


def main():
    """Soaks the caches that are asked for."""
    if len(sys.argv) not in (2, 3) or not sys.argv[1].isdigit() or sys.argv[1] == "0":
        sys.exit(__doc__)
    seconds = int(sys.argv[1]) * 60
    processes.end_on_signals()
    folder = tempfile.mkdtemp(prefix="soak.")
    makers = {maker.example.name.lower(): maker for maker in caches.ours(folder)}
    if not makers or sys.argv[2:] == ["stayrtr"]:
        makers = {"stayrtr": caches.StayRTR}
    chosen = sys.argv[2:] or list(makers)
    if not set(chosen) <= set(makers):
        sys.exit(f"interop/soak.py: there is no cache {chosen[0]} here")
    signal.alarm((seconds + 600) * len(chosen))
    found = results.Results()
    for name in chosen:
        soak(found, makers[name], folder, seconds)
    processes.end_all()
    print(f"recordings and logs: {folder}")
    print(", ".join(f"{found.count(outcome)} {outcome}" for outcome in results.OUTCOMES))
    return 1 if found.count(results.FAILED) else 0


if __name__ == "__main__":
    sys.exit(main())
