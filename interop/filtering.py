"""A filter in the middle: a cache whose answers get junk in their reserved bits, `rtr_clean`, and
clients."""
import contextlib
import os
import sys

import payloads
import programs
import recorder
import routers
import routing
from processes import Server, on_port, program
from results import Pair

PART = "a filter"
SOIL = os.path.join(os.path.dirname(os.path.abspath(__file__)), "soil.py")


class Relay:
    """socat, which runs a pipe for each connection: soil, followed by a filter if there is one."""

    def __init__(self, cache, folder, name, after=""):
        self.log = os.path.join(folder, f"{name}.log")
        self.pipe = f"SYSTEM:{sys.executable} {SOIL} {cache.port}{after}"
        self.port = self.server = None

    def __enter__(self):
        return on_port(self.start_on)

    def start_on(self, port):
        """Starts it, and waits until it listens."""
        listen = f"TCP-LISTEN:{port},bind=127.0.0.1,reuseaddr,fork,max-children=32"
        self.server = Server([program("socat"), "-t", "5", listen, self.pipe], self.log)
        try:
            self.server.listens(port)
        except BaseException:
            self.server.end()
            raise
        self.port = port
        return self

    def __exit__(self, *_):
        self.server.end()


def compare_bytes(pair, cache, relays):
    """The filter's output is what the cache sends, although its input has junk in reserved bits."""
    query = recorder.reset_query(cache.version)
    answers = []
    for port, name in ((cache.port, "sent"), (relays[0].port, "soiled"), (relays[1].port, "clean")):
        with recorder.Session(port, cache.folder, name) as session:
            answers.append(session.ask(query).content)
    sent, soiled, clean = answers
    found = {line.split(":")[0] for line in programs.found(soiled)}
    pair.equal("each payload on the way has free bits set", len(found),
               len(recorder.units(sent)) - 2, len(found))
    pair.equal("the filter's output is what the cache sends", clean, sent,
               len(recorder.units(sent)))


def compare(results, maker, folder):
    """Runs all routers and clients behind the filter, over one cache."""
    old, new = payloads.made_up()
    names = (f"rtr_clean after {maker.name}", "v1", maker.release())
    with Pair(results, PART, *names) as pair, contextlib.ExitStack() as stack:
        clean = programs.path("rtr_clean")
        cache = maker(os.path.join(folder, f"filter.{maker.__name__.lower()}"), 1)
        stack.enter_context(cache.serve(old))
        old, new = cache.serves(old), cache.serves(new)
        relays = [
            stack.enter_context(Relay(cache, cache.folder, "soil")),
            stack.enter_context(Relay(cache, cache.folder, "filter", f" | {clean}")),
        ]
        compare_bytes(pair, cache, relays)
        cache.port = relays[1].port
        beside = [
            routing.Beside(results, cache, router, stack, PART)
            for router in (*routers.ROUTERS, *routers.ours(folder))
        ]
        beside = [each for each in beside if each.live]
        routing.all_hold(beside, "holds the list through the filter", old, routing.FIRST_SECONDS)
        cache.change(new)
        seconds = cache.change_seconds
        routing.all_hold(beside, "holds the changed list through the filter", new, seconds)
