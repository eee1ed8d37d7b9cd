"""What routers do at their default times if a cache doesn't have the changes that they ask for: a
scripted cache for each router and each answer, all at once."""
import contextlib
import os
import threading
import time

import payloads
import routers
import scripted
import tables
from payloads import RESET_QUERY, SERIAL_QUERY
from processes import until
from results import Pair

PART = "an answer without changes"

# How long a router may take to ask for the first data, also on a machine under load; how long to
# wait for the next reset query; and the longest delay that counts as at once.
FIRST_SECONDS = 60
SECONDS = 100
AT_ONCE_SECONDS = 30

# The time from the data or from a cache reset to a notify.
NOTIFY_SECONDS = 1

# The mark of the table in the page.
MARK = "unanswered"


# The answers to a serial query: a unit or none, whether a notify follows, and whether the
# connection is closed then. With the last one the cache closes before a query comes.
BEFORE = "close while the router waits"
ANSWERS = {
    "cache reset": (scripted.cache_reset, False, False),
    "cache reset, then a close": (scripted.cache_reset, False, True),
    "cache reset, then a notify": (scripted.cache_reset, True, False),
    "report of code 0": (scripted.report, False, False),
    "report of code 0, then a close": (scripted.report, False, True),
    "close": (None, False, True),
    BEFORE: (scripted.cache_reset, False, False),
}


class Scripted(scripted.Cache):
    """A cache that answers each reset query with the data of its newest serial number, and no
    serial query with changes. After it sent data it has newer ones, and notifies."""

    def __init__(self, answer):
        self.unit, self.notifies, self.closes = ANSWERS[answer]
        self.before = answer == BEFORE
        self.listed = payloads.made_up()[0]
        # When the first serial query came, or the connection was closed before it, and when the
        # expected query came after that: a reset query, or any query after such a close.
        self.queried = self.found_at = None
        self.serial_queries = 0
        super().__init__()

    def answer(self, router, query):
        """Answers a query; a report gets no answer."""
        if self.queried and (query.kind == RESET_QUERY or self.before):
            self.found_at = self.found_at or query.when
        if query.kind == RESET_QUERY:
            self.give_all(router, query.version)
        elif query.kind == SERIAL_QUERY:
            self.queried = self.queried or query.when
            self.serial_queries += 1
            if self.unit:
                router.send(self.unit(query.unit))
            if self.notifies:
                self.tell(router, query.version)
            if self.closes:
                router.close()

    def give_all(self, router, version):
        """Sends all data."""
        router.send(scripted.whole(self.listed, version, 2 if self.queried else 1))
        if self.before and not self.queried:
            time.sleep(NOTIFY_SECONDS)
            self.queried = time.monotonic()
            router.close()
        elif not self.queried:
            self.tell(router, version)

    def tell(self, router, version):
        """Notifies of the newer data, a moment later."""
        time.sleep(NOTIFY_SECONDS)
        router.send(scripted.notify(version, 2))

    def found(self):
        """Returns when the expected query came."""
        until(lambda: self.queried, FIRST_SECONDS, "a serial query")
        left = self.queried + SECONDS - time.monotonic()
        with contextlib.suppress(TimeoutError):
            until(lambda: self.found_at, max(1, left), "a query")
        if self.found_at is None:
            again = ", the same serial query again each time" if self.serial_queries > 5 else ""
            return f"not within {SECONDS} s{again}"
        seconds = self.found_at - self.queried
        return "at once" if seconds <= AT_ONCE_SECONDS else f"after {seconds:.0f} s"


def compare_router(results, maker, folder):
    """Runs one router with a scripted cache for each answer, all at once."""
    with Pair(results, PART, maker.name, "v1", maker.release()) as pair, \
            contextlib.ExitStack() as stack:
        scripts = {}
        for number, answer in enumerate(ANSWERS):
            script = stack.enter_context(Scripted(answer))
            own = os.path.join(folder, f"unanswered.{maker.__name__.lower()}{number}")
            scripts[answer] = script, stack.enter_context(maker(own, script.port))
        page = tables.written(MARK)
        for answer, (script, router) in scripts.items():
            found = script.found()
            router.keep("seen", script.seen())
            pair.sees(answer, found)
            expected = page.get(answer, {}).get(pair.column(), found)
            pair.equal(f"after a {answer}, as the page says", found, expected, seen=script.seen())


def compare(results, folder):
    """Runs all routers concurrently."""
    threads = [
        threading.Thread(target=compare_router, args=(results, maker, folder))
        for maker in routers.at_default_times([])
    ]
    for thread in threads:
        thread.start()
    for thread in threads:
        thread.join()


def table(found):
    """Returns the table of the page: a row for each answer, a column for each router."""
    return tables.scenes(found, PART, ANSWERS)
