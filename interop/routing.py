"""Caches and routers: what the tables of routers hold, with a hostile client around, after a change
that comes by notify and delta, and after a restart of the cache with another session."""
import contextlib
import os
import socket
import sys
import time

import answers
import payloads
import programs
import recorder
import routers
from payloads import END, NOTIFY, SERIAL_QUERY
from processes import until
from results import Pair
from tap import Tap

sys.path.append(os.path.join(os.path.dirname(os.path.abspath(__file__)), "..", "tests"))

import samples  # noqa: E402  (it lies in that folder)

PART = "their routers"

# How long a table may take to hold a list, also on a machine under load, and how long one is looked
# at that won't hold it by README.md, or that didn't hold the list before.
FIRST_SECONDS = 60
RESTART_SECONDS = 90
DOUBTED_SECONDS = 30

# How long the rest of an answer may take whose payloads have come, and how often a list is changed
# once more at most.
LAST_SECONDS, ATTEMPTS = 30, 3

# The retry time of other routers, in seconds. Most have no setting for it, so the cache sends it.
# Our clients run at the times of each cache.
THEIR_RETRY = 2

# What a hostile client sends: a length of four gigabytes, a type that there isn't, a unit of a
# cache, a length that no query has, a unit that never ends, and a length of zero.
HOSTILE = [
    bytes.fromhex("01020000ffffffff") + bytes(65536),
    samples.unit("type 173"),
    samples.unit("IPv4 prefix"),
    bytes.fromhex("0101000000000008"),
    bytes.fromhex("01010000"),
    bytes.fromhex("0102000000000000"),
]


def refused(port, content):
    """Reports whether a cache closes the connection of a hostile client, with or without a
    report."""
    with socket.create_connection(("127.0.0.1", port), 5) as client:
        with contextlib.suppress(OSError):
            client.sendall(content)
            client.shutdown(socket.SHUT_WR)
        client.settimeout(20)
        answer = b""
        try:
            while piece := client.recv(1 << 16):
                answer += piece
        except TimeoutError:
            return False
        except OSError:
            pass
    kinds = {unit[1] for unit in recorder.units(answer)}
    return kinds <= {payloads.REPORT}


class Beside:
    """A router and a cache, with a tap between them."""

    taps = Tap

    def __init__(self, results, cache, maker, stack, part=PART):
        names = (f"{maker.name} at {cache.name}", f"v{cache.version}", maker.release())
        self.pair = Pair(results, part, *names)
        self.live, self.held = False, True
        with self.pair:
            folder = os.path.join(cache.folder, maker.__name__.lower())
            os.makedirs(folder, exist_ok=True)
            self.maker = maker
            port = self.reach(cache, folder, stack)
            self.router = stack.enter_context(maker(folder, port))
            self.live = True

    def reach(self, cache, folder, stack):
        """Returns the port that the router connects to: that of the tap."""
        self.tap = stack.enter_context(self.taps(cache.port, folder, "session"))
        return self.tap.port

    def holds(self, what, listed, end):
        """Passes once the table holds exactly the router's part of the list, before a time."""
        expected = self.router.shows(listed)
        with self.pair:
            table = self.table_until(expected, end)
            self.pair.equal(what, table, expected)
            self.held = table == expected

    def table_until(self, expected, end):
        """Returns the table once it is the expected one, or at this time."""
        tables = [set()]

        def same():
            tables.append(self.router.table())
            return tables[-1] == expected

        with contextlib.suppress(TimeoutError):
            until(same, max(1, end - time.monotonic()), "table")
        return tables[-1]

    def exchanged(self):
        """Returns the queries and answers so far, a pair for each connection."""
        return [(recorder.units(asked), recorder.units(sent))
                for asked, sent in self.tap.recorded()]

    def answered(self):
        """Reports whether each query of the last connection has its whole answer."""
        asked, sent = self.exchanged()[-1]
        return len(list(answers.split(sent))) >= len(asked)

    def sent(self):
        """Returns the units that the cache sent, over all connections."""
        return [unit for _, sent in self.exchanged() for unit in sent]

    def skips(self):
        """Reports whether the last notify has another serial number than the one after the
        data's."""
        sent = self.sent()
        last = max((index for index, unit in enumerate(sent) if unit[1] == NOTIFY), default=0)
        before = [recorder.End(unit).serial for unit in sent[:last] if unit[1] == END]
        return bool(before) and recorder.End(sent[last]).serial != before[-1] + 1

    def came_by_delta(self, changed):
        """Passes if the last change before the restart was a delta of these changes, the answer to
        a serial query that came after a serial notify. BIRD, whose retry time is two seconds, gives
        up a connection where an answer takes longer, as on a busy machine."""
        with self.pair:
            # BIRD has payloads in its table before the end of data comes.
            with contextlib.suppress(TimeoutError):
                until(self.answered, LAST_SECONDS, "the end of an answer")
            seen = shown(self.exchanged())
            query, delta = last_change(self.exchanged())
            notified = any(unit[1] == NOTIFY for unit in self.sent())
            self.pair.holds("notified, and asked by a serial query",
                            notified and query[1] == SERIAL_QUERY, seen)
            units = programs.listed(b"".join(delta))
            lines = {programs.line_of(unit) for unit in units if "action" in unit}
            expected = {change.line() for change in changed}
            self.pair.equal("the change came as a delta", lines, expected, seen=seen)

    def listed(self):
        """Passes if our programs accept all queries of the router, and find nothing."""
        with self.pair:
            queries = [queries for queries, _ in self.tap.recorded() if queries]
            units = sum(len(programs.listed(each)) for each in queries)
            found = [line for each in queries for line in programs.found(each)]
            self.pair.equal("rtr_list --check of its queries", found, [], units)
            versions = {unit[0] for each in queries for unit in recorder.units(each)}
            self.pair.sees("versions asked", ", ".join(f"v{v}" for v in sorted(versions)))


def last_change(exchanged):
    """Returns the last query with an answer that has changes, and that answer."""
    pairs = [pair for asked, sent in exchanged for pair in zip(asked, answers.split(sent))]
    while len(pairs) > 1 and pairs[-1][0][1] == SERIAL_QUERY \
            and not any(unit[1] in answers.FLAGS for unit in pairs[-1][1]):
        pairs.pop()
    return pairs[-1]


def shown(exchanged):
    """Returns the queries and answers, in short."""
    return " | ".join(
        f"asked {', '.join(unit.hex() for unit in asked)}; "
        f"got {recorder.Answer(b''.join(sent), False).kinds()}" for asked, sent in exchanged)


def all_hold(beside, what, listed, seconds):
    """Checks that each of the routers holds the list within this many seconds from now."""
    start = time.monotonic()
    for each in beside:
        doubted = not each.held or what in each.pair.known()
        each.holds(what, listed, start + (DOUBTED_SECONDS if doubted else seconds))


def compare_theirs(results, maker, folder):
    """Runs other routers with one cache whose retry time is set."""
    compare(results, maker, os.path.join(folder, f"theirs.{maker.__name__.lower()}"),
            routers.ROUTERS, THEIR_RETRY)


def compare_ours(results, maker, folder):
    """Runs our clients with one cache, at its own times."""
    makers = [*routers.ours(folder), *routers.of_programs(folder)]
    compare(results, maker, os.path.join(folder, f"clients.{maker.__name__.lower()}"), makers)


def compare(results, maker, folder, makers, retry=None):
    """Runs routers with one cache."""
    old, new = payloads.made_up()
    other = payloads.varied(old, 1)
    names = (maker.name, "v1", maker.release())
    with Pair(results, PART, *names) as pair, contextlib.ExitStack() as stack:
        cache = maker(folder, 1)
        cache.retry = retry or cache.retry
        for router in makers:
            router.build()
        stack.enter_context(cache.serve(old))
        beside = [Beside(results, cache, router, stack) for router in makers]
        beside = [each for each in beside if each.live]
        old, new, other = cache.serves(old), cache.serves(new), cache.serves(other)
        all_hold(beside, "holds the list", old, FIRST_SECONDS)
        hostile = [content for content in HOSTILE if not refused(cache.port, content)]
        pair.equal("refuses hostile clients", hostile, [], len(HOSTILE))
        all_hold(beside, "holds it beside hostile clients", old, FIRST_SECONDS)
        change(beside, cache, old, new)
        for each in beside:
            each.tap.refuse()
        began = time.monotonic()
        cache.restart(other)
        for each in beside:
            each.tap.listen()
        # Waits of our clients grow, up to as long as the cache was away.
        away = time.monotonic() - began
        all_hold(beside, "holds the list of another session", other, RESTART_SECONDS + away)
        for each in beside:
            each.listed()


def change(beside, cache, old, new):
    """Changes the list, which routers get as a delta. Where the cache has none, since it looked for
    changes before without any, it changes once more."""
    cache.change(new)
    all_hold(beside, "holds the changed list", new, cache.change_seconds)
    for turn in range(ATTEMPTS):
        if not (cache.numbers_looks and any(each.skips() for each in beside)):
            break
        old, new = new, cache.serves(payloads.varied(new, turn))
        cache.change(new)
        end = time.monotonic() + cache.change_seconds
        for each in beside:
            each.table_until(each.router.shows(new), end)
    for each in beside:
        each.came_by_delta(payloads.changes(old, new))
