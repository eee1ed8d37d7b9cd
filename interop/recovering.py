"""Routers at their default times with scripted caches that have no data, truncate answers, close,
or stay silent: when they ask again, in which version, and what they hold. Our clients must do what
RFC 8210 and docs/SESSIONS.md say; others what the page says, if that is of this release."""
import contextlib
import itertools
import os
import threading
import time

import payloads
import recorder
import routers
import scripted
import tables
from payloads import RESET_QUERY, SERIAL_QUERY
from processes import until
from results import Pair
from tap import Tap, close

PART = "recovery"
MARK, PREFERRED = "recovery", "preferred"

# How long a router may take to ask for the first data, and how much later than it has to a router
# may act, also on a machine under load. Waits that were wrong here were the retry time, 600 s.
FIRST_SECONDS = 60
LATE = 15

# How long a router is observed if a scene has no end of its own.
SECONDS = 100

# The time from the data to a notify.
NOTIFY_SECONDS = 1

# The clock of a client may be so much ahead of what is seen here, and it rests a second at least
# between two connections, and between two queries.
EARLY = 0.1
PAUSE = 1


class Scene(scripted.Cache):
    """A scripted cache, what is seen of its router, and what is expected of ours."""

    # The highest version of our clients; what is expected of them, and of any router.
    version = 1
    expected = name = ""

    def __init__(self):
        self.old, self.new = payloads.made_up()
        super().__init__()

    def begun(self):
        """Waits for the first query."""
        return until(lambda: self.queries, FIRST_SECONDS, "a query")[0].when

    def sees(self, condition, seconds):
        """Waits for a condition, up to this many seconds from the first query on."""
        end = self.begun() + seconds
        with contextlib.suppress(TimeoutError):
            until(condition, max(1, end - time.monotonic()), "it")
            return True
        return False

    def found(self, router):
        """Returns what is seen of a router, in the words of the page."""
        raise NotImplementedError

    def look(self, pair, router):
        """Checks what else is expected of our clients."""

    def holds(self, pair, router, listed, what):
        """Passes if the router has these data now or soon."""
        expected = router.shows(listed)
        with contextlib.suppress(TimeoutError):
            until(lambda: router.table() == expected, LATE, what)
        pair.equal(what, router.table(), expected)

    def tells(self, router, query, serial):
        """Notifies a router of this serial number, a moment later."""
        time.sleep(NOTIFY_SECONDS)
        router.send(scripted.notify(query.version, serial))


class HasNoMore(Scene):
    """It has no data any more, and answers serial queries and some reset queries with report 2;
    then it has new data. Its retry time is 20 s, since the default is 600."""

    name = "no data any more, with a retry time of 20 s"
    RETRY, TIMES = 20, 3
    expected = f"reset queries, each {RETRY} s"
    TIMINGS = (3600, RETRY, 7200)

    def __init__(self):
        self.without = []
        super().__init__()

    def answer(self, router, query):
        resets = len(self.asked(RESET_QUERY))
        if query.kind == RESET_QUERY and resets == 1:
            router.send(scripted.whole(self.old, query.version, 1, self.TIMINGS))
            self.tells(router, query, 2)
        elif query.kind == RESET_QUERY and len(self.without) > self.TIMES:
            router.send(scripted.whole(self.new, query.version, 3, self.TIMINGS))
        elif query.kind in (RESET_QUERY, SERIAL_QUERY):
            self.without.append(query)
            router.send(scripted.report(query.unit, scripted.NO_DATA, b"no data"))

    def after(self):
        """Returns the queries after the first report, and the last one before them."""
        queries = self.asked(RESET_QUERY, SERIAL_QUERY)
        return queries[1:]

    def found(self, router):
        self.sees(lambda: len(self.after()) > 1 + self.TIMES,
                  NOTIFY_SECONDS + self.TIMES * (self.RETRY + LATE))
        queries = self.after()
        gaps = [later.when - earlier.when for earlier, later in itertools.pairwise(queries)]
        kinds = {query.kind for query in queries[1:]}
        if not gaps:
            return f"no query within {SECONDS} s"
        what = {frozenset([RESET_QUERY]): "reset queries",
                frozenset([SERIAL_QUERY]): "serial queries"}.get(frozenset(kinds), "queries")
        if len(gaps) < self.TIMES:
            return f"{what}, {len(gaps)} within {SECONDS} s"
        if all(self.RETRY - EARLY <= gap <= self.RETRY + LATE for gap in gaps[:self.TIMES]):
            return f"{what}, each {self.RETRY} s"
        return f"{what}, sooner" if min(gaps) < self.RETRY - EARLY else f"{what}, later"

    def look(self, pair, router):
        kept = {query.connection for query in self.asked(RESET_QUERY, SERIAL_QUERY)}
        pair.equal("after no data the connection stays", kept, {0}, 1)
        self.holds(pair, router, self.new, "holds the data that come after no data")


class HasNoneYet(Scene):
    """It has no data yet, gets the first nine seconds later, and then notifies."""

    name = "no data yet, and a notify 10 s later"
    expected = "a reset query"
    GETS = 9

    def answer(self, router, query):
        if query.kind not in (RESET_QUERY, SERIAL_QUERY):
            return
        if query.when < self.begun() + self.GETS:
            router.send(scripted.report(query.unit, scripted.NO_DATA, b"no data"))
            if len(self.queries) == 1:
                time.sleep(self.GETS)
                self.tells(router, query, 1)
        else:
            router.send(scripted.whole(self.new, query.version, 1))

    def after(self):
        """Returns the queries once there are data."""
        got = self.begun() + self.GETS
        return [query for query in self.asked(RESET_QUERY, SERIAL_QUERY) if query.when >= got]

    def found(self, router):
        if not self.sees(self.after, self.GETS + NOTIFY_SECONDS + LATE):
            return f"no query within {LATE} s"
        return "a reset query" if self.after()[0].kind == RESET_QUERY else "a serial query"

    def look(self, pair, router):
        self.holds(pair, router, self.new, "holds the first data after no data")


class Cuts(Scene):
    """It truncates the answers to reset queries of a router that has data, four times."""

    name = "four cuts in all data, with older data"
    CUTS = 4
    expected = "current"

    def __init__(self):
        self.cuts = 0
        super().__init__()

    def answer(self, router, query):
        if query.kind == SERIAL_QUERY:
            router.send(scripted.cache_reset(query.unit))
        elif query.kind == RESET_QUERY and len(self.asked(RESET_QUERY)) == 1:
            router.send(scripted.whole(self.old, query.version, 1))
            self.tells(router, query, 2)
        elif query.kind == RESET_QUERY:
            answer = scripted.whole(self.new, query.version, 2)
            cut = self.cuts < self.CUTS
            self.cuts += cut
            router.send(answer[:len(answer) // 2] if cut else answer)
            if cut:
                router.close()

    def rests(self):
        """Returns how long the router waited after each end of a connection."""
        return [came - self.closed[index] for index, came in enumerate(self.came[1:])
                if index in self.closed]

    def found(self, router):
        expected = router.shows(self.new)
        is_current = self.sees(
            lambda: self.cuts == self.CUTS and router.table() == expected, SECONDS)
        return "current" if is_current else f"not current within {SECONDS} s"

    def look(self, pair, router):
        pair.equal("after cuts waits 1, 2, 4, 8 s", grown(self.rests()[:self.CUTS]), [], self.CUTS)


def grown(rests):
    """Returns which of these waits don't grow from a second on, each up to twice the one before,
    with a random part."""
    return [f"{index}: {rest:.1f} s" for index, rest in enumerate(rests)
            if not max(PAUSE, 2**index / 2) - EARLY <= rest <= 2**index + LATE]


class Closes(Scene):
    """It closes after each whole answer, and its data stay the same."""

    name = f"a close after each answer, for {SECONDS} s"
    # Waits of 1, 2, 4, 8, 16, 32 s, each randomly shortened by up to half, but at least a second.
    MOST = 8
    expected = f"at most {MOST} queries"

    def answer(self, router, query):
        if query.kind == RESET_QUERY:
            router.send(scripted.whole(self.old, query.version, 1))
        elif query.kind == SERIAL_QUERY:
            router.send(scripted.nothing_new(query.version, 1))
        router.close()

    def found(self, router):
        start = self.begun()
        time.sleep(max(0, start + SECONDS - time.monotonic()))
        count = sum(query.when < start + SECONDS for query in self.queries)
        return f"{'at most' if count <= self.MOST else 'more than'} {self.MOST} queries"

    def look(self, pair, router):
        rests = [came - self.closed[index] for index, came in enumerate(self.came[1:])]
        pair.equal("after closes waits 1, 2, 4 .. s", grown(rests), [], len(rests))
        self.holds(pair, router, self.old, "holds the data of a cache that closes")


class ClosesOnce(Scene):
    """It closes the first connection without an answer, and a later one after it sent data."""

    name = "a close before the first answer, and another one after data"
    version = 2
    expected = "version 1, and then version 2"
    STAYS = 10

    def __init__(self):
        self.gave = None
        super().__init__()

    def answer(self, router, query):
        if query.connection == 0:
            router.close()
        elif query.kind == RESET_QUERY:
            router.send(scripted.whole(self.old, query.version, 1))
        elif query.kind == SERIAL_QUERY:
            router.send(scripted.nothing_new(query.version, 1))
        if query.connection and self.gave is None:
            self.gave = query.version
            if self.STAYS:
                time.sleep(self.STAYS)
                router.close()

    def versions(self):
        """Returns the versions of the queries, where they change."""
        return [version for version, _ in itertools.groupby(each.version for each in self.queries)]

    def found(self, router):
        first = self.begun()
        self.sees(lambda: len(self.versions()) > 2, self.STAYS + 2 * LATE)
        if len(self.versions()) == 1 and self.gave is None:
            left = max(0, first + SECONDS - time.monotonic())
            with contextlib.suppress(TimeoutError):
                until(lambda: self.gave is not None, left, "another connection")
        if self.gave is None:
            return f"no connection within {SECONDS} s"
        return ", and then ".join(f"version {version}" for version in self.versions()[1:]) \
            or f"version {self.gave} again"

    def look(self, pair, router):
        self.holds(pair, router, self.old, "holds what the highest version has")
        with open(router.path("changes"), encoding="utf-8") as file:
            gone = [line for line in file if '"withdraw"' in line]
        pair.equal("back in the highest version withdraws nothing", gone, [], 1)


class Rises(ClosesOnce):
    """It closes the first connection without an answer, and then keeps connections open: the router
    is back in its highest version after the default refresh time."""

    name = "a close before the first answer"
    REFRESH = 3600
    expected = f"version 1, and version 2 after {REFRESH} s"
    STAYS = 0

    def found(self, router):
        self.sees(lambda: len(self.versions()) > 2, self.REFRESH + 2 * LATE)
        lower = next((query for query in self.queries if query.version < self.version), None)
        again = [query for query in self.queries
                 if lower and query.version == self.version and query.when > lower.when]
        if not again:
            return f"version {self.queries[-1].version} after {self.REFRESH} s"
        took = again[0].when - lower.when
        in_time = self.REFRESH - EARLY <= took <= self.REFRESH + LATE
        return f"version {lower.version}, and version {again[0].version} after " \
            f"{self.REFRESH if in_time else round(took)} s"


class NamesNoTimes(Scene):
    """Its end of data has times that section 6 doesn't allow."""

    name = "times that section 6 doesn't allow"
    expected = "takes the data"
    TIMINGS = (0, 0, 10)

    def answer(self, router, query):
        if query.kind == RESET_QUERY:
            router.send(scripted.whole(self.old, query.version, 1, self.TIMINGS))
        elif query.kind == SERIAL_QUERY:
            router.send(scripted.nothing_new(query.version, 1, self.TIMINGS))

    def found(self, router):
        expected = router.shows(self.old)
        takes = self.sees(lambda: router.table() == expected, LATE)
        found = "takes the data" if takes else "refuses the answer"
        kinds = {routers.Bird.name: ", and warns", routers.RtrClient.name: ", with other times",
                 routers.FRR.name: ", with other times"}
        if router.name not in kinds:
            return found
        # The payloads are in the table before the end of data with the times is read.
        with contextlib.suppress(TimeoutError):
            until(lambda: router.complaints(self.TIMINGS), LATE, "a word about times")
            found += kinds[router.name]
        return found


SCENES = (HasNoMore, HasNoneYet, Cuts, Closes, ClosesOnce, NamesNoTimes)


# ---- two caches, in order of preference

class Serves(scripted.Cache):
    """A cache that answers with its whole list, or is silent."""

    def __init__(self, listed, silent=False):
        self.listed, self.serial, self.silent = listed, 1, silent
        # When it had first sent its whole list, and for how long queries waited, in seconds.
        self.sent, self.late = None, 0
        super().__init__()

    def answer(self, router, query):
        content = b""
        if query.kind == RESET_QUERY and not self.silent:
            content = scripted.whole(self.listed, query.version, self.serial)
        elif query.kind == SERIAL_QUERY:
            content = scripted.cache_reset(query.unit)
        self.late += time.monotonic() - query.when
        router.send(content)
        if query.kind == RESET_QUERY and not self.silent:
            self.sent = self.sent or time.monotonic()


# How long a cache that is preferred may cost that is silent (docs/SESSIONS.md, the patience): from
# when its client was started, which is a moment before its connection is seen here.
PATIENCE = 5

# The share of it that a cache may take to answer here, since it may be late on a busy machine:
# otherwise the scene is repeated, at most this often.
IN_TIME, ATTEMPTS = 3, 5

DIES = "the preferred cache dies"
RETURNS = "it is back, with other data"
SILENT = "the preferred cache is silent"
PREFERENCES = (DIES, RETURNS, SILENT)
SOON = f"the data within {LATE} s"


def shows(router, listed, seconds):
    """Returns after how many seconds a table holds a list, or None."""
    start, expected = time.monotonic(), router.shows(listed)
    with contextlib.suppress(TimeoutError):
        until(lambda: router.table() == expected, seconds, "table")
        return time.monotonic() - start
    return None


def sees(router, listed, cache, away=0):
    """Returns how soon a table has a list of a cache, in the words of the page: alone, or with
    other data. Delays that aren't the router's are subtracted: how long the cache itself took for
    its answers, and how long it was away before, up to which waits grow."""
    late = cache.late
    took = shows(router, listed, SECONDS)
    if took is None:
        beside = router.shows(listed) <= router.table()
        return "the data beside other ones" if beside else f"not the data within {SECONDS} s"
    return SOON if took - away - (cache.late - late) <= LATE else f"the data within {SECONDS} s"


def note(pair, scene, found, expected, ours, seen):
    """Compares what was seen with what is expected of ours, or with the page."""
    pair.sees(scene, found)
    if not ours:
        expected = tables.written(PREFERRED).get(pair.column(), {}).get(scene, found)
    pair.equal(f"after {scene}", found, expected, seen=seen)


def seen_by(router, *served):
    """Stores and returns what these caches saw of a router."""
    seen = " | ".join(cache.seen() for cache in served)
    router.keep("seen", seen)
    return seen


def compare_dying(results, maker, folder, ours):
    """The preferred cache dies, and comes back: the data of the next cache are shown soon, and then
    those of the preferred one."""
    own = os.path.join(folder, f"dies.{maker.__name__.lower()}")
    with Pair(results, PART, maker.name, "v1", maker.release()) as pair:
        if not any(dies(pair, maker, f"{own}.{turn}", ours) for turn in range(ATTEMPTS)):
            raise TimeoutError(f"no answer within {IN_TIME} s here, {ATTEMPTS} times")


def dies(pair, maker, own, ours):
    """Returns whether the preferred cache answered in time; then it dies, and comes back."""
    old, new = payloads.made_up()
    with Serves(old) as first, Serves(new) as second, \
            maker(own, (first.port, second.port)) as router:
        began = shows(router, old, FIRST_SECONDS)
        if ours and began is not None:
            if until(lambda: first.sent, LATE, "the end of the answer") > first.came[0] + IN_TIME:
                return False
        pair.holds("shows the data of the preferred cache", began is not None, "other data")
        if ours:
            pair.equal("no other cache is connected meanwhile", len(second.came), 0, 1)
        ended = time.monotonic()
        first.end()
        found = sees(router, new, second)
        note(pair, DIES, found, SOON, ours, seen_by(router, first, second))
        first.listed, first.serial = payloads.varied(old, 1), 2
        first.listen()
        found = sees(router, first.listed, first, time.monotonic() - ended)
        note(pair, RETURNS, found, SOON, ours, seen_by(router, first, second))
        return True


def compare_silent(results, maker, folder, ours):
    """The preferred cache accepts connections, and is silent: the next one is asked after five
    seconds."""
    _, new = payloads.made_up()
    with Pair(results, PART, maker.name, "v1", maker.release()) as pair, \
            Serves(new, True) as first, Serves(new) as second:
        own = os.path.join(folder, f"silent.{maker.__name__.lower()}")
        with maker(own, (first.port, second.port)) as router:
            until(lambda: first.queries, FIRST_SECONDS, "a query")
            found = sees(router, new, second)
            note(pair, SILENT, found, SOON, ours, seen_by(router, first, second))
            if ours:
                # On a busy machine a client may come a while after its patience began.
                least, most = (second.came[0] - since
                               for since in (router.server.started, first.came[0]))
                pair.holds(f"a silent cache costs {PATIENCE} s",
                           PATIENCE - scripted.TICK <= least and most <= PATIENCE + LATE,
                           f"{most:.1f} to {least:.1f} s", 1)


# ---- times that a cache mustn't send, and serial number 0

# What section 6 of RFC 8210 doesn't allow: refresh, retry and expire time.
NO_TIMES = [(0, 600, 7200), (86401, 600, 172800), (3600, 0, 7200), (3600, 7201, 86400),
            (300, 200, 599), (3600, 600, 172801), (7200, 600, 7200), (600, 7200, 7200)]
SERIAL_0 = "serial number 0"


def compare_times(results, maker, folder):
    """Our caches refuse times that section 6 doesn't allow, and those that get their serial number
    from a file warn about 0."""
    with Pair(results, PART, maker.name, "v1", maker.release()) as pair:
        cache = maker(os.path.join(folder, f"times.{maker.__name__.lower()}"), 1)
        listed, _ = payloads.made_up()
        taken = [times for times in NO_TIMES if not cache.refuses(listed, times)]
        pair.equal("refuses times that section 6 doesn't allow", taken, [], len(NO_TIMES))
        if cache.numbered:
            cache.serial = 0
            with cache.serve(listed):
                until(lambda: SERIAL_0 in cache.server.output(), LATE, "a warning")
            pair.holds("warns of serial number 0", True, units=1)


class FirstCut(Tap):
    """A tap that cuts answers in the middle, until the router has used a part of one."""

    cutting = True

    def pass_on(self, source, target, path):
        """Forwards bytes from one to the other until it ends or is cut."""
        if not self.cutting or not path.endswith(".answers"):
            return super().pass_on(source, target, path)
        with open(path, "wb") as file, contextlib.suppress(OSError):
            content = b""
            while len(content) < CUT_AFTER and (piece := source.recv(1 << 16)):
                content += piece
            file.write(content[:CUT_AFTER])
            target.sendall(content[:CUT_AFTER])
        for each in (source, target):
            close(each)

    def asked(self, kind):
        """Reports whether the router has sent such a query."""
        return any(unit[1] == kind for queries, _ in self.recorded()
                   for unit in recorder.units(queries))


# An answer is cut after this many bytes, of about twelve thousand.
CUT_AFTER = 5000

# BIRD then waits for its retry time, by default 600 s: here it is set. It also gives up an answer
# that takes longer, of which it may have nothing yet on a busy machine.
BIRD_RETRY = "retry keep 2;"


def compare_first_cut(results, maker, folder):
    """BIRD loses its first answer, and asks with serial number 0: at serial number 1 it gets all
    data, and at 0 it keeps a part forever, about which our caches warn."""
    listed, _ = payloads.made_up()
    for serial, expected in ((1, "all data"), (0, "a part of the data")):
        with contextlib.ExitStack() as stack:
            bird = type("Bird", (routers.Bird,), {"times": BIRD_RETRY})
            names = (f"{bird.name} at {maker.name}", "v1", bird.release())
            pair = stack.enter_context(Pair(results, PART, *names))
            cache = maker(os.path.join(folder, f"first.{maker.__name__.lower()}.{serial}"), 1)
            cache.serial = serial
            stack.enter_context(cache.serve(listed))
            tap = stack.enter_context(FirstCut(cache.port, cache.folder, "session"))
            router = stack.enter_context(bird(os.path.join(cache.folder, "bird"), tap.port))
            until(router.table, FIRST_SECONDS, "a part of the first answer")
            tap.cutting = False
            until(lambda: tap.asked(SERIAL_QUERY), FIRST_SECONDS, "a serial query")
            took = shows(router, cache.serves(listed), LATE)
            found = "a part of the data" if took is None else "all data"
            pair.equal(f"after a cut in the first answer, at serial number {serial}", found,
                       expected, 1)


def compare_scene(results, maker, folder, kind, ours):
    """Runs one router with one scripted cache."""
    with Pair(results, PART, maker.name, f"v{kind.version if ours else 1}",
              maker.release()) as pair, kind() as scene:
        if ours:
            maker = type(maker.__name__, (maker,), {"version": kind.version})
        own = os.path.join(folder, f"{kind.__name__.lower()}.{maker.__name__.lower()}")
        with maker(own, scene.port) as router:
            found = scene.found(router)
            router.keep("seen", scene.seen())
            pair.sees(kind.name, found)
            if ours:
                pair.equal(f"after {kind.name}", found, kind.expected, seen=scene.seen())
                scene.look(pair, router)
            else:
                expected = tables.written(MARK).get(pair.column(), {}).get(kind.name, found)
                pair.equal(f"after {kind.name}, as the page says", found, expected,
                           seen=scene.seen())


def together(jobs):
    """Runs these jobs concurrently."""
    threads = [threading.Thread(target=job, args=words) for job, *words in jobs]
    for thread in threads:
        thread.start()
    for thread in threads:
        thread.join()


def compare(results, folder):
    """Runs all routers with each scripted cache, all at once."""
    of_ours = [*routers.ours(folder), *routers.of_programs(folder), *routers.in_python(folder)]
    of_others = routers.at_default_times(payloads.made_up())
    own = os.path.join(folder, "recovery")
    together([(compare_scene, results, maker, own, kind, maker in of_ours)
              for maker in (*of_ours, *of_others) for kind in SCENES])


def compare_preferences(results, folder):
    """Runs all routers that have caches in order of preference with two scripted ones."""
    preferring = [*routers.ours(folder, routers.Preferring),
                  *routers.of_programs(folder, routers.Preferring)]
    own = os.path.join(folder, "recovery")
    together([(compare, results, maker, own, maker in preferring)
              for maker in (*preferring, routers.FRR)
              for compare in (compare_dying, compare_silent)])


def compare_rising(results, folder):
    """Runs our clients with a cache that closed once, for more than the default refresh time."""
    makers = [*routers.ours(folder), *routers.of_programs(folder), *routers.in_python(folder)]
    together([(compare_scene, results, maker, os.path.join(folder, "recovery"), Rises, True)
              for maker in makers])


def table(found):
    """Returns the table of the page: a row for each router, a column for each scene."""
    return tables.scenes(found, PART, [scene.name for scene in SCENES], across=True)


def table_of_preferences(found):
    """Returns the table of the page with a column for each scene of two caches."""
    return tables.scenes(found, PART, PREFERENCES, across=True)
