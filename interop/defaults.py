"""Our caches and other routers at their default times: a burst of changes, and a new session; and,
with a shorter retry time, which most routers wait for, a restart with a later serial number."""
import contextlib
import os
import threading
import time

import payloads
import programs
import recorder
import routers
import routing
import tables
from payloads import END, REPORT, RESET, SERIAL_QUERY
from processes import until
from results import Pair

PART = "default times"
MARK = "scenes"

# The number of changes, the seconds for them, and the seconds until each router is current.
CHANGES, BURST_SECONDS = 30, 120
CURRENT_SECONDS = 90

# BIRD and rtrlib wait for their whole retry time before they ask a cache that they lost. A restart
# has this retry time in seconds, and each router asks within this many.
RETRY = 20
RESTART_SECONDS = 60

# How long a router is observed after a new session.
SESSION_SECONDS = 100

BURST = f"{CHANGES} changes in {BURST_SECONDS} s"
RESTART = f"a restart, with a retry time of {RETRY} s"
SESSION = "a new session"
SCENES = (BURST, RESTART, SESSION)


@contextlib.contextmanager
def beginning(results, maker, folder, name, lists, retry=None):
    """Starts a cache that serves the first of these lists, and its routers, and waits until they
    hold it."""
    with Pair(results, PART, maker.name, "v1", maker.release()), contextlib.ExitStack() as stack:
        cache = maker(os.path.join(folder, f"{name}.{maker.__name__.lower()}"), 1)
        cache.retry = retry or cache.retry
        stack.enter_context(cache.serve(lists[0]))
        makers = list(routers.at_default_times(lists))
        beside = [routing.Beside(results, cache, each, stack, PART) for each in makers]
        beside = [each for each in beside if each.live]
        routing.all_hold(beside, f"holds the list before {name}", cache.serves(lists[0]),
                         routing.FIRST_SECONDS)
        yield cache, beside
        for each in beside:
            each.listed()


def seconds_until(each, listed, start, seconds):
    """Returns after how many seconds a table holds a list, at most this many from the start; or
    None."""
    expected = each.router.shows(listed)
    with contextlib.suppress(TimeoutError):
        left = max(1, start + seconds - time.monotonic())
        until(lambda: each.router.table() == expected, left, "table")
        return time.monotonic() - start
    return None


def are_current(beside, listed, start, seconds, then):
    """Checks all tables at once, and calls `then` with the result of each."""
    def look(each):
        with each.pair:
            then(each, seconds_until(each, listed, start, seconds))
    threads = [threading.Thread(target=look, args=(each,)) for each in beside]
    for thread in threads:
        thread.start()
    for thread in threads:
        thread.join()


def note(each, scene, took, seconds, how=""):
    """Stores what was seen of a router after a scene, for the page, and returns it."""
    found = f"current{how}" if took else f"not current within {seconds} s"
    each.pair.sees(scene, found)
    return found


def burst(results, maker, folder):
    """Plays a burst of changes."""
    listed, _ = payloads.made_up()
    lists = [listed, payloads.varied(listed, CHANGES - 1), payloads.varied(listed, CHANGES)]
    with beginning(results, maker, folder, "burst", lists) as (cache, beside):
        start = time.monotonic()
        for turn in range(1, CHANGES + 1):
            cache.change(payloads.varied(listed, turn))
            time.sleep(max(0, start + BURST_SECONDS * turn / CHANGES - time.monotonic()))

        def then(each, took):
            found = note(each, BURST, took, CURRENT_SECONDS)
            each.pair.equal(f"after {BURST}", found, "current")
            complaints = each.router.complaints(payloads.TIMINGS)
            each.pair.equal("takes the default times", complaints, [], 1)
        are_current(beside, cache.serves(lists[2]), time.monotonic(), CURRENT_SECONDS, then)


def first_answer(tap, since):
    """Returns the first query of the connections from this one on, and the units of its answer,
    once it is whole."""
    for queries, answers in list(tap.recorded())[since:]:
        asked, sent = recorder.units(queries), recorder.units(answers)
        last = next((i for i, unit in enumerate(sent) if unit[1] in (END, RESET, REPORT)), None)
        if asked and last is not None:
            return asked[0], sent[:last + 1]
    return None


def kind_of_answer(each, since, changed):
    """Returns the answer to the first query after a restart: a delta, which has these changes, to a
    serial query; else its units."""
    query, units = until(lambda: first_answer(each.tap, since), RESTART_SECONDS, "a query")
    content = b"".join(units)
    if query[1] == SERIAL_QUERY and units[-1][1] == END:
        got = {programs.line_of(unit) for unit in programs.listed(content) if "action" in unit}
        each.pair.equal("the delta after a restart", got, {change.line() for change in changed})
        return "a delta"
    return f"a {recorder.Answer(content, False).kinds()}"


def restart(results, maker, folder):
    """Plays a restart of the cache with a later serial number."""
    listed, _ = payloads.made_up()
    lists = [listed, payloads.varied(listed, 1)]
    with beginning(results, maker, folder, "restart", lists, RETRY) as (cache, beside):
        for each in beside:
            each.tap.refuse()
        cache.server.end()
        since = {each: each.tap.count for each in beside}
        cache.serial += 1
        cache.serve(lists[1])
        for each in beside:
            each.tap.listen()
        changed = payloads.changes(*map(cache.serves, lists))

        def then(each, took):
            how = f" after {kind_of_answer(each, since[each], changed)}"
            found = note(each, RESTART, took, RESTART_SECONDS, how)
            each.pair.equal(f"after {RESTART}", found, "current after a delta")
        are_current(beside, cache.serves(lists[1]), time.monotonic(), RESTART_SECONDS, then)


def new_session(results, maker, folder):
    """Plays a file of another session. The result is compared with the page, if that is of this
    release: a close, after which most routers wait for their retry time."""
    listed, _ = payloads.made_up()
    lists = [listed, payloads.varied(listed, 1)]
    with beginning(results, maker, folder, "session", lists) as (cache, beside):
        cache.session += 1
        cache.change(lists[1])

        def then(each, took):
            found = note(each, SESSION, took, SESSION_SECONDS)
            expected = tables.written(MARK).get(each.pair.column(), {}).get(SESSION, found)
            each.pair.equal(f"after {SESSION}, as the page says", found, expected)
        are_current(beside, cache.serves(lists[1]), time.monotonic(), SESSION_SECONDS, then)


def table(found):
    """Returns the table of the page: a row for each router at each cache, a column for each
    scene."""
    return tables.scenes(found, PART, SCENES, across=True)
