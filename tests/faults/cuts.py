"""Runs a cache whose machine loses its power while it saves: what is synced stays, and of the rest
each part may be lost. The tracer (`traced.c`) lists the calls of a saving, from which follows what
a cut between two of them may leave. A cache that is started over each of these folders has the data
before, or the new data, whole; and the new ones if a router may have had them before the cut. After
a cut in the first save it has no data and starts anew, or it has all of the first data.
"""
import errno
import itertools
import os
import threading
import time
from typing import NamedTuple, Optional

from cache import Lost, Router
from caches import content
from saved import BESIDE, DATA, Saved, read
from units import END, NOTIFY, REPORT, Wrong

CUTS, FIRST = "cuts of the power in a saving", "cuts of the power in the first saving"
TRACER = None  # the path of the tracer, if it may trace
# Calls of a start that looks for files of an earlier one, and finds none: they change nothing.
FINDS_NONE = ("remove", -errno.ENOENT), ("load", -errno.ENOENT)
KEPT, NEW = 0, 1  # the names in the folder: of the saved file, and of the one that replaces it


class Call(NamedTuple):
    """A call on files that was traced, with the numbers of the lines where it begins and ends."""

    name: str
    path: str
    begins: int
    ends: int
    returned: int


class State(NamedTuple):
    """What a cut leaves: the bytes of both files, None for a missing one."""

    kept: Optional[bytes]
    new: Optional[bytes]


def names(_):
    return [CUTS, FIRST] if TRACER else []


# ---- the calls

def calls_of(path, first):
    """Returns the calls in a list of the tracer, and the time of each line in nanoseconds, both
    from this call on a path."""
    with open(path, encoding="utf-8") as file:
        lines = [line.split() for line in file]
    starts = [number for number, words in enumerate(lines) if (words[3], words[5]) == first]
    if not starts:
        raise Wrong(f"it made no call {first}")
    lines, calls, begin_lines = lines[starts[0]:], [], {}
    for number, (_, thread, what, name, returned, path, *_) in enumerate(lines):
        if what == "begins":
            begin_lines[thread] = number
        else:
            calls.append(Call(name, path, begin_lines.pop(thread), number, int(returned)))
    calls = [call for call in calls if (call.name, call.returned) not in FINDS_NONE]
    failed = [call for call in calls if call.returned < 0]
    if begin_lines or failed:
        raise Wrong(f"it has calls that failed, or didn't end: {failed} {begin_lines}")
    return calls, [int(words[0]) for words in lines]


def is_synced(calls, call, path, line):
    """Reports whether a sync of this path that began after a call has ended at this line."""
    return any(sync.name == "sync" and sync.path == path and call.ends < sync.begins
               and sync.ends <= line for sync in calls)


# ---- what a cut leaves

def contents(calls, whole, new, line):
    """Returns the possible contents of the new file: the synced bytes, and of the rest none, a half
    or all, or zeros."""
    writes = [call for call in calls if call.name == "write" and call.begins <= line]
    size = sum(call.returned for call in writes)
    synced = sum(call.returned for call in writes if is_synced(calls, call, new, line))
    zeros = whole[:synced] + bytes(size - synced)
    return {whole[:synced], whole[:(synced + size) // 2], whole[:size], zeros}


def entries(calls, new, line):
    """Returns which of both names the new file may have. A rename that isn't synced may have made
    its new name, and not yet removed the old one. A folder that was created may be lost with all
    that is in it, until the one above is synced."""
    possible_calls, lasting_calls = {}, {"mkdir": True}
    for call in calls:
        creates_folder = call.name == "mkdir" and call.path == os.path.dirname(new)
        if call.begins <= line and (call.name in ("open", "rename") or creates_folder):
            possible_calls[call.name] = True
            lasting_calls[call.name] = is_synced(calls, call, os.path.dirname(call.path), line)
    without_folder = set() if lasting_calls["mkdir"] else {()}
    if lasting_calls.get("rename"):
        return {(KEPT,)} | without_folder
    possible = without_folder | ({(NEW,)} if lasting_calls.get("open") else {(), (NEW,)})
    if "open" not in possible_calls:
        return {()}
    return possible | {(KEPT,), (KEPT, NEW)} if "rename" in possible_calls else possible


def states_at(calls, old, whole, new, line):
    """Returns what a cut after this line may leave."""
    possible = itertools.product(entries(calls, new, line), contents(calls, whole, new, line))
    return {State(replaced if KEPT in present else old, replaced if NEW in present else None)
            for present, replaced in possible}


def all_states(calls, times, old, whole, received_at):
    """Returns what cuts may leave, and checks it: no part of a file has the name of the saved one,
    and a router got the new data, at the time `received_at`, only after no cut could lose them. A
    cut in the last write leaves all that one in an earlier write leaves."""
    [new] = {call.path for call in calls if call.name == "open"}
    last = max(call.begins for call in calls if call.name == "write")
    found_states = set()
    for line, next_time in enumerate([*times[1:], None]):
        states = states_at(calls, old, whole, new, line)
        for state in states:
            if state.kept not in (old, whole):
                raise Wrong(f"a cut may leave {len(state.kept)} bytes of {len(whole)}")
            if state.kept != whole and (next_time is None or received_at < next_time):
                raise Wrong("a cut may lose data that a router had")
        found_states |= states if line >= last else set()
    return found_states


# ---- playing

class Follower(threading.Thread):
    """A router that asks repeatedly until it gets a serial number, at the time `received_at` in
    nanoseconds."""

    def __init__(self, cache, serial):
        super().__init__(daemon=True)
        self.router, self.serial, self.received_at, self.wrong = Router(cache), serial, None, None

    def run(self):
        try:
            while not self.received_at:
                if self.serial == 1:
                    self.router.ask_all()
                else:
                    self.router.ask_after(self.serial - 1)
                while (received := self.router.read_unit())[1] not in (NOTIFY, REPORT, END):
                    pass
                if received[1] != REPORT and received[8:12] == bytes((0, 0, 0, self.serial)):
                    self.received_at = time.monotonic_ns()
                time.sleep(0.001)
        except (Lost, Wrong) as error:
            self.wrong = error


class Traced(NamedTuple):
    """A saving that was traced: its calls, the time of each line of the list, the bytes of the
    saved file before and after it, when a router had the data, and the session."""

    calls: list
    times: list
    old: Optional[bytes]
    whole: bytes
    received_at: int
    session: int


def saving(saved, serial):
    """Traces the saving of the data of this serial number."""
    cache = saved.start_empty("", "calls") if serial == 1 else saved.start_saved("", "calls")
    first = "open", cache.saved_path + BESIDE
    if serial == 1 and saved.draws_session:
        first = "mkdir", os.path.dirname(cache.saved_path)
    try:
        if serial > 1:
            cache.wait_for_serial(serial - 1)
        old = read(cache.saved_path) if serial > 1 else None
        follower = Follower(cache, serial)
        follower.start()
        cache.replace(content(serial, DATA[serial]))
        cache.wait_for_serial(serial)
        cache.wait_until(lambda: follower.received_at or follower.wrong, "a router gets the data")
        if follower.wrong:
            raise follower.wrong
        follower.join()
        follower.router.close()
        cache.terminate()
        calls, times = calls_of(cache.calls, first)
        whole = read(cache.saved_path)
        return Traced(calls, times, old, whole, follower.received_at, cache.session)
    finally:
        cache.kill()


def play(command, name, _, folder):
    """Plays a cache. Returns a text of what was wrong, or None."""
    try:
        saved = Saved(command if command[0] == TRACER else [TRACER, *command], "", folder)
        serial = 1 if name == FIRST else 2
        *traced, session = saving(saved, serial)
        saved.command = [word for word in command if word != TRACER]
        former = None if serial == 1 else 1
        for state in all_states(*traced):
            expected = serial if state.kept == traced[3] else former
            saved.check_start_over(state.kept, state.new, expected, session)
    except (Wrong, Lost, OSError) as error:
        return f"{error!r}"
    return None
