"""rtr-cache with routers at their default times, while its list changes: behind a proxy that cuts
connections at random bytes, and killed in each phase of saving its state. Nothing that it serves is
lost or mixed: each whole answer has the data of one list, the same for each serial number."""
import contextlib
import os
import random
import signal
import socket
import struct
import threading
import time
from typing import NamedTuple

import answers
import caches
import payloads
import recorder
import routers
import routing
import tables
from ours import Program
from payloads import END
from processes import END_SECONDS, Missing, Server, program, until
from results import Pair
from tap import Tap, close

PART = "cuts and kills"
SEED = 8210

# The short form: the number of changes, the seconds for them, and the retry time of the cache.
SECONDS, CHANGES, RETRY = 24, 48, 2
# The long form, and the retry times of its two caches: the second's is that of RFC 8210.
LONG_SECONDS, LONG_CHANGES, LONG_RETRIES = 600, 1200, (5, 600)

# After the last change each router is current within the retry time and this many seconds.
CURRENT_SECONDS = 90

# The most bytes before a cut: of small answers, and of the largest.
FEW, MANY = 300, 16000

# The probability that a change cuts the connections as they are.
IDLE = 0.3

# The most payloads that leave the list in one change.
GONE = 150


class Kept(caches.RtrCache):
    """rtr-cache with a folder for its state."""

    kept = True


def end(connections):
    """Closes connections, even if threads wait for them."""
    for each in connections:
        with contextlib.suppress(OSError):
            each.shutdown(socket.SHUT_RDWR)


class Cutter(Tap):
    """A tap that can cut each connection after some bytes of one direction."""

    def __init__(self, port, folder, name):
        super().__init__(port, folder, name)
        self.chance = random.Random(f"{SEED} {folder}")
        self.cutting = False
        self.cuts = 0
        self.passing = {}

    def cut_now(self):
        """Cuts each connection at once."""
        for path, pair in list(self.passing.items()):
            if self.passing.pop(path, None):
                self.cuts += 1
                self.drop(pair[0])
                end(pair)

    def cut_perhaps(self):
        """Cuts them at times, since they may be idle for long."""
        if self.chance.random() < IDLE:
            self.cut_now()

    def pass_on(self, source, target, path):
        """Forwards bytes from one to the other until it ends or is cut; then both are closed,
        sometimes so that bytes in transit are lost."""
        left = None
        number = path.rsplit(".", 1)[0]
        self.passing[number] = (source, target)
        with open(path, "wb") as file, contextlib.suppress(OSError):
            while content := source.recv(1 << 16):
                if self.cutting and left is None:
                    left = self.chance.randrange(self.chance.choice([FEW, MANY]))
                part = content if left is None else content[:left]
                left = None if left is None else left - len(part)
                file.write(part)
                file.flush()
                target.sendall(part)
                if len(part) < len(content):
                    self.cuts += 1
                    self.drop(target)
                    break
        self.passing.pop(number, None)
        end((source, target))

    def drop(self, connection):
        """Loses the bytes in transit half of the time."""
        if self.chance.random() < 0.5:
            with contextlib.suppress(OSError):
                reset = struct.pack("ii", 1, 0)
                connection.setsockopt(socket.SOL_SOCKET, socket.SO_LINGER, reset)
                close(connection)


class Cut(routing.Beside):
    """A router behind a proxy that cuts."""

    taps = Cutter


class Keeper(routers.Router):
    """rtr-client, which writes the newest data to a file: always those of one list."""

    name = "rtr-client"
    example = None

    release = routers.OurClient.release

    def __init__(self, folder, port):
        super().__init__(folder, port)
        self.looks, self.wrong = 0, []
        self.lists = None
        self.ended = threading.Event()

    def start(self):
        """Starts it, and checks its file continuously."""
        words = [*self.example.words(), f"127.0.0.1:{self.cache}", "--version", "1"]
        self.run([*words, "--out", self.path("newest.csv")])
        self.watching = threading.Thread(target=self.watch, daemon=True)
        self.watching.start()

    def __exit__(self, *words):
        self.ended.set()
        self.watching.join(END_SECONDS)
        super().__exit__(*words)

    def table(self):
        """Returns the origins in its file."""
        with contextlib.suppress(FileNotFoundError):
            return self.once("newest.csv", self.held)
        return set()

    def held(self, text):
        """Returns the origins of these lines."""
        rows = [line.split(",") for line in text.splitlines()]
        return {payloads.Origin(prefix, int(longest), int(asn.removeprefix("AS")))
                for asn, prefix, longest, *_ in rows if asn.startswith("AS")
                and asn[2:].isdigit()}

    def watch(self):
        """Checks that the file is one of the lists."""
        while not self.ended.wait(0.05):
            held = frozenset(self.table())
            self.looks += 1
            if held and self.lists is not None and held not in self.lists:
                self.wrong.append(f"{len(held)} origins of no list")


def origins_of(listed):
    """Returns the origins of a list."""
    return frozenset(each for each in listed if isinstance(each, payloads.Origin))


def changed(listed, turn):
    """Returns the list of a turn: some payloads have left it, and those of the turn were added."""
    chance = random.Random(SEED + turn)
    ordered = sorted(origins_of(listed), key=lambda origin: origin.order())
    gone = chance.sample(ordered, chance.choice([0, 1, GONE]))
    return payloads.varied(set(listed) - set(gone), turn)


class Scene:
    """A cache that changes, its routers, and what was served."""

    def __init__(self, results, maker, folder, last, stack, kind=routing.Beside, retry=RETRY):
        self.listed, _ = payloads.made_up()
        self.answers = answers.Answers()
        self.origins = set()
        self.cache = maker(folder, 1)
        self.cache.retry = retry
        self.note(self.listed)
        stack.enter_context(self.cache.serve(self.listed))
        lists = [self.listed, changed(self.listed, last)]
        makers = [*routers.at_default_times(lists), *keepers(os.path.dirname(folder))]
        beside = [kind(results, self.cache, each, stack, PART) for each in makers]
        self.beside = [each for each in beside if each.live]
        for each in self.keepers():
            each.router.lists = self.origins

    def keepers(self):
        """Returns our clients among the routers."""
        return [each for each in self.beside if isinstance(each.router, Keeper)]

    def note(self, listed):
        """Records that a list is served from now on."""
        self.answers.lists_have(listed)
        self.origins.add(origins_of(listed))

    def change(self, turn):
        """Changes the list."""
        listed = changed(self.listed, turn)
        self.note(listed)
        self.cache.change(listed)
        return listed

    def hold(self, what, listed, seconds):
        """Checks that each router holds a list within this many seconds."""
        routing.all_hold(self.beside, what, self.cache.serves(listed), seconds)

    def look(self, pair, how):
        """Passes if nothing that was served was lost or mixed."""
        for each in self.beside:
            for asked, sent in each.tap.recorded():
                self.answers.look(asked, sent)
        pair.equal(f"no whole answer is mixed, {how}", self.answers.wrong, [], self.answers.whole)
        sessions = {session for _, session, _ in self.answers.served}
        pair.equal(f"one session, {how}", len(sessions), 1, len(self.answers.served))
        for each in self.keepers():
            each.pair.equal(f"its file always has one of the lists, {how}", each.router.wrong, [],
                            each.router.looks)


def keepers(folder):
    """Yields a maker of rtr-client, if it can be built here."""
    here = Program("rtr-client", folder)
    if not here.lacks():
        yield type("Keeper", (Keeper,), {"example": here})


def cut(results, maker, folder, retry=RETRY, seconds=SECONDS, changes=CHANGES):
    """Changes a list behind proxies that cut connections."""
    how = f"over {changes} changes in {seconds} s, retry {retry} s"
    with Pair(results, PART, maker.name, "v1", maker.release()) as pair, \
            contextlib.ExitStack() as stack:
        scene = Scene(results, maker, folder, changes, stack, Cut, retry)
        scene.hold("holds the list before cuts", scene.listed, routing.FIRST_SECONDS)
        taps = [each.tap for each in scene.beside]
        for tap in taps:
            tap.cutting = True
        start = time.monotonic()
        for turn in range(1, changes + 1):
            last = scene.change(turn)
            for tap in taps:
                tap.cut_perhaps()
            time.sleep(max(0, start + seconds * turn / changes - time.monotonic()))
        for tap in taps:
            tap.cutting = False
            if retry < CURRENT_SECONDS:
                tap.cut_now()
        scene.hold("holds the last list after cuts", last, retry + CURRENT_SECONDS)
        cuts = sum(tap.cuts for tap in taps)
        pair.holds(f"connections were cut, {how}", cuts >= len(taps), f"{cuts} cuts", cuts)
        scene.look(pair, how)
        for what, count in (("Retry time", f"{retry} s"), ("Changes", changes), ("Cuts", cuts),
                            ("Whole answers", scene.answers.whole)):
            pair.sees(f"{retry} {what}", count)


# ---- a kill in each phase

class Phase(NamedTuple):
    """A phase of saving: the system call at whose start the cache is killed, and its path: the new
    file, or the folder."""
    what: str
    call: str
    name: str


# All system calls of a save, in order, and the head of a file in between.
NEW, FOLDER = "editions.new", "."
PHASES = (
    Phase("before the new file", "openat", NEW),
    Phase("with an empty new file", "write", NEW),
    Phase("with the head of the new file", "", NEW),
    Phase("before the new file is on the disk", "fsync", NEW),
    Phase("before the new file is closed", "close", NEW),
    Phase("before the new file gets its name", "renameat", NEW),
    Phase("after that", "openat", FOLDER),
    Phase("before the name is on the disk", "fsync", FOLDER),
    Phase("before the data are served", "close", FOLDER),
)
# If the kill comes after the writes of the new file, each of these is delayed by this many
# microseconds, so that routers would get data that are served too early. In the phase without a
# call the kill comes once the file has its head, of this many bytes; the write after that waits for
# it.
SLOWED, STOPPED, HEAD = 50000, 5_000_000, 24

# How long a phase may take, also on a machine under load.
DIES_SECONDS = 60


class Injected:
    """strace attached to a running cache, which it kills in a phase."""

    def __init__(self, cache, phase):
        self.cache, self.phase = cache, phase
        state = os.path.join(cache.folder, "state")
        path = os.path.normpath(os.path.join(state, phase.name))
        words = [program("strace"), "-f", "-p", str(cache.server.process.pid), "-P", path]
        call = phase.call or "write"
        harm = "signal=SIGKILL" if phase.call else f"delay_enter={STOPPED}"
        words += ["-e", f"trace=write,{call}", "-e", f"inject={call}:{harm}"]
        if phase.name == NEW and phase.call not in ("", "openat", "write"):
            words += ["-e", f"inject=write:delay_enter={SLOWED}"]
        self.file = os.path.join(state, NEW)
        log = os.path.join(cache.folder, f"strace.{PHASES.index(phase)}")
        self.server = Server(words, log)

    def __enter__(self):
        until(self.attached, DIES_SECONDS, "strace attaches")
        return self

    def __exit__(self, *_):
        self.server.end()

    def attached(self):
        """Reports whether it traces the cache."""
        output = self.server.output()
        if "Operation not permitted" in output:
            raise Missing("strace may not trace a process here")
        self.server.check()
        return "attached" in output

    def kills(self):
        """Waits until the cache is killed, and reports whether it was."""
        if not self.phase.call:
            until(self.has_head, DIES_SECONDS, "the head of the file")
            self.cache.server.process.kill()
            self.server.end()  # while a system call is delayed, the end isn't visible
        return self.cache.server.process.wait(DIES_SECONDS) == -signal.SIGKILL

    def has_head(self):
        """Reports whether the file has its head."""
        with contextlib.suppress(FileNotFoundError):
            return os.stat(self.file).st_size >= HEAD
        return False


def asked(scene, query, name):
    """Checks an answer of the cache, and returns its serial number; None for another answer."""
    with recorder.Session(scene.cache.port, scene.cache.folder, name) as session:
        answer = session.ask(query)
    if answer.last != END:
        return None
    return scene.answers.take(query, answer.units)


def is_list(scene, number, listed):
    """Reports whether the data of a serial number are those of a list."""
    expected = {answers.announced(each, 1) for each in payloads.in_version(listed, 1)}
    return set(scene.answers.served[number].values()) == expected


def killed(scene, turn, phase):
    """Kills the cache in a phase, and restarts it, every second time with another list; returns
    the faults that are found."""
    reset = recorder.reset_query(1)
    before = asked(scene, reset, "before")
    with Injected(scene.cache, phase) as injected:
        listed = scene.change(turn)
        if not injected.kills():
            return "it ended otherwise"
    scene.cache.server.end()
    if turn % 2 == 0:
        listed = scene.change(turn + len(PHASES))
    scene.cache.serve_again()
    first = asked(scene, reset, "first")

    def current():
        number = asked(scene, reset, "current")
        return number if is_list(scene, number, listed) else None

    after = until(current, DIES_SECONDS, "the changed list")
    delta = asked(scene, recorder.serial_query(1, *before[1:]), "delta")
    if not before[2] <= first[2] <= after[2] or before[2] == after[2]:
        return f"serial numbers {before[2]}, {first[2]}, {after[2]}"
    return "" if delta == after else f"the serial query ends with {delta}"


def kill(results, maker, folder):
    """Kills a cache with routers in each phase of saving its state."""
    with Pair(results, PART, maker.name, "v1", maker.release()) as pair, \
            contextlib.ExitStack() as stack:
        program("strace")
        last = 2 * len(PHASES) if len(PHASES) % 2 == 0 else len(PHASES)  # as `killed` changes it
        scene = Scene(results, maker, folder, last, stack)
        scene.hold("holds the list before kills", scene.listed, routing.FIRST_SECONDS)
        for turn, phase in enumerate(PHASES, 1):
            pair.equal(f"killed {phase.what}", killed(scene, turn, phase), "", 1)
        scene.hold("holds the last list after kills", changed(scene.listed, last),
                   RETRY + CURRENT_SECONDS)
        scene.look(pair, "over kills")


HEADS = ("Retry time", "Changes", "Cuts", "Whole answers")


def table(found):
    """Returns the table of the page: a row for each retry time."""
    seen = {what: count for names, what, count in found.seen if names.part == PART}
    if not seen:
        return []
    rows = [[seen[f"{retry} {head}"] for head in HEADS] for retry in LONG_RETRIES]
    return tables.table(HEADS, rows)
