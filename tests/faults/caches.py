"""Runs a cache beside routers, with faults in the cache's calls on sockets: each router gets the
units that RFC 8210 wants, whatever fails; a fault that ends a connection ends only that one; a
cache that can't accept serves the others, and accepts later; and at the end it has the descriptors
and threads that it had at the start.
"""
import errno
import os
import threading
import time
from concurrent.futures import ThreadPoolExecutor

import tls
from cache import ENDING, Cache, Lost, Router, replace_file
from process_state import Wait
from units import ASPAS, INVALID_REQUEST, KEYS, RESPONSE, SESSION, TICK
from units import Wrong, end, payloads, unit

OTHERS = [*KEYS[:2], *ASPAS[:2]]  # than prefixes, at the end of each list
FEW = ["10.0.0.0/8", "192.0.2.0/24", "198.51.100.0/24", "2001:db8::/32", "2001:db8:2::/48", *OTHERS]
# Enough that a cache sends them from a file in memory, and more than it sends at once to a router
# that doesn't read.
MANY = [*(f"10.{i >> 8}.{i & 255}.0/24" for i in range(6_000)), *OTHERS]
MOST = [*(f"10.{i >> 14}.{i >> 6 & 255}.{(i & 63) << 2}/30" for i in range(40_000)), *OTHERS]
NEW = ["203.0.113.0/24", "2001:db8:1::/48"]

MOST_LOST = 30  # connections that a session loses
BEHIND = 8_000  # bytes behind a unit that is refused, which come with it
MEMORY = 1 << 17  # bytes by which a cache may grow from one hundred connections to the next
# A cache that keeps a part of each connection grows each time; other memory of Node may grow once.
MOST_SIZES = 4
# The bytes that the system keeps of what a slow router hasn't read: less than its answer, and more
# than the longest segment of the loopback interface, else a timer decides when each is sent.
SLOW_BUFFER = 1 << 17
SLOW_READS = (3_000, 0.1)  # bytes and a pause in seconds: a cache closes if it can send none
SOON = 15  # seconds, half of the shortest limit of a connection that waits to send
PAUSES = 100  # the most failed accepts in a second: the shortest pause is 20 ms
# The most of a processor that a cache without descriptors uses: a loop without a pause uses all.
MOST_SHARE = 0.5

# A fault that is injected, and whether the data are many.
SESSIONS = {
    "nothing": ("", False),
    "many bytes": ("", True),
    "sends of a byte": ("send:1:0:1", False),
    "reads of a byte": ("receive:1:0:1", False),
    "short sends": ("send:1:0:997", True),
    "sends that end early": ("send:1:0:70000 send:2:0:EAGAIN:3", True),
    "interrupted sends": ("send:1:0:EINTR:2", False),
    "interrupted sends of many bytes": ("send:1:0:EINTR:2", True),
    "sends that would block": ("send:1:0:EAGAIN:2", False),
    "interrupted reads": ("receive:1:0:EINTR:2", False),
    "spurious wakes": ("receive:1:0:EAGAIN:2", False),
    "interrupted waits": ("wait:1:0:EINTR:2", False),
    "interrupted accepts": ("accept:1:0:EINTR:2", False),
    "accepts that would block": ("accept:1:0:EAGAIN:2", False),
    "aborted connections": ("accept:1:3:ECONNABORTED", False),
    "no descriptors": ("accept:2:4:EMFILE", False),
    "no files": ("accept:1:2:ENFILE accept:4:4:ENFILE", False),
    "no memory of the system": ("accept:2:3:ENOBUFS accept:5:5:ENOMEM", False),
    "a pipe that breaks at an answer": ("send:2:2:EPIPE", False),
    "pipes that break at changes": ("send:5:5:EPIPE send:8:8:EPIPE", False),
    "a reset in many bytes": ("send:1:0:50000 send:6:6:ECONNRESET", True),
    "a failing file in memory": ("send:6:6:EIO send:9:9:EIO", True),
    "resets at reads": ("receive:2:2:ECONNRESET receive:7:7:ECONNRESET", False),
    "timeouts of the system": ("receive:3:3:ETIMEDOUT send:4:4:ETIMEDOUT", False),
    "hosts that can't be reached": ("send:3:3:EHOSTUNREACH send:7:7:EHOSTUNREACH", False),
    "all but accepts at once": ("send:1:0:5 send:2:0:EINTR:3 send:3:0:EAGAIN:7 receive:1:0:3 "
                                "receive:2:0:EAGAIN:3 wait:1:0:EINTR:3", False),
    "all at once": ("send:1:0:5 send:2:0:EINTR:3 send:3:0:EAGAIN:7 receive:1:0:3 "
                    "receive:2:0:EAGAIN:3 wait:1:0:EINTR:3 accept:1:0:EMFILE:3", False),
}
# A cache over TLS makes two or three sends in a handshake, and some twelve reads if it reads the
# head and the rest of each record: these faults come in and after handshakes.
OVER_TLS = {
    "timeouts in sends over TLS": ("send:5:19:ETIMEDOUT:7", False),
    "timeouts in many bytes over TLS": ("send:1:0:50000 send:16:30:ETIMEDOUT:14", True),
    "resets at reads over TLS": ("receive:5:5:ECONNRESET receive:21:21:ECONNRESET", False),
}
SESSIONS.update(OVER_TLS)
LEAVINGS_OVER_TLS = {
    "routers that leave under faults over TLS": "send:7:0:ETIMEDOUT:70 receive:9:0:ECONNRESET:101",
}
LEAVINGS = {
    **LEAVINGS_OVER_TLS,
    "routers that leave": "",
    "routers that leave under faults": "send:7:0:EPIPE:7 receive:9:0:ECONNRESET:11 "
                                       "accept:5:0:EMFILE:40 accept:8:0:ECONNABORTED:30",
    "routers that leave under rarer faults": "send:7:0:EPIPE:70 receive:9:0:ECONNRESET:11 "
                                             "accept:5:0:EMFILE:40 accept:8:0:ECONNABORTED:30",
}
SLOW = {
    "a slow router": "",
    "a slow router under faults": "send:1:0:EINTR:3 send:2:0:50000:2 send:4:0:EAGAIN:5 "
                                  "wait:1:0:EINTR:5",
}
THOUSAND = "a thousand routers that leave"
NO_ACCEPT = {"no descriptors for long": "accept:2:0:EMFILE"}
FULL = {"EMFILE", "ENFILE"}  # the errors of a system without descriptors or files
STARVED = "a process without descriptors"
# The seconds until the first query (docs/SESSIONS.md), and the most that its end may come later.
SILENT = "a router that asks nothing"
FIRST_LIMIT, MOST_LATE = 30, 1.5
FOLDER = "a folder in the place of the file"
# What isn't played over TLS: what a cache does before TLS, and with its files; faults that end
# nearly all handshakes; pipes that break, which OpenSSL doesn't tell of where it sends tickets.
NOT_OVER_TLS = {
    "a pipe that breaks at an answer", "pipes that break at changes", "a reset in many bytes",
    "interrupted accepts", "accepts that would block", "aborted connections", "no files",
    "no memory of the system", "hosts that can't be reached", "a failing file in memory",
    "routers that leave under faults", "routers that leave under rarer faults", "a slow router",
    THOUSAND, STARVED, SILENT, FOLDER, *NO_ACCEPT,
}
# Node has two runs in place of others: it sends an answer in more parts, and without descriptors it
# closes new connections. The program for the crate tokio doesn't log why it can't read its file.
NODE_ONLY = {"all but accepts at once", "routers that leave under rarer faults"}
NOT_NODE = {"all at once", "routers that leave under faults", *NO_ACCEPT}


def names(program):
    """Returns the names of the runs of a cache."""
    scenes = [*SLOW, *LEAVINGS, *NO_ACCEPT, *SESSIONS, *FAULTLESS, THOUSAND]
    is_over_tls = program.endswith(tls.OVER)
    left_out = {*NOT_OVER_TLS} if is_over_tls else {*OVER_TLS, *LEAVINGS_OVER_TLS}
    left_out |= NOT_NODE if program.startswith("Node") else NODE_ONLY
    if program.startswith("Go"):
        left_out.add("interrupted waits")
    if program == "tokio cache":
        left_out.add(FOLDER)
    return [name for name in scenes if name not in left_out]


def content(serial, items, session=SESSION):
    """Returns the file of data."""
    return b"".join(payloads(items, 1)) + end(serial, session=session)


def changed(items):
    """Returns these items without two prefixes, a router key and an ASPA, with another of each, and
    with other providers of a customer."""
    return [*items[2:-len(OTHERS)], NEW[0], *KEYS[1:], ASPAS[2]]


class Routers:
    """Routers that follow a cache, and reconnect when their connections end."""

    def __init__(self, cache, versions):
        self.cache, self.lost = cache, 0
        self.routers = [Router(cache, version) for version in versions]
        self.serials = [None for _ in versions]  # of the data that each has

    def run_each(self, ask, read, serial, items):
        """Runs `ask` for each router without the newest data, then `read`, for all at once, since a
        cache closes a connection that takes nothing for long. A router whose connection ends
        reconnects and asks for all data."""
        indices = [index for index, held in enumerate(self.serials) if held != serial]
        lost = set()
        with ThreadPoolExecutor(len(self.routers)) as pool:
            for step in ask, read:
                are_lost = list(pool.map(
                    lambda index, step=step: self.loses_connection(index, step), indices))
                lost.update(index for index, is_lost in zip(indices, are_lost) if is_lost)
        for index in indices:
            if index in lost:
                self.reconnect(index, serial, items)
            self.serials[index] = serial

    def loses_connection(self, index, step):
        """Runs a step of a router, and reports whether its connection ended."""
        try:
            step(self.routers[index])
        except Lost:
            return True
        return False

    def reconnect(self, index, serial, items):
        version = self.routers[index].version
        while True:
            self.lost += 1
            if self.lost > MOST_LOST:
                raise Wrong(f"{self.lost} connections ended")
            self.routers[index].close()
            self.routers[index] = Router(self.cache, version)
            try:
                self.routers[index].ask_all()
                return self.routers[index].expect_answer(serial, items)
            except Lost:
                pass

    def close(self):
        for router in self.routers:
            router.close()


def count_refusals(cache):
    """Checks that a router that sends a cache response, and more bytes, gets a report about it.
    Returns how many of its connections ended before."""
    refused = unit(RESPONSE, SESSION)
    count = 0
    while True:
        router = Router(cache)
        try:
            router.send(refused + bytes(BEHIND))
            router.expect_last_report(INVALID_REQUEST, refused)
            return count
        except Lost:
            count += 1
            if count > MOST_LOST:
                raise Wrong("no router gets a report") from None
        finally:
            router.close()


def play_session(cache, items, first):
    """Routers of all versions get all data, a notify and changes, and changes without a notify:
    the next one has a minute's pause (RFC 8210 section 5.2). One gets a report."""
    routers = Routers(cache, (2, 1, 0, 2))
    routers.run_each(Router.ask_all, lambda router: router.expect_answer(1, items), 1, items)

    second = changed(items)
    cache.replace(content(2, second))
    cache.wait_for_serial(2)

    def take_notify(router):
        router.expect_notify(2)
        router.ask_after(1)
    routers.run_each(take_notify, lambda router: router.expect_changes(items, second, 2), 2, second)

    third = [NEW[1], *second]
    cache.replace(content(3, third))
    cache.wait_for_serial(3)
    routers.run_each(lambda router: router.ask_after(2),
                     lambda router: router.expect_changes(second, third, 3), 3, third)

    lost = routers.lost + count_refusals(cache)
    broken = sum(fault in ENDING for _, _, fault in cache.injected_faults())
    is_full = any(fault in FULL for _, _, fault in cache.injected_faults())
    if lost < broken or lost > broken and not (is_full and cache.may_close()):
        raise Wrong(f"{lost} connections ended, not {broken}")
    routers.close()
    cache.wait_for_resources(first, 3 if items is MANY else 0)


def connect_and_leave(cache, number, read):
    """Connects a router, which leaves in one of six ways; `read` reads a whole answer."""
    router = Router(cache, number % 3)
    try:
        way = number % 6
        if way in (0, 1):
            router.ask_all()
            read(router, 1, MANY)
        elif way == 2:
            router.send(router.unit(0)[:5])
        elif way in (3, 4):
            router.ask_all()
            router.read_unit()
        if way in (1, 4):
            router.reset()
    except Lost:
        pass
    router.close()


def play_leavings(cache, count, faults, first):
    """Routers that come and leave, `count` in turn, take no memory, and don't disturb one that
    stays."""
    routers = Routers(cache, [1])
    steps = Router.ask_all, lambda router: router.expect_answer(1, MANY), 1, MANY
    routers.run_each(*steps)  # the cache closes a connection without a query after 30 seconds
    sizes, read = [], Router.expect_answer if faults else Router.skip_answer
    while len(sizes) < 2 or sizes[-1] > sizes[-2] + MEMORY:
        if len(sizes) == MOST_SIZES:
            raise Wrong(f"its memory grows: {sizes}")
        for number in range(count // 2):
            connect_and_leave(cache, number, read)
        cache.wait_for_resources(first, 3, len(routers.routers))
        sizes.append(cache.memory_size())
    routers.serials = [None]
    routers.run_each(*steps)
    if routers.lost and not faults:
        raise Wrong("the connection of a router that stays ended")
    routers.close()
    cache.wait_for_resources(first, 3)


def play_slow(cache, first):
    """A router that reads slowly gets all of its answer in the end, while others get newer data."""
    slow_router, stop = Router(cache, 2, SLOW_BUFFER), threading.Event()
    slow_router.ask_all()
    trickle = threading.Thread(target=slow_router.trickle, args=(*SLOW_READS, stop), daemon=True)
    trickle.start()
    routers = Routers(cache, (2, 1, 2))
    routers.run_each(Router.ask_all, lambda router: router.expect_answer(1, MOST), 1, MOST)
    second = MOST[1:]
    cache.replace(content(2, second))
    cache.wait_for_serial(2)

    def take_notify(router):
        router.expect_notify(2)
        router.ask_after(1)
    routers.run_each(take_notify, lambda router: router.expect_changes(MOST, second, 2), 2, second)
    if routers.lost:
        raise Wrong(f"{routers.lost} connections ended")
    stop.set()
    trickle.join()
    slow_router.expect_answer(1, MOST)
    start = time.monotonic()
    slow_router.expect_notify(2)
    if time.monotonic() - start > SOON:
        raise Wrong("the notify didn't come as soon as the answer was sent")
    slow_router.ask_after(1)
    slow_router.expect_changes(MOST, second, 2)
    slow_router.close()
    routers.close()
    cache.wait_for_resources(first, 3)


def play_no_accept(cache, _):
    """While the system has no descriptors, the cache serves the connected router, pauses between
    its tries to accept, and keeps trying."""
    start = time.monotonic()
    router, other = Router(cache), Router(cache)
    other.ask_all()
    while time.monotonic() < start + 1:
        router.ask_all()
        router.expect_answer(1, FEW)
        time.sleep(0.05)
    attempts = len(cache.injected_faults())
    seconds = time.monotonic() - start
    if not 1 <= attempts <= PAUSES * seconds:
        raise Wrong(f"it tried {attempts} times to accept in {seconds} seconds")
    cache.wait_until(lambda: len(cache.injected_faults()) > attempts, "it tries again to accept")
    router.close()
    other.close()


def play_starved(cache, first):
    """While the process has no descriptors, it serves the connected router, and doesn't use the
    processor for its tries to accept. Routers that connect wait, or their connections are closed;
    once it has descriptors, they get the data."""
    router = Router(cache)
    router.ask_all()
    router.expect_answer(1, FEW)
    limits = cache.starve()
    start, before = time.monotonic(), cache.cpu_seconds()
    others = Routers(cache, (2, 1, 0))
    while time.monotonic() < start + 2:
        router.ask_all()
        router.expect_answer(1, FEW)
        time.sleep(0.1)
    share = (cache.cpu_seconds() - before) / (time.monotonic() - start)
    if share > MOST_SHARE:
        raise Wrong(f"without descriptors it uses {share:.0%} of a processor")
    cache.feed(limits)
    others.run_each(Router.ask_all, lambda router: router.expect_answer(1, FEW), 1, FEW)
    if others.lost and not cache.may_close():
        raise Wrong(f"{others.lost} connections of routers that waited ended")
    router.close()
    others.close()
    cache.wait_for_resources(first, 0)


def play_silent(cache, first):
    """A router that asks nothing loses its connection at the limit of that, and not later."""
    wait = Wait(cache.process.pid)
    router = Router(cache)
    try:
        raise Wrong(f"a router that asks nothing got {router.receive().hex()}")
    except Lost:
        seconds, idle = wait.seconds()
    if seconds < FIRST_LIMIT - TICK or idle > FIRST_LIMIT + MOST_LATE:
        raise Wrong(f"the connection of a router that asks nothing ended after {seconds} seconds")
    router.close()
    cache.wait_for_resources(first, 0)


def play_folder(cache, first):
    """A file that can be opened, and not be read, changes no data, and the log says why."""
    os.remove(cache.path)
    os.mkdir(cache.path)
    texts = os.strerror(errno.EISDIR), "EISDIR: ", "not a regular file"
    cache.wait_for_line(rf"(?i): (?:{'|'.join(texts)}).*")
    router = Router(cache)
    router.ask_all()
    router.expect_answer(1, FEW)
    os.rmdir(cache.path)
    cache.replace(content(2, changed(FEW)))
    cache.wait_for_serial(2)
    router.expect_notify(2)
    router.close()
    cache.wait_for_resources(first, 0)


# Scenes without injected faults.
FAULTLESS = {STARVED: play_starved, SILENT: play_silent, FOLDER: play_folder}


def scene_of(name):
    """Returns the faults of a name, the data, and the function that plays them."""
    if name in SESSIONS:
        faults, has_many = SESSIONS[name]
        data = MANY if has_many else FEW
        return faults, data, lambda cache, first: play_session(cache, data, first)
    if name in LEAVINGS:
        faults = LEAVINGS[name]
        return faults, MANY, lambda cache, first: play_leavings(cache, 200, faults, first)
    if name == THOUSAND:
        return "", MANY, lambda cache, first: play_leavings(cache, 1000, "", first)
    if name in FAULTLESS:
        return "", FEW, FAULTLESS[name]
    if name in SLOW:
        return SLOW[name], MOST, play_slow
    return NO_ACCEPT[name], FEW, play_no_accept


def play(command, name, library, folder):
    """Plays a cache with the faults of this name. Returns a text of what was wrong, or None."""
    faults, data, scene = scene_of(name)
    replace_file(f"{folder}/data", content(1, data))
    cache = None
    try:
        cache = Cache(command, faults, library, folder)
        cache.wait_for_serial(1)
        cache.wait_until(lambda: os.path.exists(cache.saved_path), "it saves its data")
        scene(cache, cache.resources())
        if faults and not cache.injected_faults():
            raise Wrong("the fault wasn't injected")
        cache.terminate()
        return None
    except (Wrong, Lost, OSError) as error:
        log = cache.log_text()[-4000:] if cache else ""
        return f"{error!r}\n{log}"
    finally:
        if cache:
            cache.kill()
