#!/usr/bin/env python3
"""Tests the cache in C against well-behaved and faulty routers on the loopback interface.

usage: cache_test.py PROGRAM [TEST..]

The program is `cache.c` with `rtr_cache.c`. Without names it runs all tests. Expected values are
computed here. It prints one line if all is well.
"""
import contextlib
import os
import re
import resource
import select
import signal
import socket
import struct
import subprocess
import sys
import tempfile
import threading
import time

PROGRAM = sys.argv[1] if len(sys.argv) > 1 else sys.exit(__doc__)
SESSION = 4660
PATIENCE = 120  # seconds to wait for anything expected
TIMINGS = (3600, 600, 7200)
DATE = r"\d{4}-\d\d-\d\dT\d\d:\d\d:\d\dZ "


# ---- units (RFC 8210 section 5)

def unit(version, kind, field, body=b""):
    return struct.pack(">BBHI", version, kind, field, 8 + len(body)) + body


def prefix(asn, announce=1, version=1):
    """Returns 10.0.0.0/8-24 of an AS."""
    return unit(version, 4, 0, bytes([announce, 8, 24, 0, 10, 0, 0, 0]) + struct.pack(">I", asn))


def end(serial, session=SESSION, version=1, timings=TIMINGS):
    timings = struct.pack(">3I", *timings) if version else b""
    return unit(version, 7, session, struct.pack(">I", serial) + timings)


def data(serial, asns, session=SESSION):
    return b"".join(map(prefix, asns)) + end(serial, session)


def response(content, session=SESSION):
    return unit(1, 3, session) + content


def serial_query(serial, session=SESSION, version=1):
    return unit(version, 1, session, struct.pack(">I", serial))


def notify(serial):
    return unit(1, 0, SESSION, struct.pack(">I", serial))


RESET_QUERY, RESET = unit(1, 2, 0), unit(1, 8, 0)


# ---- a cache, and its routers

class Cache:
    """The program with a file in a temporary folder."""

    def __init__(self, folder, words=(), files=None):
        self.path, self.log = os.path.join(folder, "data"), os.path.join(folder, "log")
        limit = (lambda: resource.setrlimit(resource.RLIMIT_NOFILE, (files, files))) \
            if files else None
        with open(self.log, "w", encoding="utf-8") as log:
            self.process = subprocess.Popen([PROGRAM, self.path, "--listen", "127.0.0.1:0", *words],
                                            stderr=log, preexec_fn=limit)
        found = self.says(r"listening on 127\.0\.0\.1:(\d+)")
        self.port = int(found[1])

    def __enter__(self):
        return self

    def __exit__(self, *_):
        if self.process.poll() is None:
            self.process.send_signal(signal.SIGTERM)
            assert self.process.wait(PATIENCE) == 0

    def lines(self, text):
        """Counts the log lines that match this after their time."""
        with open(self.log, encoding="utf-8") as log:
            return len(re.findall(f"^{DATE}{text}$", log.read(), re.MULTILINE))

    def says(self, text):
        """Waits for a log line that matches this."""
        ends = time.monotonic() + PATIENCE
        while time.monotonic() < ends:
            with open(self.log, encoding="utf-8") as log:
                found = re.search(f"^{DATE}{text}$", log.read(), re.MULTILINE)
            if found:
                return found
            assert self.process.poll() is None, self.process.returncode
            time.sleep(0.02)
        raise AssertionError(text)

    def counts(self, text, count):
        """Waits until at least this many log lines match this."""
        ends = time.monotonic() + PATIENCE
        while self.lines(text) < count:
            assert time.monotonic() < ends, (text, self.lines(text))
            time.sleep(0.02)

    def takes(self, serial, count, session=SESSION):
        """Waits until it serves these data."""
        payloads = "1 payload" if count == 1 else f"{count} payloads"
        self.says(rf"{re.escape(self.path)}: session {session} serial {serial}: {payloads}")

    def seconds(self):
        """Returns the processor time that it has taken."""
        with open(f"/proc/{self.process.pid}/stat", encoding="ascii") as file:
            fields = file.read().rpartition(")")[2].split()
        return (int(fields[11]) + int(fields[12])) / os.sysconf("SC_CLK_TCK")

    def memory(self, field=1):
        """Returns its memory in bytes; by field 0 all that it may use without asking for more."""
        with open(f"/proc/{self.process.pid}/statm", encoding="ascii") as file:
            return int(file.read().split()[field]) * resource.getpagesize()


@contextlib.contextmanager
def started(content, folder=None, **settings):
    """Starts a cache over a file with this content, in a folder or in a temporary one."""
    with contextlib.ExitStack() as stack:
        folder = folder or stack.enter_context(tempfile.TemporaryDirectory())
        put(os.path.join(folder, "data"), content)
        yield stack.enter_context(Cache(folder, **settings))


def put(path, content):
    """Replaces a file."""
    with open(path + ".other", "wb") as file:
        file.write(content)
    os.replace(path + ".other", path)


class Router:
    """A connection to a cache."""

    def __init__(self, cache, size=None):
        self.socket = socket.socket()
        if size:
            self.socket.setsockopt(socket.SOL_SOCKET, socket.SO_RCVBUF, size)
        self.socket.settimeout(PATIENCE)
        self.socket.connect(("127.0.0.1", cache.port))

    def __enter__(self):
        return self

    def __exit__(self, *_):
        self.socket.close()

    def asks(self, query, expected):
        """Sends a query, and expects exactly this answer."""
        self.socket.sendall(query)
        self.gets(expected)

    def gets(self, expected):
        """Expects exactly this."""
        got = b""
        while len(got) < len(expected):
            piece = self.socket.recv(len(expected) - len(got))
            assert piece, (got.hex(), expected[:100].hex())
            got += piece
        assert got == expected, (got[:100].hex(), expected[:100].hex())

    def gets_report(self, version, code):
        """Expects a report of this code, and then the end."""
        head = self.socket.recv(8, socket.MSG_WAITALL)
        assert head[:4] == struct.pack(">BBH", version, 10, code), head.hex()
        self.socket.recv(struct.unpack(">I", head[4:])[0] - 8, socket.MSG_WAITALL)
        self.ends()

    def is_quiet(self, seconds):
        """Reports whether nothing comes for so long."""
        return not select.select([self.socket], [], [], seconds)[0]

    def ends(self):
        """Expects the cache to close the connection."""
        with contextlib.suppress(ConnectionResetError):
            while self.socket.recv(1 << 16):
                pass


# ---- tests

def test_arguments():
    for words in ([], ["--listen", "a:1"], ["a", "b"], ["a", "--listen"], ["a", "--other"],
                  ["--help"], ["a", "--max-clients"], ["a", "--max-clients", "0"],
                  ["a", "--max-clients", "1x"], ["a", "--max-clients", "-1"]):
        done = subprocess.run([PROGRAM, *words], capture_output=True, timeout=PATIENCE, check=False)
        assert done.returncode == 2 and done.stderr.startswith(b"usage: cache "), words
    for where in ("192.0.2.1:3323", "nowhere", "127.0.0.1:no-such-port"):
        done = subprocess.run([PROGRAM, "a", "--listen", where], capture_output=True,
                              timeout=PATIENCE, check=False)
        assert done.returncode == 1 and where.encode() in done.stderr, where


def has_ipv6():
    """Reports whether this machine has an IPv6 loopback address."""
    try:
        with socket.socket(socket.AF_INET6) as trial:
            trial.bind(("::1", 0))
    except OSError:
        return False
    return True


def test_addresses():
    """A name with two addresses: the cache listens at both, and fails if one of them is in use."""
    if not has_ipv6():
        print("!!! cache in C: no IPv6 here: SKIPPED test_addresses")
        return
    with started(data(1, [1]), words=["--listen", ":0"]) as cache:
        cache.takes(1, 1)
        for address, name in (("127.0.0.1", r"0\.0\.0\.0"), ("::1", r"\[::\]")):
            port = int(cache.says(rf"listening on {name}:(\d+)")[1])
            with socket.create_connection((address, port), PATIENCE) as router:
                router.sendall(RESET_QUERY)
                expected = response(data(1, [1]))
                assert router.recv(len(expected), socket.MSG_WAITALL) == expected, address
    with socket.socket(socket.AF_INET6) as taken:
        taken.setsockopt(socket.IPPROTO_IPV6, socket.IPV6_V6ONLY, 1)
        taken.bind(("::", 0))
        taken.listen()
        where = f":{taken.getsockname()[1]}"
        done = subprocess.run([PROGRAM, "a", "--listen", where], capture_output=True,
                              timeout=PATIENCE, check=False)
        assert done.returncode == 1, done
        assert re.search(rb": Address already in use\n$", done.stderr), done.stderr


def test_answers():
    with started(data(1, [1, 2])) as cache:
        cache.takes(1, 2)
        with Router(cache) as router, Router(cache) as other:
            router.asks(RESET_QUERY, response(data(1, [1, 2])))
            router.asks(serial_query(1), response(end(1)))
            other.asks(serial_query(7), RESET)
            put(cache.path, data(2, [2, 3]))
            changes = response(prefix(3) + prefix(1, 0) + end(2))
            for each in (router, other):
                each.gets(notify(2))
            router.asks(serial_query(1), changes)
            other.asks(RESET_QUERY, response(data(2, [2, 3])))
            put(cache.path, data(1, [4], session=5))
            router.ends()
            other.ends()
        cache.takes(1, 1, 5)
        assert cache.lines(r"127\.0\.0\.1:\d+: the data are of a new session") == 2
        with Router(cache) as router:
            router.socket.sendall(unit(1, 3, 0))
            router.gets_report(1, 3)
        cache.says(r"127\.0\.0\.1:\d+: unit is not a query")


def test_half_closed():
    """A router that only reads still gets its answer."""
    with started(data(1, [1, 2])) as cache, Router(cache) as router:
        cache.takes(1, 2)
        router.socket.sendall(RESET_QUERY)
        router.socket.shutdown(socket.SHUT_WR)
        router.gets(response(data(1, [1, 2])))
        router.ends()


def test_refuse():
    with started(data(1, [1]), words=["--refuse"]) as cache, Router(cache) as router:
        cache.takes(1, 1)
        router.socket.sendall(serial_query(7))
        router.gets_report(1, 0)


def test_max_clients():
    with started(data(1, [1]), words=["--max-clients", "1"]) as cache, Router(cache) as router:
        cache.takes(1, 1)
        router.asks(RESET_QUERY, response(data(1, [1])))
        with Router(cache) as other:
            other.gets_report(2, 1)
        router.asks(RESET_QUERY, response(data(1, [1])))


def in_time(play, seconds):
    """Plays a scene that has to end before other deadlines of the cache: it returns when the part
    that has this many seconds began, and ended. A busy machine may be too slow for it once."""
    for _ in range(3):
        begun, ended = play()
        if ended - begun < seconds:
            return
    raise AssertionError(ended - begun)


def test_door():
    """Connections above both limits wait in the system's queue, at no cost, until one leaves: a
    router that closes, or that still reads its report after 10 seconds."""
    in_time(play_door, 6)


def play_door():
    with started(data(1, [1]), words=["--max-clients", "1"]) as cache, \
            contextlib.ExitStack() as stack:
        served = stack.enter_context(Router(cache))
        served.asks(RESET_QUERY, response(data(1, [1])))
        begun = time.monotonic()
        refused = [stack.enter_context(Router(cache)) for _ in range(64)]
        for router in refused:
            router.gets_report(2, 1)
        waiting = [stack.enter_context(Router(cache)) for _ in range(3)]
        before = cache.seconds()
        first_waits, seconds = waiting[0].is_quiet(1), cache.seconds() - before
        refused[0].socket.close()
        waiting[0].gets_report(2, 1)
        second_waits, ended = waiting[1].is_quiet(0.2), time.monotonic()
        if ended - begun < 6:
            assert first_waits and second_waits and seconds < 0.05, seconds
            served.socket.close()
            waiting[1].asks(RESET_QUERY, response(data(1, [1])))
            waiting[2].gets_report(2, 1)
        return begun, ended


def test_door_with_room():
    """64 refused routers that neither read nor close delay no router for which there is room.
    Without room the next one gets its report when the first of them had its 10 seconds."""
    in_time(play_door_with_room, 5)


def play_door_with_room():
    with started(data(1, [1]), words=["--max-clients", "2"]) as cache, \
            contextlib.ExitStack() as stack:
        served = [stack.enter_context(Router(cache)) for _ in range(2)]
        for router in served:
            router.asks(RESET_QUERY, response(data(1, [1])))
        begun = time.monotonic()
        refused = [stack.enter_context(Router(cache)) for _ in range(64)]
        refused[-1].is_quiet(PATIENCE)
        served[0].socket.close()
        router = stack.enter_context(Router(cache))
        router.asks(RESET_QUERY, response(data(1, [1])))
        ended = time.monotonic()
        if ended - begun < 5:
            late = stack.enter_context(Router(cache))
            late.gets_report(2, 1)
            assert 9.5 < time.monotonic() - begun < 30, time.monotonic() - begun
        return begun, ended


def test_pipelining():
    """A router that sends queries without a pause delays neither others nor the end."""
    def sends(router):
        with contextlib.suppress(OSError):
            while True:
                router.socket.sendall(RESET_QUERY * 8192)

    def reads(router):
        with contextlib.suppress(OSError):
            while router.socket.recv(1 << 18):
                pass

    with contextlib.ExitStack() as stack, started(data(1, [1])) as cache:
        cache.takes(1, 1)
        busy = [stack.enter_context(Router(cache)) for _ in range(2)]
        for router in busy:
            router.socket.settimeout(None)
            for call in (sends, reads):
                threading.Thread(target=call, args=(router,), daemon=True).start()
        assert not busy[0].is_quiet(PATIENCE)
        begun = time.monotonic()
        for _ in range(4):
            with Router(cache) as other:
                other.asks(RESET_QUERY, response(data(1, [1])))
        cache.process.send_signal(signal.SIGTERM)
        assert cache.process.wait(PATIENCE) == 0
        assert time.monotonic() - begun < 5, time.monotonic() - begun


def test_many_bytes():
    """Data of more than a huge page are sent from a file in memory, to routers that ask while newer
    data come."""
    count = 130_000
    old, new = data(1, range(count)), data(2, range(1, count + 1))
    with started(old) as cache, Router(cache, 4096) as slow, Router(cache) as router:
        cache.takes(1, count)
        slow.socket.sendall(RESET_QUERY)
        router.asks(RESET_QUERY, response(old))
        put(cache.path, new)
        cache.takes(2, count)
        router.gets(notify(2))
        router.asks(RESET_QUERY, response(new))
        slow.gets(response(old))
        version_0 = b"".join(prefix(asn, version=0) for asn in range(1, count + 1))
        with Router(cache) as lower:
            lower.asks(unit(0, 2, 0), unit(0, 3, SESSION) + version_0 + end(2, version=0))


def test_file():
    """A file that is missing or damaged, has no later serial number, or has the same size and time
    as before."""
    with tempfile.TemporaryDirectory() as folder, Cache(folder) as cache:
        cache.says(".*: No such file or directory")
        with Router(cache) as router:
            router.socket.sendall(RESET_QUERY)
            assert router.socket.recv(8)[:4] == struct.pack(">BBH", 1, 10, 2)
        put(cache.path, data(1, [1])[:-1])
        cache.says(".*: unexpected end of input, at byte 20")
        put(cache.path, data(1, [1]))
        cache.takes(1, 1)
        put(cache.path, data(1, [2]))
        cache.says(".*: the serial number isn't later than that of the present data: new 1, "
                   "present 1")
        put(cache.path, prefix(1) + prefix(2, 0) + end(2))
        cache.says(".*: withdrawal of an unknown record, at byte 20")
        put(cache.path, data(2, [1])[:-1] + b"\1")
        cache.takes(2, 1)
        put(cache.path, data(2, [1]))
        cache.says(".*: only the times differ from those of the present data")
        before = os.stat(cache.path)
        with open(cache.path + ".other", "wb") as file:
            file.write(data(3, [1]))
        os.utime(cache.path + ".other", ns=(before.st_atime_ns, before.st_mtime_ns))
        os.replace(cache.path + ".other", cache.path)
        cache.takes(3, 1)
        cache.process.send_signal(signal.SIGSTOP)  # the file changes in place, and its times stay
        with open(cache.path, "r+b") as file:
            file.write(data(4, [1]))
        os.utime(cache.path, ns=(before.st_atime_ns, before.st_mtime_ns))
        cache.process.send_signal(signal.SIGCONT)
        cache.takes(4, 1)
        assert cache.lines(".*: No such file or directory") == 1


def test_long_file():
    """A file that is too long is logged, and closed."""
    with started(data(1, [1])) as cache:
        cache.takes(1, 1)
        descriptors = f"/proc/{cache.process.pid}/fd"
        before = len(os.listdir(descriptors))
        os.truncate(cache.path, (1 << 28) + 1)
        cache.says(".*: more than 268435456 bytes")
        assert len(os.listdir(descriptors)) == before


def test_cut_answer():
    """An answer in a recording that the next one cuts off is left out, and the log says so."""
    left_out = ".*: left out: an answer without an end of data"
    with started(response(prefix(1)) + response(data(1, [2]))) as cache:
        cache.takes(1, 1)
        cache.says(left_out)
        with Router(cache) as router:
            router.asks(RESET_QUERY, response(data(1, [2])))
        put(cache.path, data(2, [1, 2]))
        cache.takes(2, 2)
        assert cache.lines(left_out) == 1


def test_serial_zero():
    """Only serial number 0 is logged with a warning; its data are served."""
    warning = r".*: serial number 0: a router that lost its first answer may ask with it, and .*"
    with started(data(0, [1, 2])) as cache:
        cache.takes(0, 2)
        cache.says(warning)
        put(cache.path, data(1, [1]))
        cache.takes(1, 1)
        assert cache.lines(warning) == 1


def test_timings():
    """Timings that RFC 8210 section 6 doesn't allow a cache are refused; the log names the rule."""
    with started(data(1, [1, 2])) as cache:
        cache.takes(1, 2)
        for timings, text in [((0, 600, 7200), "the refresh time has to be 1 to 86400 seconds"),
                              ((60, 600, 600),
                               "the expire time has to be longer than the retry time")]:
            put(cache.path, prefix(1) + end(2, timings=timings))
            cache.says(rf"{re.escape(cache.path)}: {text}")
        with Router(cache) as router:
            router.asks(RESET_QUERY, response(data(1, [1, 2])))


def test_restart():
    """A restarted cache sends changes since old data. It ends if its saved file is damaged or
    unreadable: else it could serve other data under a serial number that a router knows."""
    with tempfile.TemporaryDirectory() as folder:
        path = os.path.join(folder, "data")
        put(path, data(1, [1]))
        with Cache(folder) as cache:
            cache.takes(1, 1)
            put(path, data(2, [1, 2]))
            cache.takes(2, 2)
        put(path, data(3, [2, 3]))
        with Cache(folder) as cache, Router(cache) as router:
            cache.takes(3, 2)
            router.asks(serial_query(1), response(prefix(2) + prefix(3) + prefix(1, 0) + end(3)))
            router.asks(serial_query(2), response(prefix(3) + prefix(1, 0) + end(3)))
        with open(path + ".kept", "r+b") as file:
            file.truncate(os.path.getsize(path + ".kept") - 1)
        assert re.search(r"\.kept: the saved file is damaged: .*$", refused_start(path))
        os.remove(path + ".kept")
        os.mkdir(path + ".kept")
        assert re.search(r"\.kept: Is a directory$", refused_start(path))


def refused_start(path):
    """Starts a cache that has to exit with status 1, and returns what it logged."""
    done = subprocess.run([PROGRAM, path, "--listen", "127.0.0.1:0"], capture_output=True,
                          timeout=PATIENCE, check=False, text=True)
    assert done.returncode == 1, done
    return done.stderr.rstrip()


def test_failed_saves():
    """Data that can't be saved aren't served; saving is retried, for the newest data and at the
    end, and leaves no other file."""
    with tempfile.TemporaryDirectory() as folder, started(data(1, [1]), folder=folder) as cache, \
            Router(cache) as router:
        cache.takes(1, 1)
        router.asks(RESET_QUERY, response(data(1, [1])))
        os.mkdir(cache.path + ".kept.new")
        put(cache.path, data(2, [1, 2]))
        failed = r".*\.kept: Is a directory: .*; trying again in {} seconds?"
        cache.says(failed.format(1))
        cache.says(failed.format(2))
        router.asks(serial_query(1), response(end(1)))
        put(cache.path, data(2, [3]))  # other data of the serial number, which no router has
        cache.says(failed.format(4))
        os.rmdir(cache.path + ".kept.new")
        put(cache.path, data(3, [4]))
        cache.takes(3, 1)
        router.gets(notify(3))
        router.asks(serial_query(1), response(prefix(4) + prefix(1, 0) + end(3)))
        router.asks(serial_query(2), RESET)
        assert sorted(os.listdir(folder)) == ["data", "data.kept", "log"]
        os.mkdir(cache.path + ".kept.new")
        put(cache.path, data(4, [5]))
        cache.counts(failed.format(1), 2)
        os.rmdir(cache.path + ".kept.new")
        cache.process.send_signal(signal.SIGTERM)
        assert cache.process.wait(PATIENCE) == 0
        cache.takes(4, 1)
        with Cache(folder) as after, Router(after) as router:
            router.asks(serial_query(3), response(prefix(5) + prefix(4, 0) + end(4)))


def test_sessions():
    """A session that the cache left is refused, before and after a restart."""
    with tempfile.TemporaryDirectory() as folder:
        path = os.path.join(folder, "data")
        put(path, data(3, [1]))
        with Cache(folder) as cache:
            cache.takes(3, 1)
            put(path, data(1, [2], session=5))
            cache.takes(1, 1, 5)
            put(path, data(3, [4]))
            cache.says(".*: the cache left this session: .*")
        for serial in (3, 4):
            put(path, data(serial, [4]))
            with Cache(folder) as cache, Router(cache) as router:
                cache.says(".*: the cache left this session: .*")
                router.asks(serial_query(3), RESET)
                router.asks(RESET_QUERY, response(data(1, [2], session=5), 5))


def sets(serial):
    """Returns the ASes of the data of a serial number."""
    return set(range(serial, serial + 40))


def test_kills():
    """A router follows a cache that is killed at any time: it always gets changes, and has the data
    of its serial number after each."""
    with tempfile.TemporaryDirectory() as folder:
        path, serial, known, has = os.path.join(folder, "data"), 1, 1, sets(1)
        put(path, data(serial, sets(serial)))
        with Cache(folder) as cache:
            cache.takes(1, 40)
        for turn in range(30):
            with Cache(folder) as cache, Router(cache) as router:
                router.socket.sendall(serial_query(known))
                known, has = follow(router, has)
                assert has == sets(known), (known, has)
                serial += 1
                put(path, data(serial, sets(serial)))
                time.sleep(turn * 0.01)
                cache.process.kill()
                cache.process.wait(PATIENCE)
        with Cache(folder) as cache, Router(cache) as router:
            cache.says(rf"{re.escape(path)}(\.kept)?: session {SESSION} serial {serial}: .*")
            router.socket.sendall(serial_query(known))
            assert follow(router, has) == (serial, sets(serial))


def follow(router, has):
    """Reads an answer with changes of data, and returns its serial number and the data then."""
    has = set(has)
    router.gets(unit(1, 3, SESSION))
    while True:
        head = router.socket.recv(8, socket.MSG_WAITALL)
        body = router.socket.recv(struct.unpack(">I", head[4:])[0] - 8, socket.MSG_WAITALL)
        if head[1] == 7:
            return struct.unpack(">I", body[:4])[0], has
        assert head[1] == 4, head.hex()
        asn = struct.unpack(">I", body[-4:])[0]
        (has.add if body[0] else has.remove)(asn)


def test_descriptors():
    """Without free descriptors the file is still read, and data are saved; routers are accepted
    once there are some."""
    with started(data(1, [1]), files=40) as cache:
        cache.takes(1, 1)
        routers = [Router(cache) for _ in range(60)]
        routers[0].asks(RESET_QUERY, response(data(1, [1])))
        put(cache.path, data(2, [1, 2]))
        routers[0].gets(notify(2))
        routers[0].asks(serial_query(1), response(prefix(2) + end(2)))
        assert cache.lines(".*Too many open files.*") == 0
        for router in routers[:40]:
            router.socket.close()
        routers[59].asks(RESET_QUERY, response(data(2, [1, 2])))
        for router in routers[40:]:
            router.socket.close()


def test_refused_memory():
    """Data that there is no memory for are served once there is some, though their file stays."""
    new = data(2, range(200_000))
    with started(data(1, [1])) as cache:
        cache.takes(1, 1)
        usual = resource.prlimit(cache.process.pid, resource.RLIMIT_AS)
        # The file can be read, but not parsed.
        most = cache.memory(0) + len(new) * 3 // 2
        resource.prlimit(cache.process.pid, resource.RLIMIT_AS, (most, usual[1]))
        put(cache.path, new)
        cache.says(f"{re.escape(cache.path)}: no memory")
        resource.prlimit(cache.process.pid, resource.RLIMIT_AS, usual)
        cache.takes(2, 200_000)


def test_refused_routers():
    """Routers that there is no memory for are closed at once, and leave no descriptor."""
    with started(data(1, [1])) as cache, contextlib.ExitStack() as stack:
        cache.takes(1, 1)
        descriptors = f"/proc/{cache.process.pid}/fd"
        before = len(os.listdir(descriptors))
        usual = resource.prlimit(cache.process.pid, resource.RLIMIT_AS)
        resource.prlimit(cache.process.pid, resource.RLIMIT_AS, (cache.memory(0), usual[1]))
        routers = [stack.enter_context(Router(cache)).socket for _ in range(600)]
        refused, _, _ = select.select(routers, [], [], PATIENCE)
        assert refused and refused[0].recv(1) == b""
        resource.prlimit(cache.process.pid, resource.RLIMIT_AS, usual)
        for router in routers:
            router.close()
        ends = time.monotonic() + PATIENCE
        while len(os.listdir(descriptors)) > before:
            assert time.monotonic() < ends, os.listdir(descriptors)
            time.sleep(0.02)


def test_memory():
    """Routers that don't read don't keep old data in memory."""
    count, table = 100_000, 100_000 * 20
    with started(data(1, range(count))) as cache, contextlib.ExitStack() as stack:
        cache.takes(1, count)
        for serial in range(2, 17):
            slow = [stack.enter_context(Router(cache, 4096)) for _ in range(3)]
            for router in slow:
                router.socket.sendall(RESET_QUERY)
                router.socket.recv(8)
            put(cache.path, data(serial, range(serial, serial + count)))
            cache.takes(serial, count)
        # On a busy machine a router may reach the write limit first, and is then too slow.
        cache.counts(r"127\.0\.0\.1:\d+: the router is too (far behind|slow)", 3 * 13)
        assert cache.memory() < 6_000_000 + 3 * table, cache.memory()


def main():
    names = sys.argv[2:] or sorted(name for name in globals() if name.startswith("test_"))
    for name in names:
        globals()[name]()
    print(f"cache in C: {len(names)} tests")


main()
