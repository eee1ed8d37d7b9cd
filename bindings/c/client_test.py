#!/usr/bin/env python3
"""Tests the client in C against well-behaved and faulty caches on the loopback interface.

usage: client_test.py PROGRAM [TEST..]

The program is `client.c` with `rtr_client.c`, compiled with -DRTR_CLIENT_MOST_BYTES=100000, and for
test_hostile and test_stops with -DRTR_CLIENT_RESPONSE_LIMIT=3000, so that endless answers end soon;
for test_preference_silent with -DPATIENCE=1000, so that the patience ends before the client fails.
Without names it runs all tests. Expected values are computed here. Prints one line if all is well.
"""
import ipaddress
import json
import shutil
import socket
import struct
import subprocess
import sys
import threading
import time
from concurrent.futures import ThreadPoolExecutor

PROGRAM = sys.argv[1] if len(sys.argv) > 1 else sys.exit(__doc__)
SESSION = 4660
PATIENCE = 300  # seconds to wait for anything expected
SLEPT = 5  # seconds: more than the time limit of answers, which is three in these tests
CORRUPT, NO_DATA, NO_VERSION, NO_TYPE, UNKNOWN, DUPLICATE, OTHER_VERSION = 0, 2, 4, 5, 6, 7, 8


# ---- units (RFC 8210 section 5)

def unit(version, kind, field, body=b""):
    return struct.pack(">BBHI", version, kind, field, 8 + len(body)) + body


def prefix(text, max_length, asn, announce=1, version=2):
    net = ipaddress.ip_network(text)
    kind = 4 if net.version == 4 else 6
    head = struct.pack(">BBBB", announce, net.prefixlen, max_length, 0)
    return unit(version, kind, 0, head + net.network_address.packed + struct.pack(">I", asn))


def key(asn, info, announce=1, version=2):
    return unit(version, 9, announce << 8, bytes(range(1, 21)) + struct.pack(">I", asn) + info)


def aspa(customer, providers, announce=1):
    return unit(2, 11, announce << 8, struct.pack(f">{1 + len(providers)}I", customer, *providers))


def end(serial, version=2, session=SESSION):
    timing = struct.pack(">III", 3600, 600, 7200) if version else b""
    return unit(version, 7, session, struct.pack(">I", serial) + timing)


def response(version=2, session=SESSION):
    return unit(version, 3, session)


def reset_query(version):
    return unit(version, 2, 0)


def serial_query(version, serial, session=SESSION):
    return unit(version, 1, session, struct.pack(">I", serial))


def notify(serial, version=2, session=SESSION):
    return unit(version, 0, session, struct.pack(">I", serial))


def report(version, code):
    return unit(version, 10, code, struct.pack(">I", 0) + struct.pack(">I", 2) + b"no")


def received(peer):
    """Returns the next unit, or nothing if the client has closed."""
    got = b""
    while len(got) < 8 or len(got) < struct.unpack(">I", got[4:8])[0]:
        try:
            more = peer.recv((8 if len(got) < 8 else struct.unpack(">I", got[4:8])[0]) - len(got))
        except ConnectionResetError:
            return b""
        if not more:
            return b""
        got += more
    return got


def expect(peer, expected):
    got = received(peer)
    assert got == expected, (got.hex(), expected.hex())


# ---- a simulated cache, and its client

class Run:
    """A client that ran with a cache, played by a script, or with several by preference."""

    def __init__(self, script, words=("--once", "--version", "2"), host="127.0.0.1", caches=1):
        family = socket.AF_INET6 if ":" in host else socket.AF_INET
        self.listeners = [socket.create_server((host, 0), family=family) for _ in range(caches)]
        addresses = []
        for listener in self.listeners:
            listener.settimeout(PATIENCE)
            port = listener.getsockname()[1]
            addresses.append(f"[{host}]:{port}" if ":" in host else f"{host}:{port}")
        named = addresses if caches == 1 else [w for a in addresses for w in ("--prefer", a)]
        self.failed, self.slept = None, 0
        thread = threading.Thread(target=self.play, args=(script,))
        began = time.monotonic()
        self.process = subprocess.Popen([PROGRAM, *named, *words], stdout=subprocess.PIPE,
                                        stderr=subprocess.PIPE)
        thread.start()
        pool = ThreadPoolExecutor(2)  # a client whose output isn't read waits
        reads = [pool.submit(file.read) for file in (self.process.stdout, self.process.stderr)]
        try:
            thread.join(PATIENCE)  # before the process is forgotten, whose times scripts read
            out, err = [read.result(PATIENCE) for read in reads]
            self.process.wait(PATIENCE)
        finally:
            self.process.kill()
            for listener in self.listeners:
                listener.close()
        self.time = time.monotonic() - began
        assert not thread.is_alive()
        if self.failed:
            raise self.failed
        self.status, self.lines = self.process.returncode, out.decode().splitlines()
        log = err.decode()
        for number, address in enumerate(addresses):
            log = log.replace(address + ": ", f"{number}: " if caches > 1 else "")
        self.log = log.splitlines()

    def play(self, script):
        try:
            script(self)
        except (AssertionError, OSError) as error:
            self.failed = error
            self.process.kill()

    def accept(self, cache=0):
        peer, _ = self.listeners[cache].accept()
        peer.settimeout(PATIENCE)
        return peer

    def asked(self, query, cache=0):
        peer = self.accept(cache)
        expect(peer, query)
        return peer

    def ends(self, peer):
        """Waits until the client closes, and notes how many seconds it slept after its query, at
        least: the system knows when both came, and for how long the client ran, or waited for a
        processor, as on a busy machine."""
        received(peer)
        times = peer.getsockopt(socket.IPPROTO_TCP, socket.TCP_INFO, 60)
        *_, since_query, since_close = struct.unpack("=8x13I", times)  # milliseconds
        with open(f"/proc/{self.process.pid}/schedstat", encoding="ascii") as file:
            ran, waited, _ = map(int, file.read().split())  # nanoseconds
        self.slept = (since_query - since_close) / 1e3 - (ran + waited) / 1e9


def answers(data, version=2):
    def script(run):
        with run.asked(reset_query(version)) as peer:
            peer.sendall(data)
            received(peer)
    return script


# Payloads in order, with their lines.
PAYLOADS = [
    (prefix("10.0.0.0/8", 24, 65551), "IPv4 prefix 10.0.0.0/8-24 AS65551"),
    (prefix("192.0.2.0/24", 26, 0), "IPv4 prefix 192.0.2.0/24-26 AS0"),
    (prefix("::/0", 0, 1), "IPv6 prefix ::/0-0 AS1"),
    (prefix("::102:304/128", 128, 1), "IPv6 prefix ::102:304/128-128 AS1"),
    (prefix("::ffff:1.2.3.4/128", 128, 1), "IPv6 prefix ::ffff:1.2.3.4/128-128 AS1"),
    (prefix("1:0:0:2::3:4/128", 128, 1), "IPv6 prefix 1::2:0:0:3:4/128-128 AS1"),
    (prefix("1:0:2:3:4:5:6:7/128", 128, 1), "IPv6 prefix 1:0:2:3:4:5:6:7/128-128 AS1"),
    (prefix("2001:db8::/32", 48, 4294967295), "IPv6 prefix 2001:db8::/32-48 AS4294967295"),
    (key(65551, b""), f"router key {bytes(range(1, 21)).hex()} AS65551 "),
    (key(65551, b"\xfb"), f"router key {bytes(range(1, 21)).hex()} AS65551 -w"),
    (key(65551, b"\xfb\xff\x15\x16"), f"router key {bytes(range(1, 21)).hex()} AS65551 -_8VFg"),
    (aspa(65000, [1, 65551]), "ASPA AS65000 providers AS1 AS65551"),
]


def sequence(payloads, serial=5):
    return response() + b"".join(payloads) + end(serial)


WHOLE = sequence([payload for payload, _ in PAYLOADS])


def test_data():
    plus = ["+ " + line for _, line in PAYLOADS]
    for host in ("127.0.0.1", "::1"):
        try:
            run = Run(answers(WHOLE), host=host)
        except OSError as error:
            print(f"client_test.py: no IPv6 here: {error}")
            continue
        assert (run.status, run.lines) == (0, plus), (run.lines, run.log)
        assert run.log == [f"session {SESSION} serial 5 version 2: {len(PAYLOADS)} payloads"]
    backwards = sequence([payload for payload, _ in reversed(PAYLOADS)])
    assert Run(answers(backwards)).lines == plus
    # A payload that is announced and withdrawn isn't in the data.
    gone = prefix("10.0.0.0/8", 24, 65551, announce=0)
    run = Run(answers(sequence([PAYLOADS[0][0], gone, PAYLOADS[1][0]])))
    assert run.lines == plus[1:2]
    # Without --version a client asks in version 1.
    old = response(1) + prefix("10.0.0.0/8", 24, 65551, version=1) + end(7, 1)
    run = Run(answers(old, 1), ("--once",))
    assert (run.status, run.lines) == (0, plus[:1])


def test_json():
    run = Run(answers(WHOLE), ("--json", "--once", "--version", "2"))
    assert run.status == 0
    got = [json.loads(text) for text in run.lines]
    assert [line["action"] for line in got] == ["announce"] * len(PAYLOADS)
    assert list(got[0].items()) == [
        ("kind", "ipv4_prefix"), ("action", "announce"), ("prefix", "10.0.0.0"),
        ("prefix_length", 8), ("max_length", 24), ("asn", 65551)]
    assert got[7]["prefix"] == "2001:db8::" and got[7]["kind"] == "ipv6_prefix"
    assert list(got[10].items()) == [
        ("kind", "router_key"), ("action", "announce"),
        ("subject_key_identifier", bytes(range(1, 21)).hex()), ("asn", 65551),
        ("subject_public_key_info", "-_8VFg")]
    assert list(got[11].items()) == [
        ("kind", "aspa"), ("action", "announce"), ("customer_asn", 65000),
        ("provider_asns", [1, 65551])]
    assert " " not in "".join(run.lines)


def test_versions():
    """RFC 8210 section 7: by reports, by reports of a lower version, and by closing."""
    data = response(0) + prefix("10.0.0.0/8", 24, 65551, version=0) + end(1, 0)

    def falls(lower):
        def script(run):
            for version in (2, 1):
                with run.asked(reset_query(version)) as peer:
                    if lower is not None:
                        peer.sendall(report(max(version - lower, 0), NO_VERSION))
            answers(data, 0)(run)
        return script

    for lower in (0, 1, 2, None):
        run = Run(falls(lower))
        assert (run.status, len(run.lines)) == (0, 1), run.log

    def refuses(run):
        for version in (2, 1, 0):
            run.asked(reset_query(version)).sendall(report(version, NO_VERSION))

    run = Run(refuses)
    assert (run.status, run.log) == (1, 
        ['the cache reports an error: Unsupported Protocol Version, "no"'])


def refused(bytes_sent, text, code):
    """The client logs the fault, and sends a report with this code, or none."""
    got = []

    def script(run):
        with run.asked(reset_query(2)) as peer:
            try:
                peer.sendall(bytes_sent)
            except OSError:
                pass
            got.append(received(peer))

    run = Run(script)
    assert (run.status, run.lines, run.log) == (1, [], [text]), (bytes_sent.hex(), run.log)
    if code is None:
        assert got == [b""], (text, got[0].hex())
    else:
        kind, field = got[0][1], struct.unpack(">H", got[0][2:4])[0]
        assert (kind, field) == (10, code), (text, got[0].hex())


def refusals():
    added, gone = prefix("10.0.0.0/8", 24, 1), prefix("10.0.0.0/8", 24, 1, announce=0)
    old = prefix("10.0.0.0/8", 24, 1, version=1)
    misplaced = "unit is not allowed here"
    rows = [
        (sequence([added, added]), "duplicate announcement, at byte 20", DUPLICATE),
        (sequence([gone]), "withdrawal of an unknown record, at byte 0", UNKNOWN),
        (sequence([gone, added]), "withdrawal of an unknown record, at byte 0", UNKNOWN),
        (sequence([old]), "unit of another version than the session", OTHER_VERSION),
        (response() + end(1, 3), "unit of another version than the session", OTHER_VERSION),
        (response() + end(1, session=1), "unit of another session", CORRUPT),
        (response(0) + key(1, b"", version=0), "version does not have such payloads", NO_TYPE),
        (unit(3, 3, 1), "answer of a higher version than the query", NO_VERSION),
    ]
    rows += [(sent, misplaced, NO_TYPE) for sent in (
        added, end(1), unit(2, 8, 0), reset_query(2), response() + response(),
        response() + unit(2, 8, 0))]
    at_8 = [
        ("unit type 5 is not allowed here", NO_TYPE, unit(2, 5, 0)),
        ("unit type 255 is not allowed here", NO_TYPE, unit(2, 255, 0)),
        ("unit is longer than 65535 bytes", CORRUPT, b"\2\x09\1\0\xff\xff\xff\xff"),
        ("unit is longer than 65535 bytes", None, b"\2\x0a\0\0\xff\xff\xff\xff"),
        ("invalid unit length", CORRUPT, b"\2\4\0\0\0\0\0\x15"),
        ("invalid unit length", CORRUPT, b"\2\7\0\0\0\0\0\0"),
        ("ASPA unit has no providers", 9, b"\2\x0b\1\0\0\0\0\x0c"),
        ("prefix length too large", CORRUPT, added[:9] + b"\x21" + added[10:]),
    ]
    rows += [(response() + sent, text + ", at byte 8", code) for text, code, sent in at_8]
    reports = ((0, "Corrupt Data"), (1, "Internal Error"), (12, "error code 12"))
    rows += [(report(2, code), f'the cache reports an error: {name}, "no"', None)
             for code, name in reports]
    return rows


def test_refusals():
    with ThreadPoolExecutor(4) as pool:
        list(pool.map(lambda row: refused(*row), refusals()))


def stops(length, how):
    """A cache that closes, resets or stalls after this many bytes gives no data. Only one that
    stalls is waited for, and not for much longer than the time limit."""
    def script(run):
        peer = run.asked(reset_query(0))
        peer.sendall(data[:length])
        if how == "stalls":
            run.ends(peer)
        if how == "resets":
            peer.setsockopt(socket.SOL_SOCKET, socket.SO_LINGER, struct.pack("ii", 1, 0))
        peer.close()

    data = response(0) + prefix("10.0.0.0/8", 24, 1, version=0) + end(1, 0)
    run = Run(script, ("--once", "--version", "0"))
    if length == len(data):
        if how != "resets":  # what came before a reset may be lost
            assert (run.status, len(run.lines)) == (0, 1), (length, run.log)
        return
    assert (run.status, run.lines, len(run.log)) == (1, [], 1), (length, run.log)
    assert (run.log == ["the cache is too slow"]) == (how == "stalls"), run.log
    assert run.slept < SLEPT, run.slept


def test_stops():
    rows = [(n, how) for how in ("closes", "resets", "stalls") for n in range(41)]
    with ThreadPoolExecutor(16) as pool:
        list(pool.map(lambda row: stops(*row), rows))


def test_hostile():
    """Single bytes with pauses, and endless units."""
    def send(peer, what):
        many = max(1, (1 << 16) // len(what))  # in few calls, so that the limit of time isn't first
        try:
            for _ in range(20000 // many):
                peer.sendall(what * many)
        except OSError:
            pass

    def slow(run):
        with run.asked(reset_query(2)) as peer:
            try:
                for byte in WHOLE:
                    peer.sendall(bytes([byte]))
                    time.sleep(0.02)
            except OSError:
                pass
            run.ends(peer)

    def flood(first, what):
        def script(run):
            with run.asked(reset_query(2)) as peer:
                peer.sendall(first)
                send(peer, what)
                run.ends(peer)
        return script

    withdrawal = prefix("10.0.0.0/8", 24, 1, announce=0)
    rows = [
        (slow, "the cache is too slow"),
        (flood(b"", notify(1)), "the cache is too slow"),
        (flood(response(), withdrawal), "the answer is too long"),
        (flood(response(), key(1, b"x" * 65503)), "the answer is too long"),
    ]
    for script, text in rows:
        run = Run(script)
        assert (run.status, run.lines, run.log) == (1, [], [text]), run.log
        assert run.slept < SLEPT, (text, run.slept)


def test_following():
    """Notifies, changes, a cache reset, a new session, and changes that are refused."""
    first, second = PAYLOADS[0], PAYLOADS[1]
    gone = prefix("10.0.0.0/8", 24, 65551, announce=0)

    def script(run):
        peer = run.asked(reset_query(2))
        peer.sendall(sequence([first[0]], 1) + notify(2))
        expect(peer, serial_query(2, 1))
        peer.sendall(sequence([gone, second[0]], 2) + notify(3))
        expect(peer, serial_query(2, 2))
        peer.sendall(unit(2, 8, 0))
        expect(peer, reset_query(2))
        peer.sendall(sequence([first[0], second[0]], 3) + notify(4))
        expect(peer, serial_query(2, 3))
        peer.sendall(sequence([first[0], gone], 4))  # it was announced before
        assert received(peer)[1:4] == b"\x0a\0\7"
        peer.close()
        peer = run.asked(reset_query(2))
        peer.sendall(sequence([second[0]], 5) + notify(6, session=7))
        assert received(peer)[1:4] == b"\x0a\0\0"
        peer.close()
        peer = run.asked(reset_query(2))
        peer.sendall(response(session=7) + first[0] + end(1, session=7) + notify(2, session=7))
        expect(peer, serial_query(2, 1, 7))
        run.process.kill()
        peer.close()

    run = Run(script, ("--version", "2"))
    one_line, two_line = first[1], second[1]
    expected = ["+ " + one_line, "+ " + two_line, "- " + one_line, "+ " + one_line,
                "- " + one_line, "- " + two_line, "+ " + one_line]
    assert run.lines == expected, (run.lines, run.log)
    refused_texts = [line for line in run.log if not line.startswith("session ")]
    assert refused_texts == ["duplicate announcement, at byte 0", "unit of another session"]


def run_over_fd(words, play):
    """Runs a client with --fd, whose cache `play` simulates; returns status, output and log."""
    ours, theirs = socket.socketpair()
    with ours, theirs:
        ours.settimeout(PATIENCE)
        client = subprocess.Popen([PROGRAM, "--fd", str(theirs.fileno()), *words],
                                  pass_fds=[theirs.fileno()], stdout=subprocess.PIPE,
                                  stderr=subprocess.PIPE)
        name = f"descriptor:{theirs.fileno()}: "
        theirs.close()
        play(ours)
        ours.close()
        out, err = client.communicate(timeout=PATIENCE)
    return client.returncode, out.decode().splitlines(), err.decode().replace(name, "").splitlines()


def test_descriptor():
    """The connection of --fd is the only one: the client exits when it closes."""
    plus = ["+ " + line for _, line in PAYLOADS]
    loaded = f"session {SESSION} serial 5 version 2: {len(PAYLOADS)} payloads"

    def whole(cache):
        expect(cache, reset_query(2))
        cache.sendall(WHOLE)
        if words[0] == "--once":
            received(cache)

    for words, status, log in [(("--once", "--version", "2"), 0, [loaded]),
                               (("--version", "2"), 1,
                                [loaded, "the cache closed the connection"])]:
        assert run_over_fd(words, whole) == (status, plus, log), words

    def lower(cache):
        expect(cache, reset_query(2))
        cache.sendall(report(1, NO_VERSION))
        received(cache)

    assert run_over_fd(("--version", "2"), lower) == (1, [], ["there is no other connection"])

    def broken(cache):
        expect(cache, reset_query(2))
        cache.sendall(sequence([PAYLOADS[0][0], PAYLOADS[0][0]]))
        assert received(cache)[1:4] == b"\x0a\0\7"

    log = ["duplicate announcement, at byte 20"]
    assert run_over_fd(("--version", "2"), broken) == (1, [], log)

    # A descriptor that isn't open, and one that isn't a socket.
    for number, text in [("999", b"Bad file descriptor"), ("0", b"non-socket")]:
        done = subprocess.run([PROGRAM, "--fd", number], stdin=subprocess.DEVNULL,
                              capture_output=True, timeout=PATIENCE)
        assert done.returncode == 1 and text in done.stderr, (number, done.stderr)


def test_socat():
    """As docs/C.md has it; skipped where there is no socat."""
    if not shutil.which("socat"):
        print("!!! client_test.py: no socat here: SKIPPED test_socat")
        return
    with socket.create_server(("127.0.0.1", 0)) as listener:
        listener.settimeout(PATIENCE)
        port = listener.getsockname()[1]
        client = subprocess.Popen(
            ["socat", f"TCP:127.0.0.1:{port}",
             f"EXEC:'{PROGRAM} --fd 3 --version 2',fdin=3,fdout=3"],
            stdout=subprocess.PIPE, stderr=subprocess.PIPE)
        cache, _ = listener.accept()
        with cache:
            cache.settimeout(PATIENCE)
            expect(cache, reset_query(2))
            cache.sendall(WHOLE)
        out, err = client.communicate(timeout=PATIENCE)
    assert out.decode().splitlines() == ["+ " + line for _, line in PAYLOADS], (out, err)


def test_preference():
    """The first of two caches that answers: a switch of caches is one change of data, and a cache's
    old data are replaced by the other's as soon as that has a whole answer."""
    (first, first_line), (second, second_line), (third, third_line) = PAYLOADS[:3]

    def script(run):
        best = run.asked(reset_query(2))
        best.sendall(report(2, NO_DATA))
        other = run.asked(reset_query(2), 1)
        other.sendall(sequence([first, second], 1))
        best.sendall(notify(7))
        expect(best, reset_query(2))
        best.sendall(sequence([second, third], 7))
        assert received(other) == b""  # its connection closes, since the preferred cache has data
        other.close()
        best.close()
        other = run.asked(reset_query(2), 1)  # it is asked again, and its data are used
        other.sendall(sequence([first], 2) + notify(3))
        expect(other, serial_query(2, 2))
        other.sendall(sequence([second], 3) + notify(4))
        expect(other, serial_query(2, 3))  # the client has those data
        best = run.asked(serial_query(2, 7))
        best.sendall(response(session=8))  # its data are dropped, which changes nothing
        assert received(best)[1:4] == b"\x0a\0\0"
        best.close()
        best = run.asked(reset_query(2))
        best.sendall(sequence([first], 9))
        assert received(other) == b""
        best.sendall(notify(10))
        expect(best, serial_query(2, 9))
        run.process.kill()
        for peer in (best, other):
            peer.close()

    run = Run(script, ("--version", "2"), caches=2)
    expected = ["+ " + first_line, "+ " + second_line,  # the data of the second cache
                "+ " + third_line, "- " + first_line,  # the first cache's replace them
                "+ " + first_line, "- " + second_line, "- " + third_line,  # the second cache's
                "+ " + second_line,  # its changes
                "- " + second_line]  # the first cache's
    assert run.lines == expected, (run.lines, run.log)
    failed = [line for line in run.log if not line.startswith("session ")]
    assert failed == ['0: the cache reports an error: No Data Available, "no"',
                      "0: the cache closed the connection", "0: unit of another session"], run.log


def test_preference_silent():
    """After the patience the next cache is asked, before the silent one fails."""
    payload, line = PAYLOADS[0]

    def script(run):
        with run.asked(reset_query(2)), run.asked(reset_query(2), 1) as other:
            other.sendall(sequence([payload], 1))
            received(other)

    run = Run(script, caches=2)
    assert (run.status, run.lines) == (0, ["+ " + line]), run.log
    assert len(run.log) == 1 and run.time >= 1, (run.log, run.time)  # the state of the data


def test_preference_empty():
    """An empty answer is a failure if there is another cache, and data if there is none."""
    payload, line = PAYLOADS[0]

    def empty(run, cache):
        peer = run.asked(reset_query(2), cache)
        peer.sendall(sequence([], 1))
        return peer

    def other_has_some(run):
        with empty(run, 0), run.asked(reset_query(2), 1) as other:
            other.sendall(sequence([payload], 1))
            received(other)

    def none_has(run):
        with empty(run, 0), empty(run, 1) as other:
            received(other)

    def alone(run):
        with empty(run, 0) as peer:
            received(peer)

    run = Run(other_has_some, caches=2)
    assert (run.status, run.lines) == (0, ["+ " + line]), run.log
    run = Run(none_has, caches=2)
    assert (run.status, run.lines) == (1, []), run.log
    assert run.log == [f"{cache}: the cache has no payloads" for cache in range(2)], run.log
    run = Run(alone)
    assert (run.status, run.lines) == (0, []), run.log


def test_preference_once():
    """All data of the first cache that has some; if none has, status 1."""
    first = PAYLOADS[0]

    kept = []  # connections that stay

    def none(run, cache):
        kept.append(run.asked(reset_query(2), cache))
        kept[-1].sendall(report(2, NO_DATA))

    def last_has_some(run):
        none(run, 0)
        none(run, 1)
        with run.asked(reset_query(2), 2) as peer:
            peer.sendall(sequence([first[0]], 1))
            received(peer)

    def none_has(run):
        for cache in range(3):
            none(run, cache)

    run = Run(last_has_some, caches=3)
    assert (run.status, run.lines) == (0, ["+ " + first[1]]), run.log
    run = Run(none_has, caches=3)
    assert (run.status, run.lines) == (1, []), run.log
    assert [line[:2] for line in run.log] == ["0:", "1:", "2:"], run.log


def test_unwritten():
    """A client whose lines can't be written exits with status 1, and says why."""
    with socket.create_server(("127.0.0.1", 0)) as listener, open("/dev/full", "wb") as full:
        listener.settimeout(PATIENCE)
        client = subprocess.Popen([PROGRAM, f"127.0.0.1:{listener.getsockname()[1]}"], stdout=full,
                                  stderr=subprocess.PIPE)
        with listener.accept()[0] as peer:
            peer.sendall(response(1) + prefix("10.0.0.0/8", 24, 65551, version=1) + end(5, 1))
            _, log = client.communicate(timeout=PATIENCE)
    assert (client.returncode, log) == (1, b"standard output: No space left on device\n"), log


def test_arguments():
    bad = [["--fd"], ["--fd", "x"], ["--fd", "-1"], ["--fd", ""], ["--fd", "3", "a:1"],
           ["a:1", "--fd", "3"], ["--fd", "3", "--fd", "4"], ["--fd", "9999999999"],
           ["--fd", "3", "--prefer", "a:1"], ["--prefer", "a:1", "--fd", "3"]]
    bad += [[], ["--once"], ["a"], ["a:1", "b:2"], ["a:1", "--version"], ["a:1", "--version", "3"],
           ["--version", "a:1"], ["a:1", "--other"], ["--help"], ["--prefer"], ["--prefer", "a"],
           ["--prefer", "a:1", "b:2"], ["a:1", "--prefer", "b:2"], ["--prefer", "a:1"] * 17]
    for words in bad:
        done = subprocess.run([PROGRAM, *words], capture_output=True, timeout=PATIENCE)
        assert done.returncode == 2 and done.stderr.startswith(b"usage: client "), words
    with socket.socket() as bound:  # it doesn't listen, and holds the port
        bound.bind(("127.0.0.1", 0))
        port = bound.getsockname()[1]
        done = subprocess.run([PROGRAM, f"127.0.0.1:{port}", "--once"], capture_output=True,
                              timeout=PATIENCE)
    assert done.returncode == 1 and b"refused" in done.stderr


def main():
    names = sys.argv[2:] or sorted(name for name in globals() if name.startswith("test_"))
    for name in names:
        globals()[name]()
    print(f"client in C: {len(names)} tests")


if __name__ == "__main__":
    main()
