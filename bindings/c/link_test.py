#!/usr/bin/env python3
"""Runs `link` beside caches on the loopback interface that behave or don't.

usage: link_test.py PROGRAM [TEST..]

Without names all tests are run. Units, caches and lines are those of client_test.py. Quiet but for
a line if all is well.
"""
import resource
import sys

sys.dont_write_bytecode = True

from client_test import (PAYLOADS, Run, expect, notify, prefix, received, report, reset_query,
                         response, sequence, serial_query, unit, end)

LOADED = "session 4660 serial {} version 2"


def end_of(run, peer):
    """Waits until the program has taken all that was sent: it answers a notify by a query."""
    peer.sendall(notify(4294967295))
    received(peer)
    run.process.terminate()
    peer.close()


def followed(script):
    """Runs the program with a cache that plays this script; returns its output and log."""
    run = Run(script, ("2",))
    return run.lines, run.log


def test_following():
    """Notifies, changes, a cache reset, a new session, and changes that are refused."""
    (first, first_line), (second, second_line) = PAYLOADS[:2]
    gone = prefix("10.0.0.0/8", 24, 65551, announce=0)

    def script(run):
        peer = run.asked(reset_query(2))
        peer.sendall(sequence([first], 1) + notify(2))
        expect(peer, serial_query(2, 1))
        peer.sendall(sequence([gone, second], 2) + notify(3))
        expect(peer, serial_query(2, 2))
        peer.sendall(unit(2, 8, 0))
        expect(peer, reset_query(2))
        peer.sendall(sequence([first, second], 3) + notify(4))
        expect(peer, serial_query(2, 3))
        peer.sendall(sequence([first, gone], 4))  # it was announced before
        assert received(peer)[1:4] == b"\x0a\0\7"
        peer.close()
        peer = run.asked(reset_query(2))
        peer.sendall(sequence([second], 5) + notify(6, session=7))
        assert received(peer)[1:4] == b"\x0a\0\0"
        peer.close()
        peer = run.asked(reset_query(2))
        peer.sendall(response(session=7) + first + end(1, session=7) + notify(2, session=7))
        expect(peer, serial_query(2, 1, 7))
        run.process.terminate()
        peer.close()

    lines, log = followed(script)
    assert lines == [f"+ {first_line}", f"+ {second_line}", f"- {first_line}", f"+ {first_line}",
                     f"- {first_line}", f"- {second_line}", f"+ {first_line}"], (lines, log)
    assert log == [LOADED.format(1), LOADED.format(2), LOADED.format(3),
                   "duplicate announcement, at byte 0", LOADED.format(5), "unit of another session",
                   "session 7 serial 1 version 2"], log


def test_lost():
    """After a connection that ends inside an answer, or is reset, all data are asked for again."""
    data = sequence([payload for payload, _ in PAYLOADS])

    def script(run):
        for cut in (8, 30):
            peer = run.asked(reset_query(2))
            peer.sendall(data[:cut])
            peer.close()
        peer = run.asked(reset_query(2))
        for byte in data:
            peer.sendall(bytes([byte]))
        end_of(run, peer)

    lines, log = followed(script)
    assert lines == [f"+ {line}" for _, line in PAYLOADS], (lines, log)
    assert log == ["the cache closed the connection", "unexpected end of input, at byte 28",
                   LOADED.format(5)], log


def test_versions():
    """A cache of version 1 that reports its version, and one that only closes (section 7)."""
    old = response(1) + prefix("10.0.0.0/8", 24, 65551, version=1) + end(7, 1)
    for falls in (report(1, 4), b""):
        def script(run, falls=falls):
            with run.asked(reset_query(2)) as peer:
                peer.sendall(falls)
            peer = run.asked(reset_query(1))
            peer.sendall(old + notify(8, 1))
            expect(peer, serial_query(1, 7))
            run.process.terminate()
            peer.close()

        lines, log = followed(script)
        assert (lines, log) == ([f"+ {PAYLOADS[0][1]}"], ["session 4660 serial 7 version 1"]), log


def test_large():
    """Buffers grow with an answer, and with the changes of the data that it makes."""
    def block(number, announce=1):
        return b"".join(prefix(f"10.{number}.{i // 256}.{i % 256}/32", 32, i, announce=announce)
                        for i in range(4000))

    def script(run):
        peer = run.asked(reset_query(2))
        peer.sendall(response() + block(1) + end(1) + notify(2))
        expect(peer, serial_query(2, 1))
        peer.sendall(response() + block(1, 0) + block(2) + end(2))
        end_of(run, peer)

    lines, log = followed(script)
    plus = [f"+ IPv4 prefix 10.1.{i // 256}.{i % 256}/32-32 AS{i}" for i in range(4000)]
    assert lines[:4000] == plus and len(lines) == 12000, (len(lines), log)
    assert sorted(lines[4000:]) == sorted(
        [f"-{line[1:]}" for line in plus] + [line.replace(" 10.1.", " 10.2.") for line in plus])
    assert log == [LOADED.format(1), LOADED.format(2)], log


def test_no_memory():
    """Without memory for an answer it says so, and connects again: the cache did nothing wrong."""
    block = b"".join(prefix(f"10.{i // 65536}.{i // 256 % 256}.{i % 256}/32", 32, i)
                     for i in range(100_000))

    def script(run):
        peer = run.asked(reset_query(2))
        with open(f"/proc/{run.process.pid}/statm", encoding="ascii") as file:
            pages = int(file.read().split()[0])
        former = resource.prlimit(run.process.pid, resource.RLIMIT_AS)
        resource.prlimit(run.process.pid, resource.RLIMIT_AS,
                         (pages * resource.getpagesize(), former[1]))
        try:
            peer.sendall(response() + block + end(1))
        except ConnectionError:
            pass  # it closed before all was sent
        peer.close()
        peer = run.asked(reset_query(2))
        resource.prlimit(run.process.pid, resource.RLIMIT_AS, former)
        peer.sendall(sequence([PAYLOADS[0][0]]))
        end_of(run, peer)

    lines, log = followed(script)
    assert lines == [f"+ {PAYLOADS[0][1]}"], (lines, log)
    assert log == ["no memory", LOADED.format(5)], log


def test_no_data():
    """A cache without data is not asked again at once, and may send them after a notify."""
    def script(run):
        peer = run.asked(reset_query(2))
        peer.sendall(report(2, 2) + notify(5))
        expect(peer, reset_query(2))
        peer.sendall(sequence([PAYLOADS[0][0]]))
        end_of(run, peer)

    lines, log = followed(script)
    assert lines == [f"+ {PAYLOADS[0][1]}"], (lines, log)
    assert log == ['the cache reports an error: No Data Available, "no"', LOADED.format(5)], log


def main():
    names = sys.argv[2:] or sorted(name for name in globals() if name.startswith("test_"))
    for name in names:
        globals()[name]()
    print(f"link: {len(names)} tests")


if __name__ == "__main__":
    main()
