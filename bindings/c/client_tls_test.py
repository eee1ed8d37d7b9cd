#!/usr/bin/env python3
"""Tests `client_tls` against well-behaved and faulty caches over TLS on the loopback interface.

usage: client_tls_test.py PROGRAM [TEST..]

It makes certificates by `openssl`, and skips all tests with a message if there is none. Without
names it runs all tests. Units and lines are those of client_test.py. It prints one line if all is
well.
"""
import os
import shutil
import socket
import ssl
import struct
import subprocess
import sys
import tempfile
import threading
import time

sys.dont_write_bytecode = True

from client_test import (PATIENCE, PROGRAM, expect, notify, prefix, received, report,
                         reset_query, response, serial_query, unit, end)

(ONE, ONE_LINE), (TWO, TWO_LINE) = [
    (prefix(net, 24, asn, version=1), f"IPv4 prefix {net}-24 AS{asn}")
    for net, asn in (("10.0.0.0/8", 65551), ("192.0.2.0/24", 7))]


def answer(payloads, serial, session=4660):
    return response(1, session) + b"".join(payloads) + end(serial, 1, session)


class Certificates:
    """A CA and its certificates: for 127.0.0.1, for another host, and for the client."""

    def __init__(self, folder):
        self.folder, self.hosts = folder, []  # the host names of handshakes
        self.openssl("req", "-x509", "-newkey", "ec", "-pkeyopt", "ec_paramgen_curve:P-256",
                     "-nodes", "-days", "2", "-subj", "/CN=authority", "-keyout",
                     self.path("ca.key"), "-out", self.path("ca"))
        for name, names in (("cache", "IP:127.0.0.1"), ("other", "DNS:cache.example"),
                            ("client", "DNS:router.example"), ("named", "DNS:localhost"),
                            ("localhost", "email:cache@cache.example")):
            self.sign(name, names)

    def path(self, name):
        return os.path.join(self.folder, name)

    def openssl(self, *words):
        subprocess.run(["openssl", *words], check=True, capture_output=True, cwd=self.folder)

    def sign(self, name, names):
        with open(self.path("names"), "w", encoding="ascii") as file:
            file.write(f"subjectAltName={names}\n")
        key, request, signed = (self.path(f"{name}.{suffix}")
                                for suffix in ("key", "request", "signed"))
        self.openssl("req", "-newkey", "ec", "-pkeyopt", "ec_paramgen_curve:P-256", "-nodes",
                     "-subj", f"/CN={name}", "-keyout", key, "-out", request)
        self.openssl("x509", "-req", "-in", request, "-CA", self.path("ca"), "-CAkey",
                     self.path("ca.key"), "-CAcreateserial", "-days", "2", "-extfile",
                     self.path("names"), "-out", signed)
        with open(self.path(name), "wb") as both:
            for part in (signed, key):
                with open(part, "rb") as file:
                    both.write(file.read())

    def context(self, name):
        """Returns the context of a cache that requires a client certificate."""
        context = ssl.SSLContext(ssl.PROTOCOL_TLS_SERVER)
        context.load_cert_chain(self.path(name))
        context.load_verify_locations(self.path("ca"))
        context.verify_mode = ssl.CERT_REQUIRED
        context.sni_callback = lambda peer, host, _: self.hosts.append(host)
        return context


class Run:
    """A client that ran with caches by preference, which a script plays."""

    def __init__(self, script, caches=1, certificates=("cache", "cache"), host="127.0.0.1"):
        self.contexts = [CERTIFICATES.context(name) for name in certificates]
        self.listeners = [socket.create_server(("127.0.0.1", 0)) for _ in range(caches)]
        addresses = [f"{host}:{listener.getsockname()[1]}" for listener in self.listeners]
        for listener in self.listeners:
            listener.settimeout(PATIENCE)
        self.failed, self.peers = None, []
        thread = threading.Thread(target=self.play, args=(script,))
        self.process = subprocess.Popen(
            [PROGRAM, CERTIFICATES.path("ca"), CERTIFICATES.path("client"), *addresses],
            stdout=subprocess.PIPE, stderr=subprocess.PIPE, text=True)
        thread.start()
        out, log = self.process.communicate(timeout=PATIENCE)
        thread.join(PATIENCE)
        for endpoint in (*self.listeners, *self.peers):
            endpoint.close()
        if self.failed:
            raise AssertionError(f"{self.failed!r}: {out} {log}")
        for number, address in enumerate(addresses):
            log = log.replace(address, str(number))
        self.lines, self.log = out.splitlines(), log.splitlines()

    def play(self, script):
        try:
            script(self)
        except (AssertionError, OSError) as error:
            self.failed = error
        self.process.terminate()

    def accept(self, cache=0):
        """Accepts a connection, which must be closed by TLS (close_notify), too."""
        peer, _ = self.listeners[cache].accept()
        peer.settimeout(PATIENCE)
        return self.contexts[cache].wrap_socket(peer, server_side=True,
                                                suppress_ragged_eofs=False)

    def asked(self, query, cache=0):
        peer = self.accept(cache)
        self.peers.append(peer)  # it stays open until the client has ended
        expect(peer, query)
        return peer


def is_taken(peer, serial, session=4660):
    """Waits until the client has read everything: it answers a notify by a query, whose answer is
    empty."""
    peer.sendall(notify(4294967295, 1, session))
    expect(peer, serial_query(1, serial, session))
    peer.sendall(answer([], serial, session))


def test_following():
    """Changes, a close, a broken connection, and a report: the client connects again."""
    def script(run):
        with run.asked(reset_query(1)) as peer:
            assert peer.getpeercert()["subject"] == ((("commonName", "client"),),)
            for byte in answer([ONE], 1) + notify(2, 1):
                peer.sendall(bytes([byte]))
            expect(peer, serial_query(1, 1))
            peer.sendall(answer([TWO], 2))
            is_taken(peer, 2)
            peer.unwrap()
        with run.asked(serial_query(1, 2)) as peer:
            peer.sendall(answer([prefix("10.0.0.0/8", 24, 65551, 0, 1)], 3))
            is_taken(peer, 3)
        with run.asked(serial_query(1, 3)) as peer:
            peer.sendall(answer([TWO], 4))  # it was announced before
            assert received(peer)[1:4] == b"\x0a\0\7"
            assert received(peer) == b""
        peer = run.asked(reset_query(1))
        peer.sendall(answer([ONE], 5))
        is_taken(peer, 5)

    run = Run(script)
    assert run.lines == ["+ " + ONE_LINE, "+ " + TWO_LINE, "- " + ONE_LINE, "+ " + ONE_LINE,
                         "- " + TWO_LINE], (run.lines, run.log)
    assert run.log[0] == "0: the cache closed the connection" and len(run.log) == 3, run.log
    assert run.log[2] == "0: duplicate announcement, at byte 0", run.log


def test_large():
    """An answer in many TLS records, which come faster than the client reads them."""
    block = [prefix(f"10.1.{i // 256}.{i % 256}/32", 32, i, version=1) for i in range(60000)]

    def script(run):
        peer = run.asked(reset_query(1))
        peer.sendall(answer(block, 1))
        is_taken(peer, 1)

    run = Run(script)
    assert run.lines == [f"+ IPv4 prefix 10.1.{i // 256}.{i % 256}/32-32 AS{i}"
                         for i in range(60000)], (len(run.lines), run.log)


def test_record_in_parts():
    """The last TLS record of an answer doesn't fit the client's buffer of 65,535 bytes: it takes the
    rest of it at once, not when it wakes for another reason."""
    count, rest = 3271, 250  # of prefixes; 107 bytes are left then
    block = [prefix(f"10.1.{i // 256}.{i % 256}/32", 32, i, version=1) for i in range(count + rest)]
    took = []

    def script(run):
        peer = run.asked(reset_query(1))
        peer.sendall(response(1, 4660) + b"".join(block[:count]))
        time.sleep(0.3)  # the client takes these
        begun = time.monotonic()
        peer.sendall(b"".join(block[count:]) + end(1, 1) + notify(2, 1))
        expect(peer, serial_query(1, 1))
        took.append(time.monotonic() - begun)
        peer.sendall(answer([], 2))
        is_taken(peer, 2)

    run = Run(script)
    assert len(run.lines) == count + rest, (len(run.lines), run.log)
    assert took[0] < 30, took  # a poll takes a minute


def test_other_cache():
    """The second cache is used while the first fails, and the first again once it has data."""
    def script(run):
        with run.asked(reset_query(1)) as best:
            best.sendall(report(1, 1))
            assert received(best) == b""
        other = run.asked(reset_query(1), 1)
        other.sendall(answer([ONE], 7, 9))
        is_taken(other, 7, 9)
        best = run.asked(reset_query(1))
        best.sendall(answer([TWO], 3))
        is_taken(best, 3)
        assert received(other) == b""

    run = Run(script, 2)
    assert run.lines == ["+ " + ONE_LINE, "+ " + TWO_LINE, "- " + ONE_LINE], (run.lines, run.log)
    assert run.log == ['0: the cache reports an error: Internal Error, "no"'], run.log


def refused(run):
    """Plays a cache for a client that refuses the best cache, and asks the other."""
    try:
        with run.accept() as best:
            assert received(best) == b""
    except ssl.SSLError:
        pass
    other = run.asked(reset_query(1), 1)
    other.sendall(answer([ONE], 7))
    is_taken(other, 7)


def test_refused():
    """Certificates for another host or of an unknown CA, and a cache without TLS."""
    run = Run(refused, 2, ("other", "cache"))
    assert run.lines == ["+ " + ONE_LINE], (run.lines, run.log)
    assert run.log == ["0: IP address mismatch"], run.log

    def plain(run):
        peer, _ = run.listeners[0].accept()
        with peer:
            peer.recv(1000)
            peer.sendall(unit(1, 0, 0, b"\0\0\0\0"))
        other = run.asked(reset_query(1), 1)
        other.sendall(answer([ONE], 7))
        is_taken(other, 7)

    run = Run(plain, 2)
    assert (run.lines, run.log) == (["+ " + ONE_LINE], ["0: wrong version number"]), run.log


def test_common_name():
    """A name counts among the certificate's alternative names, and not as its subject's common
    name (RFC 8210 section 9.2)."""
    CERTIFICATES.hosts.clear()
    run = Run(refused, 2, ("localhost", "named"), "localhost")
    assert run.lines == ["+ " + ONE_LINE], (run.lines, run.log)
    assert run.log == ["0: hostname mismatch"], run.log
    assert CERTIFICATES.hosts == ["localhost"] * 2, CERTIFICATES.hosts


def test_addresses_not_sent():
    """An address is no host name in a handshake (RFC 6066 section 3)."""
    def script(run):
        cache = run.asked(reset_query(1))
        cache.sendall(answer([ONE], 7))
        is_taken(cache, 7)

    CERTIFICATES.hosts.clear()
    run = Run(script)
    assert run.lines == ["+ " + ONE_LINE], (run.lines, run.log)
    assert CERTIFICATES.hosts == [None], CERTIFICATES.hosts


def test_nobody():
    """If nothing listens, the next cache is asked; wrong arguments and files are reported."""
    def script(run):
        run.listeners[0].close()
        other = run.asked(reset_query(1), 1)
        other.sendall(answer([ONE], 7))
        is_taken(other, 7)

    run = Run(script, 2)
    assert run.lines == ["+ " + ONE_LINE], (run.lines, run.log)
    assert {*run.log} == {"0: Connection refused"}, run.log
    for words, status, error in [((), 2, "usage: "), (("/none", "/none", "a:1"), 1, "/none: "),
                                 ((CERTIFICATES.path("ca"), "/none", "a:1"), 1, "/none: "),
                                 (("/none", "/none", "a"), 2, "usage: "),
                                 (("/none", "/none", ":1"), 2, "usage: "),
                                 (("/none", "/none", "a:1:2"), 2, "usage: ")]:
        done = subprocess.run([PROGRAM, *words], capture_output=True, text=True, timeout=PATIENCE)
        assert done.returncode == status and error in done.stderr, done.stderr


def test_idle():
    """A client with nothing to do sleeps."""
    def script(run):
        peer = run.asked(reset_query(1))
        peer.sendall(answer([ONE], 1))
        is_taken(peer, 1)
        for _ in range(50):
            time.sleep(0.02)
            with open(f"/proc/{run.process.pid}/stat", encoding="ascii") as file:
                states.append(file.read().rpartition(") ")[2][0])

    states = []
    run = Run(script)
    assert run.lines == ["+ " + ONE_LINE] and states.count("S") > 25, (run.lines, states)


def test_reset():
    """A cache that ends TLS inside a unit, which is a fault, and then resets or closes the
    connection, takes no report. The client connects again, though its writes break a pipe."""
    def script(run):
        peer = run.accept()
        expect(peer, reset_query(1))
        peer.sendall(response(1, 4660) + ONE[:7])
        time.sleep(0.3)  # the client takes it
        peer.settimeout(0)
        try:
            peer.unwrap()
        except ssl.SSLError:
            pass  # the client hasn't closed
        if resets:
            peer.setsockopt(socket.SOL_SOCKET, socket.SO_LINGER, struct.pack("ii", 1, 0))
        peer.close()
        peer = run.asked(reset_query(1))
        peer.sendall(answer([ONE], 1))
        is_taken(peer, 1)

    for resets in (True, False):
        run = Run(script)
        assert run.lines == ["+ " + ONE_LINE], (run.lines, run.log)


def main():
    global CERTIFICATES
    if not shutil.which("openssl"):
        print("!!! client_tls_test.py: no openssl here: SKIPPED the client over TLS")
        return
    names = sys.argv[2:] or sorted(name for name in globals() if name.startswith("test_"))
    with tempfile.TemporaryDirectory() as folder:
        CERTIFICATES = Certificates(folder)
        for name in names:
            globals()[name]()
    print(f"client over TLS: {len(names)} tests")


if __name__ == "__main__":
    main()
