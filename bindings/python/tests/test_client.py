"""Clients with scripted caches, on the loopback interface and over pairs of sockets."""
import asyncio
import contextlib
import errno
import gc
import ipaddress
import itertools
import pathlib
import select
import selectors
import shutil
import socket
import ssl
import subprocess
import tempfile
import threading
import unittest
import warnings
from dataclasses import replace
from unittest import mock

from rtr_wire import (AsyncClient, CacheResponse, Cause, Client, Data, DuplicateError, EndOfData,
                      ErrorReport, IPv4Prefix, NoData, PrefixError, ResetQuery, RouterKey,
                      SerialNotify, SerialQuery, SessionError, Settings, UnitTypeError, units)

SOON = Settings(pause=0.01, retry=0.01, response_limit=20)
ONE = IPv4Prefix(ipaddress.IPv4Network("10.0.0.0/8"), max_length=8, asn=1)
TWO = replace(ONE, asn=2)
KEY = RouterKey(bytes(20), 1, b"key")
FIRST, SECOND = Data([ONE, KEY], EndOfData(7, 1)), Data([ONE, TWO], EndOfData(7, 2))
LATEST = Data([TWO], EndOfData(7, 3))


def answer(payloads):
    """Encodes an answer."""
    return bytes(CacheResponse(payloads.session, payloads.version)) + bytes(payloads)


class Cache:
    """A cache with a script for each connection, in order: a script gets a socket and the units
    that come. After the last script no connection is accepted."""

    def __init__(self, *scripts, context=None):
        self.listener = socket.create_server(("127.0.0.1", 0))
        self.listener.settimeout(60)
        self.port = self.listener.getsockname()[1]
        self.scripts, self.context, self.errors = scripts, context, []
        self.thread = threading.Thread(target=self.run)

    def run(self):
        for script in self.scripts:
            try:
                connection, _ = self.listener.accept()
                with connection:
                    connection.settimeout(60)
                    if self.context:
                        connection = self.context.wrap_socket(connection, server_side=True)
                    with connection, connection.makefile("rb") as file:
                        script(connection, units(file))
            except (ConnectionError, ssl.SSLError):
                pass  # the client may have closed already
            except Exception as error:
                self.errors.append(error)
        self.listener.close()

    def __enter__(self):
        self.thread.start()
        return self

    def __exit__(self, *_):
        self.thread.join(60)
        if self.errors:
            raise self.errors[0]


def says(query, *sent):
    """Returns a script that expects this query, and sends these bytes."""
    def script(connection, queries):
        assert next(queries) == query
        for part in sent:
            connection.sendall(part)
    return script


def certified(folder, name="IP:127.0.0.1"):
    """Returns the context of a cache whose certificate has this name, and the file of the
    certificate."""
    if shutil.which("openssl") is None:
        raise unittest.SkipTest("no openssl, which makes a certificate")
    key, certificate = pathlib.Path(folder, "key"), pathlib.Path(folder, "certificate")
    subprocess.run(
        ["openssl", "req", "-x509", "-newkey", "ec", "-pkeyopt", "ec_paramgen_curve:prime256v1",
         "-nodes", "-days", "2", "-subj", "/CN=cache", "-addext", f"subjectAltName={name}",
         "-keyout", key, "-out", certificate], check=True, stderr=subprocess.DEVNULL)
    server = ssl.SSLContext(ssl.PROTOCOL_TLS_SERVER)
    server.load_cert_chain(certificate, key)
    return server, certificate


@contextlib.contextmanager
def unreachable():
    """Reserves a port at which nobody listens: a closed one may be another test's next one."""
    with socket.socket() as bound:
        bound.bind(("127.0.0.1", 0))
        yield bound.getsockname()[1]


def resolved(port, *addresses):
    """Resolves every host name to these addresses."""
    found = [(socket.AF_INET, socket.SOCK_STREAM, 6, "", (address, port)) for address in addresses]
    return mock.patch("socket.getaddrinfo", return_value=found)


@contextlib.contextmanager
def closes_all(test):
    """Checks that no open socket is garbage-collected."""
    with warnings.catch_warnings(record=True) as caught:
        warnings.simplefilter("always", ResourceWarning)
        yield
        gc.collect()
    test.assertEqual([str(warning.message) for warning in caught], [])


def both(*scripts):
    """Returns a script that runs several scripts, one after the other."""
    def script(connection, queries):
        for script in scripts:
            script(connection, queries)
    return script


def waits(connection, queries):
    """Plays a cache that waits until the client closes."""
    assert next(queries, None) is None


def patient(callback=None):
    """Returns a callback that counts failures, and ends a client that has too many."""
    count = [0]

    def failed(error):
        count[0] += 1
        if count[0] > 20:
            raise error
        if callback is not None:
            callback(error)
    return failed


def is_silent(connection, queries):
    """Plays a cache that ignores all queries."""
    for _ in queries:
        pass


RESET = ResetQuery(1)
FOLLOWS = both(says(RESET, answer(FIRST), bytes(SerialNotify(7, 2))),
               says(SerialQuery(7, 1), bytes(CacheResponse(7)), bytes(FIRST.delta(SECOND))), waits)
ASKED = both(says(RESET, answer(FIRST)),
             says(SerialQuery(7, 1), bytes(CacheResponse(7)), bytes(FIRST.delta(SECOND))),
             says(SerialQuery(7, 2), bytes(CacheResponse(7)), bytes(SECOND.delta(LATEST))), waits)


class Simulated:
    """A time that passes only while a client waits, and both ends of its connection to a cache. The
    cache sends a byte every 0.3 seconds of it."""

    PAUSE, LONGEST = 0.3, 60

    def __init__(self):
        self.now, self.sends_at = 0.0, self.PAUSE
        self.client, self.cache = socket.socketpair()

    def wait(self, seconds):
        """Lets time pass, until the cache sends at the latest."""
        assert seconds is not None and self.now < self.LONGEST, "it waits too long"
        if self.now + seconds < self.sends_at:
            self.now += seconds
        else:
            self.now, self.sends_at = self.sends_at, self.sends_at + self.PAUSE
            self.cache.sendall(b"m")

    def is_ready(self):
        return bool(select.select([self.client], [], [], 0)[0])

    def recv(self, most):
        if not self.is_ready():
            self.wait(self.client.gettimeout())
        if not self.is_ready():
            raise socket.timeout
        return self.client.recv(most)

    def __getattr__(self, name):
        return getattr(self.client, name)


class SimulatedSelector(selectors.SelectSelector):
    """Waits in simulated time."""

    def __init__(self, simulated):
        super().__init__()
        self.simulated = simulated

    def select(self, timeout=None):
        ready = super().select(0)
        if ready or timeout == 0:
            return ready
        self.simulated.wait(timeout)
        return super().select(0)


class Following:
    """Tests of both clients: `updates` collects this many updates, `fetch` asks once."""

    def test_fetch(self):
        with Cache(says(RESET, answer(FIRST)), says(RESET, answer(SECOND))) as cache:
            self.assertEqual(self.fetch(cache), FIRST)
            self.assertEqual(self.fetch(cache), SECOND)

    def test_following(self):
        """After a notify it asks for the changes."""
        with Cache(FOLLOWS) as cache:
            first, second = self.updates(cache, 2)
        self.assertEqual((first.data, set(first.changes)), (FIRST, {ONE, KEY}))
        self.assertEqual((second.data, set(second.changes)),
                         (SECOND, {TWO, replace(KEY, announce=False)}))

    def test_versions(self):
        """It falls back to the cache's version, and withdraws what that version can't carry."""
        old = Data([replace(ONE, version=0)], EndOfData(7, 5, version=0))
        report = bytes(ErrorReport(4, enclosed=bytes(RESET), text=b"0 only", version=0))
        with Cache(says(RESET, report), says(ResetQuery(0), answer(old))) as cache:
            self.assertEqual(self.fetch(cache), old)

    def test_cut(self):
        """An incomplete answer yields no update; the next connection gets a whole one."""
        data = Data([replace(ONE, version=0)], EndOfData(7, 5, version=0))
        whole, query = answer(data), ResetQuery(0)
        for end in (0, 7, 8, 9, 27, 28, len(whole) - 1):
            failures = []
            with Cache(says(query, whole[:end]), says(query, whole)) as cache:
                (update,) = self.updates(cache, 1, failures.append, replace(SOON, version=0))
            self.assertEqual(update.data, data)
            self.assertEqual(len(failures), 1, failures)

    def test_reports(self):
        """After a refused unit it sends the report that is owed, and nothing after it, and raises
        the fault."""
        twice = bytes(CacheResponse(7)) + bytes(ONE) * 2 + bytes(FIRST.end)
        broken = bytes(ONE)[:10] + b"\7" + bytes(ONE)[11:]
        for sent, refused, code, about in (
                (bytes(CacheResponse(7)) + broken, PrefixError, 0, broken),
                (twice, DuplicateError, 7, bytes(ONE)),
                (b"\1\5\0\0\0\0\0\10", UnitTypeError, 5, b"\1\5\0\0\0\0\0\10"),
                (bytes(ONE), SessionError, 5, bytes(ONE))):
            reports = []

            def script(connection, queries):
                says(RESET, sent)(connection, queries)
                reports.extend(queries)

            with Cache(script) as cache, self.assertRaises(refused) as caught:
                self.fetch(cache, replace(SOON, report_limit=3600))
            self.assertEqual([(report.code, report.enclosed) for report in reports],
                             [(code, about)])
            self.assertEqual((caught.exception.code, caught.exception.unit), (code, about))
            self.assertGreater(len(str(caught.exception)), 5)

    def test_floods(self):
        """A cache that floods the connection after a report doesn't keep it for the time of a
        report."""
        most, sent = 1 << 26, [0]  # more than the system buffers

        def script(connection, queries):
            says(RESET, b"\1\5\0\0\0\0\0\10")(connection, queries)
            while sent[0] < most:
                sent[0] += connection.send(bytes(1 << 16))

        with Cache(script) as cache, self.assertRaises(UnitTypeError):
            self.fetch(cache, replace(SOON, report_limit=3600))
        self.assertLess(sent[0], most)

    def test_report_time(self):
        """After a report it reads for as long as the limit says, by default two seconds, and then
        closes."""
        for settings, seconds in ((SOON, 2), (replace(SOON, report_limit=5.5), 5.5),
                                  (replace(SOON, report_limit=0.01), 0.01)):
            simulated = Simulated()
            simulated.cache.sendall(b"\1\5\0\0\0\0\0\10")
            with simulated.cache as cache, mock.patch("time.monotonic", lambda: simulated.now), \
                    mock.patch("time.sleep", simulated.wait):
                with self.assertRaises(UnitTypeError):
                    self.fetch_simulated(simulated, settings)
                self.assertAlmostEqual(simulated.now, seconds)
                with cache.makefile("rb") as file:
                    query, report = units(file)
            self.assertEqual((query, report.code), (RESET, 5))

    def test_reported(self):
        report = ErrorReport(1, text=b"it rains")
        with Cache(says(RESET, bytes(report))) as cache, self.assertRaises(SessionError) as caught:
            self.fetch(cache)
        error = caught.exception
        self.assertEqual((error.cause, error.reported), (Cause.REPORTED, report))
        self.assertIn("it rains", str(error))

    def test_no_data(self):
        """A cache without data is asked again on the same connection."""
        failures, none = [], bytes(ErrorReport(2))
        with Cache(both(says(RESET, none), says(RESET, answer(FIRST)))) as cache:
            (update,) = self.updates(cache, 1, failures.append)
        self.assertEqual(([type(error) for error in failures], update.data), ([NoData], FIRST))

    def test_slow(self):
        """A silent cache takes no longer than the time limit."""
        quick = replace(SOON, response_limit=0.05)
        with Cache(both(says(RESET), waits)) as cache, self.assertRaises(SessionError) as caught:
            self.fetch(cache, quick)
        self.assertEqual(caught.exception.cause, Cause.SLOW)

    def test_limits(self):
        size = len(bytes(ONE) + bytes(KEY))
        with Cache(says(RESET, answer(FIRST))) as cache:
            self.assertEqual(self.fetch(cache, replace(SOON, most_units=2, most_bytes=size)), FIRST)
        for small in (replace(SOON, most_units=1), replace(SOON, most_bytes=size - 1)):
            with Cache(says(RESET, answer(FIRST))) as cache:
                with self.assertRaises(SessionError) as caught:
                    self.fetch(cache, small)
            self.assertEqual(caught.exception.cause, Cause.TOO_LONG)

    def test_expiry(self):
        """Data that aren't refreshed are dropped."""
        expires = replace(SOON, expire=0.2, refresh=0.1, response_limit=60)
        with Cache(both(says(RESET, answer(FIRST)), is_silent)) as cache:
            first, second = self.updates(cache, 2, settings=expires)
        self.assertEqual((first.data, second.data), (FIRST, None))
        self.assertEqual({unit.announce for unit in second.changes}, {False})

    def test_no_connection_in_time(self):
        """Connecting that fails at its time limit failed for that, also if a timer ends a little
        early."""
        simulated = Simulated()
        with simulated.cache, simulated.client, \
                mock.patch("time.monotonic", lambda: simulated.now), \
                mock.patch("time.sleep", simulated.wait), self.assertRaises(SessionError) as caught:
            self.fetch_unconnected(simulated, Settings(0, connect_limit=0.2))
        self.assertEqual(caught.exception.cause, Cause.SLOW)

    def test_time_limit(self):
        """It waits for an answer as long as the limit says, and no longer."""
        simulated = Simulated()
        with simulated.cache, mock.patch("time.monotonic", lambda: simulated.now), \
                mock.patch("time.sleep", simulated.wait):
            with self.assertRaises(SessionError) as caught:
                self.fetch_simulated(simulated, replace(SOON, response_limit=0.1))
        self.assertEqual(caught.exception.cause, Cause.SLOW)
        self.assertAlmostEqual(simulated.now, 0.1, delta=0.02)

    def test_refused(self):
        """A refused connection is reported."""
        with unreachable() as port, self.assertRaises(ConnectionRefusedError):
            self.fetch(mock.Mock(port=port))

    def test_told(self):
        """An exception of the callback `failed` ends the loop and the connection."""
        def raises(error):
            raise KeyError(error)

        with Cache(both(says(RESET, bytes(ErrorReport(2))), waits)) as cache:
            with self.assertRaises(KeyError):
                self.updates(cache, 1, raises)

    def test_tls(self):
        """A cache with a certificate for its address, and an untrusted certificate."""
        with tempfile.TemporaryDirectory() as folder:
            server, certificate = certified(folder)
            trusting = ssl.create_default_context(cafile=certificate)
        with Cache(FOLLOWS, context=server) as cache:
            updates = self.updates(cache, 2, context=trusting)
            self.assertEqual([update.data for update in updates], [FIRST, SECOND])
        with Cache(waits, context=server) as cache, self.assertRaises(ssl.SSLError):
            self.fetch(cache, context=ssl.create_default_context())

    def test_common_name(self):
        """A name counts among the certificate's alternative names, and not as its subject's common
        name (RFC 8210 section 9.2)."""
        for name, is_right in (("DNS:cache", True), ("email:cache@cache.example", False)):
            with tempfile.TemporaryDirectory() as folder:
                server, certificate = certified(folder, name)
                trusting = ssl.create_default_context(cafile=certificate)
            with Cache(says(RESET, answer(FIRST)), context=server) as cache, \
                    resolved(cache.port, "127.0.0.1"):
                if is_right:
                    self.assertEqual(self.fetch(cache, context=trusting, host="cache"), FIRST)
                    continue
                with self.assertRaises(ssl.SSLError):
                    self.fetch(cache, context=trusting, host="cache")

    def test_second_address(self):
        """If only one of two addresses of a host name has a cache, that is used, in either order,
        and no socket of the other stays open."""
        here, nobody = "127.0.0.1", "127.0.0.9"
        for order in ((nobody, here), (here, nobody), (nobody, nobody, here)):
            with Cache(says(RESET, answer(FIRST))) as cache, closes_all(self), \
                    resolved(cache.port, *order) as asked:
                self.assertEqual(self.fetch(cache, host="cache.example"), FIRST, order)
            (call,) = asked.call_args_list
            self.assertEqual(call[0][:2], ("cache.example", cache.port))


class Blocking(Following, unittest.TestCase):
    """Client."""

    def test_silent_address(self):
        """An address that accepts a connection, and says nothing to the handshake of TLS, gets its
        share of the time for connecting."""
        with tempfile.TemporaryDirectory() as folder:
            server, certificate = certified(folder, "DNS:cache.example")
            trusting = ssl.create_default_context(cafile=certificate)
        with Cache(says(RESET, answer(FIRST)), context=server) as cache, closes_all(self), \
                socket.create_server(("127.0.0.2", cache.port)) as silent, \
                resolved(cache.port, "127.0.0.2", "127.0.0.1"):
            late = threading.Timer(60, silent.close)  # which ends the handshake
            late.start()
            settings = replace(SOON, connect_limit=4)
            self.assertEqual(self.fetch(cache, settings, trusting, "cache.example"), FIRST)
            self.assertTrue(late.is_alive())
            late.cancel()

    def test_no_address(self):
        """If no address answers, the last error is raised."""
        with closes_all(self), unreachable() as port, resolved(port, "127.0.0.9", "127.0.0.1"), \
                self.assertRaises(ConnectionRefusedError):
            self.fetch(mock.Mock(port=port), host="cache.example")

    def test_shares(self):
        """Each address of a host name gets an equal share of the time that is left, in which the
        handshake of TLS has to end, too."""
        now, shares = [0.0], []

        class Slow:
            def __init__(self, *_):
                pass

            def settimeout(self, seconds):
                shares.append(round(seconds, 3))

            def connect(self, address):
                now[0] += 1
                if address[0] == "127.0.0.9":
                    raise ConnectionRefusedError

            def close(self):
                pass

        nobody, context = "127.0.0.9", mock.Mock()
        context.wrap_socket.side_effect = ssl.SSLError
        client = Client("cache.example", 9, Settings(0, connect_limit=9), ssl=context)
        with mock.patch("socket.socket", Slow), mock.patch("time.monotonic", lambda: now[0]), \
                resolved(9, nobody, nobody, "127.0.0.1"), self.assertRaises(ssl.SSLError):
            client.fetch()
        self.assertEqual(shares, [3, 4, 7, 6])

    def test_connection_timed_out(self):
        """The system ends a connection whose bytes nobody acknowledged: that isn't the end of a
        wait."""
        class TimedOut(socket.socket):
            def recv(self, most):
                raise OSError(errno.ETIMEDOUT, "timed out")

        ours, theirs = socket.socketpair()
        timed_out = TimedOut(fileno=ours.detach())
        with theirs, self.assertRaises(TimeoutError):
            Client(settings=Settings(0), connect=lambda seconds: timed_out).fetch()

    def test_left(self):
        """Leaving a loop closes its connection."""
        with Cache(both(says(RESET, answer(FIRST)), waits)) as cache, closes_all(self):
            client = Client("127.0.0.1", cache.port, SOON)
            updates = iter(client)
            self.assertEqual(next(updates).data, FIRST)
            updates.close()

    def fetch(self, cache, settings=SOON, context=None, host="127.0.0.1"):
        return Client(host, cache.port, settings, ssl=context).fetch()

    def fetch_simulated(self, simulated, settings=SOON):
        return Client(settings=settings, connect=lambda seconds: simulated).fetch()

    def fetch_unconnected(self, simulated, settings):
        def connect(seconds):
            simulated.wait(seconds - 0.005)
            raise socket.timeout

        return Client(settings=settings, connect=connect).fetch()

    def updates(self, cache, count, failed=None, settings=SOON, context=None):
        client = Client("127.0.0.1", cache.port, settings, failed=patient(failed),
                        ssl=context)
        with contextlib.closing(iter(client)) as updates:
            return [next(updates) for _ in range(count)]

    def test_ask_now(self):
        """It asks each time its caller requests it, long before the refresh time."""
        with Cache(ASKED) as cache:
            client = Client("127.0.0.1", cache.port, SOON, failed=patient())
            with contextlib.closing(iter(client)) as updates:
                self.assertEqual(next(updates).data, FIRST)
                threading.Timer(0.1, client.ask_now).start()
                self.assertEqual(next(updates).data, SECOND)
                threading.Timer(0.1, client.ask_now).start()
                self.assertEqual(next(updates).data, LATEST)

    def test_any_stream(self):
        """The connection may be any object with the methods of a socket."""
        ours, theirs = socket.socketpair()
        theirs.sendall(answer(FIRST))
        with theirs:
            self.assertEqual(Client(settings=SOON, connect=lambda seconds: ours).fetch(), FIRST)
            self.assertEqual(theirs.recv(100), bytes(RESET))
            self.assertEqual(theirs.recv(100), b"")

    def test_looks(self):
        """It looks for a request of its caller four times a second (docs/SESSIONS.md)."""
        class Timed:
            def __init__(self, connection):
                self.connection, self.timeouts = connection, []

            def settimeout(self, seconds):
                self.timeouts.append(seconds)
                self.connection.settimeout(seconds)

            def __getattr__(self, name):
                return getattr(self.connection, name)

        ours, theirs = socket.socketpair()
        theirs.sendall(answer(FIRST))
        timed = Timed(ours)
        with theirs:
            self.assertEqual(Client(settings=SOON, connect=lambda seconds: timed).fetch(), FIRST)
        self.assertLessEqual(max(timed.timeouts), 0.25)

    def test_faults(self):
        """A socket that sends a byte at a time, and isn't always ready, sends the whole query and
        the whole report."""
        class Slow:
            def __init__(self, connection):
                self.connection, self.calls = connection, 0
                self.failures = itertools.cycle(
                    (BlockingIOError, ssl.SSLWantReadError, ssl.SSLWantWriteError))

            def send(self, data):
                self.calls += 1
                if self.calls % 2:
                    raise next(self.failures)
                return self.connection.send(data[:1])

            def recv(self, most):
                self.calls += 1
                if self.calls % 3:
                    raise next(self.failures)
                return self.connection.recv(min(most, 5))

            def __getattr__(self, name):
                return getattr(self.connection, name)

        ours, theirs = socket.socketpair()
        broken = bytes(ONE)[:10] + b"\7" + bytes(ONE)[11:]
        theirs.sendall(bytes(CacheResponse(7)) + broken)
        with theirs, theirs.makefile("rb") as file:
            with self.assertRaises(PrefixError) as caught:
                Client(settings=SOON, connect=lambda seconds: Slow(ours)).fetch()
            self.assertEqual(caught.exception.offset, 8)
            query, report = units(file)
        self.assertEqual((query, report.code, report.enclosed), (RESET, 0, broken))

    def test_no_memory(self):
        """Without memory to read, it reports that, and reconnects; but after the first loss at once,
        in a lower version, which is no failure."""
        class Failing(socket.socket):
            def recv(self, most):
                raise MemoryError

        def connect(seconds):
            ours, theirs = socket.socketpair()
            theirs.sendall(answer(FIRST))
            ends.append(theirs)
            return Failing(fileno=ours.detach()) if len(ends) < 3 else ours

        ends, failures = [], []
        client = Client(settings=SOON, connect=connect, failed=failures.append)
        with closes_all(self), contextlib.closing(iter(client)) as updates:
            self.assertEqual(next(updates).data, FIRST)
        self.assertEqual([repr(error) for error in failures], ["MemoryError('no memory')"])
        for end in ends:
            end.close()


class ForAsyncio(Following, unittest.TestCase):
    """AsyncClient."""

    def fetch(self, cache, settings=SOON, context=None, host="127.0.0.1"):
        client = AsyncClient(host, cache.port, settings, ssl=context)
        return asyncio.run(client.fetch())

    def fetch_unconnected(self, simulated, settings):
        async def connect():
            await asyncio.sleep(0.195)
            raise ConnectionAbortedError

        return self.fetch_by(simulated, settings, connect)

    def fetch_simulated(self, simulated, settings=SOON):
        return self.fetch_by(simulated, settings,
                             lambda: asyncio.open_connection(sock=simulated.client))

    def fetch_by(self, simulated, settings, connect):
        client = AsyncClient(settings=settings, connect=connect)
        loop = asyncio.SelectorEventLoop(SimulatedSelector(simulated))
        with contextlib.closing(loop):
            return loop.run_until_complete(client.fetch())

    def updates(self, cache, count, failed=None, settings=SOON, context=None):
        async def taken():
            client = AsyncClient("127.0.0.1", cache.port, settings, failed=patient(failed),
                                 ssl=context)
            updates = client.__aiter__()
            try:
                return [await updates.__anext__() for _ in range(count)]
            finally:
                await updates.aclose()
        return asyncio.run(taken())

    def test_no_memory(self):
        """Without memory to read, it reports that, and reconnects."""
        class Failing(asyncio.StreamReader):
            async def read(self, most=-1):
                raise MemoryError

        async def connect():
            reader, writer = await asyncio.open_connection("127.0.0.1", cache.port)
            readers.append(reader)
            return Failing() if len(readers) == 1 else reader, writer

        async def follows():
            client = AsyncClient(settings=replace(SOON, version=0), connect=connect,
                                 failed=failures.append)
            updates = client.__aiter__()
            update = await updates.__anext__()
            await updates.aclose()
            return update

        readers, failures = [], []
        data = Data([replace(ONE, version=0)], EndOfData(7, 5, version=0))
        with Cache(is_silent, says(ResetQuery(0), answer(data))) as cache:
            self.assertEqual(asyncio.run(follows()).data, data)
        self.assertEqual([repr(error) for error in failures], ["MemoryError('no memory')"])

    def test_silent_address(self):
        """While an address doesn't answer, the next one is tried too."""
        with Cache(says(RESET, answer(FIRST))) as cache, \
                contextlib.ExitStack() as open_sockets, resolved(cache.port, "127.0.0.2",
                                                                 "127.0.0.1"):
            listener = socket.create_server(("127.0.0.2", cache.port), backlog=0)
            open_sockets.enter_context(listener)
            for _ in range(4):  # more than the system lets wait for this listener
                waiting = open_sockets.enter_context(socket.socket())
                waiting.setblocking(False)
                waiting.connect_ex(listener.getsockname())
            settings = replace(SOON, connect_limit=60)
            self.assertEqual(self.fetch(cache, settings, host="cache.example"), FIRST)

    def test_cancelled(self):
        """A cancelled task closes its connection."""
        async def follows(port):
            async for _ in AsyncClient("127.0.0.1", port, SOON):
                pass

        asked = threading.Event()

        async def cancelled(port):
            task = asyncio.create_task(follows(port))
            while not asked.is_set():
                await asyncio.sleep(0.01)
            task.cancel()
            with self.assertRaises(asyncio.CancelledError):
                await task

        with Cache(both(says(RESET), lambda *_: asked.set(), waits)) as cache:
            asyncio.run(cancelled(cache.port))

    def test_ask_now(self):
        """It asks each time its caller requests it, long before the refresh time."""
        async def follows(port):
            client = AsyncClient("127.0.0.1", port, SOON, failed=patient())
            updates = client.__aiter__()
            try:
                self.assertEqual((await updates.__anext__()).data, FIRST)
                asyncio.get_running_loop().call_later(0.1, client.ask_now)
                self.assertEqual((await updates.__anext__()).data, SECOND)
                asyncio.get_running_loop().call_later(0.1, client.ask_now)
                self.assertEqual((await updates.__anext__()).data, LATEST)
            finally:
                await updates.aclose()

        with Cache(ASKED) as cache:
            asyncio.run(follows(cache.port))

    def test_any_streams(self):
        ours, theirs = socket.socketpair()
        theirs.sendall(answer(FIRST))
        client = AsyncClient(settings=SOON, connect=lambda: asyncio.open_connection(sock=ours))
        with theirs:
            self.assertEqual(asyncio.run(client.fetch()), FIRST)
            self.assertEqual(theirs.recv(100), bytes(RESET))
            self.assertEqual(theirs.recv(100), b"")


def tearDownModule():
    gc.collect()  # open resources cause warnings, and warnings are errors


if __name__ == "__main__":
    unittest.main()
