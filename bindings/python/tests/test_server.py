"""Servers with routers over sockets of the loopback interface."""
import asyncio
import contextlib
import errno
import ipaddress
import os
import selectors
import socket
import ssl
import struct
import tempfile
import threading
import tracemalloc
import unittest
from dataclasses import replace
from unittest import mock

from rtr_wire import (AsyncClient, BehindError, CacheReset, CacheResponse, Data, EndOfData,
                      ErrorReport, IPv4Prefix, Reason, ResetQuery, SerialNotify, SerialQuery,
                      Server, ServerClosed, ServerError, ServerLimits, Settings, ShortError,
                      UnitTypeError, units)

from .test_client import certified

SESSION = 4660
LONG = 120  # seconds for what has to happen
HEADER = 8


def prefix(number, version=2):
    """Returns the announcement of a prefix of 24 bits."""
    network = ipaddress.IPv4Network(((10 << 24) + (number << 8), 24))
    return IPv4Prefix(network, max_length=24, asn=64496, version=version)


def data(serial, numbers, session=SESSION):
    """Returns data with the prefixes of these numbers."""
    return Data([prefix(number) for number in numbers], EndOfData(session, serial, version=2))


def many(serial, count):
    """Returns data of many prefixes."""
    packed = b"".join(struct.pack(">BBHIBBBBII", 2, 4, 0, 20, 1, 32, 32, 0, address, 64496)
                      for address in range(10 << 24, (10 << 24) + count))
    return Data.from_bytes(packed + bytes(EndOfData(SESSION, serial, version=2)))


class Router:
    """A connection to a server."""

    def __init__(self, reader, writer, version=2):
        self.reader, self.writer, self.version, self.held = reader, writer, version, b""

    def asks_all(self):
        self.writer.write(bytes(ResetQuery(version=self.version)))

    def asks_after(self, serial, session=SESSION):
        self.writer.write(bytes(SerialQuery(session, serial, version=self.version)))

    async def reads(self):
        """Reads a unit; None at the end."""
        while len(self.held) < (size := max(HEADER, int.from_bytes(self.held[4:HEADER], "big"))):
            came = await asyncio.wait_for(self.reader.read(1 << 16), LONG)
            if not came:
                assert not self.held, self.held
                return None
            self.held += came
        unit, self.held = next(units(self.held[:size])), self.held[size:]
        return unit

    async def answer(self):
        """Reads the units of an answer behind its response, up to the end of data."""
        got = [await self.reads()]
        assert got == [CacheResponse(SESSION, version=self.version)], got
        while not isinstance(got[-1], EndOfData):
            got.append(await self.reads())
        return got[1:]

    async def leaves(self):
        self.writer.close()
        with contextlib.suppress(OSError):
            await self.writer.wait_closed()


def held():
    """Returns how many descriptors and tasks the process has."""
    return len(os.listdir("/proc/self/fd")), len(asyncio.all_tasks())


class Servers(unittest.IsolatedAsyncioTestCase):
    """A server that is served in a task."""

    async def asyncSetUp(self):
        asyncio.get_running_loop().set_debug(False)  # else it logs what is slow
        self.ended, self.tasks, self.routers = [], [], []

    async def asyncTearDown(self):
        for router in self.routers:
            await router.leaves()
        for task in self.tasks:
            task.cancel()
        await asyncio.gather(*self.tasks, return_exceptions=True)

    def serves(self, limits=ServerLimits(), **more):
        """Starts a server, and returns it."""
        server = Server(limits, ended=lambda *ended: self.ended.append(ended))
        listener = socket.create_server(("127.0.0.1", 0))
        self.port = listener.getsockname()[1]
        self.tasks.append(asyncio.ensure_future(server.serve(sock=listener, **more)))
        return server

    async def router(self, version=2, buffer=None):
        """Connects a router; the system keeps few bytes for one with a small buffer."""
        connected = socket.socket()
        if buffer:
            connected.setsockopt(socket.SOL_SOCKET, socket.SO_RCVBUF, buffer)
        connected.setblocking(False)
        try:
            await asyncio.get_running_loop().sock_connect(connected, ("127.0.0.1", self.port))
        except OSError:
            connected.close()
            raise
        streams = await asyncio.open_connection(sock=connected, limit=buffer or 1 << 16)
        router = Router(*streams, version)
        self.routers.append(router)
        return router

    async def has(self, condition):
        """Waits until a condition holds."""
        for _ in range(LONG * 100):
            if condition():
                return
            await asyncio.sleep(0.01)
        self.fail("it never happened")

    async def reason(self):
        """Returns why the only connection ended."""
        await self.has(lambda: self.ended)
        (_, error), = self.ended
        return error


class Answers(Servers):
    """What routers get."""

    async def test_data_and_changes(self):
        server = self.serves()
        self.assertTrue(server.update(data(1, [1, 2])))
        self.assertFalse(server.update(data(1, [1, 2])))
        routers = [await self.router(version) for version in (0, 1, 2)]
        for router in routers:
            router.asks_all()
            *payloads, end = await router.answer()
            self.assertEqual(payloads, [prefix(1, router.version), prefix(2, router.version)])
            self.assertEqual((end.serial, end.version), (1, router.version))
        self.assertTrue(server.update(data(2, [2, 3])))
        self.assertEqual(server.end.serial, 2)
        for router in routers:
            notify = SerialNotify(SESSION, 2, version=router.version)
            self.assertEqual(await router.reads(), notify)
            router.asks_after(1)
            *changes, end = await router.answer()
            gone = replace(prefix(1, router.version), announce=False)
            self.assertEqual(changes, [prefix(3, router.version), gone])
            self.assertEqual(end.serial, 2)
            router.asks_after(2)
            self.assertEqual([unit.serial for unit in await router.answer()], [2])

    async def test_data_of_another_thread(self):
        """New data from another thread wake a waiting loop."""
        server = self.serves()
        server.update(data(1, [1]))
        router = await self.router()
        router.asks_all()
        await router.answer()
        updates = threading.Timer(0.2, server.update, [data(2, [1, 2])])
        updates.start()
        self.assertEqual(await router.reads(), SerialNotify(SESSION, 2, version=2))
        updates.join()

    async def test_without_data(self):
        server = self.serves()
        self.assertIsNone(server.end)
        router = await self.router(1)
        router.asks_all()
        report = await router.reads()
        self.assertEqual((report.code, report.enclosed), (2, bytes(ResetQuery(version=1))))
        server.update(data(1, [1]))
        router.asks_after(7, session=9)
        self.assertEqual(await router.reads(), CacheReset(version=1))

    async def test_one_timer(self):
        """A timer whose time has changed is cancelled, so that a connection has one."""
        loop, timers = asyncio.get_running_loop(), []
        later = loop.call_later

        def sets(*words):
            timers.append(later(*words))
            return timers[-1]

        server = self.serves()
        server.update(data(1, [1]))
        with mock.patch.object(loop, "call_later", sets):
            router = await self.router()
            for _ in range(20):
                router.asks_all()
                await router.answer()
            left = [timer for timer in timers if not timer.cancelled()]
        self.assertGreater(len(timers), 20)
        self.assertEqual(len(left), 1)

    async def test_pipelined_queries(self):
        server = self.serves()
        server.update(data(1, [1]))
        server.update(data(2, [1, 2]))
        router = await self.router()
        queries = [ResetQuery(version=2), SerialQuery(SESSION, 1, version=2)] * 150
        for part in (b"".join(map(bytes, queries)), bytes(queries[0])[:5], bytes(queries[0])[5:]):
            router.writer.write(part)
            await router.writer.drain()
            await asyncio.sleep(0.01)
        wanted = [[prefix(1), prefix(2)], [prefix(2)]] * 150 + [[prefix(1), prefix(2)]]
        for payloads in wanted:
            self.assertEqual((await router.answer())[:-1], payloads)

    async def test_many_data(self):
        """A large answer comes whole, and its memory is shared."""
        server = self.serves()
        served = many(1, 100_000)
        server.update(served)
        routers = [await self.router(buffer=1 << 12) for _ in range(20)]
        tracemalloc.start()
        try:
            for router in routers:
                router.asks_all()
            await asyncio.sleep(1)
            _, peak = tracemalloc.get_traced_memory()
        finally:
            tracemalloc.stop()
        self.assertLess(peak, len(bytes(served)))
        for router in routers[::10]:
            form = bytes(CacheResponse(SESSION, version=2)) + bytes(served)
            got = await asyncio.wait_for(router.reader.readexactly(len(form)), LONG)
            self.assertEqual(got, form)

    async def test_a_slow_router_beside_fast_ones(self):
        server = self.serves()
        server.update(many(1, 200_000))
        size = HEADER + len(bytes(many(1, 200_000)))
        slow, *fast = [await self.router(buffer=buffer) for buffer in (1 << 12, None, None)]
        for router in (slow, *fast):
            router.asks_all()
        for router in fast:
            await asyncio.wait_for(router.reader.readexactly(size), LONG)
        server.update(many(2, 200_001))
        for router in fast:
            self.assertEqual(await router.reads(), SerialNotify(SESSION, 2, version=2))
        await asyncio.wait_for(slow.reader.readexactly(size), LONG)
        self.assertEqual(await slow.reads(), SerialNotify(SESSION, 2, version=2))
        self.assertEqual(self.ended, [])

    async def test_other_transports(self):
        """A server listens at all addresses of a host, and several times."""
        server = Server()
        server.update(data(1, [1]))
        with socket.create_server(("127.0.0.1", 0)) as free:
            port = free.getsockname()[1]
        self.tasks.append(asyncio.ensure_future(server.serve("localhost", port)))
        with tempfile.TemporaryDirectory() as folder:
            listener = socket.socket(socket.AF_UNIX)
            listener.bind(os.path.join(folder, "socket"))
            listener.listen()
            self.tasks.append(asyncio.ensure_future(server.serve(sock=listener)))
            for streams in (await self.connected(port),
                            await asyncio.open_unix_connection(os.path.join(folder, "socket"))):
                self.routers.append(Router(*streams))
                self.routers[-1].asks_all()
                self.assertEqual((await self.routers[-1].answer())[0], prefix(1))


    async def test_missing_families(self):
        """A server listens at the addresses that the system has, and at no other ones."""
        server, real_socket = Server(), socket.socket
        server.update(data(1, [1]))
        for missing in (errno.EAFNOSUPPORT, errno.EADDRNOTAVAIL):
            def new_socket(family=-1, *given, lacks=(socket.AF_INET6,), error=missing, **named):
                if family in lacks:
                    raise OSError(error, os.strerror(error))
                return real_socket(family, *given, **named)

            with socket.create_server(("127.0.0.1", 0)) as free:
                port = free.getsockname()[1]
            found = [(socket.AF_INET6, socket.SOCK_STREAM, 6, "", ("::1", port, 0, 0)),
                     (socket.AF_INET, socket.SOCK_STREAM, 6, "", ("127.0.0.1", port))]
            with mock.patch("socket.getaddrinfo", lambda *given, **named: found):
                with mock.patch("socket.socket", new_socket):
                    self.tasks.append(asyncio.ensure_future(server.serve("localhost", port)))
                    streams = await self.connected(port)
                new_socket.__kwdefaults__["lacks"] = (socket.AF_INET6, socket.AF_INET)
                with mock.patch("socket.socket", new_socket), self.assertRaises(OSError) as raised:
                    await server.serve("localhost", port)
            self.assertEqual(raised.exception.errno, missing)
            self.routers.append(Router(*streams))
            self.routers[-1].asks_all()
            self.assertEqual((await self.routers[-1].answer())[0], prefix(1))

    async def test_address_in_use(self):
        """A server that can't listen at one of its addresses listens at none."""
        with socket.create_server(("127.0.0.1", 0)) as free, \
                socket.create_server(("127.0.0.2", 0)) as used:
            first, second = free.getsockname(), used.getsockname()
            free.close()
            found = [(socket.AF_INET, socket.SOCK_STREAM, 6, "", address)
                     for address in (first, second)]
            with mock.patch("socket.getaddrinfo", lambda *given, **named: found):
                with self.assertRaises(OSError) as raised:
                    await Server().serve("localhost", first[1])
        self.assertEqual(raised.exception.errno, errno.EADDRINUSE)
        socket.create_server(first).close()

    async def test_crowd(self):
        """While the event loop is busy hundreds of routers may connect, and are served after it."""
        with socket.create_server(("127.0.0.1", 0)) as free:
            port = free.getsockname()[1]
        server = Server()
        server.update(data(1, [1]))
        self.tasks.append(asyncio.ensure_future(server.serve("127.0.0.1", port)))
        self.routers.append(Router(*await self.connected(port)))
        with contextlib.ExitStack() as crowd:
            for _ in range(300):
                last = socket.create_connection(("127.0.0.1", port), 0.9)
                crowd.enter_context(last)
            last.setblocking(False)
            self.routers.append(Router(*await asyncio.open_connection(sock=last)))
            self.routers[-1].asks_all()
            self.assertEqual((await self.routers[-1].answer())[0], prefix(1))

    async def connected(self, port):
        """Connects as soon as a server listens."""
        while not self.tasks[-1].done():
            with contextlib.suppress(ConnectionRefusedError):
                return await asyncio.open_connection("127.0.0.1", port)
            await asyncio.sleep(0.01)
        return await self.tasks[-1]


class Ends(Servers):
    """Why connections end."""

    async def ends(self, router, kind, text):
        """A router's connection ends without a report, for this reason."""
        while await router.reads() is not None:
            pass
        error = await self.reason()
        self.assertIsInstance(error, kind)
        self.assertEqual(str(error), text)
        return error

    async def test_the_router_closes(self):
        server = self.serves()
        server.update(data(1, [1]))
        router = await self.router()
        router.asks_all()
        await router.answer()
        await router.leaves()
        await self.has(lambda: server._door.served == 0)
        self.assertEqual(self.ended, [])

    async def test_the_router_closes_inside_a_unit(self):
        self.serves()
        router = await self.router()
        router.writer.write(bytes(ResetQuery()) + bytes(ResetQuery())[:3])
        self.assertEqual((await router.reads()).code, 2)
        router.writer.write_eof()
        self.assertEqual((await router.reads()).code, 0)
        error = await self.reason()
        self.assertIsInstance(error, ShortError)
        self.assertEqual(error.offset, 8)

    async def test_a_unit_of_a_cache(self):
        self.serves()
        router = await self.router()
        router.writer.write(bytes(CacheResponse(1)))
        report = await router.reads()
        self.assertEqual((report.code, report.enclosed), (3, bytes(CacheResponse(1))))
        self.assertIsNone(await router.reads())
        await router.leaves()
        error = await self.reason()
        self.assertEqual((error.reason, error.code), (Reason.NO_QUERY, 3))
        self.assertEqual(error.unit, bytes(CacheResponse(1)))
        self.assertEqual(str(error), "unit is not a query")

    async def test_a_refused_unit(self):
        self.serves()
        router = await self.router()
        router.writer.write(bytes.fromhex("01ff000000000008"))
        self.assertEqual((await router.reads()).code, 5)
        await router.leaves()
        self.assertIsInstance(await self.reason(), UnitTypeError)

    async def test_the_router_reports(self):
        self.serves()
        router = await self.router()
        router.writer.write(bytes(ErrorReport(1, text=b"out of \xff memory")))
        error = await self.ends(router, ServerError, "the router reports an error: Internal Error, "
                                                     '"out of ? memory"')
        self.assertEqual(error.reported.code, 1)

    async def test_a_new_session(self):
        server = self.serves()
        server.update(data(1, [1]))
        router = await self.router()
        router.asks_all()
        await router.answer()
        server.change_session()
        server.update(data(1, [2], session=7))
        await self.ends(router, ServerError, "the data are of a new session")

    async def test_a_new_session_in_an_answer(self):
        server = self.serves()
        server.update(many(1, 200_000))
        router = await self.router(buffer=1 << 12)
        router.asks_all()
        await asyncio.sleep(0.2)
        server.change_session()
        server.update(data(1, [2], session=7))
        error = await self.reason()
        self.assertEqual((type(error), error.reason), (ServerError, Reason.NEW_SESSION))

    async def test_too_far_behind(self):
        server = self.serves()
        server.update(many(1, 200_000))
        router = await self.router(buffer=1 << 12)
        router.asks_all()
        await asyncio.sleep(0.2)
        for serial in (2, 3):
            server.update(data(serial, [serial]))
            await asyncio.sleep(0.1)
            self.assertEqual(self.ended, [])
        server.update(data(4, [4]))
        error = await self.reason()
        self.assertIsInstance(error, BehindError)
        self.assertEqual(str(error), "the router is too far behind")

    async def test_no_query(self):
        self.serves(ServerLimits(first_limit=0.2))
        await self.ends(await self.router(), ServerError, "the router is too slow")

    async def test_a_part_of_a_unit(self):
        self.serves(ServerLimits(unit_limit=0.2))
        router = await self.router()
        router.writer.write(b"\1\2")
        await self.ends(router, ServerError, "the router is too slow")

    async def test_a_router_that_does_not_read(self):
        server = self.serves(ServerLimits(write_limit=0.3))
        server.update(many(1, 200_000))
        router = await self.router(buffer=1 << 12)
        router.asks_all()
        error = await self.reason()
        self.assertEqual(str(error), "the router is too slow")

    async def test_a_router_that_does_not_close(self):
        """The connection stays for the router to read the report, but not for longer than that."""
        for limit in LONG, 0.5:
            server = self.serves(ServerLimits(report_limit=limit))
            router = await self.router()
            router.writer.write(bytes(CacheResponse(1)) * 1000)
            self.assertEqual((await router.reads()).code, 3)
            self.assertIsNone(await router.reads())
            if limit == LONG:
                self.assertEqual((server._door.served, self.ended), (1, []))
        await self.has(lambda: server._door.served == 0)
        self.assertEqual((await self.reason()).reason, Reason.NO_QUERY)

    async def test_a_reset(self):
        server = self.serves()
        router = await self.router()
        router.asks_all()
        await router.reads()
        connected = router.writer.get_extra_info("socket")
        connected.setsockopt(socket.SOL_SOCKET, socket.SO_LINGER, struct.pack("ii", 1, 0))
        router.writer.transport.abort()
        self.assertIsInstance(await self.reason(), ConnectionResetError)
        self.assertEqual(server._door.served, 0)

    async def test_a_refused_query(self):
        server = self.serves(ServerLimits(refuses=True))
        server.update(data(9, [1]))
        router = await self.router()
        router.asks_after(1)
        self.assertEqual((await router.reads()).code, 0)
        await router.leaves()
        self.assertEqual(str(await self.reason()), "no data of this session and serial number")

    async def test_no_memory(self):
        server = self.serves()
        server.update(data(1, [1]))
        router = await self.router(1)
        with mock.patch("rtr_wire.serving.form_of", side_effect=MemoryError):
            router.asks_all()
            self.assertIsNone(await router.reads())
        self.assertIsInstance(await self.reason(), MemoryError)


class Doors(Servers):
    """Who is served."""

    async def test_too_many(self):
        server = self.serves(ServerLimits(most_connections=2, most_refused=1))
        server.update(data(1, [1]))
        served = [await self.router() for _ in range(2)]
        for router in served:
            router.asks_all()
            await router.answer()
        refused = await self.router()
        self.assertEqual((await refused.reads()).code, 1)
        waiting = await self.router()
        waiting.asks_all()
        await asyncio.sleep(0.2)
        self.assertEqual((server._door.served, server._door.refused), (2, 1))
        await served[0].leaves()
        await waiting.answer()
        await refused.leaves()
        error = await self.reason()
        self.assertEqual((error.reason, error.code), (Reason.FULL, 1))
        self.assertEqual(str(error), "too many connections")
        await self.has(lambda: server._door.refused == 0)
        self.assertEqual((await (await self.router()).reads()).code, 1)

    async def test_no_spare_descriptor(self):
        self.serves()
        with mock.patch("os.dup", side_effect=OSError(errno.EMFILE, "no descriptors")):
            router = await self.router()
            self.assertEqual((await router.reads()).code, 1)
        router = await self.router()
        router.asks_all()
        self.assertEqual((await router.reads()).code, 2)

    async def test_a_connection_that_breaks_at_once(self):
        """A connection whose options can't be set is closed, told, and not counted any more. Some
        systems refuse them once the router has reset the connection."""
        server = self.serves(ServerLimits(most_connections=1))
        server.update(data(1, [1]))
        with mock.patch("rtr_wire.server._prepared", side_effect=OSError(errno.EINVAL, "reset")):
            self.assertIsNone(await (await self.router()).reads())
            self.assertEqual(str(await self.reason()), "[Errno 22] reset")
        self.assertEqual((server._door.served, server._door.refused), (0, 0))
        router = await self.router()
        router.asks_all()
        await router.answer()

    async def test_a_listener_that_fails(self):
        class Failing(socket.socket):
            """A listener that can't accept, for as many times as it has errors."""
            errors = []

            def accept(self):
                raise self.errors.pop() if self.errors else BlockingIOError

        # A connection that was aborted before it was accepted is no error of the listener.
        for number, left in (errno.EPROTO, 30 - 10), (errno.EMFILE, 0), (errno.ECONNABORTED, 0):
            Failing.errors = [OSError(number, "failed")] * 30
            listener = Failing(socket.AF_INET, socket.SOCK_STREAM)
            listener.bind(("127.0.0.1", 0))
            listener.listen()
            connecting = socket.create_connection(listener.getsockname())
            server = Server()
            task = asyncio.ensure_future(server.serve(sock=listener))
            await self.has(lambda: len(Failing.errors) <= left)
            if left:
                with self.assertRaises(OSError) as caught:
                    await asyncio.wait_for(task, LONG)
                self.assertEqual(caught.exception.errno, number)
            server.close()
            await asyncio.gather(task, return_exceptions=True)
            self.assertEqual((len(Failing.errors), listener.fileno()), (left, -1))
            connecting.close()

    async def test_leavings(self):
        """Two hundred routers that come and leave in different ways leave nothing behind."""
        server = self.serves()
        server.update(many(1, 2_000))
        first = await self.router()
        first.asks_all()
        await first.answer()
        before = held()
        for number in range(200):
            router = await self.router(number % 3)
            if number % 4:
                router.asks_all()
            if number % 4 == 1:
                await router.answer()
            if number % 4 == 2:
                router.writer.transport.abort()
            await router.leaves()
            self.routers.remove(router)
        await self.has(lambda: server._door.served == 1)
        run, = server._runs
        self.assertEqual(len(run._connections), 1)
        await self.has(lambda: held() == before)
        server.update(data(2, [1]))
        self.assertEqual((await first.reads()).serial, 2)

    async def test_close(self):
        server = self.serves()
        server.update(data(1, [1]))
        router = await self.router()
        router.asks_all()
        await router.answer()
        server.close()
        await asyncio.wait_for(self.tasks[0], LONG)
        self.assertIsNone(await router.reads())
        self.assertEqual(str(await self.reason()), "the server is closed")
        with self.assertRaises(ServerClosed):
            server.update(data(2, [1]))
        with self.assertRaises(ServerClosed):
            await server.serve("127.0.0.1")
        listener = socket.create_server(("127.0.0.1", 0))
        with self.assertRaises(ServerClosed):
            await server.serve(sock=listener)
        self.assertEqual(listener.fileno(), -1)
        with self.assertRaises(ConnectionRefusedError):
            await self.router()

    async def test_cancellation(self):
        before = held()
        server = self.serves()
        server.update(many(1, 200_000))
        routers = [await self.router(buffer=1 << 12) for _ in range(3)]
        routers[0].asks_all()
        routers[1].writer.write(bytes(CacheResponse(1)))
        await asyncio.sleep(0.1)
        self.tasks[0].cancel()
        with self.assertRaises(asyncio.CancelledError):
            await self.tasks[0]
        for router in self.routers:
            await router.leaves()
        self.routers.clear()
        await self.has(lambda: held() == before)
        self.assertEqual((server._door.served, server._runs), (0, set()))

    async def test_a_callback_that_raises(self):
        contexts = []
        asyncio.get_running_loop().set_exception_handler(lambda _, what: contexts.append(what))
        server = self.serves(ServerLimits(first_limit=0.1))
        server._ended = mock.Mock(side_effect=ZeroDivisionError)
        router = await self.router()
        self.assertIsNone(await router.reads())
        await self.has(lambda: contexts)
        self.assertIsInstance(contexts[0]["exception"], ZeroDivisionError)

    async def test_an_update_of_another_thread(self):
        server = self.serves()
        server.update(data(1, [1]))
        router = await self.router()
        router.asks_all()
        await router.answer()
        loop = asyncio.get_running_loop()
        await loop.run_in_executor(None, server.update, data(2, [2]))
        self.assertEqual((await router.reads()).serial, 2)


class OverTls(Servers):
    """TLS."""

    async def asyncSetUp(self):
        await super().asyncSetUp()
        folder = tempfile.TemporaryDirectory()
        self.addCleanup(folder.cleanup)
        self.context, certificate = certified(folder.name)
        self.server = self.serves(ssl=self.context)
        self.trusted = ssl.create_default_context(cafile=str(certificate))

    async def test_a_client(self):
        self.server.update(many(1, 50_000))
        client = AsyncClient("127.0.0.1", self.port, Settings(2), ssl=self.trusted)
        updates = client.__aiter__()
        update = await asyncio.wait_for(updates.__anext__(), LONG)
        self.assertEqual(update.data, many(1, 50_000))
        self.server.update(many(2, 50_001))
        update = await asyncio.wait_for(updates.__anext__(), LONG)
        self.assertEqual(update.data, many(2, 50_001))
        await updates.aclose()
        await self.has(lambda: self.server._door.served == 0)

    async def test_a_report(self):
        streams = await asyncio.open_connection("127.0.0.1", self.port, ssl=self.trusted)
        router = Router(*streams, 1)
        self.routers.append(router)
        router.writer.write(bytes(CacheResponse(1)) * 3)
        self.assertEqual((await router.reads()).code, 3)
        self.assertIsNone(await router.reads())
        await router.leaves()
        self.assertEqual((await self.reason()).reason, Reason.NO_QUERY)

    async def test_close_notify(self):
        """After a report TLS is closed, too, by which a router knows that nothing was cut off (RFC
        8446 section 6.1)."""
        def reads():
            with socket.create_connection(("127.0.0.1", self.port), LONG) as connected, \
                    self.trusted.wrap_socket(connected, server_hostname="127.0.0.1",
                                             suppress_ragged_eofs=False) as router:
                router.sendall(bytes(CacheResponse(1)) * 3)
                while router.recv(1 << 16):
                    pass

        await asyncio.get_running_loop().run_in_executor(None, reads)
        self.assertEqual((await self.reason()).reason, Reason.NO_QUERY)

    async def test_a_router_without_tls(self):
        router = await self.router()
        router.asks_all()
        self.assertIsInstance(await self.reason(), ssl.SSLError)

    async def test_a_refused_router_that_stays_in_the_handshake(self):
        """The report waits for bytes of the handshake, not for space to write, which there is: the
        server would try to send without a pause."""
        server = self.serves(ServerLimits(most_connections=0), ssl=self.context)
        silent = await self.router()
        await self.has(lambda: server._door.refused == 1)
        (run,) = server._runs
        (connection,) = run._connections
        self.assertEqual(connection._watched, selectors.EVENT_READ)
        streams = await asyncio.open_connection("127.0.0.1", self.port, ssl=self.trusted)
        self.routers.append(Router(*streams))
        self.assertEqual((await self.routers[-1].reads()).code, 1)
        await silent.leaves()
        await self.has(lambda: server._door.refused == 1)

    async def test_a_router_that_stays_in_the_handshake(self):
        router = await self.router()
        await self.has(lambda: self.server._door.served == 1)
        await router.leaves()
        await self.has(lambda: self.server._door.served == 0)


if __name__ == "__main__":
    unittest.main()
