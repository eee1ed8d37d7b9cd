"""A router without sockets: its data and memory, what it sends, calls out of turn, settings."""
import ipaddress
import os
import pathlib
import platform
import subprocess
import sys
import unittest
from unittest import mock

from rtr_wire import (CacheReset, CacheResponse, Cause, Changes, Close, Connect, Data,
                      DuplicateError, EndOfData, ErrorReport, Failed, IPv4Prefix, NoData,
                      PrefixError, ResetQuery, Router, SerialNotify, SerialQuery, SessionError,
                      Settings, ShortError, UnknownError, Update, _library)
from rtr_wire._rtr import LONGEST_UNIT, TodoKind

SOON = Settings(pause=0.01, retry=0.01)
TIMES = {"refresh": 300, "retry": 60, "expire": 600}


def prefixes(first, count):
    """Returns this many prefixes."""
    return [IPv4Prefix(ipaddress.IPv4Network((number << 8, 24)), max_length=24, asn=64496)
            for number in range(first, first + count)]


def data(serial, *payloads, session=7):
    return Data(payloads, EndOfData(session, serial, **TIMES))


def answer(new):
    """Encodes all data, as a cache sends them."""
    return bytes(CacheResponse(new.session, new.version)) + bytes(new)


def changes(old, new):
    """Encodes the changes of data, as a cache sends them."""
    return bytes(CacheResponse(new.session, new.version)) + bytes(old.delta(new))


ONE, TWO, THREE = prefixes(0xC00002, 3)
FIRST, SECOND, THIRD = data(1, ONE), data(2, ONE, TWO), data(3, THREE)
RESET = bytes(ResetQuery(1))


class Routed(unittest.TestCase):
    """Plays a cache against a router."""

    def setUp(self):
        self.router, self.now = Router(SOON), 0

    def steps(self):
        """Returns the steps until the router waits; connections succeed at once."""
        taken = []
        while (step := self.router.step(self.now)) is not None:
            taken.append(step)
            if isinstance(step, Connect):
                self.router.connected()
            elif isinstance(step, Close):
                self.last = self.router.output
        return taken

    def comes(self, *parts):
        """Receives these bytes, and returns the steps."""
        self.router.received(b"".join(parts))
        return self.steps()

    def sends(self, expected):
        """The output is exactly this; sends it."""
        self.assertEqual(self.router.output, expected)
        self.router.sent(len(expected))

    def loads(self, first=FIRST):
        """The router loads the first data, and returns the update."""
        self.assertEqual(self.steps(), [Connect()])
        self.sends(RESET)
        (update,) = self.comes(answer(first))
        self.assertEqual(update.data, first)
        return update

    def reconnects(self):
        """After the end of a connection the router reconnects, and asks for all data."""
        self.now += 10_000
        self.assertEqual(self.steps(), [Connect()])
        self.sends(RESET)

    def asks(self, serial):
        """The router asks for the changes since this serial number."""
        self.now += 1000
        self.router.asked()
        self.assertEqual(self.steps(), [])
        self.sends(bytes(SerialQuery(7, serial)))


class Values(Routed):
    """Data are immutable: those of an earlier update don't change."""

    def test_kept(self):
        """Data that the caller keeps, even unread, aren't overwritten."""
        size, updates = 3000, [self.loads(data(1, *prefixes(0, 3000)))]
        for serial in range(2, 8):
            self.asks(serial - 1)
            new = data(serial, *prefixes(serial * size, size), *prefixes(0, serial))
            updates += self.comes(changes(updates[-1].data, new))
        for serial, update in enumerate(updates, 1):
            payloads = prefixes(serial * size, size) if serial > 1 else []
            expected = data(serial, *payloads, *prefixes(0, serial if payloads else size))
            self.assertEqual(bytes(update.data), bytes(expected))

    def test_after_others(self):
        """The same after expiry, and after data of another session."""
        first = self.loads()
        self.now += 601_000
        expired = self.steps()[0]
        self.assertIsNone(expired.data)
        self.reconnects()
        (other,) = self.comes(answer(data(9, TWO, session=8)))
        self.assertEqual((first.data, list(first.data)), (FIRST, [ONE]))
        self.assertEqual(list(other.data), [TWO])

    def test_changes(self):
        """The changes of an update may be read after the next update."""
        first = self.loads()
        self.asks(1)
        (second,) = self.comes(changes(FIRST, SECOND))
        self.asks(2)
        (third,) = self.comes(bytes(CacheReset()))[-1:] or (None,)
        self.assertIsNone(third)
        self.sends(RESET)
        (third,) = self.comes(answer(THIRD))
        self.assertEqual(third.changes, SECOND.delta(THIRD))
        self.assertEqual(second.changes, FIRST.delta(SECOND))
        self.assertEqual(set(first.changes), {ONE})

    def test_of_another_session(self):
        """Changes are announced and withdrawn across sessions."""
        self.loads()
        self.asks(1)
        self.comes(bytes(CacheReset()))
        self.sends(RESET)
        (update,) = self.comes(answer(data(5, ONE, TWO, session=9)))
        self.assertEqual((list(update.changes), update.changes.session), ([TWO], 9))

    def test_update(self):
        """Updates are equal if their data and changes are."""
        update = self.loads()
        self.assertEqual(update, Update(FIRST, data(1).delta(FIRST)))
        self.assertNotEqual(update, Update(FIRST, FIRST.delta(FIRST)))

    def test_expiry(self):
        """Expired data are gone (RFC 8210 section 6), even before a step says so."""
        self.assertIsNone(self.router.data(0))
        self.now = 1000
        self.loads()
        for now, there in ((1000, FIRST), (600_999, FIRST), (601_000, None), (610_000, None)):
            self.assertEqual(self.router.data(now), there, now)
        self.now = 601_000
        update, close, failed = self.steps()[:3]
        self.assertEqual((update.data, list(update.changes)), (None, list(FIRST.delta(data(1)))))
        self.assertEqual((close, failed.error.cause), (Close(), Cause.EXPIRED))


class Memory(Routed):
    """A router without memory."""

    def without(self, nth):
        """Makes the nth allocation of an index or data fail."""
        calls = []

        def refuses(size):
            calls.append(size)
            if len(calls) == nth:
                raise MemoryError
            return _library.memory(size)
        return mock.patch("rtr_wire.link.memory", refuses)

    def fails(self, received):
        """An answer for which there is no memory ends the connection, and the data stay; the next
        answer is loaded."""
        steps = self.comes(*received)
        self.assertEqual(steps[0], Close())
        self.assertEqual(repr(steps[1].error), "MemoryError('no memory')")
        self.assertEqual(self.router.data(self.now), FIRST)
        self.reconnects()
        self.assertEqual(self.comes(answer(SECOND))[0].data, SECOND)

    def test_data(self):
        """No memory for the new data, or for the index."""
        for nth in (1, 2):
            self.setUp()
            self.loads()
            self.asks(1)
            with self.without(nth):
                self.fails([changes(FIRST, SECOND)])

    def test_input(self):
        """No memory for an answer, while it is received."""
        self.loads()
        self.asks(1)
        more = data(2, *prefixes(0, 8000))
        with mock.patch("rtr_wire._library.lengthen", side_effect=MemoryError):
            steps = self.comes(changes(FIRST, more))
        self.assertEqual(steps[0], Close())
        self.assertEqual(repr(steps[1].error), "MemoryError('no memory')")
        self.assertEqual(self.router.data(self.now), FIRST)
        self.reconnects()
        self.assertEqual(self.comes(answer(more))[0].data, more)

    def test_twice_as_long(self):
        """Without memory to double the input, it grows only as needed."""
        lengthen, refused = _library.lengthen, []

        def refuses(buffer, size):
            if size % (1 << 16) == 0:
                refused.append(size)
                raise MemoryError
            lengthen(buffer, size)

        many = data(1, *prefixes(0, 8000))
        received, steps = answer(many), self.steps()
        with mock.patch("rtr_wire._library.lengthen", refuses):
            for at in range(0, len(received), 5000):
                steps += self.comes(received[at:at + 5000])
        self.assertTrue(refused)
        self.assertEqual(steps[-1].data, many)

    def test_output(self):
        """If nothing is sent, and there is no memory for more output, the connection ends."""
        with mock.patch("rtr_wire.link._OUTPUT", LONGEST_UNIT):
            self.setUp()
            self.loads()
        self.router.asked()
        self.now += 1000
        with mock.patch("rtr_wire._library.lengthen", side_effect=MemoryError):
            steps = self.steps()  # a query is unsent
        self.assertEqual([type(step) for step in steps], [Close, Failed])
        self.assertEqual(repr(steps[1].error), "MemoryError('no memory')")
        self.assertEqual(self.router.data(self.now), FIRST)

    def test_changes(self):
        """New data, and their loss, are reported even without memory for the changes, which can be
        read later. The changes from no data need none: they are the data."""
        with mock.patch("rtr_wire.data.memory", side_effect=MemoryError):
            first = self.loads()
            self.now += 601_000
            expired = self.steps()[0]
            self.assertEqual(len(first.changes), 1)
            with self.assertRaises(MemoryError):
                len(expired.changes)
        self.assertEqual((first.data, expired.data), (FIRST, None))
        self.assertEqual([list(update.changes) for update in (first, expired)],
                         [[ONE], list(FIRST.delta(data(1)))])

    @unittest.skipUnless(platform.system() == "Linux", "the limit is that of Linux")
    def test_limited(self):
        """A process with a memory limit gets new data or a MemoryError, and in any case the expiry
        of its data."""
        script = pathlib.Path(__file__).with_name("limited.py")
        for left in (0, 8, 32, 96):
            done = subprocess.run([sys.executable, script, str(left)], env=os.environ,
                                  stdout=subprocess.PIPE, check=True, text=True)
            first, *then = done.stdout.split()
            self.assertEqual(first, "data", done.stdout)
            self.assertIn(then, (["data", "expired"], ["MemoryError", "expired"]), left)


class Sending(Routed):
    """The output of a router, and how much of it was sent."""

    def test_a_byte_at_a_time(self):
        self.steps()
        for count in range(len(RESET)):
            self.assertEqual(self.router.output, RESET[count:])
            self.router.sent(1)
            self.assertEqual(self.steps(), [])
        self.assertEqual(self.router.output, b"")

    def test_a_part(self):
        """A report is sent after the rest of a partly sent query."""
        self.steps()
        self.router.sent(3)
        close, failed = self.comes(b"\1\5\0\0\0\0\0\10")
        self.assertEqual((close, self.last[:5]), (Close(), RESET[3:]))
        self.assertEqual((self.last[5], self.last[6], self.last[8]), (1, ErrorReport.KIND, 5))
        self.assertEqual((failed.error.offset, failed.error.code), (0, 5))

    def test_wrong_counts(self):
        self.steps()
        for count in (-1, 9, 2**70):
            with self.assertRaises(ValueError):
                self.router.sent(count)
        with self.assertRaises(TypeError):
            self.router.sent("1")
        self.assertEqual(self.router.output, RESET)


class Failures(Routed):
    """The reasons for the end of a connection."""

    def test_offsets(self):
        """The offset of a refused unit is that in all bytes of the connection, the offset of a
        refused change that in the changes; both have the unit."""
        broken = bytes(ONE)[:10] + b"\7" + bytes(ONE)[11:]
        notify = bytes(SerialNotify(7, 1))
        self.loads()
        self.asks(1)
        _, failed = self.comes(notify, bytes(CacheResponse(7)), bytes(TWO), notify, broken)
        before = len(answer(FIRST)) + 12 + 8 + 20 + 12
        self.assertIsInstance(failed.error, PrefixError)
        self.assertEqual((failed.error.offset, failed.error.unit), (before, broken))
        self.reconnects()
        _, failed = self.comes(bytes(CacheResponse(7)), bytes(TWO), bytes(ONE), bytes(ONE),
                               bytes(SECOND.end))
        self.assertIsInstance(failed.error, DuplicateError)
        self.assertEqual((failed.error.offset, failed.error.unit, failed.error.side),
                         (40, bytes(ONE), 2))

    def test_a_byte_at_a_time(self):
        """The result doesn't depend on how the bytes are split."""
        self.steps()
        received = answer(SECOND) + bytes(SerialNotify(7, 2)) + b"\1\4\0\0\0\0\0\7"
        steps = []
        for at in range(len(received)):
            steps += self.comes(received[at:at + 1])
        update, close, failed = steps
        self.assertEqual((update.data, close), (SECOND, Close()))
        self.assertEqual(failed.error.offset, len(received) - 8)

    def test_cut(self):
        self.steps()
        self.router.received(answer(FIRST)[:20])
        self.router.lost(OSError("cut"))
        close, failed = self.steps()
        self.assertIsInstance(failed.error, ShortError)
        self.assertEqual((failed.error.offset, failed.error.unit), (8, bytes(ONE)[:12]))

    def test_asked_at_a_loss(self):
        """A request between the loss of a connection and its close outlives that: the router
        connects at once, long before its wait after a loss is over."""
        self.router, error = Router(Settings(pause=0.01)), OSError("lost")
        self.loads()
        self.now += 1000
        self.router.lost(error)
        self.router.asked()
        self.assertEqual(self.steps(), [Close(), Failed(error), Connect()])

    def test_lost(self):
        """The system's error is reported after the bytes before it were processed."""
        self.steps()
        error = OSError("lost")
        self.router.received(answer(FIRST))
        self.router.lost(error)
        update, close, failed = self.steps()
        self.assertEqual((update.data, close, failed.error), (FIRST, Close(), error))

    def test_unknown(self):
        self.loads()
        self.asks(1)
        gone = bytes(Changes.from_bytes(bytes(SECOND.delta(data(3, ONE)))))
        _, failed = self.comes(bytes(CacheResponse(7)), gone)
        self.assertIsInstance(failed.error, UnknownError)
        self.assertEqual((failed.error.code, failed.error.unit), (6, gone[:20]))

    def test_reports(self):
        self.steps()
        report = ErrorReport(2, text=b"later")
        (failed,) = self.comes(bytes(report))
        self.assertIsInstance(failed.error, NoData)
        self.assertEqual(failed.error.reported, report)
        report = ErrorReport(1, text=b"it rains")
        _, failed = self.comes(bytes(report))
        self.assertIsInstance(failed.error, SessionError)
        self.assertEqual((failed.error.cause, failed.error.reported), (Cause.REPORTED, report))

    def test_reported_texts(self):
        """As in all languages, texts of reports are shown in part, and in ASCII."""
        front = "the cache reports an error: "
        for code, text, shown in (
                (2, b"", "No Data Available"), (1, b"no ~", 'Internal Error, "no ~"'),
                (12, 'a"\nä'.encode(), 'error code 12, "a"???"'),
                (1, b"a" * 99 + b"bc", f'Internal Error, "{"a" * 99}b"')):
            error = SessionError(Cause.REPORTED, reported=ErrorReport(code, text=text))
            self.assertEqual(str(error), front + shown)


class Turns(Routed):
    """Calls out of turn, wrong times and settings, and a restarted router."""

    def test_out_of_turn(self):
        with self.assertRaises(RuntimeError):
            self.router.connected()
        self.router.received(b"nothing is read without a connection")
        self.router.lost()
        self.assertEqual(self.steps(), [Connect()])
        with self.assertRaises(RuntimeError):
            self.router.connected()
        self.sends(RESET)
        self.assertEqual(self.comes(answer(FIRST))[0].data, FIRST)

    def test_times(self):
        self.router.step(10)
        for now in (9, 2**63):
            with self.assertRaises(ValueError):
                self.router.step(now)
            with self.assertRaises(ValueError):
                self.router.data(now)
        for now in (-1, 2**64):
            with self.assertRaises(ValueError):
                self.router.step(now)
        self.assertIsNone(self.router.step(10))

    def test_again(self):
        """A restarted router has no data, connects, and asks for all of them."""
        update = self.loads()
        self.router.again()
        self.assertIsNone(self.router.data(self.now))
        self.reconnects()
        (second,) = self.comes(answer(SECOND))
        self.assertEqual((update.data, second.data, len(second.changes)), (FIRST, SECOND, 2))

    def test_again_after_a_loss(self):
        """A restarted router returns no step of its last connection, and a group gets nothing that
        was asked for before."""
        self.loads()
        self.router.lost(OSError("reset"))
        self.assertEqual(self.router.step(self.now), Close())  # a failure would follow
        self.router.again()
        self.assertIsNone(self.router.take_todo())
        self.reconnects()

    def test_take_todo(self):
        """A group gets each todo once."""
        self.loads()
        self.assertEqual(self.router.take_todo().kind, TodoKind.DATA)
        self.assertIsNone(self.router.take_todo())

    def test_waits_grow(self):
        """If its cache failed before, it waits longer after the next failure than a new router."""
        waits = []
        self.router = Router(Settings(pause=1, retry=1000))
        for _ in range(4):
            while self.router.step(self.now) != Connect():
                self.now = self.router.wakes
            self.router.lost(OSError("refused"))
            self.router.step(self.now)
            waits.append(self.router.wakes - self.now)
            self.router.again()
        self.assertEqual(waits, [1000, 2000, 4000, 8000])

    def test_settings(self):
        for wrong in (Settings(refresh=-1), Settings(most_units=-1)):
            with self.assertRaises(ValueError):
                Router(wrong)
        Router(Settings(version=300, refresh=1e9, most_bytes=2**70, most_units=2**40),
               chance=65535)


if __name__ == "__main__":
    unittest.main()
