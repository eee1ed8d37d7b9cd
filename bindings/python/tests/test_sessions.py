"""Sessions with units of all kinds: the rows of tests/libraries/sessions.py."""
import io
import unittest

import rtr_wire
from rtr_wire import Aspa, ErrorReport, Fault, PrefixError, RouterKey, ShortError, units

from . import rows

# The numbers of an answer, as tests/libraries/sessions.py names them.
(STATUS, SIZE, WANTED, PART, PART_LENGTH, TEXT, TEXT_LENGTH, ASN, CUSTOMER, SERIAL, REFRESH, RETRY,
 EXPIRE, SESSION, CODE, KIND, VERSION, ACTION, FAMILY, LENGTH, MOST, DETAIL) = range(22)


def shown(unit):
    """Returns the content of a unit: the numbers from ASN to MOST, then the address, the key
    identifier, its part and its text."""
    def number(name):
        return getattr(unit, name, 0)

    prefix = number("prefix")
    part = b""
    if isinstance(unit, RouterKey):
        part = unit.key_info
    elif isinstance(unit, Aspa):
        part = b"".join(asn.to_bytes(4, "big") for asn in unit.providers)
    elif isinstance(unit, ErrorReport):
        part = unit.enclosed
    address = prefix.network_address.packed if prefix else b""
    numbers = [number(name) for name in (
        "asn", "customer", "serial", "refresh", "retry", "expire", "session", "code", "KIND",
        "version")]
    numbers += [int(number("announce")), prefix.version if prefix else 0,
                prefix.prefixlen if prefix else 0, number("max_length")]
    address += bytes(16 - len(address))
    return numbers, address, number("key_identifier") or bytes(20), part, number("text") or b""


class Dripping(io.RawIOBase):
    """A file that returns one byte per read, and sometimes raises an error in between."""

    def __init__(self, data):
        super().__init__()
        self.data, self.at, self.calls = data, 0, 0

    def readable(self):
        return True

    def read(self, most=-1):
        self.calls += 1
        if self.calls % 7 == 0:
            raise InterruptedError("not now")
        self.at += 1
        return self.data[self.at - 1:self.at]


def following(source):
    """Returns the next unit, or its fault, or None at the end; ignores errors of the file."""
    while True:
        try:
            return next(source, None)
        except Fault as fault:
            return fault
        except InterruptedError:
            continue


class Sessions(unittest.TestCase):
    """The content of each unit."""

    @classmethod
    def setUpClass(cls):
        cls.sessions = list(rows.sessions())

    def check(self, got, expected, data, at):
        """The unit or the fault at this offset is the expected one."""
        if isinstance(got, Fault):
            self.assertEqual((got.status, got.detail, got.offset),
                             (expected.numbers[STATUS], expected.numbers[DETAIL], at))
            self.assertTrue(data[at:].startswith(got.unit))
            return
        self.assertEqual(expected.numbers[STATUS], 0)
        part = data[at + expected.numbers[PART]:][:expected.numbers[PART_LENGTH]]
        text = data[at + expected.numbers[TEXT]:][:expected.numbers[TEXT_LENGTH]]
        self.assertEqual(
            shown(got), (list(expected.numbers[ASN:DETAIL]), expected.address,
                         expected.identifier, part, text))
        self.assertEqual(bytes(got), expected.form)

    def walk(self, data, answers, source):
        """Iterates over a session, and skips prefixes that are refused."""
        at = 0
        for expected in answers:
            if at == len(data):
                self.assertIsNone(following(source))
                return
            self.assertEqual(source.offset, at)
            got = following(source)
            self.check(got, expected, data, at)
            at += expected.numbers[SIZE]
        self.assertIsInstance(got, Fault)
        self.assertEqual(source.offset, at)
        again = following(source)
        self.assertEqual((type(again), again.offset, again.unit), (type(got), at, got.unit))

    def test_bytes(self):
        self.assertGreater(len(self.sessions), 1000)
        for data, answers in self.sessions:
            self.walk(data, answers, units(data))

    def test_buffers(self):
        for data, answers in self.sessions:
            self.walk(data, answers, units(memoryview(b"x" + data)[1:]))
            self.walk(data, answers, units(bytearray(data)))
            self.walk(data, answers, units(io.BytesIO(data)))

    def test_a_byte_a_read(self):
        for data, answers in self.sessions:
            if len(data) < 400:
                self.walk(data, answers, units(Dripping(data)))

    def test_units_are_their_forms(self):
        """Units are equal, and have the same hash, if and only if their forms are the same."""
        by_form = {}
        for data, _ in self.sessions:
            source = units(data)
            while (got := following(source)) is not None:
                if isinstance(got, Fault):
                    if not isinstance(got, PrefixError):
                        break
                    continue
                by_form.setdefault(bytes(got), []).append(got)
        self.assertGreater(len(by_form), 1000)
        for form, same in by_form.items():
            self.assertEqual(len(set(same)), 1, same)
            read = next(units(form))
            self.assertEqual((read, hash(read), bytes(read)), (same[0], hash(same[0]), form))
        self.assertEqual(len({same[0] for same in by_form.values()}), len(by_form))

    def test_cut_files(self):
        data = self.sessions[0][0]
        for end in range(len(data)):
            source = units(io.BytesIO(data[:end]))
            try:
                for _ in source:
                    pass
                self.assertEqual(source.offset, end)
            except ShortError as fault:
                self.assertEqual(fault.unit, data[fault.offset:end])
                self.assertIsInstance(next(units(data[fault.offset:])), rtr_wire.Unit)


class Lengths(unittest.TestCase):
    """A length is checked before it is trusted."""

    def test_long(self):
        """After an impossible length nothing more is read."""
        for kind in range(256):
            file = io.BytesIO(bytes([1, kind, 0, 0, 255, 255, 255, 255]) + bytes(1 << 20))
            with self.assertRaises(Fault) as caught:
                next(units(file))
            self.assertLessEqual(file.tell(), 1 << 16)
            self.assertEqual(len(caught.exception.unit), 8)

    def test_nothing(self):
        for source in (b"", bytearray(), memoryview(b""), io.BytesIO()):
            self.assertEqual(list(units(source)), [])

    def test_not_now(self):
        """A file without data for now raises a BlockingIOError, and can be read later."""
        class File:
            pieces = [b"\1\2\0\0", None, b"\0\0\0\10", b""]

            def read1(self, most):
                return self.pieces.pop(0)

        source = units(File())
        with self.assertRaises(BlockingIOError):
            next(source)
        self.assertEqual(list(source), [rtr_wire.ResetQuery()])

    def test_no_source(self):
        for source in (5, None, "text", [1]):
            with self.assertRaises(TypeError):
                units(source)


if __name__ == "__main__":
    unittest.main()
