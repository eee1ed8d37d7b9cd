"""Data and changes: the rows of tests/libraries/deltas.py, and random data compared with Python's
sets."""
import ctypes
import ipaddress
import pickle
import random
import threading
import unittest
from dataclasses import replace

import rtr_wire
from rtr_wire import (Aspa, Changes, Data, DuplicateError, EndOfData, Fault, IPv4Prefix, IPv6Prefix,
                      NotCanonicalError, OtherSessionError, PrefixError, RouterKey, ShortError,
                      Status, UnitVersionError, UnknownError, Vrp)
from rtr_wire import _library, _rtr, data as calls

from . import rows


def applied(first, second):
    """Calls rtr_apply, which requires changes in canonical form."""
    capacity, answer = len(first) + len(second), _rtr.rtr_data_answer()
    output = ctypes.create_string_buffer(capacity)
    status = _library.CALLS.rtr_apply_nonnull(
        first, len(first), second, len(second), output, capacity, answer)
    if status != Status.OK:
        raise calls._refused(answer, calls._all_of(first), calls._all_of(second))
    return output.raw[:answer.written]


def called(call):
    """Calls the package with bytes."""
    return lambda *inputs: _library.front(*call(*map(calls._all_of, inputs)))


def compared(call):
    """Calls the package with bytes, for a call that computes changes."""
    return called(lambda old, new: calls._compared(call, old, new))


CALLED = {0: compared(_library.CALLS.rtr_delta_nonnull), 1: applied,
          2: lambda first, _: bytes(Changes.from_bytes(first)), 3: called(calls._applied),
          4: compared(_library.CALLS.rtr_changes_between_nonnull)}


class Rows(unittest.TestCase):
    """Rows computed without the library."""

    def test_rows(self):
        count = 0
        for row in rows.changes():
            if row.status == Status.NO_INDEX:
                continue
            count += 1
            try:
                answer = 0, 0, 0, None, CALLED[row.call](row.first, row.second)
            except Fault as fault:
                answer = fault.status, fault.side, fault.detail, fault.offset, b""
                source = (b"", row.first, row.second)[fault.side][fault.offset or 0:]
                self.assertTrue(source.startswith(fault.unit))
            offset = row.offset if row.side else None
            self.assertEqual(answer, (row.status, row.side, row.detail, offset, row.output), count)
        self.assertGreater(count, 3000)


def any_payload(rng, version):
    """Returns one of few payloads, so that data have some in common."""
    asn = rng.choice([0, 1, 2**32 - 1])
    network = ipaddress.IPv4Network(rng.choice(["10.0.0.0/8", "10.0.0.0/9", "0.0.0.0/0"]))
    return rng.choice([
        lambda: IPv4Prefix(network, max_length=rng.choice([network.prefixlen, 32]), asn=asn,
                           version=version),
        lambda: IPv6Prefix(ipaddress.IPv6Network(rng.choice(["::/0", "2001:db8::/32"])),
                           max_length=128, asn=asn, version=version),
        lambda: RouterKey(bytes(19) + bytes([rng.randrange(3)]), asn, b"k" * rng.randrange(3),
                          version=version),
        lambda: Aspa(asn, (rng.randrange(3), 7), version=version),
    ])()


def name(unit):
    """Returns the key of a payload: for an ASPA, its customer."""
    return unit.customer if isinstance(unit, Aspa) else unit


def any_set(rng, version, most):
    """Returns random payloads by their keys."""
    return {name(unit): unit for unit in (any_payload(rng, version) for _ in range(most))}


class Sets(unittest.TestCase):
    """Data compared with sets."""

    def test_random(self):
        rng = random.Random(2)
        for _ in range(100):
            version = rng.choice([0, 1, 2])
            sides = [any_set(rng, version, rng.choice([0, 1, 9])) for _ in range(2)]
            ends = [EndOfData(1, serial, refresh=serial, retry=2, expire=3, version=version)
                    for serial in (7, 8)]
            old, new = (Data(rng.sample(list(side.values()), len(side)), end)
                        for side, end in zip(sides, ends))
            for side, end, data in zip(sides, ends, (old, new)):
                self.check_set(side, end, data)
            self.check_changes(sides, old, new)

    def check_set(self, side, end, data):
        """Checks that data have these payloads and this end of data."""
        self.assertEqual((set(data), len(data)), (set(side.values()), len(side)))
        self.assertEqual((data.end, data.version), (end, end.version))
        self.assertEqual((data.session, data.serial), (end.session, end.serial))
        for unit in side.values():
            self.assertIn(unit, data)
            self.assertNotIn(replace(unit, version=(unit.version + 1) % 3), data)
            self.assertNotIn(replace(unit, announce=False), data)
        self.assertNotIn(end, data)
        for again in (Data.from_bytes(bytes(data)), Data.from_bytes(bytearray(bytes(data)) + b"x"),
                      Data(data, end), pickle.loads(pickle.dumps(data))):
            self.assertEqual((again, hash(again)), (data, hash(data)))

    def check_changes(self, sides, old, new):
        """The delta has the differences, and changes one to the other."""
        delta = old.delta(new)
        expected = {unit for unit in sides[1].values() if unit not in set(sides[0].values())}
        expected |= {replace(unit, announce=False) for key, unit in sides[0].items()
                   if key not in sides[1]}
        self.assertEqual((set(delta), len(delta), delta.end), (expected, len(expected), new.end))
        for changes in (delta, bytes(delta), memoryview(bytes(delta) + b"more")):
            self.assertEqual(old.apply(changes), new)
        self.assertEqual(Changes.from_bytes(bytes(delta)), delta)
        self.assertEqual(pickle.loads(pickle.dumps(delta)), delta)

    def test_in_order(self):
        """Changes are applied in the order of the answer."""
        payload = IPv4Prefix(ipaddress.IPv4Network("10.0.0.0/8"), max_length=8, asn=1)
        gone, end = replace(payload, announce=False), EndOfData(1, 2)
        data = Data([payload], EndOfData(1, 1))
        for changes, refused, index in (([gone, payload], None, 0), ([payload], DuplicateError, 0),
                                        ([gone, gone], UnknownError, 1), ([gone], None, 0)):
            sent = b"".join(map(bytes, [*changes, end]))
            if refused is None:
                self.assertEqual(set(data.apply(sent)), set(changes) - {gone})
                continue
            with self.assertRaises(refused) as caught:
                data.apply(sent)
            fault = caught.exception
            self.assertEqual((fault.offset, fault.unit), (20 * index, bytes(changes[index])))
            self.assertEqual(fault.code, {DuplicateError: 7, UnknownError: 6}[refused])
        self.assertEqual(list(data), [payload])

    def test_refused(self):
        network, end = ipaddress.IPv4Network("10.0.0.0/8"), EndOfData(1, 1)
        payload, data = IPv4Prefix(network, max_length=8, asn=1), Data((), end)
        for refused, make in (
                (DuplicateError, lambda: Data([payload, payload], end)),
                (UnknownError, lambda: Data([replace(payload, announce=False)], end)),
                (NotCanonicalError, lambda: Data([replace(payload, version=0)], end)),
                (ShortError, lambda: Data.from_bytes(bytes(payload))),
                (ShortError, lambda: data.apply(b"")),
                (PrefixError, lambda: Data.from_vrps([Vrp(network, asn=1, max_length=7)])),
                (OtherSessionError, lambda: data.apply(bytes(EndOfData(2, 1)))),
                (OtherSessionError, lambda: data.delta(Data((), EndOfData(2, 1)))),
                (UnitVersionError, lambda: data.delta(Data((), EndOfData(1, 1, version=0)))),
                (UnitVersionError, lambda: data.for_version(3)),
                (ValueError, lambda: data.validate("10.0.0.0/8", 2**32)),
                (ValueError, lambda: data.validate("10.0.0.0/33", 1)),
                (TypeError, lambda: data.apply("text"))):
            with self.assertRaises(refused) as caught:
                make()
            self.assertIs(type(caught.exception), refused)

    def test_vrps(self):
        """Data from VRPs with a duplicate."""
        vrps = [Vrp(ipaddress.ip_network(prefix), asn=1, max_length=most) for prefix, most in (
            ("2001:db8::/32", None), ("10.0.0.0/8", 8), ("10.0.0.0/8", None), ("10.0.0.0/8", 9))]
        data = Data.from_vrps(vrps, EndOfData(5, 6))
        self.assertEqual([(str(unit.prefix), unit.max_length) for unit in data],
                         [("10.0.0.0/8", 8), ("10.0.0.0/8", 9), ("2001:db8::/32", 32)])
        self.assertEqual(repr(data), "<Data of 3 payloads, session 5, serial 6, version 1>")
        single = Data.from_vrps(vrps[:1], EndOfData(5, 6))
        self.assertEqual(repr(single), "<Data of 1 payload, session 5, serial 6, version 1>")

    def test_versions(self):
        """Data for a version lack what it can't carry; a change of version withdraws that."""
        end = EndOfData(1, 2, version=2)
        data = Data([Aspa(1, (2,)), RouterKey(bytes(20), 1, b"", version=2),
                     IPv4Prefix(ipaddress.IPv4Network("10.0.0.0/8"), max_length=8, asn=1,
                                version=2)], end)
        self.assertEqual([len(data.for_version(version)) for version in (0, 1, 2)], [1, 2, 3])
        lower = data.for_version(0).with_end(EndOfData(9, 1, version=0))
        self.assertEqual({(type(unit), unit.announce) for unit in calls.difference(data, lower)},
                         {(Aspa, False), (RouterKey, False)})
        self.assertEqual(len(calls.difference(lower, data)), 2)
        self.assertEqual({unit.announce for unit in calls.difference(None, data)}, {True})
        self.assertEqual({unit.announce for unit in calls.difference(data, None)}, {False})

    def test_threads(self):
        """Threads share data before the first lookup."""
        vrps = [Vrp(ipaddress.IPv4Network((i << 8, 24)), asn=64496) for i in range(300)]
        sequence, failed = bytes(Data.from_vrps(vrps, EndOfData(1, 1))), []

        def asks(data):
            try:
                self.assertEqual((len(data), data.serial, bytes(data)), (300, 1, sequence))
                self.assertEqual(data.validate("0.0.5.0/24", 64496), rtr_wire.Validity.VALID)
                self.assertIn(vrps[5].unit(), data)
                self.assertEqual(sum(1 for _ in data), 300)
            except AssertionError as error:
                failed.append(error)

        for _ in range(5):
            data = Data.from_bytes(sequence)
            threads = [threading.Thread(target=asks, args=(data,)) for _ in range(8)]
            for thread in threads:
                thread.start()
            for thread in threads:
                thread.join()
        self.assertEqual(failed, [])

    def test_large(self):
        """Data so large that their memory is mapped."""
        vrps = [Vrp(ipaddress.IPv4Network((i << 8, 24)), asn=64496) for i in range(20000)]
        old = Data.from_vrps(vrps[:-1], EndOfData(1, 1))
        new = Data.from_vrps(vrps[1:], EndOfData(1, 2))
        self.assertEqual((len(old), len(old.delta(new))), (19999, 2))
        self.assertEqual(old.apply(old.delta(new)), new)
        self.assertIn(vrps[5].unit(), old)


class Routes(unittest.TestCase):
    """The rows of tests/libraries/validity.py."""

    def test_rows(self):
        seen = dict.fromkeys(rtr_wire.Validity, 0)
        for sequence, routes in rows.tables():
            data = Data.from_bytes(sequence)
            vrps = [(unit.prefix, unit.asn, unit.max_length) for unit in data]
            for number, route in enumerate(routes):
                got = data.validate(route.prefix, route.asn)
                self.assertEqual(got, route.validity)
                seen[got] += 1
                if number % 8:
                    continue  # each of these rows makes a list of networks
                expected = [(vrps[index], mismatch)
                            for index, _, _, _, mismatch in route.covering]
                network = ipaddress.ip_network(route.prefix, strict=False)
                covering = list(data.covering(network, route.asn))[:255]
                self.assertEqual([(tuple(vrp), mismatch) for vrp, mismatch in covering], expected)
        self.assertGreater(min(seen[validity] for validity in list(seen)[:3]), 100)

    def test_all(self):
        """The validities of routes don't depend on their order, nor on how often each comes."""
        for sequence, routes in rows.tables():
            data = Data.from_bytes(sequence)
            given = [((route.prefix, route.asn), route.validity) for route in routes]
            by_address = sorted(2 * given, key=lambda each: ipaddress.ip_network(
                each[0][0], strict=False).network_address.packed)
            for order in (given, by_address, by_address[::-1]):
                got = data.validate_all(route for route, _ in order)
                self.assertEqual(got, [validity for _, validity in order])
                self.assertIs(type(got[0]), rtr_wire.Validity)
        self.assertEqual(data.validate_all([]), [])


if __name__ == "__main__":
    unittest.main()
