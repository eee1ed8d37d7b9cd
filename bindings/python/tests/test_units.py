"""Units that are constructed in Python, and faults."""
import copy
import ctypes
import dataclasses
import io
import ipaddress
import json
import pathlib
import pickle
import random
import re
import sys
import unittest

import rtr_wire
from rtr_wire import (Aspa, CacheReset, CacheResponse, EmptyProvidersError, EndOfData, ErrorReport,
                      Fault, IPv4Prefix, IPv6Prefix, Kind, NoFormError, Prefix, PrefixError,
                      PrefixRule, ResetQuery, RouterKey, SerialNotify, SerialOrder, SerialQuery,
                      Status, TooLongError, Unit, UnitLengthError, UnitVersionError, Vrp,
                      serial_order, units, version_has)
from rtr_wire import _library, _rtr

from . import rows as rows_of
from .rows import samples

V4, V6 = ipaddress.IPv4Network("192.0.2.0/24"), ipaddress.IPv6Network("2001:db8::/32")

# Units, and the names of the samples that are their forms.
FORMS = [(unit, samples.unit(name)) for unit, name in (
    (SerialNotify(4660, 0xdeadbeef), "serial notify"),
    (SerialQuery(4660, 0xdeadbeef, version=0), "serial query"),
    (ResetQuery(2), "reset query"),
    (CacheResponse(4660), "cache response"),
    (IPv4Prefix(ipaddress.IPv4Network("192.0.2.0/23"), max_length=26, asn=65551), "IPv4 prefix"),
    (IPv6Prefix(V6, max_length=48, asn=65551, announce=False), "IPv6 prefix"),
    (EndOfData(4660, 0xdeadbeef, version=0), "end of data of version 0"),
    (EndOfData(4660, 0xdeadbeef), "end of data"),
    (EndOfData(36591, 0, refresh=399, retry=600, expire=7200, version=2),
     "end of data of version 2"),
    (CacheReset(), "cache reset"),
    (RouterKey(bytes(range(1, 21)), 65551, b"\xca\xfe"), "router key"),
    (ErrorReport(2, enclosed=bytes(ResetQuery()), text=b"no"), "error report"),
    (Aspa(65000, (65001, 65551)), "ASPA"),
    (Aspa(65000, (65001, 65551), announce=False), "withdrawn ASPA"),
)]


def any_unit(rng):
    """Returns a unit of any kind, with fields of few random values, so that some are equal."""
    def number(bits):
        return rng.choice([0, 1, 2**bits - 1, rng.getrandbits(bits)])

    version, flag = rng.choice([0, 1, 2]), rng.random() < 0.5
    some = rng.choice([b"", b"\0", b"\1\2", bytes(rng.getrandbits(8) for _ in range(9))])
    width = rng.choice([32, 128])
    length = rng.choice([0, 1, width // 2, width])
    address = (number(width) >> width - length << width - length).to_bytes(width // 8, "big")
    prefix = ipaddress.ip_network((address, length))
    of_prefix = IPv4Prefix if width == 32 else IPv6Prefix
    most, providers = rng.choice([length, width]), (number(32), number(32))[rng.randrange(2):]
    return rng.choice([
        lambda: of_prefix(prefix, max_length=most, asn=number(32), announce=flag, version=version),
        lambda: RouterKey(bytes(20), number(32), some, announce=flag, version=version),
        lambda: Aspa(number(32), providers, announce=flag, version=version),
        lambda: EndOfData(number(16), number(32), refresh=number(32), retry=1, expire=2,
                          version=version),
        lambda: ErrorReport(number(16), enclosed=some, text=b"text"[:rng.randrange(5)],
                            version=version),
        lambda: SerialNotify(number(16), number(32), version),
        lambda: SerialQuery(number(16), number(32), version),
        lambda: ResetQuery(version), lambda: CacheReset(version),
        lambda: CacheResponse(number(16), version),
    ])()


class Made(unittest.TestCase):
    """Units constructed from attributes."""

    def test_forms(self):
        self.assertEqual({unit.KIND for unit, _ in FORMS}, set(Kind))
        for unit, form in FORMS:
            self.assertEqual(bytes(unit), form)
            self.assertEqual(next(units(form)), unit)

    def test_left_loops(self):
        """A loop continues where the last one was left, also after a fault."""
        longer = bytes.fromhex("01040000 00000014 01181000 c0000200 0000fbf0")
        each = [bytes(unit) for unit, _ in FORMS]
        for count in (1, 20, 64, 65):
            reader = units(longer.join([b"".join(each)] * count))
            for _ in range(count):
                for first in reader:
                    break
                self.assertEqual(first, FORMS[0][0])
                self.assertEqual(next(reader), FORMS[1][0])
                self.assertEqual(reader.offset % (len(b"".join(each)) + len(longer)),
                                 len(each[0] + each[1]))
                for _, unit in zip(FORMS[2:], reader):
                    last = unit
                self.assertEqual(last, FORMS[-1][0])
                if reader.offset < len(longer.join([b"".join(each)] * count)):
                    self.assertRaises(PrefixError, next, reader)
            self.assertRaises(StopIteration, next, reader)

    def test_random(self):
        """Units are equal, with the same hash, if and only if their forms are; decoding a form
        returns the unit."""
        rng = random.Random(1)
        all_units = [any_unit(rng) for _ in range(3000)]
        by_form = {}
        for unit in all_units:
            form = bytes(unit)
            self.assertEqual(next(units(form)), unit)
            first = by_form.setdefault(form, unit)
            self.assertEqual((first, hash(first)), (unit, hash(unit)))
        self.assertEqual(len(set(all_units)), len(by_form))
        self.assertLess(len(by_form), len(all_units))
        self.assertEqual(list(units(io.BytesIO(b"".join(map(bytes, all_units))))), all_units)

    def test_meanings(self):
        """Ignored attributes don't affect equality."""
        self.assertEqual(Aspa(9, (1, 2), announce=False), Aspa(9, (), announce=False))
        self.assertNotEqual(Aspa(9, (1, 2)), Aspa(9, (2, 1)))
        times = {"refresh": 3, "retry": 4, "expire": 5}
        self.assertEqual(EndOfData(1, 2, **times, version=0), EndOfData(1, 2, version=0))
        self.assertNotEqual(EndOfData(1, 2, **times), EndOfData(1, 2))
        self.assertNotEqual(SerialNotify(1, 2), SerialQuery(1, 2))
        self.assertNotEqual(ErrorReport(0, enclosed=b"ab", text=b"c"),
                            ErrorReport(0, enclosed=b"a", text=b"bc"))
        self.assertNotEqual(ResetQuery(), 5)

    def test_kinds_of_prefixes(self):
        for unit in (IPv4Prefix(V4, max_length=26, asn=64496),
                     IPv6Prefix(V6, max_length=48, asn=1)):
            self.assertIsInstance(unit, Prefix)
        for make in (Unit, lambda: Prefix(V4, max_length=26, asn=64496)):
            with self.assertRaisesRegex(TypeError, "is one of its subclasses"):
                make()

    def test_frozen(self):
        for unit, _ in FORMS:
            for again in (copy.copy(unit), copy.deepcopy(unit), pickle.loads(pickle.dumps(unit))):
                self.assertEqual(again, unit)
            self.assertEqual(eval(repr(unit), {**vars(rtr_wire), **vars(ipaddress)}), unit)
            with self.assertRaises(dataclasses.FrozenInstanceError):
                unit.version = 0
            read = next(units(bytes(unit)))
            self.assertEqual(dataclasses.replace(read, version=0).version, 0)

    def test_refused(self):
        """Units that can't be written, and the fault of rtr_write_unit."""
        key, ends = bytes(20), EndOfData(1, 2)
        for refused, make in [
                (PrefixError, lambda: IPv4Prefix(V4, max_length=23, asn=1)),
                (PrefixError, lambda: IPv4Prefix(V4, max_length=33, asn=1)),
                (PrefixError, lambda: IPv6Prefix(V6, max_length=129, asn=1)),
                (NoFormError, lambda: IPv4Prefix(V4, max_length=24, asn=1, announce=2)),
                (TooLongError, lambda: RouterKey(key, 1, bytes(65504))),
                (TooLongError, lambda: ErrorReport(0, enclosed=bytes(65520))),
                (TooLongError, lambda: ErrorReport(0, enclosed=bytes(60000), text=bytes(5520))),
                (TooLongError, lambda: Aspa(1, (0,) * 16381)),
                (EmptyProvidersError, lambda: Aspa(1, ())),
                (UnitVersionError, lambda: dataclasses.replace(ends, version=3)),
                (ValueError, lambda: IPv4Prefix(V4, max_length=24, asn=2**32)),
                (ValueError, lambda: IPv4Prefix(V4, max_length=-1, asn=1)),
                (ValueError, lambda: SerialNotify(65536, 1)),
                (ValueError, lambda: ResetQuery(256)),
                (TypeError, lambda: ResetQuery("1")),
                (ValueError, lambda: RouterKey(bytes(19), 1, b"")),
                (ValueError, lambda: Aspa(1, (2**32,))),
                (TypeError, lambda: IPv4Prefix(V6, max_length=32, asn=1)),
                (TypeError, lambda: IPv6Prefix("::/0", max_length=32, asn=1)),
                (TypeError, lambda: rtr_wire.Unit())]:
            with self.assertRaises(refused) as caught:
                make()
            self.assertIs(type(caught.exception), refused)
        self.assertEqual(len(bytes(RouterKey(key, 1, bytes(65503)))), 65535)
        longest = ErrorReport(0, enclosed=bytes(60000), text=bytes(5519))
        self.assertEqual(len(bytes(longest)), 65535)
        self.assertEqual(len(bytes(Aspa(1, (0,) * 16380))), 65532)

    def test_vrps(self):
        self.assertEqual(Vrp(V4, asn=5).unit(), IPv4Prefix(V4, max_length=24, asn=5))
        self.assertEqual(Vrp(V6, asn=5, max_length=48).unit(2),
                         IPv6Prefix(V6, max_length=48, asn=5, version=2))

    def test_versions(self):
        """RFC 6810 has no router keys; ASPAs are of version 2."""
        for version in range(-1, 4):
            for kind in Kind:
                least = {Kind.ROUTER_KEY: 1, Kind.ASPA: 2}.get(kind, 0)
                self.assertEqual(version_has(version, kind), least <= version <= 2)

    def test_serials(self):
        """RFC 1982 section 3.2."""
        for left, right, order in ((1, 1, SerialOrder.EQUAL), (1, 2, SerialOrder.LESS),
                                   (0, 2**32 - 1, SerialOrder.GREATER),
                                   (0, 2**31, SerialOrder.NO_ORDER)):
            self.assertIs(serial_order(left, right), order)


class Faults(unittest.TestCase):
    """Faults, and the error reports for them."""

    # RFC 8210 section 12, and docs/PROTOCOL.md.
    CODES = {Status.SHORT: 0, Status.UNIT_TYPE: 5, Status.UNIT_VERSION: 4, Status.TOO_LONG: 0,
             Status.UNIT_LENGTH: 0, Status.EMPTY_PROVIDERS: 9, Status.PREFIX: 0,
             Status.DUPLICATE: 7, Status.UNKNOWN: 6}
    PREFIX = samples.unit("IPv4 prefix")

    def test_codes(self):
        names = set()
        for fault_class in Fault.__subclasses__():
            fault = fault_class(1, 40, self.PREFIX)
            self.assertEqual(fault.code, self.CODES.get(fault_class.status), fault_class)
            self.assertIsNone(fault_class(1, None, self.PREFIX).code)
            self.assertIsNone(fault_class(1, 40, samples.unit("error report")).code)
            self.assertIs(getattr(rtr_wire, fault_class.__name__), fault_class)
            names.add(fault_class.status)
            self.assertIn("at byte 40", str(fault))
            again = pickle.loads(pickle.dumps(fault))
            self.assertEqual((type(again), str(again), again.unit),
                             (fault_class, str(fault), fault.unit))
        # Only groups refuse too many members, and Python has none.
        self.assertEqual(names, set(Status) - {Status.OK, Status.TOO_MANY_MEMBERS})

    def test_reports(self):
        """An error report has the session's version, the code, the unit and a text."""
        for fault_class in Fault.__subclasses__():
            fault = fault_class(1, 40, self.PREFIX)
            report = fault.report(2)
            if fault_class.status not in self.CODES:
                self.assertIsNone(report)
                continue
            read = next(units(report))
            self.assertEqual((read.version, read.code), (2, self.CODES[fault_class.status]))
            self.assertTrue(self.PREFIX.startswith(read.enclosed) and read.enclosed)
            self.assertGreater(len(read.text), 5)
            self.assertTrue(str(fault).startswith(read.text.decode()), fault)

    def test_changes(self):
        """Lines and objects of changes, by rtr_diff(1), also long ones."""
        aspa = Aspa(65000, [65001, 65551], version=2)
        self.assertEqual(rtr_wire.change_line(aspa), "+ ASPA AS65000 providers AS65001 AS65551")
        self.assertEqual(rtr_wire.change_json(aspa), '{"kind":"aspa","action":"announce",'
                         '"customer_asn":65000,"provider_asns":[65001,65551]}')
        self.assertEqual(rtr_wire.change_line(ResetQuery(2)), "")
        many = Aspa(1, list(range(2, 9000)), version=2)
        self.assertEqual(json.loads(rtr_wire.change_json(many))["provider_asns"],
                         list(range(2, 9000)))

    def test_texts_of_all(self):
        """The texts of the library, as in all languages."""
        rows = [row for row in (rows_of.BINDINGS.parent / "tests" / "texts").read_text().split("\n")
                if row and row[0] != "#"]
        self.assertGreater(len(rows), 80)
        for row in rows:
            word, number, text = row.split(" ", 2)
            if word == "text":
                detail, text = text.split(" ", 1)
                actual = _library.status_text(int(number), int(detail))
            elif word == "at":
                detail, offset, text = text.split(" ", 2)
                actual = _library.status_text_at(int(number), int(detail), int(offset))
            elif word == "report":
                digits, text = text.split(" ", 1)
                reported = bytes.fromhex(digits.replace("-", ""))
                actual = _library.report_text(int(number), reported)
            else:
                actual = _library.name(_rtr.Named[word.upper()], int(number))
            self.assertEqual(actual, text, row)

    def test_long_reports(self):
        """A report encloses as much of a long or incomplete unit as fits."""
        key = bytes(RouterKey(bytes(20), 1, bytes(65503)))
        read = next(units(rtr_wire.DuplicateError(0, 0, key).report(1)))
        self.assertTrue(key.startswith(read.enclosed))
        self.assertGreater(len(read.enclosed), 65000)

    def test_details(self):
        def prefix(lengths):
            return f"01040000 00000014 01{lengths}00 c0000200 0000fbf0"

        for form, detail, text in (
                (prefix("211a"), PrefixRule.LENGTH_OVER, "prefix length too large"),
                (prefix("1821"), PrefixRule.MAX_LENGTH_OVER, "max-length too large"),
                (prefix("1817"), PrefixRule.MAX_LENGTH_UNDER,
                 "max-length smaller than prefix length"),
                ("01050000 00000014", 5, "unit type 5 is not allowed here"),
                ("03070000 00000018", 3, "version 3 is not supported here")):
            with self.assertRaises(Fault) as caught:
                next(units(bytes.fromhex(form)))
            self.assertEqual((caught.exception.detail, caught.exception.offset), (detail, 0))
            self.assertEqual(f"{text}, at byte 0", str(caught.exception))

    def test_lengths(self):
        with self.assertRaises(UnitLengthError):
            next(units(bytes.fromhex("01040000 00000015 01211a00 c0000200 0000fbf0 00")))


class Header(unittest.TestCase):
    """The module generated from rtr.h."""

    def test_texts(self):
        header = pathlib.Path(__file__).resolve().parent.parent.parent / "c" / "rtr.h"
        if not header.exists():
            self.skipTest("no rtr.h beside")
        text = header.read_text()
        numbers = dict(re.findall(r"^    RTR_(\w+) = (\d+)", text, re.MULTILINE))
        for enum in (Status, Kind, PrefixRule, rtr_wire.Side):
            for member in enum:
                self.assertEqual(numbers[member.name], str(int(member)))
        self.assertIn(f'"{rtr_wire.__version__}"', text)

    def test_layout(self):
        """Structs have the sizes, and their fields the offsets, of C."""
        if not (rows_of.BINDINGS / "calls.py").exists():
            self.skipTest("no calls.py beside")
        sys.path.insert(0, str(rows_of.BINDINGS))
        import calls

        for struct in calls.structs():
            structure = getattr(_rtr, struct.name)
            self.assertEqual(ctypes.sizeof(structure), struct.size, struct.name)
            offsets = {field: getattr(structure, field).offset for field, _ in structure._fields_}
            self.assertEqual(offsets, {field.name: field.offset for field in struct.fields},
                             struct.name)


if __name__ == "__main__":
    unittest.main()
