"""Arguments: which are keyword-only, and the errors for wrong ones."""
import copy
import ctypes
import inspect
import ipaddress
import os
import pathlib
import pickle
import shlex
import shutil
import struct
import subprocess
import sys
import tempfile
import unittest

import rtr_wire
from rtr_wire import _rtr
from rtr_wire import (Aspa, AsyncClient, CacheResponse, Changes, Client, Data, EndOfData,
                      ErrorReport, Fault, IPv4Prefix, IPv6Prefix, Prefix, PrefixError, ResetQuery,
                      Router, RouterKey, SerialNotify, SerialQuery, Settings, Vrp, change_line,
                      check, load_data, normalise, same_meaning, serial_order, unit_lines,
                      unit_objects, units, version_has)

V4, V6 = ipaddress.IPv4Network("192.0.2.0/24"), ipaddress.IPv6Network("2001:db8::/32")
END, KEY = EndOfData(1, 2), bytes(20)
DATA = Data([IPv4Prefix(V4, max_length=24, asn=65551)], END)
BYTE, SHORT, WORD, LONG = 8, 16, 32, 64

# The calls that take a number, with its name and its size in bits.
NUMBERS = [
    ("max_length", BYTE, lambda it: IPv4Prefix(V4, max_length=it, asn=1)),
    ("max_length", BYTE, lambda it: IPv6Prefix(V6, max_length=it, asn=1)),
    ("max_length", BYTE, lambda it: Vrp(V4, asn=1, max_length=it).unit()),
    ("asn", WORD, lambda it: IPv4Prefix(V4, max_length=24, asn=it)),
    ("asn", WORD, lambda it: IPv6Prefix(V6, max_length=32, asn=it)),
    ("asn", WORD, lambda it: Vrp(V4, asn=it).unit()),
    ("asn", WORD, lambda it: Data.from_vrps([Vrp(V4, asn=1), Vrp(V6, asn=it)], END)),
    ("asn", WORD, lambda it: RouterKey(KEY, it, b"")),
    ("asn", WORD, lambda it: DATA.validate(V4, it)),
    ("asn", WORD, lambda it: DATA.validate_all([(V4, 1), (V4, it)])),
    ("asn", WORD, lambda it: DATA.covering("192.0.2.0/24", it)),
    ("customer", WORD, lambda it: Aspa(it, (1, 2))),
    ("providers[0]", WORD, lambda it: Aspa(1, (it, 2))),
    ("providers[1]", WORD, lambda it: Aspa(1, (2, it))),
    ("session", SHORT, lambda it: EndOfData(it, 1)),
    ("session", SHORT, lambda it: SerialNotify(it, 1)),
    ("session", SHORT, lambda it: SerialQuery(it, 1)),
    ("session", SHORT, CacheResponse),
    ("serial", WORD, lambda it: EndOfData(1, it)),
    ("serial", WORD, lambda it: SerialNotify(1, it)),
    ("serial", WORD, lambda it: SerialQuery(1, it)),
    ("refresh", WORD, lambda it: EndOfData(1, 1, refresh=it)),
    ("retry", WORD, lambda it: EndOfData(1, 1, retry=it)),
    ("expire", WORD, lambda it: EndOfData(1, 1, expire=it)),
    ("code", SHORT, ErrorReport),
    ("announce", BYTE, lambda it: IPv4Prefix(V4, max_length=24, asn=1, announce=it)),
    ("version", BYTE, ResetQuery),
    ("version", BYTE, lambda it: EndOfData(1, 1, version=it)),
    ("version", BYTE, lambda it: rtr_wire.DuplicateError(0, 0, bytes(DATA)).report(it)),
    ("left", WORD, lambda it: serial_order(it, 1)),
    ("right", WORD, lambda it: serial_order(1, it)),
    ("kind", BYTE, lambda it: version_has(1, it)),
    ("chance", SHORT, lambda it: Router(chance=it)),
    ("now", LONG, lambda it: Router().step(it)),
    ("now", LONG, lambda it: Router().data(it)),
    ("port", SHORT, lambda it: Client("cache.example", it)),
    ("port", SHORT, lambda it: AsyncClient("cache.example", it)),
]

# Numbers without a maximum: too large ones are reduced to the largest.
UNBOUNDED = [
    ("limit", lambda it: normalise(bytes(DATA), limit=it)),
    ("limit", lambda it: same_meaning(bytes(DATA), bytes(DATA), limit=it)),
    ("most_bytes", lambda it: Router(Settings(most_bytes=it))),
    ("most_units", lambda it: Router(Settings(most_units=it))),
]

# Times in seconds, which may have a fraction.
TIMES = [(name, lambda it, name=name: Router(Settings(**{name: it})))
         for name in ("refresh", "retry", "expire", "pause", "connect_limit", "response_limit",
                      "report_limit")]

# The calls that take bytes, with their name.
BYTES = [
    ("key_identifier", lambda it: RouterKey(it, 1, b"")),
    ("key_info", lambda it: RouterKey(KEY, 1, it)),
    ("enclosed", lambda it: ErrorReport(0, enclosed=it)),
    ("text", lambda it: ErrorReport(0, text=it)),
    ("sequence", Data.from_bytes),
    ("sequence", Changes.from_bytes),
    ("recording", load_data),
    ("sequence", normalise),
    ("left", lambda it: same_meaning(it, bytes(DATA))),
    ("right", lambda it: same_meaning(bytes(DATA), it)),
    ("changes", DATA.apply),
    ("data", check),
    ("data", unit_lines),
    ("data", unit_objects),
    ("data", lambda it: Router().received(it)),
]

# The positional parameters of each class that has keyword-only ones.
PLACES = {
    Prefix: ["prefix"], IPv4Prefix: ["prefix"], IPv6Prefix: ["prefix"], Vrp: ["prefix"],
    RouterKey: ["key_identifier", "asn", "key_info"], Aspa: ["customer", "providers"],
    EndOfData: ["session", "serial"], ErrorReport: ["code"], Settings: ["version"],
    Router: ["settings"], Client: ["host", "port", "settings"],
    AsyncClient: ["host", "port", "settings"],
}


class Given(unittest.TestCase):
    """Errors that name the argument."""

    def refused(self, kind, text, call, value):
        """The call raises an error with this type and text, and without a cause."""
        with self.assertRaises(kind) as caught:
            call(value)
        error = caught.exception
        self.assertIs(type(error), kind)
        self.assertEqual(str(error), text)
        self.assertNotIsInstance(error.__cause__, (struct.error, ctypes.ArgumentError))

    def test_numbers(self):
        for name, bits, call in NUMBERS:
            for value in (-1, 2**bits, 2**70):
                message = f"{name} is {value}: it must be from 0 to {2**bits - 1}"
                with self.subTest(message):
                    self.refused(ValueError, message, call, value)
            for value, kind in (("1", "str"), (1.0, "float"), (None, "NoneType"), (b"1", "bytes")):
                if value is None and call is NUMBERS[2][2]:
                    continue  # a VRP without a max length
                with self.subTest(name, value=value):
                    message = f"{name} must be an integer, not {kind}"
                    self.refused(TypeError, message, call, value)

    def test_unbounded(self):
        for name, call in UNBOUNDED:
            with self.subTest(name):
                self.refused(ValueError, f"{name} is -1: it must be from 0 on", call, -1)
                self.refused(TypeError, f"{name} must be an integer, not float", call, 1.5)
                self.refused(TypeError, f"{name} must be an integer, not str", call, "1")
        for version in ("1", 1.5):
            self.refused(TypeError, f"version must be an integer, not {type(version).__name__}",
                         lambda it: normalise(bytes(DATA), version=it), version)

    def test_times(self):
        for name, call in TIMES:
            with self.subTest(name):
                for value in (-1, -0.001, float("nan"), float("inf")):
                    message = f"{name} is {value}: it must be from 0 on"
                    self.refused(ValueError, message, call, value)
                self.refused(TypeError, f"{name} must be a number of seconds, not str", call, "1")

    def test_milliseconds(self):
        """Times are rounded to milliseconds, but not from above 0 to 0, and limited to 32 bits."""
        for name, _ in TIMES:
            for seconds, milliseconds in ((0.0004, 1), (0.0016, 2), (1.5, 1500), (1e9, 2**32 - 1)):
                settings = Settings(**{name: seconds})
                if name == "report_limit":
                    self.assertEqual(settings.report_seconds(), milliseconds / 1000)
                else:
                    self.assertEqual(getattr(settings.for_library(0), name), milliseconds,
                                     (name, seconds))

    def test_bytes(self):
        for name, call in BYTES:
            for value, kind in (("text", "str"), (20, "int"), (None, "NoneType"), ([1], "list")):
                with self.subTest(name, value=value):
                    self.refused(TypeError, f"{name} must be a bytes-like object, not {kind}", call,
                                 value)
        for length in (19, 21):
            self.refused(ValueError, f"key_identifier has {length} bytes: it must have 20",
                         lambda it: RouterKey(bytes(it), 1, b""), length)
        for value, kind in (("text", "str"), (20, "int")):
            self.refused(TypeError, f"source must be bytes-like or a binary file, not {kind}",
                         units, value)

    def test_others(self):
        for text, call, value in (
                ("prefix must be an ipaddress.IPv4Network, not IPv6Network",
                 lambda it: IPv4Prefix(it, max_length=32, asn=1), V6),
                ("prefix must be an ipaddress.IPv6Network, not str",
                 lambda it: IPv6Prefix(it, max_length=32, asn=1), "::/0"),
                ("prefix must be a network of ipaddress, not str", lambda it: Vrp(it, asn=1).unit(),
                 "192.0.2.0/24"),
                ("prefix must be a network of ipaddress, or its text, not int",
                 lambda it: DATA.validate(it, 1), 5),
                ("prefix must be a network of ipaddress, or its text, not NoneType",
                 lambda it: DATA.covering(it, 1), None),
                ("prefix must be a network of ipaddress, or its text, not int",
                 lambda it: DATA.validate_all([(V4, 1), (it, 1)]), 5),
                ("providers must be a sequence of ASes, not int", lambda it: Aspa(1, it), 5),
                ("each of vrps must be a Vrp, not tuple", Data.from_vrps, [(V4, 1, 24)]),
                ("new must be Data, not bytes", DATA.delta, bytes(DATA)),
                ("settings must be Settings, not int", Router, 1)):
            with self.subTest(text):
                self.refused(TypeError, text, call, value)
        for count in (-1, 1):
            message = f"count is {count}: it must be from 0 to 0"
            self.refused(ValueError, message, Router().sent, count)

    def test_names(self):
        """Arguments that are easily confused aren't positional."""
        for kind, expected in PLACES.items():
            call = kind.__new__ if kind is Vrp else kind.__init__
            taken = list(inspect.signature(call).parameters.values())[1:]
            positional = [parameter.name for parameter in taken
                          if parameter.kind is parameter.POSITIONAL_OR_KEYWORD]
            self.assertEqual(positional, expected, kind)
        for call in (lambda: Vrp(V4, 24, 65551), lambda: IPv4Prefix(V4, 65551, 24),
                     lambda: EndOfData(1, 2, 3600, 600, 7200), lambda: Aspa(1, (2,), False),
                     lambda: ErrorReport(0, b"", b"text"), lambda: Settings(1, 3600, 600)):
            with self.assertRaises(TypeError):
                call()

    def test_vrp(self):
        """A VRP is still a tuple, also after pickling or copying."""
        vrp = Vrp(V4, max_length=26, asn=65551)
        prefix, asn, most = vrp
        self.assertEqual((prefix, asn, most, vrp), (V4, 65551, 26, (V4, 65551, 26)))
        self.assertEqual(repr(vrp), f"Vrp(prefix={V4!r}, asn=65551, max_length=26)")
        for again in (pickle.loads(pickle.dumps(vrp)), copy.copy(vrp), copy.deepcopy(vrp),
                      vrp._replace(asn=65551), Vrp._make((V4, 65551, 26))):
            self.assertIs(type(again), Vrp)
            self.assertEqual(again, vrp)
        self.assertEqual(Vrp(V4, asn=1).max_length, None)

    def test_other_library(self):
        """A library of another version, or another library, is refused with a message."""
        compiler = shlex.split(os.environ.get("CC", "cc"))
        if shutil.which(compiler[0]) is None:
            self.skipTest(f"no {compiler[0]} here, which makes a library")
        with tempfile.TemporaryDirectory() as folder:
            path = pathlib.Path(folder, "other.so")
            for code, text in (("unsigned rtr_wire_version(void) { return 199; }",
                                f"other.so is of version 199, not {_rtr.VERSION_NUMBER}"),
                               ("int other;", "undefined symbol: rtr_wire_version")):
                subprocess.run([*compiler, "-shared", "-fPIC", "-x", "c", "-o", path, "-"],
                               input=code.encode(), check=True)
                done = subprocess.run(
                    [sys.executable, "-c", "import rtr_wire"], stderr=subprocess.PIPE,
                    env=dict(os.environ, RTR_WIRE_LIBRARY=str(path)))
                self.assertEqual(done.returncode, 1)
                self.assertIn("ImportError: ", done.stderr.decode())
                self.assertIn(text, done.stderr.decode())

    def test_faults(self):
        """Refusals of the library are still Faults."""
        with self.assertRaises(PrefixError):
            IPv4Prefix(V4, max_length=23, asn=1)
        with self.assertRaises(Fault):
            IPv4Prefix(V4, max_length=24, asn=1, announce=2)
        self.assertEqual(change_line(IPv4Prefix(V4, max_length=24, asn=1)),
                         "+ IPv4 prefix 192.0.2.0/24-24 AS1")


if __name__ == "__main__":
    unittest.main()
