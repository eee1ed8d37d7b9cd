"""The command line: output and exit status."""
import ipaddress
import os
import pathlib
import subprocess
import sys
import tempfile
import unittest

from rtr_wire import Data, EndOfData, Vrp, __version__

from . import rows
from .test_client import FIRST, RESET, Cache, answer, certified, says, waits

DATA = Data.from_vrps([Vrp(ipaddress.IPv4Network("192.0.2.0/23"), asn=65551, max_length=26),
                       Vrp(ipaddress.IPv6Network("2001:db8::/32"), asn=0)], EndOfData(1, 2))


def runs(*words, stdin=b""):
    """Runs a command, and returns its status, standard output and standard error."""
    done = subprocess.run([sys.executable, "-m", "rtr_wire", *words], input=stdin,
                          stdout=subprocess.PIPE, stderr=subprocess.PIPE, timeout=300)
    return done.returncode, done.stdout, done.stderr.decode()


class Commands(unittest.TestCase):
    """The commands."""

    def test_fetch(self):
        line = "session 7 serial 1 version 1: 2 payloads\n"
        with Cache(says(RESET, answer(FIRST)), says(RESET, answer(FIRST))) as cache:
            address = f"127.0.0.1:{cache.port}"
            self.assertEqual(runs("fetch", address), (0, bytes(FIRST), line))
            with tempfile.TemporaryDirectory() as folder:
                path = pathlib.Path(folder, "data")
                self.assertEqual(runs("fetch", address, "--output", path), (0, b"", line))
                self.assertEqual(path.read_bytes(), bytes(FIRST))
        status, printed, error = runs("fetch", address)
        self.assertEqual((status, printed), (1, b""))
        self.assertIn("Connection refused", error)

    def test_unwritten(self):
        """A full disk, or a closed standard output, is named on one line, with status 1."""
        usual = {name: os.environ[name] for name in os.environ if name != "PYTHONUNBUFFERED"}
        for words in ("list -", "validate - 192.0.2.0/24 AS65551"):
            for output, text in ((">/dev/full", "No space left on device"),
                                 (">&-", "standard output is closed")):
                with self.subTest(words=words, output=output):
                    done = subprocess.run(
                        ["sh", "-c", f'exec "$0" -m rtr_wire {words} {output}', sys.executable],
                        input=bytes(DATA), stderr=subprocess.PIPE, env=usual, timeout=300)
                    self.assertEqual(done.returncode, 1, done.stderr)
                    self.assertEqual(done.stderr.count(b"\n"), 1, done.stderr)
                    self.assertIn(text, done.stderr.decode())

    def test_fetch_over_tls(self):
        """--tls verifies the CA and the name of the cache's certificate; --ca names the CA."""
        with tempfile.TemporaryDirectory() as folder, tempfile.TemporaryDirectory() as others:
            context, trusted = certified(folder)
            other, named = certified(others, "DNS:cache.example")
            for server, words, status, text in (
                    (context, ("--ca", trusted), 0, "session 7 serial 1"),
                    (context, ("--tls", "--ca", trusted), 0, "session 7 serial 1"),
                    (context, ("--tls",), 1, "certificate verify failed"),
                    (context, ("--ca", named), 1, "certificate verify failed"),
                    (other, ("--ca", named), 1, "IP address mismatch")):
                with self.subTest(words=words, text=text):
                    script = waits if status else says(RESET, answer(FIRST))
                    with Cache(script, context=server) as cache:
                        ended, printed, error = runs("fetch", f"127.0.0.1:{cache.port}", *words)
                    self.assertEqual((ended, printed), (status, b"" if status else bytes(FIRST)))
                    self.assertIn(text, error)

    def test_validate(self):
        for route, printed in (
                (("192.0.2.0/24", "AS65551"), "192.0.2.0/24 AS65551 valid\n"
                                              "  192.0.2.0/23-26 AS65551: matches\n"),
                (("192.0.2.0/27", "65551"), "192.0.2.0/27 AS65551 invalid\n"
                                            "  192.0.2.0/23-26 AS65551: longer\n"),
                (("192.0.2.0/24", "as1"), "192.0.2.0/24 AS1 invalid\n"
                                          "  192.0.2.0/23-26 AS65551: other as\n"),
                (("2001:db8::/48", "0"), "2001:db8::/48 AS0 invalid\n"
                                         "  2001:db8::/32-32 AS0: as zero\n"),
                (("203.0.113.0/24", "1"), "203.0.113.0/24 AS1 not found\n")):
            self.assertEqual(runs("validate", "-", *route, stdin=bytes(DATA)),
                             (0, printed.encode(), ""))
        with tempfile.NamedTemporaryFile() as file:
            file.write(bytes(DATA))
            file.flush()
            self.assertEqual(runs("validate", file.name, "0.0.0.0/0", "1")[0], 0)

    def test_recordings(self):
        """A route by the data of a recording: that of docs/OPERATORS.md, and one with an answer
        that is cut off."""
        recordings = {row.name: row.recording for row in rows.loads()}
        recording = recordings["the recording of docs/OPERATORS.md"]
        self.assertEqual(runs("validate", "-", "198.51.100.0/26", "AS64497", stdin=recording),
                         (0, b"198.51.100.0/26 AS64497 valid\n"
                             b"  198.51.100.0/24-26 AS64497: matches\n", ""))
        recording = recordings["an answer that the next cache response cuts off"]
        self.assertEqual(runs("validate", "-", "192.0.2.0/24", "AS64496", stdin=recording),
                         (0, b"192.0.2.0/24 AS64496 not found\n",
                          "rtr_wire: left out: an answer without an end of data\n"))

    def test_list(self):
        """The output is that of rtr_list(1)."""
        units = (bytes([1, 3, 0, 7, 0, 0, 0, 8])
                 + bytes([1, 4, 0, 0, 0, 0, 0, 20, 1, 33, 26, 0, 192, 0, 2, 10, 0, 1, 0, 15])
                 + bytes([1, 10, 0, 2, 0, 0, 4, 16, 0, 0, 0, 0, 0, 0, 4, 0]) + b"\n" * 1024)
        lines = ("0 v1 cache response session 7\n"
                 "8 v1 IPv4 prefix announce 192.0.2.10/33-26 AS65551\n"
                 "28 v1 error report code 2 (No Data Available) pdu \"\" text \""
                 + "\\n" * 1024 + "\"\n")
        self.assertEqual(runs("list", "-", stdin=units), (0, lines.encode(), ""))
        self.assertEqual(runs("list", "-"), (0, b"", ""))
        status, printed, error = runs("list", "-", stdin=units[:29])
        self.assertEqual((status, printed.count(b"\n"), error[:10]), (1, 2, "rtr_wire: "))
        with tempfile.NamedTemporaryFile() as file:
            file.write(units)
            file.flush()
            self.assertEqual(runs("list", file.name)[:2], (0, lines.encode()))

    def test_no_data(self):
        for data in (b"", b"text"):
            status, printed, error = runs("validate", "-", "192.0.2.0/24", "1", stdin=data)
            self.assertEqual((status, printed, error[:10]), (1, b"", "rtr_wire: "))
        self.assertEqual(runs("validate", "/nowhere", "::/0", "1")[0], 1)

    def test_arguments(self):
        for words in ((), ("fetch",), ("fetch", "host"), ("fetch", ":1"), ("fetch", "h:p"),
                      ("fetch", "h:65536"), ("validate", "-", "192.0.2.0/33", "1"),
                      ("validate", "-", "192.0.2.1/24", "1"), ("validate", "-", "::/0", str(2**32)),
                      ("fetch", "h:1", "--version", "3"), ("validate", "-", "::/0"), ("list",),
                      ("list", "-", "-"),
                      ("validate", "-", "::/0", "x")):
            self.assertEqual(runs(*words)[:2], (2, b""), words)
        for words, text in (
                (("fetch", "h:1", "--version", "1", "--version=1"), "--version: it is given twice"),
                (("fetch", "h:1", "--ca", "a", "--tls", "--ca", "b"), "--ca: it is given twice"),
                (("fetch", "--output", "a", "h:1", "--output=a"), "--output: it is given twice"),
                (("fetch", "h:1", "--ca="), "--ca: it is empty"),
                (("fetch", "h:1", "--output", ""), "--output: it is empty"),
                (("fetch", "[]:1"), "'[]:1' isn't HOST:PORT"),
                (("list", ""), "FILE: it is empty"), (("check", ""), "FILE: it is empty"),
                (("validate", "", "::/0", "1"), "FILE: it is empty"),
                (("list", "--tls", "-"), "unrecognized arguments: --tls"),
                (("check", "--json", "-"), "unrecognized arguments: --json"),
                (("fetch", "h:1", "--json"), "unrecognized arguments: --json")):
            with self.subTest(words=words):
                status, printed, error = runs(*words)
                self.assertEqual((status, printed), (2, b""))
                self.assertIn(text, error.splitlines()[-1])
        self.assertEqual(runs("list", "--json", "--json", "-"), (0, b"", ""))
        self.assertEqual(runs("--version")[:2], (0, f"rtr_wire {__version__}\n".encode()))
        self.assertIn(b"Exit status", runs("--help")[1])


if __name__ == "__main__":
    unittest.main()
