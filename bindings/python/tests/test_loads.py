"""Recordings and lists, and the data that they result in: those of tests/loads, and larger ones."""
import pathlib
import struct
import subprocess
import sys
import unittest
from importlib.machinery import SourceFileLoader
from importlib.util import module_from_spec, spec_from_loader

from rtr_wire import Fault, OtherVersionError, load_data

from . import rows

EXAMPLE = pathlib.Path(__file__).resolve().parent.parent / "examples" / "routes.py"


def outcome(recording):
    """Returns the bytes of the data, and whether an answer was ignored; or the offset of the unit
    at fault, and the text of the fault."""
    try:
        data, has_cut = load_data(recording)
    except Fault as fault:
        assert fault.unit == recording[fault.offset:][:len(fault.unit)] and fault.side == 0
        text, _, offset = str(fault).rpartition(", at byte ")
        assert int(offset) == fault.offset
        return fault.offset, text
    return bytes(data), has_cut


class Loads(unittest.TestCase):
    """The results of recordings."""

    def setUp(self):
        self.rows = rows.loads()
        self.assertGreater(len(self.rows), 40)

    def test_recordings(self):
        for row in self.rows:
            expected = row.refused or (row.data, row.has_cut)
            self.assertEqual(outcome(row.recording), expected, row.name)

    def test_data_again(self):
        """The bytes of data are a list that results in them."""
        for row in self.rows:
            if row.refused is None:
                self.assertEqual(outcome(row.data), (row.data, False), row.name)

    def test_cut_off(self):
        """A recording truncated after any byte is refused at the offset of the incomplete unit."""
        for row in filter(lambda row: row.is_one_answer, self.rows):
            for length in range(len(row.recording)):
                missing = max(offset for offset in row.offsets if offset <= length)
                self.assertEqual(outcome(row.recording[:length]),
                                 (missing, "unexpected end of input"), row.name)

    def test_large_data(self):
        """More data than the first buffers hold: IPv4 prefixes of 32 bits and an end of data (RFC
        8210 sections 5.6 and 5.8)."""
        head = bytes([1, 4, 0, 0, 0, 0, 0, 20, 1, 32, 32, 0])
        prefixes = [struct.pack(">12s2I", head, at, 64496) for at in range(1 << 20)]
        end = bytes([1, 7, 0, 7, 0, 0, 0, 24, 0, 0, 0, 1]) + struct.pack(">3I", 3600, 600, 7200)
        recording = b"".join([*prefixes, end])
        self.assertTrue(outcome(recording) == (recording, False))

    def test_buffers(self):
        """Any bytes-like object is a recording."""
        row = self.rows[0]
        for recording in (bytearray(row.recording), memoryview(row.recording)):
            self.assertEqual(bytes(load_data(recording).data), row.data)


def _recordings():
    """Returns the script that makes changed recordings, and reads them."""
    loader = SourceFileLoader("recordings", str(rows.TESTS / "programs" / "recordings.py"))
    module = module_from_spec(spec_from_loader("recordings", loader))
    loader.exec_module(module)
    return module


class Changed(unittest.TestCase):
    """Recordings that are changed, cut off and put together, beside a reader that uses nothing of
    the library: each is refused by both, or leaves the same payloads. The reader takes an answer of
    several versions, too."""

    def test_changed(self):
        read, counts = _recordings(), {True: 0, False: 0}
        for recording in read.tried(True):
            try:
                expected = read.data_of(recording)
            except read.Refused:
                expected = None
            try:
                found = read.data_of(bytes(load_data(recording).data))
            except OtherVersionError:
                continue
            except Fault:
                found = None
            self.assertEqual(found, expected, recording.hex())
            counts[found is None] += 1
        self.assertGreater(min(counts.values()), 3000)


class Example(unittest.TestCase):
    """The example with the recording of docs/OPERATORS.md, and with refused inputs."""

    def runs(self, recording):
        done = subprocess.run([sys.executable, EXAMPLE], input=recording, stdout=subprocess.PIPE,
                              stderr=subprocess.PIPE, timeout=300)
        return done.returncode, done.stdout.decode(), done.stderr.decode()

    def test_recording(self):
        recordings = {row.name: row.recording for row in rows.loads()}
        self.assertEqual(self.runs(recordings["the recording of docs/OPERATORS.md"]), (
            0, "192.0.2.0/24 AS65551 INVALID\n"
               "  192.0.2.0/24 up to 24, AS64496: OTHER_AS\n"
               "192.0.2.0/27 AS65551 INVALID\n"
               "  192.0.2.0/24 up to 24, AS64496: OTHER_AS\n"
               "203.0.113.0/24 AS65551 INVALID\n"
               "  203.0.113.0/24 up to 24, AS64500: OTHER_AS\n", ""))
        status, _, error = self.runs(recordings["an answer that the next cache response cuts off"])
        self.assertEqual((status, error),
                         (0, "routes: left out: an answer without an end of data\n"))
        self.assertEqual(self.runs(recordings["nothing"]),
                         (1, "", "routes: unexpected end of input, at byte 0\n"))


if __name__ == "__main__":
    unittest.main()
