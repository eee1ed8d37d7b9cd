"""Whole sequences: the rows of tests/libraries/cases.py."""
import io
import threading
import unittest

import rtr_wire
from rtr_wire import EndOfData, Fault, Normalised, TooManyError, normalise, same_meaning, units

from . import rows


def result_of(case):
    """Returns the status and the detail of `normalise` for a case, and its result."""
    version = None if case.version == 255 else case.version
    try:
        return 0, 0, normalise(case.input, version=version)
    except Fault as fault:
        return int(fault.status), fault.detail, fault.before


def read(case):
    """Reads units up to an end of data or a fault; returns the status, the detail, the form of the
    units, and the offset."""
    form, source = b"", units(io.BytesIO(case.input))
    try:
        for unit in source:
            form += bytes(unit)
            if isinstance(unit, EndOfData):
                return 0, 0, form, source.offset
    except Fault as fault:
        return int(fault.status), fault.detail, form, fault.offset
    return int(rtr_wire.Status.SHORT), 0, form, source.offset


class Sequences(unittest.TestCase):
    """Each row, by each call."""

    @classmethod
    def setUpClass(cls):
        cls.cases = list(rows.cases())

    def play(self, cases):
        for case in cases:
            done = Normalised(case.form, case.units, case.forms, case.taken)
            self.assertEqual(result_of(case), (case.status, case.detail, done), case.input.hex())

    def test_normalise(self):
        self.assertGreater(len(self.cases), 600)
        self.play(self.cases)

    def test_threads(self):
        failed = []

        def run(part):
            try:
                self.play(self.cases[part::2])
            except AssertionError as error:
                failed.append(error)

        threads = [threading.Thread(target=run, args=(part % 2,)) for part in range(8)]
        for thread in threads:
            thread.start()
        for thread in threads:
            thread.join()
        self.assertEqual(failed, [])

    def test_reading(self):
        """Unit by unit, except for units that are valid but not allowed in a sequence."""
        for case in self.cases:
            if case.version == 255 and case.status != rtr_wire.Status.UNIT_TYPE:
                self.assertEqual(read(case), (case.status, case.detail, case.form, case.taken),
                                 case.input.hex())

    def test_limit(self):
        for case in self.cases:
            if case.status == 0 and case.version == 255:
                self.assertEqual(normalise(case.input, limit=case.units + 1).form, case.form)
                with self.assertRaises(TooManyError) as caught:
                    normalise(case.input, limit=case.units)
                self.assertEqual(caught.exception.before.units, case.units)
                self.assertEqual(caught.exception.unit, b"")
                self.assertIsNone(caught.exception.code)

    def test_meanings(self):
        """A sequence means the same as its form, and as a mere end of data only if that is its
        form."""
        end = bytes.fromhex("00070001 0000000c 00000002")
        for case in self.cases:
            if case.version != 255:
                continue
            for side, left, right, same in ((1, case.input, case.form, True),
                                            (2, end, bytearray(case.input), end == case.form)):
                try:
                    answer = 0, 0, same_meaning(left, right)
                    self.assertEqual(answer, (case.status, case.detail, same), case.input.hex())
                except Fault as fault:
                    answer = fault.status, fault.detail, fault.offset, fault.side
                    self.assertEqual(answer, (case.status, case.detail, case.taken, side))

    def test_versions(self):
        """An unknown version is refused before any other fault, and no unit is at fault."""
        for version in (3, 255, 256, 2**40, -1):
            with self.assertRaises(rtr_wire.UnitVersionError) as caught:
                normalise(b"", version=version)
            self.assertEqual((caught.exception.offset, caught.exception.code), (None, None))
            self.assertEqual(caught.exception.before, Normalised(b"", 0, 0, 0))


if __name__ == "__main__":
    unittest.main()
