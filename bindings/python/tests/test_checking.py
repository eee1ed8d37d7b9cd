"""The rules that units break, and the lines of rtr_list --check."""
import unittest

from rtr_wire import EmptyProvidersError, Finding, Rule, ShortError, check

from .rows import findings

# A cache response, and a prefix with host bits (RFC 8210 sections 5.5 and 5.6).
RESPONSE = bytes([1, 3, 0, 7, 0, 0, 0, 8])
PREFIX = bytes([1, 4, 0, 0, 0, 0, 0, 20, 1, 23, 26, 0, 192, 0, 2, 10, 0, 1, 0, 15])


class Checks(unittest.TestCase):
    """Findings."""

    def test_rows(self):
        for recording, lines in findings.CHECKS:
            units = bytes.fromhex(recording)
            self.assertEqual([str(found) for found in check(units)],
                             lines + findings.missing(units), recording)

    def test_findings(self):
        self.assertEqual(list(check(RESPONSE + PREFIX + PREFIX)), [
            Finding(8, Rule.HOST_BITS, "offset 8: host bits of the prefix are not zero"),
            Finding(28, Rule.HOST_BITS, "offset 28: host bits of the prefix are not zero"),
            Finding(28, Rule.TWICE, "offset 28: announced twice in the sequence"),
            Finding(48, Rule.CUT_OFF, "offset 48: answer without an end of data")])
        for kind in (bytearray, memoryview):
            self.assertEqual([found.rule for found in check(kind(PREFIX))],
                             [Rule.HOST_BITS, Rule.CUT_OFF])

    def test_refusals(self):
        """Findings come before the unit that is refused."""
        bare = bytes([2, 11, 1, 0, 0, 0, 0, 12, 0, 1, 0, 15])
        for last, error in ((PREFIX[:9], ShortError), (bare, EmptyProvidersError)):
            found = check(PREFIX + last)
            self.assertEqual(next(found).rule, Rule.HOST_BITS)
            with self.assertRaises(error) as caught:
                next(found)
            self.assertEqual(caught.exception.offset, 20)

    def test_names_of_long_keys(self):
        """Keys that differ only in their last byte are two."""
        head = bytes([1, 9, 1, 0]) + (65535).to_bytes(4, "big") + bytes(24)
        key, other = head + bytes(65503), head + bytes(65502) + b"\1"
        self.assertEqual([found.rule for found in check(key + other + key)],
                         [Rule.TWICE, Rule.CUT_OFF])


if __name__ == "__main__":
    unittest.main()
