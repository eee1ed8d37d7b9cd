"""Lines, objects and texts of faults, by tests/samples and tests/listed_units.py."""
import json
import random
import unittest

from rtr_wire import Fault, unit_lines, unit_objects, units
from rtr_wire._library import CALLS
from rtr_wire.lines import _change, change_json, change_line

from .rows import listed_units, samples


def _written(unit):
    """Returns the unit as it is encoded: without host bits of an address, and without providers of
    a withdrawn ASPA."""
    kind, length = unit[1], unit[9] if len(unit) > 9 else 0
    if kind in (4, 6):
        address, width = unit[12:-4], 8 * len(unit[12:-4])
        host = max(width - length, 0)
        bits = int.from_bytes(address, "big") >> host << host
        return unit[:12] + bits.to_bytes(len(address), "big") + unit[-4:]
    if kind == 11 and not unit[2] & 1:
        return unit[:12]
    return unit


def _change_of(unit):
    """Returns the change of a unit as an object, as rtr_diff(1) prints it."""
    listed = listed_units.object_of(0, _written(unit))
    if "action" not in listed:
        return ""
    parts = list(listed.items())[list(listed).index("zero") + 1:]
    change = {"kind": listed["kind"], "action": listed["action"], **dict(parts)}
    return json.dumps(change, separators=(",", ":"))


# The names of attributes of units in rtr_list --json.
NAMES = {"session": "session_id", "serial": "serial_number", "refresh": "refresh_interval",
         "retry": "retry_interval", "expire": "expire_interval", "max_length": "max_length",
         "asn": "asn", "customer": "customer_asn", "code": "error_code",
         "key_identifier": "subject_key_identifier", "enclosed": "erroneous_pdu",
         "text": "error_text_bytes", "providers": "provider_asns", "version": "version"}


def _fields_of_unit(unit):
    """Returns the fields of a unit as rtr_list --json has them."""
    shown = {"kind": unit.KIND.name.lower()}
    for name, value in vars(unit).items():
        if name in NAMES and not (name in ("refresh", "retry", "expire") and unit.version == 0):
            shown[NAMES[name]] = value.hex() if isinstance(value, bytes) else \
                list(value) if name == "providers" else value
    if hasattr(unit, "prefix"):
        shown["prefix_length"] = unit.prefix.prefixlen
    if hasattr(unit, "announce"):
        shown["action"] = "announce" if unit.announce else "withdraw"
    return shown


def _fields_of_sample(sample):
    """Returns the same fields of a sample, without those that are ignored or have no attribute."""
    other = ("offset", "length", "flags", "zero", "prefix", "subject_public_key_info", "error_text")
    return {name: value for name, value in json.loads(sample.json).items() if name not in other}


class Listings(unittest.TestCase):
    """The calls for the output of the programs."""

    def test_lines(self):
        data = b"".join(sample.bytes for sample in listed_units.LISTED)
        lines, offset = [], 0
        for sample in listed_units.LISTED:
            lines.append(sample.line_at(offset))
            offset += len(sample.bytes)
        self.assertEqual(list(unit_lines(data)), lines)

    def test_samples(self):
        """Each sample is listed and encoded as in the file, or refused."""
        for sample in samples.SAMPLES:
            with self.subTest(sample.unit):
                for call in (units, unit_lines, unit_objects) if not sample.line else \
                        (units,) if sample.refused else ():
                    with self.assertRaises(Fault) as caught:
                        list(call(sample.bytes))
                    self.assertEqual(str(caught.exception), f"{sample.refused}, at byte 0")
                if sample.line:
                    self.assertEqual(list(unit_lines(sample.bytes)), [sample.line])
                    self.assertEqual(list(unit_objects(sample.bytes)), [sample.json])
                    for call, text in ((CALLS.rtr_change_line_nonnull, sample.change),
                                       (CALLS.rtr_change_json_nonnull, sample.object)):
                        self.assertEqual(_change(call, sample.bytes), text or "")
                if sample.refused:
                    continue
                unit = next(units(sample.bytes))
                self.assertEqual(bytes(unit), sample.written)
                if not sample.form:
                    self.assertEqual(change_line(unit), sample.change or "")
                    self.assertEqual(change_json(unit), sample.object or "")
                    self.assertEqual(_fields_of_unit(unit), _fields_of_sample(sample))

    def test_objects(self):
        random_units = random.Random(9)
        forms = [listed_units.some_unit(random_units) for _ in range(2000)]
        forms = [form for form in forms if form[1] != 11 or len(form) > 12 or form[2] % 2 == 0]
        objects, offset = list(unit_objects(b"".join(forms))), 0
        self.assertEqual(len(objects), len(forms))
        for text, form in zip(objects, forms):
            expected = listed_units.object_of(offset, form)
            self.assertEqual(list(json.loads(text).items()), list(expected.items()), form.hex())
            self.assertFalse(any("\x7f" <= char <= "\x9f" for char in text), form.hex())
            offset += len(form)

    def test_changes(self):
        random_units = random.Random(7)
        for form in [listed_units.some_unit(random_units) for _ in range(500)]:
            self.assertEqual(_change(CALLS.rtr_change_json_nonnull, form), _change_of(form),
                             form.hex())


if __name__ == "__main__":
    unittest.main()
