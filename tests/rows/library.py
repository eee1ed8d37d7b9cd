#!/usr/bin/env python3
"""Plays those rows of this folder whose calls the archive for C has, too, through a shared library
that the C compiler links of it, and names those that fail by their file and line.

usage: library.py

The archive is that of `built.py`. Where a row says more than a call of the archive answers, as the
report that is owed or the bytes of an output that was too short, that isn't compared. Prints
nothing if all is well.
"""
import ctypes
import ipaddress
import os
import subprocess
import sys
import tempfile

HERE = os.path.dirname(os.path.abspath(__file__))
TOP = os.path.realpath(os.path.join(HERE, "..", ".."))
sys.path[:0] = [os.path.join(TOP, ".ci"), os.path.join(TOP, "bindings", "python", "src")]

import built  # noqa: E402  (it lies in another folder)

PLAY = built.script("tests/rows/play.py")

# What an output holds before a call, and more than any row's output has.
FILL, MOST_UNITS = 0xEE, 2**32 - 1

# The least number of rows that are played.
LEAST = 500

FAULTS = {1: "Short", 2: "UnitType({})", 3: "UnitVersion({})", 4: "TooLong", 5: "UnitLength",
          6: "EmptyProviders", 7: "Prefix({})", 8: "TooMany", 9: "NoRoom", 12: "NotCanonical",
          13: "Session", 14: "Duplicate", 15: "Unknown", 17: "NoIndex"}
RULES = {1: "LenOverflow", 2: "MaxOverflow", 3: "MaxUnderflow"}
KINDS = {0: "SerialNotify", 1: "SerialQuery", 2: "ResetQuery", 3: "CacheResponse", 4: "Origin",
         6: "Origin", 7: "End", 8: "CacheReset", 9: "RouterKey", 10: "Error", 11: "Aspa"}
VALIDITIES = {0: "NotFound", 1: "Valid", 2: "Invalid"}
MISMATCHES = {0: "matches", 1: "AsZero", 2: "OtherAs", 3: "TooLong"}


def fault(status, detail):
    """Returns the name of a status in rows."""
    return FAULTS[status].format(RULES[detail] if status == 7 else detail)


class Rows:
    """The rows of all files, and what their words stand for."""

    def __init__(self):
        self.named = {}
        for line in PLAY.read(os.path.join(HERE, PLAY.WORDS)).splitlines():
            name, equals, words = line.split("//")[0].partition(" = ")
            if equals:
                quoted = words.strip().startswith('"')
                self.named[name] = (words.strip().strip('"').encode() if quoted else
                                    b"".join(map(self.bytes_of, words.split())))

    def bytes_of(self, word):
        """Returns the bytes that a word stands for, or None."""
        word, _, times = word.partition("*")
        if word in self.named:
            found = self.named[word]
        elif word.startswith(".."):
            found = bytes(index % 251 for index in range(int(word[2:])))
        else:
            try:
                found = bytes.fromhex(word)
            except ValueError:
                return None
        return found * int(times or 1)

    def spelled(self, words):
        """Returns the words of a result, with bytes that follow each other as one word of
        digits."""
        spelled, in_bytes = [], False
        for word in words:
            found = self.bytes_of(word)
            if found is not None and in_bytes:
                spelled[-1] += found.hex()
            elif found != b"":
                spelled.append(word if found is None else found.hex())
            in_bytes = found is not None
        return spelled

    def all(self):
        """Yields each row: its file and line, its call, settings, both sides and its result."""
        for file in PLAY.FILES:
            lines = PLAY.read(os.path.join(HERE, file)).splitlines()
            for number, line in enumerate(lines, 1):
                given, arrow, answers = line.split("//")[0].partition("=>")
                if arrow:
                    call, *words = given.split()
                    settings = dict(word.split("=") for word in words if "=" in word)
                    sides = " ".join(word for word in words if "=" not in word).split("|")
                    left, right = (b"".join(map(self.bytes_of, side.split()))
                                   for side in (*sides, "")[:2])
                    yield (f"tests/rows/{file}:{number}", call, settings, left, right,
                           answers.split("=>")[0].split())


class Library:
    """The calls of rows, by those of the archive; each answers the words that it is to answer, of
    which some may be missing, or None for a row that the archive has no call for."""

    def __init__(self, rows):
        from rtr_wire import _library, _rtr
        self.rows, self.calls, self.types = rows, _library.CALLS, _rtr

    def slice_call(self, settings, left, capacity):
        """Returns the result of a call that normalises, and the output."""
        output = ctypes.create_string_buffer(bytes([FILL]) * capacity, capacity + 1)
        answer = self.types.rtr_answer()
        limit = int(settings.get("limit", MOST_UNITS))
        if "version" in settings:
            self.calls.rtr_normalise_for_slice_nonnull(left, len(left), output, capacity, limit,
                                                       int(settings["version"]), answer)
        else:
            self.calls.rtr_normalise_slice_nonnull(left, len(left), output, capacity, limit, answer)
        return answer, output.raw[:capacity]

    def normalise_into(self, settings, left, _right, _expected):
        capacity = int(settings.get("room", len(left) + 12))
        answer, output = self.slice_call(settings, left, capacity)
        name = "Ok" if answer.status == 0 else fault(answer.status, answer.detail)
        refused = [] if name in ("Ok", "NoRoom", "TooMany") else ["Refused"]
        spoilt = output[answer.written:].strip(bytes([FILL])) and ["spoilt"]
        return [*refused, name, str(answer.units), str(answer.forms), str(answer.taken),
                str(answer.written), ":", output[:answer.written].hex(), *spoilt]

    normalise_for_into = normalise_into

    def normalise(self, settings, left, _right, expected):
        if set(settings) - {"limit", "version", "by", "to"}:
            return None
        answer, output = self.slice_call(settings, left, len(left) + 12)
        form = [":", output[:answer.written].hex()]
        if answer.status == 0:
            count = answer.forms if "version" in settings else answer.units
            return [f"Ok({count})", str(answer.taken), *form]
        # A reader is asked for other bytes than a slice, and a report is written.
        name = fault(answer.status, answer.detail).replace("Prefix", "Refused")
        if "report" in expected:
            del expected[expected.index("report"):]
        expected[:expected.index(":")] = expected[:1]
        return [name.split("(")[0] if name.startswith("Refused") else name, *form]

    normalise_for = normalise

    def normalise_slice(self, settings, left, _right, _expected):
        if settings:
            return None
        answer, output = self.slice_call(settings, left, len(left) + 12)
        name = [f"Ok({answer.units})", str(answer.taken)]
        if answer.status:
            name = [fault(answer.status, answer.detail)]
        return [*name, ":", output[:answer.written].hex()]

    def comparison(self, settings, left, right):
        answer = self.types.rtr_comparison()
        self.calls.rtr_same_meaning_nonnull(left, len(left), right, len(right),
                                            int(settings.get("limit", MOST_UNITS)), answer)
        return answer

    def same_meaning(self, settings, left, right, expected):
        if set(settings) - {"limit", "by", "to"}:
            return None
        answer = self.comparison(settings, left, right)
        if answer.status == 0:
            return [str(answer.same).lower()]
        name = fault(answer.status, answer.detail)
        if expected[0] == "Refused":
            del expected[1:]
            return ["Refused" if name.startswith("Prefix") else name]
        return [name]

    same_meaning_slice = same_meaning

    def compare_meanings(self, settings, left, right, _expected):
        answer = self.comparison(settings, left, right)
        if answer.status == 0:
            return [str(answer.same).lower()]
        side = {1: "left", 2: "right"}[answer.side]
        return [side, str(answer.offset), fault(answer.status, answer.detail)]

    def unit_length(self, _settings, left, _right, _expected):
        size, detail = ctypes.c_size_t(), ctypes.c_uint8()
        status = self.calls.rtr_unit_size_nonnull(left, len(left), ctypes.byref(size),
                                                 ctypes.byref(detail))
        if status == 1:
            return ["None"]
        return [fault(status, detail.value) if status else str(size.value)]

    def next(self, data):
        unit = self.types.rtr_unit()
        return self.calls.rtr_next_nonnull(data, len(data), unit), unit

    def session_first(self, _settings, left, _right, expected):
        status, unit = self.next(left)
        if status:
            size = ["size", str(unit.size)] if status == 7 else []
            return [fault(status, unit.detail), *size]
        kind, part = KINDS[unit.kind], left[unit.part_start:][:unit.part_length]
        if kind in ("ResetQuery", "CacheReset"):
            del expected[2]
        if kind in ("Origin", "RouterKey", "Aspa"):
            expected[2] = str(int(expected[2]) & 1)
        text = left[unit.text_start:][:unit.text_length]
        words = {
            "SerialNotify": [unit.session, unit.serial], "SerialQuery": [unit.session, unit.serial],
            "CacheResponse": [unit.session], "End": self.end_words(unit),
            "Origin": [unit.action, self.prefix(unit), unit.max_length, unit.asn],
            "RouterKey": [unit.action, unit.asn, bytes(unit.key_identifier).hex(), "info",
                          part.hex()],
            "Aspa": [unit.action, unit.customer, part.hex()],
            "Error": [unit.code, unit.size,
                      *(["about", part.hex(), "text", text.hex()] if unit.text_start
                        else ["lengths"])],
        }.get(kind, [])
        return [kind, str(unit.version), *map(str, words), "size", str(unit.size)]

    @staticmethod
    def end_words(unit):
        times = [unit.refresh, unit.retry, unit.expire] if unit.version else ["untimed"]
        return [unit.session, unit.serial, *times]

    @staticmethod
    def prefix(unit):
        packed = bytes(unit.address)[:4 if unit.family == 4 else 16]
        return f"{ipaddress.ip_address(packed)}/{unit.prefix_length}"

    def place_form(self, settings, left, _right, expected):
        status, unit = self.next(left)
        if status or (unit.kind == 10 and not unit.text_start):
            return None
        capacity, written = int(settings.get("room", len(left) + 12)), ctypes.c_size_t()
        output = ctypes.create_string_buffer(capacity + 1)
        status = self.calls.rtr_write_unit_nonnull(unit, left, len(left), output, capacity,
                                                  ctypes.byref(written))
        if status:
            return [fault(status, 0)]
        return [str(written.value), ":", output.raw[:written.value].hex()]

    def owed_code(self, _settings, left, _right, expected):
        status, _ = self.next(left)
        if "view" not in expected:
            return None
        del expected[:expected.index("view") + 2]
        del expected[1:]
        code = ctypes.c_uint16()
        owed = self.calls.rtr_error_code_nonnull(status, left, len(left),
                                                 ctypes.byref(code))
        return [str(code.value) if owed else "none"]

    def data_call(self, call, settings, left, right, index=()):
        capacity = int(settings.get("room", len(left) + len(right)))
        output, answer = ctypes.create_string_buffer(capacity + 1), self.types.rtr_data_answer()
        call(left, len(left), right, len(right), *index, output, capacity, answer)
        return answer, output.raw[:answer.written]

    def data_words(self, answer, written, sides, expected):
        """Returns the result of a call on data, in words. The details of a wrong session and of an
        output that is too short aren't compared."""
        if answer.status == 0:
            return ["Ok", ":", written.hex()]
        name = fault(answer.status, answer.detail)
        if name in ("Session", "NoRoom"):
            expected[:] = [expected[0].split("(")[0]]
            return [name]
        if name in ("Duplicate", "Unknown"):
            return [name, str(answer.offset), ":"]
        side = [sides[answer.side], str(answer.offset)] if answer.side in sides else []
        return [*side, name, ":"]

    def delta_into(self, settings, left, right, expected):
        found = self.data_call(self.calls.rtr_delta_nonnull, settings, left, right)
        # Rows name no side for another version of the data.
        if expected[0].startswith("UnitVersion"):
            found[0].side = 0
        return self.data_words(*found, {1: "Old", 2: "New"}, expected)

    def apply_in_order(self, settings, left, right, expected):
        places = int(settings.get("places", len(right)))
        index = (ctypes.c_size_t * (places + 1))()
        found = self.data_call(self.calls.rtr_apply_in_order_nonnull, settings, left, right,
                               (index, places))
        if expected[0].startswith("UnitVersion"):
            found[0].side = 0
        return self.data_words(*found, {1: "Data", 2: "Changes"}, expected)

    def check_data(self, settings, left, _right, _expected):
        answer, written = self.data_call(self.calls.rtr_delta_nonnull, settings, left, left)
        if answer.status:
            return [str(answer.offset), fault(answer.status, answer.detail)]
        _, unit = self.next(written)
        return ["End", str(unit.version), *map(str, self.end_words(unit))]

    def validate(self, settings, left, right, _expected):
        if len(right) not in (4, 16) or int(settings["length"]) > 8 * len(right):
            return None
        route = self.types.rtr_route(asn=int(settings["asn"]), family=4 if len(right) == 4 else 6,
                                     prefix_length=int(settings["length"]))
        route.address[:len(right)] = list(right)
        lookup, found = self.types.rtr_lookup(), self.types.rtr_covering()
        self.calls.rtr_check_data_nonnull(left, len(left), lookup, self.types.rtr_data_answer())
        words = [VALIDITIES[self.calls.rtr_validate_nonnull(left, len(left), lookup, route)]]
        index = 0
        while self.calls.rtr_covering_nonnull(left, len(left), lookup, route, index,
                                              found) == self.types.Covers.ONE:
            words += [":", str(found.place), f"{found.prefix_length}-{found.max_length}",
                      f"AS{found.asn}", MISMATCHES[found.mismatch]]
            index = found.place + 1
        return words


def main():
    if len(sys.argv) > 1:
        print(__doc__)
        return 2
    archive = os.path.dirname(os.path.dirname(built.needed("rtr_c")[0]))
    with tempfile.TemporaryDirectory() as folder:
        linked = os.path.join(folder, "librtr_wire.so")
        subprocess.run([os.path.join(TOP, "bindings", "package.py"), "--archives", archive,
                        "--library", linked], check=True)
        os.environ["RTR_WIRE_LIBRARY"] = linked
        return play(Rows())


def play(rows):
    """Plays the rows. The status is 1 if one fails, or too few are played."""
    library, played, wrong = Library(rows), 0, 0
    for where, call, settings, left, right, expected in rows.all():
        method = getattr(library, call.replace("SessionView::", "session_"), None)
        expected = list(rows.spelled(expected))
        answer = method(settings, left, right, expected) if method else None
        if answer is None:
            continue
        played += 1
        if rows.spelled(answer) != rows.spelled(expected):
            wrong += 1
            print(f"{where}: {call}: the library's answer\n  {' '.join(answer)}\nisn't\n"
                  f"  {' '.join(expected)}")
    if played < LEAST:
        print(f"rows: only {played} were played through the library")
    return 1 if wrong or played < LEAST else 0


if __name__ == "__main__":
    sys.exit(main())
