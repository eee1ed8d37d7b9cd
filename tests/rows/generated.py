#!/usr/bin/env python3
"""Gives `test_rows` generated rows: calls whose input, reader, writer or output stops after each
number of bytes, headers of all types, versions and lengths, and all short runs of changes.

The expected answers are computed from docs/PROTOCOL.md, for headers by `fuzz/expected.py`. Each row
has the name of the function below that makes it, with a number, and one that fails is printed with
it. With --print the rows are printed. The programs are those of `built.py`. Prints nothing if all
is well.
"""
import base64
import itertools
import os
import subprocess
import sys

TOP = os.path.realpath(os.path.join(os.path.dirname(os.path.abspath(__file__)), "..", ".."))
sys.path[:0] = [os.path.join(TOP, ".ci"), os.path.join(TOP, "fuzz")]

import built  # noqa: E402  (it lies in another folder, as they all do)
import expected  # noqa: E402
import samples  # noqa: E402

END_0 = samples.unit("end of data of version 0")
END_1 = samples.unit("end of data")
IPV4 = samples.unit("IPv4 prefix")
IPV6_HEAD = bytes.fromhex("01 06 00 00 00 00 00 20 01 17 1a 00")
ASN = bytes.fromhex("00 01 00 0f")
KEY_STRAY = bytes.fromhex("01 09 fe 05 00 00 00 24")
KEY_GONE = bytes.fromhex("01 09 00 00 00 00 00 24")
KEY = samples.unit("router key of four bytes")
KEY_REST = KEY[8:]
ASPA_NAMED = bytes.fromhex("02 0b 00 00 00 00 00 14 00 01 00 0f 00 01 00 0d 00 01 00 0e")
ASPA_BARE = samples.unit("withdrawn ASPA of a large number")
REPORT = samples.unit("report without a unit")

# A unit of a fixed size of each type, and the name of the type.
FIXED = [
    ("SerialNotify", samples.unit("serial notify")),
    ("SerialQuery", samples.unit("serial query", version=1)),
    ("ResetQuery", samples.unit("reset query", version=1)),
    ("CacheResponse", samples.unit("cache response")),
    ("Ipv4Prefix", IPV4),
    ("Ipv6Prefix", IPV6_HEAD + bytes(16) + ASN),
    ("EndOfDataV0", END_0),
    ("EndOfDataV1", END_1),
    ("CacheReset", samples.unit("cache reset")),
]

# Payload units with stray bits, and their forms.
UNITS = [
    (samples.unit("IPv4 prefix with free bits"), IPV4),
    (KEY, KEY),
    (ASPA_NAMED, ASPA_BARE),
    (ASPA_BARE, ASPA_BARE),
    (
        IPV6_HEAD + bytes.fromhex("20 01 0d b8 00 00 00 02 00 0a 00 00 de ad be ef") + ASN,
        IPV6_HEAD + bytes.fromhex("20 01 0c") + bytes(13) + ASN,
    ),
    (KEY_STRAY + KEY_REST, KEY_GONE + KEY_REST),
]

# The same for clients of each version. A router key isn't written before version 1, nor an ASPA
# unit before version 2 (docs/PROTOCOL.md). An end of data of version 0 gets the timings that RFC
# 8210 section 6 recommends, which are those of END_1; one for version 0 loses them.
FIRST_VERSIONS = {4: 0, 6: 0, 9: 1, 11: 2}
END_2 = bytes([2]) + END_1[1:]
ENDS = [END_0, END_1, END_2]

# With these settings a row is run once, as if it had no reader and no writer.
ONCE = "by=whole to=whole"

# Lengths around every bound.
LENGTHS = [*range(70), *range(65520, 65540), 65552, 2**24 + 20, 2**32 - 12, 2**32 - 4, 2**32 - 1]


def sequence_rows():
    """Yields rows of a unit and an end of data at which the input, the reader or the writer
    stops."""
    for (unit, form), end in [(pair, end) for pair in UNITS for end in (END_0, END_1)]:
        given, output = unit + end, form + end
        for count in range(len(given)):
            held = form if count >= len(unit) else b""
            yield f"normalise {given[:count].hex()} => Short {count} : {held.hex()}"
            yield f"normalise by=1 fails={count + 1} {given.hex()} => Reader {count} : {held.hex()}"
        whole = f"{given.hex()} => Ok(1) {len(given)} : {output.hex()}"
        yield f"normalise by=1 fails={len(given) + 1} {whole}"
        yield f"normalise to=1 breaks={len(output) + 1} {whole}"
        for count in range(len(output)):
            taken = len(unit) if count < len(form) else len(given)
            counts = f"{taken} : {output[:count].hex()}"
            yield f"normalise to=1 breaks={count + 1} {given.hex()} => Writer {counts}"
            yield f"normalise to=1 stops={count + 1} {given.hex()} => Writer(own) {counts}"


def into_row(call, units, end, capacity):
    """Returns the row of a run into an output of this capacity, over units and the form of each, if
    any."""
    given = b"".join(unit for unit, _ in units) + end[0]
    taken, written, forms = 0, b"", 0
    call = f"{call} {ONCE} room={capacity} {given.hex()}"
    for count, (unit, form) in enumerate(units):
        if len(written) + len(form) > capacity:
            return f"{call} => NoRoom {count} {forms} {taken} {len(written)} : {written.hex()}"
        taken, written, forms = taken + len(unit), written + form, forms + (form != b"")
    if len(written) + len(end[1]) > capacity:
        return f"{call} => NoRoom {len(units)} {forms} {taken} {len(written)} : {written.hex()}"
    written += end[1]
    return f"{call} => Ok {len(units)} {forms} {len(given)} {len(written)} : {written.hex()}"


def into_rows():
    """Runs into an output of each number of bytes, up to one more than any needs, and over a part
    of the input."""
    for end in ENDS:
        runs = [[], *([pair] for pair in UNITS), UNITS]
        for units in runs:
            size = sum(len(unit) for unit, _ in units) + len(end)
            for capacity in range(size + 14):
                yield into_row("normalise_into", units, (end, end), capacity)
                for version in range(3):
                    call = f"normalise_for_into version={version}"
                    named = [(unit, form_for(version, form)) for unit, form in units]
                    yield into_row(call, named, (end, ENDS[version]), capacity)


def into_stop_rows():
    """Runs into an output with room over a part of the input, and with each limit."""
    given = b"".join(unit for unit, _ in UNITS) + END_1
    for count in range(len(given)):
        whole, taken, written = 0, 0, b""
        for unit, form in UNITS:
            if taken + len(unit) > count:
                break
            whole, taken, written = whole + 1, taken + len(unit), written + form
        counts = f"{whole} {whole} {taken} {len(written)} : {written.hex()}"
        yield f"normalise_into {ONCE} {given[:count].hex()} => Refused Short {counts}"
    for limit in range(len(UNITS) + 1):
        taken = sum(len(unit) for unit, _ in UNITS[:limit])
        for version in (None, 0, 1, 2):
            forms = [form if version is None else form_for(version, form) for _, form in UNITS]
            written = b"".join(forms[:limit])
            kept = sum(form != b"" for form in forms[:limit])
            call = "normalise_into" if version is None else f"normalise_for_into version={version}"
            counts = f"{limit} {kept} {taken} {len(written)} : {written.hex()}"
            yield f"{call} {ONCE} limit={limit} {given.hex()} => TooMany {counts}"


def form_for(version, form):
    """Returns the bytes that are written for clients of a version, given the form."""
    return bytes([version]) + form[1:] if version >= FIRST_VERSIONS[form[1]] else b""


def unit_rows():
    """Calls on one unit in which the input, the reader or the writer stops."""
    calls = [(f"{kind}::", unit) for kind, unit in FIXED]
    calls += [("RouterKey::", KEY), ("Aspa::", ASPA_NAMED), ("Aspa::", ASPA_BARE)]
    for kind, unit in calls:
        for count in range(len(unit)):
            yield f"{kind}read {unit[:count].hex()} => Short taken {count}"
            yield f"{kind}read by=1 fails={count + 1} {unit.hex()} => Reader taken {count}"
            held = unit[:count].hex()
            yield f"{kind}write to=1 breaks={count + 1} {unit.hex()} => Writer {held}"
            yield f"{kind}write to=1 stops={count + 1} {unit.hex()} => Writer(own) {held}"
    for unit, form in [*UNITS, (END_0, END_0), (END_1, END_1)]:
        for count in range(len(unit)):
            yield f"read {unit[:count].hex()} => Short {count}"
            yield f"read by=1 fails={count + 1} {unit.hex()} => Reader {count}"
            yield f"first {unit[:count].hex()} => Short"
        for count in range(len(form)):
            yield f"form to=1 breaks={count + 1} {unit.hex()} => Writer {form[:count].hex()}"
            yield f"form to=1 stops={count + 1} {unit.hex()} => Writer(own) {form[:count].hex()}"
    for _, unit in FIXED:
        body = len(unit) - 8
        header = f"type={unit[1]} length={len(unit)}"
        kind = next(kind for kind, other in FIXED if other == unit)
        for count in range(body):
            given = unit[8 : 8 + count].hex()
            yield f"{kind}::read_payload {header} {given} => Short taken {count}"


def any_rows():
    """Yields units of any type in which the input, the reader or the writer stops."""
    for unit in [unit for _, unit in FIXED] + [KEY, ASPA_NAMED, ASPA_BARE, REPORT]:
        for count in range(len(unit)):
            cut = "Short" if count else "None"
            yield f"AnyUnit::read {unit[:count].hex()} => {cut} taken {count}"
            yield f"SessionView::first {unit[:count].hex()} => Short =>"
            known = len(unit) if count > 7 else None
            yield f"unit_length {unit[:count].hex()} => {known} =>"
            yield f"AnyUnit::read by=1 fails={count + 1} {unit.hex()} => Reader taken {count}"
            held = unit[:count].hex()
            yield f"AnyUnit::write to=1 breaks={count + 1} {unit.hex()} => Writer {held}"
            yield f"AnyUnit::write to=1 stops={count + 1} {unit.hex()} => Writer(own) {held}"
    for count in range(len(REPORT)):
        yield f"Report::read {REPORT[:count].hex()} => Short taken {count}"
        yield f"Report::read by=1 fails={count + 1} {REPORT.hex()} => Reader taken {count}"


# What rows call units of each type.
NAMES = {0: "SerialNotify", 1: "SerialQuery", 2: "ResetQuery", 3: "CacheResponse", 4: "V4",
         6: "V6", 7: "EndOfData", 8: "CacheReset", 9: "RouterKey", 10: "Error", 11: "Aspa"}


def sample_rows():
    """Yields the samples that are listed, as units of any type, and what is written of those that
    sequences have."""
    for sample in samples.SAMPLES:
        given, size = sample.bytes.hex(), len(sample.bytes)
        if sample.line:
            result = f"{NAMES[sample.bytes[1]]} {sample.bytes[0]} {size} {given} taken {size}"
            yield f"AnyUnit::read {given} ff => {result}"
            yield f"unit_length {given} => {size} =>"
        if not sample.refused and sample.bytes[1] in (4, 6, 7, 9, 11):
            yield f"form {given} => Ok {sample.written.hex()}"


# The lengths of units of a fixed size, by type (RFC 8210 sections 5.2 to 5.7 and 5.9).
SIZES = {0: 12, 1: 12, 2: 8, 3: 8, 4: 20, 6: 32, 8: 8}

# The least lengths of the others: a router key without key info (RFC 8210 section 5.10), an error
# report with two lengths (section 5.11), an ASPA unit with its customer.
LEAST = {9: 32, 10: 16, 11: 12}


def any_fault(version, kind, flags, length):
    """Returns the fault of a header of a unit of any type, or nothing."""
    if kind == 7:
        if version > 2:
            return f"UnitVersion({version})"
        return None if length == (24 if version else 12) else "UnitLength"
    if kind in SIZES:
        return None if length == SIZES[kind] else "UnitLength"
    if kind not in LEAST:
        return f"UnitType({kind})"
    if length > 65535:
        return "TooLong"
    if length < LEAST[kind] or (kind == 11 and length % 4):
        return "UnitLength"
    return "EmptyProviders" if kind == 11 and length == 12 and flags & 1 else None


def any_header_rows():
    """Yields headers and the length that they state, and those that are refused by units of any
    type and by error reports."""
    for kind in range(256):
        lengths = LENGTHS if kind <= 11 else [0, 16, 2**32 - 1]
        versions = (0, 1, 2, 3, 255) if kind == 7 else (1, 255)
        for version, flags, length in itertools.product(versions, (0, 1), lengths):
            given = bytes([version, kind, flags, 0]).hex() + f"{length:08x} ..40"
            fault = any_fault(version, kind, flags, length)
            yield f"unit_length {given} => {fault or length} =>"
            if fault:
                yield f"SessionView::first {given} => {fault} =>"
                yield f"AnyUnit::read by=123 {given} => {fault} taken 8"
            if kind != 10:
                yield f"Report::read by=123 {given} => UnitType({kind}) taken 8"
            elif fault:
                yield f"Report::read by=123 {given} => {fault} taken 8"


def fault_name(row, data):
    """Returns the name of the fault of a row of the table of refusals."""
    names = {2: f"UnitType({data[1]})", 3: f"UnitVersion({data[0]})", 4: "TooLong", 5: "UnitLength"}
    return names.get(row, "EmptyProviders")


def header_rows():
    """Yields headers that are refused: of all types, those that are known in all versions and
    lengths."""
    for kind in range(256):
        lengths = LENGTHS if kind in (4, 6, 7, 9, 11) else [0, 20, 2**32 - 1]
        versions = (0, 1, 2, 3, 255) if kind == 7 else (1, 255)
        for version, flags, length in itertools.product(versions, (0, 1), lengths):
            header = bytes([version, kind, flags, 0]) + length.to_bytes(4, "big")
            row, _ = expected.when_refused(header + bytes(80))
            if row in (2, 3, 4, 5, 6):
                fault = fault_name(row, header)
                given = f"{header.hex()} ..40"
                yield f"normalise by=1 to=whole {given} => {fault} 8 :"
                yield f"normalise_for by=whole to=whole version=0 {given} => {fault} 8 :"
                yield f"read by=123 to=whole {given} => {fault} 8"
                yield f"first by=whole to=whole {given} => {fault}"
                yield f"normalise_into {ONCE} {given} => Refused {fault} 0 0 0 0 :"


# The units of rows of apply_in_order: two origins, and two ASPAs of one customer.
IN_ORDER = {
    "FIRST": bytes.fromhex("02 04 00 00 00 00 00 14 01 18 18 00 0a 00 00 00 00 00 00 09"),
    "FIRST_GONE": bytes.fromhex("02 04 00 00 00 00 00 14 00 18 18 00 0a 00 00 00 00 00 00 09"),
    "SECOND": bytes.fromhex("02 04 00 00 00 00 00 14 01 18 18 00 0a 00 01 00 00 00 00 09"),
    "SECOND_GONE": bytes.fromhex("02 04 00 00 00 00 00 14 00 18 18 00 0a 00 01 00 00 00 00 09"),
    "ASPA_ONE": bytes.fromhex("02 0b 01 00 00 00 00 10 00 00 00 40 00 00 00 41"),
    "ASPA_TWO": bytes.fromhex("02 0b 01 00 00 00 00 10 00 00 00 40 00 00 00 42"),
    "ASPA_GONE": bytes.fromhex("02 0b 00 00 00 00 00 0c 00 00 00 40"),
    "END": END_2,
}

# What may be there by each name, in the order of data: nothing, or what one of these announces.
THERE = {"FIRST": [None, "FIRST"], "SECOND": [None, "SECOND"],
         "ASPA": [None, "ASPA_ONE", "ASPA_TWO"]}


def change_made(held, name, unit):
    """Returns the data after a change that sets this name to a unit, or removes it; or why it is
    refused (RFC 8210 section 12). An ASPA replaces the one of its customer."""
    if unit and held[name] and name != "ASPA":
        return None, "Duplicate"
    if not unit and not held[name]:
        return None, "Unknown"
    return {**held, name: unit}, None


def in_order_answer(held, changes):
    """Returns the result of these changes, applied to data one after the other."""
    taken = 0
    for name, unit in changes:
        held, refused = change_made(held, name, unit)
        if refused:
            return f"{refused} {taken} :"
        taken += len(IN_ORDER[unit or f"{name}_GONE"])
    return f"Ok : {' '.join(filter(None, held.values()))} END"


def in_order_rows():
    """Yields all runs of up to four changes of three names, over all data of these."""
    yield from (f"{name} = {unit.hex()}" for name, unit in IN_ORDER.items())
    changes = [(name, unit) for name, units in THERE.items() for unit in units]
    for there in itertools.product(*THERE.values()):
        call = f"apply_in_order {ONCE} {' '.join(filter(None, there))} END |"
        for steps in (run for count in range(5)
                      for run in itertools.product(changes, repeat=count)):
            units = " ".join(unit or f"{name}_GONE" for name, unit in steps)
            answer = in_order_answer(dict(zip(THERE, there)), steps)
            yield f"{call} {units} END => {answer} =>"


def version_rows():
    """Versions that no sequence is written for."""
    for version in range(3, 256):
        for limit in (0, 9):
            call = f"normalise_for version={version} limit={limit}"
            yield f"{call} {IPV4.hex()} {END_0.hex()} => UnitVersion({version}) unasked :"
            call = f"normalise_for_into {ONCE} version={version} limit={limit}"
            result = f"Refused UnitVersion({version}) 0 0 0 0 :"
            yield f"{call} {IPV4.hex()} {END_0.hex()} => {result}"


def text_rows():
    """Texts of key info of all sizes."""
    for count in (0, 1, 2, 3, 4, 65503):
        info = bytes(index % 251 for index in range(count))
        text = base64.urlsafe_b64encode(info).decode().rstrip("=")
        call = "RouterKeyInfo::to_text by=whole to=whole"
        yield f'{call} {info.hex()} => "{text}" shown "{text}" of {info.hex()}'


def main():
    makers = (sequence_rows, unit_rows, any_rows, header_rows, any_header_rows, sample_rows,
              into_rows, into_stop_rows, version_rows, text_rows, in_order_rows)
    rows = [f"{row}  // {maker.__name__} {number}"
            for maker in makers for number, row in enumerate(maker(), 1)]
    if sys.argv[1:] == ["--print"]:
        print("\n".join(rows))
        return
    for program in built.needed("test_rows"):
        ran = subprocess.run([program], input="\n".join(rows).encode(), capture_output=True)
        if ran.returncode != 0 or ran.stdout:
            sys.exit(f"{ran.stdout.decode()}{ran.stderr.decode()}rows: {program} FAILED")


if __name__ == "__main__":
    main()
