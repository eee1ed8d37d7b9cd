"""What the program has to do with an input, by docs/PROTOCOL.md.

Read it beside that page: it uses the same words. It shares nothing with the library.
"""
import struct

# The types of payload units, with the first version that has each.
PAYLOAD_TYPES = {4: 0, 6: 0, 9: 1, 11: 2}

# The width of an address.
WIDTHS = {4: 32, 6: 128}

# The rows of the table of refusals, by number.
ROWS = {
    1: "Short in a header",
    2: "UnitType",
    3: "UnitVersion",
    4: "TooLong",
    5: "UnitLength",
    6: "EmptyProviders",
    7: "Short in a unit",
    8: "Refused",
}

# The rows that depend on where the input ends.
SHORT_ROWS = [1, 7]

# Refresh, retry and expire for an end of data that has none.
TIMINGS = struct.pack(">III", 3600, 600, 7200)


def number(piece):
    """Returns the number in the bytes, big-endian."""
    return int.from_bytes(piece, "big")


def has_length(version, kind, length):
    """Reports whether a unit of this type (an end of data: of this version) may have this
    length."""
    if kind == 9:
        return length >= 32
    if kind == 11:
        return length >= 12 and length % 4 == 0
    return length == {4: 20, 6: 32, 7: 12 if version == 0 else 24}[kind]


def when_refused(data):
    """Returns the number of the first row that applies to the bytes, or 0, and what is printed."""
    if len(data) < 8:
        return 1, "unexpected end of input"
    version, kind, flags, _, length = struct.unpack(">BBBBI", data[:8])
    if kind != 7 and kind not in PAYLOAD_TYPES:
        return 2, f"unit type {kind} is not allowed here"
    if kind == 7 and version > 2:
        return 3, f"version {version} is not supported here"
    if kind in (9, 11) and length > 65535:
        return 4, "unit is longer than 65535 bytes"
    if not has_length(version, kind, length):
        return 5, "invalid unit length"
    if kind == 11 and flags % 2 == 1 and length == 12:
        return 6, "ASPA unit has no providers"
    if len(data) < length:
        return 7, "unexpected end of input"
    if kind in WIDTHS and not data[9] <= data[10] <= WIDTHS[kind]:
        return 8, "prefix fields are not allowed"
    return 0, ""


def written_form(unit, version):
    """Returns the payload unit in canonical form, in this version."""
    kind = unit[1]
    if kind in WIDTHS:
        flags, length, max_length = unit[8] % 2, unit[9], unit[10]
        host_bits = WIDTHS[kind] - length
        address = number(unit[12:-4]) >> host_bits << host_bits
        front = struct.pack(">BBHIBBBB", version, kind, 0, len(unit), flags, length, max_length, 0)
        return front + address.to_bytes(WIDTHS[kind] // 8, "big") + unit[-4:]
    flags = unit[2] % 2
    body = unit[8:12] if kind == 11 and flags == 0 else unit[8:]
    return struct.pack(">BBBBI", version, kind, flags, 0, 8 + len(body)) + body


def end_for(end, version):
    """Returns the end of data in this version."""
    timings = b"" if version == 0 else end[12:] or TIMINGS
    header = bytes([version, 7, *end[2:4]]) + struct.pack(">I", 12 + len(timings))
    return header + end[8:12] + timings


def answer(data, to_version=None):
    """Returns output, status, line on standard error, and the row of the refusal, or 0.

    If `to_version` is given, the sequence is written for this version.
    """
    output = []
    data = memoryview(data)
    while True:
        row, text = when_refused(data)
        if row > 0:
            return b"".join(output), 1, text + "\n", row
        length = number(data[4:8])
        unit, data = data[:length], data[length:]
        version = unit[0] if to_version is None else to_version
        if unit[1] == 7:
            return b"".join(output) + end_for(unit, version), 0, "", 0
        if to_version is None or PAYLOAD_TYPES[unit[1]] <= to_version:
            output.append(written_form(unit, version))
