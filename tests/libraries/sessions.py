#!/usr/bin/env python3
"""Sessions with units of all eleven types, and the expected results of C's calls, computed by RFC
8210 and docs/PROTOCOL.md without the library.

usage: sessions.py cases [SEED] > CASES    for the tests of the bindings
       sessions.py session > SESSION       a session with each type
       sessions.py printed > TEXT          what bindings/c/session.c prints of it

Each case is

- eight bytes each, little-endian: the length of the input, and how many answers there are;
- the input;
- the answers of one call after the other, each where the last one says that the next unit begins:
  the numbers of NUMBERS, eight bytes each, the address, the key identifier, the length of the
  written form in eight bytes, and that form, which is empty after a fault.
"""
import random
import struct
import sys

NOTIFY, QUERY, RESET_QUERY, RESPONSE, IPV4, IPV6, END, RESET, KEY, REPORT, ASPA = (
    0, 1, 2, 3, 4, 6, 7, 8, 9, 10, 11)
NAMES = {NOTIFY: "serial notify", QUERY: "serial query", RESET_QUERY: "reset query",
         RESPONSE: "cache response", IPV4: "IPv4 prefix", IPV6: "IPv6 prefix", END: "end of data",
         RESET: "cache reset", KEY: "router key", REPORT: "error report", ASPA: "ASPA"}
WIDTHS = {IPV4: 32, IPV6: 128}
CODES = {0: "Corrupt Data", 5: "Unsupported PDU Type"}
OK, SHORT, UNIT_TYPE, UNIT_VERSION, TOO_LONG, UNIT_LENGTH, EMPTY_PROVIDERS, PREFIX = range(8)

# The fields of an answer that are numbers, in order.
NUMBERS = ["status", "size", "wanted", "part_start", "part_length", "text_start", "text_length",
           "asn", "customer", "serial", "refresh", "retry", "expire", "session", "code", "kind",
           "version", "action", "family", "prefix_length", "max_length", "detail"]


def number(piece):
    return int.from_bytes(piece, "big")


def header_fault(data):
    """Returns the status and the detail of the first eight bytes."""
    version, kind, flags, _, length = struct.unpack(">BBBBI", data[:8])
    fixed = {NOTIFY: 12, QUERY: 12, RESET_QUERY: 8, RESPONSE: 8, RESET: 8, IPV4: 20, IPV6: 32,
             END: 12 if version == 0 else 24}
    least = {KEY: 32, REPORT: 16, ASPA: 12}
    if kind not in NAMES:
        return UNIT_TYPE, kind
    if kind == END and version > 2:
        return UNIT_VERSION, version
    if kind in least and length > 65535:
        return TOO_LONG, 0
    if length != fixed.get(kind, length) or length < least.get(kind, 0):
        return UNIT_LENGTH, 0
    if kind == ASPA and length % 4:
        return UNIT_LENGTH, 0
    if kind == ASPA and length == 12 and flags % 2:
        return EMPTY_PROVIDERS, 0
    return OK, 0


def prefix_rule(unit):
    """Returns the rule that the lengths of a prefix break, or 0."""
    width, length, most = WIDTHS[unit[1]], unit[9], unit[10]
    return 1 if length > width else 2 if most > width else 3 if most < length else 0


def parts(unit):
    """Returns the unit that a report encloses and its text, if its inner lengths fit."""
    first = number(unit[8:12])
    if 16 + first > len(unit):
        return None
    second = number(unit[12 + first:16 + first])
    return (first, second) if 16 + first + second == len(unit) else None


def fields(unit):
    """Returns the fields of a whole unit, and its form."""
    version, kind, flags = unit[0], unit[1], unit[2] % 2
    shown = {"size": len(unit), "kind": kind, "version": version}
    address, identifier, form = bytes(16), bytes(20), unit
    if kind in (NOTIFY, QUERY, RESPONSE, END):
        shown["session"] = number(unit[2:4])
    if kind in (NOTIFY, QUERY, END):
        shown["serial"] = number(unit[8:12])
    if kind in (RESET_QUERY, RESET):
        form = bytes([version, kind, 0, 0, 0, 0, 0, 8])
    if kind == END and version > 0:
        shown["refresh"], shown["retry"], shown["expire"] = struct.unpack(">III", unit[12:])
    if kind in WIDTHS:
        width, length = WIDTHS[kind] // 8, unit[9]
        cleared = (number(unit[12:12 + width]) >> (8 * width - length) << (8 * width - length))
        raw = cleared.to_bytes(width, "big")
        address = raw + bytes(16 - width)
        shown.update(asn=number(unit[-4:]), action=unit[8] % 2, family=4 if kind == IPV4 else 6,
                     prefix_length=length, max_length=unit[10])
        form = (bytes([version, kind, 0, 0]) + unit[4:8]
                + bytes([unit[8] % 2, length, unit[10], 0]) + raw + unit[-4:])
    if kind == KEY:
        identifier = unit[8:28]
        shown.update(asn=number(unit[28:32]), action=flags, part_start=32,
                     part_length=len(unit) - 32)
        form = bytes([version, kind, flags, 0]) + unit[4:]
    if kind == ASPA:
        shown.update(customer=number(unit[8:12]), action=flags, part_start=12,
                     part_length=len(unit) - 12)
        body = unit[8:] if flags else unit[8:12]
        form = bytes([version, kind, flags, 0]) + struct.pack(">I", 8 + len(body)) + body
    if kind == REPORT:
        shown["code"] = number(unit[2:4])
        if parts(unit):
            first, second = parts(unit)
            shown.update(part_start=12, part_length=first, text_start=16 + first,
                         text_length=second)
        else:
            form = bytes([version, kind]) + unit[2:4] + struct.pack(">III", 16, 0, 0)
    return shown, address, identifier, form


def answer(data):
    """Returns the answer for the unit at the start of the bytes."""
    nothing = bytes(16), bytes(20), b""
    if len(data) < 8:
        return {"status": SHORT, "wanted": 8}, *nothing
    status, detail = header_fault(data)
    if status != OK:
        return {"status": status, "detail": detail}, *nothing
    length = number(data[4:8])
    if len(data) < length:
        return {"status": SHORT, "wanted": length}, *nothing
    unit = data[:length]
    if unit[1] in WIDTHS and prefix_rule(unit):
        return {"status": PREFIX, "detail": prefix_rule(unit), "size": length}, *nothing
    return fields(unit)


def walk(data):
    """Returns the answers in order, skipping prefixes that are refused."""
    while True:
        answered = answer(data)
        yield answered
        if answered[0].get("status", OK) not in (OK, PREFIX):
            return
        data = data[answered[0]["size"]:]


# ---- sessions

def unit(version, kind, field, body):
    return struct.pack(">BBHI", version, kind, field, 8 + len(body)) + body


def report(version, code, pdu, text):
    return unit(version, REPORT, code,
                struct.pack(">I", len(pdu)) + pdu + struct.pack(">I", len(text)) + text)


def any_unit(rng, kind):
    """Returns a unit of this type with random fields, as a sender may fill them."""
    version = rng.choice([0, 1, 2])
    field, some = rng.getrandbits(16), rng.randbytes
    if kind in (NOTIFY, QUERY):
        return unit(version, kind, field, some(4))
    if kind in (RESET_QUERY, RESPONSE, RESET):
        return unit(version, kind, field, b"")
    if kind in WIDTHS:
        length = rng.randint(0, WIDTHS[kind])
        lengths = bytes([rng.getrandbits(8), length, rng.randint(length, WIDTHS[kind]),
                         rng.getrandbits(8)])
        return unit(version, kind, field, lengths + some(WIDTHS[kind] // 8 + 4))
    if kind == END:
        return unit(version, kind, field, some(4 if version == 0 else 16))
    if kind == KEY:
        return unit(version, kind, field, some(24 + rng.choice([0, 1, 91])))
    if kind == ASPA:
        return unit(version, kind, field, some(4 + 4 * rng.choice([1, 2, 7])))
    return report(version, field, some(rng.choice([0, 8, 20])), some(rng.choice([0, 5, 40])))


def hostile(rng, kind):
    """Returns a unit of this type with an impossible length, or inner lengths that don't fit."""
    good = bytearray(any_unit(rng, kind))
    lengths = [0, 7, 8, 9, 11, 12, 13, 15, 16, 20, 24, 31, 32, 33, 65532, 65535, 65536,
               2**24, 2**31, 2**32 - 1, len(good) - 1, len(good) + 1]
    if kind == REPORT and rng.random() < 0.6:
        at = rng.choice([8, 12 + number(good[8:12])])
        value = rng.choice([0, 1, len(good) - 16, len(good) - 15, len(good), 2**31, 2**32 - 4,
                            2**32 - 1])
        good[at:at + 4] = struct.pack(">I", value)
    elif kind in WIDTHS and rng.random() < 0.5:
        good[9], good[10] = rng.choice([(33, 33), (129, 129), (8, 7), (8, 130), (255, 0)])
    elif kind == END and rng.random() < 0.3:
        good[0] = rng.choice([3, 255])
    else:
        good[4:8] = struct.pack(">I", rng.choice(lengths))
    return bytes(good)


def sessions(rng):
    """Yields sessions of each kind: whole ones, truncated ones, hostile ones, and the longest
    units."""
    kinds = list(NAMES)
    yield b"".join(any_unit(rng, kind) for kind in kinds)
    for kind in kinds:
        whole = any_unit(rng, kind)
        for end in range(len(whole) + 1):
            yield whole[:end]
        for _ in range(60):
            after = any_unit(rng, rng.choice(kinds))
            yield any_unit(rng, kind) + hostile(rng, kind) + after
    for kind in range(256):
        yield unit(1, kind, 0, bytes(12))
    for _ in range(300):
        yield b"".join(rng.choice([any_unit, any_unit, any_unit, hostile])(rng, rng.choice(kinds))
                       for _ in range(rng.randint(1, 12)))
    yield unit(1, KEY, 0x100, rng.randbytes(65527)) + unit(2, ASPA, 0x100, rng.randbytes(65524))
    yield report(1, 3, rng.randbytes(65519), b"") + report(1, 3, b"", rng.randbytes(65519))
    yield report(1, 3, rng.randbytes(65500), rng.randbytes(20))


def the_session():
    """Returns a session of a router and a cache, with each type, all free bytes zero."""
    v4 = bytes([1, 24, 26, 0, 192, 0, 2, 0]) + struct.pack(">I", 64496)
    v6 = bytes([0, 32, 48, 0]) + bytes.fromhex("20010db8") + bytes(12) + struct.pack(">I", 64497)
    broken = bytes([1, 24, 23, 0, 192, 0, 2, 0]) + struct.pack(">I", 64496)
    refused = unit(2, IPV4, 0, broken)
    return b"".join([
        unit(2, RESET_QUERY, 0, b""), unit(2, RESPONSE, 4660, b""), unit(2, IPV4, 0, v4),
        unit(2, IPV6, 0, v6),
        unit(2, KEY, 0x100, bytes(range(20)) + struct.pack(">I", 64498) + b"\xca\xfe\x00"),
        unit(2, ASPA, 0x100, struct.pack(">III", 64499, 64500, 64501)), refused,
        unit(2, END, 4660, struct.pack(">IIII", 7, 3600, 600, 7200)),
        unit(2, NOTIFY, 4660, struct.pack(">I", 8)), unit(2, QUERY, 4660, struct.pack(">I", 7)),
        unit(2, RESET, 0, b""), report(2, 0, refused, b"max length below prefix length"),
        unit(2, REPORT, 5, struct.pack(">II", 100, 0)),
    ])


def line(data, answered):
    """Returns what session.c prints for a unit."""
    shown, address, _, _ = answered
    kind, unit = shown.get("kind"), data[:shown.get("size", 0)]
    if shown.get("status", OK) == PREFIX:
        return f"prefix fields are not allowed, {shown['size']} bytes"
    text = f"{NAMES[kind]}, {shown['size']} bytes"
    if kind in (NOTIFY, QUERY, END):
        return text + f": session {shown['session']}, serial {shown['serial']}"
    if kind == RESPONSE:
        return text + f": session {shown['session']}"
    if kind in WIDTHS:
        return text + (f": {address[:4].hex()}../{shown['prefix_length']}-{shown['max_length']}"
                       f" AS{shown['asn']}")
    if kind == KEY:
        return text + f": AS{shown['asn']}, {shown['part_length']} bytes of key info"
    if kind == ASPA:
        providers = struct.unpack(f">{shown['part_length'] // 4}I", unit[12:])
        return text + f": AS{shown['customer']} by" + "".join(f" AS{asn}" for asn in providers)
    if kind == REPORT:
        start, length = shown.get("text_start", 0), shown.get("text_length", 0)
        message = unit[start:start + length].decode()
        quoted = f', "{message}"' if message else ""
        return text + f": {CODES[shown['code']]}{quoted}, about {shown.get('part_length', 0)} bytes"
    return text


def printed(data):
    """Returns what session.c prints for a session, and its last line."""
    at = 0
    for answered in walk(data):
        if answered[0].get("status", OK) == SHORT:
            yield f"unexpected end of input, {answered[0]['wanted']} bytes"
            return
        yield line(data[at:], answered)
        at += answered[0]["size"]


def main():
    out = sys.stdout.buffer
    if sys.argv[1:2] == ["session"]:
        out.write(the_session())
    elif sys.argv[1:2] == ["printed"]:
        out.write("".join(text + "\n" for text in printed(the_session())).encode())
    elif sys.argv[1:2] == ["cases"]:
        rng = random.Random(sys.argv[2] if len(sys.argv) > 2 else "1")
        for data in sessions(rng):
            answers = list(walk(data))
            out.write(struct.pack("<2Q", len(data), len(answers)) + data)
            for shown, address, identifier, form in answers:
                out.write(struct.pack(f"<{len(NUMBERS)}Q", *(shown.get(n, 0) for n in NUMBERS)))
                out.write(address + identifier + struct.pack("<Q", len(form)) + form)
    else:
        sys.exit(__doc__)


if __name__ == "__main__":
    main()
