"""Units that `rtr_list` lists: samples in hex digits, random ones and long ones. Their JSON objects
are decoded here, without the library."""
import base64
import ipaddress
import json
import random
import struct

import samples

KEY_ID = "0102030405060708090a0b0c0d0e0f1011121314"

# The samples: first the listed ones, then the refused ones.
LISTED = [sample for sample in samples.SAMPLES if sample.line]
REFUSED = [(sample.bytes.hex(" "), sample.refused) for sample in samples.SAMPLES if not sample.line]


def spaced(name):
    """Returns the bytes of a sample as pairs of digits."""
    return samples.unit(name).hex(" ")


RESPONSE = spaced("cache response")
IPV4 = spaced("IPv4 prefix")
IPV4_GONE = IPV4.replace("14 01", "14 00")
IPV4_HOST = IPV4.replace("02 00", "02 0a")
IPV6 = ("01 06 00 00 00 00 00 20 01 17 1a 00 "
        "20 01 0c 00 00 00 00 00 00 00 00 00 00 00 00 00 00 01 00 0f")
KEY = spaced("router key of four bytes")
ASPA = spaced("ASPA of large numbers")
OLDER = spaced("ASPA of an older draft")
END = spaced("end of data")
CLEAN = f"{RESPONSE} {IPV4} {IPV6} {KEY} {END}"

KINDS = {
    0: "serial_notify",
    1: "serial_query",
    2: "reset_query",
    3: "cache_response",
    4: "ipv4_prefix",
    6: "ipv6_prefix",
    7: "end_of_data",
    8: "cache_reset",
    9: "router_key",
    10: "error_report",
    11: "aspa",
}


def unhex(text):
    """Returns the bytes of pairs of hex digits."""
    return bytes.fromhex(text)


def split(data):
    """Yields the units of the data, each with its offset."""
    offset = 0
    while offset < len(data):
        length = int.from_bytes(data[offset + 4 : offset + 8], "big")
        yield offset, data[offset : offset + length]
        offset += length


def lines(texts):
    """Returns the texts, each on a line."""
    return "".join(f"{text}\n" for text in texts)


def reported(unit):
    """Returns the unit and the text inside an error report, or nothing if their lengths don't
    fit."""
    rest, parts = unit[8:], []
    for _ in range(2):
        length = int.from_bytes(rest[:4], "big")
        if len(rest) < 4 + length:
            return None, None
        parts.append(rest[4 : 4 + length])
        rest = rest[4 + length :]
    return (None, None) if rest else tuple(parts)


def decoded(text):
    """Returns the text, or nothing if it isn't UTF-8."""
    try:
        return None if text is None else text.decode()
    except UnicodeDecodeError:
        return None


def report_fields(unit, session):
    """Returns the fields of an error report."""
    pdu, text = reported(unit)
    return {
        "error_code": session,
        "erroneous_pdu": None if pdu is None else pdu.hex(),
        "error_text_bytes": None if text is None else text.hex(),
        "error_text": decoded(text),
    }


def address_text(data):
    """Returns the address, IPv4-mapped ones in the mixed form of RFC 5952 section 5."""
    address = ipaddress.ip_address(data)
    mapped = getattr(address, "ipv4_mapped", None)
    return str(address) if mapped is None else f"::ffff:{mapped}"


def numbers(data):
    """Returns the numbers of four bytes each."""
    return [number for (number,) in struct.iter_unpack(">I", data)]


def payload_fields(unit, kind, session):
    """Returns the fields of a payload unit."""
    flags = unit[8] if kind in (4, 6) else unit[2]
    fields = {"flags": flags, "action": "announce" if flags & 1 else "withdraw"}
    if kind in (4, 6):
        fields["zero"] = [session, unit[11]]
        fields["prefix"] = address_text(unit[12:-4])
        fields["prefix_length"], fields["max_length"] = unit[9], unit[10]
        fields["asn"] = numbers(unit[-4:])[0]
    elif kind == 9:
        fields["zero"] = [unit[3]]
        fields["subject_key_identifier"] = unit[8:28].hex()
        fields["asn"] = numbers(unit[28:32])[0]
        info = base64.urlsafe_b64encode(unit[32:]).decode().rstrip("=")
        fields["subject_public_key_info"] = info
    else:
        fields["zero"] = [unit[3]]
        fields["customer_asn"], *fields["provider_asns"] = numbers(unit[8:])
    return fields


def object_of(offset, unit):
    """Returns the expected JSON object of the unit."""
    version, kind, session, length = struct.unpack(">BBHI", unit[:8])
    fields = {"offset": offset, "length": length, "kind": KINDS[kind], "version": version}
    if kind in (0, 1, 3, 7):
        fields["session_id"] = session
    if kind in (0, 1, 7):
        fields["serial_number"] = numbers(unit[8:12])[0]
    if kind in (2, 8):
        fields["zero"] = [session]
    if kind == 7 and version > 0:
        names = ("refresh_interval", "retry_interval", "expire_interval")
        fields.update(zip(names, numbers(unit[12:])))
    if kind in (4, 6, 9, 11):
        fields.update(payload_fields(unit, kind, session))
    if kind == 10:
        fields.update(report_fields(unit, session))
    return fields


def fields_of(line):
    """Returns the fields of the JSON object in a line, or nothing if the line isn't one."""
    try:
        fields = json.loads(line, object_pairs_hook=list)
    except ValueError:
        return None
    held = isinstance(fields, list) and all(isinstance(field, tuple) for field in fields)
    return fields if held else None


def some_unit(rng):
    """Returns a random unit of any kind that can be read."""
    kind = rng.choice(list(KINDS))
    version = rng.choice((0, 1, 2)) if kind == 7 else rng.randrange(256)
    session = rng.randrange(65536)
    if kind == 10:
        pdu, text = (rng.randbytes(rng.randrange(40)) for _ in range(2))
        body = struct.pack(">I", len(pdu)) + pdu + struct.pack(">I", len(text)) + text
        if rng.random() < 0.2:
            body += rng.randbytes(rng.randrange(1, 9))
        elif rng.random() < 0.2:
            shown = rng.choice(("sé\u2028\x00\x7f\"\\", "plain", "\U0001f600")).encode()
            body = bytes(4) + struct.pack(">I", len(shown)) + shown
    else:
        sizes = {0: 4, 1: 4, 4: 12, 6: 24, 7: 16 if version else 4, 9: 24 + rng.randrange(99)}
        sizes[11] = 8 + 4 * rng.randrange(9)
        body = rng.randbytes(sizes.get(kind, 0))
        if kind == 6 and rng.random() < 0.5:
            body = body[:4] + bytes(rng.choice((0, 0, 255)) for _ in range(16)) + body[20:]
    return struct.pack(">BBHI", version, kind, session, 8 + len(body)) + body


def random_units(seed):
    """Returns 20,000 random units that are listed: an announced ASPA without providers isn't."""
    rng = random.Random(seed)
    units = [some_unit(rng) for _ in range(20000)]
    return [unit for unit in units if not (unit[1] == 11 and unit[2] & 1 and len(unit) == 12)]


def long_units():
    """Long units, the longest of their kinds among them, and their lines of text."""
    key_id = unhex(KEY_ID)
    for size in (301, 32768, 65503):
        info = (bytes(range(251)) * 300)[:size]
        text = base64.urlsafe_b64encode(info).decode().rstrip("=")
        unit = unhex("01 09 01 00") + struct.pack(">I", 32 + size) + key_id + unhex("00 01 00 0f")
        yield unit + info, f"v1 router key announce {KEY_ID} AS65551 {text}"
    for count in (101, 8000, 16380):
        asns = range(65551, 65551 + count)
        unit = unhex("02 0b 01 00") + struct.pack(">II", 12 + 4 * count, 65000)
        text = "".join(f" AS{asn}" for asn in asns)
        yield unit + struct.pack(f">{count}I", *asns), f"v2 ASPA announce AS65000 providers{text}"
    for size, text in ((4097, b"no data"), (65535, b"~" * 30000)):
        pdu = (b"\x01\x04" + bytes(range(251)) * 300)[: size - 16 - len(text)]
        parts = struct.pack(">I", len(pdu)) + pdu + struct.pack(">I", len(text)) + text
        shown = f'pdu "{pdu.hex()}" text "{text.decode()}"'
        unit = unhex("01 0a 00 00") + struct.pack(">I", size) + parts
        yield unit, f"v1 error report code 0 (Corrupt Data) {shown}"


def announced_units(count):
    """`count` announcements of each kind of payload, and one withdrawal of the first."""
    head = unhex("01 04 00 00 00 00 00 14 01 18 18 00")
    units = [head + struct.pack(">II", (10 << 24) + (i << 8), 65551) for i in range(count)]
    yield units, units[0][:8] + b"\0" + units[0][9:]
    head = unhex("01 06 00 00 00 00 00 20 01 30 30 00 20 01 0d b8")
    units = [head + struct.pack(">HxxxxxxxxxxI", i, 65551) for i in range(count)]
    yield units, units[0][:8] + b"\0" + units[0][9:]
    head = unhex("01 09 01 00 00 00 00 24") + bytes(16)
    units = [head + struct.pack(">III", i, 65551, 7) for i in range(count)]
    yield units, units[0][:2] + b"\0" + units[0][3:]
    # An ASPA is withdrawn without providers.
    head = unhex("02 0b 01 00 00 00 00 10")
    units = [head + struct.pack(">II", i, 65551) for i in range(count)]
    yield units, unhex("02 0b 00 00 00 00 00 0c 00 00 00 00")
