"""Units as RFC 8210 section 5 draws them, and the words for them in a scene's comments."""
import struct

NOTIFY, SERIAL_QUERY, RESET_QUERY, RESPONSE, IPV4, IPV6, END, RESET, KEY, REPORT, ASPA = (
    0, 1, 2, 3, 4, 6, 7, 8, 9, 10, 11)
NAMES = {NOTIFY: "serial notify", SERIAL_QUERY: "serial query", RESET_QUERY: "reset query",
         RESPONSE: "cache response", IPV4: "IPv4 prefix", IPV6: "IPv6 prefix", END: "end of data",
         RESET: "cache reset", KEY: "router key", REPORT: "error report", ASPA: "ASPA"}
SESSION, OTHER_SESSION = 4660, 7
ANNOUNCE, WITHDRAW = 1, 0
USUAL = (3600, 600, 7200)  # refresh, retry, expire: what section 6 recommends


def unit(version, kind, field, body=b""):
    return struct.pack(">BBHI", version, kind, field, 8 + len(body)) + body


def notify(version, serial, session=SESSION):
    return unit(version, NOTIFY, session, struct.pack(">I", serial))


def serial_query(version, serial, session=SESSION):
    return unit(version, SERIAL_QUERY, session, struct.pack(">I", serial))


def reset_query(version):
    return unit(version, RESET_QUERY, 0)


def response(version, session=SESSION):
    return unit(version, RESPONSE, session)


def cache_reset(version):
    return unit(version, RESET, 0)


def ipv4(version, asn, action=ANNOUNCE):
    """Returns 10.0.0.0/8-24 of an AS."""
    return unit(version, IPV4, 0, bytes([action, 8, 24, 0, 10, 0, 0, 0]) + struct.pack(">I", asn))


def ipv6(version, asn, action=ANNOUNCE):
    """2001:db8::/32-48 of an AS."""
    address = bytes.fromhex("20010db8") + bytes(12)
    return unit(version, IPV6, 0, bytes([action, 32, 48, 0]) + address + struct.pack(">I", asn))


def key(version, asn, action=ANNOUNCE):
    body = bytes(range(1, 21)) + struct.pack(">I", asn) + b"\xca\xfe"
    return unit(version, KEY, action << 8, body)


def aspa(version, customer, providers, action=ANNOUNCE):
    body = struct.pack(f">{1 + len(providers)}I", customer, *providers)
    return unit(version, ASPA, action << 8, body)


def end(version, serial, session=SESSION, times=USUAL):
    timing = struct.pack(">III", *times) if version else b""
    return unit(version, END, session, struct.pack(">I", serial) + timing)


def report(version, code, about=b"", text=b""):
    body = struct.pack(">I", len(about)) + about + struct.pack(">I", len(text)) + text
    return unit(version, REPORT, code, body)


def split(data):
    """Yields the units of some bytes, and the rest."""
    while len(data) >= 8 and 8 <= struct.unpack(">I", data[4:8])[0] <= len(data):
        length = struct.unpack(">I", data[4:8])[0]
        yield data[:length]
        data = data[length:]
    if data:
        yield data


def spaced(data):
    """Returns a unit in hexadecimal: version, type, session, length, and what follows."""
    text = data.hex()
    fields = [text[:2], text[2:4], text[4:8], text[8:16], text[16:]]
    return " ".join(field for field in fields if field)


def words(data):
    """Returns the unit in words."""
    version, kind = data[0], data[1] if len(data) > 1 else None
    if len(data) < 8 or kind not in NAMES:
        return f"{len(data)} bytes"
    field, = struct.unpack(">H", data[2:4])
    text = NAMES[kind] if version < 3 else f"{NAMES[kind]} of version {version}"
    if kind in (NOTIFY, SERIAL_QUERY, END) and len(data) >= 12:
        return f"{text}, session {field}, serial {struct.unpack('>I', data[8:12])[0]}"
    if kind == RESPONSE:
        return f"{text}, session {field}"
    if kind == REPORT:
        return f"{text}, code {field}"
    if kind in (IPV4, IPV6) and len(data) in (20, 32):
        return f"{text} {'+' if data[8] % 2 else '-'} AS{struct.unpack('>I', data[-4:])[0]}"
    if kind in (KEY, ASPA):
        return f"{text} {'+' if data[2] % 2 else '-'}"
    return text
