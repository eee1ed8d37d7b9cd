#!/usr/bin/env python3
"""Runs programs over changed recordings, and compares what they take with a short reader of them.

usage: recordings.py [--all] [PROGRAM]..

Without PROGRAM it runs `rtr_list`, `rtr_diff` and `rtr_validate` of `built.py`. The recordings have
several answers, sessions, queries, cache resets, notifies and reports; they are cut off at each of
their bytes, have bytes changed, left out and put in, and units left out, doubled, moved and put in.
The reader below follows RFC 8210, docs/PROTOCOL.md and rtr_list(1), and uses nothing of the
library. A program has to accept what the reader accepts, with the same payloads, counts, changes or
validity, and to refuse what it refuses. With --all every change is tried; else a random choice of
them, the same in each run. Prints nothing if all is well.
"""
import base64
import ipaddress
import json
import os
import random
import struct
import subprocess
import sys
import tempfile
from collections import Counter
from concurrent.futures import ThreadPoolExecutor

TOP = os.path.realpath(os.path.join(os.path.dirname(os.path.abspath(__file__)), "..", ".."))
sys.path.insert(0, os.path.join(TOP, ".ci"))

import built  # noqa: E402  (it lies in another folder)

NAMES = ("rtr_list", "rtr_diff", "rtr_validate")

# The time limit of a run in seconds, and how many inputs are tried without --all.
SECONDS = 60
SOME = 2500

# Units by their types (RFC 8210 section 5).
NOTIFY, SERIAL_QUERY, RESET_QUERY, RESPONSE, IPV4, IPV6 = 0, 1, 2, 3, 4, 6
END, RESET, KEY, REPORT, ASPA = 7, 8, 9, 10, 11
PAYLOADS = (IPV4, IPV6, KEY, ASPA)
LENGTHS = {NOTIFY: 12, SERIAL_QUERY: 12, RESET_QUERY: 8, RESPONSE: 8, IPV4: 20, IPV6: 32, RESET: 8}
LEAST = {KEY: 32, REPORT: 16, ASPA: 12}
WIDTHS = {IPV4: 32, IPV6: 128}


class Refused(Exception):
    """A recording that the reader refuses, and why."""


# ---- units (docs/PROTOCOL.md, "When it is refused")

def length_of(unit):
    """Returns the length of the unit that these bytes begin with."""
    version, kind, session, length = struct.unpack_from(">BBHI", unit)
    if kind not in LENGTHS and kind not in LEAST and kind != END:
        raise Refused(f"type {kind}")
    if kind == END and version > 2:
        raise Refused(f"version {version}")
    right = length == (LENGTHS.get(kind) or (24 if version else 12))
    if kind in LEAST:
        right = LEAST[kind] <= length <= 65535 and (kind != ASPA or length % 4 == 0)
    if kind == ASPA and length == 12 and session >> 8 & 1:
        raise Refused("no providers")
    if not right:
        raise Refused(f"length {length} of type {kind}")
    return length


def units_of(content):
    """Returns the units of a recording."""
    found = []
    while content:
        if len(content) < 8 or len(content) < length_of(content):
            raise Refused("cut off")
        length = length_of(content)
        found.append(content[:length])
        content = content[length:]
    return found


def has_lengths(unit):
    """Reports whether the lengths of a prefix unit are consistent."""
    return unit[9] <= unit[10] <= WIDTHS[unit[1]]


def announces(unit):
    """Reports whether a payload unit announces; else it withdraws."""
    return bool((unit[8] if unit[1] in WIDTHS else unit[2]) & 1)


def numbers(content):
    """32-bit numbers, one after the other."""
    return struct.unpack(f">{len(content) // 4}I", content)


def payload_of(unit):
    """Returns the identity of a payload unit, and an ASPA's providers."""
    if unit[1] in WIDTHS:
        net = ipaddress.ip_network((unit[12:-4], unit[9]), strict=False)
        return ("origin", net, unit[10], *numbers(unit[-4:])), ()
    if unit[1] == KEY:
        return ("key", unit[8:28], *numbers(unit[28:32]), unit[32:]), ()
    return ("aspa", *numbers(unit[8:12])), numbers(unit[12:])


# ---- data (rtr_list(1), "DATA OF A RECORDING")

def is_before(serial, other):
    """Reports whether a serial number comes before another one (RFC 1982)."""
    return 0 < (other - serial) % 2**32 < 2**31


class Reader:
    """Reads the answers of a recording. `asked` is the content of the next answer: all data after a
    reset query or a cache reset; changes after a serial query."""

    def __init__(self):
        # The data, and the session and serial number of the last answer.
        self.data, self.last = {}, None
        # What an answer that is open makes of them, and its session; whether it begins with no
        # payloads, and whether that is so because it was asked for.
        self.open, self.session, self.whole, self.wished = None, None, False, False
        # Whether it has no cache response, and no answer before it.
        self.bare = False
        self.asked, self.ends = False, 0

    def read(self, unit):
        """Takes a unit."""
        kind = unit[1]
        if kind in (RESET, REPORT) and self.open is not None:
            raise Refused("inside an answer")
        if kind in (RESET, RESET_QUERY, SERIAL_QUERY):
            self.asked, self.wished = kind != SERIAL_QUERY, False
        elif kind == RESPONSE:
            self.begin(struct.unpack_from(">H", unit, 2)[0])
        elif kind in PAYLOADS or kind == END:
            # Without a cache response it is in the session before, if there is one.
            if self.open is None:
                self.begin(self.last[0] if self.last else None)
            if kind == END:
                self.end(*struct.unpack_from(">H4xI", unit, 2))
            else:
                self.change(unit)

    def begin(self, session):
        """Begins an answer; one that is open is cut off, and the data stay as they were."""
        if self.open is not None:
            self.asked |= self.wished
        self.session = session
        self.whole = self.asked or self.last is None or self.last[0] != session
        self.open = {} if self.whole else dict(self.data)
        self.wished, self.asked = self.asked, False

    def change(self, unit):
        """Makes the change of a payload unit."""
        if unit[1] in WIDTHS and not has_lengths(unit):
            raise Refused("lengths of a prefix")
        name, parts = payload_of(unit)
        if announces(unit):
            # An ASPA replaces the one of its customer.
            if name in self.open and unit[1] != ASPA:
                raise Refused("announced twice")
            self.open[name] = parts
        elif self.open.pop(name, None) is None:
            raise Refused("withdrawal of what isn't there")

    def end(self, session, serial):
        """Ends the answer that is open."""
        if self.session not in (None, session):
            raise Refused("another session")
        if not self.whole and is_before(serial, self.last[1]):
            raise Refused("an earlier serial number")
        self.data, self.open, self.last = self.open, None, (session, serial)
        self.wished, self.ends = False, self.ends + 1


def data_of(content):
    """Returns the payloads that a recording leaves."""
    reader = Reader()
    for unit in units_of(content):
        reader.read(unit)
    if reader.open is not None or not reader.ends:
        raise Refused("no end of data")
    return reader.data


# ---- rules (rtr_list(1), "BROKEN RULES")

def breaks_alone(unit):
    """Reports whether a unit breaks a rule by itself."""
    kind = unit[1]
    flags = unit[8] if kind in WIDTHS else unit[2] if kind in (KEY, ASPA) else 0
    broken = flags > 1
    if kind in (RESET_QUERY, RESET, IPV4, IPV6):
        broken |= unit[2:4] != bytes(2)
    if kind in WIDTHS:
        broken |= unit[11] != 0 or not has_lengths(unit)
        if has_lengths(unit):
            address = int.from_bytes(unit[12:-4], "big")
            broken |= address % 2**(WIDTHS[kind] - unit[9]) != 0
    if kind in (KEY, ASPA):
        broken |= unit[3] != 0 or unit[0] < (1 if kind == KEY else 2)
    if kind == ASPA:
        providers = numbers(unit[12:])
        broken |= bool(providers) and not announces(unit)
        broken |= any(first >= second for first, second in zip(providers, providers[1:]))
    if kind == END and unit[0] > 0:
        broken |= breaks_times(*numbers(unit[12:]))
    return broken | (kind == REPORT and breaks_report(unit))


def breaks_times(refresh, retry, expire):
    """Reports whether a cache may not send these times (RFC 8210 section 6)."""
    return not (1 <= refresh <= 86400 and 1 <= retry <= 7200 and 600 <= expire <= 172800
                and expire > max(refresh, retry))


def breaks_report(unit):
    """Reports whether the parts of an error report don't fit, or may not be there."""
    about = int.from_bytes(unit[8:12], "big")
    if 16 + about > len(unit):
        return True
    text = unit[16 + about:]
    if int.from_bytes(unit[12 + about:16 + about], "big") != len(text):
        return True
    try:
        text.decode("utf-8")
    except UnicodeDecodeError:
        return True
    return about >= 2 and unit[13] == REPORT


def breaks(units):
    """Reports whether units break a rule, alone or in their sequence."""
    version = session = last = None
    inside, ends, asked, held = False, 0, False, set()
    for unit in units:
        kind = unit[1]
        if breaks_alone(unit):
            return True
        asked |= kind in (SERIAL_QUERY, RESET_QUERY)
        if kind == RESPONSE:
            if inside:
                return True
            version, session, inside, held = unit[0], unit[2:4], True, set()
        if kind in PAYLOADS or kind == END:
            if not inside:
                version, session, inside = unit[0], last, True
            if version != unit[0]:
                return True
        if kind in PAYLOADS:
            name, _ = payload_of(unit)
            if announces(unit) and name in held:
                return True
            (held.add if announces(unit) else held.discard)(name)
        if kind == END:
            if session not in (None, unit[2:4]):
                return True
            last, inside, held, ends = unit[2:4], False, set(), ends + 1
    return inside or not (ends or asked)


# ---- the expected output of each program

def text_of(payload, _parts):
    """Returns an origin as a line of CSV."""
    _, net, longest, asn = payload
    return f"AS{asn},{net},{longest}"


def by_csv(content):
    """Returns the lines of `rtr_list --csv`."""
    data = data_of(content)
    return sorted(text_of(name, data[name]) for name in data if name[0] == "origin")


def by_vrps(content):
    """Returns the payloads of `rtr_list --vrps`."""
    return sorted(data_of(content).items(), key=str)


def read_csv(text):
    """Returns the rows that `rtr_list --csv` printed."""
    head, *lines = text.splitlines()
    assert head == "ASN,IP Prefix,Max Length", head
    return sorted(lines)


def read_vrps(text):
    """Returns the payloads that `rtr_list --vrps` printed."""
    found = json.loads(text)
    origins = [("origin", ipaddress.ip_network(each["prefix"]), each["maxLength"],
                asn_of(each["asn"])) for each in found["roas"]]
    keys = [("key", bytes.fromhex(each["ski"]), asn_of(each["asn"]),
             base64.b64decode(each["pubkey"])) for each in found["bgpsec_keys"]]
    aspas = [(("aspa", asn_of(each["customer_asid"])), tuple(map(asn_of, each["providers"])))
             for each in found["aspas"]]
    return sorted([*((name, ()) for name in origins + keys), *aspas], key=str)


def asn_of(value):
    """Returns the number of an AS, with or without letters before it."""
    return int(str(value).removeprefix("AS"))


KINDS = {NOTIFY: "serial notify", SERIAL_QUERY: "serial query", RESET_QUERY: "reset query",
         RESPONSE: "cache response", IPV4: "IPv4 prefix", IPV6: "IPv6 prefix", KEY: "router key",
         ASPA: "ASPA", END: "end of data", RESET: "cache reset", REPORT: "error report"}


def by_summary(content):
    """Returns the lines of `rtr_list --summary`."""
    units = units_of(content)
    found = Counter({"complete: yes": 1, f"bytes: {len(content)}": 1, f"units: {len(units)}": 1})
    for kind, name in KINDS.items():
        of_kind = [unit for unit in units if unit[1] == kind]
        for action, flag in (("announce", True), ("withdraw", False)) if kind in PAYLOADS else ():
            found[f"{name} {action}: {sum(announces(unit) == flag for unit in of_kind)}"] += 1
        if kind not in PAYLOADS:
            found[f"{name}: {len(of_kind)}"] += 1
    for line in answers_of(units) or ["none"]:
        found[f"answer: {line}"] += 1
    origins = [unit for unit in units if unit[1] in WIDTHS and announces(unit)]
    for (kind, length), count in Counter((unit[1], unit[9]) for unit in origins).items():
        found[f"{KINDS[kind]} length: /{length} {count}"] += 1
    ases = sorted(Counter(numbers(unit[-4:])[0] for unit in origins).items(),
                  key=lambda each: (-each[1], each[0]))
    for asn, count in ases[:10]:
        found[f"largest AS: AS{asn} {count}"] += 1
    return found


def answers_of(units):
    """Returns the answers of units, in words."""
    counts, found = Counter(), []
    for unit in units:
        if unit[1] in PAYLOADS:
            counts[announces(unit)] += 1
        if unit[1] == END:
            session, serial = struct.unpack_from(">H4xI", unit, 2)
            found.append(f"session {session} serial {serial} announces {counts[True]} withdraws "
                         f"{counts[False]}")
        if unit[1] in (RESPONSE, END):
            counts = Counter()
    return found


def read_summary(text):
    """Returns the lines that `rtr_list --summary` printed, each with its count."""
    return Counter(": ".join(part.strip() for part in line.split(":", 1))
                   for line in text.splitlines())


def shown(fields):
    """Returns the payload of an object of `rtr_diff --json`."""
    asn = fields.get("asn")
    if fields["kind"] == "router_key":
        info = fields["subject_public_key_info"]
        info = base64.urlsafe_b64decode(info + "=" * (-len(info) % 4))
        return ("key", bytes.fromhex(fields["subject_key_identifier"]), asn, info), ()
    if fields["kind"] == "aspa":
        return ("aspa", fields["customer_asn"]), tuple(fields["provider_asns"])
    net = ipaddress.ip_network((fields["prefix"], fields["prefix_length"]))
    return ("origin", net, fields["max_length"], asn), ()


def differences(old, new):
    """Returns the output of `rtr_diff --json` for old and new data."""
    return sorted([(True, name, parts) for name, parts in new.items() if old.get(name) != parts]
                  + [(False, name, ()) for name in old if name not in new], key=str)


def read_diff(text):
    """Returns the changes that `rtr_diff --json` printed."""
    found = map(json.loads, text.splitlines())
    return sorted([(each["action"] == "announce", *shown(each)) for each in found], key=str)


def validity(data, net, asn):
    """Returns the validity of a route (RFC 6811 section 2)."""
    over = [name for name in data if name[0] == "origin" and name[1].version == net.version
            and net.subnet_of(name[1])]
    matches = any(name[3] == asn != 0 and net.prefixlen <= name[2] for name in over)
    return "valid" if matches else "invalid" if over else "not found"


# ---- runs

class Programs:
    """The programs, and the errors of a run of each over an input."""

    def __init__(self, paths, old):
        self.paths = {os.path.basename(path).split(".")[0]: path for path in paths}
        self.old = old

    def run(self, name, words, content):
        """Returns the status of a run, and what it printed."""
        done = subprocess.run([self.paths[name], *words], input=content, capture_output=True,
                              timeout=SECONDS, check=False)
        return done.returncode, done.stdout.decode(), done.stderr.decode().strip()

    def wrong(self, content, route):
        """Yields the errors of all runs over a recording."""
        for name, words, good, expected, read in self.runs(content, route):
            if name not in self.paths:
                continue
            status, text, errors = self.run(name, words, content)
            what = f"{name} {' '.join(words)}: "
            try:
                right = expected()
            except Refused as error:
                if status in good:
                    yield f"{what}takes what the reader refuses: {error}"
                continue
            if status not in good:
                yield f"{what}status {status}, {errors}; the reader takes it"
            elif read(text) != right:
                yield f"{what}{read(text)}, the reader has {right}"

    def runs(self, content, route):
        """Yields each run: program, arguments, statuses that accept it, the expected result, and
        its parser."""
        net, asn = route
        yield "rtr_list", ["--csv"], [0], lambda: by_csv(content), read_csv
        yield "rtr_list", ["--vrps"], [0], lambda: by_vrps(content), read_vrps
        yield "rtr_list", ["--summary"], [0], lambda: by_summary(content), read_summary
        yield "rtr_list", ["--check"], [0], lambda: checked(content), str
        yield "rtr_diff", ["--json", self.old, "-"], [0, 1], lambda: differences(
            FIRST_DATA, data_of(content)), read_diff
        yield "rtr_validate", ["-", str(net), str(asn)], [0], lambda: answered(
            content, net, asn), lambda text: text.split(": ")[0].strip()


def checked(content):
    """Returns the output of `rtr_list --check` if no rule is broken: nothing."""
    if breaks(units_of(content)):
        raise Refused("a broken rule")
    return ""


def answered(content, net, asn):
    """Returns the output of `rtr_validate` for a route, without reasons. A list without origins is
    refused."""
    if content[:1] and content[0] > 8:
        raise Refused("no units")
    data = data_of(content)
    if not any(name[0] == "origin" for name in data):
        raise Refused("no VRPs")
    return f"{net} AS{asn} {validity(data, net, asn)}"


# ---- recordings

def unit(version, kind, session, rest=b""):
    return struct.pack(">BBHI", version, kind, session, 8 + len(rest)) + rest


def ipv4(version, flags, host, longest=24, asn=64496):
    return unit(version, IPV4, 0, bytes([flags, 24, longest, 0, 192, 0, host, 0])
                + asn.to_bytes(4, "big"))


def ipv6(version, flags, host, longest=48, asn=64497):
    return unit(version, IPV6, 0, bytes([flags, 48, longest, 0])
                + bytes.fromhex("20010db8") + bytes([0, host]) + bytes(10) + asn.to_bytes(4, "big"))


def key(version, flags, number, asn=64498):
    return unit(version, KEY, flags << 8, bytes([number] * 20) + asn.to_bytes(4, "big") + b"key")


def aspa(version, flags, customer, *providers):
    asns = struct.pack(f">{1 + len(providers)}I", customer, *providers)
    return unit(version, ASPA, flags << 8, asns)


def end(version, session, serial, times=(3600, 600, 7200)):
    times = struct.pack(">3I", *times) if version else b""
    return unit(version, END, session, serial.to_bytes(4, "big") + times)


def report(version, code, about=b"", text=b""):
    return unit(version, REPORT, code, len(about).to_bytes(4, "big") + about
                + len(text).to_bytes(4, "big") + text)


def serial(version, kind, session, number):
    return unit(version, kind, session, number.to_bytes(4, "big"))


# All data, changes after a notify, in version 1.
FIRST = [unit(1, RESET_QUERY, 0), unit(1, RESPONSE, 7), ipv4(1, 1, 2), ipv4(1, 1, 3, 28),
         ipv6(1, 1, 1), key(1, 1, 5), end(1, 7, 1), serial(1, NOTIFY, 7, 2),
         serial(1, SERIAL_QUERY, 7, 1), unit(1, RESPONSE, 7), ipv4(1, 1, 4), ipv4(1, 0, 2),
         key(1, 0, 5), end(1, 7, 2)]
# ASPAs that are replaced and withdrawn, and a report that there are no data, in version 2.
SECOND = [report(2, 2, unit(2, RESET_QUERY, 0), b"no data"), unit(2, RESET_QUERY, 0),
          unit(2, RESPONSE, 9), ipv4(2, 1, 2), aspa(2, 1, 64500, 64501, 64502),
          aspa(2, 1, 64503, 64504), end(2, 9, 5), serial(2, SERIAL_QUERY, 9, 5),
          unit(2, RESPONSE, 9), aspa(2, 1, 64500, 64505), aspa(2, 0, 64503), ipv4(2, 1, 9),
          end(2, 9, 6)]
# A cache reset, another session, and an answer that is cut off, in version 0.
THIRD = [unit(0, RESPONSE, 3), ipv4(0, 1, 2), end(0, 3, 2**32 - 1), serial(0, SERIAL_QUERY, 3, 9),
         unit(0, RESET, 0), unit(0, RESET_QUERY, 0), unit(0, RESPONSE, 3), ipv4(0, 1, 2),
         unit(0, RESPONSE, 4), ipv4(0, 1, 3), ipv6(0, 1, 2, 64), end(0, 4, 0)]
# Answers without a cache response, as sequences have them, one after the other.
FOURTH = [ipv4(1, 1, 2), ipv6(1, 1, 3), end(1, 7, 0), ipv4(1, 0, 2), ipv4(1, 1, 2, 25),
          end(1, 7, 1), unit(1, RESET, 0), ipv4(1, 1, 2), end(1, 7, 1)]
# Answers with all data that are cut off, asked for and of another session, and then changes of the
# data before them.
FIFTH = [unit(1, RESET_QUERY, 0), unit(1, RESPONSE, 7), ipv4(1, 1, 2), ipv4(1, 1, 3), end(1, 7, 1),
         unit(1, RESET_QUERY, 0), unit(1, RESPONSE, 7), ipv4(1, 1, 2),
         serial(1, SERIAL_QUERY, 7, 1), unit(1, RESPONSE, 7), ipv4(1, 1, 4), end(1, 7, 2),
         unit(1, RESPONSE, 8), ipv4(1, 1, 9), unit(1, RESPONSE, 7), ipv4(1, 0, 3), end(1, 7, 3)]
RECORDINGS = (FIRST, SECOND, THIRD, FOURTH, FIFTH)
FIRST_DATA = data_of(b"".join(FIRST))

# Units that are put in, of the numbers that recordings have.
MORE = [*dict.fromkeys(sum(RECORDINGS, [])), serial(1, NOTIFY, 8, 1), serial(1, SERIAL_QUERY, 8, 1),
        unit(1, RESET_QUERY, 1), unit(1, RESPONSE, 8), end(1, 7, 0), end(1, 8, 1),
        end(2, 9, 2**31 + 5), end(1, 7, 2, (0, 600, 7200)), end(2, 9, 6, (3600, 7200, 7200)),
        report(1, 0), report(1, 3, b"", b"\xff"), report(1, 0, report(1, 0)),
        ipv4(1, 1, 2, 23), ipv4(1, 3, 2), key(0, 1, 6), aspa(2, 0, 64500, 1), aspa(1, 1, 1, 2),
        aspa(2, 1, 64500, 9, 8)]

ROUTES = [(ipaddress.ip_network(prefix), asn) for prefix in (
    "192.0.2.0/24", "192.0.3.0/26", "192.0.4.0/24", "192.0.9.0/24", "2001:db8:1::/48",
    "2001:db8:2::/64", "10.0.0.0/8") for asn in (64496, 64497, 0)]

# The most frequent replacements of a byte.
LIKELY = b"\x00\x01\x02\x03\x04\x06\x07\x08\x09\x0a\x0b\x0c\x10\x18\x20\x30\x80\xff"


def by_bytes(content, chance):
    """Yields the recording cut off at each byte, and with each byte changed, left out or put in."""
    for at in range(len(content)):
        yield content[:at]
        yield content[:at] + content[at + 1:]
        for _ in range(2):
            likely = chance.choice(LIKELY)
            other = bytes([likely if chance.random() < 0.8 else chance.randrange(256)])
            yield content[:at] + other + content[at + 1:]
            yield content[:at] + other + content[at:]


def by_units(recording):
    """Yields the recording with units removed, duplicated, moved and inserted."""
    for at in range(len(recording)):
        head, unit, tail = recording[:at], recording[at], recording[at + 1:]
        yield b"".join(head + tail)
        yield b"".join(head + [unit, unit] + tail)
        yield b"".join([unit, *head, *tail])
        yield b"".join([*head, *tail, unit])
        if tail:
            yield b"".join([*head, tail[0], unit, *tail[1:]])
        for other in MORE:
            yield b"".join(head + [other] + recording[at:])
            yield b"".join(head + [other] + tail)
    for other in RECORDINGS:
        yield b"".join(recording + other)


def tried(every):
    """Returns the recordings to run: as they are, and changed once or, at random, twice."""
    chance = random.Random(8210)
    found = [b"".join(recording) for recording in RECORDINGS]
    changed = []
    for recording in RECORDINGS:
        changed += [*by_bytes(b"".join(recording), chance), *by_units(recording)]
    for _ in range(len(changed) // 4):
        recording = list(chance.choice(RECORDINGS))
        for _ in range(chance.choice([2, 3])):
            recording.insert(chance.randrange(len(recording) + 1), chance.choice(MORE))
            recording.pop(chance.randrange(len(recording)))
        changed.append(b"".join(recording))
    changed = list(dict.fromkeys(changed))
    return found + (changed if every else chance.sample(changed, min(SOME, len(changed))))


def main():
    every = "--all" in sys.argv[1:]
    paths = [os.path.realpath(path) for path in sys.argv[1:] if path != "--all"] \
        or [path for name in NAMES for path in built.needed(name)[:1]]
    chance, failed = random.Random(6811), 0
    inputs = [(content, chance.choice(ROUTES)) for content in tried(every)]
    with tempfile.NamedTemporaryFile() as old, ThreadPoolExecutor(os.cpu_count()) as threads:
        old.write(b"".join(FIRST))
        old.flush()
        programs = Programs(paths, old.name)
        for (content, _), faults in zip(inputs, threads.map(
                lambda pair: list(programs.wrong(*pair)), inputs)):
            for fault in faults:
                failed += 1
                print(f"recordings: {content.hex()}: {fault}")
    if failed:
        sys.exit(f"recordings: FAILED, {failed} wrong of {len(inputs)} recordings")


if __name__ == "__main__":
    main()
