#!/usr/bin/env python3
"""Drives the page of inspector/ in Chromium without a window: drops recordings on it, and compares
its content with the output of rtr_list and rtr_diff.

usage: inspector.py [--pictures FOLDER]    with --pictures it also writes pictures of the page

The programs and the module are those of `built.py`. Without Chromium it prints that it is skipped.
"""
import ipaddress
import json
import os
import random
import struct
import subprocess
import sys
import tempfile
import time

import browser
import captures

TOP = os.path.realpath(os.path.join(os.path.dirname(os.path.abspath(__file__)), "..", ".."))
sys.path[:0] = [os.path.join(TOP, ".ci"), os.path.join(TOP, "tests", "libraries")]

import built  # noqa: E402  (it lies in another folder, as they all do)
import deltas  # noqa: E402
import sessions  # noqa: E402
import validity  # noqa: E402

SESSION = os.path.join(built.TOP, "crates", "rtr_list", "stdin")
OLD, NEW = (os.path.join(built.TOP, "crates", "rtr_diff", "data", name) for name in ("old", "new"))
MANY = 1_000_000
MANY_PACKETS = 150_000

# The time limit in seconds for listing a million units: a busy machine takes much longer.
LIMIT = 30

# The most memory of the page, as a multiple of the file's size.
MOST = 4

ROWS = """[...document.querySelectorAll('#%s .row')].map((row) => (
    [Number(row.dataset.row), [...row.children].map((cell) => cell.textContent)]))"""


def wrong(text):
    sys.exit(f"inspector: {text}")


def same(shown, expected, what):
    if shown != expected:
        wrong(f"{what}:\n  shown  {shown}\n  wanted {expected}")


def printed(program, *words, given=b""):
    """Returns the output of a program."""
    done = subprocess.run([built.program(program), *words], input=given, stdout=subprocess.PIPE,
                          stderr=subprocess.PIPE)
    return done.stdout.decode(), done.stderr.decode()


# ---- the output of rtr_list and rtr_diff, as the page shows it

NAMES = {"ipv4_prefix": "IPv4 prefix", "ipv6_prefix": "IPv6 prefix", "aspa": "ASPA"}


def prefix_text(unit):
    net = ipaddress.ip_network(f"{unit['prefix']}/{unit['prefix_length']}", strict=False)
    return f"{net.network_address}/{net.prefixlen}-{unit['max_length']} AS{unit['asn']}"


def payload_text(unit):
    kind = unit["kind"]
    session = f"session {unit.get('session_id')}"
    if kind in ("serial_notify", "serial_query"):
        return f"{session} serial {unit['serial_number']}"
    if kind == "cache_response":
        return session
    if kind == "end_of_data":
        times = "".join(f" {name} {unit[name + '_interval']}"
                        for name in ("refresh", "retry", "expire") if name + "_interval" in unit)
        return f"{session} serial {unit['serial_number']}{times}"
    if kind.endswith("_prefix"):
        return prefix_text(unit)
    if kind == "router_key":
        return (f"{unit['subject_key_identifier']} AS{unit['asn']} "
                f"{unit['subject_public_key_info']}")
    if kind == "aspa":
        providers = "".join(f" AS{asn}" for asn in unit["provider_asns"])
        return f"AS{unit['customer_asn']} providers{providers}"
    if kind == "error_report":
        if unit["erroneous_pdu"] is None:
            return f"code {unit['error_code']}, and its lengths don't fit"
        text = json.dumps(unit["error_text"], ensure_ascii=False)
        return f"code {unit['error_code']} about {unit['erroneous_pdu'] or 'no unit'} {text}"
    return ""


def row_of(unit):
    """Returns the cells of a unit, without its offset and version if rtr_diff prints none."""
    kind = NAMES.get(unit["kind"], unit["kind"].replace("_", " "))
    front = [str(unit["offset"]), f"v{unit['version']}"] if "offset" in unit else []
    return [*front, kind, unit.get("action", ""), payload_text(unit)]


def listed(data):
    return [json.loads(line) for line in printed("rtr_list", "--json", given=data)[0].splitlines()]


# ---- the page

class Page:
    """The page in a browser."""

    def __init__(self, driven, folder):
        self.browser = driven
        self.folder = folder
        self.count = 0

    def open(self, url):
        self.browser.open(url)
        self.browser.wait("document.body && document.body.dataset.state")
        same(self.text("status"), "Open or drop a recording.", "at first")

    def file(self, data, name=None):
        """Writes a file of these bytes."""
        self.count += 1
        path = os.path.join(self.folder, name or f"recording-{self.count}")
        with open(path, "wb") as file:
            file.write(data)
        return path

    def drop(self, *paths):
        """Drops files, and waits until they are shown. Returns how many seconds that took."""
        self.browser.run("document.body.dataset.state = ''")
        began = time.monotonic()
        self.browser.drop(*paths)
        state = self.browser.wait("document.body.dataset.state.match(/shown|failed/)?.[0]")
        same(state, "shown", f"after {paths}")
        self.browser.run("new Promise(requestAnimationFrame).then(() => 1)")
        return time.monotonic() - began

    def text(self, name):
        """Returns the text of an element, with single spaces."""
        return " ".join(self.browser.run(f"document.getElementById('{name}').innerText").split())

    def tab(self, name):
        self.browser.run(f"document.getElementById('tab-{name}').click()")

    def fill(self, form, **values):
        """Fills fields of a form, and submits it."""
        for name, value in values.items():
            field = f"document.forms.{form}.elements.{name}"
            self.browser.run(f"{field}.value = {json.dumps(str(value))}")
        self.browser.run(f"document.forms.{form}.requestSubmit()")

    def rows(self, table="units"):
        """Returns the visible rows, each with its number and its cells."""
        self.browser.run("new Promise((done) => requestAnimationFrame(() => requestAnimationFrame("
                         "() => done(1))))")
        return self.browser.run(ROWS % table)

    def all_rows(self, table="units"):
        """Returns all rows, read page by page."""
        self.browser.run(f"document.getElementById('{table}').focus()")
        self.browser.press("Home")
        found = {}
        while True:
            before = len(found)
            found.update((number, cells) for number, cells in self.rows(table))
            if len(found) == before:
                return [found[number] for number in sorted(found)]
            self.browser.press("PageDown")

    def shown(self):
        """Waits until a filter is applied, and returns how many units match."""
        return self.text_with("shown", "shown")

    def text_with(self, name, word):
        """Waits until an element has a word, and returns its text."""
        return self.browser.wait(
            f"document.getElementById('{name}').textContent.match(/{word}/)?.input")

    def filtered(self, **values):
        self.browser.run("document.forms.filter.reset(); "
                         "new Promise((done) => { setTimeout(() => done(1), 50); })")
        self.browser.run("document.getElementById('shown').textContent = ''")
        self.fill("filter", **values)
        return self.shown()


# ---- recordings

def million():
    """Returns a cache response, a million IPv4 and IPv6 prefixes in order, and an end of data."""
    four = struct.Struct(">BBHIBBBBII")
    six = struct.Struct(">BBHIBBBBQQI")
    count = MANY * 7 // 10
    units = [sessions.unit(1, sessions.RESPONSE, 4660, b"")]
    units += [four.pack(1, 4, 0, 20, 1, 24, 24 + index % 5, 0, index << 8, 64496 + index % 4000)
              for index in range(count)]
    units += [six.pack(1, 6, 0, 32, 1, 48, 48 + index % 3, 0, 0x20010db800000000 + (index << 16), 0,
                       64496 + index % 900) for index in range(MANY - count)]
    units.append(sessions.unit(1, sessions.END, 4660, struct.pack(">IIII", 7, 3600, 600, 7200)))
    return b"".join(units)


def answers(rng, data, session):
    """Returns a recording of two answers that result in these data, with other units that a cache
    may send."""
    first = deltas.any_data(rng, 8)
    end = [sessions.unit(2, sessions.RESPONSE, session, b"")]
    steps = [(1, payload) for payload in rng.sample(sorted(first), len(first))]
    units = end + deltas.units_of(rng, 2, steps)
    units += [deltas.end_form((2, session, 1, [1, 2, 3]))]
    units += [sessions.unit(2, sessions.NOTIFY, session, struct.pack(">I", 2))] + end
    units += deltas.units_of(rng, 2, deltas.delta(first, data))
    return b"".join(units) + deltas.end_form((2, session, 2, [1, 2, 3]))


# ---- checks

def check_session(page):
    """Checks each unit of the sample, its bytes, and keys."""
    page.drop(SESSION)
    with open(SESSION, "rb") as file:
        units = listed(file.read())
    same(page.all_rows(), [row_of(unit) for unit in units], "the sample's units")
    page.fill("goto", offset=45)
    same(page.browser.wait("document.querySelector('#unit h2')?.textContent"),
         "IPv4 prefix, version 1", "the unit of byte 45")
    fields = page.browser.run("[...document.querySelectorAll('#unit tr')].slice(1).map((row) => ("
                              "[...row.cells].slice(1).map((cell) => cell.textContent)))")
    same([field[:2] + field[4:] for field in fields], [
        ["version", "0", ""], ["type", "1", ""], ["free", "2 to 3", "16"], ["length", "4 to 7", ""],
        ["flags", "8", "7"], ["prefix length", "9", ""], ["max length", "10", ""],
        ["free", "11", "8"], ["address", "12 to 14", "1"], ["free", "15", "8"],
        ["AS", "16 to 19", ""]],
        "fields of the IPv4 prefix")
    prefix = [unit for unit in units if unit["offset"] <= 45][-1]
    decimals = {field[0]: field[3] for field in fields if field[0] != "free"}
    del decimals["address"]
    same(decimals, {"version": "1", "type": "4", "length": "20", "flags": "1",
                    "prefix length": str(prefix["prefix_length"]),
                    "max length": str(prefix["max_length"]), "AS": str(prefix["asn"])},
         "values in decimal")
    page.browser.run("document.getElementById('units').focus()")
    page.browser.press("End")
    same(page.browser.run("document.querySelector('#unit h2').textContent"),
         "Error report, version 1", "the last unit")
    same(page.browser.run("document.getElementById('units').getAttribute('aria-activedescendant')"),
         "units-10", "the active row")


def check_million(page):
    """Checks a million units: rows anywhere, filters, time and memory."""
    data = million()
    path = page.file(data, "million")
    before = renderer_memory(page)
    took = page.drop(path)
    grew = renderer_memory(page) - before
    if took > LIMIT:
        wrong(f"a million units took {took:.1f} s to be listed")
    if grew > MOST * len(data):
        wrong(f"a million units in {len(data)} bytes took {grew} bytes of memory")
    units = listed(data)
    starts = {unit["offset"]: index for index, unit in enumerate(units)}
    indexes = [0, 1, len(units) - 1, *random.Random(1).sample(range(len(units)), 20)]
    for index in indexes:
        page.fill("goto", offset=units[index]["offset"] + 3)
        rows = dict(page.rows())
        same(rows.get(index), row_of(units[index]), f"unit {index} of a million")
        for number, cells in rows.items():
            same(starts[int(cells[0])], number, "the number of a row")
    count = sum(unit.get("asn") == 64500 for unit in units)
    same(page.filtered(**{"as": 64500}), f"{count:,} units of {len(units):,} are shown.", "by AS")
    within = [unit for unit in units if unit["kind"] == "ipv4_prefix"
              and unit["prefix"].startswith("0.7.")]
    same(page.filtered(prefix="0.7.0.0/16"), f"{len(within)} units of {len(units):,} are shown.",
         "by prefix")
    same([cells for _, cells in page.rows()][:5], [row_of(unit) for unit in within[:5]],
         "the first of them")
    for prefix in ("0.7.3.128/25", "0.7.3.0/24"):
        covers = page.filtered(prefix=prefix, relation="covers")
        same(covers, f"1 unit of {len(units):,} are shown.", f"by {prefix}, which is covered")
    return took, grew / len(data)


def renderer_memory(page):
    """Returns the memory of the page's process, in bytes."""
    page.browser.call("HeapProfiler.collectGarbage")
    children = subprocess.run(["ps", "-eo", "pid=,ppid=,args="], stdout=subprocess.PIPE,
                              text=True).stdout.splitlines()
    mine = {page.browser.process.pid}
    sizes = 0
    for line in children:
        pid, parent, args = line.split(None, 2)
        if int(parent) in mine:
            mine.add(int(pid))
            if "--type=renderer" in args:
                with open(f"/proc/{pid}/status", encoding="ascii") as status:
                    sizes += sum(1024 * int(row.split()[1]) for row in status
                                 if row.startswith(("RssAnon:", "RssShmem:")))
    return sizes


def check_broken(page):
    """Refused units, and files that aren't recordings."""
    with open(SESSION, "rb") as file:
        session = file.read()
    strange = session[:92] + bytes([1, 173, 0, 0, 0, 0, 0, 8])
    other_version = session[:148] + b"\x07" + session[149:]
    for data, code in ((session[:100], 0), (strange, 5), (other_version, 4)):
        page.drop(page.file(data))
        stderr = printed("rtr_list", given=data)[1]
        offset, reason = stderr.removeprefix("rtr_list: offset ").strip().split(": ")
        text = page.text("faults")
        if f" Byte {offset} " not in text or reason[:7] not in text:
            wrong(f"a fault: {text}, and rtr_list: {stderr}")
        if f"an error report of code {code} is owed" not in text:
            wrong(f"a fault of code {code}: {text}")
        same(page.all_rows()[:-1], [row_of(unit) for unit in listed(data)], "the units before it")
    bad = sessions.the_session()
    page.drop(page.file(bad))
    same(len(page.all_rows()), len(listed(bad)), "the units around a broken prefix")
    for data, hint in ((b'{"roas": []}', "JSON"), (b"ASN,IP Prefix,Max Length\n", "text"),
                       (b"\xd4\xc3\xb2\xa1\2\0\4\0",
                        "a packet capture without a session of RTR in plain TCP")):
        page.drop(page.file(data))
        if f"It is no recording, but looks like {hint}: " not in page.text("faults"):
            wrong(f"{hint}: {page.text('faults')}")
    page.drop(page.file(b""))
    same(page.text("faults"), "It is empty.", "an empty file")


def check_rules(page):
    """Broken rules, and that each line leads to its unit."""
    bad = sessions.the_session()
    with open(SESSION, "rb") as file:
        sample = file.read()
    for data in (bad, sample, sample[:100]):
        page.drop(page.file(data))
        page.browser.run("document.getElementById('tab-rules').click()")
        page.browser.wait("document.getElementById('panel-rules').dataset.state === 'shown'")
        shown = page.browser.run("[...document.querySelectorAll('#findings button')]"
                                 ".map((link) => link.textContent)")
        same(shown, printed("rtr_list", "--check", given=data)[0].splitlines(), "broken rules")
    page.drop(page.file(bad))
    page.browser.run("document.getElementById('tab-rules').click()")
    page.browser.wait("document.getElementById('panel-rules').dataset.state === 'shown'")
    first = printed("rtr_list", "--check", given=bad)[0].split(":")[0].removeprefix("offset ")
    page.browser.run("document.querySelector('#findings button').click()")
    text = page.browser.wait("document.querySelector('#unit p')?.textContent")
    if not text.startswith(f"From byte {int(first):,}, "):
        wrong(f"the unit of byte {first}: {text}")


def check_compared(page):
    """Checks the changes from one recording to another."""
    rng = random.Random("inspector")
    pairs = [(OLD, NEW), (SESSION, OLD)]
    for _ in range(6):
        old = deltas.any_data(rng, 12)
        new = deltas.changed(rng, old)
        pairs.append((page.file(answers(rng, old, 1)),
                      page.file(answers(rng, new, rng.choice([1, 2])))))
    for between, session in ((b"", 2), (sessions.unit(2, sessions.RESET, 0, b""), 1),
                             (sessions.unit(2, sessions.RESET_QUERY, 0, b""), 1)):
        first, second = (
            answers(rng, frozenset([(sessions.IPV4, bytes([net, 0, 0, 0]), 8, 8, net)]), own)
            for net, own in ((10, 1), (11, session)))
        pairs.append((page.file(first + between + second), OLD))
    for old, new in pairs:
        page.drop(old, new)
        text = page.text_with("compared", "From ")
        lines = printed("rtr_diff", "--json", old, new)[0].splitlines()
        changes = [json.loads(line) for line in lines]
        announced = sum(change["action"] == "announce" for change in changes)
        for number, word in ((announced, "announcement"), (len(changes) - announced, "withdrawal")):
            if f"{number} {word}" not in text:
                wrong(f"{old} {new}: {text}, and rtr_diff has {changes}")
        same(page.all_rows("changes"), [row_of(change) for change in changes], f"{old} {new}")
    responses = [sessions.any_unit(rng, sessions.RESPONSE) for _ in range(2)]
    page.drop(page.file(b"".join(responses)), SESSION)
    shown = page.text_with("compared", "leaves")
    if "leaves no data: at byte 16, unexpected end of input" not in shown:
        wrong(f"a recording without an end of data: {shown}")


def check_routes(page):
    """Checks the validity of routes, by the rows of tests/libraries/validity.py."""
    rows = list(validity.row_tables())
    for vrps in {tuple(row[0]) for row in rows}:
        page.drop(page.file(validity.units_of(vrps) + validity.END))
        page.tab("route")
        for route, expected in [row[1:] for row in rows if tuple(row[0]) == vrps]:
            prefix = validity.shown(route.prefix, route.width, route.length)
            page.fill("route", prefix=prefix, **{"as": route.asn})
            found = validity.covering(vrps, route)
            shown = page.browser.run("document.querySelectorAll('#vrps tr').length")
            same([page.text("validity").split(": ", 1)[-1].split(":")[0].rstrip("."), shown],
                 [expected, len(found) + 1 if found else 0], f"{prefix} AS{route.asn}")


ROUTER, CACHE = ("192.0.2.10", 40000), ("192.0.2.1", 323)
FIRST = 1000, 2 ** 32 - 40  # sequence numbers
SIX = ("2001:db8::10", 40001), ("2001:db8::1", 8282)


def exchange():
    """Returns a query, an answer, a notify and a report: seconds, whether the router sends it,
    bytes."""
    table = [captures.ipv4("198.51.100.0/24", 25, 64496), captures.ipv6("2001:db8::/32", 48, 64497)]
    response = sessions.unit(1, sessions.RESPONSE, 4660, b"")
    return [
        (0.25, True, sessions.unit(1, sessions.RESET_QUERY, 0, b"")),
        (0.5, False, response + b"".join(table)), (0.75, False, captures.end_of_data(4660, 7)),
        (60, False, sessions.unit(1, sessions.NOTIFY, 4660, struct.pack(">I", 8))),
        (60.125, True, sessions.unit(1, sessions.QUERY, 4660, struct.pack(">I", 7))),
    ]


def session_rows(exchanged):
    """Returns the rows of a session that was captured whole."""
    rows, before = [], {True: b"", False: b""}
    for seconds, is_router, sent in exchanged:
        for unit in listed(before[is_router] + sent):
            if unit["offset"] >= len(before[is_router]):
                rows.append([f"{seconds - exchanged[0][0]:.3f}", "router" if is_router else "cache",
                             *row_of(unit)])
        before[is_router] += sent
    return rows


def whole_captures():
    """Yields captures of one exchange, each with its name."""
    exchanged = exchange()
    frames = captures.connection(ROUTER, CACHE, exchanged, first=FIRST)
    swapped = [*frames[:3], (frames[3][0], frames[4][1]), (frames[4][0], frames[3][1]), *frames[5:]]
    yield "nanoseconds", captures.pcap(frames, ticks=10 ** 9), exchanged
    yield "big-endian", captures.pcap(frames, order=">"), exchanged
    yield "pcapng", captures.pcapng(frames), exchanged
    yield "pcapng, big-endian", captures.pcapng(frames, order=">", resolution=6), exchanged
    yield "each twice", captures.pcap([frame for frame in frames for _ in range(2)]), exchanged
    yield "without its beginning", captures.pcap(frames[2:]), exchanged
    yield "IPv6", captures.pcap(captures.connection(*SIX, exchanged)), exchanged
    yield "VLAN", captures.pcap([(time, frame[:12] + b"\x81\0\0\7" + frame[12:])
                                 for time, frame in frames]), exchanged
    for link in (captures.RAW, captures.COOKED, captures.COOKED_2):
        linked = captures.connection(ROUTER, CACHE, exchanged, link=link)
        yield f"link type {link}", captures.pcap(linked, link), exchanged
    late = [*exchanged[:1], (0.75, *exchanged[1][1:]), *exchanged[2:]]
    yield "out of order", captures.pcap(swapped), late
    yield "out of order without its beginning", captures.pcap(swapped[2:]), late
    yield "the SYN late", captures.pcap([frames[2], *frames[:2], *frames[3:]]), exchanged
    for name, probe in ("a probe first", b""), ("a probe of a byte first", b"\0"):
        probes = [(captures.BEGAN, captures.framed(captures.segment(*ends, before - 1, probe)))
                  for ends, before in (((ROUTER, CACHE), FIRST[0]), ((CACHE, ROUTER), FIRST[1]))]
        yield name, captures.pcap([*probes, *frames[2:]]), exchanged


def check_captures(page):
    """Sessions of packet captures: their units in both directions, and what is missing."""
    for name, data, exchanged in whole_captures():
        page.drop(page.file(data, f"{name}.pcap"))
        same(page.all_rows(), session_rows(exchanged), f"a capture, {name}")
    exchanged = exchange()
    frames = captures.connection(ROUTER, CACHE, exchanged, first=FIRST)
    taken, ended = len(exchanged[1][2]), len(exchanged[1][2]) + len(exchanged[2][2])
    later = captures.segment(CACHE, ROUTER, FIRST[1] + ended + 20, exchanged[3][2])
    reset = captures.segment(CACHE, ROUTER, FIRST[1] + 999, flags=captures.RST)
    acknowledges = captures.segment(ROUTER, CACHE, FIRST[0] + len(exchanged[0][2]),
                                    acknowledged=FIRST[1] + ended + 12)
    for name, kept, words in (
            ("the last packet is lost", [*frames[:5], (captures.BEGAN + 9,
                                                       captures.framed(acknowledges)),
                                         (captures.BEGAN + 9, captures.framed(reset))],
             f"12 bytes of the cache are missing in the capture after byte {ended}:"),
            ("many packets after a lost one",
             [*frames[:5], *MANY_PACKETS * [(captures.BEGAN + 1, captures.framed(later))]],
             f"20 bytes of the cache are missing in the capture after byte {ended}:"),
            ("a packet is missing", [*frames[:4], *frames[5:]],
             f"{len(exchanged[2][2])} bytes of the cache are missing in the capture after byte "
             f"{taken}:"),
            ("a packet is cut off", [*frames[:3], (*frames[3], 14 + 40 + 8), *frames[4:]],
             f"{taken - 8} bytes of the cache are missing in the capture after byte 8:")):
        page.drop(page.file(captures.pcap(kept)))
        if words not in page.text("status"):
            wrong(f"{name}: {page.text('status')}")
    page.drop(page.file(captures.pcap(frames)[:-3]))
    if "the capture is cut off inside a packet, at byte " not in page.text("status"):
        wrong(f"a capture that is cut off: {page.text('status')}")
    check_sessions(page, frames)


def check_sessions(page, frames):
    """Checks a capture with two sessions beside another connection, and steps of one."""
    other = [(0, False, sessions.unit(0, sessions.NOTIFY, 9, struct.pack(">I", 1)))]
    strange = captures.connection(("192.0.2.10", 5), ("192.0.2.1", 80),
                                  [(0, True, b"GET / HTTP/1.1")])
    page.drop(page.file(captures.pcap([*frames, *captures.connection(*SIX, other), *strange])))
    same(page.browser.run("[...document.getElementById('session').options].map((one) => one.text)"),
         ["192.0.2.10:40000 and 192.0.2.1:323, 116 bytes",
          "[2001:db8::10]:40001 and [2001:db8::1]:8282, 12 bytes"], "the sessions of a capture")
    page.tab("picture")
    steps = page.browser.run("[...document.querySelectorAll('.steps button')].map((one) => ("
                             "[...one.children].map((part) => part.textContent)))")
    same([step[:2] + step[3:] for step in steps], [
        ["0.000", "router", ""], ["0.250", "cache", ""], ["0.500", "cache", "after 2 payloads"],
        ["59.750", "cache", ""], ["59.875", "router", ""]], "the steps of a session")
    page.browser.run("document.body.dataset.state = '';"
                     "const list = document.getElementById('session');"
                     "list.selectedIndex = 1; list.dispatchEvent(new Event('change'))")
    page.browser.wait("document.body.dataset.state === 'shown'")
    row = ["0.000", "cache", "0", "v0", "serial notify", "", "session 9 serial 1"]
    same(page.all_rows(), [row], "the other session")
    page.drop(page.file(captures.pcap(strange)))
    if "it has 3 packets and 1 TCP connection." not in page.text("faults"):
        wrong(f"a capture without sessions: {page.text('faults')}")


def check_lines(page):
    """Checks the filter in one line, the saved files, and the sample."""
    with open(captures.SAMPLE, "rb") as file:
        same(file.read(), captures.sample(), "inspector/sample.pcap, which captures.py writes")
    page.browser.run("document.body.dataset.state = ''; document.getElementById('sample').click()")
    page.browser.wait("document.body.dataset.state === 'shown'")
    for line, number in (("kind=ipv4 as=64500", 6), ("in 203.0.113.0/24 withdraw", 1),
                         ("longer", 115), ("covers 203.0.113.9/32", 3),
                         ("near 203.0.113.0/25 length=24", 3),
                         ("kind=router_key", 1), ("KIND=End-Of-Data", 3)):
        page.browser.run("document.getElementById('shown').textContent = ''")
        page.fill("line", line=line)
        same(page.shown(), f"{number} unit{'s' * (number > 1)} of 164 are shown.", line)
    for line, words in (("kind=ipv5", "There is no kind ipv5 here."), ("as=x", "x is no AS."),
                        ("foo", "foo isn't understood."), ("in", "in isn't understood.")):
        page.fill("line", line=line)
        same(page.text("shown"), words, line)
    page.fill("line", line="kind=router-key")
    page.shown()
    saved = {}
    for name in ("csv", "json"):
        page.browser.run(KEEPS_SAVED)
        page.browser.run(f"document.getElementById('save-{name}').click()")
        saved[name] = page.browser.wait("window.saved")
    same(saved["csv"].splitlines()[0], "Time,From,Byte,v,Kind,Action,Payload", "the head of a CSV")
    same([line.split(",")[1:6] for line in saved["csv"].splitlines()[1:]],
         [["cache", "3584", "v1", "router key", "announce"]], "rows of a CSV")
    unit = json.loads(saved["json"])
    same([unit["time"], unit["from"], unit["unit"]["offset"], unit["unit"]["asn"]],
         [0.00928, "cache", 3584, 64496], "a line of JSON")


KEEPS_SAVED = """window.saved = null; URL.createObjectURL = (blob) => {
    blob.text().then((text) => { window.saved = text; });
    return "data:,";
};"""

CONTRAST = """(() => {
    const style = getComputedStyle(document.documentElement);
    const light = (name) => {
        const hex = style.getPropertyValue(name).trim();
        const parts = [1, 3, 5].map((at) => parseInt(hex.slice(at, at + 2), 16) / 255)
            .map((part) => part <= 0.04045 ? part / 12.92 : ((part + 0.055) / 1.055) ** 2.4);
        return 0.2126 * parts[0] + 0.7152 * parts[1] + 0.0722 * parts[2];
    };
    const pairs = [["--soft", "--ground"], ["--bad", "--ground"], ["--bad", "--bad-ground"],
        ["--good", "--ground"], ["--on-accent", "--accent"], ["--bad", "--raised"],
        ...["--ground", "--raised", "--bar", "--bad-ground", ...Array.from({ length: 8 },
            (_, place) => `--field-${place}`)].map((name) => ["--ink", name])];
    return pairs.map(([one, other]) => {
        const [low, high] = [light(one), light(other)].sort((left, right) => left - right);
        return [one, other, (high + 0.05) / (low + 0.05)];
    }).filter(([, , ratio]) => !(ratio >= 4.5));
})()"""

LABELS = """[...document.querySelectorAll('input, select, button, [tabindex="0"]')].filter(
    (one) => !one.labels?.length && !one.textContent.trim() && !one.getAttribute('aria-label')
).map((one) => one.outerHTML)"""


def check_reach(page):
    """Labels, contrast, narrow windows, tabs by keys, and that nothing is loaded from elsewhere."""
    page.drop(SESSION)
    same(page.browser.run(LABELS), [], "what has no label")
    for is_dark in (True, False):
        page.browser.dark(is_dark)
        same(page.browser.run(CONTRAST), [], f"contrast below 4.5, dark: {is_dark}")
    page.browser.resize(360, 700)
    same(page.browser.run("document.documentElement.scrollWidth <= 360"), True, "a narrow window")
    seen = page.browser.run("(() => {"
                            " const cell = document.querySelector('#units .row .c-payload');"
                            " const { left, right } = cell.getBoundingClientRect();"
                            " return left >= 0 && right <= 360 && right - left >= 120; })()")
    same(seen, True, "the payload in a narrow window")
    page.browser.resize(1280, 900)
    page.browser.run("document.getElementById('tab-units').focus()")
    page.browser.press("ArrowRight")
    same(page.browser.run("document.activeElement.id"), "tab-picture", "the next tab")
    same(page.browser.run("fetch('http://127.0.0.1:9/').then(() => 'sent', (error) => error.name)"),
         "TypeError", "a request to elsewhere")
    others = page.browser.run("performance.getEntriesByType('resource').map((one) => one.name)"
                              ".filter((name) => !name.startsWith(location.origin))")
    same([name for name in others if "127.0.0.1:9/" not in name], [], "what came from elsewhere")


def pictures(page, folder):
    """Takes the pictures for docs/INSPECTOR.md."""
    def picture(name):
        time.sleep(1)
        page.browser.screenshot(os.path.join(folder, f"{name}.png"))

    page.browser.resize(1180, 780)
    page.drop(SESSION)
    page.fill("goto", offset=45)
    picture("units")
    page.browser.run("document.getElementById('sample').click()")
    time.sleep(1)
    page.tab("picture")
    picture("session")
    page.drop(OLD, NEW)
    page.browser.dark(True)
    page.browser.resize(1180, 480)
    picture("compare")
    page.browser.dark(False)


CHECKS = (check_session, check_broken, check_rules, check_compared, check_routes, check_captures,
          check_lines, check_reach)


def begin(driven, url):
    """Opens the page."""
    page = Page(driven, tempfile.mkdtemp(prefix="rtr-inspector-"))
    page.open(url + "/inspector/")
    return page


def main():
    path = browser.found()
    if path is None:
        print("!!! tests/pages/inspector.py: no chromium here: SKIPPED the page of inspector/")
        return
    try:
        module = {"/prebuilt/wasm32/rtr_wire.wasm": built.module()}
    except SystemExit as missing:
        print(f"!!! tests/pages/inspector.py: {missing}: SKIPPED the page of inspector/")
        return
    driven = browser.Browser(path)
    try:
        with browser.serving(built.TOP, module) as url:
            page = begin(driven, url)
            for check in CHECKS:
                check(page)
            took, memory = check_million(page)
            if sys.argv[1:2] == ["--pictures"]:
                pictures(page, sys.argv[2])
        complaints = [complaint for complaint in driven.complaints()
                      if "127.0.0.1:9/" not in complaint]
        same(complaints, [], "what the browser says is wrong")
    finally:
        driven.close()
    print(f"the page is well; a million units listed in {took:.1f} s, in {memory:.1f} times the "
          "memory of the file")


if __name__ == "__main__":
    main()
