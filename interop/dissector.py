"""tshark's dissector of RTR lists recordings as `rtr_list --json` does. Each recording is compared
in a process of its own, which prints the units that both list, since the threads of one Python
process share its interpreter."""
import contextlib
import json
import os
import struct
import subprocess
import sys
import threading
import xml.etree.ElementTree as tree

import payloads
import programs
import recorder
from payloads import ASPA, END, IPV4, IPV6, REPORT, RESET, RESET_QUERY, ROUTER_KEY
from processes import Missing, package_version, program
from results import Pair

PART = "dissector"
PORT = 323
SESSIONS, FORMS = (".answers", ".queries"), ".sequence"

# What is compared: the sample of all types, or the sessions or the forms in a folder.
SAMPLE = "the sample of types 0 to 10"
STREAMS = {"the sessions": SESSIONS, "the forms": FORMS}

# How many bytes a packet carries, so that units are cut at all places.
PIECE = 1201

# How long both may take, also on a machine under load, and how many are compared at once.
SECONDS = 400
at_once = threading.BoundedSemaphore(2 * (os.cpu_count() or 1))

# The dissector's field for each of rtr_list's, and the field's value as rtr_list prints it.
NUMBERS = {
    "version": "version", "length": "length", "session_id": "session_id",
    "serial_number": "serial_number", "prefix_length": "prefix_length",
    "max_length": "max_length", "flags": "flags", "asn": "as_number", "error_code": "error_code",
    "refresh_interval": "refresh_interval", "retry_interval": "retry_interval",
    "expire_interval": "expire_interval",
}
BYTES = {"subject_key_identifier": "subject_key_identifier", "erroneous_pdu": "error_pdu",
         "error_text_bytes": "error_text"}
NAMES = {"key": "x509af.subjectPublicKey", "info_length": "subject_public_key_info"}
KINDS = {
    "serial_notify": 0, "serial_query": 1, "reset_query": RESET_QUERY, "cache_response": 3,
    "ipv4_prefix": IPV4, "ipv6_prefix": IPV6, "end_of_data": END, "cache_reset": RESET,
    "router_key": ROUTER_KEY, "error_report": REPORT, "aspa": ASPA,
}


def packet(content, stream, offset):
    """Returns a packet of IPv4 and TCP from the port of caches that carries these bytes of a
    stream."""
    port = 40000 + stream
    segment = struct.pack(">HHIIBBHHH", PORT, port, offset + 1, 1, 0x50, 0x18, 65535, 0, 0)
    home = bytes([127, 0, 0, 1])
    length = 40 + len(content)
    head = struct.pack(">BBHHHBBH4s4s", 0x45, 0, length, 0, 0, 64, 6, 0, home, home)
    return head + segment + content


def capture(streams, path):
    """Writes these streams as a capture of connections."""
    with open(path, "wb") as file:
        file.write(struct.pack("<IHHiIII", 0xA1B2C3D4, 2, 4, 0, 0, 1 << 18, 101))
        for stream, content in enumerate(streams):
            for offset in range(0, len(content), PIECE):
                sent = packet(content[offset:offset + PIECE], stream, offset)
                file.write(struct.pack("<IIII", stream, offset, len(sent), len(sent)) + sent)


def dissected(path):
    """Returns the units that tshark shows of a capture: the values of each, by the name of its
    field."""
    words = [program("tshark"), "-n", "-r", path, "-d", f"tcp.port=={PORT},rpkirtr", "-T", "pdml"]
    result = subprocess.run(words, capture_output=True, timeout=SECONDS, check=True)
    for proto in tree.fromstring(result.stdout).iter("proto"):
        if proto.get("name") == "rpkirtr":
            fields = {}
            for field in proto.iter("field"):
                name = field.get("name").removeprefix("rpki-rtr.")
                fields.setdefault(name, []).append(field)
            yield fields


def key_info(unit, content):
    """Returns what is shown of a router key's info: its length, and its key if it has one."""
    info = content[unit["offset"] + 32:unit["offset"] + unit["length"]]
    assert payloads.unpadded(info) == unit["subject_public_key_info"]
    shown = {"info_length": len(info), "reserved": f"{unit['zero'][0]:02x}"}
    if info.startswith(payloads.KEY_HEAD):
        shown["key"] = info.removeprefix(payloads.KEY_HEAD).hex()
    return shown


def as_shown(unit, content):
    """Returns what tshark should show of a unit of `rtr_list --json`; `content` has its bytes."""
    fields = {"pdu_type": KINDS[unit["kind"]]}
    fields |= {shown: unit[name] for name, shown in NUMBERS.items() if name in unit}
    fields |= {shown: unit[name] for name, shown in BYTES.items() if unit.get(name)}
    if "prefix" in unit:
        fields[f"ipv{4 if unit['kind'] == 'ipv4_prefix' else 6}_prefix"] = unit["prefix"]
    if "zero" in unit:
        fields["reserved"] = "".join(f"{n:0{w}x}" for n, w in zip(unit["zero"], (4, 2)))
    if unit["kind"] == "router_key":
        fields |= key_info(unit, content)
    if unit["kind"] == "error_report":
        fields["length_pdu"] = len(unit["erroneous_pdu"]) // 2
        fields["length_text"] = len(unit["error_text_bytes"]) // 2
    return fields


def shown_of(fields, expected):
    """Returns what tshark shows of these fields, in the same form."""
    shown = {}
    for name, value in expected.items():
        found = fields.get(NAMES.get(name, name))
        if found is None:
            continue
        if name == "info_length":
            shown[name] = int(found[0].get("size"))
        elif name == "reserved":
            # Of a router key tshark shows bytes 3 and 4, the second of which belongs to the length.
            shown[name] = "".join(field.get("value") for field in found)[:len(value)]
        elif isinstance(value, int):
            shown[name] = int(found[0].get("show"), 0)
        else:
            shown[name] = found[0].get("show" if name.endswith("prefix") else "value")
    return shown


def both(streams, path):
    """Returns the units that tshark and rtr_list list of these streams, in the same form."""
    known = [
        b"".join(unit for unit in recorder.units(content) if unit[1] != ASPA) for content in streams
    ]
    capture(known, path)
    expected = [
        as_shown(unit, content) for content in known for unit in programs.listed(content)
    ]
    fields = list(dissected(path))
    got = [shown_of(each, unit) for each, unit in zip(fields, expected)]
    return got + [{}] * (len(fields) - len(got)), expected


def streams_of(what, source):
    """Returns the streams of a file, or of a folder and its subfolders."""
    if what == SAMPLE:
        return [read(source)]
    contents = [read(path) for path in files_below(source, STREAMS[what])]
    return contents if STREAMS[what] == SESSIONS else list(map(programs.normalised, contents))


def compare_streams(pair, what, name, source, path):
    """Compares what both list of these streams."""
    words = [sys.executable, os.path.abspath(__file__), what, source, path]
    with at_once:
        result = subprocess.run(words, capture_output=True, timeout=2 * SECONDS, check=False)
    if result.returncode:
        raise OSError(f"{name}: {result.stderr[-500:].decode(errors='replace')}")
    pair.equal(f"lists {name} as rtr_list does", *json.loads(result.stdout))


def read(path):
    """Returns the bytes of a file."""
    with open(path, "rb") as file:
        return file.read()


def names(results):
    """Returns the row of the results for tshark, for a `with`."""
    return Pair(results, PART, "tshark", "", package_version("tshark"))


def compare_sample(results, captures):
    """Compares both over the sample of all types."""
    with names(results) as pair:
        program("tshark")
        sample = os.path.join(programs.TOP, "crates/rtr_list/stdin")
        compare_streams(pair, SAMPLE, SAMPLE, sample, os.path.join(captures, "sample.pcap"))


def files_below(top, endings):
    """Returns the paths of the files with these suffixes, in a folder and its subfolders."""
    return [os.path.join(folder, name) for folder, _, names in sorted(os.walk(top))
            for name in sorted(names) if name.endswith(endings)]


def recorded(folder):
    """Returns the folders in which pairs of a run left recordings, the largest first."""
    sizes = {}
    for path in (os.path.join(folder, name) for name in sorted(os.listdir(folder))):
        if found := files_below(path, (*SESSIONS, FORMS)):
            sizes[path] = sum(map(os.path.getsize, found))
    return sorted(sizes, key=sizes.get, reverse=True)


def compare(results, recordings, captures):
    """Compares both over the recordings in a folder and its subfolders."""
    with names(results) as pair, contextlib.suppress(Missing):
        program("tshark")
        name = os.path.basename(recordings)
        for what, endings in STREAMS.items():
            if files_below(recordings, endings):
                path = os.path.join(captures, f"{name}.{what.split()[-1]}.pcap")
                compare_streams(pair, what, f"{what} of {name}", recordings, path)


if __name__ == "__main__":
    print(json.dumps(both(streams_of(*sys.argv[1:3]), sys.argv[3])))
