#!/usr/bin/env python3
"""Runs `rtr_make --slurm` and `rtr_validate --slurm` with the examples of RFC 8416 and with files
that it doesn't allow.

usage: slurm.py [--validate] [PROGRAM]..

With no PROGRAM it runs those of `built.py`. Payloads that are expected are written by hand here,
and a route is valid exactly if an expected VRP matches it (RFC 6811 section 2). `rtr_validate`
reads the list as JSON and as a sequence. With --validate the programs are `rtr_validate`. Quiet if
all is well.
"""
import base64
import ipaddress
import json
import os
import subprocess
import sys
import tempfile

TOP = os.path.realpath(os.path.join(os.path.dirname(os.path.abspath(__file__)), "..", ".."))
sys.path.insert(0, os.path.join(TOP, ".ci"))

import built  # noqa: E402  (it lies in another folder)

# A run that takes longer than these seconds hangs.
SECONDS = 60

# The end of data (RFC 8210 section 5.8).
END = bytes.fromhex("02 07 00 00 00 00 00 18 00 00 00 01 00 00 0e 10 00 00 02 58 00 00 1c 20")

# Two subject key identifiers, and a key. In base64 the first has `-` and `_`.
FIRST = bytes.fromhex("fbefbefff0") * 4
SECOND = bytes(range(20))
INFO = bytes.fromhex("3059301306072a8648ce3d020106082a8648ce3d030107")


def url64(data):
    """Returns base64 for URLs without padding (RFC 4648 section 5)."""
    return base64.urlsafe_b64encode(data).rstrip(b"=").decode()


def origin(prefix, most, asn):
    """Returns the unit that announces an origin (RFC 8210 sections 5.6 and 5.7)."""
    net = ipaddress.ip_network(prefix)
    rest = bytes([1, net.prefixlen, most, 0]) + net.network_address.packed + asn.to_bytes(4, "big")
    kind = 4 if net.version == 4 else 6
    return bytes([2, kind, 0, 0]) + (8 + len(rest)).to_bytes(4, "big") + rest


def key(ski, asn, info=INFO):
    """Returns the unit that announces a router key (RFC 8210 section 5.10)."""
    rest = ski + asn.to_bytes(4, "big") + info
    return bytes([2, 9, 1, 0]) + (8 + len(rest)).to_bytes(4, "big") + rest


ASPA = bytes.fromhex("02 0b 01 00 00 00 00 10 00 00 fb f0 00 00 fb f1")

# What a validator prints: (prefix, max length, ASN), (SKI, ASN), and an ASPA of 64496.
ORIGINS = [
    ("192.0.2.0/24", 24, 64511), ("192.0.2.128/25", 25, 64511), ("192.0.0.0/16", 24, 64511),
    ("10.0.0.0/8", 8, 64496), ("198.51.100.0/24", 24, 64497), ("198.51.100.128/26", 26, 64497),
    ("198.51.100.0/24", 24, 64511), ("198.51.0.0/16", 16, 64497), ("203.0.113.0/24", 24, 64497),
    ("2001:db8::/32", 32, 64511), ("c000:200::/24", 24, 64511),
]
KEYS = [(FIRST, 64496), (SECOND, 64496), (FIRST, 64511), (SECOND, 64511), (SECOND, 64497)]


def text_of(origins=ORIGINS, keys=KEYS):
    return json.dumps({
        "roas": [{"prefix": p, "maxLength": m, "asn": a} for p, m, a in origins],
        "bgpsec_keys": [{"asn": a, "ski": s.hex(), "pubkey": base64.b64encode(INFO).decode()}
                        for s, a in keys],
        "aspas": [{"customer_asid": 64496, "providers": [64497]}],
    }).encode()


def slurm(prefix_filters=(), key_filters=(), prefixes=(), keys=()):
    """Returns a SLURM file (RFC 8416 section 3.2)."""
    return {
        "slurmVersion": 1,
        "validationOutputFilters": {
            "prefixFilters": list(prefix_filters), "bgpsecFilters": list(key_filters),
        },
        "locallyAddedAssertions": {
            "prefixAssertions": list(prefixes), "bgpsecAssertions": list(keys),
        },
    }


# The examples of RFC 8416, sections 3.3.1, 3.3.2, 3.4.1 and 3.4.2; the RFC has "<some base64 SKI>"
# and "<some base64 public key>" where these have some.
PREFIX_FILTERS = [
    {"prefix": "192.0.2.0/24", "comment": "All VRPs encompassed by prefix"},
    {"asn": 64496, "comment": "All VRPs matching ASN"},
    {"prefix": "198.51.100.0/24", "asn": 64497,
     "comment": "All VRPs encompassed by prefix, matching ASN"},
]
KEY_FILTERS = [
    {"asn": 64496, "comment": "All keys for ASN"},
    {"SKI": url64(FIRST), "comment": "Key matching Router SKI"},
    {"asn": 64497, "SKI": url64(SECOND), "comment": "Key for ASN 64497 matching Router SKI"},
]
PREFIXES = [
    {"asn": 64496, "prefix": "198.51.100.0/24", "comment": "My other important route"},
    {"asn": 64496, "prefix": "2001:db8::/32", "maxPrefixLength": 48,
     "comment": "My other important de-aggregated routes"},
]
ADDED_KEYS = [
    {"asn": 64496, "comment": "My known key for my important ASN", "SKI": url64(FIRST),
     "routerPublicKey": url64(INFO)},
]
EXAMPLE = slurm(PREFIX_FILTERS, KEY_FILTERS, PREFIXES, ADDED_KEYS)

# What the filters of the examples leave of the list.
LEFT = [
    ("192.0.0.0/16", 24, 64511), ("198.51.0.0/16", 16, 64497), ("198.51.100.0/24", 24, 64511),
    ("203.0.113.0/24", 24, 64497), ("2001:db8::/32", 32, 64511), ("c000:200::/24", 24, 64511),
]
ADDED = [("198.51.100.0/24", 24, 64496), ("2001:db8::/32", 48, 64496)]

# fmt: off
# SLURM files, the origins and the keys that are left. ASPAs stay.
RUNS = [
    ([], ORIGINS, KEYS),
    ([slurm()], ORIGINS, KEYS),
    ([slurm(PREFIX_FILTERS)], LEFT, KEYS),
    ([slurm((), KEY_FILTERS)], ORIGINS, [(SECOND, 64511)]),
    ([slurm((), (), PREFIXES)], ORIGINS + ADDED, KEYS),
    ([slurm((), (), (), ADDED_KEYS)], ORIGINS, KEYS),
    # The full example (section 3.5): its own filters don't remove its assertions.
    ([EXAMPLE], LEFT + ADDED, [(SECOND, 64511), (FIRST, 64496)]),
    # One filter at a time, and the order of entries.
    ([slurm(PREFIX_FILTERS[::-1], KEY_FILTERS[::-1], PREFIXES[::-1], ADDED_KEYS)],
     LEFT + ADDED, [(SECOND, 64511), (FIRST, 64496)]),
    ([slurm([{"prefix": "0.0.0.0/0"}])], [o for o in ORIGINS if ":" in o[0]], KEYS),
    ([slurm([{"prefix": "::/0"}])], [o for o in ORIGINS if ":" not in o[0]], KEYS),
    ([slurm([{"asn": 4294967295}], [{"asn": 0}])], ORIGINS, KEYS),
    ([slurm((), [{"asn": 64511, "SKI": url64(FIRST)}])], ORIGINS, [k for k in KEYS if k != (FIRST, 64511)]),
    # The same payload twice is one payload.
    ([slurm((), (), [{"asn": 64496, "prefix": "10.0.0.0/8", "maxPrefixLength": 8}])], ORIGINS, KEYS),
    # Several files (section 4.2), whose entries don't overlap.
    ([slurm([{"prefix": "192.0.2.0/24"}], [{"asn": 64496}]), slurm([], [], [{"asn": 1, "prefix": "192.0.3.0/24"}]),
      slurm([{"asn": 64496}], [{"SKI": url64(FIRST)}])],
     [o for o in ORIGINS if o[0] not in ("192.0.2.0/24", "192.0.2.128/25", "10.0.0.0/8")]
     + [("192.0.3.0/24", 24, 1)],
     [(SECOND, 64511), (SECOND, 64497)]),
]

OVERLAP = "overlaps another SLURM file (RFC 8416 section 4.2)"
UNKNOWN = "unknown member (RFC 8416)"
P = {"asn": 1, "prefix": "192.0.2.0/24"}
K = {"asn": 1, "SKI": url64(FIRST), "routerPublicKey": url64(INFO)}


def without(entry, *names):
    return {name: value for name, value in entry.items() if name not in names}


# SLURM files of which the last is refused, and why.
REFUSED = [
    ([b""], "SLURM file: no JSON"),
    ([b"[]"], "SLURM file: no object"),
    ([b"\xff"], "SLURM file: no UTF-8"),
    ([b'{"slurmVersion": 1, "slurmVersion": 1}'], "SLURM file: an object has two members of the same name"),
    ([json.dumps(EXAMPLE).encode()[:-1]], "SLURM file: no JSON"),
    ([without(EXAMPLE, "slurmVersion")], '"slurmVersion": only slurmVersion 1 is read (RFC 8416)'),
    *[([dict(EXAMPLE, slurmVersion=v)], '"slurmVersion": only slurmVersion 1 is read (RFC 8416)')
      for v in (0, 2, "1", None, [1], 1.0)],
    ([without(EXAMPLE, "validationOutputFilters")], '"validationOutputFilters": missing'),
    ([without(EXAMPLE, "locallyAddedAssertions")], '"locallyAddedAssertions": missing'),
    ([dict(EXAMPLE, validationOutputFilters=[])], '"validationOutputFilters": no object'),
    ([dict(EXAMPLE, comment="x")], f'"comment": {UNKNOWN}'),
    ([dict(EXAMPLE, SlurmVersion=1)], f'"SlurmVersion": {UNKNOWN}'),
    *[([dict(EXAMPLE, validationOutputFilters=without(EXAMPLE["validationOutputFilters"], name))], f'"{name}": missing')
      for name in ("prefixFilters", "bgpsecFilters")],
    *[([dict(EXAMPLE, locallyAddedAssertions=without(EXAMPLE["locallyAddedAssertions"], name))], f'"{name}": missing')
      for name in ("prefixAssertions", "bgpsecAssertions")],
    ([dict(EXAMPLE, validationOutputFilters=dict(EXAMPLE["validationOutputFilters"], prefixFilters={}))],
     '"prefixFilters": no array'),
    # Members of the second version, with ASPAs, which validators write.
    ([dict(EXAMPLE, validationOutputFilters=dict(EXAMPLE["validationOutputFilters"], aspaFilters=[]))],
     f'"aspaFilters": {UNKNOWN}'),
    ([dict(EXAMPLE, locallyAddedAssertions=dict(EXAMPLE["locallyAddedAssertions"], aspaAssertions=[]))],
     f'"aspaAssertions": {UNKNOWN}'),
    # Filters.
    ([slurm(["x"])], "prefixFilters[0]: no object"),
    ([slurm([{}])], "prefixFilters[0]: a filter without prefix, asn or SKI matches nothing"),
    ([slurm([{"asn": 1}, {"comment": "x"}])], "prefixFilters[1]: a filter without prefix, asn or SKI matches nothing"),
    ([slurm([{"asn": 1, "comment": 1}])], "prefixFilters[0]: comment is no text"),
    ([slurm([{"asn": 1, "maxPrefixLength": 24}])], f'prefixFilters[0]."maxPrefixLength": {UNKNOWN}'),
    *[([slurm([{"asn": asn}])], "prefixFilters[0]: asn is no number of 32 bits")
      for asn in ("1", "AS1", -1, 1.5, 4294967296, None)],
    ([slurm([{"prefix": 1}])], "prefixFilters[0]: prefix is no text"),
    ([slurm([{"prefix": "192.0.2.0/+24"}])], "prefixFilters[0]: prefix has a plus"),
    ([slurm([{"prefix": "192.0.2.1/24"}])], "prefixFilters[0]: prefix: non-zero host portion"),
    ([slurm((), [{}])], "bgpsecFilters[0]: a filter without prefix, asn or SKI matches nothing"),
    ([slurm((), [{"ski": url64(FIRST)}])], f'bgpsecFilters[0]."ski": {UNKNOWN}'),
    *[([slurm((), [{"SKI": ski}])], "bgpsecFilters[0]: SKI is not 20 bytes in base64url without padding")
      for ski in (url64(FIRST) + "=", base64.b64encode(FIRST).decode().rstrip("="), FIRST.hex(),
                  url64(FIRST[1:]),
                  "", 1, url64(FIRST)[:-1] + "B")],
    # Assertions.
    ([slurm((), (), [without(P, "asn")])], "prefixAssertions[0]: asn is missing"),
    ([slurm((), (), [without(P, "prefix")])], "prefixAssertions[0]: prefix is missing"),
    ([slurm((), (), [dict(P, maxLength=24)])], f'prefixAssertions[0]."maxLength": {UNKNOWN}'),
    ([slurm((), (), [dict(P, maxPrefixLength="24")])], "prefixAssertions[0]: maxPrefixLength is no length"),
    ([slurm((), (), [dict(P, maxPrefixLength=23)])],
     "prefixAssertions[0]: maxPrefixLength: max-length smaller than prefix length"),
    ([slurm((), (), [dict(P, maxPrefixLength=33)])], "prefixAssertions[0]: maxPrefixLength: max-length too large"),
    ([slurm((), (), (), [without(K, "SKI")])], "bgpsecAssertions[0]: SKI is missing"),
    ([slurm((), (), (), [without(K, "routerPublicKey")])], "bgpsecAssertions[0]: routerPublicKey is missing"),
    ([slurm((), (), (), [dict(K, routerPublicKey="A===")])],
     "bgpsecAssertions[0]: routerPublicKey is no base64url without padding"),
    # Files that overlap (section 4.2), whichever comes first.
    *[([slurm(*pair[0]), slurm(*pair[1])], OVERLAP) for first, second in [
        (([{"prefix": "192.0.2.0/24"}],), ([{"prefix": "192.0.2.128/25"}],)),
        (([{"prefix": "192.0.2.0/24", "asn": 1}],), ((), (), [dict(P, asn=2)])),
        (((), (), [dict(P, prefix="2001:db8::/32")]), ((), (), [dict(P, prefix="2001:db8:1::/48")])),
        (((), [{"asn": 1}]), ((), [{"asn": 1, "SKI": url64(FIRST)}])),
        (((), [{"asn": 1}]), ((), (), (), [K])),
    ] for pair in ((first, second), (second, first))],
    ([EXAMPLE, EXAMPLE], OVERLAP),
]
# fmt: on


def units(output):
    """Returns the units of a sequence, one by one."""
    found = []
    while output:
        size = int.from_bytes(output[4:8], "big")
        found.append(output[:size])
        output = output[size:]
    return found


def write_files(folder, files):
    """Writes the SLURM files; returns their names and the words that name them."""
    names, words = [], []
    for number, file in enumerate(files):
        name = os.path.join(folder, f"slurm{number}.json")
        with open(name, "wb") as opened:
            opened.write(file if isinstance(file, bytes) else json.dumps(file).encode())
        names.append(name)
        words += ["--slurm", name]
    return names, words


def run(program, files, given, *more):
    """Returns the output, standard error and status of the program, and the names of the SLURM
    files."""
    with tempfile.TemporaryDirectory() as folder:
        names, words = write_files(folder, files)
        done = subprocess.run([program, "--json", *words, *more], input=given, capture_output=True,
                              timeout=SECONDS)
        return done.stdout, done.stderr.decode(), done.returncode, names


def check_left(program):
    wrong = 0
    for files, origins, keys in RUNS:
        output, stderr, status, _ = run(program, files, text_of())
        want = sorted([origin(*o) for o in origins] + [key(*k) for k in keys] + [ASPA, END])
        if (sorted(units(output)), stderr, status) != (want, "", 0):
            wrong += 1
            print(f"slurm: {files}: {stderr} {status}, {[u.hex() for u in units(output)]}")
    return wrong


def check_refused(program, call=run, name="rtr_make"):
    """Each refused file is named, with the reason, by a program that `call` runs."""
    wrong = 0
    for files, line in REFUSED:
        output, stderr, status, names = call(program, files, text_of())
        if (output, stderr, status) != (b"", f"{name}: {names[-1]}: {line}\n", 1):
            wrong += 1
            print(f"slurm: {files}: {stderr} {status}, not {line}")
    return wrong


def check_rest(program):
    """Checks that payloads which are left after the filters decide whether the list is empty; and
    checks versions, CSV and arguments."""
    everything = slurm([{"prefix": "0.0.0.0/0"}])
    listed = text_of([("10.0.0.0/8", 8, 1)], [])
    only = b'{"roas": [{"prefix": "10.0.0.0/8", "maxLength": 8, "asn": 1}]}'
    empty = "rtr_make: input: no payloads: give --empty if that is meant\n"
    key_alone = slurm((), (), (), [K])
    lacks = "SLURM assertions: protocol version 0 has no such payload"
    rows = [
        (run(program, [everything], only)[:3], (b"", empty, 1)),
        (run(program, [everything], only, "--empty")[:3], (END, "", 0)),
        (run(program, [everything], listed)[:3], (ASPA + END, "", 0)),
        (run(program, [key_alone], only, "--version", "0")[:3], (b"", f"rtr_make: {lacks}\n", 1)),
        (run(program, [slurm((), (), [P])], b'{"roas": []}')[:3],
         (origin("192.0.2.0/24", 24, 1) + END, "", 0)),
        (run(program, [], only, "--slurm", "/nowhere/slurm")[:3],
         (b"", "rtr_make: /nowhere/slurm: No such file or directory (os error 2)\n", 3)),
    ]
    for got, want in rows:
        if got != want:
            print(f"slurm: {got}, not {want}")
    return sum(got != want for got, want in rows)


def validate(program, files, listed, routes=b"10.0.0.0/8 1\n"):
    """The same of `rtr_validate` with this list."""
    with tempfile.TemporaryDirectory() as folder:
        names, words = write_files(folder, files)
        path = os.path.join(folder, "list")
        with open(path, "wb") as opened:
            opened.write(listed)
        done = subprocess.run([program, *words, path], input=routes, capture_output=True,
                              timeout=SECONDS)
        return done.stdout, done.stderr.decode(), done.returncode, names


def state_of(route, vrps):
    """Returns the state of a route by these VRPs (RFC 6811 section 2)."""
    net, asn = ipaddress.ip_network(route[0]), route[1]
    covering = [(most, other) for prefix, most, other in vrps
                if ipaddress.ip_network(prefix).version == net.version
                and net.subnet_of(ipaddress.ip_network(prefix))]
    if not covering:
        return "not found"
    matches = any(other == asn != 0 and net.prefixlen <= most for most, other in covering)
    return "valid" if matches else "invalid"


def check_routes(program):
    """Checks that the VRPs which are left decide on routes, from JSON and from a sequence."""
    wrong = 0
    routes = sorted({(prefix, asn) for prefix, _, _ in ORIGINS + ADDED
                     for asn in (64496, 64497, 64511)})
    given = "".join(f"{prefix} {asn}\n" for prefix, asn in routes).encode()
    by_units = b"".join(origin(*o) for o in ORIGINS) + b"".join(key(*k) for k in KEYS) + ASPA + END
    for files, origins, _ in RUNS:
        want = [f"{prefix} AS{asn} {state_of((prefix, asn), origins)}" for prefix, asn in routes]
        for listed in (text_of(), by_units):
            output, stderr, status, _ = validate(program, files, listed, given)
            got = [line.split(": ")[0] for line in output.decode().splitlines()]
            if (got, stderr, status) != (want, "", 0):
                wrong += 1
                print(f"slurm: {files}: {stderr} {status}, {got}, not {want}")
    return wrong


def check_refused_too(program):
    return check_refused(program, validate, "rtr_validate")


def check_all(makers, validators):
    """Returns how many checks fail."""
    makes = check_left, check_refused, check_rest
    validates = check_routes, check_refused_too
    return (sum(check(program) for program in makers for check in makes)
            + sum(check(program) for program in validators for check in validates))


def main():
    words = sys.argv[1:]
    paths = [os.path.realpath(path) for path in words if path != "--validate"]
    if paths:
        wrong = check_all(*([], paths) if "--validate" in words else (paths, []))
    else:
        wrong = check_all(built.needed("rtr_make"), built.needed("rtr_validate"))
    if wrong:
        sys.exit(f"slurm: FAILED, {wrong} wrong")


if __name__ == "__main__":
    main()
