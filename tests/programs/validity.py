#!/usr/bin/env python3
"""Runs the program `rtr_validate` and compares the output and status of each run.

usage: validity.py [PROGRAM]..

Without PROGRAM it runs those of `built.py`. Each row of RUNS is one run: the arguments, a
redirection of the shell, the file `vrps`, the standard input, and then the expected output, line on
standard error after the program's name, and status. The states are those that RFC 6811 section 2
defines, read off the VRPs by hand. FILES lie beside `vrps`. After the rows come random tables, each
with routes around its prefixes: their answers are computed here, by that section, over all VRPs.
Last, a program that reads a pipe has to answer before the pipe ends, and a terminal is told how far
it is. Prints nothing if all is well.
"""
import ipaddress
import json
import os
import pty
import random
import re
import select
import subprocess
import sys
import tempfile
import time

TOP = os.path.realpath(os.path.join(os.path.dirname(os.path.abspath(__file__)), "..", ".."))
sys.path.insert(0, os.path.join(TOP, ".ci"))

import built  # noqa: E402  (it lies in another folder)
import redirected  # noqa: E402
import samples  # noqa: E402
from places import places  # noqa: E402

# The time limit of a run in seconds.
SECONDS = 60

RESPONSE = samples.unit("cache response", version=2)
END = bytes.fromhex("02 07 12 34 00 00 00 18 00 00 00 02 00 00 0e 10 00 00 02 58 00 00 1c 20")
END_0 = bytes.fromhex("00 07 12 34 00 00 00 0c 00 00 00 01")
KEY = samples.unit("router key of four bytes", version=2)
ASPA = samples.unit("ASPA of large numbers")


def unit(prefix, max_len, asn, version=2):
    """Returns the unit that announces a VRP."""
    net = ipaddress.ip_network(prefix)
    pdu, size = (4, 20) if net.version == 4 else (6, 32)
    return (bytes([version, pdu, 0, 0, 0, 0, 0, size, 1, net.prefixlen, max_len, 0])
            + net.network_address.packed + asn.to_bytes(4, "big"))


def sequence(*vrps):
    return b"".join(unit(*vrp) for vrp in vrps) + END


def lines(*texts):
    return "".join(text + "\n" for text in texts).encode()


# The VRPs of most rows.
VRPS = [
    ("192.0.2.0/23", 24, 65550),
    ("192.0.0.0/22", 23, 65551),
    ("198.51.100.0/24", 24, 65551),
    ("198.51.100.0/25", 28, 65552),
    ("203.0.113.0/24", 32, 0),
    ("2001:db8::/32", 48, 65551),
]
FILE = sequence(*VRPS)
CSV = b"ASN,IP Prefix,Max Length\n" + b"".join(
    f"AS{asn},{prefix},{max_len}\n".encode() for prefix, max_len, asn in VRPS)
JSON = json.dumps({"roas": [{"prefix": prefix, "maxLength": max_len, "asn": f"AS{asn}"}
                            for prefix, max_len, asn in VRPS]}).encode()

EXPIRING = json.dumps({"roas": [{"prefix": "10.0.0.0/8", "asn": 1, "expires": 1},
                                {"prefix": "192.0.2.0/24", "asn": 2, "expires": 99999999999},
                                {"prefix": "198.51.100.0/24", "asn": 3}]}).encode()

# Another list, and routes of which one turns from each state to each.
OTHER = sequence(("192.0.0.0/22", 24, 65551), ("198.51.100.0/24", 24, 65551),
                 ("198.51.100.0/25", 28, 65552), ("10.0.0.0/8", 8, 1))
COMPARED = lines("192.0.2.0/24 AS65550", "192.0.2.0/24 AS65551", "203.0.113.0/24 {65551}", "x",
                 "10.0.0.0/9 AS1", "198.51.100.0/24 AS65551", "2001:db8::/32 AS65551",
                 "198.51.100.128/25 AS65551", "10.0.0.0/8 AS1", "172.16.0.0/12 AS1")


def exceptions(filters, added=()):
    """Returns a SLURM file (RFC 8416 section 3.2)."""
    return json.dumps({
        "slurmVersion": 1,
        "validationOutputFilters": {"prefixFilters": filters, "bgpsecFilters": []},
        "locallyAddedAssertions": {"prefixAssertions": list(added), "bgpsecAssertions": []},
    }).encode()


# Files beside the first list, by their names.
FILES = {
    "other": OTHER,
    "bad": b"hello\n",
    "slurm": exceptions([{"asn": 65550}], [{"asn": 1, "prefix": "10.0.0.0/8"}]),
    "all": exceptions([{"prefix": "0.0.0.0/0"}, {"prefix": "::/0"}]),
}
SLURM = ["--slurm", "slurm"]
AGAINST = ["--against", "other", "vrps"]
OVERLAP = "overlaps another SLURM file (RFC 8416 section 4.2)"

WHY = "192.0.0.0/22-23 AS65551 (longer than 23); 192.0.2.0/23-24 AS65550 (another AS)"
ZERO = "203.0.113.0/24-32 AS0 (AS 0)"
INVALID = "192.0.2.0/24 AS65551 invalid: " + WHY
OBJECTS = ('{"prefix":"192.0.0.0/22","maxLength":23,"asn":65551,"mismatch":"too long"},'
           '{"prefix":"192.0.2.0/23","maxLength":24,"asn":65550,"mismatch":"another AS"}')
USAGE = ("usage: rtr_validate [--json] [--summary] [--strict] [--format F] [--at N] [--slurm FILE].. "
         "[--against FILE] FILE [PREFIX ASN]")
HELP = b"""\
rtr_validate - print whether routes are valid by the VRPs of a file
usage: rtr_validate [--json] [--summary] [--strict] [--format F] [--at N]
                    [--slurm FILE].. [--against FILE] FILE [PREFIX ASN]

It prints the validity of a route (RFC 6811): valid, invalid or not found; for
an invalid one also the VRPs that cover it, each with the reason why it doesn't
match. Without PREFIX and ASN it reads routes from standard input, one a line; a
line that isn't a route is reported on standard error, and the program goes on.
An AS_SET such as {64496,64497} instead of ASN is no AS: no VRP matches it. FILE
is a recording of units of the RPKI to Router protocol (RFC 8210), or the JSON
or CSV that a validator prints, whose expired items are ignored. The name -
stands for standard input, if PREFIX and ASN are given.

  (no word)       print a line for each route
  --json          print a JSON object for each route, with all VRPs that cover
                  it
  --summary       print only how many routes of standard input have each state,
                  the number of their origin ASes, and a line for each of the
                  20 ASes with most invalid routes, the smaller AS first among
                  equals; an AS_SET counts for no AS
  --strict        stop at the first line that isn't a route
  --format F      the format of the lines (default lines):
                  lines  PREFIX ASN
                  mrt    bgpdump -m, which prints MRT dumps of tables (RFC 6396)
                  bird   BIRD's show route primary
                  frr    FRR's show bgp ipv4 unicast wide
  --at N          ignore items that have expired at this time, in seconds since
                  1970 (default now)
  --slurm FILE    apply a file of local exceptions (RFC 8416); may be repeated
  --against FILE  print only the routes of standard input that become invalid,
                  or are no longer, if this file replaces FILE; it is read in
                  the same way; with --summary how many routes turn from which
                  state to which
  --help          print this
  --version       print the program's version
"""
NO_FILE = "No such file or directory (os error 2)"
NO_READ = "read failed: Is a directory (os error 21)"
NO_WRITE = "write failed: No space left on device (os error 28)"
CLOSED = "-: read failed: standard input is closed"
CAPTURE = "looks like a packet capture: `rtr-pcap FILE` lists the sessions in it"
LEFT_OUT = "vrps: left out: an answer without an end of data"
CUT = "unexpected end of input"
NO_VRPS = "vrps: no VRPs: every route would be not found"
HOST = "non-zero host portion"
NONE = b""
NO_FORM = "not a route in this format"
ALL = ["vrps"]
SUMMARY = ["--summary", "vrps"]
MRT = ["--format", "mrt", "vrps"]
BIRD = ["--format", "bird", "vrps"]
FRR = ["--format", "frr", "vrps"]
AS_JSON = ["--json", "vrps"]
STRICT = ["--strict", "vrps"]
ANSWER = "10.0.0.0/8 AS1 not found"


def lookup(prefix, asn):
    return ["vrps", prefix, asn]


def named(*refused):
    """Returns the lines on input that isn't a route: one for each line of input, and their
    count."""
    count = "1 line is no route" if len(refused) == 1 else f"{len(refused)} lines are no routes"
    return "\nrtr_validate: ".join([f"line {number}: {why}" for number, why in refused] + [count])


def summary(valid, invalid, not_found, refused, *rows, origins=None):
    """Returns a summary, with how many origin ASes there are, and a row for each that is listed."""
    return lines(f"valid {valid}", f"invalid {invalid}", f"not found {not_found}",
                 f"refused {refused}", f"origins {len(rows) if origins is None else origins}",
                 *(f"AS{row[0]} valid {row[1]} invalid {row[2]} not found {row[3]}" for row in rows))


def dumped(prefix, path, peer=64496):
    """Returns a line of `bgpdump -m`."""
    return (f"TABLE_DUMP2|1767225600|B|192.0.2.9|{peer}|{prefix}|{path}|IGP|192.0.2.9|0|0||NAG||\n"
            .encode())


def gone(count):
    """Returns the line on expired items."""
    return f"vrps: left out {count} that have expired"


# fmt: off
MRT_TABLE = (dumped("192.0.2.0/24", "64496 64511 65550") + dumped("198.51.100.0/25", "64496 {65551,65552}")
             + dumped("2001:db8::/32", "65551") + dumped("198.51.100.0/24", "", peer=65551))
BIRD_TABLE = b"""\
BIRD 2.0.12 ready.
Access restricted
Table master4:
192.0.2.0/24         unicast [bgp1 2026-01-01] * (100) [AS65550i]
\tvia 203.0.113.9 on eth0
198.51.100.0/25      unicast [bgp1 2026-01-01 from 203.0.113.8] * (100/?) [AS65551?]
\tvia 203.0.113.9 on eth0
\tBGP.origin: Incomplete
10.0.0.0/8           unreachable [bgp1 2026-01-01] * (100) [AS64511e]
                     unicast [bgp2 2026-01-01] (100) [AS64512i]
\tdev eth0
10.1.0.0/16          unicast [bgp1 2026-01-01] * (100) [i]
10.2.0.0/16          blackhole [static1 2026-01-01] * (200)
10.3.0.0/16          unicast [bgp1 2026-01-01] * (100) [AS64511]

Table master6:
10.0.0.0/8           unicast [bgp1 2026-01-01] * (100) [AS64511i]
"""
FRR_TABLE = b"""\
BGP table version is 5, local router ID is 203.0.113.8, vrf id 0
Default local pref 100, local AS 64496
Status codes:  s suppressed, d damped, h history, u unsorted, * valid, > best, = multipath,
               i internal, r RIB-failure, S Stale, R Removed
Nexthop codes: @NNN nexthop's vrf id, < announce-nh-self
Origin codes:  i - IGP, e - EGP, ? - incomplete
RPKI validation codes: V valid, I invalid, N Not found

    Network          Next Hop            Metric LocPrf Weight Path
V*> 192.0.2.0/24     203.0.113.9              0             0 64500 65550 i
 *>i198.51.100.0/24  203.0.113.9              0    100      0 65551 ?
 *                   203.0.113.7                            0 64501 65551 i
 *= 198.51.100.0/25  203.0.113.9                            0 64500 {65551,65552} e
 *> 10.0.0.0/8       0.0.0.0                  0         32768 i
 *>i10.1.0.0/16      203.0.113.9              0    100      0 i
 s> 10.2.0.0/16      203.0.113.9              0             0 64500 i

Displayed  7 routes and 8 total paths
"""
RUNS = [
    # RFC 6811 section 2: no VRP covers the route.
    (lookup("10.0.0.0/8", "AS65551"), "", FILE, NONE, lines("10.0.0.0/8 AS65551 not found"), "", 0),
    (lookup("192.0.0.0/21", "65551"), "", FILE, NONE, lines("192.0.0.0/21 AS65551 not found"), "", 0),
    (lookup("2001:db9::/32", "65551"), "", FILE, NONE, lines("2001:db9::/32 AS65551 not found"), "", 0),
    (lookup("0.0.0.0/0", "65551"), "", FILE, NONE, lines("0.0.0.0/0 AS65551 not found"), "", 0),
    (lookup("::/0", "65551"), "", FILE, NONE, lines("::/0 AS65551 not found"), "", 0),
    # A VRP matches it: at its prefix length, at its max length, and beside others that don't.
    (lookup("198.51.100.0/24", "AS65551"), "", FILE, NONE, lines("198.51.100.0/24 AS65551 valid"), "", 0),
    (lookup("198.51.100.128/25", "as65551"), "", FILE, NONE, lines("198.51.100.128/25 AS65551 invalid: 198.51.100.0/24-24 AS65551 (longer than 24)"), "", 0),
    (lookup("198.51.100.16/28", "65552"), "", FILE, NONE, lines("198.51.100.16/28 AS65552 valid"), "", 0),
    (lookup("192.0.2.0/24", "65550"), "", FILE, NONE, lines("192.0.2.0/24 AS65550 valid"), "", 0),
    (lookup("2001:db8:1::/48", "65551"), "", FILE, NONE, lines("2001:db8:1::/48 AS65551 valid"), "", 0),
    (lookup("2001:DB8:0:0::/32", "+65551"), "", FILE, NONE, lines("2001:db8::/32 AS65551 valid"), "", 0),
    # Some cover it, and none matches.
    (lookup("192.0.2.0/24", "AS65551"), "", FILE, NONE, lines(INVALID), "", 0),
    (lookup("192.0.2.0/24", "AS65552"), "", FILE, NONE, lines("192.0.2.0/24 AS65552 invalid: 192.0.0.0/22-23 AS65551 (another AS); 192.0.2.0/23-24 AS65550 (another AS)"), "", 0),
    (lookup("198.51.100.0/29", "65552"), "", FILE, NONE, lines("198.51.100.0/29 AS65552 invalid: 198.51.100.0/24-24 AS65551 (another AS); 198.51.100.0/25-28 AS65552 (longer than 28)"), "", 0),
    (lookup("2001:db8:1:2::/64", "65551"), "", FILE, NONE, lines("2001:db8:1:2::/64 AS65551 invalid: 2001:db8::/32-48 AS65551 (longer than 48)"), "", 0),
    # AS 0 of a VRP says that no route is valid (RFC 6483 section 4), and a route of AS 0 matches
    # none (RFC 7607).
    (lookup("203.0.113.0/24", "65551"), "", FILE, NONE, lines("203.0.113.0/24 AS65551 invalid: " + ZERO), "", 0),
    (lookup("203.0.113.0/24", "0"), "", FILE, NONE, lines("203.0.113.0/24 AS0 invalid: " + ZERO), "", 0),
    (lookup("198.51.100.0/24", "AS0"), "", FILE, NONE, lines("198.51.100.0/24 AS0 invalid: 198.51.100.0/24-24 AS65551 (another AS)"), "", 0),
    # One that covers all addresses, and one of a single address.
    (lookup("10.0.0.1/32", "1"), "", sequence(("0.0.0.0/0", 0, 1), ("10.0.0.1/32", 32, 2)), NONE, lines("10.0.0.1/32 AS1 invalid: 0.0.0.0/0-0 AS1 (longer than 0); 10.0.0.1/32-32 AS2 (another AS)"), "", 0),
    (lookup("0.0.0.0/0", "1"), "", sequence(("0.0.0.0/0", 0, 1)), NONE, lines("0.0.0.0/0 AS1 valid"), "", 0),
    (lookup("2001:db8::1/128", "4294967295"), "", sequence(("2001:db8::1/128", 128, 4294967295)), NONE, lines("2001:db8::1/128 AS4294967295 valid"), "", 0),
    # Several of one prefix, in the order of payloads.
    (lookup("10.0.0.0/9", "1"), "", sequence(("10.0.0.0/8", 24, 3), ("10.0.0.0/8", 8, 1), ("10.0.0.0/8", 8, 2)), NONE, lines("10.0.0.0/9 AS1 invalid: 10.0.0.0/8-8 AS1 (longer than 8); 10.0.0.0/8-8 AS2 (another AS); 10.0.0.0/8-24 AS3 (another AS)"), "", 0),
    # JSON has all VRPs that cover the route.
    (["--json", *lookup("192.0.2.0/24", "65551")], "", FILE, NONE, lines('{"prefix":"192.0.2.0/24","asn":65551,"state":"invalid","vrps":[' + OBJECTS + "]}"), "", 0),
    (["--json", *lookup("10.0.0.0/8", "65551")], "", FILE, NONE, lines('{"prefix":"10.0.0.0/8","asn":65551,"state":"not found","vrps":[]}'), "", 0),
    (["--json", *lookup("198.51.100.0/25", "65552")], "", FILE, NONE, lines('{"prefix":"198.51.100.0/25","asn":65552,"state":"valid","vrps":[{"prefix":"198.51.100.0/24","maxLength":24,"asn":65551,"mismatch":"another AS"},{"prefix":"198.51.100.0/25","maxLength":28,"asn":65552,"mismatch":null}]}'), "", 0),
    (["--json", *lookup("203.0.113.0/24", "1")], "", FILE, NONE, lines('{"prefix":"203.0.113.0/24","asn":1,"state":"invalid","vrps":[{"prefix":"203.0.113.0/24","maxLength":32,"asn":0,"mismatch":"AS 0"}]}'), "", 0),
    # Routes that are read.
    (ALL, "", FILE, NONE, NONE, "", 0),
    (ALL, "", FILE, b"192.0.2.0/24 AS65551\n10.0.0.0/8 1\n", lines(INVALID, "10.0.0.0/8 AS1 not found"), "", 0),
    (ALL, "", FILE, b"10.0.0.0/8 1\n192.0.2.0/24 AS65551", lines("10.0.0.0/8 AS1 not found", INVALID), "", 0),
    (ALL, "", FILE, b"\n \t\r\n\n10.0.0.0/8\t 1 \r\n\x0c\n", lines("10.0.0.0/8 AS1 not found"), "", 0),
    (ALL, "", FILE, b"10.0.0.0/8 0000000001\n" * 3, lines(*["10.0.0.0/8 AS1 not found"] * 3), "", 0),
    (AS_JSON, "", FILE, b"10.0.0.0/8 1\n", lines('{"prefix":"10.0.0.0/8","asn":1,"state":"not found","vrps":[]}'), "", 0),
    (ALL, "", FILE, b"10.0.0.0/8 1\n" * 9000, lines(*["10.0.0.0/8 AS1 not found"] * 9000), "", 0),
    (ALL, "", FILE, b" " * 100000 + b"10.0.0.0/8 1\n", lines("10.0.0.0/8 AS1 not found"), "", 0),
    # A line that isn't a route is reported, with its number, and the run continues.
    (ALL, "", FILE, b"10.0.0.0/8\n10.0.0.0/8 1\n", lines(ANSWER), named((1, "missing AS number")), 1),
    (ALL, "", FILE, b"10.0.0.0/8 1\n\n10.0.0.1/8 1\n10.0.0.0/8 1\n", lines(ANSWER, ANSWER), named((3, HOST)), 1),
    (ALL, "", FILE, b"10.0.0.0/33 1\n192.0.2.0/24 AS65551\n", lines(INVALID), named((1, "prefix length too large")), 1),
    (ALL, "", FILE, b"10.0.0.0 1\n", NONE, named((1, "missing prefix length")), 1),
    (ALL, "", FILE, b"10.0.0.0/x 1\n", NONE, named((1, "invalid prefix length: invalid digit found in string")), 1),
    (ALL, "", FILE, b"10.0.0/8 1\n", NONE, named((1, "invalid IP address syntax")), 1),
    (ALL, "", FILE, b"10.0.0.0/8 AS\n", NONE, named((1, "invalid AS number")), 1),
    (ALL, "", FILE, b"10.0.0.0/8 4294967296\n", NONE, named((1, "invalid AS number")), 1),
    (ALL, "", FILE, b"10.0.0.0/8 1 2\n", NONE, named((1, "text after the AS number")), 1),
    (ALL, "", FILE, b"10.0.0.0/8 1\n10.0.0.0/8 \xff\n", lines(ANSWER), named((2, "no UTF-8")), 1),
    (ALL, "", FILE, b"10.0.0.0/8 1\nx", lines(ANSWER), named((2, "missing prefix length")), 1),
    (ALL, "", FILE, b"10.0.0.0/8\xc2\xa01\n", NONE, named((1, "invalid prefix length: invalid digit found in string")), 1),
    (ALL, "", FILE, b"x\n10.0.0.0/8 1\ny 1\n\n10.0.0.0/8 1\n10.0.0.0/8", lines(ANSWER, ANSWER), named((1, "missing prefix length"), (3, "missing prefix length"), (6, "missing AS number")), 1),
    (AS_JSON, "", FILE, b"x\n10.0.0.0/8 1\n", lines('{"prefix":"10.0.0.0/8","asn":1,"state":"not found","vrps":[]}'), named((1, "missing prefix length")), 1),
    (ALL, "", FILE, b"x\n" * 9000, NONE, named(*((number, "missing prefix length") for number in range(1, 9001))), 1),
    # A strict run ends at the first one, after the answers before it.
    (STRICT, "", FILE, b"10.0.0.0/8\n10.0.0.0/8 1\n", NONE, "line 1: missing AS number", 1),
    (STRICT, "", FILE, b"10.0.0.0/8 1\n\n10.0.0.1/8 1\n10.0.0.0/8 1\n", lines(ANSWER), "line 3: " + HOST, 1),
    (STRICT, "", FILE, b"10.0.0.0/8 1\nx", lines(ANSWER), "line 2: missing prefix length", 1),
    (STRICT, "", FILE, b"10.0.0.0/8 1\n\n10.0.0.0/8 {1,2}", lines(ANSWER, "10.0.0.0/8 AS_SET not found"), "", 0),
    (["--strict", "--json", "vrps"], "", FILE, b"10.0.0.0/8 1\nx\n", lines('{"prefix":"10.0.0.0/8","asn":1,"state":"not found","vrps":[]}'), "line 2: missing prefix length", 1),
    (["--json", "--strict", "vrps"], "", FILE, b"10.0.0.0/8 1\nx\n", lines('{"prefix":"10.0.0.0/8","asn":1,"state":"not found","vrps":[]}'), "line 2: missing prefix length", 1),
    # RFC 6811 section 2: the origin of a route whose path ends with an AS_SET is NONE, which no VRP
    # matches, were it of AS 0 or of a member.
    (ALL, "", FILE, b"10.0.0.0/8 {64496,64497}\n", lines("10.0.0.0/8 AS_SET not found"), "", 0),
    (ALL, "", FILE, b"203.0.113.0/24 {65551}\n", lines("203.0.113.0/24 AS_SET invalid: " + ZERO), "", 0),
    (ALL, "", FILE, b"198.51.100.0/24 {65551,AS65552,0}\n", lines("198.51.100.0/24 AS_SET invalid: 198.51.100.0/24-24 AS65551 (another AS)"), "", 0),
    (lookup("198.51.100.0/24", "{65551}"), "", FILE, NONE, lines("198.51.100.0/24 AS_SET invalid: 198.51.100.0/24-24 AS65551 (another AS)"), "", 0),
    (["--json", *lookup("10.0.0.0/8", "{65551}")], "", FILE, NONE, lines('{"prefix":"10.0.0.0/8","asn":null,"state":"not found","vrps":[]}'), "", 0),
    (lookup("198.51.100.0/24", "{65551"), "", FILE, NONE, NONE, "198.51.100.0/24 {65551: invalid AS number", 2),
    (ALL, "", FILE, b"10.0.0.0/8 {}\n10.0.0.0/8 {1,}\n10.0.0.0/8 {,1}\n10.0.0.0/8 {1,,2}\n", NONE, named(*((number, "invalid AS number") for number in range(1, 5))), 1),
    (ALL, "", FILE, b"10.0.0.0/8 {1\n10.0.0.0/8 1}\n10.0.0.0/8 {1}x\n10.0.0.0/8 {{1}}\n10.0.0.0/8 1,2\n", NONE, named(*((number, "invalid AS number") for number in range(1, 6))), 1),
    (ALL, "", FILE, b"10.0.0.0/8 {1,4294967296}\n10.0.0.0/8 {1, 2}\n", NONE, named((1, "invalid AS number"), (2, "invalid AS number")), 1),
    # Tables as other programs print them: dumps by `bgpdump -m`.
    (MRT, "", FILE, MRT_TABLE, lines("192.0.2.0/24 AS65550 valid", "198.51.100.0/25 AS_SET invalid: 198.51.100.0/24-24 AS65551 (another AS); 198.51.100.0/25-28 AS65552 (another AS)", "2001:db8::/32 AS65551 valid", "198.51.100.0/24 AS65551 valid"), "", 0),
    (MRT, "", FILE, dumped("10.0.0.0/8", "64496 64511"), lines("10.0.0.0/8 AS64511 not found"), "", 0),
    (MRT, "", FILE, b"\n" + dumped("10.0.0.0/8", "64511").rstrip() + b"\r\n", lines("10.0.0.0/8 AS64511 not found"), "", 0),
    (MRT, "", FILE, b"TABLE_DUMP2|1|B|192.0.2.9|64496|10.0.0.0/8|64511", lines("10.0.0.0/8 AS64511 not found"), "", 0),
    (MRT, "", FILE, dumped("10.0.0.0/8", "64496 (64511)"), NONE, named((1, "invalid AS number")), 1),
    (MRT, "", FILE, dumped("10.0.0.0", "64496"), NONE, named((1, "missing prefix length")), 1),
    (MRT, "", FILE, b"TABLE_DUMP2|1|W|192.0.2.9|64496|10.0.0.0/8|64511|IGP\n", NONE, named((1, NO_FORM)), 1),
    (MRT, "", FILE, b"BGP4MP|1|B|192.0.2.9|64496|10.0.0.0/8|64511|IGP\n", NONE, named((1, NO_FORM)), 1),
    (MRT, "", FILE, b"TABLE_DUMP2|1|B|192.0.2.9|64496|10.0.0.0/8\n", NONE, named((1, NO_FORM)), 1),
    (MRT, "", FILE, b"10.0.0.0/8 1\n" + dumped("10.0.0.0/8", "\xff"), NONE, named((1, NO_FORM), (2, "invalid AS number")), 1),
    (MRT, "", FILE, b"TABLE_DUMP2|1|B|\xff|64496|10.0.0.0/8|64511\n", NONE, named((1, "no UTF-8")), 1),
    # BIRD's, by `birdc show route primary`.
    (BIRD, "", FILE, BIRD_TABLE, lines("192.0.2.0/24 AS65550 valid", "198.51.100.0/25 AS65551 invalid: 198.51.100.0/24-24 AS65551 (longer than 24); 198.51.100.0/25-28 AS65552 (another AS)", "10.0.0.0/8 AS64511 not found", "10.0.0.0/8 AS64511 not found"), named((10, "missing prefix: another route to the prefix above"), (12, "missing AS number"), (13, "missing AS number"), (14, "missing AS number")), 1),
    (BIRD, "", FILE, b"10.0.0.0/8 via 192.0.2.9 on eth0 [b1 00:01] * (100) [AS64511e]\n", lines("10.0.0.0/8 AS64511 not found"), "", 0),
    (BIRD, "", FILE, b"2001:db8::/32 [b1 00:01] * (100) [AS65551?]\n", lines("2001:db8::/32 AS65551 valid"), "", 0),
    (BIRD, "", FILE, b"10.0.0.0/8 [AS64511x]\n10.0.0.0/8 [AS64511i\n10.0.0.0/8 [AS64511i] x\n10.0.0.0/8\n", NONE, named(*((number, "missing AS number") for number in range(1, 5))), 1),
    (BIRD, "", FILE, b"Tables [AS1i]\nx/8 [AS1i]\n", NONE, named((1, "missing prefix length"), (2, "invalid IP address syntax")), 1),
    # FRR's, by `show bgp ipv4 unicast wide`.
    (FRR, "", FILE, FRR_TABLE, lines("192.0.2.0/24 AS65550 valid", "198.51.100.0/24 AS65551 valid", "198.51.100.0/25 AS_SET invalid: 198.51.100.0/24-24 AS65551 (another AS); 198.51.100.0/25-28 AS65552 (another AS)"), named((12, "missing prefix length"), (14, "missing AS number"), (15, "missing AS number"), (16, NO_FORM)), 1),
    (FRR, "", FILE, b"*> 10.0.0.0/8 192.0.2.1 0 0 64496 64511 i\n*>i10.0.0.0/8 192.0.2.1 0 100 0 64511 ?\n* 10.0.0.0/8 192.0.2.1 0 64511 e\n*= 10.0.0.0/8 192.0.2.1 0 64511 i\n", lines(*["10.0.0.0/8 AS64511 not found"] * 4), "", 0),
    (FRR, "", FILE, b"I*> 10.0.0.0/8 192.0.2.1 0 64511 i\nN*> 10.0.0.0/8 192.0.2.1 0 64511 i\n", lines(*["10.0.0.0/8 AS64511 not found"] * 2), "", 0),
    (FRR, "", FILE, b"*>i10.0.0.0/8 192.0.2.1 0 100 0 i\n*> 10.0.0.0/8 192.0.2.1 0 64511 x\n*> 10.0.0.0/8\n", NONE, named(*((number, "missing AS number") for number in range(1, 4))), 1),
    (FRR, "", FILE, b"x*> 10.0.0.0/8 192.0.2.1 0 64511 i\nBGPs\n", NONE, named((1, NO_FORM), (2, NO_FORM)), 1),
    (["--format", "lines", "vrps"], "", FILE, b"10.0.0.0/8 1\n", lines(ANSWER), "", 0),
    (["--json", "--format", "mrt", "--strict", "vrps"], "", FILE, dumped("10.0.0.0/8", "{1,2}") + b"x\n" * 2, lines('{"prefix":"10.0.0.0/8","asn":null,"state":"not found","vrps":[]}'), "line 2: " + NO_FORM, 1),
    # Counts by state, and of the lines that are refused.
    (SUMMARY, "", FILE, b"192.0.2.0/24 AS65550\n192.0.2.0/24 AS65551\n\n10.0.0.0/8 1\n198.51.100.0/24 65551\n198.51.100.0/24 {65551}\n10.0.0.0/8 2\n10.0.0.0/8 3", summary(2, 2, 3, 0, (65551, 1, 1, 0), (1, 0, 0, 1), (2, 0, 0, 1), (3, 0, 0, 1), (65550, 1, 0, 0)), "", 0),
    (SUMMARY, "", FILE, NONE, summary(0, 0, 0, 0), "", 0),
    (SUMMARY, "", FILE, b"x\n10.0.0.0/8 1\n10.0.0.0/8", summary(0, 0, 1, 2, (1, 0, 0, 1)), named((1, "missing prefix length"), (3, "missing AS number")), 1),
    (["--json", *SUMMARY], "", FILE, b"192.0.2.0/24 AS65550\nx\n", lines('{"valid":1,"invalid":0,"not found":0,"refused":1,"origin count":1,"origins":[{"asn":65550,"valid":1,"invalid":0,"not found":0}]}'), named((2, "missing prefix length")), 1),
    (["--strict", *SUMMARY], "", FILE, b"192.0.2.0/24 AS65550\nx\n", NONE, "line 2: missing prefix length", 1),
    ([*SUMMARY[:1], *MRT], "", FILE, MRT_TABLE, summary(3, 1, 0, 0, (65550, 1, 0, 0), (65551, 2, 0, 0)), "", 0),
    ([*SUMMARY[:1], *FRR], "", FILE, FRR_TABLE, summary(2, 1, 0, 4, (65550, 1, 0, 0), (65551, 1, 0, 0)), named((12, "missing prefix length"), (14, "missing AS number"), (15, "missing AS number"), (16, NO_FORM)), 1),
    (["--json", *SUMMARY], "", FILE, NONE, lines('{"valid":0,"invalid":0,"not found":0,"refused":0,"origin count":0,"origins":[]}'), "", 0),
    (["--json", *SUMMARY], "", FILE, b"10.0.0.0/8 2\n192.0.2.0/24 1\n10.0.0.0/8 {1}\n", lines('{"valid":0,"invalid":1,"not found":2,"refused":0,"origin count":2,"origins":[{"asn":1,"valid":0,"invalid":1,"not found":0},{"asn":2,"valid":0,"invalid":0,"not found":1}]}'), "", 0),
    # 20 origin ASes at most, by their invalid routes and then by their numbers.
    (SUMMARY, "", FILE, b"".join(b"192.0.2.0/24 %d\n" % asn * (asn % 3) + b"10.0.0.0/8 %d\n" % asn for asn in range(30, 0, -1)), summary(0, 30, 30, 0, *[(asn, 0, 2, 1) for asn in range(2, 30, 3)], *[(asn, 0, 1, 1) for asn in range(1, 30, 3)], origins=30), "", 0),
    (SUMMARY, ">/dev/full", FILE, b"10.0.0.0/8 1\n", NONE, NO_WRITE, 3),
    (SUMMARY, "<.", FILE, NONE, NONE, NO_READ, 3),
    # What another list turns: routes that become invalid, or are no longer.
    (AGAINST, "", FILE, COMPARED, lines("192.0.2.0/24 AS65550 valid to invalid: 192.0.0.0/22-24 AS65551 (another AS)", "192.0.2.0/24 AS65551 invalid to valid", "203.0.113.0/24 AS_SET invalid to not found", "10.0.0.0/9 AS1 not found to invalid: 10.0.0.0/8-8 AS1 (longer than 8)"), named((4, "missing prefix length")), 1),
    (["--json", *AGAINST], "", CSV, b"192.0.2.0/24 AS65550\n203.0.113.0/24 {1}\n10.0.0.0/8 1\n", lines('{"prefix":"192.0.2.0/24","asn":65550,"state":"valid","becomes":"invalid","vrps":[{"prefix":"192.0.0.0/22","maxLength":24,"asn":65551,"mismatch":"another AS"}]}', '{"prefix":"203.0.113.0/24","asn":null,"state":"invalid","becomes":"not found","vrps":[]}'), "", 0),
    (["--summary", *AGAINST], "", JSON, COMPARED, lines("valid to valid 1", "valid to invalid 1", "valid to not found 1", "invalid to valid 1", "invalid to invalid 1", "invalid to not found 1", "not found to valid 1", "not found to invalid 1", "not found to not found 1", "refused 1"), named((4, "missing prefix length")), 1),
    (["--json", "--summary", *AGAINST], "", FILE, COMPARED + b"172.16.0.0/12 1\n", lines('{"valid":{"valid":1,"invalid":1,"not found":1},"invalid":{"valid":1,"invalid":1,"not found":1},"not found":{"valid":1,"invalid":1,"not found":2},"refused":1}'), named((4, "missing prefix length")), 1),
    (["--against", "vrps", "vrps"], "", FILE, b"192.0.2.0/24 AS65551\n", NONE, "", 0),
    (["--strict", *AGAINST], "", FILE, COMPARED, lines("192.0.2.0/24 AS65550 valid to invalid: 192.0.0.0/22-24 AS65551 (another AS)", "192.0.2.0/24 AS65551 invalid to valid", "203.0.113.0/24 AS_SET invalid to not found"), "line 4: missing prefix length", 1),
    (["--format", "mrt", *AGAINST], "", FILE, MRT_TABLE, lines("192.0.2.0/24 AS65550 valid to invalid: 192.0.0.0/22-24 AS65551 (another AS)"), "", 0),
    (AGAINST, "", b"hello\n", COMPARED, NONE, "vrps: line 1: invalid AS number", 1),
    (["--against", "bad", "vrps"], "", FILE, COMPARED, NONE, "bad: line 1: invalid AS number", 1),
    (["--against", "none", "vrps"], "", FILE, COMPARED, NONE, "none: " + NO_FILE, 3),
    (["--against", "none", "--slurm", "all", "vrps"], "", FILE, COMPARED, NONE, "none: " + NO_FILE, 3),
    (AGAINST, "<&-", FILE, NONE, NONE, CLOSED, 3),
    # Local exceptions, of a sequence, CSV and JSON (RFC 8416): AS65550's VRPs are removed, and one is added.
    *[([*SLURM, "vrps"], "", file, b"192.0.2.0/24 AS65550\n10.0.0.0/8 1\n198.51.100.0/24 65551\n", lines("192.0.2.0/24 AS65550 invalid: 192.0.0.0/22-23 AS65551 (another AS)", "10.0.0.0/8 AS1 valid", "198.51.100.0/24 AS65551 valid"), "", 0) for file in (FILE, CSV, JSON, KEY + FILE[:-24] + ASPA + END)],
    ([*SLURM, *lookup("10.0.0.0/8", "1")], "", FILE, NONE, lines("10.0.0.0/8 AS1 valid"), "", 0),
    ([*SLURM, *lookup("10.0.0.0/8", "1")], "", RESPONSE + FILE[:-24] + RESPONSE + unit("10.0.0.0/8", 8, 1) + END, NONE, lines("10.0.0.0/8 AS1 valid"), LEFT_OUT, 0),
    ([*SLURM, *lookup("10.0.0.0/8", "1")], "", END, NONE, lines("10.0.0.0/8 AS1 valid"), "", 0),
    ([*SLURM, *AGAINST], "", FILE, b"192.0.2.0/24 AS65550\n192.0.2.0/24 AS65551\n10.0.0.0/9 1\n10.0.0.0/8 1\n", lines("192.0.2.0/24 AS65551 invalid to valid"), "", 0),
    (["--slurm", "all", "vrps"], "", FILE, b"10.0.0.0/8 1\n", NONE, NO_VRPS, 1),
    (["--slurm", "all", *SLURM, "vrps"], "", FILE, b"10.0.0.0/8 1\n", NONE, "slurm: " + OVERLAP, 1),
    (["--slurm", "bad", "vrps"], "", FILE, b"10.0.0.0/8 1\n", NONE, "bad: SLURM file: no JSON", 1),
    (["--slurm", "none", "vrps"], "", FILE, b"10.0.0.0/8 1\n", NONE, "none: " + NO_FILE, 3),
    # The file: a sequence, a recorded session, and what validators print.
    (lookup("192.0.2.0/24", "65551"), "", CSV, NONE, lines(INVALID), "", 0),
    (lookup("192.0.2.0/24", "65551"), "", JSON, NONE, lines(INVALID), "", 0),
    (lookup("192.0.2.0/24", "65551"), "", b" " + JSON, NONE, lines(INVALID), "", 0),
    (lookup("192.0.2.0/24", "65551"), "", b"\r\n\t" + JSON, NONE, lines(INVALID), "", 0),
    (lookup("192.0.2.0/24", "65551"), "", b"\xef\xbb\xbf\n" + JSON, NONE, lines(INVALID), "", 0),
    (lookup("192.0.2.0/24", "65551"), "", b"\n" + CSV, NONE, lines(INVALID), "", 0),
    (lookup("192.0.2.0/24", "65551"), "", b"\xef\xbb\xbf" + CSV, NONE, lines(INVALID), "", 0),
    (lookup("192.0.2.0/24", "65551"), "", b"ASN,Max Length,Prefix\n65551,24,192.0.2.0/24\n", NONE, lines("192.0.2.0/24 AS65551 valid"), "", 0),
    # Without VRPs every route would be not found.
    (lookup("192.0.2.0/24", "65551"), "", END, NONE, NONE, NO_VRPS, 1),
    (lookup("192.0.2.0/24", "65551"), "", KEY + ASPA + END, NONE, NONE, NO_VRPS, 1),
    (ALL, "", RESPONSE + END, b"10.0.0.0/8 1\n", NONE, NO_VRPS, 1),
    (AS_JSON, "", b'{"roas":[]}', b"10.0.0.0/8 1\n", NONE, NO_VRPS, 1),
    (ALL, "", b"ASN,IP Prefix,Max Length\n", b"10.0.0.0/8 1\n", NONE, NO_VRPS, 1),
    # Expired items are ignored, as a cache doesn't serve them, and counted.
    (ALL, "", EXPIRING, b"10.0.0.0/8 1\n192.0.2.0/24 2\n198.51.100.0/24 3\n", lines(ANSWER, "192.0.2.0/24 AS2 valid", "198.51.100.0/24 AS3 valid"), gone(1), 0),
    (ALL, "", b"ASN,Prefix,Max Length,Expires\n1,10.0.0.0/8,8,1\n2,192.0.2.0/24,24,99999999999\n", b"10.0.0.0/8 1\n192.0.2.0/24 2\n", lines(ANSWER, "192.0.2.0/24 AS2 valid"), gone(1), 0),
    (ALL, "", b'{"roas":[{"prefix":"10.0.0.0/8","asn":1,"expires":1}]}', b"10.0.0.0/8 1\n", NONE, gone(1) + "\nrtr_validate: " + NO_VRPS, 1),
    (ALL, "", b'{"roas":[{"prefix":"10.0.0.0/8","asn":1,"expires":"x"}]}', b"10.0.0.0/8 1\n", NONE, "vrps: roas[0].expires: invalid time", 1),
    # At a time that is given: an item has expired at its time.
    (["--at", "0", "vrps"], "", EXPIRING, b"10.0.0.0/8 1\n192.0.2.0/24 2\n", lines("10.0.0.0/8 AS1 valid", "192.0.2.0/24 AS2 valid"), "", 0),
    (["--at", "1", "vrps"], "", EXPIRING, b"10.0.0.0/8 1\n192.0.2.0/24 2\n", lines(ANSWER, "192.0.2.0/24 AS2 valid"), gone(1), 0),
    (["--at", "99999999998", "vrps"], "", EXPIRING, b"192.0.2.0/24 2\n", lines("192.0.2.0/24 AS2 valid"), gone(1), 0),
    (["--at", "99999999999", *lookup("192.0.2.0/24", "2")], "", EXPIRING, NONE, lines("192.0.2.0/24 AS2 not found"), gone(2), 0),
    (["--json", "--at", "18446744073709551615", "--strict", "vrps"], "", EXPIRING, b"198.51.100.0/24 4\n", lines('{"prefix":"198.51.100.0/24","asn":4,"state":"invalid","vrps":[{"prefix":"198.51.100.0/24","maxLength":24,"asn":3,"mismatch":"another AS"}]}'), gone(2), 0),
    (["--at", "0", "vrps"], "", FILE, b"192.0.2.0/24 AS65551\n", lines(INVALID), "", 0),
    # A list that is cut off.
    (ALL, "", CSV[:-1], b"10.0.0.0/8 1\n", NONE, "vrps: line 7: no line end: the list may be cut off (`rtr_make --unended` reads it)", 1),
    (ALL, "", JSON[:-1], b"10.0.0.0/8 1\n", NONE, f"vrps: offset {len(JSON) - 1}: ends in the middle of a value", 1),
    (lookup("192.0.2.0/24", "65551"), "", b"\xef\xbb\xbf" + JSON, NONE, lines(INVALID), "", 0),
    (lookup("192.0.2.0/24", "65551"), "", b"".join(unit(*vrp, version=0) for vrp in VRPS if vrp[2] != 1) + END_0, NONE, lines(INVALID), "", 0),
    (lookup("192.0.2.0/24", "65551"), "", KEY + FILE[:-24] + ASPA + END, NONE, lines(INVALID), "", 0),
    (lookup("192.0.2.0/24", "65551"), "", RESPONSE + unit("192.0.2.0/24", 24, 65551) + END + samples.unit("cache reset", version=2) + RESPONSE + FILE, NONE, lines(INVALID), "", 0),
    (lookup("10.0.0.0/8", "1"), "", RESPONSE + FILE[:-24] + RESPONSE + unit("10.0.0.0/8", 8, 1) + END, NONE, lines("10.0.0.0/8 AS1 valid"), LEFT_OUT, 0),
    (["-", "192.0.2.0/24", "65551"], "", NONE, FILE, lines(INVALID), "", 0),
    (["-", "192.0.2.0/24", "65551"], "", NONE, CSV, lines(INVALID), "", 0),
    (["--json", "-", "10.0.0.0/8", "1"], "", NONE, JSON, lines('{"prefix":"10.0.0.0/8","asn":1,"state":"not found","vrps":[]}'), "", 0),
    # Files that are refused: nothing is answered.
    (lookup("10.0.0.0/8", "1"), "", NONE, NONE, NONE, "vrps: offset 0: " + CUT, 1),
    (ALL, "", FILE[:-1], b"10.0.0.0/8 1\n", NONE, f"vrps: offset {len(FILE) - 24}: " + CUT, 1),
    (lookup("10.0.0.0/8", "1"), "", unit("10.0.0.0/8", 8, 1) * 2 + END, NONE, NONE, "vrps: offset 20: duplicate announcement", 1),
    (lookup("10.0.0.0/8", "1"), "", b"AS1,10.0.0.0/8,7\n", NONE, NONE, "vrps: line 1: max-length smaller than prefix length", 1),
    (lookup("10.0.0.0/8", "1"), "", b"hello\n", NONE, NONE, "vrps: line 1: invalid AS number", 1),
    (lookup("10.0.0.0/8", "1"), "", b"{}", NONE, NONE, "vrps: input: no array of payloads", 1),
    (lookup("10.0.0.0/8", "1"), "", b"{", NONE, NONE, "vrps: offset 1: ends in the middle of a value", 1),
    (lookup("10.0.0.0/8", "1"), "", b'{"roas":[{"prefix":"10.0.0.0/8"}]}', NONE, NONE, "vrps: roas[0].asn: missing", 1),
    (lookup("10.0.0.0/8", "1"), "", bytes.fromhex("d4c3b2a1 0200 0400") + bytes(16), NONE, NONE, "vrps: line 1: no UTF-8\nrtr_validate: vrps " + CAPTURE, 1),
    # Files that can't be opened or read.
    (["none", "10.0.0.0/8", "1"], "", NONE, NONE, NONE, "none: " + NO_FILE, 3),
    (["none"], "", NONE, b"10.0.0.0/8 1\n", NONE, "none: " + NO_FILE, 3),
    ([".", "10.0.0.0/8", "1"], "", NONE, NONE, NONE, ".: " + NO_READ, 3),
    (["-", "10.0.0.0/8", "1"], "<.", NONE, NONE, NONE, "-: " + NO_READ, 3),
    (ALL, "<.", FILE, NONE, NONE, NO_READ, 3),
    (ALL, "<&-", FILE, NONE, NONE, CLOSED, 3),
    (lookup("10.0.0.0/8", "1"), "<&-", FILE, NONE, lines("10.0.0.0/8 AS1 not found"), "", 0),
    (["a\nb\x1b", "10.0.0.0/8", "1"], "", NONE, NONE, NONE, "a\\nb\\x1b: " + NO_FILE, 3),
    # An output or a line that can't be written.
    (lookup("10.0.0.0/8", "1"), ">/dev/full", FILE, NONE, NONE, NO_WRITE, 3),
    (ALL, ">/dev/full", FILE, b"10.0.0.0/8 1\n", NONE, NO_WRITE, 3),
    (ALL, ">/dev/full", FILE, b"10.0.0.0/8 1\nx\n", NONE, "line 2: missing prefix length\nrtr_validate: " + NO_WRITE, 3),
    (STRICT, ">/dev/full", FILE, b"10.0.0.0/8 1\nx\n", NONE, "line 2: missing prefix length\nrtr_validate: " + NO_WRITE, 3),
    (ALL, "2>/dev/full", FILE, b"x\n10.0.0.0/8 1\n", lines(ANSWER), "", 1),
    (STRICT, "2>/dev/full", FILE, b"x\n10.0.0.0/8 1\n", NONE, "", 1),
    # Arguments that aren't a route: nothing is read.
    (lookup("10.0.0.1/8", "AS1"), "", FILE, NONE, NONE, "10.0.0.1/8 AS1: " + HOST, 2),
    (lookup("10.0.0.0/8", "x"), "", NONE, NONE, NONE, "10.0.0.0/8 x: invalid AS number", 2),
    (lookup(" 10.0.0.0/8", "1"), "", FILE, NONE, NONE, " 10.0.0.0/8 1: invalid IP address syntax", 2),
    (lookup("\n", "\u00e9"), "", FILE, NONE, NONE, "\\n \\xc3\\xa9: missing prefix length", 2),
    # Wrong arguments.
    ([], "", FILE, NONE, NONE, USAGE, 2),
    (["-"], "", FILE, NONE, NONE, USAGE, 2),
    (["--json", "-"], "", FILE, NONE, NONE, USAGE, 2),
    (["--json"], "", FILE, NONE, NONE, USAGE, 2),
    (["vrps", "10.0.0.0/8"], "", FILE, NONE, NONE, USAGE, 2),
    (["vrps", "10.0.0.0/8", "1", "2"], "", FILE, NONE, NONE, 'unexpected argument "2"', 2),
    (["vrps", "10.0.0.0/8", "1", "--json"], "", FILE, NONE, NONE, '--json has to come before "vrps"', 2),
    (["--json", "--json", "vrps"], "", FILE, NONE, NONE, "--json: it is given twice", 2),
    (["--strict", "--strict", "vrps"], "", FILE, NONE, NONE, "--strict: it is given twice", 2),
    (["--format", "frr", "--format", "frr", "vrps"], "", FILE, NONE, NONE, "--format: it is given twice", 2),
    (["--format", "lines", "--format", "mrt", "vrps"], "", FILE, NONE, NONE, "--format: it is given twice", 2),
    (["--summary", "--summary", "vrps"], "", FILE, NONE, NONE, "--summary: it is given twice", 2),
    (["--summary", *lookup("10.0.0.0/8", "1")], "", FILE, NONE, NONE, "--summary doesn't go with PREFIX ASN", 2),
    (["--against", "other", *lookup("10.0.0.0/8", "1")], "", FILE, NONE, NONE, "--against doesn't go with PREFIX ASN", 2),
    ([*AGAINST, "--against", "other"], "", FILE, NONE, NONE, "--against: it is given twice", 2),
    (["--against", "-", "vrps"], "", FILE, NONE, NONE, "--against: \"-\" isn't a file", 2),
    (["--against", "other"], "", FILE, NONE, NONE, USAGE, 2),
    (["--against"], "", FILE, NONE, NONE, "--against needs FILE", 2),
    (["--slurm"], "", FILE, NONE, NONE, "--slurm needs FILE", 2),
    (["--slurm", "bad"], "", FILE, NONE, NONE, USAGE, 2),
    (["--format", "MRT", "vrps"], "", FILE, NONE, NONE, "--format: \"MRT\" isn't lines, mrt, bird or frr", 2),
    (["--format", "vrps"], "", FILE, NONE, NONE, "--format: \"vrps\" isn't lines, mrt, bird or frr", 2),
    (["--format"], "", FILE, NONE, NONE, "--format needs lines, mrt, bird or frr", 2),
    (["--at", "1", "--at", "1", "vrps"], "", FILE, NONE, NONE, "--at: it is given twice", 2),
    (["--at", "vrps"], "", FILE, NONE, NONE, "--at: \"vrps\" isn't a number up to 18446744073709551615", 2),
    (["--at", "1"], "", FILE, NONE, NONE, USAGE, 2),
    (["--at", "x", "vrps"], "", FILE, NONE, NONE, "--at: \"x\" isn't a number up to 18446744073709551615", 2),
    (["--at", "18446744073709551616", "vrps"], "", FILE, NONE, NONE, "--at: \"18446744073709551616\" isn't a number up to 18446744073709551615", 2),
    (["--strict", "-"], "", FILE, NONE, NONE, USAGE, 2),
    (["vrps", "--strict"], "", FILE, NONE, NONE, '--strict has to come before "vrps"', 2),
    (["--text", "vrps"], "", FILE, NONE, NONE, 'unknown option "--text"', 2),
    (["-x"], "", FILE, NONE, NONE, 'unknown option "-x"', 2),
    (["--help"], "", FILE, NONE, HELP, "", 0),
    (["--version"], "", FILE, NONE, b"rtr_validate 0.3.0\n", "", 0),
    (["--help"], ">/dev/full", FILE, NONE, NONE, NO_WRITE, 3),
    ([b"\xff"], "", FILE, NONE, NONE, USAGE, 2),
]
# fmt: on


def run(program, arguments, redirection, vrps, given):
    """Returns the output, standard error and status of the program by a list of VRPs."""
    return redirected.run(program, arguments, redirection, given, {"vrps": vrps, **FILES})


def check_rows(program):
    wrong = 0
    for where, row in zip(places(globals()), RUNS):
        arguments, redirection, vrps, given, output, line, status = row
        stderr = line + "\n" if line else ""
        if stderr and line != USAGE:
            stderr = "rtr_validate: " + stderr
        got = run(program, arguments, redirection, vrps, given)
        if got != (output, stderr, status):
            wrong += 1
            print(f"{where}: {arguments} {redirection}: {got}, not {(output, stderr, status)}")
    return wrong


def answer(vrps, prefix, asn):
    """Returns the line on a route: RFC 6811 section 2 over all VRPs, which are in the order of
    payloads."""
    net = ipaddress.ip_network(prefix)
    covering = [(above, max_len, origin) for above, max_len, origin in vrps
                if above.version == net.version and net.subnet_of(above)]
    whys = ["AS 0" if origin == 0 else "another AS" if origin != asn
            else f"longer than {max_len}" if net.prefixlen > max_len else ""
            for _, max_len, origin in covering]
    reasons = "; ".join(f"{above}-{max_len} AS{origin} ({why})"
                        for (above, max_len, origin), why in zip(covering, whys))
    state = "not found" if not covering else "invalid: " + reasons if all(whys) else "valid"
    return f"{net} AS{asn} {state}"


def nested(choice, width):
    """Returns a prefix, mostly inside or around others of these few addresses."""
    length = choice.choice((0, 8, 16, 22, 23, 24, 31, 32)) * width // 32
    bits = choice.choice((10, 11, 192, 255)) << (width - 8) | choice.getrandbits(width // 8)
    bits = bits >> (width - length) << (width - length) if length else 0
    kind = ipaddress.IPv4Network if width == 32 else ipaddress.IPv6Network
    return kind((bits, length))


def check_tables(program, many):
    choice = random.Random(1)
    wrong = 0
    for _ in range(many):
        picked = set()
        for _ in range(choice.choice((0, 1, 5, 60))):
            net = nested(choice, choice.choice((32, 128)))
            longest = choice.choice((net.prefixlen, net.max_prefixlen))
            picked.add((net, longest, choice.choice((0, 1, 2, 4294967295))))
        vrps = sorted(picked, key=lambda vrp: (vrp[0].version, int(vrp[0].network_address),
                                               vrp[0].prefixlen, vrp[1], vrp[2]))
        routes = [(nested(choice, choice.choice((32, 128))), choice.choice((0, 1, 2, 3)))
                  for _ in range(200)]
        given = lines(*(f"{net} AS{asn}" for net, asn in routes))
        answers = [answer(vrps, net, asn) for net, asn in routes]
        units = [unit(str(net), longest, asn) for net, longest, asn in vrps]
        shuffled = choice.sample(units, len(units))
        got = run(program, ALL, "", b"".join(shuffled) + END, given)
        expected = lines(*answers), "", 0
        if not vrps:
            expected = NONE, f"rtr_validate: {NO_VRPS}\n", 1
        if got != expected:
            wrong += 1
            shown = got[0].decode().splitlines()
            differs = [pair for pair in zip(shown, answers) if pair[0] != pair[1]]
            print(f"validity: {differs[:3]}, {got[1:]}")
    return wrong


def check_pipe(program):
    """Checks that the answer on a route comes while the pipe stays open."""
    with tempfile.TemporaryDirectory() as folder:
        with open(os.path.join(folder, "vrps"), "wb") as file:
            file.write(FILE)
        with subprocess.Popen([program, "vrps"], stdin=subprocess.PIPE, stdout=subprocess.PIPE,
                              cwd=folder) as child:
            for _ in range(2):
                child.stdin.write(b"10.0.0.0/8 1\n")
                child.stdin.flush()
                if not select.select([child.stdout], [], [], SECONDS)[0]:
                    child.kill()
                    print("validity: no answer while the pipe is open")
                    return 1
                if os.read(child.stdout.fileno(), 100) != b"10.0.0.0/8 AS1 not found\n":
                    print("validity: another answer while the pipe is open")
                    return 1
            child.stdin.close()
            return child.wait(SECONDS)


def check_progress(program):
    """Checks that a terminal shows the progress of a summary, at most once a second, and is left
    clean at the end."""
    with tempfile.TemporaryDirectory() as folder:
        with open(os.path.join(folder, "vrps"), "wb") as file:
            file.write(FILE)
        above, below = pty.openpty()
        with subprocess.Popen([program, *SUMMARY], stdin=subprocess.PIPE, stdout=subprocess.PIPE,
                              stderr=below, cwd=folder) as child:
            os.close(below)
            begin = time.monotonic()
            sent, seen = 0, b""
            while seen.count(b" lines") < 2 and time.monotonic() < begin + SECONDS:
                child.stdin.write(b"10.0.0.0/8 1\n")
                child.stdin.flush()
                sent += 1
                if select.select([above], [], [], 0.05)[0]:
                    seen += os.read(above, 1000)
            took = time.monotonic() - begin
            output, _ = child.communicate(b"x\n", timeout=SECONDS)
        while select.select([above], [], [], 0)[0]:
            try:
                seen += os.read(above, 1000)
            except OSError:
                break
        os.close(above)
    pattern = re.compile(rb"(\rrtr_validate: \d+ lines){2,}\r {40}\r"
                         rb"rtr_validate: line \d+: missing prefix length\r\n"
                         rb"rtr_validate: 1 line is no route\r\n")
    if (not pattern.fullmatch(seen) or took < 2
            or output != summary(0, 0, sent, 1, (1, 0, 0, sent))):
        print(f"validity: {seen} and {output} after {sent} lines in {took} s")
        return 1
    return 0


def main():
    programs = [os.path.realpath(path) for path in sys.argv[1:] or built.needed("rtr_validate")]
    wrong = sum(check_rows(program) + check_tables(program, 40) + check_pipe(program)
                + check_progress(program) for program in programs)
    if wrong:
        sys.exit(f"validity: FAILED, {wrong} wrong")


if __name__ == "__main__":
    main()
