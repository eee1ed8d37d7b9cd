#!/usr/bin/env python3
"""Runs the program `rtr_make` and compares the output and status of each run.

usage: makes.py [PROGRAM]..

Without PROGRAM it runs those of `built.py`. Each row of RUNS is one run: the arguments, a
redirection of the shell, the standard input, and then the expected output, lines on standard error
after the program's name, and status. After them come the samples in `crates/rtr_make/data`,
random payloads, whose sequence is computed here, and whole runs in which each allocation fails in
turn. Prints nothing if all is well.
"""
import os
import random
import re
import subprocess
import sys
import tempfile

TOP = os.path.realpath(os.path.join(os.path.dirname(os.path.abspath(__file__)), "..", ".."))
sys.path.insert(0, os.path.join(TOP, ".ci"))

import built  # noqa: E402  (it lies in another folder)
import samples  # noqa: E402
from places import places  # noqa: E402
from redirected import run  # noqa: E402

SAMPLES = os.path.join(TOP, "crates", "rtr_make", "data")

# More allocations than any run makes.
MOST = 200

# The units that announce, as version 2 has them (RFC 8210 sections 5.6, 5.7 and 5.10).
V4 = samples.unit("IPv4 prefix", version=2)
V4_EXACT = V4[:10] + b"\x17" + V4[11:]
OTHER = samples.unit("another IPv4 prefix", version=2)
KEY = samples.unit("router key of four bytes", version=2)
KEY_ID = KEY[8:28].hex()
ASPA = samples.unit("ASPA of large numbers")

# Units of the samples that validators printed: an IPv6 prefix, and a key of P-256; the same prefix
# of another AS.
V6_RUN = samples.unit("announced IPv6 prefix", version=2)
V6 = V6_RUN[:-4] + bytes.fromhex("00 01 00 0e")
KEY_RUN = bytes.fromhex(
    "02 09 01 00 00 00 00 7b b8ecbe009d706f2587671ea9ee706f4916994fc6 00 01 00 0f"
    "30 59 30 13 06 07 2a 86 48 ce 3d 02 01 06 08 2a 86 48 ce 3d 03 01 07 03 42 00 04"
    "10 d9 2a c7 86 61 ce 9e bd 95 73 a6 61 a4 ea fd 96 6c 3e 5d 60 c3 79 b6 05 ff a8 47 79 6c c1 48"
    "2d 69 61 3b c8 f3 9c eb ad aa 17 4c e7 c0 e0 b1 2a 77 1c ef 1c d6 77 45 d8 69 43 af 93 b8 fa 14"
)

# Ends of data (RFC 6810 and RFC 8210 section 5.8).
END = bytes.fromhex("02 07 00 00 00 00 00 18 00 00 00 01 00 00 0e 10 00 00 02 58 00 00 1c 20")
END_0 = bytes.fromhex("00 07 00 00 00 00 00 0c 00 00 00 01")
END_SET = bytes.fromhex("01 07 12 34 00 00 00 18 de ad be ef 00 00 00 01 00 00 00 02 00 00 02 58")
END_0_SET = bytes.fromhex("00 07 ff ff 00 00 00 0c ff ff ff ff")


with open(os.path.join(TOP, "CHANGELOG.md"), encoding="utf-8") as changes:
    VERSION = re.search(r"^## (\d+\.\d+\.\d+)$", changes.read(), re.M)[1]


def in_version(version, units):
    """Returns the units, one after the other, in this version."""
    changed = b""
    while units:
        size = int.from_bytes(units[4:8], "big")
        changed += bytes([version]) + units[1:size]
        units = units[size:]
    return changed


ROA = b'{"prefix":"192.0.2.0/23","maxLength":26,"asn":65551}'
ROA_6 = b'{"prefix":"2001:db8::/32","maxLength":48,"asn":"AS65550"}'
RTR_KEY = b'{"asn":65551,"ski":"' + KEY_ID.encode() + b'","pubkey":"FRYXGA=="}'
VAP = b'{"customer_asid":65551,"providers":[65549,"AS65550"]}'


def roas(*items):
    return b'{"roas":[' + b",".join(items) + b"]}"


def keys(*items):
    return b'{"bgpsec_keys":[' + b",".join(items) + b"]}"


def aspas(*items):
    return b'{"aspas":[' + b",".join(items) + b"]}"


ALL = (b'{"roas":[' + ROA + b'],"bgpsec_keys":[' + RTR_KEY + b'],"aspas":[' + VAP + b"]}")
LAST_TIME = 2**64 - 1


def until(item, time):
    """Returns the item with this text as its time."""
    return item[:-1] + b',"expires":' + str(time).encode() + b"}"


def at(time, *more):
    return ["--json", *more, "--at", str(time)]


def at_csv(time, *more):
    return ["--csv", *more, "--at", str(time)]


def until_row(line, time):
    """Returns the line with this text as its fifth field."""
    return line[:-1] + b",ripe," + str(time).encode() + b"\n"


def gone(count, following=None):
    """Returns the line on how many items have expired, and when the next one does."""
    if following is None:
        return f"left out {count} that have expired; none of the others will"
    return f"left out {count} that have expired; the next expires at {following}"


OTHER_ROA = b'{"prefix":"198.51.100.0/24","maxLength":24,"asn":65551}'
MANY = b"".join(b"%d," % asn for asn in range(1, 16381))
# A key of three bytes more follows.
LONG_KEY = KEY[:7] + bytes([35]) + KEY[8:-4]
KEY_TOO_LONG = "bgpsec_keys[0]: router key is longer than its unit may be"
CSV = ["--csv"]
JSON = ["--json"]
ALL_SET = ["--version", "1", "--session", "4660", "--serial", "3735928559", "--refresh", "1",
           "--retry", "2", "--expire", "600", "--csv"]
USAGE = ("usage: rtr_make --csv | --json [--version 0|1|2] [--session N] [--serial N] "
         "[--refresh N] [--retry N] [--expire N] [--drop] [--empty] [--unended] [--ignore NAME] "
         "[--at N] [--slurm FILE] [FILE]")
# The rules of RFC 8210 section 6 on times.
REFRESH = "the refresh time has to be 1 to 86400 seconds"
RETRY = "the retry time has to be 1 to 7200 seconds"
EXPIRE = "the expire time has to be 600 to 172800 seconds"
ABOVE_REFRESH = "the expire time has to be longer than the refresh time"
ABOVE_RETRY = "the expire time has to be longer than the retry time"
NO_WRITE = "write failed: No space left on device (os error 28)"
HELP = b"""rtr_make - write the RTR sequence of validated payloads

It reads what a validator prints from FILE, or from standard input if FILE is -
or isn't given, and writes the units that announce it, and an end of data, to
standard output.

  --csv            read lines of an AS number, a prefix and a max length
  --json           read a JSON object, as validators print it
  --version 0|1|2  the version of the units (default 2)
  --session N      the session of the end of data (default 0)
  --serial N       its serial number (default 1)
  --refresh N      its intervals in seconds (default 3600, 600 and 7200);
  --retry N        version 0 has none
  --expire N
  --drop           leave out payloads that the version lacks, and count them
  --empty          accept an input without payloads
  --unended        accept CSV whose last line has no line end
  --ignore NAME    ignore what the JSON has under this name
  --at N           leave out items that have expired at this time, in seconds
                   since 1970 (default now), and count them: by their expires
                   in JSON, by a column of the name Expires in CSV
  --slurm FILE     filter the payloads, and add others, by this SLURM file
                   (RFC 8416); may be repeated, but files must not overlap

Alone: --help prints this, and --version the program's version.
"""
URI = "line 1: a column of URIs before the AS numbers is not read: leave it out"
MARK = b"\xef\xbb\xbf"
EARLY = "ends in the middle of a value"
HEADER = "line 1: the header has to name a prefix and a max length once each"
UNENDED = "no line end: the list may be cut off (`rtr_make --unended` reads it)"
EMPTY = "input: no payloads: give --empty if that is meant"
LINE = b"AS65551,192.0.2.0/23,26\n"
ANCHORED = LINE[:-1] + b",ripe\n"
BAD = b"ASx,192.0.2.0/23,26\n"
OTHER_LINE = b"AS65551,198.51.100.0/24,24\n"
LINE_6 = b"AS65550,2001:db8::/32,48\n"
HEAD = b"ASN,IP Prefix,Max Length,Trust Anchor\n"
TIMED = HEAD[:-1] + b",Expires\n"
NONE = b""

# fmt: off
RUNS = [
    # CSV: with a header or without, with AS or without, further columns, empty lines.
    (CSV, "", LINE, V4 + END, "", 0),
    (CSV, "", HEAD + ANCHORED, V4 + END, "", 0),
    (CSV, "", b"asn,prefix,maxlength\n" + LINE, V4 + END, "", 0),
    (CSV, "", b"65551,192.0.2.0/23,26\r\n", V4 + END, "", 0),
    (CSV, "", b"as65551,192.0.2.0/23,26,ripe,1767225600\n", V4 + END, "", 0),
    (CSV, "", b'"ASN","IP Prefix","Max Length"\n"AS65551","192.0.2.0/23","26","ripe"\n', V4 + END, "", 0),
    (CSV, "", b"\xef\xbb\xbf" + HEAD + ANCHORED, V4 + END, "", 0),
    (CSV, "", b"\n\n" + LINE + b"\n" + b"65550,2001:db8::/32,48\n", V4 + V6 + END, "", 0),
    # A last line that has no line end may be cut off (RFC 4180 section 2, rules 1 and 2).
    (CSV, "", b"AS7,10.7.0.0/16,24", NONE, "line 1: " + UNENDED, 1),
    (CSV, "", LINE + b"AS7,10.7.0.0/16,", NONE, "line 2: " + UNENDED, 1),
    (CSV, "", LINE + b"AS7,64.0.0.0/2,2", NONE, "line 2: " + UNENDED, 1),
    (CSV, "", LINE + b"AS7,10.7.0.0/16,2", NONE, "line 2: max-length smaller than prefix length", 1),
    (CSV, "", b"AS7,10.7.0.0/16\nAS7,10.8.0.0/16", NONE, "line 2: " + UNENDED, 1),
    (CSV, "", HEAD + ANCHORED[:-1], NONE, "line 2: " + UNENDED, 1),
    (CSV, "", HEAD[:-1], NONE, "line 1: " + UNENDED, 1),
    (CSV, "", MARK + b'"AS65551","192.0.2.0/23","26"', NONE, "line 1: " + UNENDED, 1),
    (CSV, "", b"AS65551,192.0.2.0/23,26\r", V4 + END, "", 0),
    (["--csv", "--unended"], "", LINE[:-1], V4 + END, "", 0),
    (["--unended", "--csv"], "", LINE + b"\n" + LINE_6[:-1], V4 + V6 + END, "", 0),
    (["--csv", "--unended"], "", LINE, V4 + END, "", 0),
    # A header names the columns, in any order but for the ASN, and each line has all of them.
    (CSV, "", b"ASN,Prefix,Min,Max Length\nAS65551,192.0.2.0/23,23,26\n", V4 + END, "", 0),
    (CSV, "", b"ASN,IP Prefix,Trust Anchor,Max Length\nAS65551,192.0.2.0/23,25,26\n", V4 + END, "", 0),
    (CSV, "", b"ASN,Max-Length,ip_prefix\n65551,26,192.0.2.0/23\n", V4 + END, "", 0),
    (CSV, "", b"asn,MaxLen,x,PREFIX,y\n65551,26,10.0.0.0/8,192.0.2.0/23,24\n", V4 + END, "", 0),
    (CSV, "", b"ASN,Prefix,Max prefix length\n65551,192.0.2.0/23,\n", V4_EXACT + END, "", 0),
    (CSV, "", b"ASN,Prefix,max_prefix_len\n65551,192.0.2.0/23,26,more\n", V4 + END, "", 0),
    (CSV, "", b"asn,prefix,length\n" + LINE, NONE, HEADER, 1),
    (CSV, "", b"ASN,Prefix\n" + LINE, NONE, HEADER, 1),
    (CSV, "", b"ASN,Max Length\n" + LINE, NONE, HEADER, 1),
    (CSV, "", b"ASN,Prefix,Max Length,maxlen\n" + LINE, NONE, HEADER, 1),
    (CSV, "", b"ASN,Prefix,IP Prefix,Max Length\n" + LINE, NONE, HEADER, 1),
    (CSV, "", b"ASN,Prefix,Max Length,ASN\n" + LINE, NONE, HEADER, 1),
    (CSV, "", b"ASN,Prefix,Max Length,Expires,expires\n" + LINE, NONE, HEADER, 1),
    (CSV, "", b"ASN\n" + LINE, NONE, HEADER, 1),
    (CSV, "", HEAD + LINE, NONE, "line 2: fewer fields than the header", 1),
    (CSV, "", HEAD + ANCHORED + b"AS65551,192.0.2.0/23,26\n", NONE, "line 3: fewer fields than the header", 1),
    # A plus is part of no number.
    (CSV, "", b"AS+65551,192.0.2.0/23,26\n", NONE, "line 1: a plus before a number", 1),
    (CSV, "", b"+65551,192.0.2.0/23,26\n", NONE, "line 1: a plus before a number", 1),
    (CSV, "", LINE + b"65551,192.0.2.0/+23,26\n", NONE, "line 2: a plus before a number", 1),
    (CSV, "", LINE + b"65551,192.0.2.0/23,+26\n", NONE, "line 2: a plus before a number", 1),
    (CSV, "", b"65551,192.0.2.0/23,26,a+b\n", V4 + END, "", 0),
    # Without a max length it is the prefix length.
    (CSV, "", b"AS65551,192.0.2.0/23,\n", V4_EXACT + END, "", 0),
    (CSV, "", b"AS65551,192.0.2.0/23\n", V4_EXACT + END, "", 0),
    (CSV, "", b"AS65551,192.0.2.0/23\nAS65551,192.0.2.0/23,23\n", V4_EXACT + END, "", 0),
    # Each payload is written once, in their order.
    (CSV, "", LINE * 3, V4 + END, "", 0),
    (CSV, "", b"AS65550,2001:db8::/32,48\n" + LINE + b"AS65551,198.51.100.0/24,24\n" + LINE, V4 + OTHER + V6 + END, "", 0),
    # Options for the end of data.
    (ALL_SET, "", LINE, in_version(1, V4) + END_SET, "", 0),
    (["--drop", *ALL_SET], "", LINE, in_version(1, V4) + END_SET, "", 0),
    (["--csv", "--version", "0"], "", LINE, in_version(0, V4) + END_0, "", 0),
    (["--serial", "4294967295", "--csv", "--version", "0", "--session", "65535"], "", LINE, in_version(0, V4) + END_0_SET, "", 0),
    (["--csv", "--version", "2"], "", LINE, V4 + END, "", 0),
    # A sequence without payloads only if that is asked for.
    (CSV, "", NONE, NONE, EMPTY, 1),
    (CSV, "", HEAD, NONE, EMPTY, 1),
    (CSV, "", b"\n\r\n", NONE, EMPTY, 1),
    (CSV, "", MARK, NONE, EMPTY, 1),
    (JSON, "", roas(), NONE, EMPTY, 1),
    (JSON, "", b'{"roas":null,"aspas":[],"aspa":{}}', NONE, EMPTY, 1),
    (["--json", "--version", "1", "--drop"], "", aspas(VAP), NONE, EMPTY, 1),
    (["--json", "--version", "0", "--drop"], "", keys(RTR_KEY), NONE, EMPTY, 1),
    (["--csv", "--empty"], "", NONE, END, "", 0),
    (["--empty", "--csv"], "", HEAD, END, "", 0),
    (["--csv", "--empty"], "", LINE, V4 + END, "", 0),
    (["--json", "--empty"], "", roas(), END, "", 0),
    (["--json", "--unended"], "", roas(ROA), NONE, "--unended needs --csv", 2),
    (["--csv", "--unended", "--unended"], "", LINE, NONE, "--unended: it is given twice", 2),
    (["--json", "--empty", "--version", "1", "--drop"], "", aspas(VAP), in_version(1, END), "left out 1 that version 1 lacks", 0),
    # Quotes (RFC 4180 section 2, rules 5 to 7): a field that begins with one ends with one.
    (CSV, "", b'"AS65551","192.0.2.0/23","26","a ""b"", c\r\nd",""\n' + LINE, V4 + END, "", 0),
    (CSV, "", b'AS65551,192.0.2.0/23,"26"\n', V4 + END, "", 0),
    (CSV, "", MARK + b'"ASN","Prefix","Max Length"\n' + LINE, V4 + END, "", 0),
    (CSV, "", b'AS1,192.0.2.0/24,24,"ripe\nAS2,192.0.2.0/24,24\nAS3,192.0.2.0/24,24\n', NONE, "line 1: a quote is not closed", 1),
    (CSV, "", b'"AS1","0.0.0.0/0","3', NONE, "line 1: a quote is not closed", 1),
    (CSV, "", LINE + b'AS1,0.0.0.0/0,0,"a ""\n\n', NONE, "line 2: a quote is not closed", 1),
    (CSV, "", LINE + b'"', NONE, "line 2: a quote is not closed", 1),
    (CSV, "", b'AS65551,192.0.2.0/23,"26"x\n', NONE, "line 1: text after a closing quote", 1),
    (CSV, "", b'"AS65551" ,192.0.2.0/23,26\n', NONE, "line 1: text after a closing quote", 1),
    (CSV, "", LINE + b'AS1,0.0.0.0/0,0,"a\nb"c\n', NONE, "line 3: text after a closing quote", 1),
    (CSV, "", b'AS65551,192.0.2.0/23,26,ri"pe"\n', NONE, "line 1: a quote inside a field", 1),
    (CSV, "", LINE + b' "AS65551",192.0.2.0/23,26\n', NONE, "line 2: a quote inside a field", 1),
    # Quotes are checked first.
    (CSV, "", BAD + b'"', NONE, "line 2: a quote is not closed", 1),
    # A column of URIs before the others, and other names than `ASN`.
    (CSV, "", b"URI,AS65551,192.0.2.0/23,26\n", NONE, URI, 1),
    (CSV, "", LINE + b"URI,ASN\n", NONE, URI.replace("1", "2"), 1),
    (CSV, "", b"rsync://rpki.example/a.roa,AS65551,192.0.2.0/23,26\n", NONE, URI, 1),
    (CSV, "", LINE + b"rsync://,ASN\n", NONE, URI.replace("1", "2"), 1),
    (CSV, "", b"rsync:/rpki.example/a.roa,AS65551\n", NONE, "line 1: invalid AS number", 1),
    (CSV, "", b"ASNX,foo\n" + LINE, NONE, "line 1: invalid AS number", 1),
    (CSV, "", b"Asn,foo\n" + LINE, NONE, HEADER, 1),
    # Lines that are no origins.
    (CSV, "", b"AS6555x,192.0.2.0/23,26\n", NONE, "line 1: invalid AS number", 1),
    (CSV, "", LINE + b"4294967296,192.0.2.0/23,26\n", NONE, "line 2: invalid AS number", 1),
    (CSV, "", LINE + HEAD, NONE, "line 2: invalid AS number", 1),
    (CSV, "", b"URI,ASN,IP Prefix,Max Length,Not Before,Not After\n" + LINE, NONE, URI, 1),
    (CSV, "", HEAD + ANCHORED + b"AS65551\n", NONE, "line 3: fewer fields than the header", 1),
    (CSV, "", LINE + b"AS65551\n", NONE, "line 2: missing prefix length", 1),
    (CSV, "", b"AS65551,192.0.2.0,26\n", NONE, "line 1: missing prefix length", 1),
    (CSV, "", b"AS65551,192.0.2/23,26\n", NONE, "line 1: invalid IP address syntax", 1),
    (CSV, "", b"AS65551,192.0.2.0/x,26\n", NONE, "line 1: invalid prefix length: invalid digit found in string", 1),
    (CSV, "", b"AS65551,192.0.2.0/33,33\n", NONE, "line 1: prefix length too large", 1),
    (CSV, "", b"AS65551,192.0.2.1/24,24\n", NONE, "line 1: non-zero host portion", 1),
    (CSV, "", b"AS65551,192.0.2.0/23,x\n", NONE, "line 1: invalid max-length", 1),
    (CSV, "", b"AS65551,192.0.2.0/23,256\n", NONE, "line 1: invalid max-length", 1),
    (CSV, "", b"AS65551,192.0.2.0/23,33\n", NONE, "line 1: max-length too large", 1),
    (CSV, "", b"AS65551,192.0.2.0/23,22\n", NONE, "line 1: max-length smaller than prefix length", 1),
    (CSV, "", LINE + b"AS65551,\xff,26\n", NONE, "line 2: no UTF-8", 1),
    (CSV, "", b" AS65551,192.0.2.0/23,26\n", NONE, "line 1: invalid AS number", 1),
    # The line is that of the file, also after empty lines, a byte order mark, fields with line
    # breaks in them, and if lines end with CR and LF.
    (CSV, "", LINE + b"\n\n" + BAD, NONE, "line 4: invalid AS number", 1),
    (CSV, "", b"\n\n" + BAD, NONE, "line 3: invalid AS number", 1),
    (CSV, "", HEAD + b"\n" + ANCHORED + b"\n" + BAD[:-1] + b",x\n", NONE, "line 5: invalid AS number", 1),
    (CSV, "", LINE[:-1] + b"\r\n" + BAD, NONE, "line 2: invalid AS number", 1),
    (CSV, "", b"\r\n" + LINE[:-1] + b"\r\n\r\n\r\n" + BAD[:-1] + b"\r\n", NONE, "line 5: invalid AS number", 1),
    (CSV, "", LINE[:-1] + b',"a\nb"\n' + BAD, NONE, "line 3: invalid AS number", 1),
    (CSV, "", LINE[:-1] + b',"a\r\nb"\r\n' + BAD, NONE, "line 3: invalid AS number", 1),
    (CSV, "", LINE[:-1] + b',"\n\n"\n\n\n' + BAD, NONE, "line 6: invalid AS number", 1),
    (CSV, "", LINE + b'"a\nb",192.0.2.0/23\n', NONE, "line 2: invalid AS number", 1),
    (CSV, "", b"\xef\xbb\xbf" + BAD, NONE, "line 1: invalid AS number", 1),
    (CSV, "", b"\xef\xbb\xbf\n" + BAD, NONE, "line 2: invalid AS number", 1),
    (CSV, "", b"\xef\xbb\xbf" + LINE + b"\n" + BAD, NONE, "line 3: invalid AS number", 1),
    (CSV, "", LINE + b"\n\nAS65551,\xff,26\n", NONE, "line 4: no UTF-8", 1),
    (CSV, "", LINE[:-1] + b"\r\n\r\nAS65551,\xff,26\r\n", NONE, "line 3: no UTF-8", 1),
    (CSV, "", ALL, NONE, "line 1: a quote inside a field", 1),
    # JSON.
    (JSON, "", roas(ROA), V4 + END, "", 0),
    (JSON, "", roas(ROA_6, ROA, ROA), V4 + V6 + END, "", 0),
    (JSON, "", roas(b'{"prefix":"192.0.2.0\\/23","asn":"65551"}'), V4_EXACT + END, "", 0),
    (JSON, "", keys(RTR_KEY, RTR_KEY), KEY + END, "", 0),
    (JSON, "", aspas(VAP), ASPA + END, "", 0),
    (JSON, "", b" " + ALL + b"\n", V4 + KEY + ASPA + END, "", 0),
    (JSON, "", b'{"ta":"x","expires":1,"metadata":{"roas":[{"asn":1}]},"roas":[' + ROA + b'],"notes":["asn",1,{"x":2}]}', V4 + END, "", 0),
    (JSON, "", b'{"roas":[' + ROA + b'],"roas":[' + ROA_6 + b"]}", V4 + V6 + END, "", 0),
    (JSON, "", keys(b'{"asn":65551,"SKI":"' + KEY_ID.upper().encode() + b'","routerPublicKey":"FRYXGA"}'), KEY + END, "", 0),
    (JSON, "", keys(b'{"asn":65551,"ski":"AQIDBAUGBwgJCgsMDQ4PEBESExQ=","spki":"FRYXGA"}'), KEY + END, "", 0),
    (JSON, "", MARK + roas(ROA), V4 + END, "", 0),
    (JSON, "", b'{"roas":[' + ROA + b'],"aspas":null,"provider_authorizations":{"ipv4":null}}', V4 + END, "", 0),
    # An array of more than 65535 items, whose last one differs.
    (JSON, "", roas(*[ROA] * 65536, OTHER_ROA), V4 + OTHER + END, "", 0),
    # Names in any case, and with other signs between their words.
    (JSON, "", roas(b'{"prefix":"192.0.2.0/23","asn":65551,"maxlength":26}'), V4 + END, "", 0),
    (JSON, "", roas(b'{"prefix":"192.0.2.0/23","asn":65551,"max_length":26}'), V4 + END, "", 0),
    (JSON, "", b'{"ROAs":[{"Prefix":"192.0.2.0/23","ASN":65551,"MaxLength":26}]}', V4 + END, "", 0),
    (JSON, "", b'{"router_keys":[{"AsN":65551,"SKI":"' + KEY_ID.encode() + b'","public-key":1,"router_public_key":"FRYXGA"}]}', KEY + END, "", 0),
    (JSON, "", b'{"Aspas":[{"customerAsid":65551,"Providers":[65549,65550]}]}', ASPA + END, "", 0),
    # Each name of a max length is read.
    (JSON, "", roas(b'{"prefix":"192.0.2.0/23","asn":65551,"maxlen":26}'), V4 + END, "", 0),
    (JSON, "", roas(b'{"prefix":"192.0.2.0/23","asn":65551,"maxPrefixLength":26}'), V4 + END, "", 0),
    (JSON, "", roas(b'{"prefix":"192.0.2.0/23","asn":65551,"max_prefix_length":26}'), V4 + END, "", 0),
    (JSON, "", roas(b'{"prefix":"192.0.2.0/23","asn":65551,"max prefix len":26}'), V4 + END, "", 0),
    (JSON, "", roas(b'{"prefix":"192.0.2.0/23","asn":65551,"maxlen":26,"maxLength":26}'), NONE, "roas[0].maxLength: given twice", 1),
    # A plus is part of no number.
    (JSON, "", roas(b'{"prefix":"192.0.2.0/23","asn":"AS+65551"}'), NONE, "roas[0].asn: invalid AS number", 1),
    (JSON, "", roas(b'{"prefix":"192.0.2.0/23","asn":"+65551"}'), NONE, "roas[0].asn: invalid AS number", 1),
    (JSON, "", roas(b'{"prefix":"192.0.2.0/+23","asn":65551}'), NONE, "roas[0].prefix: a plus before a number", 1),
    (JSON, "", aspas(b'{"customer":"AS+65551","providers":[65549]}'), NONE, "aspas[0].customer: invalid AS number", 1),
    (JSON, "", aspas(b'{"customer":65551,"providers":["+65549"]}'), NONE, "aspas[0].providers: invalid AS number", 1),
    (JSON, "", b'{"aspa":{"+65551":[65549]}}', NONE, 'aspa["+65551"]: invalid AS number', 1),
    (JSON, "", b'{"roas":[' + ROA + b'],"x":[["AS+1","192.0.2.0/+24"]]}', NONE, '"x": payloads under an unknown name', 1),
    # Base64 has either alphabet (RFC 4648 sections 4 and 5).
    (JSON, "", keys(RTR_KEY.replace(b"FRYXGA==", b"____")), LONG_KEY + b"\xff\xff\xff" + END, "", 0),
    (JSON, "", keys(RTR_KEY.replace(b"FRYXGA==", b"----")), LONG_KEY + b"\xfb\xef\xbe" + END, "", 0),
    (JSON, "", keys(RTR_KEY.replace(b"FRYXGA==", b"//++")), LONG_KEY + b"\xff\xff\xbe" + END, "", 0),
    (JSON, "", keys(RTR_KEY.replace(b"FRYXGA==", b"_/++")), NONE, "bgpsec_keys[0].pubkey: invalid base64", 1),
    # Providers are sorted, each is written once, and so compared.
    (JSON, "", aspas(b'{"customer":65551,"providers":[65550,"AS65549",65550,65549]}', VAP), ASPA + END, "", 0),
    (JSON, "", aspas(b'{"customer":65551,"providers":[' + b"65550," * 20000 + b"65549]}"), ASPA + END, "", 0),
    # The ASPAs of FORT, by their customers.
    (JSON, "", b'{"aspa":{"65551":[65549,65550]}}', ASPA + END, "", 0),
    (JSON, "", b'{"aspa":{"AS65551":[65550,65549],"65551":["AS65549",65550]}}', ASPA + END, "", 0),
    (JSON, "", b'{"aspa":{"x":[65549]}}', NONE, 'aspa["x"]: invalid AS number', 1),
    (JSON, "", b'{"aspa":{"1":65549}}', NONE, 'aspa["1"]: no array', 1),
    (JSON, "", b'{"aspa":{"1":[]}}', NONE, 'aspa["1"]: ASPA has no providers', 1),
    (JSON, "", b'{"roas":{"1":[2]}}', NONE, "roas: no array", 1),
    # Arrays and objects nest 128 deep at most.
    (JSON, "", b'{"roas":[' + ROA + b'],"x":' + b"[" * 127 + b"]" * 127 + b"}", V4 + END, "", 0),
    (JSON, "", b'{"roas":[' + ROA + b'],"x":' + b"[" * 128 + b"]" * 128 + b"}", NONE, f"offset {len(roas(ROA)) + 4 + 128}: nested deeper than 128", 1),
    (JSON, "", MARK + b"[" * 200 + b"]" * 200, NONE, "offset 132: nested deeper than 128", 1),
    # A version that lacks a payload.
    (["--json", "--version", "1"], "", ALL, NONE, "aspas[0]: protocol version 1 has no such payload", 1),
    (["--json", "--version", "0"], "", ALL, NONE, "bgpsec_keys[0]: protocol version 0 has no such payload", 1),
    (["--json", "--version", "1", "--drop"], "", ALL, in_version(1, V4 + KEY + END), "left out 1 that version 1 lacks", 0),
    (["--json", "--version", "0", "--drop"], "", ALL, in_version(0, V4) + END_0, "left out 2 that version 0 lacks", 0),
    (["--json", "--drop"], "", ALL, V4 + KEY + ASPA + END, "", 0),
    (["--json", "--version", "0", "--drop"], "", roas(ROA), in_version(0, V4) + END_0, "", 0),
    # Omitted payloads are checked like the others, and counted once.
    (["--json", "--version", "1", "--drop"], "", b'{"roas":[' + ROA + b'],"aspas":[' + VAP + b"," + VAP + b"]}", in_version(1, V4 + END), "left out 1 that version 1 lacks", 0),
    (["--json", "--version", "0", "--drop"], "", b'{"roas":[' + ROA + b'],"bgpsec_keys":[' + RTR_KEY + b"," + RTR_KEY + b'],"aspas":[' + VAP + b"]}", in_version(0, V4) + END_0, "left out 2 that version 0 lacks", 0),
    (["--json", "--version", "1", "--drop"], "", aspas(VAP, b'{"customer":65551,"providers":[65549]}'), NONE, "aspas[1]: other providers than in an ASPA of the same customer before", 1),
    (["--json", "--version", "1", "--drop"], "", aspas(b'{"customer":65551,"providers":[]}'), NONE, "aspas[0]: ASPA has no providers", 1),
    (["--json", "--version", "0", "--drop"], "", keys(RTR_KEY.replace(b"FRYXGA==", b"AAAA" * 21835)), NONE, KEY_TOO_LONG, 1),
    (["--json", "--version", "0", "--drop"], "", keys(RTR_KEY.replace(b"FRYXGA==", b"AAAA" * 21834 + b"AAA=")), NONE, KEY_TOO_LONG, 1),
    # An ASPA is refused if it contradicts an earlier one.
    (JSON, "", aspas(VAP, VAP), ASPA + END, "", 0),
    (JSON, "", aspas(VAP, b'{"customer":65551,"providers":[65549]}'), NONE, "aspas[1]: other providers than in an ASPA of the same customer before", 1),
    (JSON, "", aspas(b'{"customer":65551,"providers":[]}'), NONE, "aspas[0]: ASPA has no providers", 1),
    # Input that isn't JSON, or isn't an object with payloads.
    (JSON, "", NONE, NONE, "offset 0: no JSON", 1),
    (JSON, "", LINE, NONE, "offset 0: no JSON", 1),
    (JSON, "", roas(ROA)[:-1], NONE, f"offset {len(roas(ROA)) - 1}: {EARLY}", 1),
    (JSON, "", roas(ROA)[:-4], NONE, f"offset {len(roas(ROA)) - 4}: {EARLY}", 1),
    (JSON, "", b'{"roas":[{"prefix":"192.0.', NONE, f"offset 19: {EARLY}", 1),
    (JSON, "", b'{"roas":nul', NONE, f"offset 8: {EARLY}", 1),
    (JSON, "", MARK + b'{"roas":', NONE, f"offset 11: {EARLY}", 1),
    (JSON, "", b'{"roas":[nil', NONE, "offset 9: no JSON", 1),
    (JSON, "", b'{"roas":[]} x', NONE, "offset 12: no JSON", 1),
    (JSON, "", b'{"roas":[' + b"[" * 200 + b"]" * 200 + b"]}", NONE, None, 1),
    (JSON, "", b'{"roas":"\xff"}', NONE, "input: no UTF-8", 1),
    (JSON, "", b"[" + ROA + b"]", NONE, "input: no object", 1),
    (JSON, "", b"{}", NONE, "input: no array of payloads", 1),
    (JSON, "", b'{"metadata":{}}', NONE, "input: no array of payloads", 1),
    (JSON, "", b'{"roas":{}}', NONE, "roas: no array", 1),
    (JSON, "", b'{"provider_authorizations":[]}', NONE, "provider_authorizations: no object", 1),
    (JSON, "", b'{"provider_authorizations":{"ipv6":[{"providers":[]}]}}', NONE, "provider_authorizations.ipv6[0].customer: missing", 1),
    # Payloads under a name that isn't known are never lost.
    (JSON, "", b'{"provider_authorizations":{"ipv4":[],"ipv5":[' + VAP + b"]}}", NONE, 'provider_authorizations["ipv5"]: payloads under an unknown name', 1),
    (JSON, "", b'{"roas":[],"vaps":[{"customer_asid":1,"providers":[2]}]}', NONE, '"vaps": payloads under an unknown name', 1),
    (JSON, "", b'{"roas":[],"meta":[' + ROA + b"]}", NONE, '"meta": payloads under an unknown name', 1),
    (JSON, "", b'{"roas":[],"buildtime":[' + ROA + b"]}", NONE, '"buildtime": payloads under an unknown name', 1),
    (JSON, "", b'{"roas":[],"x":' + ROA + b"}", NONE, '"x": payloads under an unknown name', 1),
    (JSON, "", b'{"roas":[],"x":[[' + ROA + b"]]}", NONE, '"x": payloads under an unknown name', 1),
    (JSON, "", b'{"roas":[],"x":{"y":{"z":[1,[],{"w":' + RTR_KEY + b"}]}}}", NONE, '"x": payloads under an unknown name', 1),
    (JSON, "", b'{"roas":[],"x":[{"ASN":1,"Router-Public-Key":""}]}', NONE, '"x": payloads under an unknown name', 1),
    (JSON, "", b'{"roas":[],"x":' + b"[" * 125 + VAP + b"]" * 125 + b"}", NONE, '"x": payloads under an unknown name', 1),
    # So it is where arrays have what an origin has, or names are customers of ASPAs.
    (JSON, "", b'{"roas":[' + ROA + b'],"x":[[1,"10.0.0.0/8",24]]}', NONE, '"x": payloads under an unknown name', 1),
    (["--json", "--empty"], "", b'{"roas":[],"x":[[1,"10.0.0.0/8",24]]}', NONE, '"x": payloads under an unknown name', 1),
    (JSON, "", b'{"roas":[' + ROA + b'],"x":{"y":["2001:db8::/32","AS1"]}}', NONE, '"x": payloads under an unknown name', 1),
    (JSON, "", b'{"roas":[' + ROA + b'],"x":[null,"1",{},"192.0.2.0/24"]}', NONE, '"x": payloads under an unknown name', 1),
    (JSON, "", b'{"roas":[' + ROA + b'],"vaps":{"65551":[65552]}}', NONE, '"vaps": payloads under an unknown name', 1),
    (["--json", "--empty"], "", b'{"roas":[],"vaps":{"AS65551":["AS65552",65553],"1":[2]}}', NONE, '"vaps": payloads under an unknown name', 1),
    (JSON, "", b'{"roas":[' + ROA + b'],"x":{"y":[{"1":[]}]}}', NONE, '"x": payloads under an unknown name', 1),
    (JSON, "", b'{"provider_authorizations":{"ipv4":[' + VAP + b'],"ipv5":{"1":[2]}}}', NONE, 'provider_authorizations["ipv5"]: payloads under an unknown name', 1),
    (["--json", "--ignore", "x", "--ignore", "vaps"], "", b'{"roas":[' + ROA + b'],"x":[[1,"10.0.0.0/8",24]],"vaps":{"65551":[65552]}}', V4 + END, "", 0),
    # Not where a prefix or an AS number is missing, or a name or a value is something else.
    (JSON, "", b'{"roas":[' + ROA + b'],"x":[["192.0.2.0/24","2001:db8::/32","AS"],[1,2,"AS3"],["192.0.2.0",1],["192.0.2.0/33",1],["192.0.2.0/24",-1],["192.0.2.0/24",[1]]]}', V4 + END, "", 0),
    (JSON, "", b'{"roas":[' + ROA + b'],"x":[{},{"1":2},{"1":["x"]},{"1":[2],"x":[3]},{"x":[1]},{"4294967296":[1]},{"1":[2],"3":4}]}', V4 + END, "", 0),
    # What is no payload isn't one: rpki-client's CAs that don't work, and its prefix lists.
    (JSON, "", b'{"roas":[' + ROA + b'],"nonfunc_cas":[{"ski":"0102"}]}', V4 + END, "", 0),
    (JSON, "", b'{"roas":[' + ROA + b'],"signedprefixlists":[{"origin_as":65551,"prefixes":["192.0.2.0/24"]}]}', V4 + END, "", 0),
    (JSON, "", b'{"roas":[' + ROA + b'],"x":[{"asn":1},{"prefix":"192.0.2.0/24"},{"customer":1},{"providers":[1]}]}', V4 + END, "", 0),
    # Unless it is asked for.
    (["--json", "--ignore", "vrps"], "", b'{"roas":[' + ROA + b'],"vrps":[' + ROA_6 + b"]}", V4 + END, "", 0),
    (["--ignore", "a", "--json", "--ignore", "b", "--ignore", "a"], "", b'{"a":[' + ROA_6 + b'],"roas":[' + ROA + b'],"b":' + ALL + b"}", V4 + END, "", 0),
    (["--json", "--ignore", "aspas"], "", ALL, V4 + KEY + END, "", 0),
    (["--json", "--ignore", "--ignore"], "", b'{"roas":[' + ROA + b'],"--ignore":[' + ROA_6 + b"]}", V4 + END, "", 0),
    (["--json", "--ignore", "vrps"], "", b'{"roas":[' + ROA + b'],"VRPs":[' + ROA_6 + b"]}", NONE, '"VRPs": payloads under an unknown name', 1),
    (["--json", "--ignore", "roas"], "", roas(b"1"), NONE, "input: no array of payloads", 1),
    (JSON, "", b'{"roas":[],"vrps":[' + ROA + b"]}", NONE, '"vrps": payloads under an unknown name', 1),
    (JSON, "", b'{"roas":[],"data":{"x":[1,{"customer":1,"providers":0}]}}', NONE, '"data": payloads under an unknown name', 1),
    (JSON, "", b'{"roas":[],"\\u001b":[{"ski":1,"asn":1}]}', NONE, '"\\u{1b}": payloads under an unknown name', 1),
    # Items that are no payloads.
    (JSON, "", roas(ROA, b"1"), NONE, "roas[1]: no object", 1),
    (JSON, "", roas(b'{"asn":1}'), NONE, "roas[0].prefix: missing", 1),
    (JSON, "", roas(b'{"prefix":"192.0.2.0/23"}'), NONE, "roas[0].asn: missing", 1),
    (JSON, "", roas(ROA, ROA[:-1] + b',"asn":1}'), NONE, "roas[1].asn: given twice", 1),
    (JSON, "", roas(b'{"asn":1,"prefix":1}'), NONE, "roas[0].prefix: no text", 1),
    (JSON, "", roas(b'{"asn":1,"prefix":"192.0.2.0"}'), NONE, "roas[0].prefix: missing prefix length", 1),
    (JSON, "", roas(b'{"asn":1,"prefix":"192.0.2.1/24"}'), NONE, "roas[0].prefix: non-zero host portion", 1),
    (JSON, "", roas(b'{"asn":1,"prefix":"192.0.2.0/24","maxLength":23}'), NONE, "roas[0].maxLength: max-length smaller than prefix length", 1),
    (JSON, "", roas(b'{"asn":1,"prefix":"192.0.2.0/24","maxLength":33}'), NONE, "roas[0].maxLength: max-length too large", 1),
    (JSON, "", roas(b'{"asn":1,"prefix":"192.0.2.0/24","maxLength":"24"}'), NONE, "roas[0].maxLength: invalid max-length", 1),
    (JSON, "", roas(b'{"asn":1,"prefix":"192.0.2.0/24","maxLength":280}'), NONE, "roas[0].maxLength: invalid max-length", 1),
    (JSON, "", roas(b'{"asn":4294967296,"prefix":"192.0.2.0/24"}'), NONE, "roas[0].asn: invalid AS number", 1),
    (JSON, "", roas(b'{"asn":1.5,"prefix":"192.0.2.0/24"}'), NONE, "roas[0].asn: invalid AS number", 1),
    (JSON, "", roas(b'{"asn":null,"prefix":"192.0.2.0/24"}'), NONE, "roas[0].asn: invalid AS number", 1),
    (JSON, "", keys(b'{"asn":1}'), NONE, "bgpsec_keys[0].ski: missing", 1),
    (JSON, "", keys(b'{"asn":1,"ski":"00"}'), NONE, "bgpsec_keys[0].ski: a key identifier has 40 hex digits", 1),
    (JSON, "", keys(b'{"asn":1,"SKI":"' + b"g" * 40 + b'"}'), NONE, "bgpsec_keys[0].SKI: invalid hex digit in a key identifier", 1),
    (JSON, "", keys(RTR_KEY.replace(b"FRYXGA==", b"FR!=")), NONE, "bgpsec_keys[0].pubkey: invalid base64", 1),
    (JSON, "", keys(RTR_KEY.replace(b"FRYXGA==", b"AAAA" * 21835)), NONE, "bgpsec_keys[0]: router key is longer than its unit may be", 1),
    (JSON, "", keys(b'{"asn":1,"ski":"' + KEY_ID.encode() + b'"}'), NONE, "bgpsec_keys[0].pubkey: missing", 1),
    (JSON, "", keys(b'{"asn":1,"ski":"x","SKI":"y"}'), NONE, "bgpsec_keys[0].SKI: given twice", 1),
    (JSON, "", keys(RTR_KEY[:-1] + b',"spki":"FRYXGA"}'), NONE, "bgpsec_keys[0].spki: given twice", 1),
    (JSON, "", roas(ROA[:-1] + b',"maxlength":26}'), NONE, "roas[0].maxlength: given twice", 1),
    (JSON, "", roas(b'{"asn":1,"prefix":"192.0.2.0/24","maxLength":null}'), NONE, "roas[0].maxLength: invalid max-length", 1),
    # A key identifier of 19 bytes as base64, in 28 characters and in 26.
    (JSON, "", keys(RTR_KEY.replace(KEY_ID.encode(), b"AQIDBAUGBwgJCgsMDQ4PEBESEw==")), NONE, "bgpsec_keys[0].ski: a key identifier has 40 hex digits", 1),
    (JSON, "", keys(RTR_KEY.replace(KEY_ID.encode(), b"AQIDBAUGBwgJCgsMDQ4PEBESEw")), NONE, "bgpsec_keys[0].ski: a key identifier has 40 hex digits", 1),
    (JSON, "", keys(RTR_KEY.replace(KEY_ID.encode(), b"AQIDBAUGBwgJCgsMDQ4PEBES!w==")), NONE, "bgpsec_keys[0].ski: invalid base64", 1),
    # The first part at fault decides: for an origin the prefix, then the max length, the ASN, and
    # the rule between the lengths.
    (JSON, "", roas(b'{"asn":"x","prefix":"y","maxLength":"z"}'), NONE, "roas[0].prefix: missing prefix length", 1),
    (JSON, "", roas(b'{"asn":"x","maxLength":"z","prefix":"192.0.2.0/24"}'), NONE, "roas[0].maxLength: invalid max-length", 1),
    (JSON, "", roas(b'{"asn":"x","maxLength":23,"prefix":"192.0.2.0/24"}'), NONE, "roas[0].asn: invalid AS number", 1),
    (JSON, "", keys(b'{"asn":"x","ski":"y","pubkey":"!"}'), NONE, "bgpsec_keys[0].asn: invalid AS number", 1),
    (JSON, "", keys(b'{"asn":1,"ski":"y","pubkey":"!"}'), NONE, "bgpsec_keys[0].ski: a key identifier has 40 hex digits", 1),
    (JSON, "", aspas(b'{"customer":"x","providers":["y"]}'), NONE, "aspas[0].customer: invalid AS number", 1),
    (JSON, "", aspas(b'{"customer":1}'), NONE, "aspas[0].providers: missing", 1),
    (JSON, "", aspas(b'{"customer":1,"providers":1}'), NONE, "aspas[0].providers: no array", 1),
    (JSON, "", aspas(b'{"customer":1,"providers":[1,"x"]}'), NONE, "aspas[0].providers: invalid AS number", 1),
    (JSON, "", aspas(b'{"customer":1,"providers":[' + MANY + b"0]}"), NONE, "aspas[0].providers: more than 16380 providers", 1),
    # What has expired is left out: an item stays until its time comes. Without a time that is given
    # the present one counts, and a line comes only where something has expired.
    (JSON, "", roas(until(ROA, 1), OTHER_ROA), OTHER + END, gone(1), 0),
    (JSON, "", roas(until(ROA, 1), until(OTHER_ROA, 99999999999)), OTHER + END, gone(1, 99999999999), 0),
    (JSON, "", roas(until(ROA, 99999999999), OTHER_ROA), V4 + OTHER + END, "", 0),
    (JSON, "", roas(until(ROA, 1), until(OTHER_ROA, "[]")), NONE, "roas[1].expires: invalid time", 1),
    (JSON, "", roas(until(ROA, 1)), NONE, EMPTY, 1),
    (["--json", "--empty"], "", roas(until(ROA, 1)), END, gone(1), 0),
    (["--json", "--version", "1", "--drop"], "", b'{"roas":[' + until(ROA, 1) + b"," + OTHER_ROA + b'],"aspas":[' + VAP + b"]}", in_version(1, OTHER + END), "left out 1 that version 1 lacks\n" + gone(1), 0),
    (at(0), "", roas(until(ROA, 1), OTHER_ROA), V4 + OTHER + END, gone(0, 1), 0),
    # What is left out without a line on it isn't left out in silence.
    (JSON, "2>/dev/full", roas(until(ROA, 1), OTHER_ROA), OTHER + END, "", 3),
    (["--json", "--version", "1", "--drop"], "2>/dev/full", ALL, in_version(1, V4 + KEY + END), "", 3),
    (JSON, "2>/dev/full", roas(until(ROA, 99999999999)), V4 + END, "", 0),
    (at(0), "", roas(ROA), V4 + END, gone(0), 0),
    (at(99), "", roas(until(ROA, 100), OTHER_ROA), V4 + OTHER + END, gone(0, 100), 0),
    (at(100), "", roas(until(ROA, 100), OTHER_ROA), OTHER + END, gone(1), 0),
    (at(101), "", roas(until(ROA, 100), OTHER_ROA), OTHER + END, gone(1), 0),
    (at(5), "", roas(until(ROA, 9), until(OTHER_ROA, 7), until(ROA_6, 8)), V4 + OTHER + V6 + END, gone(0, 7), 0),
    (at(7), "", roas(until(ROA, 9), until(OTHER_ROA, 7), until(ROA_6, 8)), V4 + V6 + END, gone(1, 8), 0),
    (at(8), "", roas(until(ROA, 9), until(OTHER_ROA, 7), until(ROA_6, 8)), V4 + END, gone(2, 9), 0),
    (at(LAST_TIME - 1), "", roas(until(ROA, LAST_TIME), until(OTHER_ROA, 0)), V4 + END, gone(1, LAST_TIME), 0),
    (at(LAST_TIME, "--empty"), "", roas(until(ROA, LAST_TIME)), END, gone(1), 0),
    (at(9), "", roas(until(ROA, 9)), NONE, EMPTY, 1),
    # The same payload stays as long as one item of it does; others may contradict what is gone.
    (at(7), "", roas(until(ROA, 7), until(ROA, 9)), V4 + END, gone(1, 9), 0),
    (at(7), "", aspas(until(b'{"customer":65551,"providers":[65549]}', 7), until(VAP, 8)), ASPA + END, gone(1, 8), 0),
    (at(6), "", aspas(until(b'{"customer":65551,"providers":[65549]}', 7), until(VAP, 8)), NONE, "aspas[1]: other providers than in an ASPA of the same customer before", 1),
    (at(7), "", keys(until(RTR_KEY, 7), until(RTR_KEY.replace(b":65551", b":65552"), 8)), KEY.replace(bytes([0, 1, 0, 15]), bytes([0, 1, 0, 16])) + END, gone(1, 8), 0),
    (at(7), "", b'{"aspa":{"65551":[65549,65550]}}', ASPA + END, gone(0), 0),
    # What has expired is checked as what hasn't, and other names are other things.
    (at(7), "", roas(ROA, until(b'{"asn":1}', 1)), NONE, "roas[1].prefix: missing", 1),
    (at(7), "", roas(ROA[:-1] + b',"Expires":7}', OTHER_ROA[:-1] + b',"expire":7}'), OTHER + END, gone(1), 0),
    (at(7), "", b'{"expires":7,"metadata":{"expires":"x"},"roas":[' + ROA + b"]}", V4 + END, gone(0), 0),
    # Times that aren't numbers of 64 bits, or come twice.
    *[
        (at(7), "", roas(ROA, until(OTHER_ROA, wrong)), NONE, "roas[1].expires: invalid time", 1)
        for wrong in ("-1", "1.0", "1e3", '"9"', "null", "[]", "true", LAST_TIME + 1)
    ],
    (at(7), "", roas(until(until(ROA, 9), 9)), NONE, "roas[0].expires: given twice", 1),
    (at(7), "", aspas(until(VAP, '"x"')), NONE, "aspas[0].expires: invalid time", 1),
    # With payloads that a version lacks, that line comes first.
    (at(7, "--version", "1", "--drop"), "", b'{"roas":[' + until(ROA, 9) + b'],"aspas":[' + VAP + b"]}", in_version(1, V4 + END), "left out 1 that version 1 lacks\n" + gone(0, 9), 0),
    # Whoever asks for it has to be told.
    (at(7), "2>/dev/full", roas(ROA), V4 + END, "", 3),
    # The same by the column of CSV that a header calls so; another one says nothing of it.
    (CSV, "", TIMED + until_row(LINE, 1) + until_row(OTHER_LINE, 99999999999), OTHER + END, gone(1, 99999999999), 0),
    (CSV, "", TIMED + until_row(LINE, 1) + until_row(OTHER_LINE, "x"), NONE, "line 3: invalid time", 1),
    (CSV, "", HEAD + until_row(LINE, 1) + until_row(OTHER_LINE, "x"), V4 + OTHER + END, "", 0),
    (at_csv(0), "", LINE, V4 + END, gone(0), 0),
    (at_csv(99), "", TIMED + until_row(LINE, 100) + until_row(OTHER_LINE, 101), V4 + OTHER + END, gone(0, 100), 0),
    (at_csv(100), "", TIMED + until_row(LINE, 100) + until_row(OTHER_LINE, 101), OTHER + END, gone(1, 101), 0),
    (at_csv(101), "", TIMED + until_row(LINE, 100) + until_row(OTHER_LINE, 102), OTHER + END, gone(1, 102), 0),
    (at_csv(5), "", TIMED + until_row(OTHER_LINE, 9) + until_row(LINE, 7) + until_row(LINE_6, 8), V4 + OTHER + V6 + END, gone(0, 7), 0),
    (at_csv(LAST_TIME - 1), "", TIMED + until_row(LINE, LAST_TIME), V4 + END, gone(0, LAST_TIME), 0),
    (at_csv(9), "", TIMED + until_row(LINE, 9), NONE, EMPTY, 1),
    (at_csv(9, "--empty"), "", TIMED + until_row(LINE, 9), END, gone(1), 0),
    (at_csv(7), "", TIMED + until_row(LINE, 7) + until_row(LINE, 9), V4 + END, gone(1, 9), 0),
    (at_csv(7), "", MARK + TIMED + until_row(LINE, 7) + until_row(OTHER_LINE, 9), OTHER + END, gone(1, 9), 0),
    (at_csv(7), "", TIMED.replace(b"Expires", b'"Expires"') + until_row(LINE, '"7"') + until_row(OTHER_LINE, 9), OTHER + END, gone(1, 9), 0),
    (at_csv(7), "", b"asn,prefix,maxlen,anchor,EXPIRES\n" + until_row(LINE, 7) + until_row(OTHER_LINE, 9), OTHER + END, gone(1, 9), 0),
    (at_csv(7), "", b"ASN,IP Prefix,Max Length,Expires\n" + LINE[:-1] + b",7\n" + OTHER_LINE[:-1] + b",9\n", OTHER + END, gone(1, 9), 0),
    (at_csv(7), "", b"ASN,Expires,IP Prefix,Max Length\n65551,7,192.0.2.0/23,26\n65551,9,198.51.100.0/24,24\n", OTHER + END, gone(1, 9), 0),
    (at_csv(7), "", b"ASN,IP Prefix,Max Length,Expires\n" + until_row(LINE, 9), NONE, "line 2: invalid time", 1),
    (at_csv(7), "", HEAD[:-1] + b",,Expires\n" + until_row(LINE, 9), NONE, "line 2: fewer fields than the header", 1),
    *[
        (at_csv(7), "", head + until_row(LINE, 1), V4 + END, gone(0), 0)
        for head in (NONE, HEAD, HEAD[:-1] + b",Expires at\n")
    ],
    (at_csv(7), "", LINE + TIMED, NONE, "line 2: invalid AS number", 1),
    *[
        (at_csv(7), "", TIMED + until_row(LINE, 9) + until_row(OTHER_LINE, wrong), NONE, "line 3: invalid time", 1)
        for wrong in ("", "-1", "1.0", "1e3", " 9", "x", LAST_TIME + 1)
    ],
    (at_csv(7), "", TIMED + LINE, NONE, "line 2: fewer fields than the header", 1),
    (at_csv(7), "", TIMED + until_row(LINE, "x") + BAD[:-1] + b",x,9\n", NONE, "line 3: invalid AS number", 1),
    (at_csv(7), "2>/dev/full", LINE, V4 + END, "", 3),
    (["--json", "--at"], "", roas(ROA), NONE, "--at needs a number up to 18446744073709551615", 2),
    (at(-1), "", roas(ROA), NONE, "--at: \"-1\" isn't a number up to 18446744073709551615", 2),
    (at(LAST_TIME + 1), "", roas(ROA), NONE, "--at: \"18446744073709551616\" isn't a number up to 18446744073709551615", 2),
    (at(7, "--at", "7"), "", roas(ROA), NONE, "--at: it is given twice", 2),
    # An input that can't be read, an output or a line that can't be written.
    (CSV, "<.", NONE, NONE, "read failed: Is a directory (os error 21)", 3),
    (["--csv", "."], "", NONE, NONE, ".: read failed: Is a directory (os error 21)", 3),
    (["--csv", "no such"], "", NONE, NONE, "no such: No such file or directory (os error 2)", 3),
    (CSV, ">/dev/full", LINE, NONE, NO_WRITE, 3),
    (CSV, "2>/dev/full", b"x", NONE, "", 1),
    (CSV, "2>/dev/full", LINE, V4 + END, "", 0),
    # Wrong arguments.
    ([], "", LINE, NONE, USAGE, 2),
    (["--csv", "--json"], "", LINE, NONE, "--json doesn't go with --csv", 2),
    (["--csv", "--csv"], "", LINE, NONE, "--csv: it is given twice", 2),
    (["--CSV"], "", LINE, NONE, 'unknown option "--CSV"', 2),
    (["--csv", "x", "x"], "", LINE, NONE, 'unexpected argument "x"', 2),
    (["x", "--csv"], "", LINE, NONE, '--csv has to come before "x"', 2),
    (["--csv", "--version"], "", LINE, NONE, "--version needs 0, 1 or 2", 2),
    (["--csv", "--version", "3"], "", LINE, NONE, "--version: \"3\" isn't 0, 1 or 2", 2),
    (["--csv", "--version", "1", "--version", "1"], "", LINE, NONE, "--version: it is given twice", 2),
    (["--csv", "--session", "65536"], "", LINE, NONE, "--session: \"65536\" isn't a number up to 65535", 2),
    (["--csv", "--serial", "4294967296"], "", LINE, NONE, "--serial: \"4294967296\" isn't a number up to 4294967295", 2),
    (["--csv", "--serial", "-1"], "", LINE, NONE, "--serial: \"-1\" isn't a number up to 4294967295", 2),
    (["--csv", "--refresh", ""], "", LINE, NONE, "--refresh: \"\" isn't a number up to 4294967295", 2),
    # Times out of their ranges (RFC 8210 section 6).
    *[
        (["--csv", *words.split(), *file], "", LINE, NONE, rule, 2) for file in ([], ["no such"])
        for words, rule in (("--refresh 0", REFRESH), ("--refresh 86401 --expire 172800", REFRESH),
                            ("--retry 0", RETRY), ("--retry 7201 --expire 172800", RETRY),
                            ("--expire 599 --refresh 1 --retry 1", EXPIRE), ("--expire 172801", EXPIRE),
                            ("--refresh 7200", ABOVE_REFRESH), ("--expire 3600", ABOVE_REFRESH),
                            ("--expire 600", ABOVE_REFRESH), ("--refresh 1 --expire 600", ABOVE_RETRY),
                            ("--refresh 600 --retry 1 --expire 600", ABOVE_REFRESH))
    ],
    *[
        (["--csv", *words.split()], "", LINE, V4 + END[:12] + bytes.fromhex(times), "", 0)
        for words, times in (("--refresh 86400 --retry 7200 --expire 172800", "00015180 00001c20 0002a300"),
                             ("--refresh 1 --retry 1 --expire 600", "00000001 00000001 00000258"),
                             ("--refresh 7199", "00001c1f 00000258 00001c20"))
    ],
    (["--csv", "--version", "0", "--retry", "1"], "", LINE, NONE, "--retry doesn't go with --version 0", 2),
    (["--csv", "--drop", "--drop"], "", LINE, NONE, "--drop: it is given twice", 2),
    (["--csv", "--empty", "--empty"], "", LINE, NONE, "--empty: it is given twice", 2),
    (["--csv", "--ignore", "roas"], "", LINE, NONE, "--ignore needs --json", 2),
    (["--ignore", "roas", "--csv", "x"], "", LINE, NONE, "--ignore needs --json", 2),
    (["--csv", "--ignore", "--csv", "--ignore", "x"], "", LINE, NONE, "--ignore needs --json", 2),
    (["--json", "--unended", "x"], "", roas(ROA), NONE, "--unended needs --csv", 2),
    (["--csv", "--slurm"], "", LINE, NONE, "--slurm needs FILE", 2),
    (["--csv", "--slurm", "no such", "--x"], "", LINE, NONE, 'unknown option "--x"', 2),
    (["--json", "--ignore"], "", roas(ROA), NONE, "--ignore needs NAME", 2),
    (["--ignore", "roas"], "", roas(ROA), NONE, USAGE, 2),
    (["--help", "--csv"], "", LINE, NONE, "--help has to stand alone", 2),
    (["--version", "--help"], "", LINE, NONE, "--version: \"--help\" isn't 0, 1 or 2", 2),
    (["-h"], "", LINE, NONE, 'unknown option "-h"', 2),
    # What the program says of itself.
    (["--help"], "", LINE, HELP, "", 0),
    (["--version"], "", LINE, f"rtr_make {VERSION}\n".encode(), "", 0),
    (["--help"], ">/dev/full", LINE, NONE, NO_WRITE, 3),
    (["--version"], ">/dev/full", LINE, NONE, NO_WRITE, 3),
    ([b"\xff"], "", LINE, NONE, USAGE, 2),
]
# fmt: on

# Which units each of the samples holds.
IN_SAMPLES = {
    "rpki-client.csv": V4 + V6, "routinator.csv": V4 + V6, "fort.csv": V4 + V6,
    "rpki-client.json": V4 + V6 + KEY + ASPA, "rpki-client-8.2.json": V4 + V6 + KEY + ASPA,
    "routinator.json": V4 + V6 + KEY + ASPA, "stayrtr.json": V4 + V6 + KEY + ASPA,
    "fort-roas.json": V4 + V6, "fort-keys.json": KEY,
    "rpki-client-8.2-run.json": V4 + V6_RUN + KEY_RUN, "rpki-client-9.9-run.csv": V4 + V6_RUN,
    "rpki-client-9.9-run.json": V4 + V6_RUN + KEY_RUN + ASPA,
    "fort-1.7-roa-run.json": V4 + V6_RUN, "fort-1.7-aspa-run.json": ASPA,
}


def error_text(line):
    """Returns the text on standard error: each line after the program's name, except the usage."""
    if not line or line == USAGE:
        return line and line + "\n"
    return "".join(f"rtr_make: {part}\n" for part in line.split("\n"))


def check_rows(program):
    wrong = 0
    for where, row in zip(places(globals()), RUNS):
        arguments, redirection, given, output, line, status = row
        got = run(program, arguments, redirection, given)
        stderr = got[1] if line is None else error_text(line)
        if got != (output, stderr, status):
            wrong += 1
            print(f"{where}: {arguments} {redirection} {given[:80]}: {got}, not "
                  f"{(output, stderr, status)}")
    return wrong


def sample(name):
    with open(os.path.join(SAMPLES, name), "rb") as file:
        return file.read()


def check_samples(program):
    wrong = 0
    if set(IN_SAMPLES) != {name for name in os.listdir(SAMPLES) if name != "README.md"}:
        wrong += 1
        print("makes: the samples aren't those of the table")
    for name, units in IN_SAMPLES.items():
        form = "--" + name.rsplit(".", 1)[1]
        output, stderr, status = got = run(program, [form, "--at", "0"], "", sample(name))
        left_out = stderr.startswith("rtr_make: left out 0 that have expired; ")
        if (output, status) != (units + END, 0) or not left_out:
            wrong += 1
            print(f"makes: {name}: {got}")
    return wrong


def check_random(program):
    """Checks that origins in any order, some of them twice, come once each and in order."""
    choice = random.Random(1)
    wrong = 0
    for _ in range(40):
        picked = [(choice.randrange(256), choice.randrange(8, 17), choice.randrange(17, 33),
                   choice.randrange(4)) for _ in range(choice.randrange(200))]
        lines = [f"AS{asn},{net}.0.0.0/{length},{most}\n".encode()
                 for net, length, most, asn in picked]
        lines += choice.sample(lines, len(lines) // 2)
        choice.shuffle(lines)
        expected = {bytes([2, 4, 0, 0, 0, 0, 0, 20, 1, length, most, 0, net, 0, 0, 0, 0, 0, 0, asn])
                    for net, length, most, asn in picked}
        output, stderr, status = run(program, CSV, "", b"".join(lines))
        units = [output[at:at + 20] for at in range(0, len(output) - len(END), 20)]
        order = [int.from_bytes(unit[12:16], "big") for unit in units]
        if (set(units) != expected or len(units) != len(expected) or output[-24:] != END
                or stderr or status or order != sorted(order)):
            wrong += 1
            print(f"makes: {lines[:3]}..: {status} {stderr}")
    return wrong


def check_growth(program):
    """Makes each allocation fail in turn: the program writes nothing then, or everything."""
    if not subprocess.run(["sh", "-c", "command -v rt"], capture_output=True).stdout:
        return 0
    growth = built.script("tests/programs/growth.py")
    wrong = 0
    with tempfile.TemporaryDirectory() as folder:
        shim = os.path.join(folder, "refuse.so")
        built.compile_library("tests/programs/refuse.c", shim)
        for arguments, given, units in (CSV, LINE * 4, V4), (JSON, ALL, V4 + KEY + ASPA):
            whole = (0, units + END, b"")
            allowed = [whole, (3, b"", b"rtr_make: out of memory\n"), (2, b"", USAGE.encode() + b"\n")]
            command = [program, *arguments]
            outcomes = []
            for refused in range(1, MOST):
                ran, is_met = growth.refusing(shim, command, given, refused, 0)
                outcomes.append((ran.returncode, ran.stdout, ran.stderr))
                if not is_met:
                    break
            if outcomes[-1] != whole or allowed[1] not in outcomes or set(outcomes) - set(allowed):
                wrong += 1
                print(f"makes: {arguments}: {set(outcomes) - set(allowed)} as memory runs out")
    return wrong


def main():
    programs = [os.path.realpath(path) for path in sys.argv[1:] or built.needed("rtr_make")]
    checks = check_rows, check_samples, check_random, check_growth
    wrong = sum(check(program) for program in programs for check in checks)
    if wrong:
        sys.exit(f"makes: FAILED, {wrong} wrong")


if __name__ == "__main__":
    main()
