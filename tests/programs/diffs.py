#!/usr/bin/env python3
"""Runs the program `rtr_diff` and compares the output and status of each run.

usage: diffs.py [PROGRAM]..

Without PROGRAM it runs those of `built.py`. Each row of RUNS is one run: the arguments, a
redirection of the shell, the files `old` and `new`, the standard input, and then the expected
output, line on standard error after the program's name, and status. After the rows come random
pairs of sequences: their changes are computed here, and the units that the program writes have to
turn the old sequence into the new. Prints nothing if all is well.
"""
import json
import os
import random
import sys

TOP = os.path.realpath(os.path.join(os.path.dirname(os.path.abspath(__file__)), "..", ".."))
sys.path.insert(0, os.path.join(TOP, ".ci"))

import built  # noqa: E402  (it lies in another folder)
import redirected  # noqa: E402
import samples  # noqa: E402
from places import places  # noqa: E402
from samples import withdrawn  # noqa: E402

KEY_ID = "0102030405060708090a0b0c0d0e0f1011121314"

# The units that announce, with version 1 or 2, and the words of what they announce.
V4 = samples.unit("IPv4 prefix")
V4_WORDS = "IPv4 prefix 192.0.2.0/23-26 AS65551"
V4_STRAY = bytes.fromhex("01 04 00 07 00 00 00 14 03 17 1a 09 c0 00 02 00 00 01 00 0f")
OTHER = samples.unit("another IPv4 prefix")
OTHER_WORDS = "IPv4 prefix 198.51.100.0/24-24 AS65551"
V6 = samples.unit("announced IPv6 prefix")
V6_WORDS = "IPv6 prefix 2001:db8::/32-48 AS65551"
KEY = samples.unit("router key of four bytes")
KEY_WORDS = f"router key {KEY_ID} AS65551 FRYXGA"
ASPA = samples.unit("ASPA of large numbers")
ASPA_WORDS = "ASPA AS65551 providers AS65549 AS65550"
LESS = bytes.fromhex("02 0b 01 00 00 00 00 10 00 01 00 0f 00 01 00 0d")
LESS_WORDS = "ASPA AS65551 providers AS65549"
GONE = samples.unit("withdrawn ASPA of a large number")
GONE_WORDS = "ASPA AS65551 providers"

# A cache response, and ends of data.
RESPONSE = samples.unit("cache response")
END_0 = bytes.fromhex("00 07 12 34 00 00 00 0c 00 00 00 01")
END_1 = bytes.fromhex("01 07 12 34 00 00 00 18 00 00 00 01 00 00 0e 10 00 00 02 58 00 00 1c 20")
END_2 = bytes.fromhex("02 07 12 34 00 00 00 18 00 00 00 02 00 00 0e 10 00 00 02 58 00 00 1c 20")

# Units that may not be in a sequence, or break a rule.
NOTIFY = bytes.fromhex("01 00 12 34 00 00 00 0c 00 00 00 01")
RESET = samples.unit("cache reset")
REPORT = bytes.fromhex("01 0a 00 02 00 00 00 10 00 00 00 00 00 00 00 00")
UNKNOWN_TYPE = samples.unit("type 173")
LONG_PREFIX = samples.unit("prefix length above that of an address")
NO_PROVIDERS = bytes.fromhex("02 0b 01 00 00 00 00 0c 00 01 00 0f")


def in_version(version, unit):
    return bytes([version]) + unit[1:]


JSON_V4 = ('{"kind":"ipv4_prefix","action":"announce","prefix":"192.0.2.0","prefix_length":23,'
           '"max_length":26,"asn":65551}')
JSON_V6_GONE = ('{"kind":"ipv6_prefix","action":"withdraw","prefix":"2001:db8::","prefix_length":32,'
                '"max_length":48,"asn":65551}')
JSON_KEY = (f'{{"kind":"router_key","action":"announce","subject_key_identifier":"{KEY_ID}",'
            '"asn":65551,"subject_public_key_info":"FRYXGA"}')
JSON_ASPA = ('{"kind":"aspa","action":"announce","customer_asn":65551,'
             '"provider_asns":[65549,65550]}')
JSON_GONE = '{"kind":"aspa","action":"withdraw","customer_asn":65551,"provider_asns":[]}'


def lines(*texts):
    return "".join(text + "\n" for text in texts).encode()


BOTH = ["old", "new"]
AS_JSON = ["--json", *BOTH]
AS_UNITS = ["--units", *BOTH]
USAGE = "usage: rtr_diff [--json | --units] OLD NEW, where one of them may be -"
HELP = b"""\
rtr_diff - print what differs between the data of two RTR recordings
usage: rtr_diff [--json | --units] OLD NEW, where one of them may be -

It reads two files of units of the RPKI to Router protocol (RFC 8210), and
prints the changes that lead from the payloads of OLD to those of NEW. The name
- stands for standard input.

  (no word)  print a line for each change: + for an announcement, - for a
             withdrawal
  --json     print a JSON object for each change
  --units    write the changes as units, and then the end of data of NEW
  --help     print this
  --version  print the program's version
"""
NO_FILE = "No such file or directory (os error 2)"
NO_READ = "read failed: Is a directory (os error 21)"
NO_WRITE = "write failed: No space left on device (os error 28)"
CLOSED = "-: read failed: standard input is closed"
JSON = "looks like JSON: `rtr_make --json` makes units of what validators print"
CAPTURE = "looks like a packet capture: `rtr-pcap FILE` lists the sessions in it"
LEFT_OUT = "left out: an answer without an end of data"
CUT = "unexpected end of input"
TWICE = "duplicate announcement"
UNKNOWN = "withdrawal of an unknown record"
NONE = b""

# fmt: off
RUNS = [
    # Nothing differs.
    (BOTH, "", END_1, END_1, NONE, NONE, "", 0),
    (BOTH, "", V4 + END_1, V4 + END_1, NONE, NONE, "", 0),
    (BOTH, "", V4 + END_1, V4_STRAY + END_1, NONE, NONE, "", 0),
    (BOTH, "", RESPONSE + V4 + END_1, V4 + END_1, NONE, NONE, "", 0),
    (BOTH, "", V4 + OTHER + END_1, OTHER + V4 + END_1, NONE, NONE, "", 0),
    (BOTH, "", V4 + END_1, OTHER + V4 + withdrawn(OTHER) + END_1, NONE, NONE, "", 0),
    (BOTH, "", LESS + ASPA + END_2, ASPA + END_2, NONE, NONE, "", 0),
    (BOTH, "", V4 + END_1, in_version(2, V4) + END_2, NONE, NONE, "", 0),
    (AS_JSON, "", V4 + END_1, V4 + END_1, NONE, NONE, "", 0),
    (AS_UNITS, "", V4 + END_1, V4 + END_2, NONE, END_2, "", 0),
    # Something differs.
    (BOTH, "", END_1, V4 + END_1, NONE, lines("+ " + V4_WORDS), "", 1),
    (BOTH, "", V4 + END_1, END_1, NONE, lines("- " + V4_WORDS), "", 1),
    (BOTH, "", END_1, V6 + END_1, NONE, lines("+ " + V6_WORDS), "", 1),
    (BOTH, "", KEY + END_1, END_1, NONE, lines("- " + KEY_WORDS), "", 1),
    (BOTH, "", END_1, KEY + END_1, NONE, lines("+ " + KEY_WORDS), "", 1),
    (BOTH, "", END_1, ASPA + END_2, NONE, lines("+ " + ASPA_WORDS), "", 1),
    (BOTH, "", ASPA + END_2, LESS + END_2, NONE, lines("+ " + LESS_WORDS), "", 1),
    (BOTH, "", ASPA + END_2, END_2, NONE, lines("- " + GONE_WORDS), "", 1),
    (BOTH, "", V4 + ASPA + END_2, KEY + OTHER + END_2, NONE, lines("+ " + OTHER_WORDS, "+ " + KEY_WORDS, "- " + V4_WORDS, "- " + GONE_WORDS), "", 1),
    (BOTH, "", RESPONSE + V4 + END_1, RESPONSE + OTHER + END_1, NONE, lines("+ " + OTHER_WORDS, "- " + V4_WORDS), "", 1),
    (AS_JSON, "", V6 + END_1, V4 + KEY + ASPA + END_2, NONE, lines(JSON_V4, JSON_KEY, JSON_ASPA, JSON_V6_GONE), "", 1),
    (AS_JSON, "", ASPA + END_2, END_2, NONE, lines(JSON_GONE), "", 1),
    # The units of a delta, in the version of the second end of data.
    (AS_UNITS, "", V6 + END_1, V4 + END_1, NONE, V4 + withdrawn(V6) + END_1, "", 1),
    (AS_UNITS, "", KEY + END_1, ASPA + END_2, NONE, ASPA + in_version(2, withdrawn(KEY)) + END_2, "", 1),
    (AS_UNITS, "", ASPA + V4 + END_2, V4 + END_2, NONE, GONE + END_2, "", 1),
    (AS_UNITS, "", END_1, V4_STRAY + KEY + END_0, NONE, in_version(0, V4) + END_0, "", 1),
    (AS_UNITS, "", END_1, ASPA + END_1, NONE, END_1, "", 1),
    # Standard input.
    (["-", "new"], "", NONE, V4 + END_1, END_1, lines("+ " + V4_WORDS), "", 1),
    (["old", "-"], "", V4 + END_1, NONE, END_1, lines("- " + V4_WORDS), "", 1),
    (["--json", "-", "new"], "", NONE, V4 + END_1, V4 + END_1, NONE, "", 0),
    (["-", "new"], "", NONE, END_1, V4 + V4, NONE, "-: offset 20: " + TWICE,3),
    (["./-", "new"], "", NONE, END_1, END_1, NONE, "./-: " + NO_FILE,3),
    # Files that hold no sequence.
    (BOTH, "", NONE, END_1, NONE, NONE, "old: offset 0: " + CUT,3),
    (BOTH, "", END_1, V4, NONE, NONE, "new: offset 20: " + CUT,3),
    (BOTH, "", V4 + END_1[:-1], END_1, NONE, NONE, "old: offset 20: " + CUT,3),
    (BOTH, "", V4[:-1], END_1, NONE, NONE, "old: offset 0: " + CUT,3),
    (BOTH, "", RESPONSE, END_1, NONE, NONE, "old: offset 8: " + CUT,3),
    (BOTH, "", V4 + KEY + V4 + END_1, END_1, NONE, NONE, "old: offset 56: " + TWICE,3),
    (BOTH, "", END_1, KEY + V6 + KEY + END_1, NONE, NONE, "new: offset 68: " + TWICE,3),
    (BOTH, "", V4 + withdrawn(OTHER) + END_1, END_1, NONE, NONE, "old: offset 20: " + UNKNOWN,3),
    (BOTH, "", withdrawn(KEY) + END_1, END_1, NONE, NONE, "old: offset 0: " + UNKNOWN,3),
    (BOTH, "", END_2, RESPONSE + GONE + END_2, NONE, NONE, "new: offset 8: " + UNKNOWN,3),
    (BOTH, "", V4 + END_1 + UNKNOWN_TYPE, V4 + END_1, NONE, NONE, "old: offset 44: unit type 173 is not allowed here",3),
    (BOTH, "", V4 + END_1, V4 + END_1 + b"stray", NONE, NONE, "new: offset 44: " + CUT,3),
    (BOTH, "", V4 + REPORT, END_1, NONE, NONE, "old: offset 20: error report inside an answer",3),
    (BOTH, "", V4 + UNKNOWN_TYPE, END_1, NONE, NONE, "old: offset 20: unit type 173 is not allowed here",3),
    (BOTH, "", V4 + REPORT[:12], END_1, NONE, NONE, "old: offset 20: " + CUT,3),
    (BOTH, "", RESPONSE + END_1 + RESPONSE, RESPONSE + END_1, NONE, NONE, "old: offset 40: " + CUT,3),
    (BOTH, "", RESPONSE[:7], END_1, NONE, NONE, "old: offset 0: " + CUT,3),
    (BOTH, "", RESPONSE[:7] + b"\x0c" + END_1, END_1, NONE, NONE, "old: offset 0: invalid unit length",3),
    (BOTH, "", END_1, RESPONSE + V4 + V4 + END_1, NONE, NONE, "new: offset 28: " + TWICE,3),
    (BOTH, "", V6 + LONG_PREFIX + END_1, END_1, NONE, NONE, "old: offset 32: prefix fields are not allowed",3),
    (BOTH, "", NO_PROVIDERS + END_2, END_2, NONE, NONE, "old: offset 0: ASPA unit has no providers",3),
    (BOTH, "", V4 + in_version(3, END_2), END_2, NONE, NONE, "old: offset 20: version 3 is not supported here",3),
    # Both are wrong: the old one is read first.
    (BOTH, "", V4 + V4, V4, NONE, NONE, "old: offset 20: " + TWICE,3),
    (AS_UNITS, "", V4 + END_1, V4, NONE, NONE, "new: offset 20: " + CUT,3),
    # Files that can't be opened or read.
    (["none", "new"], "", NONE, END_1, NONE, NONE, "none: " + NO_FILE,3),
    (["old", "none"], "", V4 + V4, NONE, NONE, NONE, "none: " + NO_FILE,3),
    ([".", "new"], "", NONE, END_1, NONE, NONE, ".: " + NO_READ,3),
    (["-", "new"], "<.", NONE, END_1, NONE, NONE, "-: " + NO_READ,3),
    # Standard input is closed: a file that is opened then gets its descriptor, and isn't read in
    # its stead.
    (["old", "-"], "<&-", V4 + END_1, END_1, NONE, NONE, CLOSED,3),
    (["-", "new"], "<&-", END_1, V4 + END_1, NONE, NONE, CLOSED,3),
    (["--json", "old", "-"], "<&-", V4 + END_1, END_1, NONE, NONE, CLOSED,3),
    (BOTH, "<&-", END_1, V4 + END_1, NONE, lines("+ " + V4_WORDS), "", 1),
    # File names are escaped as texts are.
    (["a\nb\x1b", "new"], "", NONE, END_1, NONE, NONE, "a\\nb\\x1b: " + NO_FILE,3),
    (["\u00e9'", "new"], "", NONE, END_1, NONE, NONE, "\\xc3\\xa9\\': " + NO_FILE,3),
    # Input that isn't RTR at all.
    (BOTH, "", b'{"roas":[]}', END_1, NONE, NONE, "old: offset 0: unit type 34 is not allowed here\nrtr_diff: old " + JSON,3),
    (BOTH, "", END_1, bytes.fromhex("d4c3b2a1 0200 0400") + bytes(16), NONE, NONE, "new: offset 0: unit type 195 is not allowed here\nrtr_diff: new " + CAPTURE,3),
    # An answer that was cut off isn't compared.
    (BOTH, "", RESPONSE + V4 + RESPONSE + END_1, RESPONSE + END_1, NONE, NONE, "old: " + LEFT_OUT, 0),
    (BOTH, "", END_1, RESPONSE + RESPONSE + V4 + END_1, NONE, lines("+ " + V4_WORDS), "new: " + LEFT_OUT, 1),
    # An output or a line that can't be written.
    (BOTH, ">/dev/full", END_1, V4 + END_1, NONE, NONE, NO_WRITE,3),
    (AS_UNITS, ">/dev/full", END_1, END_1, NONE, NONE, NO_WRITE,3),
    (BOTH, ">/dev/full", END_1, END_1, NONE, NONE, "", 0),
    (BOTH, "2>/dev/full", V4, END_1, NONE, NONE, "",3),
    # Wrong arguments.
    (["-", "-"], "", NONE, NONE, END_1, NONE, USAGE, 2),
    (["--json", "-", "-"], "", NONE, NONE, END_1, NONE, USAGE, 2),
    ([], "", END_1, END_1, NONE, NONE, USAGE, 2),
    (["old"], "", END_1, END_1, NONE, NONE, USAGE, 2),
    (["old", "new", "new"], "", END_1, END_1, NONE, NONE, 'unexpected argument "new"', 2),
    (["--json", "old"], "", END_1, END_1, NONE, NONE, USAGE, 2),
    (["old", "new", "--json"], "", END_1, END_1, NONE, NONE, '--json has to come before "old"', 2),
    (["--Json", "old", "new"], "", END_1, END_1, NONE, NONE, 'unknown option "--Json"', 2),
    (["--json", "--units", "old", "new"], "", END_1, END_1, NONE, NONE, "--units doesn't go with --json", 2),
    (["-x", "new"], "", END_1, END_1, NONE, NONE, 'unknown option "-x"', 2),
    (["--help"], "", END_1, END_1, NONE, HELP, "", 0),
    (["--version"], "", END_1, END_1, NONE, b"rtr_diff 0.3.0\n", "", 0),
    (["--help"], ">/dev/full", END_1, END_1, NONE, NONE, NO_WRITE,3),
    (["--help", "old", "new"], "", END_1, END_1, NONE, NONE, "--help has to stand alone", 2),
    (["--units", "--units", "old", "new"], "", END_1, END_1, NONE, NONE, "--units: it is given twice", 2),
    ([b"\xff", "new"], "", END_1, END_1, NONE, NONE, USAGE, 2),
]
# fmt: on


def run(program, arguments, redirection, old, new, given):
    """Returns the output, standard error and status of the program over two recordings."""
    return redirected.run(program, arguments, redirection, given, {"old": old, "new": new})


def check_rows(program):
    wrong = 0
    for where, row in zip(places(globals()), RUNS):
        arguments, redirection, old, new, given, output, line, status = row
        stderr = line + "\n" if line else ""
        if stderr and line != USAGE:
            stderr = "rtr_diff: " + stderr
        got = run(program, arguments, redirection, old, new, given)
        if got != (output, stderr, status):
            wrong += 1
            print(f"{where}: {arguments} {redirection}: {got}, not {(output, stderr, status)}")
    return wrong


def pool():
    """Returns units that announce, each with its identity and its text."""
    found = []
    for index in range(24):
        address = bytes([10, index, 0, 0])
        found.append((V4[:9] + bytes([16, 16 + index % 3, 0]) + address + V4[16:], ("v4", index),
                      f"IPv4 prefix 10.{index}.0.0/16-{16 + index % 3} AS65551"))
        asn = bytes([0, 0, 1, index])
        found.append((KEY[:28] + asn + KEY[32:], ("key", index),
                      f"router key {KEY_ID} AS{256 + index} FRYXGA"))
        for count in (1, 2):
            size = (12 + 4 * count).to_bytes(4, "big")
            found.append((ASPA[:4] + size + asn + ASPA[12:12 + 4 * count], ("aspa", index),
                          f"ASPA AS{256 + index} providers" + "".join(
                              f" AS{65549 + which}" for which in range(count))))
    return found


def picked(choice, units):
    """Returns some of the units, one for each identity."""
    some = {}
    for unit, name, words in units:
        if choice.random() < 0.4:
            some[name] = (unit, words)
    return some


def check_pairs(program, many):
    choice = random.Random(1)
    units = pool()
    wrong = 0
    for _ in range(many):
        old, new = picked(choice, units), picked(choice, units)
        files = [b"".join(choice.sample([unit for unit, _ in some.values()], len(some)))
                 for some in (old, new)]
        come = [words for name, (_, words) in new.items() if old.get(name, ("", ""))[1] != words]
        gone = [words.split(" providers")[0] + " providers" if name[0] == "aspa" else words
                for name, (_, words) in old.items() if name not in new]
        text, stderr, status = run(program, BOTH, "", files[0] + END_2, files[1] + END_2, b"")
        shown = text.decode().splitlines()
        expected = sorted("+ " + words for words in come) + sorted("- " + words for words in gone)
        front = [line for line in shown if line.startswith("+")]
        in_order = sorted(front) + sorted(shown[len(front):])
        if in_order != expected or stderr or status != bool(expected):
            wrong += 1
            print(f"diffs: {shown} is printed, not {expected}")
        objects, _, _ = run(program, AS_JSON, "", files[0] + END_2, files[1] + END_2, b"")
        kept = [json.loads(line)["action"] for line in objects.decode().splitlines()]
        if kept != ["announce"] * len(come) + ["withdraw"] * len(gone):
            wrong += 1
            print(f"diffs: {kept} as JSON, not {len(come)} and {len(gone)}")
        delta, _, _ = run(program, AS_UNITS, "", files[0] + END_2, files[1] + END_2, b"")
        led = run(program, BOTH, "", files[0] + delta, files[1] + END_2, b"")
        if led != (b"", "", 0) or delta[-24:] != END_2:
            wrong += 1
            print(f"diffs: the units don't lead to the new data: {led}")
    return wrong


def main():
    programs = [os.path.realpath(path) for path in sys.argv[1:] or built.needed("rtr_diff")]
    wrong = sum(check_rows(program) + check_pairs(program, 60) for program in programs)
    if wrong:
        sys.exit(f"diffs: FAILED, {wrong} wrong")


if __name__ == "__main__":
    main()
