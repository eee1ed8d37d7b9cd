#!/usr/bin/env python3
"""Runs `rtr_list --csv` and `rtr_list --vrps`, and compares the output and status of each run.

usage: tables.py [PROGRAM]..

Without PROGRAM it runs those of `built.py`. Each row of RUNS is one run: the arguments, a
redirection of the shell, the standard input, and then the expected output, line on standard error
after the program's name, and status. After the rows come the recordings of ALIKE, which `--csv`,
`--vrps`, `--check` and `rtr_diff` have to read the same; random sequences, whose tables `rtr_make`
has to turn into the same sequences; and whole runs in which each allocation fails in turn. Prints
nothing if all is well.
"""
import json
import os
import random
import subprocess
import sys
import tempfile

TOP = os.path.realpath(os.path.join(os.path.dirname(os.path.abspath(__file__)), "..", ".."))
sys.path.insert(0, os.path.join(TOP, ".ci"))

import built  # noqa: E402  (it lies in another folder)
import samples  # noqa: E402
from places import places  # noqa: E402
from redirected import run  # noqa: E402
from samples import withdrawn  # noqa: E402


# More allocations than any run makes.
MOST = 200

KEY_ID = "0102030405060708090a0b0c0d0e0f1011121314"

# Units that announce (RFC 8210 sections 5.6, 5.7 and 5.10).
V4 = samples.unit("IPv4 prefix")
V4_STRAY = bytes.fromhex("01 04 00 07 00 00 00 14 03 17 1a 09 c0 00 02 ff 00 01 00 0f")
OTHER = samples.unit("another IPv4 prefix")
LEAST = samples.unit("least IPv4 prefix")
GREATEST = samples.unit("greatest IPv4 prefix")
V6 = bytes.fromhex("01 06 00 00 00 00 00 20 01 20 30 00 20 01 0d b8" + " 00" * 12 + " 00 01 00 0e")
V6_LEAST = bytes.fromhex("01 06 00 00 00 00 00 20 01 00 80 00" + " 00" * 16 + " 00 00 00 00")
V6_GREATEST = bytes.fromhex("01 06 00 00 00 00 00 20 01 80 80 00" + " ff" * 16 + " ff ff ff ff")
KEY = samples.unit("router key of four bytes")
KEY_BARE = bytes.fromhex("01 09 01 00 00 00 00 20" + " ff" * 20 + " ff ff ff ff")
KEY_SIGNS = bytes.fromhex(f"01 09 01 00 00 00 00 22 {KEY_ID} 00 00 00 00 fb ff")
ASPA = samples.unit("ASPA of large numbers")
LESS = bytes.fromhex("02 0b 01 00 00 00 00 10 00 01 00 0f ff ff ff ff")

# A cache response and ends of data of session 4660 (RFC 6810 and RFC 8210 sections 5.5 and 5.8).
RESPONSE = samples.unit("cache response")
END_0 = bytes.fromhex("00 07 12 34 00 00 00 0c 00 00 00 01")
END_1 = bytes.fromhex("01 07 12 34 00 00 00 18 00 00 00 01 00 00 0e 10 00 00 02 58 00 00 1c 20")
END = bytes.fromhex("02 07 12 34 00 00 00 18 00 00 00 02 00 00 0e 10 00 00 02 58 00 00 1c 20")
# One whose serial number comes before that of END_1 (RFC 1982).
END_LAST = END_1[:8] + b"\xff\xff\xff\xff" + END_1[12:]

# The same of session 4661.
RESPONSE_ELSE = bytes.fromhex("01 03 12 35 00 00 00 08")
END_ELSE = bytes.fromhex("01 07 12 35 00 00 00 18 00 00 00 01 00 00 0e 10 00 00 02 58 00 00 1c 20")

# Units between answers (RFC 8210 sections 5.2, 5.3, 5.4, 5.9 and 5.11).
NOTIFY = bytes.fromhex("01 00 12 34 00 00 00 0c 00 00 00 01")
NOTIFY_ELSE = bytes.fromhex("01 00 12 35 00 00 00 0c 00 00 00 01")
QUERY = bytes.fromhex("01 01 12 34 00 00 00 0c 00 00 00 01")
RESET_QUERY = bytes.fromhex("01 02 00 00 00 00 00 08")
RESET = samples.unit("cache reset")
REPORT = bytes.fromhex("01 0a 00 02 00 00 00 10 00 00 00 00 00 00 00 00")

# Units that break a rule.
UNKNOWN_TYPE = samples.unit("type 173")
LONG_PREFIX = samples.unit("prefix length above that of an address")
NO_PROVIDERS = bytes.fromhex("02 0b 01 00 00 00 00 0c 00 01 00 0f")


# A whole answer.
ONE = RESPONSE + V4 + END_1


def csv(*rows):
    return "".join(row + "\n" for row in ("ASN,IP Prefix,Max Length", *rows)).encode()


def vrps(roas=(), keys=(), aspas=()):
    arrays = [",".join("\n" + item for item in items) for items in (roas, keys, aspas)]
    return ('{"roas":[%s\n],\n"bgpsec_keys":[%s\n],\n"aspas":[%s\n]}\n' % tuple(arrays)).encode()


V4_ROW = "AS65551,192.0.2.0/23,26"
OTHER_ROW = "AS65551,198.51.100.0/24,24"
V6_ROW = "AS65550,2001:db8::/32,48"
V4_ROA = '{"prefix":"192.0.2.0/23","maxLength":26,"asn":65551}'
OTHER_ROA = '{"prefix":"198.51.100.0/24","maxLength":24,"asn":65551}'
V6_ROA = '{"prefix":"2001:db8::/32","maxLength":48,"asn":65550}'
ONE_KEY = f'{{"asn":65551,"ski":"{KEY_ID}","pubkey":"FRYXGA=="}}'
BARE_KEY = f'{{"asn":4294967295,"ski":"{"f" * 40}","pubkey":""}}'
SIGNS_KEY = f'{{"asn":0,"ski":"{KEY_ID}","pubkey":"+/8="}}'
ONE_ASPA = '{"customer_asid":65551,"providers":[65549,65550]}'
LESS_ASPA = '{"customer_asid":65551,"providers":[4294967295]}'

CSV = ["--csv"]
VRPS = ["--vrps"]
USAGE = "usage: rtr_list [--json | --check | --summary | --csv | --vrps] [FILE]"
CUT = "unexpected end of input"
REPORTED = "error report inside an answer"
BACK = "serial number 1 comes before 2 of the answer before"
TWICE = "duplicate announcement"
UNKNOWN = "withdrawal of an unknown record"
NONE = b""

# fmt: off
RUNS = [
    # Origins.
    (CSV, "", END, csv(), "", 0),
    (CSV, "", END_0, csv(), "", 0),
    (CSV, "", V4 + END, csv(V4_ROW), "", 0),
    (CSV, "", V6 + END, csv(V6_ROW), "", 0),
    (CSV, "", V4_STRAY + END_1, csv(V4_ROW), "", 0),
    (CSV, "", V6 + OTHER + V4 + END, csv(V4_ROW, OTHER_ROW, V6_ROW), "", 0),
    (CSV, "", GREATEST + LEAST + END_0, csv("AS0,0.0.0.0/0,0", "AS4294967295,255.255.255.255/32,32"), "", 0),
    (CSV, "", V6_GREATEST + V6_LEAST + END_1, csv("AS0,::/0,128", "AS4294967295,ffff:ffff:ffff:ffff:ffff:ffff:ffff:ffff/128,128"), "", 0),
    (VRPS, "", END, vrps(), "", 0),
    (VRPS, "", V6 + OTHER + V4 + END, vrps([V4_ROA, OTHER_ROA, V6_ROA]), "", 0),
    # A cache response before them, and withdrawals.
    (CSV, "", RESPONSE + V4 + END_1, csv(V4_ROW), "", 0),
    (VRPS, "", RESPONSE + V4 + END_1, vrps([V4_ROA]), "", 0),
    (CSV, "", OTHER + V4 + withdrawn(OTHER) + END, csv(V4_ROW), "", 0),
    (CSV, "", V4 + withdrawn(V4) + END, csv(), "", 0),
    (CSV, "", V4 + withdrawn(V4) + OTHER + V4 + END, csv(V4_ROW, OTHER_ROW), "", 0),
    (VRPS, "", V4 + KEY + ASPA + withdrawn(KEY) + withdrawn(V4) + withdrawn(ASPA) + END, vrps(), "", 0),
    # Router keys and ASPAs.
    (VRPS, "", KEY + END_1, vrps(keys=[ONE_KEY]), "", 0),
    (VRPS, "", KEY_BARE + KEY + KEY_SIGNS + END_1, vrps(keys=[SIGNS_KEY, ONE_KEY, BARE_KEY]), "", 0),
    (VRPS, "", ASPA + END, vrps(aspas=[ONE_ASPA]), "", 0),
    (VRPS, "", ASPA + LESS + END, vrps(aspas=[LESS_ASPA]), "", 0),
    (VRPS, "", ASPA + V6 + KEY + V4 + END, vrps([V4_ROA, V6_ROA], [ONE_KEY], [ONE_ASPA]), "", 0),
    # The payloads that the table of origins omits are counted.
    (CSV, "", KEY + END_1, csv(), "left out: router keys 1, ASPAs 0", 0),
    (CSV, "", ASPA + LESS + END, csv(), "left out: router keys 0, ASPAs 1", 0),
    (CSV, "", ASPA + KEY_BARE + V4 + KEY + END, csv(V4_ROW), "left out: router keys 2, ASPAs 1", 0),
    (CSV, "", KEY + ASPA + withdrawn(ASPA) + V4 + withdrawn(KEY) + END, csv(V4_ROW), "", 0),
    # Several answers, applied one after the other (RFC 8210 sections 8.1 and 8.2).
    (CSV, "", ONE + RESPONSE + OTHER + END_1, csv(V4_ROW, OTHER_ROW), "", 0),
    (VRPS, "", ONE + RESPONSE + OTHER + END_1, vrps([V4_ROA, OTHER_ROA]), "", 0),
    (CSV, "", ONE + RESPONSE + withdrawn(V4) + END_1, csv(), "", 0),
    (CSV, "", ONE + RESPONSE + withdrawn(V4) + V6 + END_1 + RESPONSE + OTHER + END_1, csv(OTHER_ROW, V6_ROW), "", 0),
    (CSV, "", ONE + RESPONSE + withdrawn(V4) + END_1 + ONE, csv(V4_ROW), "", 0),
    (CSV, "", ONE + RESPONSE + END_1 + RESPONSE + END_1, csv(V4_ROW), "", 0),
    (VRPS, "", RESPONSE + ASPA + END + RESPONSE + LESS + END, vrps(aspas=[LESS_ASPA]), "", 0),
    (VRPS, "", RESPONSE + ASPA + KEY + END + RESPONSE + withdrawn(LESS) + END, vrps(keys=[ONE_KEY]), "", 0),
    (CSV, "", V4 + END + OTHER + END, csv(V4_ROW, OTHER_ROW), "", 0),
    (CSV, "", V4 + END + RESPONSE + OTHER + END, csv(V4_ROW, OTHER_ROW), "", 0),
    # Another session begins anew (section 5.1).
    (CSV, "", ONE + RESPONSE_ELSE + OTHER + END_ELSE, csv(OTHER_ROW), "", 0),
    (CSV, "", ONE + RESPONSE_ELSE + V4 + END_ELSE, csv(V4_ROW), "", 0),
    (VRPS, "", RESPONSE + ASPA + KEY + V4 + END + RESPONSE_ELSE + END_ELSE, vrps(), "", 0),
    (CSV, "", RESPONSE_ELSE + OTHER + END_ELSE + ONE + RESPONSE + V6 + END_1, csv(V4_ROW, V6_ROW), "", 0),
    (CSV, "", ONE + RESPONSE_ELSE + OTHER + END_ELSE + ONE, csv(V4_ROW), "", 0),
    (CSV, "", ONE + NOTIFY_ELSE + RESPONSE + OTHER + END_1, csv(V4_ROW, OTHER_ROW), "", 0),
    (CSV, "", ONE + RESPONSE_ELSE + withdrawn(V4) + END_ELSE, NONE, "offset 60: " + UNKNOWN, 1),
    # So does the answer after a cache reset (sections 5.9 and 8.3).
    (CSV, "", ONE + RESET + ONE, csv(V4_ROW), "", 0),
    (CSV, "", ONE + RESET + RESPONSE + OTHER + END_1, csv(OTHER_ROW), "", 0),
    (CSV, "", ONE + RESET + RESET_QUERY + ONE, csv(V4_ROW), "", 0),
    (CSV, "", ONE + RESET + ONE + RESPONSE + OTHER + END_1, csv(V4_ROW, OTHER_ROW), "", 0),
    (CSV, "", RESET + ONE + RESPONSE + OTHER + END_1, csv(V4_ROW, OTHER_ROW), "", 0),
    (CSV, "", ONE + RESET, csv(V4_ROW), "", 0),
    # Also where no cache response opens it, and only that answer.
    (CSV, "", ONE + RESET + OTHER + END_1, csv(OTHER_ROW), "", 0),
    (CSV, "", ONE + RESET + OTHER + END_1 + RESPONSE + V6 + END_1, csv(OTHER_ROW, V6_ROW), "", 0),
    (VRPS, "", ONE + RESET + END_1 + RESPONSE + V6 + END_1, vrps([V6_ROA]), "", 0),
    (CSV, "", ONE + RESET + withdrawn(V4) + END_1, NONE, "offset 60: " + UNKNOWN, 1),
    # So does the answer to a reset query (section 5.4), unless a serial query comes in between.
    (CSV, "", ONE + RESET_QUERY + ONE, csv(V4_ROW), "", 0),
    (CSV, "", ONE + RESET_QUERY + RESPONSE + OTHER + END_1, csv(OTHER_ROW), "", 0),
    (VRPS, "", ONE + RESET_QUERY + OTHER + END_1 + RESPONSE + V6 + END_1, vrps([OTHER_ROA, V6_ROA]), "", 0),
    (CSV, "", ONE + RESET_QUERY + REPORT + QUERY + RESPONSE + OTHER + END_1, csv(V4_ROW, OTHER_ROW), "", 0),
    (CSV, "", RESPONSE + V4 + RESET_QUERY + END_1 + RESPONSE + OTHER + END_1, csv(OTHER_ROW), "", 0),
    (CSV, "", ONE + RESET_QUERY + RESPONSE + withdrawn(V4) + END_1, NONE, "offset 68: " + UNKNOWN, 1),
    # Neither a cache reset nor an error report may come inside an answer (sections 8.3 and 5.11).
    (VRPS, "", V4 + RESET + END_1, NONE, "offset 20: cache reset inside an answer", 1),
    (CSV, "", ONE + RESPONSE + RESET + ONE, NONE, "offset 60: cache reset inside an answer", 1),
    (CSV, "", RESPONSE + V4 + REPORT + END_1, NONE, "offset 28: error report inside an answer", 1),
    (VRPS, "", ONE + RESPONSE + REPORT + ONE, NONE, "offset 60: error report inside an answer", 1),
    # The serial number of changes doesn't go back (RFC 1982), but that of all data may.
    (CSV, "", V4 + END + OTHER + END_1, NONE, "offset 64: " + BACK, 1),
    (CSV, "", RESPONSE + V4 + END + RESPONSE + END_1, NONE, "offset 60: " + BACK, 1),
    (CSV, "", RESPONSE + V4 + END_LAST + RESPONSE + OTHER + END_1, csv(V4_ROW, OTHER_ROW), "", 0),
    (CSV, "", RESPONSE + V4 + END + RESET + ONE, csv(V4_ROW), "", 0),
    (CSV, "", RESPONSE + V4 + END + RESET_QUERY + RESPONSE + OTHER + END_1, csv(OTHER_ROW), "", 0),
    (CSV, "", RESPONSE + V4 + END + RESPONSE_ELSE + OTHER + END_ELSE, csv(OTHER_ROW), "", 0),
    (CSV, "", ONE + RESET + RESPONSE + withdrawn(V4) + END_1, NONE, "offset 68: " + UNKNOWN, 1),
    # Notifies, and serial queries and error reports between answers, are ignored.
    (CSV, "", ONE + NOTIFY, csv(V4_ROW), "", 0),
    (CSV, "", NOTIFY + V4 + END_1, csv(V4_ROW), "", 0),
    (CSV, "", ONE + NOTIFY + QUERY + RESPONSE + OTHER + END_1, csv(V4_ROW, OTHER_ROW), "", 0),
    (CSV, "", RESPONSE + V4 + NOTIFY + OTHER + END_1, csv(V4_ROW, OTHER_ROW), "", 0),
    (VRPS, "", RESET_QUERY + ONE + QUERY + RESPONSE + END_1 + RESET_QUERY, vrps([V4_ROA]), "", 0),
    (CSV, "", ONE + REPORT + RESPONSE + OTHER + END_1, csv(V4_ROW, OTHER_ROW), "", 0),
    (CSV, "", ONE + REPORT, csv(V4_ROW), "", 0),
    # An answer that is open at the end, or none at all, is refused.
    (CSV, "", ONE + RESPONSE, NONE, "offset 60: " + CUT, 1),
    (CSV, "", ONE + OTHER, NONE, "offset 72: " + CUT, 1),
    (VRPS, "", ONE + RESPONSE + OTHER + NOTIFY, NONE, "offset 92: " + CUT, 1),
    (CSV, "", ONE + RESET + RESPONSE + V4, NONE, "offset 88: " + CUT, 1),
    (CSV, "", NOTIFY + RESET + QUERY + RESET_QUERY, NONE, "offset 40: " + CUT, 1),
    (CSV, "", REPORT + V4, NONE, "offset 36: " + CUT, 1),
    # A whole answer once more in the same session announces what is there.
    (CSV, "", ONE + ONE, NONE, "offset 60: " + TWICE, 1),
    (CSV, "", ONE + RESET_QUERY + QUERY + ONE, NONE, "offset 80: " + TWICE, 1),
    (CSV, "", V4 + END + V4 + END, NONE, "offset 44: " + TWICE, 1),
    # A fault after the first answer counts as one in it.
    (VRPS, "", ONE + UNKNOWN_TYPE, NONE, "offset 52: unit type 173 is not allowed here", 1),
    (CSV, "", ONE + RESPONSE + LONG_PREFIX + END_1, NONE, "offset 60: prefix fields are not allowed", 1),
    (VRPS, "", END_0 + b"\0", NONE, "offset 12: " + CUT, 1),
    (CSV, "", KEY + END_1 + b"x", NONE, "offset 60: " + CUT, 1),
    # An input that is refused: nothing is printed.
    (CSV, "", NONE, NONE, "offset 0: " + CUT, 1),
    (CSV, "", V4, NONE, "offset 20: " + CUT, 1),
    (VRPS, "", V4 + END[:-1], NONE, "offset 20: " + CUT, 1),
    (CSV, "", RESPONSE, NONE, "offset 8: " + CUT, 1),
    (CSV, "", RESPONSE[:7], NONE, "offset 0: " + CUT, 1),
    (CSV, "", V4 + KEY + V4 + END_1, NONE, "offset 56: " + TWICE, 1),
    (VRPS, "", RESPONSE + KEY + KEY + END_1, NONE, "offset 44: " + TWICE, 1),
    (CSV, "", V4 + withdrawn(OTHER) + END, NONE, "offset 20: " + UNKNOWN, 1),
    (VRPS, "", withdrawn(ASPA) + END, NONE, "offset 0: " + UNKNOWN, 1),
    (CSV, "", V4 + UNKNOWN_TYPE, NONE, "offset 20: unit type 173 is not allowed here", 1),
    (CSV, "", V6 + LONG_PREFIX + END_1, NONE, "offset 32: prefix fields are not allowed", 1),
    (VRPS, "", NO_PROVIDERS + END, NONE, "offset 0: ASPA unit has no providers", 1),
    (CSV, "", b"\x03" + END[1:], NONE, "offset 0: version 3 is not supported here", 1),
    # An input that can't be read, an output or a line that can't be written.
    (CSV, "<.", NONE, NONE, "read failed: Is a directory (os error 21)", 3),
    (VRPS, "<.", NONE, NONE, "read failed: Is a directory (os error 21)", 3),
    ([*CSV, "."], "", NONE, NONE, ".: read failed: Is a directory (os error 21)", 3),
    ([*VRPS, "."], "", NONE, NONE, ".: read failed: Is a directory (os error 21)", 3),
    (CSV, ">/dev/full", V4 + END, NONE, "write failed: No space left on device (os error 28)", 3),
    (CSV, ">/dev/full", KEY + END_1, NONE, "write failed: No space left on device (os error 28)", 3),
    (VRPS, ">/dev/full", END, NONE, "write failed: No space left on device (os error 28)", 3),
    (CSV, ">/dev/full", V4, NONE, "offset 20: " + CUT, 1),
    (CSV, "2>/dev/full", V4, NONE, "", 1),
    (CSV, "2>/dev/full", V4 + KEY + END_1, csv(V4_ROW), "", 0),
    # Wrong arguments.
    (["--csv", "--vrps"], "", V4 + END, NONE, "--vrps doesn't go with --csv", 2),
    (["--csv", "--csv"], "", V4 + END, NONE, "--csv: it is given twice", 2),
    (["--json", "--csv"], "", V4 + END, NONE, "--csv doesn't go with --json", 2),
    (["--CSV"], "", V4 + END, NONE, 'unknown option "--CSV"', 2),
    (["--vrp"], "", V4 + END, NONE, 'unknown option "--vrp"', 2),
    ([b"--csv\xff"], "", V4 + END, NONE, USAGE, 2),
]
# fmt: on

# Two prefixes of one session, whose first answer a new cache response cuts off.
BEGUN = bytes.fromhex("0103000100000008 010400000000001401181800c000020000000001")
WHOLE = bytes.fromhex("0103000100000008 010400000000001401181800c000030000000001"
                      "010700010000001800000007000000010000000200000003")

NO_END = "answer without an end of data"
EXPIRES = "the expire time has to be 600 to 172800 seconds"
NONE_CAME = "recording without an end of data"
IN_ELSE = "session 4661 differs from session 4660 of the answer"
IN_FIRST = "session 4660 differs from session 4661 of the answer"

# Recordings that all programs read the same (RFC 8210 sections 5.1, 5.5, 5.8, 8.1 and 8.2): the
# data they leave, or the offset and the reason of the refusal; and the finding of `--check`, with
# its offset. fmt: off
ALIKE = [
    # A notify first, or between answers.
    (NOTIFY + ONE, [V4], []),
    (NOTIFY_ELSE + ONE + NOTIFY, [V4], []),
    # One answer, and two in a row: the second adds to the first.
    (ONE, [V4], []),
    (ONE + RESPONSE + OTHER + END_1, [V4, OTHER], []),
    (ONE + RESPONSE + withdrawn(V4) + END_1, [], []),
    # No cache response.
    (END_1, [], []),
    (V4 + END_1, [V4], []),
    (V4 + END_1 + OTHER + END_1, [V4, OTHER], []),
    (V4 + END_1 + RESPONSE + OTHER + END_1, [V4, OTHER], []),
    (ONE + OTHER + END_1, [V4, OTHER], []),
    # An answer that a new cache response cuts off leaves nothing. A cache may not name an expire
    # time of 3 seconds (section 6).
    (BEGUN + WHOLE, [WHOLE[8:28]], [(28, NO_END), (56, EXPIRES)]),
    (RESPONSE + ONE, [V4], [(8, NO_END)]),
    (V4 + RESPONSE + OTHER + END_1, [OTHER], [(20, NO_END)]),
    (ONE + RESPONSE + OTHER + RESPONSE + V6 + END_1, [V4, V6], [(80, NO_END)]),
    (ONE + RESPONSE + withdrawn(V4) + RESPONSE + OTHER + END_1, [V4, OTHER], [(80, NO_END)]),
    (ONE + OTHER + RESPONSE + V6 + END_1, [V4, V6], [(72, NO_END)]),
    (ONE + RESPONSE_ELSE + OTHER + RESPONSE_ELSE + V6 + END_ELSE, [V6], [(80, NO_END)]),
    (ONE + RESPONSE_ELSE + RESPONSE_ELSE + V6 + END_ELSE, [V6], [(60, NO_END)]),
    # The data before one that begins anew stay until its end of data: changes of them may follow.
    (ONE + RESPONSE_ELSE + RESPONSE + OTHER + END_1, [V4, OTHER], [(60, NO_END)]),
    (ONE + RESPONSE_ELSE + V6 + RESPONSE_ELSE + OTHER + RESPONSE + END_1, [V4], [(92, NO_END), (120, NO_END)]),
    (ONE + RESET_QUERY + RESPONSE + V6 + QUERY + RESPONSE + OTHER + END_1, [V4, OTHER], [(112, NO_END)]),
    (ONE + RESET + RESPONSE + V6 + QUERY + RESPONSE + withdrawn(V4) + END_1, [], [(112, NO_END)]),
    (ONE + RESET_QUERY + RESPONSE + V6 + RESPONSE + OTHER + END_1, [OTHER], [(100, NO_END)]),
    (ONE + RESET + RESPONSE + OTHER + RESPONSE + V6 + END_1, [V6], [(88, NO_END)]),
    # Another session begins anew, also after a sequence without a cache response.
    (ONE + RESPONSE_ELSE + OTHER + END_ELSE, [OTHER], []),
    (V4 + END_1 + RESPONSE_ELSE + OTHER + END_ELSE, [OTHER], []),
    (V4 + END_ELSE + RESPONSE + OTHER + END_1, [OTHER], []),
    (ONE + RESPONSE_ELSE + V4 + END_ELSE + RESPONSE + OTHER + END_1, [OTHER], []),
    # So does the answer after a cache reset.
    (ONE + RESET + RESPONSE + OTHER + END_1, [OTHER], []),
    # An end of data of another session than its answer.
    (RESPONSE + V4 + END_ELSE, (28, IN_ELSE), [(28, IN_ELSE)]),
    (RESPONSE_ELSE + V4 + END_1, (28, IN_FIRST), [(28, IN_FIRST)]),
    (ONE + RESPONSE_ELSE + END_1, (60, IN_FIRST), [(60, IN_FIRST)]),
    (V4 + END_1 + OTHER + END_ELSE, (64, IN_ELSE), [(64, IN_ELSE)]),
    (ONE + END_ELSE, (52, IN_ELSE), [(52, IN_ELSE)]),
    # An answer that is open where the input ends, and no answer at all.
    (RESPONSE, (8, CUT), [(8, NO_END)]),
    (RESPONSE + V4, (28, CUT), [(28, NO_END)]),
    (V4, (20, CUT), [(20, NO_END)]),
    (ONE + RESPONSE, (60, CUT), [(60, NO_END)]),
    (ONE + OTHER + REPORT, (72, REPORTED), [(88, NO_END)]),
    (RESPONSE + V4 + REPORT, (28, REPORTED), [(44, NO_END)]),
    (NONE, (0, CUT), [(0, NONE_CAME)]),
    (REPORT, (16, CUT), [(16, NONE_CAME)]),
    (NOTIFY, (12, CUT), [(12, NONE_CAME)]),
    (RESET + NOTIFY, (20, CUT), [(20, NONE_CAME)]),
    # What a router sends has no answer, and none is missing.
    (QUERY + RESET_QUERY + REPORT, (36, CUT), []),
    (RESET_QUERY + RESPONSE + V4, (36, CUT), [(36, NO_END)]),
]
# fmt: on


def check_rows(program):
    wrong = 0
    for where, row in zip(places(globals()), RUNS):
        arguments, redirection, given, output, line, status = row
        stderr = line + "\n" if line else ""
        if stderr and line != USAGE:
            stderr = "rtr_list: " + stderr
        got = run(program, arguments, redirection, given)
        if got != (output, stderr, status):
            wrong += 1
            print(f"{where}: {arguments} {redirection} {given[:80]}: {got}, not "
                  f"{(output, stderr, status)}")
    return wrong


def ended(leaves, name, cut):
    """Returns the line on standard error after a recording with this name was read, and the
    status."""
    if isinstance(leaves, tuple):
        return f"{name}offset {leaves[0]}: {leaves[1]}\n", 1
    return (f"{name}left out: {NO_END.replace('answer', 'an answer')}\n" if cut else ""), 0


def alike_problem(program, diff, given, leaves, findings):
    """Returns how a program reads a recording differently from the expected data, or None."""
    is_refused = isinstance(leaves, tuple)
    is_cut = not is_refused and (NO_END in (text for _, text in findings))
    stderr, status = ended(leaves, "rtr_list: ", is_cut)
    sequence = END_1 if is_refused else b"".join(leaves) + END_1
    for arguments in (CSV, VRPS):
        table = NONE if is_refused else run(program, arguments, "", sequence)[0]
        got = run(program, arguments, "", given)
        if got != (table, stderr, status):
            return f"{arguments}: {got}, not {(table, stderr, status)}"
    lines = "".join(f"offset {offset}: {text}\n" for offset, text in findings).encode()
    got = run(program, ["--check"], "", given)
    if (got[0], got[2]) != (lines, bool(findings)):
        return f"--check: {got}, not {lines}"
    stderr, status = ended(leaves, "rtr_diff: -: ", is_cut)
    with tempfile.NamedTemporaryFile() as other:
        other.write(sequence)
        other.flush()
        for names in (["-", other.name], [other.name, "-"]):
            got = run(diff, names, "", given)
            if got != (NONE, stderr, 3 * status):
                return f"rtr_diff {names}: {got}, not {(stderr, 3 * status)}"
    return None


def check_alike(program):
    """Checks that all programs read a recording the same."""
    diff = built.program("rtr_diff")
    problems = [(row[0], alike_problem(program, diff, *row)) for row in ALIKE]
    for given, problem in problems:
        if problem:
            print(f"tables: {given.hex()}: {problem}")
    return sum(problem is not None for _, problem in problems)


def picked_prefix(choice):
    """Returns an announcement of an origin, and its key in the order of payloads."""
    kind, width = choice.choice([(4, 32), (6, 128)])
    length = choice.randrange(width + 1)
    most = choice.randrange(length, width + 1)
    address = choice.getrandbits(width) >> (width - length) << (width - length)
    asn = choice.choice([choice.randrange(8), choice.getrandbits(32)])
    unit = bytes([2, kind, 0, 0, 0, 0, 0, 16 + width // 8, 1, length, most, 0])
    unit += address.to_bytes(width // 8, "big") + asn.to_bytes(4, "big")
    return unit, (0, kind, address, length, most, asn)


def picked_key(choice):
    """Returns the same of a router key."""
    identifier = bytes([choice.randrange(2)]) * 20
    asn = choice.randrange(4).to_bytes(4, "big")
    info = choice.randbytes(choice.randrange(8))
    size = (32 + len(info)).to_bytes(4, "big")
    return bytes([2, 9, 1, 0]) + size + identifier + asn + info, (1, identifier, asn, info)


def picked_aspa(choice, customer):
    """Returns the same of an ASPA, whose providers are in order, as `rtr_make` writes them."""
    asns = {choice.getrandbits(32) for _ in range(choice.randrange(1, 6))}
    providers = b"".join(asn.to_bytes(4, "big") for asn in sorted(asns))
    size = (12 + len(providers)).to_bytes(4, "big")
    return bytes([2, 11, 1, 0]) + size + customer.to_bytes(4, "big") + providers, (2, customer)


def picked(choice):
    """Returns some payloads: the unit of each, by its key in the order of payloads."""
    found = [picked_prefix(choice) for _ in range(choice.randrange(30))]
    found += [picked_key(choice) for _ in range(choice.randrange(10))]
    found += [picked_aspa(choice, customer) for customer in choice.sample(range(300), 5)]
    return {key: unit for unit, key in found}


def between(choice):
    """Returns units that may come inside a recording without changing its payloads."""
    if choice.random() < 0.8:
        return b""
    return choice.choice([NOTIFY, NOTIFY_ELSE, QUERY, END_1, END_1 + RESPONSE,
                          END_1 + REPORT + QUERY + RESPONSE])


def recorded(choice, units):
    """Returns a recording of several answers that leaves these units: in any order, some of them
    withdrawn in between and announced again, and others withdrawn; sometimes the data before are of
    another session, or from before a cache reset."""
    others = [unit for key, unit in picked(choice).items() if key not in units]
    steps = [[unit] for unit in units.values()] + [[unit, withdrawn(unit)] for unit in others]
    steps += [[unit, withdrawn(unit), unit] for unit in units.values() if choice.random() < 0.3]
    again = {}
    for step in steps:
        again[step[0]] = step
    order = [unit for unit, step in again.items() for _ in step]
    choice.shuffle(order)
    changes = b"".join(again[unit].pop(0) + between(choice) for unit in order)
    former = b"".join(picked(choice).values())
    of_other_session = RESPONSE_ELSE + former + END_ELSE + RESPONSE
    before_reset = RESPONSE + former + END_1 + RESET + RESPONSE
    return choice.choice([b"", of_other_session, before_reset]) + changes


def check_random(program):
    """`rtr_make` turns a table into the sequence that the recording leaves."""
    choice = random.Random(1)
    make = built.program("rtr_make")
    asked = ["--version", "2", "--session", "4660", "--serial", "2", "--empty"]
    wrong = 0
    for _ in range(40):
        units = picked(choice)
        given = recorded(choice, units) + END
        expected = b"".join(units[key] for key in sorted(units))
        origins = b"".join(units[key] for key in sorted(units) if key[0] == 0)
        table, stderr, status = run(program, VRPS, "", given)
        remade = run(make, ["--json", *asked], "", table)
        again = run(program, VRPS, "", remade[0])
        if (remade != (expected + END, "", 0) or (stderr, status) != ("", 0) or again[0] != table
                or sum(map(len, json.loads(table).values())) != len(units)):
            wrong += 1
            print(f"tables: {given.hex()} as JSON: {status} {stderr} {remade[1]}")
        table, stderr, status = run(program, CSV, "", given)
        remade = run(make, ["--csv", *asked], "", table)
        keys = sum(key[0] == 1 for key in units)
        aspas = len(units) - keys - table.count(b"/")
        line = f"rtr_list: left out: router keys {keys}, ASPAs {aspas}\n"
        if remade != (origins + END, "", 0) or (stderr, status) != (line, 0):
            wrong += 1
            print(f"tables: {given.hex()} as CSV: {status} {stderr} {remade[1]}")
    return wrong


def check_many(program):
    """Checks an answer after one of more than 65536 origins: all of them are copied, and one is
    added."""
    units = [V4[:12] + number.to_bytes(3, "big") + bytes(1) + V4[16:] for number in range(65537)]
    units = [unit[:9] + bytes([24, 24]) + unit[11:] for unit in units]
    given = RESPONSE + b"".join(units) + END_1 + RESPONSE + V4 + END_1
    table, stderr, status = run(program, CSV, "", given)
    counts = table.count(b"\n"), table.count(V4_ROW.encode())
    if (counts, stderr, status) != ((len(units) + 2, 1), "", 0):
        print(f"tables: {table.count(b'/')} of {len(units) + 1} origins: {status} {stderr}")
        return 1
    return 0


def check_growth(program):
    """Makes each allocation fail in turn: the program writes nothing then, or everything."""
    if not subprocess.run(["sh", "-c", "command -v rt"], capture_output=True).stdout:
        return 0
    growth = built.script("tests/programs/growth.py")
    wrong = 0
    given = RESPONSE_ELSE + KEY + LESS + END_ELSE + REPORT
    given += RESPONSE + V6 + V4 + END + RESPONSE + OTHER + ASPA + KEY + END
    left_out = b"rtr_list: left out: router keys 1, ASPAs 1\n"
    with tempfile.TemporaryDirectory() as folder:
        shim = os.path.join(folder, "refuse.so")
        built.compile_library("tests/programs/refuse.c", shim)
        for arguments, whole in (
                (CSV, (0, csv(V4_ROW, OTHER_ROW, V6_ROW), left_out)),
                (VRPS, (0, vrps([V4_ROA, OTHER_ROA, V6_ROA], [ONE_KEY], [ONE_ASPA]), b""))):
            allowed = [whole, (3, b"", b"rtr_list: out of memory\n"),
                       (2, b"", USAGE.encode() + b"\n")]
            outcomes = []
            for refused in range(1, MOST):
                ran, is_met = growth.refusing(shim, [program, *arguments], given, refused, 0)
                outcomes.append((ran.returncode, ran.stdout, ran.stderr))
                if not is_met:
                    break
            if outcomes[-1] != whole or allowed[1] not in outcomes or set(outcomes) - set(allowed):
                wrong += 1
                print(f"tables: {arguments}: {set(outcomes) - set(allowed)} as memory runs out")
    return wrong


def main():
    programs = [os.path.realpath(path) for path in sys.argv[1:] or built.needed("rtr_list")]
    checks = check_rows, check_alike, check_random, check_many, check_growth
    wrong = sum(check(program) for program in programs for check in checks)
    if wrong:
        sys.exit(f"tables: FAILED, {wrong} wrong")


if __name__ == "__main__":
    main()
