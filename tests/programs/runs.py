#!/usr/bin/env python3
"""Runs the program `rtr_normalise` and compares the output and status of each run.

usage: runs.py [PROGRAM]..

Without PROGRAM it runs those of `built.py`. Each row of RUNS is one run: the arguments, a
redirection of the shell, the input, and then the expected output, line on standard error and
status. A run with wrong arguments reads nothing of its input. Prints nothing if all is well.
"""
import os
import subprocess
import sys
import tempfile

TOP = os.path.realpath(os.path.join(os.path.dirname(os.path.abspath(__file__)), "..", ".."))
sys.path.insert(0, os.path.join(TOP, ".ci"))

import built  # noqa: E402  (it lies in another folder)
import samples  # noqa: E402
from places import places  # noqa: E402

# The time limit of a run in seconds.
SECONDS = 60

# An IPv4 prefix unit with free bits set, its canonical form, and units that break one prefix rule
# each.
IPV4_STRAY = samples.unit("IPv4 prefix with free bits")
IPV4 = samples.unit("IPv4 prefix")
IPV4_LONG = samples.unit("prefix length above that of an address")
IPV4_MAX_LONG = bytes.fromhex("01 04 00 00 00 00 00 14 01 17 21 00 c0 00 02 00 00 01 00 0f")
IPV4_MAX_SHORT = bytes.fromhex("01 04 00 00 00 00 00 14 01 17 16 00 c0 00 02 00 00 01 00 0f")

# An IPv4 prefix unit of length 0 whose address has only host bits, and its canonical form.
IPV4_ALL_STRAY = bytes.fromhex("01 04 00 00 00 00 00 14 01 00 00 00 ff ff ff ff 00 01 00 0f")
IPV4_ALL = bytes.fromhex("01 04 00 00 00 00 00 14 01 00 00 00 00 00 00 00 00 01 00 0f")

# An IPv6 prefix unit with host bits, and its canonical form.
IPV6_HEAD = bytes.fromhex("01 06 00 00 00 00 00 20 01 17 1a 00")
IPV6_STRAY = IPV6_HEAD + bytes.fromhex(
    "20 01 0d b8 00 00 00 02 00 0a 00 00 de ad be ef 00 01 00 0f")
IPV6 = IPV6_HEAD + bytes.fromhex("20 01 0c 00 00 00 00 00 00 00 00 00 00 00 00 00 00 01 00 0f")

# Router key units: an identifier, an ASN and key info. The second has free bits set, the third the
# longest key info that is accepted.
KEY = samples.unit("router key of four bytes")
KEY_STRAY = samples.unit("router key with free bits")
KEY_MOST = (bytes.fromhex("01 09 01 00 00 00 ff ff") + KEY[8:32] + bytes(range(251)) * 260
            + bytes(243))

# ASPA units: a withdrawal that names two providers, its canonical form, an announcement of both
# with free bits set, its canonical form, and an announcement of none.
ASPA_NAMED = bytes.fromhex("02 0b 00 00 00 00 00 14 00 01 00 0f 00 01 00 0d 00 01 00 0e")
ASPA_BARE = samples.unit("withdrawn ASPA of a large number")
ASPA_STRAY = samples.unit("ASPA with free bits")
ASPA = samples.unit("ASPA of large numbers")
ASPA_EMPTY = samples.unit("ASPA without providers") + ASPA[8:12]

# Canonical forms in another version: the IPv4 prefix in version 0, and the router key in version 2.
IPV4_IN_0 = samples.unit("IPv4 prefix", version=0)
KEY_IN_2 = samples.unit("router key of four bytes", version=2)

# Ends of data of version 0, 1 and 2.
END_0 = samples.unit("end of data of version 0")
END_1 = samples.unit("end of data")
END_2 = samples.unit("end of data", version=2)

# An end of data of version 2 with timings that aren't the recommended ones, and the same of version
# 1 and 0.
TIMED_2 = samples.unit("end of data of version 2")
TIMED_1 = samples.unit("end of data of version 2", version=1)
TIMED_0 = bytes.fromhex("00 07 8e ef 00 00 00 0c 00 00 00 00")

# Headers that are refused: an error report, a cache response, wrong lengths, lengths over 65535,
# and an end of data of an unknown version.
REPORT = bytes.fromhex("01 0a 00 03 00 00 00 12")
RESPONSE = bytes.fromhex("01 03 00 03 00 00 00 12")
IPV4_21 = samples.unit("IPv4 prefix of another length")
KEY_31 = bytes.fromhex("01 09 01 00 00 00 00 1f")
KEY_65536 = samples.unit("router key that is too long")
ASPA_14 = bytes.fromhex("02 0b 01 00 00 00 00 0e")
ASPA_65537 = bytes.fromhex("02 0b 01 00 00 01 00 01")
END_0_24 = bytes.fromhex("00 07 12 34 00 00 00 18")
END_1_12 = samples.unit("end of data of the other version's length")
END_3 = samples.unit("end of data of version 3")

NONE = b""
SAMPLE = IPV4_STRAY + END_1
MANY = 70_000

# The arguments that ask for a version.
FOR_0, FOR_1, FOR_2 = (["--version", digit] for digit in "012")

USAGE = "usage: rtr_normalise [--version 0|1|2]"
CUT = "unexpected end of input"
LENGTH = "invalid unit length"
LONG = "unit is longer than 65535 bytes"
PREFIX = "prefix fields are not allowed"

# fmt: off
RUNS = [
    # Accepted inputs.
    ([], "", END_0, END_0, "", 0),
    ([], "", END_2, END_2, "", 0),
    ([], "", SAMPLE, IPV4 + END_1, "", 0),
    ([], "", IPV4_ALL_STRAY + END_1, IPV4_ALL + END_1, "", 0),
    ([], "", IPV6_STRAY + END_1, IPV6 + END_1, "", 0),
    ([], "", KEY + END_1, KEY + END_1, "", 0),
    ([], "", KEY_STRAY + END_1, KEY + END_1, "", 0),
    ([], "", KEY_MOST + END_1, KEY_MOST + END_1, "", 0),
    ([], "", ASPA_NAMED + END_1, ASPA_BARE + END_1, "", 0),
    ([], "", ASPA_BARE + END_1, ASPA_BARE + END_1, "", 0),
    ([], "", ASPA_STRAY + END_1, ASPA + END_1, "", 0),
    ([], "", IPV4_STRAY + IPV6_STRAY + KEY + ASPA + END_0, IPV4 + IPV6 + KEY + ASPA + END_0, "", 0),
    ([], "", IPV4_STRAY * MANY + END_1, IPV4 * MANY + END_1, "", 0),
    # Bytes after an end of data are ignored.
    ([], "", END_0 + b"stray", END_0, "", 0),
    ([], "", SAMPLE + SAMPLE, IPV4 + END_1, "", 0),
    ([], "", SAMPLE + REPORT, IPV4 + END_1, "", 0),
    # Inputs that end too early.
    *[([], "", SAMPLE[:cut], NONE if cut < 20 else IPV4, CUT, 1) for cut in range(len(SAMPLE))],
    ([], "", KEY + ASPA_NAMED, KEY + ASPA_BARE, CUT, 1),
    ([], "", KEY_MOST[:-1], NONE, CUT, 1),
    # Inputs that are refused after the units before were written.
    ([], "", IPV4 + REPORT, IPV4, "unit type 10 is not allowed here", 1),
    ([], "", IPV4_STRAY + RESPONSE + END_1, IPV4, "unit type 3 is not allowed here", 1),
    ([], "", KEY + IPV4_21 + END_1, KEY, LENGTH, 1),
    ([], "", KEY_31 + END_1, NONE, LENGTH, 1),
    ([], "", IPV4 + ASPA_14 + END_1, IPV4, LENGTH, 1),
    ([], "", END_0_24, NONE, LENGTH, 1),
    ([], "", ASPA + END_1_12, ASPA, LENGTH, 1),
    ([], "", KEY_65536 + END_1, NONE, LONG, 1),
    ([], "", IPV6_STRAY + ASPA_65537 + END_1, IPV6, LONG, 1),
    ([], "", END_3, NONE, "version 3 is not supported here", 1),
    ([], "", IPV4 + END_3, IPV4, "version 3 is not supported here", 1),
    ([], "", IPV4_LONG + END_1, NONE, PREFIX, 1),
    ([], "", IPV4 + IPV4_MAX_LONG + END_1, IPV4, PREFIX, 1),
    ([], "", IPV4 + IPV4_MAX_SHORT + END_1, IPV4, PREFIX, 1),
    ([], "", ASPA_EMPTY + END_1, NONE, "ASPA unit has no providers", 1),
    ([], "", ASPA_NAMED + ASPA_EMPTY, ASPA_BARE, "ASPA unit has no providers", 1),
    ([], "", IPV4_STRAY * MANY + REPORT, IPV4 * MANY, "unit type 10 is not allowed here", 1),
    # One version of the protocol.
    (FOR_0, "", SAMPLE, IPV4_IN_0 + END_0, "", 0),
    (FOR_1, "", SAMPLE, IPV4 + END_1, "", 0),
    (FOR_1, "", ASPA_NAMED + END_1, END_1, "", 0),
    (FOR_2, "", END_0, END_2, "", 0),
    (FOR_0, "", KEY + END_1, END_0, "", 0),
    (FOR_2, "", ASPA_BARE + END_1, ASPA_BARE + END_2, "", 0),
    (FOR_2, "", KEY_STRAY + ASPA_STRAY + END_0, KEY_IN_2 + ASPA + END_2, "", 0),
    (FOR_0, "", TIMED_2, TIMED_0, "", 0),
    (FOR_1, "", TIMED_2, TIMED_1, "", 0),
    (FOR_2, "", TIMED_2, TIMED_2, "", 0),
    (FOR_0, "", IPV4_STRAY * MANY + END_1, IPV4_IN_0 * MANY + END_0, "", 0),
    (FOR_0, "", SAMPLE + SAMPLE, IPV4_IN_0 + END_0, "", 0),
    (FOR_0, "", IPV4 + REPORT, IPV4_IN_0, "unit type 10 is not allowed here", 1),
    (FOR_0, "", KEY + KEY_31 + END_1, NONE, LENGTH, 1),
    (FOR_0, "", ASPA_EMPTY + END_1, NONE, "ASPA unit has no providers", 1),
    (FOR_1, "", IPV4_LONG + END_1, NONE, PREFIX, 1),
    (FOR_2, "", NONE, NONE, CUT, 1),
    (FOR_2, "", END_3, NONE, "version 3 is not supported here", 1),
    (FOR_1, "<.", NONE, NONE, "read failed", 3),
    (FOR_1, ">/dev/full", SAMPLE, NONE, "write failed", 3),
    (FOR_1, "2>/dev/full", IPV4 + REPORT, IPV4, "", 1),
    # Wrong arguments.
    (["--version"], "", SAMPLE, NONE, USAGE, 2),
    (["--version", "3"], "", SAMPLE, NONE, USAGE, 2),
    (["--version", "00"], "", SAMPLE, NONE, USAGE, 2),
    (["--version", ""], "", SAMPLE, NONE, USAGE, 2),
    (["--version", "+1"], "", SAMPLE, NONE, USAGE, 2),
    (["--version", b"\xff"], "", SAMPLE, NONE, USAGE, 2),
    (["--version=1"], "", SAMPLE, NONE, USAGE, 2),
    (["--Version", "1"], "", SAMPLE, NONE, USAGE, 2),
    (["", "1"], "", SAMPLE, NONE, USAGE, 2),
    (["1"], "", SAMPLE, NONE, USAGE, 2),
    (["1", "--version"], "", SAMPLE, NONE, USAGE, 2),
    (["--version", "0", "x"], "", SAMPLE, NONE, USAGE, 2),
    (["--version", "0", "--version", "0"], "", SAMPLE, NONE, USAGE, 2),
    (["--version", "3"], "<.", NONE, NONE, USAGE, 2),
    (["x"], "", SAMPLE, NONE, USAGE, 2),
    ([""], "", SAMPLE, NONE, USAGE, 2),
    (["x", "x"], "", SAMPLE, NONE, USAGE, 2),
    (["--help"], "", NONE, NONE, USAGE, 2),
    ([b"\xff"], "", SAMPLE, NONE, USAGE, 2),
    (["x"], "<.", NONE, NONE, USAGE, 2),
    (["x"], ">/dev/full", SAMPLE, NONE, USAGE, 2),
    # An input that can't be read, and an output that can't be written: at the flush, and earlier.
    ([], "<.", NONE, NONE, "read failed", 3),
    ([], "<&-", NONE, NONE, "read failed", 3),
    ([], ">&-", SAMPLE, NONE, "write failed", 3),
    ([], ">/dev/full", SAMPLE, NONE, "write failed", 3),
    ([], ">/dev/full", IPV4_STRAY * MANY + REPORT, NONE, "write failed", 3),
    ([], ">/dev/full", IPV4 + REPORT, NONE, "unit type 10 is not allowed here", 1),
    ([], "<. >/dev/full", NONE, NONE, "read failed", 3),
    # A line that can't be written.
    ([], "2>/dev/full", IPV4 + REPORT, IPV4, "", 1),
    ([], "2>&-", IPV4 + REPORT, IPV4, "", 1),
    (["x"], "2>&-", SAMPLE, NONE, "", 2),
    ([], "2>/dev/full <.", NONE, NONE, "", 3),
    ([], "2>/dev/full >/dev/full", SAMPLE, NONE, "", 3),
]
# fmt: on


def shown(data):
    """Returns bytes as hex, cut if they are many."""
    return data[:64].hex(" ") + (f" .. ({len(data)} bytes)" if len(data) > 64 else "") or "nothing"


def differences(program, row):
    """Yields the differences between a run of the program and its row."""
    arguments, redirection, given, output, line, status = row
    with tempfile.TemporaryFile() as standard_input:
        standard_input.write(given)
        standard_input.seek(0)
        command = ["sh", "-c", f'exec "$0" "$@" {redirection}', program, *arguments]
        try:
            run = subprocess.run(command, stdin=standard_input, capture_output=True,
                                 timeout=SECONDS)
        except subprocess.TimeoutExpired:
            yield f"it has not ended after {SECONDS} seconds"
            return
        taken = os.lseek(standard_input.fileno(), 0, os.SEEK_CUR)
    printed = f"{line}\n".encode() if line else b""
    if run.returncode != status:
        yield f"the status is {run.returncode}, not {status}"
    if run.stdout != output:
        yield f"the output is {shown(run.stdout)}, not {shown(output)}"
    if run.stderr != printed:
        yield f"the line is {run.stderr}, not {printed}"
    if status == 2 and taken > 0:
        yield f"{taken} bytes of the input are read"


def check(program):
    """Returns the number of differences in all runs of the program. Each is printed."""
    count = 0
    for where, row in zip(places(globals()), RUNS):
        arguments, redirection, given = row[:3]
        for difference in differences(program, row):
            print(f"{where}: {program} {arguments} {redirection} with the input {shown(given)}: "
                  f"{difference}")
            count += 1
    return count


def main():
    programs = sys.argv[1:] or built.needed("rtr_normalise")
    if sum(check(os.path.abspath(program)) for program in programs) > 0:
        sys.exit("runs: FAILED")


if __name__ == "__main__":
    main()
