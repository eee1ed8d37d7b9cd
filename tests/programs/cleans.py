#!/usr/bin/env python3
"""Runs the program `rtr_clean` and compares the output and status of each run.

usage: cleans.py [PROGRAM]..

Without PROGRAM it runs those of `built.py`. Each row of RUNS is one run: the arguments, a
redirection of the shell, the standard input, and then the expected output, line on standard error
and status. After them come a session with each type, cut after each byte; random sessions, whose
expected output `tests/libraries/sessions.py` computes; runs whose input stays open, which show
delayed output; and an output whose reader has gone. Prints nothing if all is well.
"""
import os
import random
import select
import subprocess
import sys
from concurrent.futures import ThreadPoolExecutor

TOP = os.path.realpath(os.path.join(os.path.dirname(os.path.abspath(__file__)), "..", ".."))
sys.path[:0] = [os.path.join(TOP, ".ci"), os.path.join(TOP, "tests", "libraries")]

import built  # noqa: E402  (it lies in another folder, as they all do)
import samples  # noqa: E402
import sessions  # noqa: E402
from places import places  # noqa: E402
from redirected import run  # noqa: E402

# The time limit of a run in seconds.
SECONDS = 60

# Units with no free bits (RFC 8210 sections 5.2, 5.3 and 5.5).
NOTIFY = samples.unit("serial notify")
QUERY = samples.unit("serial query", version=1)
RESPONSE = samples.unit("cache response")

# A reset query and a cache reset whose zero fields aren't zero, and their canonical forms (sections
# 5.4 and 5.9).
ASKS_STRAY = bytes.fromhex("01 02 12 34 00 00 00 08")
ASKS = samples.unit("reset query", version=1)
RESET_STRAY = samples.unit("cache reset with a session")
RESET = samples.unit("cache reset")

# Prefixes with free bits set, and their canonical forms (sections 5.6 and 5.7).
IPV4_STRAY = samples.unit("IPv4 prefix with free bits")
IPV4 = samples.unit("IPv4 prefix")
IPV6_STRAY = samples.unit("IPv6 prefix with free bits")
IPV6 = samples.form("IPv6 prefix with free bits")

# A router key with free bits set, and its canonical form (section 5.10).
KEY_STRAY = samples.unit("router key with free bits")
KEY = samples.unit("router key of four bytes")
KEY_BODY = KEY[8:]

# ASPAs: an announcement with free bits set, a withdrawal that names providers, and their canonical
# forms.
ASPA_STRAY = samples.unit("ASPA with free bits")
ASPA = samples.unit("ASPA of large numbers")
GONE_STRAY = bytes.fromhex("02 0b 02 00 00 00 00 14 00 01 00 0f 00 01 00 0d 00 01 00 0e")
GONE = samples.unit("withdrawn ASPA of a large number")

# Ends of data, of each version the same (section 5.8, RFC 6810 section 5.8).
END_0 = samples.unit("end of data of version 0")
END_1 = samples.unit("end of data")
END_2 = samples.unit("end of data", version=2)

# An end of data with timings of its own.
TIMED_2 = bytes.fromhex("02 07 12 34 00 00 00 18 de ad be ef 00 00 00 01 00 00 00 02 00 00 00 03")
TIMED_1 = b"\x01" + TIMED_2[1:]

# Error reports, whose inner lengths fit or don't (section 5.11): they are copied unchanged.
REPORT = samples.unit("report without a unit")
REPORT_UNFIT = bytes.fromhex("01 0a ff ff 00 00 00 12 ff ff ff ff 00 00 00 02 6e 6f")

# The longest units.
KEY_MOST = (bytes.fromhex("01 09 01 00 00 00 ff ff") + KEY_BODY[:24] + bytes(range(251)) * 260
            + bytes(243))
REPORT_MOST = bytes.fromhex("01 0a 00 00 00 00 ff ff 00 00 ff ef") + bytes(65519) + bytes(4)

# Units that are refused by their headers, or by the lengths of their prefix.
UNKNOWN_TYPE = bytes.fromhex("01 0c 00 00 00 00 00 08")
UNUSED_TYPE = samples.unit("type 5")
END_3 = b"\x03" + END_2[1:]
END_0_24 = bytes.fromhex("00 07 12 34 00 00 00 18") + END_2[8:]
NOTIFY_8 = bytes.fromhex("01 00 12 34 00 00 00 08")
RESPONSE_12 = bytes.fromhex("01 03 12 34 00 00 00 0c de ad be ef")
IPV4_21 = IPV4[:7] + b"\x15" + IPV4[8:] + b"\x00"
KEY_31 = bytes.fromhex("01 09 01 00 00 00 00 1f") + KEY_BODY[:23]
KEY_65536 = samples.unit("router key that is too long") + KEY_BODY
REPORT_15 = samples.unit("error report that is too short") + bytes(7)
REPORT_65536 = samples.unit("error report that is too long") + bytes(8)
ASPA_14 = bytes.fromhex("02 0b 01 00 00 00 00 0e 00 01 00 0f 00 01")
ASPA_EMPTY = samples.unit("ASPA without providers") + ASPA[8:12]
IPV4_LONG = samples.unit("prefix length above that of an address")
IPV4_MAX_LONG = bytes.fromhex("01 04 00 00 00 00 00 14 01 17 21 00 c0 00 02 00 00 01 00 0f")
IPV6_MAX_SHORT = IPV6[:9] + bytes([0x17, 0x16]) + IPV6[11:]

# A session of each type, and its expected output.
STRAY = (NOTIFY + QUERY + ASKS_STRAY + RESPONSE + IPV4_STRAY + IPV6_STRAY + KEY_STRAY + ASPA_STRAY
         + GONE_STRAY + END_1 + RESET_STRAY + REPORT)
CLEAN = (NOTIFY + QUERY + ASKS + RESPONSE + IPV4 + IPV6 + KEY + ASPA + GONE + END_1 + RESET
         + REPORT)

NONE = b""
MANY = 70_000

# The arguments that ask for a version.
FOR_0, FOR_1, FOR_2 = (["--version", digit] for digit in "012")


def in_version(version, unit):
    return bytes([version]) + unit[1:]


USAGE = "usage: rtr_clean [--version 0|1|2] [FILE]"
CUT = "unexpected end of input"
LENGTH = "invalid unit length"
LONG = "unit is longer than 65535 bytes"
NO_READ = "read failed: Is a directory (os error 21)"
NO_DESCRIPTOR = "Bad file descriptor (os error 9)"
NO_WRITE = "write failed: No space left on device (os error 28)"
HELP = b"""\
rtr_clean - write the units of an RTR session with zero where they mean nothing
usage: rtr_clean [--version 0|1|2] [FILE]

It reads units of the RPKI to Router protocol (RFC 8210) from FILE, or from
standard input if FILE is - or isn't given, and writes each one with zero
wherever its bits mean nothing.

  (no word)    keep the versions of the units
  --version N  write payload units and ends of data in this version, and leave
               out payload units that it lacks
  --help       print this
  --version    without a number: print the program's version
"""
PREFIX = "prefix fields are not allowed"
EMPTY = "ASPA unit has no providers"

# fmt: off
RUNS = [
    # Each type.
    ([], "", NONE, NONE, "", 0),
    ([], "", NOTIFY, NOTIFY, "", 0),
    ([], "", QUERY, QUERY, "", 0),
    ([], "", ASKS, ASKS, "", 0),
    ([], "", ASKS_STRAY, ASKS, "", 0),
    ([], "", RESPONSE, RESPONSE, "", 0),
    ([], "", IPV4_STRAY, IPV4, "", 0),
    ([], "", IPV6_STRAY, IPV6, "", 0),
    ([], "", END_0, END_0, "", 0),
    ([], "", END_1, END_1, "", 0),
    ([], "", TIMED_2, TIMED_2, "", 0),
    ([], "", RESET_STRAY, RESET, "", 0),
    ([], "", KEY_STRAY, KEY, "", 0),
    ([], "", KEY_MOST, KEY_MOST, "", 0),
    ([], "", REPORT, REPORT, "", 0),
    ([], "", REPORT_UNFIT, REPORT_UNFIT, "", 0),
    ([], "", REPORT_MOST, REPORT_MOST, "", 0),
    ([], "", ASPA_STRAY, ASPA, "", 0),
    ([], "", GONE_STRAY, GONE, "", 0),
    ([], "", STRAY, CLEAN, "", 0),
    ([], "", CLEAN, CLEAN, "", 0),
    ([], "", STRAY * 2, CLEAN * 2, "", 0),
    ([], "", in_version(255, NOTIFY) + in_version(9, IPV4_STRAY), in_version(255, NOTIFY) + in_version(9, IPV4), "", 0),
    ([], "", IPV4_STRAY * MANY + END_1, IPV4 * MANY + END_1, "", 0),
    ([], "", KEY_MOST * 20 + REPORT_MOST, KEY_MOST * 20 + REPORT_MOST, "", 0),
    # It continues after an end of data.
    ([], "", RESPONSE + IPV4_STRAY + END_1 + NOTIFY + RESPONSE + KEY_STRAY + END_1, RESPONSE + IPV4 + END_1 + NOTIFY + RESPONSE + KEY + END_1, "", 0),
    ([], "", END_1 * 3, END_1 * 3, "", 0),
    # Each refusal: the units before it are written, those after it are not.
    ([], "", STRAY + UNKNOWN_TYPE + END_1, CLEAN, "unit type 12 is not allowed here", 1),
    ([], "", UNUSED_TYPE + END_1, NONE, "unit type 5 is not allowed here", 1),
    ([], "", IPV4_STRAY + END_3 + NOTIFY, IPV4, "version 3 is not supported here", 1),
    ([], "", IPV4_STRAY + END_0_24 + NOTIFY, IPV4, LENGTH, 1),
    ([], "", ASKS_STRAY + NOTIFY_8 + END_1, ASKS, LENGTH, 1),
    ([], "", RESPONSE_12 + END_1, NONE, LENGTH, 1),
    ([], "", RESPONSE + IPV4_21 + END_1, RESPONSE, LENGTH, 1),
    ([], "", KEY_STRAY + KEY_31 + END_1, KEY, LENGTH, 1),
    ([], "", KEY_STRAY + KEY_65536 + END_1, KEY, LONG, 1),
    ([], "", REPORT + REPORT_15 + END_1, REPORT, LENGTH, 1),
    ([], "", REPORT + REPORT_65536 + END_1, REPORT, LONG, 1),
    ([], "", ASPA_STRAY + ASPA_14 + END_2, ASPA, LENGTH, 1),
    ([], "", GONE_STRAY + ASPA_EMPTY + END_2, GONE, EMPTY, 1),
    ([], "", IPV4_STRAY + IPV4_LONG + END_1, IPV4, PREFIX, 1),
    ([], "", END_1 + IPV4_MAX_LONG + END_1, END_1, PREFIX, 1),
    ([], "", IPV6_MAX_SHORT + END_1, NONE, PREFIX, 1),
    ([], "", IPV4_STRAY * MANY + UNKNOWN_TYPE, IPV4 * MANY, "unit type 12 is not allowed here", 1),
    ([], "", KEY_MOST[:-1], NONE, CUT, 1),
    # Payload units and ends of data in one version; other units keep theirs.
    (FOR_0, "", STRAY, NOTIFY + QUERY + ASKS + RESPONSE + in_version(0, IPV4) + in_version(0, IPV6) + END_0 + RESET + REPORT, "", 0),
    (FOR_1, "", STRAY, NOTIFY + QUERY + ASKS + RESPONSE + IPV4 + IPV6 + KEY + END_1 + RESET + REPORT, "", 0),
    (FOR_2, "", STRAY, NOTIFY + QUERY + ASKS + RESPONSE + in_version(2, IPV4) + in_version(2, IPV6) + in_version(2, KEY) + ASPA + GONE + END_2 + RESET + REPORT, "", 0),
    (FOR_0, "", TIMED_2, END_0, "", 0),
    (FOR_1, "", TIMED_2 + END_0, TIMED_1 + END_1, "", 0),
    (FOR_2, "", END_0 + TIMED_1, END_2 + TIMED_2, "", 0),
    (FOR_0, "", KEY_STRAY + ASPA_STRAY, NONE, "", 0),
    (FOR_0, "", KEY + KEY_31, NONE, LENGTH, 1),
    (FOR_0, "", ASPA_EMPTY + END_2, NONE, EMPTY, 1),
    (FOR_0, "", IPV4_STRAY + IPV4_LONG, in_version(0, IPV4), PREFIX, 1),
    (FOR_1, "", IPV4_STRAY + END_3, IPV4, "version 3 is not supported here", 1),
    (FOR_2, "", ASPA_STRAY[:-1], NONE, CUT, 1),
    # Wrong arguments: nothing is read or written.
    (["--version"], "<.", NONE, b"rtr_clean 0.3.0\n", "", 0),
    (["--help"], "<.", NONE, HELP, "", 0),
    (["--help"], ">/dev/full", NONE, NONE, NO_WRITE, 3),
    (["--version", "--help"], "", STRAY, NONE, "--version: \"--help\" isn't 0, 1 or 2", 2),
    (["--version", "3"], "", STRAY, NONE, "--version: \"3\" isn't 0, 1 or 2", 2),
    (["--version", "00"], "", STRAY, NONE, "--version: \"00\" isn't 0, 1 or 2", 2),
    (["--version", ""], "", STRAY, NONE, "--version: \"\" isn't 0, 1 or 2", 2),
    (["--version=1"], "", STRAY, NONE, 'unknown option "--version=1"', 2),
    (["--Version", "1"], "", STRAY, NONE, 'unknown option "--Version"', 2),
    (["-1"], "", STRAY, NONE, 'unknown option "-1"', 2),
    (["x", "x"], "", STRAY, NONE, 'unexpected argument "x"', 2),
    (["--version", "0", "-x"], "", STRAY, NONE, 'unknown option "-x"', 2),
    (["--version", "0", "--version", "0"], "", STRAY, NONE, "--version: it is given twice", 2),
    (["x", "--version", "0"], "", STRAY, NONE, '--version has to come before "x"', 2),
    (["--x\n\u00e9"], "", STRAY, NONE, 'unknown option "--x\\n\\xc3\\xa9"', 2),
    ([b"\xff"], "", STRAY, NONE, USAGE, 2),
    (["--x"], "<. >/dev/full", NONE, NONE, 'unknown option "--x"', 2),
    # An input that can't be read, an output that can't be written, a line that can't be.
    ([], "<.", NONE, NONE, NO_READ, 3),
    ([], "<&-", NONE, NONE, "read failed: " + NO_DESCRIPTOR, 3),
    (FOR_1, "<.", NONE, NONE, NO_READ, 3),
    (["."], "", NONE, NONE, ".: " + NO_READ, 3),
    ([*FOR_1, "."], "", NONE, NONE, ".: " + NO_READ, 3),
    (["-"], "<.", NONE, NONE, "-: " + NO_READ, 3),
    ([], ">&-", STRAY, NONE, "write failed: " + NO_DESCRIPTOR, 3),
    ([], ">/dev/full", STRAY, NONE, NO_WRITE, 3),
    ([], ">/dev/full", IPV4_STRAY, NONE, NO_WRITE, 3),
    ([], ">/dev/full", IPV4_STRAY * MANY + UNKNOWN_TYPE, NONE, NO_WRITE, 3),
    ([], ">/dev/full", NOTIFY + UNKNOWN_TYPE, NONE, NO_WRITE, 3),
    ([], ">/dev/full", IPV4 + UNKNOWN_TYPE, NONE, "unit type 12 is not allowed here", 1),
    (FOR_0, ">/dev/full", STRAY, NONE, NO_WRITE, 3),
    ([], "2>/dev/full", IPV4 + UNKNOWN_TYPE, IPV4, "", 1),
    ([], "2>&-", IPV4 + UNKNOWN_TYPE, IPV4, "", 1),
    (["--x"], "2>&-", STRAY, NONE, "", 2),
]
# fmt: on

# The text for each status that `sessions.py` gives a fault.
FAULTS = {
    sessions.SHORT: CUT, sessions.UNIT_TYPE: "unit type {} is not allowed here",
    sessions.UNIT_VERSION: "version {} is not supported here", sessions.TOO_LONG: LONG,
    sessions.UNIT_LENGTH: LENGTH, sessions.EMPTY_PROVIDERS: EMPTY, sessions.PREFIX: PREFIX,
}

# The first version that has the payload of a type.
SINCE = {sessions.IPV4: 0, sessions.IPV6: 0, sessions.KEY: 1, sessions.ASPA: 2}


def written(unit, form, version):
    """Returns the expected bytes of the unit with this canonical form, for a version or for
    none."""
    if unit[1] == sessions.REPORT:
        return unit
    if version is None or unit[1] not in (*SINCE, sessions.END):
        return form
    if unit[1] != sessions.END:
        return in_version(version, form) if SINCE[unit[1]] <= version else b""
    timings = unit[12:] or END_1[12:]
    if version == 0:
        return b"\x00" + unit[1:4] + bytes([0, 0, 0, 12]) + unit[8:12]
    return bytes([version]) + unit[1:4] + bytes([0, 0, 0, 24]) + unit[8:12] + timings


def expected(data, version):
    """Returns the expected output, line on standard error and status of a run."""
    output, offset = b"", 0
    while data:
        shown, _, _, form = sessions.answer(data)
        status = shown.get("status", sessions.OK)
        if status != sessions.OK:
            line = FAULTS[status].format(shown.get("detail"))
            return output, f"rtr_clean: offset {offset}: {line}\n", 1
        size = shown["size"]
        output += written(data[:size], form, version)
        data = data[size:]
        offset += size
    return output, "", 0


def shown(data):
    """Returns bytes as hex, cut if they are many."""
    return data[:80].hex(" ") + (f" .. ({len(data)} bytes)" if len(data) > 80 else "")


def compared(program, rows, names=None):
    """Returns the number of rows whose run differs. The differences are printed, with the names of
    the rows."""
    wrong = 0
    with ThreadPoolExecutor(os.cpu_count()) as pool:
        got = pool.map(lambda row: run(program, *row[:3]), rows)
        for name, row, seen in zip(names or ["cleans"] * len(rows), rows, got):
            arguments, redirection, given, *outcome = row
            if seen != tuple(outcome):
                wrong += 1
                print(f"{name}: {arguments} {redirection} {shown(given)}: {shown(seen[0])} "
                      f"{seen[1:]}, not {shown(outcome[0])} {outcome[1:]}")
    return wrong


def error_line(row):
    """Returns the line of a row: after the program's name, and at a fault with the offset of the
    unit: the length of the whole units read before it."""
    *_, given, _, line, status = row
    if not line or line == USAGE:
        return line + "\n" if line else ""
    where = f"offset {taken(given)}: " if status == 1 else ""
    return f"rtr_clean: {where}{line}\n"


def taken(data):
    """Returns the length of the units before the first fault."""
    offset = 0
    while offset < len(data):
        status = sessions.answer(data[offset:])[0]
        if status.get("status", sessions.OK) != sessions.OK:
            return offset
        offset += status["size"]
    return offset


def check_rows(program):
    rows = [(*row[:4], error_line(row), row[5]) for row in RUNS]
    return compared(program, rows, places(globals()))


def check_cuts(program):
    """Runs a session cut after each byte, for each version and for none."""
    rows = [(arguments, "", STRAY[:end], *expected(STRAY[:end], version))
            for version, arguments in ((None, []), (0, FOR_0), (1, FOR_1), (2, FOR_2))
            for end in range(len(STRAY) + 1)]
    return compared(program, rows)


def check_random(program):
    """Runs sessions of each kind, whole and hostile."""
    rows = []
    for count, data in enumerate(sessions.sessions(random.Random(1))):
        version = (None, 0, None, 1, None, 2)[count % 6]
        arguments = [] if version is None else ["--version", str(version)]
        rows.append((arguments, "", data, *expected(data, version)))
    return compared(program, rows)


def arrives(stream, content):
    """Reports whether exactly these bytes come from the stream."""
    came = b""
    while len(came) < len(content):
        if not select.select([stream], [], [], SECONDS)[0]:
            break
        came += os.read(stream.fileno(), 65536) or b"end"
    return came == content and not select.select([stream], [], [], 0)[0]


def check_waiting(program):
    """While the input is open, the end of an answer comes at once, with all before it."""
    wrong = 0
    pipes = {"stdin": subprocess.PIPE, "stdout": subprocess.PIPE}
    with subprocess.Popen([program], **pipes) as ran:
        for stray, clean in (
            (NOTIFY, NOTIFY), (QUERY, QUERY), (ASKS_STRAY, ASKS), (RESPONSE + END_0, RESPONSE + END_0),
            (RESPONSE + IPV4_STRAY + KEY_STRAY + END_1, RESPONSE + IPV4 + KEY + END_1),
            (RESET_STRAY, RESET), (GONE_STRAY + TIMED_2, GONE + TIMED_2), (REPORT, REPORT),
        ):
            ran.stdin.write(stray + RESPONSE[:7])
            ran.stdin.flush()
            if not arrives(ran.stdout, clean):
                wrong += 1
                print(f"cleans: {shown(stray)} waits")
                break
            # The cut response, whose last byte comes now, is written before the next answer.
            ran.stdin.write(RESPONSE[7:] + NOTIFY)
            ran.stdin.flush()
            if not arrives(ran.stdout, RESPONSE + NOTIFY):
                wrong += 1
                print(f"cleans: a notify after {shown(stray)} waits")
                break
        ran.stdin.close()
    return wrong + (ran.returncode != 0)


def check_gone(program):
    """Checks that writing fails, and no line is printed, if the reader of the output has gone."""
    wrong = 0
    for given in (NOTIFY, IPV4, IPV4 * MANY, END_1 + UNKNOWN_TYPE):
        reading, writing = os.pipe()
        os.close(reading)
        done = subprocess.run([program], input=given, stdout=writing, stderr=subprocess.PIPE,
                              timeout=SECONDS)
        os.close(writing)
        if (done.stderr, done.returncode) != (b"", 3):
            wrong += 1
            print(f"cleans: {shown(given)} to nobody: {done.stderr} {done.returncode}")
    return wrong


def main():
    programs = [os.path.realpath(path) for path in sys.argv[1:] or built.needed("rtr_clean")]
    checks = check_rows, check_cuts, check_random, check_waiting, check_gone
    wrong = sum(check(program) for program in programs for check in checks)
    if wrong:
        sys.exit(f"cleans: FAILED, {wrong} wrong")


if __name__ == "__main__":
    main()
