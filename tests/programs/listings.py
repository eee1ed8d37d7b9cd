#!/usr/bin/env python3
"""Runs the program `rtr_list` and compares the output and status of each run.

usage: listings.py [PROGRAM]..
       listings.py --findings    prints recordings with their `--check` lines, for the tests of the
                              languages: the length of each recording in four bytes, the length of
                              its lines, and both

Without PROGRAM it runs those of `built.py`. The expected lines are computed from the bytes, without
the library, by `listed_units.py`, `findings.py` and `summaries.py`. Prints nothing if all is well.
"""
import contextlib
import itertools
import json
import os
import select
import subprocess
import sys
import tempfile
import threading
import time

TOP = os.path.realpath(os.path.join(os.path.dirname(os.path.abspath(__file__)), "..", ".."))
sys.path.insert(0, os.path.join(TOP, ".ci"))

import built  # noqa: E402  (it lies in another folder, as they all do)
from findings import CHECKS, counted, missing, print_findings  # noqa: E402
from listed_units import (CLEAN, END, IPV4, IPV4_GONE, IPV4_HOST, IPV6, LISTED,  # noqa: E402
                          REFUSED, announced_units, fields_of, lines, long_units, object_of,
                          random_units, split, unhex)
from summaries import ANSWERS, ASES, LARGEST, SUMMARY, summary  # noqa: E402

# The time limit of a run in seconds.
SECONDS = 60

# How many differences of a part are printed.
SHOWN = 10

USAGE = "usage: rtr_list [--json | --check | --summary | --csv | --vrps] [FILE]"

HELP = f"""\
rtr_list - list the units of a recorded RTR session
{USAGE}

It reads units of the RPKI to Router protocol (RFC 8210) from FILE, or from
standard input if FILE is - or isn't given.

  (no word)  print a line for each unit, which begins with its offset
  --json     print a JSON object for each unit
  --check    print only the broken rules of the protocol
  --summary  print the number of units of each kind, and the serial number of
             each answer
  --csv      print the origins that the recording leaves, as CSV
  --vrps     print all payloads that the recording leaves, as JSON
  --help     print this
  --version  print the program's version
"""

# The reasons of the system.
DIRECTORY = "Is a directory (os error 21)"
NO_SPACE = "No space left on device (os error 28)"
NO_DESCRIPTOR = "Bad file descriptor (os error 9)"

JSON = "standard input looks like JSON: `rtr_make --json` makes units of what validators print"
CAPTURE = "standard input looks like a packet capture: `rtr-pcap FILE` lists the sessions in it"

# Inputs that aren't RTR at all, with the text of the fault and its hint.
GUISES = [
    (b'{"roas":[]}', "unit type 34 is not allowed here", JSON),
    (b'{\n  "metadata": {', "unit is longer than 65535 bytes", JSON),
    (b"[]", "unexpected end of input", JSON),
    (b"{", "unexpected end of input", JSON),
    (unhex("d4c3b2a1 02000400 00000000 00000000"), "unit type 195 is not allowed here", CAPTURE),
    (unhex("a1b2c3d4 00020004 00000000 00000000"), "unit type 178 is not allowed here", CAPTURE),
    (unhex("4d3cb2a1 02000400 00000000 00000000"), "unit type 60 is not allowed here", CAPTURE),
    (unhex("a1b23c4d 00020004 00000000 00000000"), "unit type 178 is not allowed here", CAPTURE),
    (unhex("0a0d0d0a 1c000000 4d3c2b1a 01000000"), "unit type 13 is not allowed here", CAPTURE),
    (b"|\"roas\":[]", "unit type 34 is not allowed here", None),
    (unhex("d4c3b2a0 02000400 00000000 00000000"), "unit type 195 is not allowed here", None),
]


def outcome(program, words, data, redirection=""):
    """Returns the status of a run, what it printed, and what it printed on standard error."""
    with tempfile.TemporaryFile() as given:
        given.write(data)
        given.seek(0)
        command = ["sh", "-c", f'exec "$0" "$@" {redirection}', program, *words]
        run = subprocess.run(command, stdin=given, capture_output=True, timeout=SECONDS)
    return run.returncode, printed(run.stdout), printed(run.stderr)


def printed(data):
    """Returns what a run printed; bytes that are not UTF-8 as Python shows them."""
    return data.decode(errors="backslashreplace")


def listing(data):
    """Returns the expected lines of the samples in the data."""
    found = {sample.bytes: sample for sample in LISTED}
    return [found[unit].line_at(offset) for offset, unit in split(data)]


def listed(program):
    """Yields the differences between listings and the expected ones."""
    session = b"".join(sample.bytes for sample in LISTED)
    for data in [b"", session]:
        got = outcome(program, [], data)
        if got != (0, lines(listing(data)), ""):
            yield f"{data.hex(' ')[:60]}: {got}"
    for sample in LISTED:
        for words, text in (([], sample.line), (["--json"], sample.json)):
            got = outcome(program, words, sample.bytes)
            if got != (0, lines([text]), ""):
                yield f"{sample.unit}: {got}"
    ends = {offset + len(unit) for offset, unit in split(session)}
    for cut in range(len(session)):
        whole = max((end for end in ends if end <= cut), default=0)
        text = "" if cut == whole else f"rtr_list: offset {whole}: unexpected end of input\n"
        expected = (1 if text else 0, lines(listing(session[:whole])), text)
        if outcome(program, [], session[:cut]) != expected:
            yield f"a session that is cut after {cut} bytes"
        status, output, error = outcome(program, ["--json"], session[:cut])
        offsets = [dict(fields_of(line) or []).get("offset") for line in output.splitlines()]
        units = [offset for offset, _ in split(session[:whole])]
        if (status, offsets, error) != (expected[0], units, text):
            yield f"a session as JSON that is cut after {cut} bytes"
    for unit, text in REFUSED:
        for words, front in (([], ""), ([], END), (["--json"], ""), (["--check"], END)):
            status, output, error = outcome(program, words, unhex(front + unit))
            stderr = f"rtr_list: offset {len(unhex(front))}: {text}\n"
            if words == ["--check"]:
                stderr += counted(unhex(front))
            if (status, error) != (1, stderr):
                yield f"{words} {unit}: {status} {error}"
            if output.count("\n") != (1 if front and words != ["--check"] else 0):
                yield f"{words} {unit}: {output}"


def written_as_json(program):
    """Yields the differences between JSON lines and a decoding of the same units."""
    units = [sample.bytes for sample in LISTED] + random_units(1)
    data = b"".join(units)
    status, output, error = outcome(program, ["--json"], data)
    if (status, error, output.count("\n")) != (0, "", len(units)):
        yield f"status {status}, {output.count(chr(10))} lines of {len(units)} units, {error}"
    for line, (offset, unit) in zip(output.split("\n"), split(data)):
        expected = object_of(offset, unit)
        if any("\x7f" <= char <= "\x9f" for char in line):
            yield f"{unit.hex(' ')}: a control character in {line!r}"
        got = fields_of(line)
        if got is None or [key for key, _ in got] != list(dict(got)) or dict(got) != expected:
            yield f"{unit.hex(' ')}: {line}"


def checked(program):
    """Yields the differences between the output of `--check` and the expected one."""
    for data, findings in CHECKS:
        units = unhex(data)
        found = findings + missing(units)
        got = outcome(program, ["--check"], units)
        if got != (1 if found else 0, lines(found), counted(units)):
            yield f"{data}: {got}"
        for fault, text in (REFUSED[0], REFUSED[-1]):
            got = outcome(program, ["--check"], unhex(data + fault))
            offset = len(unhex(data))
            stderr = f"rtr_list: offset {offset}: {text}\n{counted(units)}"
            if got != (1, lines(findings), stderr):
                yield f"{data}, and then a fault: {got}"


def summarised(program):
    """Yields the differences between summaries and the expected ones."""
    got = outcome(program, ["--summary"], unhex(CLEAN))
    if got != (0, SUMMARY, "") or summary(unhex(CLEAN)) != SUMMARY:
        yield f"{CLEAN}: {got}"
    for data, texts in ANSWERS:
        got = outcome(program, ["--summary"], unhex(data))
        found = [line[22:] for line in got[1].splitlines() if line.startswith("answer:")]
        if found != texts or got != (0, summary(unhex(data)), ""):
            yield f"the answers of {data}: {got}"
    session = b"".join(sample.bytes for sample in LISTED)
    other_end = unhex("01 07 12 35 00 00 00 18") + bytes(16)
    lengths = [unhex(unit)[:9] + bytes([length]) + unhex(unit)[10:]
               for unit in (IPV4, IPV4_GONE, IPV6) for length in range(256)]
    for data in (b"", session, unhex(CLEAN * 3), unhex(CLEAN) + other_end,
                 b"".join(random_units(2)), b"".join(lengths), unhex(IPV4_GONE * 70000)):
        got = outcome(program, ["--summary"], data)
        if got != (0, summary(data), ""):
            yield f"{data.hex(' ')[:60]}: {got}"
    ases = b"".join(unhex(unit)[:-4] + asn.to_bytes(4, "big") for asn, count in ASES
                    for unit in [(IPV4, IPV6)[index % 2] for index in range(count)])
    ases += (unhex(IPV4_GONE)[:-4] + b"\0\0\0\7") * 9
    got = outcome(program, ["--summary"], ases)
    if got != (0, summary(ases), "") or got[1].count("AS:") != 10 or not got[1].endswith(LARGEST):
        yield f"the largest ASes: {got}"


def summarised_in_part(program):
    """Yields the differences between summaries of inputs with a fault and the expected ones."""
    session = b"".join(sample.bytes for sample in LISTED)
    ends = [offset + len(unit) for offset, unit in split(session)]
    for cut in range(len(session)):
        whole = max((end for end in ends if end <= cut), default=0)
        expected = (0, summary(session[:whole]), "")
        if cut > whole:
            text = f"rtr_list: offset {whole}: unexpected end of input\n"
            expected = (1, summary(session[:whole], "no"), text)
        if outcome(program, ["--summary"], session[:cut]) != expected:
            yield f"a session that is cut after {cut} bytes"
    for unit, text in REFUSED:
        front = unhex(CLEAN)
        got = outcome(program, ["--summary"], front + unhex(unit))
        stderr = f"rtr_list: offset {len(front)}: {text}\n"
        if got != (1, summary(front, "no"), stderr):
            yield f"{unit}: {got}"


def long_units_listed(program):
    """Yields the differences between listings of long units and the expected ones."""
    units = [*long_units(), (unhex(IPV4), "v1 IPv4 prefix announce 192.0.2.0/23-26 AS65551")]
    for unit, text in units * 2:
        expected = (0, lines([f"0 {text}"]), "")
        if outcome(program, [], unit) != expected:
            yield f"a unit of {len(unit)} bytes, {text[:40]}"
    data = b"".join(unit for unit, _ in units * 2)
    offsets = [offset for offset, _ in split(data)]
    texts = [f"{offset} {text}" for offset, (_, text) in zip(offsets, units * 2)]
    if outcome(program, [], data) != (0, lines(texts), ""):
        yield "long units one after the other"
    status, output, error = outcome(program, ["--json"], data)
    objects = [json.loads(line) for line in output.splitlines()]
    expected = [object_of(offset, unit) for offset, unit in split(data)]
    if (status, objects, error) != (0, expected, ""):
        yield f"long units as JSON: status {status}, {len(objects)} objects, {error}"
    for unit, text in units:
        answer = unit + unit[:1] + unhex(END)[1:]
        if outcome(program, ["--check"], answer) != (0, "", counted(answer)):
            yield f"broken rules of a unit of {len(unit)} bytes, {text[:40]}"


def many_announced(program):
    """Yields the differences between the output of `--check` for many announcements and the
    expected one."""
    for units, gone in announced_units(5000):
        data, size = b"".join(units), len(units[0])
        cases = [(b"", [])]
        for unit in (units[0], units[999], units[1000], units[-1]):
            cases.append((unit, [f"offset {len(data)}: announced twice in the sequence"]))
        cases.append((gone + units[0], []))
        offset = len(data) + len(gone) + size
        again = [f"offset {offset}: announced twice in the sequence"]
        cases.append((gone + units[0] * 2, again))
        for more, findings in cases:
            given = data + more
            found = findings + missing(given)
            got = outcome(program, ["--check"], given)
            if got != (1, lines(found), counted(given)):
                yield f"{len(units)} units of {size} bytes and {more.hex(' ')}: {got}"


@contextlib.contextmanager
def within_limit(run):
    """Stops a run that hangs in this step."""
    hangs = threading.Timer(SECONDS, run.kill)
    hangs.start()
    try:
        yield
    finally:
        hangs.cancel()


def after_4_gib(program):
    """Yields the differences between the lines for units up to and after 4 GiB and the expected
    ones."""
    if program.endswith(".by-rattle"):
        return
    # A report whose lengths don't fit, so that its line is short.
    unit, count = unhex("01 0a 00 00 00 00 ff ff").ljust(65535, b"\xff"), 2**32 // 65535 + 2
    with tempfile.TemporaryFile() as output:
        pipes = {"stdin": subprocess.PIPE, "stdout": output, "stderr": subprocess.PIPE}
        with subprocess.Popen([program, "--json"], **pipes) as run:
            with contextlib.suppress(BrokenPipeError):
                for start in range(0, count, 512):
                    with within_limit(run):
                        run.stdin.write(unit * min(512, count - start))
                with within_limit(run):
                    run.stdin.write(unit[:1])
                    run.stdin.close()
            with within_limit(run):
                error = run.stderr.read().decode()
        output.seek(0)
        offsets = [dict(fields_of(line) or []).get("offset") for line in output]
    size = count * len(unit)
    if offsets != list(range(0, size, len(unit))):
        yield f"the offsets of {len(offsets)} of {count} units as JSON, the last at {offsets[-1:]}"
    if error != f"rtr_list: offset {size}: unexpected end of input\n":
        yield f"the offset of a fault after {size} bytes: {error}"


# fmt: off
ENDS = [
    # Wrong arguments.
    (["-x"], "", (2, "", 'rtr_list: unknown option "-x"')),
    (["x", "x"], "", (2, "", 'rtr_list: unexpected argument "x"')),
    (["x", "--json"], "", (2, "", 'rtr_list: --json has to come before "x"')),
    (["--JSON"], "", (2, "", 'rtr_list: unknown option "--JSON"')),
    (["--json", "--check"], "", (2, "", "rtr_list: --check doesn't go with --json")),
    (["--json", "--json"], "", (2, "", "rtr_list: --json: it is given twice")),
    ([b"\xff"], "", (2, "", USAGE)),
    (["--json", b"\xff"], "", (2, "", USAGE)),
    ([b"--check\xff"], "", (2, "", USAGE)),
    (["--help"], "<.", (0, HELP, "")),
    (["--version"], "<.", (0, "rtr_list 0.3.0\n", "")),
    (["--help"], ">/dev/full", (3, "", f"rtr_list: write failed: {NO_SPACE}")),
    (["--version"], ">&-", (3, "", f"rtr_list: write failed: {NO_DESCRIPTOR}")),
    (["--version", "1"], "", (2, "", "rtr_list: --version has to stand alone")),
    (["--help", "--json"], "", (2, "", "rtr_list: --help has to stand alone")),
    (["--summary", "--json"], "", (2, "", "rtr_list: --json doesn't go with --summary")),
    (["--Summary"], "", (2, "", 'rtr_list: unknown option "--Summary"')),
    (["--HELP"], "", (2, "", 'rtr_list: unknown option "--HELP"')),
    (["--x"], ">/dev/full", (2, "", 'rtr_list: unknown option "--x"')),
    # An input that can't be read, and an output that can't be written.
    ([], "<.", (3, "", f"rtr_list: read failed: {DIRECTORY}")),
    (["--json"], "<.", (3, "", f"rtr_list: read failed: {DIRECTORY}")),
    (["--check"], "<.", (3, "", f"rtr_list: read failed: {DIRECTORY}\n{counted(b'')[:-1]}")),
    (["--summary"], "<.", (3, summary(b'', 'no'), f"rtr_list: read failed: {DIRECTORY}")),
    (["."], "", (3, "", f"rtr_list: .: read failed: {DIRECTORY}")),
    (["--json", "."], "", (3, "", f"rtr_list: .: read failed: {DIRECTORY}")),
    (["--check", "."], "", (3, "", f"rtr_list: .: read failed: {DIRECTORY}\n{counted(b'')[:-1]}")),
    (["--summary", "."], "", (3, summary(b'', 'no'), f"rtr_list: .: read failed: {DIRECTORY}")),
    (["--json", "-"], "<.", (3, "", f"rtr_list: -: read failed: {DIRECTORY}")),
    ([], "<&-", (3, "", f"rtr_list: read failed: {NO_DESCRIPTOR}")),
    ([], ">/dev/full", (3, "", f"rtr_list: write failed: {NO_SPACE}")),
    (["--json"], ">/dev/full", (3, "", f"rtr_list: write failed: {NO_SPACE}")),
    (["--check"], ">/dev/full",
     (3, "", f"rtr_list: write failed: {NO_SPACE}\n{counted(unhex(IPV4_HOST))[:-1]}")),
    (["--summary"], ">/dev/full", (3, "", f"rtr_list: write failed: {NO_SPACE}")),
    ([], ">&-", (3, "", f"rtr_list: write failed: {NO_DESCRIPTOR}")),
    # A line that can't be written.
    (["--x"], "2>/dev/full", (2, "", "")),
    ([], "<. 2>&-", (3, "", "")),
]
# fmt: on


def ended(program):
    """Yields the differences between the ends of runs and the expected ones."""
    for words, redirection, (status, output, line) in ENDS:
        got = outcome(program, words, unhex(IPV4_HOST), redirection)
        if got != (status, output, f"{line}\n" if line else ""):
            yield f"{words} {redirection}: {got}"
    got = outcome(program, [], unhex(IPV4 + REFUSED[0][0]), ">/dev/full")
    failed = f"rtr_list: write failed: {NO_SPACE}\n"
    if got != (3, "", f"rtr_list: offset 20: {REFUSED[0][1]}\n{failed}"):
        yield f"a fault and a failed flush: {got}"
    got = outcome(program, [], unhex(IPV4 * 70000), ">/dev/full")
    if got != (3, "", failed):
        yield f"an output that fails in mid-run: {got}"


def prompted(program):
    """Yields the differences in the output for an input that stays open, and in a run whose output
    nobody reads to its end."""
    session = b"".join(sample.bytes for sample in LISTED)
    units = [unit for _, unit in split(session)]
    with subprocess.Popen([program], stdin=subprocess.PIPE, stdout=subprocess.PIPE) as run:
        for line, unit, following in zip(listing(session), units, units[1:] + [b""]):
            # The next unit's first byte comes with this one, and doesn't keep its line back.
            sent = 0 if unit is units[0] else 1
            run.stdin.write(unit[sent:] + following[:1])
            run.stdin.flush()
            if not select.select([run.stdout], [], [], SECONDS)[0]:
                yield f"{line}: waits"
                break
            if os.read(run.stdout.fileno(), 65536) != f"{line}\n".encode():
                yield f"{line}: not what comes"
        run.stdin.close()
    for words in ([], ["--json"], ["--check"]):
        given = unhex(IPV4_HOST) * 200000
        command = ["sh", "-c", '"$0" "$@" | head -n 1', program, *words]
        with tempfile.TemporaryFile() as stderr:
            run = subprocess.run(command, input=given, stdout=subprocess.PIPE, stderr=stderr,
                                 timeout=SECONDS)
            stderr.seek(0)
            errors = [line for line in stderr.read().splitlines() if b"looked at" not in line]
        if run.stdout.count(b"\n") != 1 or errors:
            yield f"{words} to one that reads a line: {run.stdout[:80]}, {errors}"


def disguised(program):
    """Yields the differences between the lines for inputs that aren't units and the expected
    ones."""
    for given, text, looks in GUISES:
        for words in ([], ["--json"], ["--csv"], ["--vrps"]):
            stderr = f"rtr_list: offset 0: {text}\n" + (f"rtr_list: {looks}\n" if looks else "")
            got = outcome(program, words, given)
            if got != (1, "", stderr):
                yield f"{words} {given}: {got}"


def peak(program, words, data):
    """Returns the peak of a run's address space in KiB after it got the data; None if it has ended.
    Resident memory would count pages of the program's file, as many as happen to be loaded."""
    command = [program, *words]
    with contextlib.suppress(BrokenPipeError):
        with subprocess.Popen(command, stdin=subprocess.PIPE, stdout=subprocess.DEVNULL,
                              stderr=subprocess.DEVNULL) as run:
            run.stdin.write(data)
            run.stdin.flush()
            time.sleep(0.2)
            with open(f"/proc/{run.pid}/status") as status:
                sizes = dict(line.split(":", 1) for line in status)
        # A process that has ended reports no memory.
        return int(sizes["VmPeak"].split()[0]) if "VmPeak" in sizes else None
    return None


def grown(program):
    """Runs whose memory grows with their input."""
    session = b"".join(sample.bytes for sample in LISTED)
    sequence = unhex(CLEAN)
    # A summary keeps a line of each answer.
    payloads = b"".join(sample.bytes for sample in LISTED if sample.bytes[1] != 7)
    kinds = ([], session), (["--json"], session), (["--check"], sequence), (["--summary"], payloads)
    for words, data in kinds:
        few, many = (peak(program, words, data * (size // len(data)))
                     for size in (200000, 10000000))
        if few is None or many is None:
            yield f"{words}: the run ended before its input did"
        elif many > few + 256:
            yield f"{words}: {few} KiB for 200 kB of input, {many} KiB for 10 MB"


def in_time(part, program):
    """Yields the differences of a part, and a last one if a run of it hangs."""
    try:
        yield from part(program)
    except subprocess.TimeoutExpired as error:
        yield f"{error.cmd[3:]}: a run of more than {SECONDS} seconds"


PARTS = (
    listed,
    written_as_json,
    long_units_listed,
    checked,
    summarised,
    summarised_in_part,
    many_announced,
    after_4_gib,
    ended,
    prompted,
    disguised,
    grown,
)


def main():
    if sys.argv[1:] == ["--findings"]:
        return print_findings()
    programs = sys.argv[1:] or built.needed("rtr_list")
    count = 0
    for program in map(os.path.abspath, programs):
        for part in PARTS:
            for difference in itertools.islice(in_time(part, program), SHOWN):
                print(f"listings: {program}: {part.__name__}: {difference}")
                count += 1
    if count > 0:
        sys.exit("listings: FAILED")


if __name__ == "__main__":
    main()
