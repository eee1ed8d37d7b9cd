#!/usr/bin/env python3
"""Runs the programs that print colours on a terminal, `rtr_list` and `rtr_diff`, on a terminal and
elsewhere.

usage: colours.py

On a terminal the line of each announcement is green, and of each withdrawal red, by the bytes of
its unit; the text without the escape sequences is that of a pipe. Through a pipe, with options for
other lines, and if the environment disables them, there are no colours. Prints nothing if all is
well.
"""
import contextlib
import os
import pty
import subprocess
import sys
import tempfile
import threading
import tty

TOP = os.path.realpath(os.path.join(os.path.dirname(os.path.abspath(__file__)), "..", ".."))
sys.path.insert(0, os.path.join(TOP, ".ci"))

import built  # noqa: E402  (it lies in another folder)
import samples  # noqa: E402

# The time limit of a run in seconds.
SECONDS = 60

# ECMA-48 section 8.3.117.
GREEN, RED, PLAIN = b"\x1b[32m", b"\x1b[31m", b"\x1b[0m"

# Environments that allow colours (no-color.org), and those that don't.
COLOURED = [{"TERM": "xterm"}, {}, {"TERM": "xterm-256color", "NO_COLOR": ""}]
PLAIN_ONES = [{"TERM": "dumb"}, {"TERM": "xterm", "NO_COLOR": "1"}, {"NO_COLOR": "0"},
              {b"NO_COLOR": b"\xff"}]

# Types of payload units, and the offset of their flags (RFC 8210 sections 5.6, 5.7 and 5.10).
FLAGS = {4: 8, 6: 8, 9: 2, 11: 2}

# A response, and ends of data with version 1 and 2.
RESPONSE = samples.unit("cache response")
TIMES = bytes.fromhex("00 00 0e 10 00 00 02 58 00 00 1c 20")
END = bytes.fromhex("01 07 12 34 00 00 00 18 00 00 00 01") + TIMES


def report(text):
    """Returns an error report with this text."""
    body = bytes(4) + len(text).to_bytes(4, "big") + text
    return bytes.fromhex("01 0a 00 00") + (8 + len(body)).to_bytes(4, "big") + body


def aspa(customer, providers):
    """Returns an ASPA unit that announces this many providers."""
    numbers = [customer, *range(4200000000, 4200000000 + providers)]
    body = b"".join(number.to_bytes(4, "big") for number in numbers)
    return bytes.fromhex("02 0b 01 00") + (8 + len(body)).to_bytes(4, "big") + body


def with_flags(unit, flags):
    """Returns the payload unit with these flags; of a withdrawn ASPA, only the customer."""
    if unit[1] == 11 and not flags & 1:
        unit = unit[:4] + (12).to_bytes(4, "big") + unit[8:12]
    offset = FLAGS[unit[1]]
    return unit[:offset] + bytes([flags]) + unit[offset + 1:]


PAYLOADS = [samples.unit(name) for name in ("IPv4 prefix", "announced IPv6 prefix",
                                            "router key of four bytes", "ASPA of large numbers")]

# Units of each kind, texts that look like lines, and a line that is longer than a buffer.
UNITS = [sample.bytes for sample in samples.SAMPLES if sample.line]
UNITS += [with_flags(unit, flags) for unit in PAYLOADS for flags in (0, 1, 2, 255)]
UNITS += [report(b" IPv4 prefix announce 192.0.2.0/24-24 AS1"), report(b"+\n- withdraw\n"),
          report(b"x" * 65000), aspa(1, 15000), samples.unit("cache reset")]


def colour_of(unit):
    """Returns the colour of a unit's line."""
    offset = FLAGS.get(unit[1])
    if offset is None:
        return None
    return GREEN if unit[offset] & 1 else RED


def painted(lines, colours):
    """Returns the lines in their colours."""
    return b"".join(line if colour is None else colour + line[:-1] + PLAIN + b"\n"
                    for line, colour in zip(lines, colours, strict=True))


def has_colours(data):
    """Reports whether it has an escape sequence."""
    return any(sequence in data for sequence in (GREEN, RED, PLAIN))


def piped(command, given=b""):
    """Returns what a run writes to a pipe, and its status."""
    done = subprocess.run(command, input=given, stdout=subprocess.PIPE, stderr=subprocess.DEVNULL,
                          env={"TERM": "xterm"}, timeout=SECONDS)
    return done.stdout, done.returncode


def read_all(master, to):
    """Reads what is written to a terminal, until no process has it open any more."""
    with contextlib.suppress(OSError):
        while data := os.read(master, 65536):
            to.append(data)


def shown(command, environment, given=b""):
    """Returns what a run writes to a raw terminal, and its status."""
    master, terminal = pty.openpty()
    tty.setraw(terminal)
    read = []
    reader = threading.Thread(target=read_all, args=(master, read))
    reader.start()
    try:
        done = subprocess.run(command, input=given, stdout=terminal, stderr=subprocess.DEVNULL,
                              env=environment, timeout=SECONDS)
    finally:
        os.close(terminal)
        reader.join()
        os.close(master)
    return b"".join(read), done.returncode


def compare(found, expected, *run):
    """Reports whether a run did what is expected, and prints how it differs."""
    if found == expected:
        return True
    print(f"tests/programs/colours.py: {run}: status {found[1]}, not {expected[1]}, of "
          f"{len(found[0])} bytes for {len(expected[0])}: {found[0][:300]} for {expected[0][:300]}")
    return False


def check(command, colours, others, given=b""):
    """Compares runs of lines in these colours, and with options for other lines."""
    lines, status = piped(command, given)
    yield not has_colours(lines) or compare((lines, status), (b"no colours", status), command)
    expected = painted(lines.splitlines(keepends=True), colours)
    for environment in COLOURED:
        yield compare(shown(command, environment, given), (expected, status), command, environment)
    for environment in PLAIN_ONES:
        yield compare(shown(command, environment, given), (lines, status), command, environment)
    for words in others:
        found = shown([command[0], *words], COLOURED[0], given)
        yield compare(found, piped([command[0], *words], given), words)
        yield not has_colours(found[0]) or compare(found, (b"no colours", found[1]), words)


def check_list(folder):
    """Runs of rtr_list, on standard input and a file, whole and truncated."""
    program, units = built.program("rtr_list"), b"".join(UNITS)
    path = os.path.join(folder, "units")
    with open(path, "wb") as file:
        file.write(units)
    colours = [colour_of(unit) for unit in UNITS]
    others = [[word] for word in ("--json", "--check", "--summary", "--csv", "--vrps", "--help",
                                  "--version", "--other")]
    yield from check([program], colours, others, units)
    yield from check([program, "-"], colours, [["--json", "-"]], units)
    yield from check([program, path], colours, [["--json", path]])
    yield from check([program], [*colours, colours[0]], [], units + UNITS[0] + b"\1\2")
    yield from check([program], [], [])


def check_diff(folder):
    """Runs of rtr_diff, with announcements and withdrawals of all kinds, and with none."""
    program = built.program("rtr_diff")
    old, new, none = (os.path.join(folder, name) for name in ("old", "new", "none"))
    others = [samples.unit("another IPv4 prefix"), aspa(1, 15000), aspa(2, 2)]
    for path, payloads in ((old, PAYLOADS), (new, others), (none, [])):
        with open(path, "wb") as file:
            units = [RESPONSE, *payloads, END]
            file.write(b"".join(b"\2" + unit[1:] for unit in units))
    words = [["--json", old, new], ["--units", old, new], ["--help"], ["--version"], [old]]
    yield from check([program, old, new], [GREEN] * 3 + [RED] * 4, words)
    yield from check([program, new, old], [GREEN] * 4 + [RED] * 3, [])
    yield from check([program, none, none], [], [])
    with open(new, "rb") as file:
        yield from check([program, none, "-"], [GREEN] * 3, [], file.read())


def main():
    with tempfile.TemporaryDirectory() as folder:
        good = [*check_list(folder), *check_diff(folder)]
    if not all(good):
        sys.exit(f"tests/programs/colours.py: FAILED, {good.count(False)} of {len(good)}")


if __name__ == "__main__":
    main()
