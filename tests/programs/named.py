#!/usr/bin/env python3
"""Runs the programs that read one input, `rtr_list`, `rtr_clean` and `rtr_make`, on files named by
their last argument. With the same options they print and end as on standard input; a file that
can't be opened or read, and wrong arguments, get their line and status. No program in Rattle calls
an option of its man page unknown. Prints nothing if all is well.

usage: named.py
"""
import os
import re
import subprocess
import sys
import tempfile

TOP = os.path.realpath(os.path.join(os.path.dirname(os.path.abspath(__file__)), "..", ".."))
sys.path.insert(0, os.path.join(TOP, ".ci"))

import built  # noqa: E402  (it lies in another folder)

# The time limit of a run in seconds.
SECONDS = 60

# The last line of a check.
NO_UNITS = "rtr_list: looked at units 0, answers 0\n"

UNITS = os.path.join(TOP, "crates", "rtr_normalise", "stdin")
LIST = os.path.join(TOP, "crates", "rtr_make", "data", "routinator.csv")
CUT = bytes.fromhex("01 04 00 00 00 00 00")
# Captures of each form: pcap of little-endian and big-endian machines, with times in microseconds
# and in nanoseconds, and pcapng; and what is wrong with their first unit.
CAPTURES = {
    "d4c3b2a1 02000400 00000000 00000000": "unit type 195 is not allowed here",
    "a1b2c3d4 00020004 00000000 00000000": "unit type 178 is not allowed here",
    "4d3cb2a1 02000400 00000000 00000000": "unit type 60 is not allowed here",
    "a1b23c4d 00020004 00000000 00000000": "unit type 178 is not allowed here",
    "0a0d0d0a 1c000000 4d3c2b1a 01000000": "unit type 13 is not allowed here",
}
GUISE = "looks like a packet capture: `rtr-pcap FILE` lists the sessions in it"

# For each program a file that it reads, and the options before its name.
PROGRAMS = {
    "rtr_list": (UNITS, [[], ["--json"], ["--check"], ["--summary"], ["--csv"],
                         ["--vrps"]]),
    "rtr_clean": (UNITS, [[], ["--version", "0"], ["--version", "2"]]),
    "rtr_make": (LIST, [["--csv"], ["--csv", "--serial", "7"], ["--session", "1", "--csv"],
                        ["--version", "1", "--csv", "--empty"]]),
}

# Wrong arguments, with FILE for a file that exists, and what is said of them.
ALONE = "--help has to stand alone"
MORE = 'unexpected argument "FILE"'
WRONG = {
    "rtr_list": {
        "FILE FILE": MORE, "FILE --json": '--json has to come before "FILE"', "--help FILE": ALONE,
        "--json --csv FILE": "--csv doesn't go with --json",
        "--check -FILE": 'unknown option "-FILE"',
    },
    "rtr_clean": {
        "FILE FILE": MORE, "FILE --version 0": '--version has to come before "FILE"',
        "--version FILE": '--version: "FILE" isn\'t 0, 1 or 2',
        "--version 3 FILE": '--version: "3" isn\'t 0, 1 or 2', "--help FILE": ALONE,
    },
    "rtr_make": {
        "FILE --csv": '--csv has to come before "FILE"', "--csv FILE FILE": MORE,
        "--csv --serial FILE": '--serial: "FILE" isn\'t a number up to 4294967295',
        "--help FILE": ALONE, "--csv --ignore roas FILE": "--ignore needs --json",
    },
}


def run(words, data=b""):
    """Returns the output, standard error and status of a run."""
    done = subprocess.run(words, input=data, capture_output=True, timeout=SECONDS, check=False)
    return done.stdout, done.stderr.decode(), done.returncode


def compare(name, words, expected, data=b""):
    """Runs a program, and prints how it differs from what is expected."""
    found = run([built.program(name), *words], data)
    if found != expected:
        print(f"tests/programs/named.py: {name} {words}: {found}, not {expected}")
    return found == expected


def same(name):
    """Runs over a file, over its content on standard input, and over that with the name `-`."""
    path, forms = PROGRAMS[name]
    with open(path, "rb") as file:
        content = file.read()
    for words in forms:
        expected = run([built.program(name), *words], content)
        yield compare(name, [*words, path], expected)
        yield compare(name, [*words, "-"], expected, content)


def refused(name, folder):
    """Runs over files that can't be read, and with wrong arguments."""
    path, forms = PROGRAMS[name]
    words, prefix = forms[0], f"{name}: "
    missing = os.path.join(folder, "a\nb")
    shown = missing.replace("\n", "\\n")
    yield compare(name, [*words, missing],
                  (b"", f"{prefix}{shown}: No such file or directory (os error 2)\n", 3))
    reason = f"{prefix}{folder}: read failed: Is a directory (os error 21)"
    yield compare(name, [*words, folder], (b"", reason + "\n", 3))
    for wrong, line in WRONG[name].items():
        expected = b"", f"{prefix}{line}\n".replace("FILE", path), 2
        yield compare(name, wrong.replace("FILE", path).split(), expected)


def known(name):
    """Runs with each option of the man page before words that no program has. The first of them may
    be its value."""
    with open(os.path.join(TOP, "docs", "man", f"{name}.1"), encoding="utf-8") as page:
        items = [line for line in page if line.startswith(".It Fl")]
    for option in sorted(set(re.findall(r"Fl (-\w+)", " ".join(items)))):
        _, line, status = run([built.program(name), f"-{option}", "--none", "--none"])
        if status != 2 or f'"-{option}"' in line or line.startswith("usage: "):
            print(f"tests/programs/named.py: {name} -{option} --none --none: {line}, {status}")
            yield False
        yield True


def faulty(name, folder):
    """Runs over files with faults: a line says by the file's name that it looks like a capture."""
    path = os.path.join(folder, "faulty")
    lines = {CUT: f"{name}: offset 0: unexpected end of input\n"}
    for magic, fault in CAPTURES.items():
        lines[bytes.fromhex(magic)] = f"{name}: offset 0: {fault}\n{name}: {path} {GUISE}\n"
    for content, line in lines.items():
        with open(path, "wb") as file:
            file.write(content)
        for words in PROGRAMS[name][1]:
            output, stderr, status = run([built.program(name), *words, path])
            is_quiet = not output or words == ["--summary"]
            if (stderr.replace(NO_UNITS, ""), status) != (line, 1) or not is_quiet:
                print(f"tests/programs/named.py: {name} {words} {content}: {output}, {stderr}, "
                      f"{status}")
                yield False
            yield True


def main():
    with tempfile.TemporaryDirectory() as folder:
        results = [result for name in PROGRAMS for result in (*same(name), *refused(name, folder))]
        results += [result for name in ("rtr_list", "rtr_clean") for result in faulty(name, folder)]
        results += [result for name in (*PROGRAMS, "rtr_diff", "rtr_validate")
                    for result in known(name)]
    sys.exit(not all(results))


if __name__ == "__main__":
    main()
