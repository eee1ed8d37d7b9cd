#!/usr/bin/env python3
"""Runs `test_rows` over the rows of this folder (a file for each kind of unit), and prints file,
line and purpose of each that fails.

usage: play.py [FILE..]    with FILE, as aspa, only the rows of these files
       play.py --check     says whether crates/test_rows/stdin is what the files have together
       play.py --write     makes it so

`rt ci` and `rt run` give the program that file. The programs are those of `built.py`. Prints
nothing if all is well.
"""
import os
import subprocess
import sys

HERE = os.path.dirname(os.path.abspath(__file__))
TOP = os.path.realpath(os.path.join(HERE, "..", ".."))
sys.path.insert(0, os.path.join(TOP, ".ci"))

import built  # noqa: E402  (it lies in another folder)

# What each call answers, with the bytes that have a name; and the rows.
WORDS = "words"
FILES = ("ipv4_prefix", "ipv6_prefix", "router_key", "aspa", "end_of_data", "session",
         "error_report", "several", "routes")

WHOLE = os.path.join(TOP, "crates", "test_rows", "stdin")
ORIGIN = "// Made of tests/rows by its `play --write`.\n\n"


def read(path):
    with open(path, encoding="ascii") as file:
        return file.read()


def joined(names):
    """Returns the lines of these files, one file after the other."""
    return "\n".join(read(os.path.join(HERE, name)) for name in (WORDS, *names))


def names_of_rows(names):
    """Returns the name of each row by its line: the file, its place there, and the heading above
    it."""
    found = {}
    for name in names:
        heading, above = "", ""
        for number, line in enumerate(read(os.path.join(HERE, name)).splitlines(), 1):
            if line.startswith("//"):
                heading = f"{heading} {line[3:]}" if above.startswith("//") else line[3:]
            elif line:
                found.setdefault(line, f"tests/rows/{name}:{number}: {heading}")
            above = line
    return found


def play(names):
    """Has each program play the rows. Answers whether all are met."""
    given, named, is_met = joined(names), names_of_rows(names), True
    for program in built.needed("test_rows"):
        ran = subprocess.run([program], input=given, capture_output=True, text=True, check=False)
        if ran.returncode == 0 and not ran.stdout:
            continue
        is_met = False
        for line in ran.stdout.splitlines():
            row = line.removeprefix("    of ")
            print(f"{named.get(row, '')}\n{line}" if row != line else line)
        print(f"{ran.stderr}rows: {program} FAILED")
    return is_met


def main():
    words = sys.argv[1:]
    whole = ORIGIN + joined(FILES)
    if words == ["--write"]:
        with open(WHOLE, "w", encoding="ascii") as file:
            file.write(whole)
        return 0
    if words == ["--check"]:
        if read(WHOLE) != whole:
            print("rows: crates/test_rows/stdin isn't what tests/rows has: tests/rows/play.py "
                  "--write")
            return 1
        return 0
    if not set(words) <= set(FILES):
        print(__doc__)
        return 2
    return 0 if play(words or FILES) else 1


if __name__ == "__main__":
    sys.exit(main())
