#!/usr/bin/env python3
"""Runs the program checks.c on the rows of tests/programs/listings.py --findings, and compares its
output.

usage: checks_test.py FILE COMMAND..
"""
import pathlib
import struct
import subprocess
import sys


def main():
    command, rows = sys.argv[2:], pathlib.Path(sys.argv[1]).read_bytes()
    at = count = 0
    while at < len(rows):
        size, length = struct.unpack_from("<2I", rows, at)
        recording, lines = rows[at + 8:at + 8 + size], rows[at + 8 + size:at + 8 + size + length]
        done = subprocess.run(command, input=recording, stdout=subprocess.PIPE, timeout=60)
        if (done.returncode, done.stdout) != (0, lines):
            sys.exit(f"checks_test.py: {recording.hex()}: {done.returncode} {done.stdout}")
        at += 8 + size + length
        count += 1
    if count < 50:
        sys.exit(f"checks_test.py: {count} rows")


main()
