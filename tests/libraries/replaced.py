#!/usr/bin/env python3
"""Tests what a cache makes of the file that it follows while another one is renamed to its path.

usage: replaced.py CACHE..    a command, to which the name of a file and an address are added

Before rename swaps the name, Linux takes the last link of the file that it replaces, and sets the
time of its inode: here the path leads through a descriptor to a file without a link, and so it
stays. The cache doesn't read that file again, but does when it changes.
"""
import os
import pathlib
import re
import subprocess
import sys
import tempfile
import time

# An end of data of session 4660 (RFC 8210 section 5.8), up to the intervals, and with them.
START = bytes.fromhex("01 07 12 34 00 00 00 18 00 00 00 01")
END = START + bytes.fromhex("00 00 0e 10 00 00 02 58 00 00 1c 20")
CUT = r"unexpected end of input"
PATIENCE = 120  # seconds to wait for anything expected
LOOKS = 1.5     # seconds in which each cache checks its file more than once


def says(cache, log, text):
    """Waits until the log has this text."""
    ends = time.monotonic() + PATIENCE
    while not re.search(text, log.read_text()):
        assert cache.poll() is None, cache.returncode
        assert time.monotonic() < ends, log.read_text()
        time.sleep(0.02)


def play(cache, log, old, file):
    """The file is refused, loses its link, and changes."""
    says(cache, log, CUT)
    old.unlink()
    time.sleep(LOOKS)
    os.pwrite(file.fileno(), END, 0)
    says(cache, log, "session 4660 serial 1: 0 payloads")
    found = len(re.findall(CUT, log.read_text()))
    assert found == 1, f"read {found} times: {log.read_text()}"


def main(command):
    with tempfile.TemporaryDirectory() as name:
        folder = pathlib.Path(name)
        old, path, log = folder / "old", folder / "data", folder / "log"
        with open(old, "w+b", buffering=0) as file, open(log, "wb") as errors:
            file.write(START)
            path.symlink_to(f"/proc/{os.getpid()}/fd/{file.fileno()}")
            with subprocess.Popen([*command, str(path), "--listen", "127.0.0.1:0"],
                                  stderr=errors) as cache:
                try:
                    play(cache, log, old, file)
                finally:
                    cache.terminate()


if __name__ == "__main__":
    main(sys.argv[1:] or sys.exit(__doc__))
