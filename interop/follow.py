#!/usr/bin/env python3
"""Follows a cache with the package for Python, and prints each change as it comes, as the clients
in the other languages do with --json: follow.py HOST:PORT --json --version 0|1|2"""
import sys

from rtr_wire import Client, Settings, change_json


def say(error):
    """Prints a failure."""
    print(error, file=sys.stderr, flush=True)


def main():
    """Prints changes until it is stopped."""
    host, _, port = sys.argv[1].rpartition(":")
    settings = Settings(version=int(sys.argv[4]))
    for update in Client(host, int(port), settings, failed=say):
        print("".join(f"{change_json(unit)}\n" for unit in update.changes), end="", flush=True)


if __name__ == "__main__":
    main()
