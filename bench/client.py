"""Follows a cache with the package for Python, which clients.py measures: prints the lines of
rtr_diff for changes, and on standard error how many payloads there are.

usage: client.py HOST:PORT [--once]
"""
import sys

from rtr_wire import Client, Settings, change_line


def failed(error):
    """Prints why a connection ended."""
    print(error, file=sys.stderr)


def main():
    """Follows the cache until it is stopped, or with --once until there are data."""
    host, _, port = sys.argv[1].rpartition(":")
    for update in Client(host, int(port), Settings(1), failed=failed):
        print("".join(f"{change_line(unit)}\n" for unit in update.changes), end="", flush=True)
        print(f"serial {update.data.serial}: {len(update.data)} payloads", file=sys.stderr)
        if len(sys.argv) > 2:
            break


if __name__ == "__main__":
    main()
