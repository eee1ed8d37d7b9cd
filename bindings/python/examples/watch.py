"""Follows a cache, and prints what changes: watch.py HOST PORT [UPDATES]"""
import itertools
import sys
from typing import Optional

from rtr_wire import Client, IPv4Prefix, IPv6Prefix, Update


def show(update: Update) -> None:
    """Prints the announced and withdrawn units, and how many payloads there are now."""
    for unit in update.changes:
        if isinstance(unit, (IPv4Prefix, IPv6Prefix)):
            sign = "+" if unit.announce else "-"
            print(f"{sign} {unit.prefix}-{unit.max_length} AS{unit.asn}")
    if update.data is not None:
        print(f"serial number {update.data.serial}, payloads: {len(update.data)}")


def watch(host: str, port: int, updates: Optional[int] = None) -> None:
    """Shows this many updates, or all."""
    client = Client(host, port, failed=lambda error: print(error, file=sys.stderr))
    for update in itertools.islice(client, updates):
        show(update)


if __name__ == "__main__":
    watch(sys.argv[1], int(sys.argv[2]), *map(int, sys.argv[3:4]))
