"""Follows several caches, the first by preference, and prints their data: prefer.py HOST:PORT.."""
import sys

from rtr_wire import Client, follow


def prefer(addresses: "list[str]") -> None:
    """Prints what the data are, and whose, as long as the program runs."""
    clients = [Client(host, int(port)) for host, _, port in
               (address.rpartition(":") for address in addresses)]
    updates = follow(clients, failed=lambda client, error: print(f"{client.host}: {error}"))
    for client, update in updates:
        print(f"{client.host}: {update.data}, {len(update.changes)} changes", flush=True)


if __name__ == "__main__":
    prefer(sys.argv[1:])
