"""A small speaker of BGP, which announces routes to a router so that it validates their origins."""
import contextlib
import functools
import ipaddress
import socket
import struct
import threading

AS = 64999
MARKER = b"\xff" * 16
OPEN, UPDATE, KEEPALIVE = 1, 2, 4
HOLD_SECONDS = 90


def message(kind, content=b""):
    """Returns a message (RFC 4271 section 4.1)."""
    return MARKER + struct.pack(">HB", 19 + len(content), kind) + content


def capability(code, content):
    """Returns an optional parameter with a capability (RFC 5492)."""
    return bytes([2, 2 + len(content), code, len(content)]) + content


def opening():
    """Returns our OPEN: both families, AS numbers of four bytes, several paths per prefix."""
    capabilities = capability(1, bytes([0, 1, 0, 1])) + capability(1, bytes([0, 2, 0, 1]))
    capabilities += capability(65, struct.pack(">I", AS))
    capabilities += capability(69, bytes([0, 1, 1, 2, 0, 2, 1, 2]))
    fixed = struct.pack(">BHH4s", 4, 23456, HOLD_SECONDS, bytes([192, 0, 2, 2]))
    return message(OPEN, fixed + bytes([len(capabilities)]) + capabilities)


def attribute(flags, code, content):
    """Returns a path attribute (RFC 4271 section 4.3)."""
    return struct.pack(">BBH", flags | 0x10, code, len(content)) + content


def update(prefix, asn, path):
    """Returns an UPDATE that announces a prefix from an AS, as one of its paths (RFC 7911)."""
    network = ipaddress.ip_network(prefix)
    packed = network.network_address.packed[:(network.prefixlen + 7) // 8]
    reached = struct.pack(">IB", path, network.prefixlen) + packed
    attributes = attribute(0x40, 1, b"\0")
    attributes += attribute(0x40, 2, struct.pack(">BBII", 2, 2, AS, asn))
    if network.version == 4:
        attributes += attribute(0x40, 3, bytes([192, 0, 2, 2]))
    else:
        hop = ipaddress.ip_address("2001:db8::1").packed
        attributes += attribute(0x80, 14, struct.pack(">HBB", 2, 1, 16) + hop + b"\0" + reached)
        reached = b""
    return message(UPDATE, struct.pack(">HH", 0, len(attributes)) + attributes + reached)


class Speaker:
    """A session with a router; its routes stay announced until it is closed."""

    def __init__(self, port, routes):
        self.socket = socket.create_connection(("127.0.0.1", port), 10)
        self.socket.sendall(opening())
        self.receive()
        self.socket.sendall(message(KEEPALIVE))
        paths = {}
        for prefix, asn in sorted(routes):
            paths[prefix] = paths.get(prefix, 0) + 1
            self.socket.sendall(update(prefix, asn, paths[prefix]))
        self.socket.settimeout(HOLD_SECONDS / 4)
        threading.Thread(target=self.drain, daemon=True).start()

    def receive(self):
        """Waits for its OPEN."""
        head = self.socket.recv(19, socket.MSG_WAITALL)
        length, kind = struct.unpack_from(">HB", head, 16)
        if kind != OPEN:
            raise ConnectionError(f"message {kind} in place of OPEN")
        self.socket.recv(length - 19, socket.MSG_WAITALL)

    def drain(self):
        """Reads what the router sends, and keeps the session alive."""
        with contextlib.suppress(OSError):
            open_still = True
            while open_still:
                with contextlib.suppress(TimeoutError):
                    open_still = bool(self.socket.recv(1 << 16))
                self.socket.sendall(message(KEEPALIVE))

    def close(self):
        """Closes the session."""
        with contextlib.suppress(OSError):
            self.socket.shutdown(socket.SHUT_RDWR)
        self.socket.close()


def numbers(prefix):
    """Returns a prefix as numbers: its family, address, length, and the size of addresses."""
    network = ipaddress.ip_network(prefix)
    return network.version, int(network.network_address), network.prefixlen, network.max_prefixlen


def routes_of(origins):
    """Returns routes that test these origins: at the prefix length, at the max length, and beyond
    it."""
    routes = set()
    for origin in origins:
        version, address, length, size = numbers(origin.prefix)
        for longer in (length, origin.max_length, origin.max_length + 1):
            if longer <= size:
                make = ipaddress.IPv4Network if version == 4 else ipaddress.IPv6Network
                routes.add((str(make((address, longer))), origin.asn or AS))
    return frozenset(routes)


@functools.cache
def states(routes, origins):
    """Returns each route with its state by these origins (RFC 6811 section 2); both are frozen
    sets."""
    held = [(*numbers(origin.prefix), origin.max_length, origin.asn) for origin in origins]
    found = set()
    for prefix, asn in routes:
        version, address, length, size = numbers(prefix)
        covering = [
            (longest, of) for family, base, short, _, longest, of in held
            if family == version and short <= length and not (address ^ base) >> (size - short)
        ]
        if any(length <= longest and of == asn for longest, of in covering):
            found.add((prefix, asn, "valid"))
        else:
            found.add((prefix, asn, "invalid" if covering else "not-found"))
    return frozenset(found)
