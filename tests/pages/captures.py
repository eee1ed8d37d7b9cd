#!/usr/bin/env python3
"""Packet captures that tests make by hand: frames of Ethernet or Linux's cooked form, IPv4 and
IPv6, TCP segments; files of pcap in both byte orders and both units of time, and of pcapng.

usage: captures.py [--check]     writes inspector/sample.pcap; with --check compares it
"""
import ipaddress
import os
import struct
import sys

TOP = os.path.realpath(os.path.join(os.path.dirname(os.path.abspath(__file__)), "..", ".."))
sys.path.insert(0, os.path.join(TOP, "tests", "libraries"))

import sessions  # noqa: E402  (it lies in another folder)

SAMPLE = os.path.join(TOP, "inspector", "sample.pcap")

# Link types, and flags of TCP.
ETHERNET, RAW, COOKED, COOKED_2 = 1, 101, 113, 276
FIN, SYN, RST, ACK = 1, 2, 4, 16

# When the sample begins: 2026-11-02 08:00 UTC.
BEGAN = 1793606400


def segment(source, destination, sequence, payload=b"", flags=ACK, acknowledged=0):
    """Returns an IP packet with a TCP segment. Ends are pairs of an address and a port."""
    (from_host, from_port), (to_host, to_port) = source, destination
    tcp = struct.pack(">HHIIBBHHH", from_port, to_port, sequence % 2 ** 32,
                      acknowledged % 2 ** 32, 5 << 4, flags, 65535, 0, 0) + payload
    sender, receiver = ipaddress.ip_address(from_host), ipaddress.ip_address(to_host)
    if sender.version == 4:
        front = struct.pack(">BBHHHBBH", 0x45, 0, 20 + len(tcp), 1, 0x4000, 64, 6, 0)
    else:
        front = struct.pack(">IHBB", 6 << 28, len(tcp), 6, 64)
    return front + sender.packed + receiver.packed + tcp


def framed(packet, link=ETHERNET, vlan=None):
    """Returns a packet as a link carries it."""
    kind = struct.pack(">H", 0x0800 if packet[0] >> 4 == 4 else 0x86dd)
    if link == ETHERNET:
        tag = b"" if vlan is None else struct.pack(">HH", 0x8100, vlan)
        return bytes(12) + tag + kind + packet
    if link == COOKED:
        return bytes(14) + kind + packet
    return kind + bytes(18) + packet if link == COOKED_2 else packet


def pcap(frames, link=ETHERNET, order="<", ticks=10 ** 6):
    """Returns a pcap file of frames, each with its time in seconds, and optionally with how many of
    its bytes are captured."""
    magic = 0xa1b2c3d4 if ticks == 10 ** 6 else 0xa1b23c4d
    parts = [struct.pack(order + "IHHiIII", magic, 2, 4, 0, 0, 262144, link)]
    for time, frame, *most in frames:
        kept = frame[:most[0]] if most else frame
        parts.append(struct.pack(order + "IIII", int(time), round(time % 1 * ticks) % ticks,
                                 len(kept), len(frame)) + kept)
    return b"".join(parts)


def pcapng(frames, link=ETHERNET, order="<", resolution=9):
    """Returns the same as pcapng, with times in 10 to the power of -resolution seconds."""
    def block(kind, body):
        body += bytes(-len(body) % 4)
        size = struct.pack(order + "I", 12 + len(body))
        return struct.pack(order + "I", kind) + size + body + size

    option = struct.pack(order + "HHB3xHH", 9, 1, resolution, 0, 0)
    blocks = [block(0x0a0d0d0a, struct.pack(order + "IHHq", 0x1a2b3c4d, 1, 0, -1)),
              block(1, struct.pack(order + "HHI", link, 0, 262144) + option)]
    for time, frame in frames:
        ticks = round(time * 10 ** resolution)
        blocks.append(block(6, struct.pack(order + "IIIII", 0, ticks >> 32, ticks % 2 ** 32,
                                           len(frame), len(frame)) + frame))
    return b"".join(blocks)


def connection(router, cache, exchanged, began=BEGAN, link=ETHERNET, first=(1000, 2 ** 32 - 40)):
    """Returns the frames of a connection: each exchange has the seconds since the start, whether
    the router sends it, and its bytes, in segments of at most 1,400 bytes."""
    next_byte = {router: first[0], cache: first[1]}
    frames = [(began, framed(segment(router, cache, first[0] - 1, flags=SYN), link)),
              (began + 0.001, framed(segment(cache, router, first[1] - 1, flags=SYN | ACK), link))]
    for seconds, is_router, sent in exchanged:
        source, destination = (router, cache) if is_router else (cache, router)
        for offset in range(0, len(sent), 1400):
            piece = sent[offset:offset + 1400]
            packet = segment(source, destination, next_byte[source], piece)
            frames.append((began + seconds + offset / 1e7, framed(packet, link)))
            next_byte[source] += len(piece)
    return frames


# ---- the sample

def ipv4(text, most, asn, flags=1):
    """Returns an IPv4 prefix of version 1."""
    net = ipaddress.ip_interface(text)
    return struct.pack(">BBHIBBBB4sI", 1, 4, 0, 20, flags, net.network.prefixlen, most, 0,
                       net.ip.packed, asn)


def ipv6(text, most, asn, flags=1):
    """Returns an IPv6 prefix of version 1."""
    net = ipaddress.ip_interface(text)
    return struct.pack(">BBHIBBBB16sI", 1, 6, 0, 32, flags, net.network.prefixlen, most, 0,
                       net.ip.packed, asn)


def key(asn, identifier, info):
    """Returns a router key of version 1."""
    front = struct.pack(">BBBBI", 1, 9, 1, 0, 32 + len(info))
    return front + identifier + struct.pack(">I", asn) + info


def end_of_data(session, serial):
    """Returns an end of data with the usual times."""
    times = struct.pack(">IIII", serial, 3600, 600, 7200)
    return sessions.unit(1, sessions.END, session, times)


def sample():
    """Returns a session: a reset query and its answer, a notify, a serial query and its changes, a
    serial query without changes."""
    router, cache, session = ("192.0.2.10", 40000), ("192.0.2.1", 323), 4660
    response = sessions.unit(1, sessions.RESPONSE, session, b"")
    table = [ipv4(f"198.51.{index}.0/24", 24 + index % 4, 64496 + index % 16)
             for index in range(100)]
    table += [ipv4("203.0.113.0/24", 24, 65551), ipv4("192.0.2.0/24", 26, 65536)]
    table += [ipv6(f"2001:db8:{index:x}::/48", 48 + index % 5, 64496 + index % 16)
              for index in range(48)]
    table += [key(64496, bytes(range(20)), bytes(range(91)))]
    changes = [ipv4("203.0.113.0/24", 24, 65551, 0), ipv4("203.0.113.0/24", 25, 65551),
               ipv6("2001:db8:ff::/48", 48, 64511)]

    def serial_query(serial):
        return sessions.unit(1, sessions.QUERY, session, struct.pack(">I", serial))

    exchanged = [
        (0.002, True, sessions.unit(1, sessions.RESET_QUERY, 0, b"")),
        (0.011, False, response + b"".join(table) + end_of_data(session, 7)),
        (95.5, False, sessions.unit(1, sessions.NOTIFY, session, struct.pack(">I", 8))),
        (95.502, True, serial_query(7)),
        (95.509, False, response + b"".join(changes) + end_of_data(session, 8)),
        (3695.6, True, serial_query(8)),
        (3695.608, False, response + end_of_data(session, 8)),
    ]
    return pcap(connection(router, cache, exchanged))


def main():
    content = sample()
    if sys.argv[1:] == ["--check"]:
        with open(SAMPLE, "rb") as file:
            if file.read() != content:
                sys.exit(f"captures.py: {SAMPLE} isn't what this writes")
    else:
        with open(SAMPLE, "wb") as file:
            file.write(content)


if __name__ == "__main__":
    main()
