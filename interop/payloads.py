"""The generated list of payloads, its changes, and the files in which caches read it.

All expected values of a run are computed here, from the list, without the library.
"""
import base64
import hashlib
import ipaddress
import json
import random
import struct
import time
from typing import NamedTuple

SEED = 8210

# Units by their types (RFC 8210 section 5).
NOTIFY, SERIAL_QUERY, RESET_QUERY, RESPONSE, IPV4, IPV6 = 0, 1, 2, 3, 4, 6
END, RESET, ROUTER_KEY, REPORT, ASPA = 7, 8, 9, 10, 11

# The times of an end of data that RFC 8210 section 6 recommends.
TIMINGS = (3600, 600, 7200)


class Origin(NamedTuple):
    """An origin: the prefix, as text, up to a length, and the AS that may announce it."""
    prefix: str
    max_length: int
    asn: int

    smallest_version = 0

    def order(self):
        """Returns the key of the order of payloads."""
        network = ipaddress.ip_network(self.prefix)
        address = int(network.network_address)
        return (0, network.version, address, network.prefixlen, self.max_length, self.asn)

    def shown(self):
        """Returns its fields in `rtr_diff --json`."""
        network = ipaddress.ip_network(self.prefix)
        return {
            "kind": f"ipv{network.version}_prefix",
            "prefix": str(network.network_address),
            "prefix_length": network.prefixlen,
            "max_length": self.max_length,
            "asn": self.asn,
        }

    def unit(self, version, flags):
        """Returns its unit (RFC 8210 sections 5.6 and 5.7)."""
        network = ipaddress.ip_network(self.prefix)
        kind = IPV4 if network.version == 4 else IPV6
        lengths = bytes([flags, network.prefixlen, self.max_length, 0])
        rest = lengths + network.network_address.packed + struct.pack(">I", self.asn)
        return struct.pack(">BBHI", version, kind, 0, 8 + len(rest)) + rest


class RouterKey(NamedTuple):
    """A router key: its identifier and its info as bytes, and the AS whose routers have it."""
    identifier: bytes
    asn: int
    info: bytes

    smallest_version = 1

    def order(self):
        """Returns the key of the order of payloads."""
        return (1, self.identifier, self.asn, self.info)

    def shown(self):
        """Returns its fields in `rtr_diff --json`."""
        return {
            "kind": "router_key",
            "subject_key_identifier": self.identifier.hex(),
            "asn": self.asn,
            "subject_public_key_info": unpadded(self.info),
        }

    def unit(self, version, flags):
        """Returns its unit (RFC 8210 section 5.10)."""
        rest = self.identifier + struct.pack(">I", self.asn) + self.info
        return struct.pack(">BBBBI", version, ROUTER_KEY, flags, 0, 8 + len(rest)) + rest


class Authorization(NamedTuple):
    """An ASPA: a customer and the providers that it authorizes."""
    customer: int
    providers: tuple

    smallest_version = 2

    def order(self):
        """Returns the key of the order of payloads."""
        return (2, self.customer, self.providers)

    def shown(self):
        """Returns its fields in `rtr_diff --json`."""
        return {
            "kind": "aspa",
            "customer_asn": self.customer,
            "provider_asns": list(self.providers),
        }

    def unit(self, version, flags):
        """Returns its unit (as in the Rust crate)."""
        numbers = (self.customer,) + (self.providers if flags else ())
        rest = struct.pack(f">{len(numbers)}I", *numbers)
        return struct.pack(">BBBBI", version, ASPA, flags, 0, 8 + len(rest)) + rest


class Change(NamedTuple):
    """A payload that is announced, or withdrawn."""
    announce: bool
    payload: tuple

    def line(self):
        """Returns its line of `rtr_diff --json`, with fields sorted by name."""
        action = "announce" if self.announce else "withdraw"
        shown = dict(self.payload.shown(), action=action)
        if not self.announce and "provider_asns" in shown:
            shown["provider_asns"] = []
        return as_line(shown)


def as_line(fields):
    """Returns fields as a line of JSON, sorted by name."""
    return json.dumps(fields, sort_keys=True)


def payload_of(fields):
    """Returns the payload of these fields of a line of `rtr_diff --json`."""
    if fields["kind"] == "router_key":
        info = fields["subject_public_key_info"]
        info = base64.urlsafe_b64decode(info + "=" * (-len(info) % 4))
        identifier = bytes.fromhex(fields["subject_key_identifier"])
        return RouterKey(identifier, fields["asn"], info)
    if fields["kind"] == "aspa":
        return Authorization(fields["customer_asn"], tuple(fields["provider_asns"]))
    network = ipaddress.ip_network((fields["prefix"], fields["prefix_length"]))
    return Origin(str(network), fields["max_length"], fields["asn"])


def unpadded(content):
    """Returns base64 as in RFC 4648 section 5, without padding."""
    return base64.urlsafe_b64encode(content).decode().rstrip("=")


def in_version(payloads, version):
    """Returns the payloads that this protocol version has."""
    return {payload for payload in payloads if payload.smallest_version <= version}


def changes(old, new):
    """Returns the changes from the old set to the new one; an ASPA replaces that of its
    customer."""
    replaced = {payload.customer for payload in new if isinstance(payload, Authorization)}
    gone = {
        payload for payload in old - new
        if not (isinstance(payload, Authorization) and payload.customer in replaced)
    }
    return {Change(True, payload) for payload in new - old} | {Change(False, p) for p in gone}


def end_of_data(version, session, serial, timings=TIMINGS):
    """Returns an end of data (RFC 8210 section 5.8)."""
    rest = struct.pack(">I", serial) + (struct.pack(">3I", *timings) if version else b"")
    return struct.pack(">BBHI", version, END, session, 8 + len(rest)) + rest


def sequence(payloads, version, session, serial, timings=TIMINGS):
    """Returns the units that announce the payloads in their order, and an end of data."""
    ordered = sorted(in_version(payloads, version), key=lambda payload: payload.order())
    units = b"".join(payload.unit(version, 1) for payload in ordered)
    return units + end_of_data(version, session, serial, timings)


# ---- the generated list

def origins(chance, count, version):
    """Returns this many origins of a family, some with the same prefix, AS or max length."""
    size = 32 if version == 4 else 128
    base = "10.0.0.0" if version == 4 else "2001:db8::"
    lengths = [8, 16, 20, 22, 24, 28, 32] if version == 4 else [32, 40, 48, 64, 128]
    first = int(ipaddress.ip_address(base))
    found = set()
    while len(found) < count:
        length = chance.choice(lengths)
        host = chance.getrandbits(24) if version == 4 else chance.getrandbits(96)
        address = (first + host) >> (size - length) << (size - length)
        prefix = str(ipaddress.ip_network((address, length)))
        for _ in range(chance.choice([1, 1, 1, 2, 3])):
            longest = chance.choice([length, length, min(size, length + 4), size])
            asn = chance.choice([64500, 64501, 65551, chance.getrandbits(32)])
            found.add(Origin(prefix, longest, asn))
    return found


def edges():
    """Returns origins at the ends of their ranges."""
    return {
        Origin("0.0.0.0/1", 1, 64500),
        Origin("128.0.0.0/1", 32, 4294967295),
        Origin("203.0.113.255/32", 32, 0),
        Origin("8000::/1", 1, 64500),
        Origin("2001:db8:ffff:ffff:ffff:ffff:ffff:ffff/128", 128, 4294967294),
    }


# The curve P-256, whose keys routers have (RFC 8608): its field, its coefficient and its base.
FIELD = 2**256 - 2**224 + 2**192 + 2**96 - 1
BASE = (
    0x6B17D1F2E12C4247F8BCE6E563A440F277037D812DEB33A0F4A13945D898C296,
    0x4FE342E2FE1A7F9B8EE7EB4A7C0F9E162BCE33576B315ECECBB6406837BF51F5,
)
KEY_HEAD = bytes.fromhex("3059301306072a8648ce3d020106082a8648ce3d030107034200")


def added(left, right):
    """Returns the sum of two points of the curve, neither of which is the other's negative."""
    if left == right:
        slope = (3 * left[0] ** 2 - 3) * pow(2 * left[1], -1, FIELD)
    else:
        slope = (right[1] - left[1]) * pow(right[0] - left[0], -1, FIELD)
    first = (slope**2 - left[0] - right[0]) % FIELD
    return first, (slope * (left[0] - first) - left[1]) % FIELD


def router_keys(count):
    """Returns this many router keys from points of the curve: 2, 3, 4 .. times its base."""
    point, found = BASE, []
    for index in range(count):
        point = added(point, BASE)
        public = b"\4" + point[0].to_bytes(32, "big") + point[1].to_bytes(32, "big")
        identifier = hashlib.sha1(public).digest()
        found.append(RouterKey(identifier, 64500 + index % 3, KEY_HEAD + public))
    return found


def made_up():
    """Returns the list before and after the change: some hundred origins, router keys and ASPAs."""
    chance = random.Random(SEED)
    first = origins(chance, 300, 4) | origins(chance, 200, 6) | edges()
    ordered = sorted(first, key=lambda origin: origin.order())
    gone = set(chance.sample(ordered, 40))
    come = (origins(chance, 30, 4) | origins(chance, 20, 6)) - first
    keys = router_keys(10)
    aspas = [
        Authorization(65000 + index, tuple(range(64600 + index, 64603 + 2 * index)))
        for index in range(10)
    ]
    replaced = Authorization(aspas[9].customer, (1, 2, 4294967295))
    old = first | set(keys[:8]) | set(aspas)
    return old, (first - gone) | come | set(keys[3:]) | set(aspas[2:9]) | {replaced}


def varied(payloads, turn):
    """Returns the list after one more small change: the turn's own origins are added, those of
    others removed."""
    network = ipaddress.ip_network((0xC6120000 + turn * 256 % 0x20000, 24))
    longer = ipaddress.ip_network(((0x20010002 << 96) + (turn << 64), 64))
    return set(payloads) | {Origin(str(network), 24, turn), Origin(str(longer), 128, turn)}


# ---- files that caches read

def stayrtr_json(payloads):
    """Returns the JSON that rpki-client writes and stayrtr reads."""
    ordered = sorted(payloads, key=lambda payload: payload.order())
    wholes = {"roas": [], "bgpsec_keys": []}
    aspas = []
    for payload in ordered:
        if isinstance(payload, Origin):
            wholes["roas"].append({
                "prefix": payload.prefix, "maxLength": payload.max_length,
                "asn": payload.asn, "ta": "made up", "expires": int(time.time()) + 86400,
            })
        elif isinstance(payload, RouterKey):
            wholes["bgpsec_keys"].append({
                "asn": payload.asn, "ski": payload.identifier.hex().upper(),
                "pubkey": base64.b64encode(payload.info).decode(),
                "ta": "made up", "expires": int(time.time()) + 86400,
            })
        else:
            aspas.append({
                "customer_asid": payload.customer, "providers": list(payload.providers),
                "expires": int(time.time()) + 86400,
            })
    wholes["provider_authorizations"] = {"ipv4": aspas, "ipv6": aspas}
    wholes["metadata"] = {"buildtime": time.strftime("%Y-%m-%dT%H:%M:%SZ", time.gmtime())}
    return json.dumps(wholes, indent=1)


def slurm(payloads):
    """Local assertions (RFC 8416) of the origins and the router keys."""
    prefixes, keys = [], []
    for payload in sorted(payloads, key=lambda payload: payload.order()):
        if isinstance(payload, Origin):
            prefixes.append({"asn": payload.asn, "prefix": payload.prefix,
                             "maxPrefixLength": payload.max_length})
        elif isinstance(payload, RouterKey):
            keys.append({"asn": payload.asn, "SKI": unpadded(payload.identifier),
                         "routerPublicKey": unpadded(payload.info)})
    return json.dumps({
        "slurmVersion": 1,
        "validationOutputFilters": {"prefixFilters": [], "bgpsecFilters": []},
        "locallyAddedAssertions": {"prefixAssertions": prefixes, "bgpsecAssertions": keys},
    }, indent=1)


def plain_lines(payloads):
    """Returns the origins, a line each: prefix, max length, AS."""
    ordered = sorted(payloads, key=lambda payload: payload.order())
    return "".join(f"{o.prefix} {o.max_length} {o.asn}\n" for o in ordered if isinstance(o, Origin))
