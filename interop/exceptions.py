"""Local exceptions: the same list and the same SLURM file (RFC 8416) in stayrtr and in `rtr_make`
leave the same payloads, and those that the RFC says."""
import base64
import json
import os

import caches
import payloads
import programs
import recorder
import theirs
from payloads import Change, Origin, RouterKey
from results import Pair

PART = "local exceptions"

# Two subject key identifiers, and the info of a key.
FIRST, SECOND = bytes.fromhex("fbefbefff0") * 4, bytes(range(20))
INFO = bytes.fromhex("3059301306072a8648ce3d020106082a8648ce3d030107034200") + b"\x04" * 65

# What a validator prints, with payloads that each filter of the example matches, and others.
LISTED = [
    Origin("192.0.2.0/24", 24, 64511), Origin("192.0.2.128/25", 25, 64511),
    Origin("192.0.0.0/16", 24, 64511), Origin("10.0.0.0/8", 8, 64496),
    Origin("198.51.100.0/24", 24, 64497), Origin("198.51.100.128/26", 26, 64497),
    Origin("198.51.100.0/24", 24, 64511), Origin("203.0.113.0/24", 24, 64497),
    Origin("2001:db8::/32", 32, 64511),
    RouterKey(FIRST, 64496, INFO), RouterKey(SECOND, 64496, INFO),
    RouterKey(FIRST, 64511, INFO), RouterKey(SECOND, 64511, INFO),
    RouterKey(SECOND, 64497, INFO),
]

# The examples of RFC 8416 sections 3.3.1, 3.3.2, 3.4.1 and 3.4.2, which section 3.5 has in one
# file, with an identifier and a key where the RFC has "<some base64 SKI>" and
# "<some base64 public key>".
PREFIX_FILTERS = [
    {"prefix": "192.0.2.0/24", "comment": "All VRPs encompassed by prefix"},
    {"asn": 64496, "comment": "All VRPs matching ASN"},
    {"prefix": "198.51.100.0/24", "asn": 64497,
     "comment": "All VRPs encompassed by prefix, matching ASN"},
]
KEY_FILTERS = [
    {"asn": 64496, "comment": "All keys for ASN"},
    {"SKI": payloads.unpadded(FIRST), "comment": "Key matching Router SKI"},
    {"asn": 64497, "SKI": payloads.unpadded(SECOND),
     "comment": "Key for ASN 64497 matching Router SKI"},
]
PREFIXES = [
    {"asn": 64496, "prefix": "198.51.100.0/24", "comment": "My other important route"},
    {"asn": 64496, "prefix": "2001:db8::/32", "maxPrefixLength": 48,
     "comment": "My other important de-aggregated routes"},
]
KEYS = [
    {"asn": 64496, "comment": "My known key for my important ASN",
     "SKI": payloads.unpadded(FIRST), "routerPublicKey": payloads.unpadded(INFO)},
]

# What the filters leave, and what the assertions add.
LEFT = [
    Origin("192.0.0.0/16", 24, 64511), Origin("198.51.100.0/24", 24, 64511),
    Origin("203.0.113.0/24", 24, 64497), Origin("2001:db8::/32", 32, 64511),
]
LEFT_KEYS = [RouterKey(SECOND, 64511, INFO)]
ADDED = [Origin("198.51.100.0/24", 24, 64496), Origin("2001:db8::/32", 48, 64496)]
ADDED_KEYS = [RouterKey(FIRST, 64496, INFO)]

# The scenes: the four arrays of the file, and the payloads that it leaves of LISTED.
SCENES = {
    "the example of section 3.5":
        ((PREFIX_FILTERS, KEY_FILTERS, PREFIXES, KEYS), LEFT + LEFT_KEYS + ADDED + ADDED_KEYS),
    "the filters of the example": ((PREFIX_FILTERS, KEY_FILTERS, [], []), LEFT + LEFT_KEYS),
    "the assertions of the example":
        (([], [], PREFIXES, KEYS), [*LISTED, *ADDED, *ADDED_KEYS]),
    "no entries": (([], [], [], []), LISTED),
    "an assertion that a filter of the same file matches":
        (([{"prefix": "192.0.2.0/24"}], [], [{"asn": 1, "prefix": "192.0.2.0/24"}], []),
         [p for p in LISTED if not (isinstance(p, Origin) and p.prefix.startswith("192.0.2."))]
         + [Origin("192.0.2.0/24", 24, 1)]),
    "a filter of all IPv4":
        (([{"prefix": "0.0.0.0/0"}], [], [], []),
         [p for p in LISTED if not isinstance(p, Origin) or ":" in p.prefix]),
    "an assertion that is listed":
        (([], [], [{"asn": 64496, "prefix": "10.0.0.0/8", "maxPrefixLength": 8}], []), LISTED),
}


def slurm(prefix_filters, key_filters, prefixes, keys):
    """Returns a SLURM file (RFC 8416 section 3.2)."""
    return json.dumps({
        "slurmVersion": 1,
        "validationOutputFilters": {
            "prefixFilters": prefix_filters, "bgpsecFilters": key_filters,
        },
        "locallyAddedAssertions": {"prefixAssertions": prefixes, "bgpsecAssertions": keys},
    }, indent=1)


def padded(entry):
    """Returns the entry with the base64 of RFC 4648 section 4, with padding, which stayrtr
    reads."""
    return {name: base64.b64encode(base64.urlsafe_b64decode(value + "==")).decode()
            if name in ("SKI", "routerPublicKey") else value for name, value in entry.items()}


class SlurmStayRTR(caches.StayRTR):
    """stayrtr with a SLURM file."""

    exceptions = ""

    def start(self, words):
        """Starts it with the file."""
        path = self.keep("slurm.json", self.exceptions)
        return super().start(lambda port: [*words(port), "-slurm", path])


def lines_of(units):
    """Returns the payloads among units, as a set of lines."""
    return set(theirs.payload_lines(units))


def made_with_slurm(cache):
    """Returns what `rtr_make` makes of the list and the SLURM file of a cache."""
    with open(os.path.join(cache.folder, cache.json), "rb") as file:
        listed = file.read()
    words = ["rtr_make", "--json", "--version", str(cache.version), "--empty"]
    path = os.path.join(cache.folder, "slurm.json")
    status, units, errors = programs.run([*words, "--slurm", path], listed)
    if status:
        raise ValueError(f"rtr_make --slurm ends with {status}: {errors}")
    return units


def sent_by(cache, exceptions):
    """Returns what stayrtr sends for the list and this SLURM file."""
    cache.exceptions = exceptions
    with cache.serve(LISTED), recorder.Session(cache.port, cache.folder, "all") as session:
        return session.ask(recorder.reset_query(1)).sequence()


def compare(results, folder):
    """Serves each scene by stayrtr, and compares its payloads and ours with those that RFC 8416
    leaves. Where the file has keys stayrtr also serves it with the base64 that it reads."""
    names = (caches.StayRTR.name + " -slurm", "v1", caches.StayRTR.release())
    with Pair(results, PART, *names) as pair:
        for number, (what, (arrays, left)) in enumerate(SCENES.items()):
            cache = SlurmStayRTR(os.path.join(folder, f"slurm{number}"), 1)
            expected = {Change(True, payload).line() for payload in left}
            if arrays[1] or arrays[3]:
                others = [[padded(entry) for entry in array] for array in arrays]
                sent = sent_by(cache, slurm(*others))
                pair.equal(f"what it sends by padded base64, {what}", lines_of(sent), expected)
            sent = sent_by(cache, slurm(*arrays))
            pair.equal(f"what it sends, {what}", lines_of(sent), expected)
            pair.equal(f"rtr_make --slurm, {what}", lines_of(made_with_slurm(cache)), expected)
