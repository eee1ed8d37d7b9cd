#!/usr/bin/env python3
"""Runs `rtr_make` over changed lists, and compares the payloads it reads with those of short
readers.

usage: mutants.py [PROGRAM]..

Without PROGRAM it runs those of `built.py`. The lists are the samples of validators in
`crates/rtr_make/data`, each cut off after each of its bytes, each with a byte changed, left out or
put in, and lists in CSV whose header has its columns in all orders. Where the program ends with
status 0, its payloads have to be those that Python's modules `csv` and `json` read of the same
bytes, and for a list that was cut off only payloads of the whole list. Prints nothing if all is
well.
"""
import base64
import csv
import io
import ipaddress
import itertools
import json
import os
import random
import subprocess
import sys
from concurrent.futures import ThreadPoolExecutor

TOP = os.path.realpath(os.path.join(os.path.dirname(os.path.abspath(__file__)), "..", ".."))
sys.path.insert(0, os.path.join(TOP, ".ci"))

import built  # noqa: E402  (it lies in another folder)

SAMPLES = os.path.join(TOP, "crates", "rtr_make", "data")

# The time limit of a run in seconds.
SECONDS = 60

# How many changed bytes are tried of each sample, and at how many places at most each is cut off.
CHANGES = 150
CUTS = 300

# The most frequent replacements of a byte.
LIKELY = b'0123456789AS,."/:{}[]+-_ \n\r\x00\xffnutx'


# ---- the readers

def plain(name):
    return name.lower().replace("_", "").replace("-", "").replace(" ", "")


def number(text):
    asn = str(text)
    return int(asn[2:] if asn[:2] in ("AS", "as") else asn)


def origin(asn, prefix, longest):
    net = ipaddress.ip_network(prefix)
    return ("origin", number(asn), str(net),
            net.prefixlen if longest in ("", None) else int(longest))


def by_csv(text):
    """Returns the payloads of a list in CSV, by the names in its header or else by column."""
    lines = io.StringIO(text.decode("utf-8-sig"), newline="")
    rows = [row for row in csv.reader(lines, strict=True) if row]
    head = ["asn", "prefix", "maxlength"]
    if rows and plain(rows[0][0]) == "asn":
        head = ["prefix" if plain(name) == "ipprefix" else
                "maxlength" if plain(name).startswith("max") else plain(name)
                for name in rows.pop(0)]
    return {origin(row[0], row[head.index("prefix")], (row + [""])[head.index("maxlength")])
            for row in rows}


ARRAYS = ("roas", "bgpseckeys", "routerkeys", "aspas", "aspa", "ipv4", "ipv6")
LONGEST = ("maxlength", "maxlen", "maxprefixlength", "maxprefixlen")


def by_json(text):
    """Returns the payloads of an object in JSON. An object is the list of its members here."""
    found = set()
    for name, value in json.loads(text.decode("utf-8-sig"), object_pairs_hook=tuple):
        lists = list(value or []) if plain(name) == "providerauthorizations" else [(name, value)]
        for name, items in lists:
            for item in items or [] if plain(name) in ARRAYS else []:
                found.add(payload_of(plain(name), item))
    return found


def payload_of(array, item):
    if array == "aspa" and isinstance(item[1], tuple | list) and not isinstance(item[0], tuple):
        return ("aspa", number(item[0]), numbers(item[1]))
    parts = {plain(name): value for name, value in item}
    if array == "roas":
        longest = next((parts[name] for name in parts if name in LONGEST), None)
        prefix = parts["ipprefix"] if "ipprefix" in parts else parts["prefix"]
        return origin(parts["asn"], prefix, longest)
    if array in ("bgpseckeys", "routerkeys"):
        key = next(parts[name] for name in ("pubkey", "routerpublickey", "spki") if name in parts)
        return ("key", number(parts["asn"]), identifier(parts["ski"]), bits(key))
    customer = parts["customerasid"] if "customerasid" in parts else parts["customer"]
    return ("aspa", number(customer), numbers(parts["providers"]))


def numbers(asns):
    return tuple(sorted({number(asn) for asn in asns}))


def bits(text):
    text = text.replace("-", "+").replace("_", "/")
    return base64.b64decode(text + "=" * (-len(text) % 4), validate=True)


def identifier(text):
    return bytes.fromhex(text) if len(text) == 40 else bits(text)


# ---- the program

def payloads(units):
    """Returns the payloads that units of version 2 announce (RFC 8210 sections 5.6, 5.7 and
    5.10)."""
    found, at = set(), 0
    while at < len(units):
        kind, size = units[at + 1], int.from_bytes(units[at + 4:at + 8], "big")
        unit, at = units[at:at + size], at + size
        asns = [int.from_bytes(unit[offset:offset + 4], "big") for offset in range(8, size - 3, 4)]
        if kind in (4, 6):
            net = ipaddress.ip_network((unit[12:-4], unit[9]))
            found.add(("origin", int.from_bytes(unit[-4:], "big"), str(net), unit[10]))
        elif kind == 9:
            found.add(("key", int.from_bytes(unit[28:32], "big"), unit[8:28], unit[32:]))
        elif kind == 11:
            found.add(("aspa", asns[0], tuple(asns[1:])))
    return found


def run(program, form, text):
    """Returns the payloads that the program reads from a text at a time before all expire, or None
    if it refuses it."""
    done = subprocess.run([program, form, "--empty", "--at", "0"], input=text, capture_output=True,
                          timeout=SECONDS, check=False)
    if done.returncode not in (0, 1) or bool(done.stdout) != (done.returncode == 0):
        raise AssertionError(f"status {done.returncode}: {done.stderr}")
    return payloads(done.stdout) if done.returncode == 0 else None


def wrong(program, form, text, whole):
    """Returns the error of a run, or None. `whole` has the payloads of a text before it was cut
    off."""
    try:
        got = run(program, form, text)
    except AssertionError as error:
        return str(error)
    if got is None:
        return None
    if whole is not None and not got <= whole:
        return f"cut off: {got - whole}"
    try:
        expected = (by_csv if form == "--csv" else by_json)(text)
    except (ValueError, KeyError, IndexError, TypeError, AttributeError, StopIteration,
            csv.Error) as error:
        return f"it takes {got}, Python {error!r}"
    return None if got == expected else f"it takes {got}, Python {expected}"


# ---- what is tried

def changed(text, choice):
    at = choice.randrange(len(text))
    byte = bytes([choice.choice(LIKELY) if choice.random() < 0.8 else choice.randrange(256)])
    return choice.choice([text[:at] + byte + text[at + 1:], text[:at] + text[at + 1:],
                          text[:at] + byte + text[at:]])


def orders():
    """Lists with their columns in all orders, with or without an extra column."""
    for count in (2, 3, 4):
        for columns in itertools.permutations(("IP Prefix", "Max Length", "Trust Anchor", "Min"),
                                              count):
            fields = {"IP Prefix": "192.0.2.0/24", "Max Length": "28", "Trust Anchor": "25",
                      "Min": "26"}
            row = ",".join(fields[name] for name in columns)
            yield f"ASN,{','.join(columns)}\nAS65551,{row}\n".encode()


def tried():
    """Yields the formats and texts to run, each with the payloads of the whole text if it is cut
    off."""
    choice = random.Random(1)
    for name in sorted(os.listdir(SAMPLES)):
        form = "--" + name.rsplit(".", 1)[1]
        if form not in ("--csv", "--json"):
            continue
        with open(os.path.join(SAMPLES, name), "rb") as file:
            text = file.read()
        whole = (by_csv if form == "--csv" else by_json)(text)
        yield form, text, None
        places = range(len(text))
        for at in places if len(text) <= CUTS else sorted(choice.sample(places, CUTS)):
            yield form, text[:at], whole
        for _ in range(CHANGES):
            yield form, changed(text, choice), None
    for text in orders():
        yield "--csv", text, None


def main():
    programs = [os.path.realpath(path) for path in sys.argv[1:] or built.needed("rtr_make")]
    failed = 0
    with ThreadPoolExecutor(max_workers=2) as threads:
        for program in programs:
            runs = list(tried())
            found = threads.map(lambda run: wrong(program, *run), runs)
            for (form, text, _whole), fault in zip(runs, found):
                if fault:
                    failed += 1
                    print(f"mutants: {form} {text!r}: {fault}")
    if failed:
        sys.exit(f"mutants: FAILED, {failed} wrong")


if __name__ == "__main__":
    main()
