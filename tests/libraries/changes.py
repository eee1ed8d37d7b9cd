#!/usr/bin/env python3
"""Compares the output of rtr_change_line and rtr_change_json with that of the program `rtr_diff`
for the same changes: random units, also with free bits set, that announce or withdraw payloads.

usage: changes.py [SEED]

Without SEED it uses those of `seeds.py`. The archive and the programs are those of `built.py`.
Prints nothing if all is well.
"""
import ctypes
import os
import random
import struct
import subprocess
import sys
import tempfile

HERE = os.path.dirname(os.path.abspath(__file__))
TOP = os.path.realpath(os.path.join(HERE, "..", ".."))
sys.path[:0] = [os.path.join(TOP, ".ci"), os.path.join(TOP, "bindings", "python", "src")]

import built  # noqa: E402  (it lies in another folder)
from seeds import seeds  # noqa: E402

# The number of random units, each of which announces and withdraws.
COUNT = 6000

# The time limit of a run in seconds.
SECONDS = 60

# No line of these units is longer.
ROOM = 4096

VERSION, SESSION = 2, 7
IPV4, IPV6, KEY, ASPA = 4, 6, 9, 11
WIDTHS = {IPV4: 4, IPV6: 16}
END = struct.pack(">BBHIIIII", VERSION, 7, SESSION, 24, 1, 3600, 600, 7200)
FLAGS = {IPV4: 8, IPV6: 8, KEY: 2, ASPA: 2}


def unit(kind, field, body):
    """Encodes a unit: its header (RFC 8210 section 5.1), and the rest."""
    return struct.pack(">BBHI", VERSION, kind, field, 8 + len(body)) + body


def some_unit(picked):
    """Returns a unit that announces, and what names its payload (RFC 8210 sections 5.6, 5.7 and
    5.10; ASPAs as in docs/PROTOCOL.md). The bits of an address after its length are picked, too,
    and so is each byte that means nothing."""
    kind = picked.choice((IPV4, IPV4, IPV6, KEY, ASPA))
    asn = picked.choice((0, 7, 65551, 2**32 - 1))
    flags, free = picked.randrange(256) | 1, picked.randrange(256)
    if kind in WIDTHS:
        width = WIDTHS[kind]
        length = picked.randint(0, 8 * width)
        most = picked.randint(length, 8 * width)
        address = picked.randbytes(width)
        host = 8 * width - length
        name = kind, int.from_bytes(address, "big") >> host, length, most, asn
        body = bytes([flags, length, most, free]) + address + struct.pack(">I", asn)
        return unit(kind, picked.randrange(2**16), body), name
    if kind == KEY:
        identifier, info = picked.randbytes(20), picked.randbytes(picked.randint(0, 40))
        body = identifier + struct.pack(">I", asn) + info
        return unit(kind, flags << 8 | free, body), (kind, identifier, asn, info)
    customer = picked.randrange(2**32)
    providers = sorted(picked.sample(range(2**20), picked.randint(1, 9)))
    body = struct.pack(f">{1 + len(providers)}I", customer, *providers)
    return unit(kind, flags << 8 | free, body), (kind, customer)


def withdrawn(announced):
    """Returns the unit with the flag of a withdrawal, and all else unchanged."""
    offset = FLAGS[announced[1]]
    return announced[:offset] + bytes([announced[offset] & 0xFE]) + announced[offset + 1:]


def written_by(call, types, unit):
    """Returns the line or the object that a call writes for a unit."""
    output, answer = ctypes.create_string_buffer(ROOM), types.rtr_line()
    status = call(unit, len(unit), output, ROOM, answer)
    return output.raw[:answer.length].decode() if status == 0 else f"status {status}"


def printed(program, words, old, new):
    """Returns the lines that the program prints for two files."""
    with tempfile.TemporaryDirectory() as folder:
        for name, data in ("old", old), ("new", new):
            with open(os.path.join(folder, name), "wb") as file:
                file.write(data)
        done = subprocess.run([program, *words, "old", "new"], cwd=folder, timeout=SECONDS,
                              stdout=subprocess.PIPE, check=False)
    assert done.returncode == 1, f"{program} ended with status {done.returncode}"
    return done.stdout.decode().splitlines()


def compare(program, calls, types, seed):
    """Yields the lines that differ."""
    picked = random.Random(seed)
    units = {name: unit for unit, name in (some_unit(picked) for _ in range(COUNT))}.values()
    data, nothing = b"".join(units) + END, END
    forms = ([], calls.rtr_change_line_nonnull), (["--json"], calls.rtr_change_json_nonnull)
    for words, call in forms:
        for old, new, changed in (nothing, data, units), (data, nothing, map(withdrawn, units)):
            ours = sorted(written_by(call, types, unit) for unit in changed)
            theirs = sorted(printed(os.path.realpath(program), words, old, new))
            assert len(ours) > COUNT // 2
            if ours != theirs:
                yield from (f"the library has  {line}" for line in set(ours) - set(theirs))
                yield from (f"{program} has  {line}" for line in set(theirs) - set(ours))


def main():
    if len(sys.argv) > 2:
        print(__doc__)
        return 2
    picked = [int(sys.argv[1])] if sys.argv[1:] else seeds("crates/text_lines")
    archive = os.path.dirname(os.path.dirname(built.needed("rtr_c")[0]))
    wrong = []
    with tempfile.TemporaryDirectory() as folder:
        linked = os.path.join(folder, "librtr_wire.so")
        subprocess.run([os.path.join(TOP, "bindings", "package.py"), "--archives", archive,
                        "--library", linked], check=True)
        os.environ["RTR_WIRE_LIBRARY"] = linked
        from rtr_wire import _library, _rtr  # noqa: E402  (the library is named first)
        for program in built.needed("rtr_diff"):
            for seed in picked:
                wrong += [f"seed {seed}: {line}"
                          for line in compare(program, _library.CALLS, _rtr, seed)]
    print("".join(f"{line}\n" for line in wrong[:20]), end="")
    if wrong:
        print(f"changes: {len(wrong)} lines differ")
    return 1 if wrong else 0


if __name__ == "__main__":
    sys.exit(main())
