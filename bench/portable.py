#!/usr/bin/env python3
"""Counts the instructions a unit of calls over the portable C file and over the archive.

usage: bench/portable.py [--check]

Prints a table, as bench/count.py does: a cell says, for one kind of units, `portable / archive =
ratio`. With --check it fails where normalising takes more than half as many again over the C file.
The compiler is gcc, with -O2 for the C file.
"""
import os
import platform
import shutil
import subprocess
import sys
import tempfile

TOP = os.path.realpath(os.path.join(os.path.dirname(os.path.abspath(__file__)), ".."))
sys.path.insert(0, os.path.join(TOP, ".ci"))
sys.dont_write_bytecode = True

import built  # noqa: E402  (it lies in another folder)
import count

CALLS = count.CALLS + count.RELEASED_CALLS + count.ONLY_COUNTED

# The calls that may take this many times the archive's instructions, at most.
CHECKED = ("rtr_normalise_slice", "rtr_normalise_for_slice")
MOST = 1.5


def counted(folder, name, linked):
    """Returns instructions a unit over what is linked, by call and kind."""
    own = os.path.join(folder, name)
    os.mkdir(own)
    found = count.parts(folder, count.compiled(own, "gcc", "calls", linked))
    return {(call, kind): count.of_parts(found, f"{call} ours", kind)
            for call in CALLS for kind in count.KINDS}


def table():
    """Returns instructions a unit over the C file and over the archive, by call and kind."""
    with tempfile.TemporaryDirectory() as folder:
        for path, each in count.samples(folder).items():
            count.make_sample(path, *each)
        linked = os.path.join(folder, "rtr_wire.o")
        subprocess.run(["gcc", "-std=c11", "-O2", "-I", os.path.join(TOP, "bindings", "c"), "-c",
                        built.module("portable"), "-o", linked], check=True)
        portable = counted(folder, "portable", linked)
        archive = counted(folder, "archive", built.needed("rtr_c")[0])
    return {key: (number, archive[key]) for key, number in portable.items()}


def main():
    check = sys.argv[1:] == ["--check"]
    if sys.argv[1:] and not check:
        sys.exit(__doc__)
    missing = [name for name in ("valgrind", "gcc") if not shutil.which(name)]
    if missing or platform.machine() != "x86_64":
        print(f"!!! bench/portable.py: no {' and no '.join(missing) or 'x86-64'} here: SKIPPED the "
              "portable C file's instructions", file=sys.stderr)
        return
    found = table()
    print("| Call |", " | ".join(count.KINDS), "|")
    print("|---" * (len(count.KINDS) + 1) + "|")
    for call in CALLS:
        cells = " | ".join(count.cell(found[call, kind]) for kind in count.KINDS)
        print(f"| `{call}` | {cells} |")
    slow = [f"{call} of {kind}" for (call, kind), (portable, archive) in found.items()
            if call in CHECKED and portable > MOST * archive]
    if check and slow:
        sys.exit(f"bench/portable.py: more than {MOST} times the archive's: {', '.join(slow)}")


if __name__ == "__main__":
    main()
