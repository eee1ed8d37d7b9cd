#!/usr/bin/env python3
"""Calls the `generate.py` of each language, which writes the numbers, structs and calls of
crates/rtr_c for it; calls.py reads them from the crate.

usage: constants.py [--check]   with --check it writes nothing, and exits with status 1 if a file
                                isn't what the crate says, or a language's code repeats one of the
                                larger numbers
"""
import pathlib
import re
import subprocess
import sys

HERE = pathlib.Path(__file__).resolve().parent
sys.dont_write_bytecode = True
sys.path.insert(0, str(HERE))

import calls

# C is first: the others take the order and the comments of rtr.h.
LANGUAGES = ("c", "go", "rust", "python", "js")

# The code of all languages, and which of it is generated or tests.
CODE = ("c/rtr_*.[ch]", "go/*.go", "rust/src/*.rs", "rust/tokio/src/*.rs",
        "python/src/rtr_wire/*.py", "js/*.js", "js/*.ts")
NOT_CODE = ("tests.c", "_test.go", "table.go", "abi.rs", "_rtr.py", "table.js", "table.d.ts")


def typed_again():
    """Yields a line for each line of code, except comments, tests and what is generated, with a
    number that rtr.h defines and that has no other meaning."""
    numbers = {str(number) for _, number, _ in calls.constants() if number > 9999}
    for path in sorted(path for pattern in CODE for path in HERE.glob(pattern)):
        if path.name.endswith(NOT_CODE):
            continue
        code = path.read_text().split("#[cfg(test)]")[0]
        for count, line in enumerate(code.splitlines(), 1):
            words = re.sub(r"//.*|^ *(?:#|/?\*).*|/\*.*", "", line).replace("_", "")
            if numbers & set(re.findall(r"\d+", words)):
                yield f"{path.relative_to(HERE)}:{count}: rtr.h has this number: {line.strip()}"


def main():
    if sys.argv[1:] not in ([], ["--check"]):
        sys.exit(__doc__)
    failed = False
    if sys.argv[1:]:
        found = list(typed_again())
        print("".join(f"bindings/constants.py: {line}\n" for line in found), end="",
              file=sys.stderr)
        failed = bool(found)
    for language in LANGUAGES:
        failed |= subprocess.run([HERE / language / "generate.py", *sys.argv[1:]],
                                 check=False).returncode != 0
    sys.exit(int(failed))


main()
