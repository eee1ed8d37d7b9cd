#!/usr/bin/env python3
"""Tests which edits `bugs.py --check` refuses, and why. Prints nothing if all is well."""
import pathlib
import sys
import tempfile

import bugs

SOURCE = "fn first() {\n    left + right\n}\n\nfn second() {\n    left\n}\n"

# The lines of an edit, and the fault that is expected, or None.
EDITS = [
    (["file: src/a.rt", "old: left + right", "new: left - right"], None),
    (["# A comment.", "", "file: src/a.rt", "// Another.", "old: + right", "new:", "-- A third."],
     None),
    # A pair can replace what an earlier one wrote.
    (["file: src/a.rt", "old: + right", "new: - right", "old: - right", "new: * right"], None),
    (["file: src/a.rt", "old: fn second() {", "new: fn third() {",
      "file: src/b.rt", "old: fn second", "new: fn third"], None),
    # A text of several lines.
    (["file: src/a.rt", "old: fn second() {", "    left", "new: fn second() {", "    right"],
     "line 3 isn't a file:, old: or new: line: left"),
    (["file: src/a.rt", "old: left + right", "new: left", "    - right"],
     "line 4 isn't a file:, old: or new: line: - right"),
    (["file: src/a.rt", "old: left", "new: right"], "this stands 2 times in src/a.rt: left"),
    (["file: src/a.rt", "old: middle", "new: right"], "this stands 0 times in src/a.rt: middle"),
    (["file: src/a.rt", "old: + right", "new: - right", "old: + right", "new:"],
     "this stands 0 times in src/a.rt: + right"),
    (["file: src/c.rt", "old: left", "new: right"],
     "line 1 names a file that doesn't exist: src/c.rt"),
    (["old: left + right", "new: left"],
     "line 2 has a new: without a file: or an old: before it"),
    (["file: src/a.rt", "old: + right", "new: - right", "new: * right"],
     "line 4 has a new: without a file: or an old: before it"),
    (["file: src/a.rt", "old: left + right"], "it has no pair of an old: and a new:"),
    ([], "it has no pair of an old: and a new:"),
]


def main():
    failed = False
    with tempfile.TemporaryDirectory() as folder:
        crate = pathlib.Path(folder)
        (crate / "src").mkdir()
        for name in ("a.rt", "b.rt"):
            (crate / "src" / name).write_text(SOURCE, encoding="utf-8")
        edit = crate / "test.edit"
        for lines, expected in EDITS:
            edit.write_text("".join(f"{line}\n" for line in lines), encoding="utf-8")
            fault = bugs.fault_of(edit, crate)
            if fault != expected:
                print(f"bugs_tests: {lines}: {fault}")
                failed = True
    return 1 if failed else 0


if __name__ == "__main__":
    sys.exit(main())
