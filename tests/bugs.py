#!/usr/bin/env python3
"""Tries the seeded bugs that the gate leaves out: the edits in crates/NAME/more-must-fail/, each of
which the prover has to refuse.

usage: tests/bugs.py [--check] [NAME..]

The gate (rt ci) tries those in must-fail/, some ten of a crate that say most of its contracts: each
costs half a minute of processor time. This tries the others, of all crates or of those named, in a
copy in out/bugs. It first proves these crates and those below them again, unless `rt check` left
them here: what rt ci left doesn't count for it. With all crates it takes hours. It comes before a
release, and after a change of a crate that has them. Exits with status 1 if an edit isn't refused,
or can't be tried.

--check proves nothing: it only prints which edits can't be applied, and why: for example, the text
to replace isn't in its file exactly once, or has more than one line.
"""
import pathlib
import re
import shutil
import subprocess
import sys

TOP = pathlib.Path(__file__).resolve().parent.parent
COPY = TOP / "out" / "bugs"
# What a repository of crates needs besides them.
BESIDES = ["crates.txt", "HANDLES"]
LINE = re.compile(r"(file|old|new): ?(.*)")
COMMENTS = ("#", "--", "//")


def edits(folder):
    """Returns the edits of a folder, in the order of their names."""
    return sorted(folder.glob("*.edit"))


def fault_of(edit, crate):
    """Returns why `rt` can't apply an edit to its crate, or None if it can. An `old:` text and a
    `new:` text are one line each; `rt` ignores lines that begin with none of the three words."""
    texts, path, old, pairs = {}, None, "", 0
    for number, line in enumerate(edit.read_text(encoding="utf-8").splitlines(), 1):
        found = LINE.fullmatch(line)
        if not found:
            if line.strip() and not line.startswith(COMMENTS):
                return f"line {number} isn't a file:, old: or new: line: {line.strip()}"
            continue
        word, text = found.groups()
        if word == "file":
            path = text
            if not (crate / path).is_file():
                return f"line {number} names a file that doesn't exist: {path}"
            texts.setdefault(path, (crate / path).read_text(encoding="utf-8"))
        elif word == "old":
            old = text
        elif path is None or not old:
            return f"line {number} has a new: without a file: or an old: before it"
        elif texts[path].count(old) != 1:
            return f"this stands {texts[path].count(old)} times in {path}: {old.strip()}"
        else:
            texts[path] = texts[path].replace(old, text)
            old, pairs = "", pairs + 1
    return None if pairs else "it has no pair of an old: and a new:"


def check(crates):
    """Prints which edits of the crates can't be applied, and returns whether all can."""
    well = True
    for crate in crates:
        for edit in edits(crate / "must-fail") + edits(crate / "more-must-fail"):
            if fault := fault_of(edit, crate):
                print(f"{edit.relative_to(TOP)}: {fault}")
                well = False
    return well


def copied(crates):
    """Makes the copy, whose files are links to those here, with the edits to be tried in the places
    of those of the gate."""
    shutil.rmtree(COPY, ignore_errors=True)
    COPY.mkdir(parents=True)
    for name in BESIDES:
        shutil.copy(TOP / name, COPY)
    subprocess.run(["cp", "-al", TOP / "crates", COPY], check=True)
    for edit in (COPY / "crates").glob("*/must-fail/*.edit"):
        edit.unlink()
    for crate in crates:
        for edit in edits(crate / "more-must-fail"):
            shutil.move(COPY / edit.relative_to(TOP), COPY / crate.relative_to(TOP) / "must-fail")


def main(words):
    names = [word for word in words if word != "--check"]
    crates = [folder.parent for folder in sorted((TOP / "crates").glob("*/more-must-fail"))]
    unknown = set(names) - {crate.name for crate in crates}
    if unknown:
        sys.exit(f"tests/bugs.py: there are no further edits of {', '.join(sorted(unknown))}")
    if "--check" in words:
        return 0 if check(sorted((TOP / "crates").iterdir())) else 1
    crates = [crate for crate in crates if not names or crate.name in names]
    copied(crates)
    try:
        tried = ["rt", "must-fail", *(crate.name for crate in crates)]
        return subprocess.run(tried, cwd=COPY, check=False).returncode
    finally:
        shutil.rmtree(COPY, ignore_errors=True)


if __name__ == "__main__":
    sys.exit(main(sys.argv[1:]))
