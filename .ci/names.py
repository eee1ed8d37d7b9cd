#!/usr/bin/env python3
"""Refuses a name that two modules of the specifications define, over all crates.

A reader who searches for a name finds one definition. This holds for functions, records, data types
and their constructors; fields belong to their record. It also refuses a table of docs/SESSIONS.md
whose names aren't those of the definitions that it describes, in order; a table after `<!--
requires: CRATE -->` whose first cells don't name exactly the public functions that can be called
through that crate and have a precondition; and a name on a page that no source has, as a definition
that was renamed: a word of a specification or of code, with an underline or a capital inside, or
with `::`, in quotes on a page of docs/ that is only about this library.
"""
import re
import sys
from collections import defaultdict
from pathlib import Path

TOP = Path(__file__).resolve().parent.parent
sys.path.insert(0, str(TOP / "docs/reference"))
sys.dont_write_bytecode = True

import sources  # noqa: E402  (it lies in another folder)

DEFINED = re.compile(r"(?:(?:abbrev|unfoldable|opaque|inline) +)?pub +(record|data)? *([^\s:({]+)")
CONSTRUCTOR = re.compile(r"  (?:pub +)?([^\s:(-][^\s:(]*) +:")
# The crates whose modules the tables of docs/SESSIONS.md describe; their modules have distinct
# names.
MACHINES = ["session_router", "session_cache"]
QUOTED = re.compile(r"`([\w:.]+)`")
NAME_LIKE = re.compile(r"\w*[a-z]\w*(?:_|[A-Z])\w*|\w+_\w+")
# Pages with names of other projects, too.
OF_OTHERS = {"DIFFERENCES.md", "INTEROP.md"}
SOURCES = {".rt", ".antt", ".c", ".h", ".go", ".rs", ".py", ".js", ".ts", ".scene", ".1", ""}
BUILT = {"out", "target", "lib"}


def names(lines):
    """Returns the names that these lines of a module define."""
    in_data = False
    for line in lines:
        if not line.startswith(" ") and line.strip() and not line.startswith("--"):
            found = DEFINED.match(line)
            in_data = bool(found) and found[1] == "data"
            if found and found[2] not in ("use", "mod", "open"):
                yield found[2]
        elif in_data and (found := CONSTRUCTOR.match(line)):
            yield found[1]


def rules(module, name):
    """Returns the fields of a record of a module, or the results of `Rule` or `CacheRule`."""
    places = [TOP / f"crates/{crate}/specs/{module}.antt" for crate in MACHINES]
    text = "".join(path.read_text(encoding="utf-8") for path in places if path.exists())
    if name.endswith("Rule"):
        case = rf"^{name} [rc] n .*=\s+(?:InTalk c \()?(?!⊥)(\w+)"
        return re.findall(case, text, re.MULTILINE)
    record = re.search(rf"^pub record {name} .*?(?=\n\S|\Z)", text, re.MULTILINE | re.DOTALL)
    return re.findall(r"^  pub (\w+) :", record[0], re.MULTILINE) if record else []


def tables():
    """Checks that the tables of docs/SESSIONS.md have the names of their definitions."""
    text = (TOP / "docs/SESSIONS.md").read_text(encoding="utf-8")
    found = re.findall(r"<!-- rules: (\w+) (\w+) -->\n((?:\|.*\n)+)", text)
    good = bool(found)
    for module, name, table in found:
        listed = re.findall(r"^\| `(\w+)` \|", table, re.MULTILINE)
        if listed != rules(module, name):
            print(f"names: docs/SESSIONS.md has {listed} for {name}, and not {rules(module, name)}")
            good = False
    return good


def exported(crate):
    """Returns the names that a crate's public modules define or that it reexports."""
    folder = TOP / "crates" / crate / "src"
    text = (folder / "lib.rt").read_text(encoding="utf-8")
    found = {name for used in re.findall(r"^ *pub use ([^;]*);", text, re.MULTILINE)
             for name in re.findall(r"\w+", used)}
    for module in re.findall(r"^pub mod (\w+);", text, re.MULTILINE):
        inside = (folder / f"{module}.rt").read_text(encoding="utf-8")
        found |= set(re.findall(r"^pub (?:struct|enum|trait|fn) (\w+)", inside, re.MULTILINE))
    return found


def preconditions(crate):
    """Returns the functions with a precondition that a user of a crate can call."""
    lines = (TOP / "crates.txt").read_text(encoding="utf-8").splitlines()
    below = next(line for line in lines if line.startswith(f"{crate}:")).split(":")[1].split()
    names = set().union(*map(exported, below))
    return {function.name for each in sources.crates() for path in sources.files(each)
            for function in sources.functions(path)
            if function.kind == "public" and function.needs
            and function.name.split("::")[0] in names}


def requirements():
    """Checks that the tables of preconditions name the existing ones."""
    good, found = True, 0
    for page in sorted((TOP / "docs").rglob("*.md")):
        text = page.read_text(encoding="utf-8")
        for crate, table in re.findall(r"<!-- requires: (\w+) -->\n((?:\|.*\n)+)", text):
            listed = {name for row in table.splitlines()[2:]
                      for name in re.findall(r"`([\w:]+)`", row.split("|")[1])}
            expected, found = preconditions(crate), found + 1
            for name in sorted(listed ^ expected):
                lacks = "lacks" if name in expected else "has, without a precondition,"
                print(f"names: {page.relative_to(TOP)} {lacks} {name}")
                good = False
    return good and found > 0


def source_words():
    """Returns the words of all sources, and the names of crates."""
    found = {path.name for path in (TOP / "crates").iterdir()}
    found |= set(re.findall(r"\w+", (TOP / "docs/alerts.yml").read_text(encoding="utf-8")))
    for folder in ("crates", "bindings", "programs", "tests", "bench", "inspector", "fuzz", ".ci",
                   "docs/man"):
        for path in (TOP / folder).rglob("*"):
            if path.suffix in SOURCES and path.is_file() and not BUILT & set(path.parts):
                try:
                    found |= set(re.findall(r"\w+", path.read_text(encoding="utf-8")))
                except UnicodeDecodeError:
                    pass
    return found


def pages():
    """Checks that all names on the pages occur in a source."""
    known, good = source_words(), True
    for page in sorted((TOP / "docs").glob("**/[A-Z]*.md")):
        if page.name in OF_OTHERS:
            continue
        text = re.sub(r"^```.*?^```", "", page.read_text(encoding="utf-8"), flags=re.M | re.S)
        for quoted in sorted(set(QUOTED.findall(text))):
            for name in re.findall(r"\w+", quoted):
                if ("::" in quoted or NAME_LIKE.fullmatch(name)) and name not in known:
                    print(f"names: {page.relative_to(TOP)} has {quoted}, and no source has {name}")
                    good = False
    return good


def main():
    places = defaultdict(set)
    for path in sorted(TOP.glob("crates/*/specs/**/*.antt")):
        if "declared" not in path.parts:
            for name in names(path.read_text(encoding="utf-8").splitlines()):
                places[name].add(str(path.relative_to(TOP / "crates")))
    if not places:
        sys.exit("names: no definition was found")
    twice = {name: found for name, found in places.items() if len(found) > 1}
    for name, found in sorted(twice.items()):
        print(f"names: {name} is defined by {' and '.join(sorted(found))}")
    if not all([not twice, tables(), requirements(), pages()]):
        sys.exit("names: FAILED")


if __name__ == "__main__":
    main()
