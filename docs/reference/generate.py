#!/usr/bin/env python3
"""Writes the pages of this folder: promises.md of the contracts of public functions and the seeded
bugs, specs.md of the heads of the modules of definitions, musts.md of musts.txt; and above it of
differences.txt the page DIFFERENCES.md, and of trusted.txt and prebuilt/ a part of PROOF.md. Of the
rules of both ends it draws router.svg and cache.svg.

usage: generate.py [--check]    with --check it writes nothing, and ends with status 1 where a page
                             isn't what it is generated from
"""
import pathlib
import re
import sys
from collections import defaultdict

sys.dont_write_bytecode = True

import differences
import musts
import states
import trusted
from sources import CRATES, all_definitions, crates, functions_of, head_of, specifications

DEFINITIONS = all_definitions()
REFUSING = re.compile(r"\b[Ff]aults?\b|\brefus|`(?:Short|Reader|Writer|Memory|AllocError|NO_ROOM)`")
HERE = pathlib.Path(__file__).resolve().parent
MADE = "<!-- made by docs/reference/generate.py -->"


def cell(text):
    """Returns a text as it may stand in a table."""
    return re.sub(r"\s+", " ", text).replace("|", "\\|").strip()


def code(names):
    return ", ".join(f"`{name}`" for name in names)


def link(path):
    """Returns a link from this folder to a file of a crate, by its name in the crate."""
    inside = path.relative_to(CRATES)
    return f"[{'/'.join(inside.parts[1:])}](../../crates/{inside})"


def words(function):
    """Returns the promise of a function: the first paragraph of its comment, and what that says of
    faults."""
    parts = [part for index, part in enumerate(function.words)
             if index == 0 or REFUSING.search(part)]
    parts += [f"`{name}`: {note}" for name, note in function.notes.items()]
    return cell(" ".join(parts))


def clause(label, text):
    """Returns the label of a clause, and the first record or relation that it cites, unless it
    begins with what it holds for, as a law does."""
    cited = None
    if not re.match(r"[^{]*\{ ?\(\w[^()]* :", text):
        words = re.findall(r"\b[A-Z]\w+", text)
        cited = next((word for word in words if word in DEFINITIONS), None)
    if label and cited:
        return f"`{label}` ({cited})"
    return f"`{label}`" if label else cited or "one"


def clauses(function):
    """Returns the clauses of a function, and what it needs."""
    ensured = ", ".join(clause(*each) for each in function.clauses)
    needs = ", ".join(clause(*each) for each in function.needs)
    return ensured + (f"; needs {needs}" if needs else "")


def contract_row(function):
    name = f"`{function.name}`" + ("" if function.kind == "public" else f" ({function.kind})")
    return f"| {name} | {words(function)} | {clauses(function)} | {code(function.edits)} |"


def crate_promises(crate):
    """Returns the part of promises.md on a crate: a table for each file."""
    lines, number = [], 0
    for path, found in functions_of(crate).items():
        rows = [contract_row(function) for function in found
                if function.edits or function.kind == "public" and function.clauses]
        if rows:
            lines += ["", f"### {link(path)}", "", "| Function | Promise | Clauses | Seeded bugs |",
                      "|---|---|---|---|", *rows]
            number += sum(function.kind == "public" for function in found
                          if function.edits or function.clauses)
    return lines, number


def promises():
    text = f"""# Promises

{MADE}
What does each public function promise, by which clauses, and which wrong bodies are refused?
([README](../../README.md), [PROOF](../PROOF.md))

- **Promise**: the first paragraph of the function's comment, and what it says about faults and refusals.
- **Clauses**: the labels of its `ensures`, each with the first record or relation that it cites, except in laws; a clause
  without a label has only that, or *one*. They are proved for all inputs; a method of a trait without clauses has those of the
  trait. *Needs* are its `requires`.
- **Seeded bugs**: edits in `must-fail/` and `more-must-fail/` of the crate, named after the bug. Each breaks the contract of
  the function in its row, or of one that relies on it. Each is applied in turn, and the prover has to refuse it: the gate tries
  those in `must-fail/`, and `make bugs` the others. A private function is listed if it has one. Edits of definitions, in a file
  of `specs/`, break a law.

A clause without a bug of its own is proved as well. Functions of `laws` are theorems, without code."""
    parts = {crate: crate_promises(crate) for crate in crates()}
    parts = {crate: part for crate, part in parts.items() if part[1]}
    edits, more = (len(list(CRATES.glob(f"*/{name}/*.edit")))
                   for name in ["must-fail", "more-must-fail"])
    number = sum(part[1] for part in parts.values())
    text += f"\n\n{number} public functions, {edits} seeded bugs that the gate tries and {more} others, lowest crate first: "
    text += ", ".join(f"[{crate}](#{crate})" for crate in parts) + ".\n"
    for crate, (lines, _) in parts.items():
        text += "\n".join(["", f"## {crate}", *lines, ""])
    return text


SECTIONS = re.compile(r"(?:(RFC \d+),? )?sections? ((?:\d+(?:\.\d+)*(?:, | and | to |, and )?)+)")


def expanded(listed):
    """Yields the sections that a list as `5.2 to 5.4 and 8` names."""
    marks = re.findall(r"\d+(?:\.\d+)*|to", listed)
    for index, mark in enumerate(marks):
        if mark == "to":
            first, last = marks[index - 1].split("."), marks[index + 1].split(".")
            if first[:-1] == last[:-1]:
                for number in range(int(first[-1]) + 1, int(last[-1])):
                    yield ".".join([*first[:-1], str(number)])
        else:
            yield mark


def sections_of(path):
    """Yields the sections of RFCs that the head of a module names; without an RFC it is the one
    that the library is about, unless the head names only others."""
    text = " ".join(head_of(path))
    named = re.findall(r"RFC \d+", text)
    usual = "RFC 8210" if "RFC 8210" in named or not named else named[0]
    with_sections = set()
    for rfc, listed in SECTIONS.findall(text):
        with_sections.add(rfc or usual)
        for section in expanded(listed):
            yield rfc or usual, section
    for rfc in set(named) - with_sections:
        yield rfc, ""


def by_section(modules):
    """Yields for each section the modules whose heads name it, in their order, as rows."""
    found = defaultdict(set)
    for path in modules:
        for rfc, section in sections_of(path):
            found[rfc, tuple(map(int, section.split("."))) if section else ()].add(path)
    for (rfc, section), paths in sorted(found.items()):
        where = f"{rfc}, {'.'.join(map(str, section))}" if section else rfc
        names = code(f"{path.relative_to(CRATES).parts[0]}/specs/{path.stem}"
                     for path in sorted(paths, key=modules.index))
        yield f"| {where} | {names} |"


def specs():
    modules = {crate: list(specifications(crate)) for crate in crates()}
    modules = {crate: paths for crate, paths in modules.items() if paths}
    text = f"""# Definitions

{MADE}
Where is each definition that a contract cites, and which section of which RFC does it come from?
([README](../../README.md), [PROOF](../PROOF.md#believe-it-in-this-order))

A row for each module of `specs/`, with the words of its first comment, lowest crate first; then the modules by section. Modules
whose name begins with `Private` are left out: only contracts of private functions cite them.

"""
    text += ", ".join(f"[{crate}](#{crate})" for crate in modules) + ", [by section](#by-section).\n"
    for crate, paths in modules.items():
        text += f"\n## {crate}\n\n| Module | What it says |\n|---|---|\n"
        for path in paths:
            inside = path.relative_to(CRATES)
            text += f"| [{path.stem}](../../crates/{inside}) | {cell(' '.join(head_of(path)))} |\n"
    text += "\n## By section\n\n| Section | Modules whose heads name it |\n|---|---|\n"
    text += "".join(f"{row}\n" for row in by_section([path for paths in modules.values()
                                                      for path in paths]))
    return text


def main():
    if sys.argv[1:] not in ([], ["--check"]):
        print(__doc__)
        return 2
    wrong = 0
    pages = {"promises.md": promises, "specs.md": specs, "musts.md": musts.page,
             "../DIFFERENCES.md": differences.page, "../PROOF.md": trusted.page,
             "router.svg": states.router, "cache.svg": states.cache}
    for name, generate in pages.items():
        path, text = (HERE / name).resolve(), generate()
        if not sys.argv[1:]:
            path.write_text(text, encoding="utf-8")
        elif not path.exists() or path.read_text(encoding="utf-8") != text:
            print(f"{path.relative_to(HERE.parents[1])} isn't what it is generated from: call "
                  "docs/reference/generate.py")
            wrong = 1
    return wrong


if __name__ == "__main__":
    sys.exit(main())
