#!/usr/bin/env python3
"""Compares each piece of code that README.md, CONTRIBUTING.md, the pages in docs/ and
bindings/*/README.md show with its source.

usage: shown.py [--write]      with --write the pages are updated from the sources

A piece is a fenced block right after a line

    <!-- shown: PATH -->            the whole file, without its test modules
    <!-- shown: PATH NAME .. -->    the items of these names, a type with its impl, each with
                                    its comments and attributes

Each block of Rust, C, Go, Python or JavaScript needs such a line, or is a file that
`tests/pages/operators.py` extracts.

It also compares the rows of tables with the lines of clauses: each name of the first cell is that
of a clause, a field or an item that begins on the line that the last cell names, as `PATH:LINE`, in
order; sentences with the size of a struct of rtr.h, as bindings/c/layout.c has it; and rows after
a line

    <!-- samples: PART -->          the bytes of the samples in this part of tests/samples, and
                                    their forms, or their lines of rtr_list

Exits with status 1 if a piece, a line or a number differs.
"""
import pathlib
import re
import sys

TOP = pathlib.Path(__file__).resolve().parent.parent
sys.path.insert(0, str(TOP / "tests"))
sys.dont_write_bytecode = True

import samples  # noqa: E402  (it lies in another folder)

MARKER = re.compile(r"<!-- shown: (\S+)((?: \w+)*) -->$")
CODE = re.compile(r"```(rust|c|go|python|js)\b")
PLACE = re.compile(r"`([\w/.]+):(\d+)`")
PART = re.compile(r"<!-- samples: (.+) -->$")
STRUCT = re.compile(r"(`struct (\w+)` is .* in )(\d+)( bytes)")
LAYOUT = TOP / "bindings/c/layout.c"
TESTS = re.compile(r"^#\[cfg\(test\)\]\nmod \w+;\n\n?", re.MULTILINE)
BEFORE_NAME = (r"(?:pub(?:\(\w+\))? )?(?:const |async )?"
               r"(?:fn|struct|enum|const|trait|impl|func|def|async def) ")


def indent_of(line):
    return len(line) - len(line.lstrip())


def item(lines, index, comments):
    """Returns the lines of the item at this index, from its first comment or attribute to its
    end."""
    start = end = index
    indent = indent_of(lines[index])
    while start > 0 and lines[start - 1].strip().startswith((comments, "#[")):
        start -= 1
    if comments == "#":
        after = [at for at in range(index + 1, len(lines))
                 if lines[at].strip() and indent_of(lines[at]) <= indent]
        body = "\n".join(lines[start:after[0] if after else None]).rstrip()
        return [line[indent:] for line in body.split("\n")]
    while not (indent_of(lines[end]) == indent and lines[end].endswith(("}", ";"))):
        end += 1
        if end == len(lines):
            raise LookupError(f"{lines[index].strip()} has no end")
    return [line[indent:] for line in lines[start:end + 1]]


def source(path, names):
    """Returns what the page has to show, line by line: items with an empty line between them."""
    text = (TOP / path).read_text()
    lines = text.splitlines()
    if not names:
        return TESTS.sub("", text).splitlines()
    shown = []
    comments = {".go": "//", ".py": "#"}.get(pathlib.Path(path).suffix, "///")
    for name in names:
        begins = re.compile(f" *{BEFORE_NAME}{name}\\b")
        indexes = [index for index, line in enumerate(lines) if begins.match(line)]
        if not indexes:
            raise LookupError(f"{path} has no item {name}")
        for index in indexes:
            shown += ([""] if shown else []) + item(lines, index, comments)
    return shown


def blocks(lines):
    """Returns the line indexes of the two fences of each fenced block, and the marker before it."""
    opened = None
    for index, line in enumerate(lines):
        if not line.startswith("```"):
            continue
        if opened is None:
            opened = index
        else:
            yield opened, index, MARKER.match(lines[opened - 1]) if opened else None
            opened = None


def line_of(path, name, stated):
    """Returns the line nearest to this one on which a clause, a field or an item of this name
    begins."""
    keyword = "(?:(?:ensures|law|fn|record|abbrev|unfoldable) )?"
    begins = re.compile(rf" *(?:pub )?{keyword}(?:pub )?{name}\b")
    lines = (TOP / path).read_text().splitlines()
    found = [number for number, line in enumerate(lines, 1) if begins.match(line)]
    if not found:
        raise LookupError(f"{path} has no {name}")
    return min(found, key=lambda number: abs(number - stated))


def check_places(page, lines, write):
    """Reports which row of a table names a wrong line, or fixes it; returns as `check`."""
    named = wrong = 0
    for number, line in enumerate(lines):
        cells = line.split("|")
        places = PLACE.findall(cells[-2]) if line.startswith("| `") else []
        names = re.findall(r"`(\w+)`", cells[1]) if places else []
        if len(names) != len(places):
            print(f"{page.relative_to(TOP)}:{number + 1}: {len(names)} names, {len(places)} places")
            wrong += 1
        for name, (path, stated) in zip(names, places):
            named += 1
            found = line_of(path, name, int(stated))
            if write:
                lines[number] = lines[number].replace(f"`{path}:{stated}`", f"`{path}:{found}`")
            elif found != int(stated):
                print(f"{page.relative_to(TOP)}:{number + 1}: {name} stands in {path}:{found}")
                wrong += 1
    return named, wrong


def check_structs(page, lines, write):
    """Reports which sentence names a wrong size of a struct, or fixes it; returns as `check`."""
    named = wrong = 0
    for number, line in enumerate(lines):
        if found := STRUCT.search(line):
            named += 1
            size = re.search(rf"sizeof\(struct {found[2]}\) == (\d+)", LAYOUT.read_text())[1]
            if write:
                lines[number] = STRUCT.sub(rf"\g<1>{size}\4", line)
            elif size != found[3]:
                print(f"{page.relative_to(TOP)}:{number + 1}: struct {found[2]} has {size} bytes")
                wrong += 1
    return named, wrong


def sample_rows(part):
    """Returns the rows of the table of the samples in a part of the file."""
    found = [sample for sample in samples.SAMPLES if sample.part == part]
    written = any(sample.form for sample in found)
    yield "| As read | As written |" if written else "| Bytes | As `rtr_list` prints it |"
    yield "|---|---|"
    for sample in found:
        shown = sample.spaced["form"] if written else sample.line.split(" ", 1)[1]
        yield f"| `{sample.spaced['bytes']}` | `{shown}` |"


def check_samples(page, lines, write):
    """Reports which table of samples is wrong, or fixes it; returns as `check`."""
    named = wrong = 0
    for number, part in reversed([(number, PART.match(line)[1])
                                  for number, line in enumerate(lines) if PART.match(line)]):
        named += 1
        end = next(at for at in range(number + 1, len(lines) + 1)
                   if at == len(lines) or not lines[at].startswith("|"))
        expected = list(sample_rows(part))
        if write:
            lines[number + 1:end] = expected
        elif lines[number + 1:end] != expected:
            print(f"{page.relative_to(TOP)}:{number + 1}: differs from tests/samples")
            wrong += 1
    return named, wrong


def check(page, write):
    """Reports what is wrong with a page, or fixes it; returns how much was shown and was wrong."""
    lines = page.read_text().splitlines()
    checks = (check_places, check_structs, check_samples)
    shown, wrong = map(sum, zip(*(compare(page, lines, write) for compare in checks)))
    for opened, closed, marker in reversed(list(blocks(lines))):
        where = f"{page.relative_to(TOP)}:{opened + 1}"
        if marker is None:
            if CODE.match(lines[opened]) and not lines[opened - 1].startswith("<!-- file: "):
                print(f"{where}: a block of code that doesn't say where it is from")
                wrong += 1
            continue
        shown += 1
        try:
            expected = source(marker[1], marker[2].split())
        except (LookupError, OSError) as error:
            print(f"{where}: {error}")
            wrong += 1
            continue
        if write:
            lines[opened + 1:closed] = expected
        elif lines[opened + 1:closed] != expected:
            print(f"{where}: differs from {marker[1]}{marker[2]}")
            wrong += 1
    if write:
        page.write_text("\n".join(lines) + "\n")
    return shown, wrong


def main():
    if sys.argv[1:] not in ([], ["--write"]):
        print(__doc__)
        return 2
    pages = [TOP / "README.md", TOP / "CONTRIBUTING.md", *sorted((TOP / "docs").rglob("*.md")),
             *sorted((TOP / "bindings").glob("*/README.md"))]
    counts = [check(page, bool(sys.argv[1:])) for page in pages if page.exists()]
    shown, wrong = (sum(count) for count in zip(*counts))
    print(f"{shown} pieces of code and places shown, {wrong} wrong")
    return 1 if wrong else 0


sys.exit(main())
