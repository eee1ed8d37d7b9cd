#!/usr/bin/env python3
"""Checks each link and each path on the pages: README.md, CONTRIBUTING.md, CHANGELOG.md,
SECURITY.md, docs/ and the README.md of other folders.

usage: links.py

- A link `[text](page.md#heading)` leads to a file, and to a heading of it.
- A word that begins with a folder of the repository, or of `crates/`, is a file or a folder there,
  also in commands; a module of specifications is written without its suffix, as
  `rtr_base/specs/Texts`. Words in capitals, as NAME, are ignored, and folders that builds leave:
  `out`, `target` and `bindings/lib`. Of CHANGELOG.md only the newest version is checked.
- A page that is named, as PROTOCOL.md, is at the top, in docs/ or in the folder of the page that
  names it.
- A page or a script that code or a script names with its folder, as docs/PROTOCOL.md or
  .ci/links.py, exists: at the top, in a folder above that file, or in one of bindings/.
- Each page is reached from README.md by links, and README.md from each page in docs/.
- README.md has at most 100 lines, and each page in docs/ begins with the question that it answers.
- The table of docs/ARCHITECTURE.md with one role in each row names each source file of the
  libraries in its language's column, and no other file.

Exits with status 1 if something is wrong.
"""
import os
import pathlib
import re
import sys

TOP = pathlib.Path(__file__).resolve().parent.parent
CRATES = {path.name for path in (TOP / "crates").iterdir()}
FOLDERS = {".ci", *(path.name for path in TOP.iterdir() if path.is_dir() and path.name[0] != ".")}
LINK = re.compile(r"\]\(([^)\s]+)\)")
PATH = re.compile(r"(?<![\w./:{-])((?:[\w.-]+/)+[\w.*-]*)")
PAGE = re.compile(r"(?<![\w./-])([A-Z]+\.md)\b")
IN_DOCS = re.compile(r"docs/[A-Za-z/]+\.md")
SCRIPT = re.compile(r"(?<![\w./$}-])(?:/|\.\./|\$\w+/|\$?\{\w+\}/)*"
                    r"((?:\.ci|bench|fuzz|interop|release|tests)/[\w./-]*\w)(?![\w*{$/-]|\.?[{*<])")
README_LINES, HEAD_LINES = 100, 8
# The folders of the columns of the table, and the source files there that it has to name.
ROLES = (("C", "c", "rtr*.[ch]"), ("Go", "go", "*.go"), ("Rust", "rust/src", "*.rs"),
         ("Python", "python/src/rtr_wire", "*.py"), ("JavaScript", "js", "*.js"))
TEST_FILE = re.compile(r"_test\.go|_tests\.c|_testing\.h")
BUILT = {"out", "target"}
BINARY = {".a", ".so", ".wasm", ".png", ".pyc"}


def pages():
    """Returns all pages, README.md first."""
    found = [TOP / name for name in ("README.md", "CONTRIBUTING.md", "CHANGELOG.md", "SECURITY.md")]
    found += sorted((TOP / "docs").rglob("*.md"))
    for folder in ("bindings", "fuzz", "interop", "tests", "inspector", "debian"):
        found += sorted((TOP / folder).rglob("README.md"))
    return [page for page in found if page.exists() and not BUILT & set(page.parts)]


def name_of(path):
    return str(path.relative_to(TOP))


def anchors(page):
    """Returns the anchors of the headings of a page."""
    found = set()
    for heading in re.findall(r"^#+ (.*)$", page.read_text(), re.MULTILINE):
        plain = re.sub(r"\[([^\]]*)\]\([^)]*\)", r"\1", heading).lower()
        found.add(re.sub(r"[^\w\- ]", "", plain).replace(" ", "-"))
    return found


def links(page):
    """Returns, for each link to a file, the target as written, the file, and the heading."""
    for target in LINK.findall(page.read_text()):
        if "://" not in target:
            file, _, heading = target.partition("#")
            yield target, (page.parent / file).resolve() if file else page, heading


def wrong_links(page):
    """Returns the broken links of a page."""
    for target, file, heading in links(page):
        if not file.exists():
            yield f"no file {target}"
        elif heading and heading not in anchors(file):
            yield f"no heading {target}"


def is_there(path, page):
    """Reports whether a path of the repository, or one relative to a page, exists."""
    first = path.split("/")[0]
    parts = path.rstrip("/").split("/")
    if BUILT & set(parts) or "bindings/lib" in path or any(part.isupper() for part in parts):
        return True
    files = [TOP / "crates" / path] if first in CRATES else [TOP / path, page.parent / path]
    return any(file.exists() or "*" in path and list(file.parent.parent.glob("/".join(parts[-2:])))
               or file.with_name(file.name + ".antt").exists() for file in files)


def wrong_paths(page):
    """Returns the paths and pages that a page names and that don't exist."""
    text = LINK.sub("", page.read_text())
    if page.name == "CHANGELOG.md":
        text = "".join(re.split(r"(?m)^(?=## \d)", text)[:2])
    for path in sorted(set(PATH.findall(text))):
        path = path.rstrip(".-")
        if path.split("/")[0] in FOLDERS | CRATES and not is_there(path, page):
            yield f"no {path}"
    for name in sorted(set(PAGE.findall(text))):
        if not any((folder / name).exists() for folder in (TOP, TOP / "docs", page.parent)):
            yield f"no page {name}"


def wrong_heads(found):
    """Returns README.md if it is too long, and the pages in docs/ that don't begin with a
    question."""
    if len((TOP / "README.md").read_text().splitlines()) > README_LINES:
        yield TOP / "README.md", f"has more than {README_LINES} lines"
    for page in found:
        if page.is_relative_to(TOP / "docs"):
            if not any("?" in line for line in page.read_text().splitlines()[:HEAD_LINES]):
                yield page, "begins with no question"


def is_script(name, file):
    """Reports whether a script or a folder of this name exists where the file can mean it."""
    if BUILT & set(name.split("/")):
        return True
    folders = (*file.parents, *(TOP / "bindings").iterdir())
    return any((folder / name).exists() for folder in folders)


def wrong_mentions(found):
    """Returns the files that aren't pages and name missing pages in docs/ or missing scripts."""
    for folder, folders, names in os.walk(TOP):
        folders[:] = [name for name in folders if name not in BUILT | {".git"}]
        for path in (pathlib.Path(folder, name) for name in names):
            if path.suffix in BINARY or path in found:
                continue
            try:
                text = path.read_text(encoding="utf-8")
            except (UnicodeDecodeError, OSError):
                continue
            missing = {name for name in IN_DOCS.findall(text) if not (TOP / name).exists()}
            missing |= {name for name in SCRIPT.findall(text) if not is_script(name, path)}
            for name in sorted(missing):
                yield path, f"no {name}"


def wrong_roles():
    """Returns the source files that the table of roles lacks, and the files in it that don't
    exist."""
    page = TOP / "docs/ARCHITECTURE.md"
    table = page.read_text().split("| Role | C |")[1].split("\n\n")[0]
    rows = [line.split("|")[2:-1] for line in table.splitlines()[2:]]
    for column, (language, folder, pattern) in enumerate(ROLES):
        there = {path.name for path in (TOP / "bindings" / folder).glob(pattern)
                 if not TEST_FILE.search(path.name)}
        named = {name for row in rows for name in re.findall(r"`([^`]+)`", row[column])}
        for name in sorted(there - named):
            yield page, f"no row for {language} names {name}"
        for name in sorted(named):
            if not (TOP / "bindings" / folder / name).is_file():
                yield page, f"no file {name} in {language}"


def reached(found):
    """Returns the pages that can't be reached from README.md, or from which README.md can't."""
    next_pages = {page: {file for _, file, _ in links(page)} for page in found}
    for backward in (False, True):
        seen, waiting = set(), [TOP / "README.md"]
        while waiting:
            page = waiting.pop()
            if page not in seen:
                seen.add(page)
                waiting += [other for other in found if (page in next_pages[other] if backward
                                                         else other in next_pages[page])]
        for page in found:
            if page not in seen and (not backward or page.is_relative_to(TOP / "docs")):
                yield page, "leads to no README.md" if backward else "isn't linked from README.md"


def main():
    if sys.argv[1:]:
        print(__doc__)
        return 2
    found = pages()
    wrong = [(page, problem) for page in found for check in (wrong_links, wrong_paths)
             for problem in check(page)]
    wrong += [*reached(found), *wrong_heads(found), *wrong_mentions(found), *wrong_roles()]
    for page, problem in wrong:
        print(f"{name_of(page)}: {problem}")
    print(f"{len(found)} pages, {sum(len(list(links(page))) for page in found)} links, "
          f"{len(wrong)} wrong")
    return 1 if wrong else 0


if __name__ == "__main__":
    sys.exit(main())
