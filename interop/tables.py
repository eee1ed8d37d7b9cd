"""Makes the measured tables of docs/INTEROP.md and docs/reference/interop.md."""
import os
import platform
import re
import time

from results import FAILED, NAMED, SKIPPED

DOCS = os.path.join(os.path.dirname(os.path.abspath(__file__)), "..", "docs")
PAGES = [os.path.join(DOCS, "INTEROP.md"), os.path.join(DOCS, "reference", "interop.md")]


def system():
    """Returns the name of the system."""
    try:
        return platform.freedesktop_os_release()["PRETTY_NAME"]
    except (OSError, KeyError):
        return platform.system()


def table(heads, rows):
    """Returns the lines of a table."""
    lines = ["| " + " | ".join(heads) + " |", "|" + "---|" * len(heads)]
    return lines + ["| " + " | ".join(str(cell) for cell in row) + " |" for row in rows]


def differences(rows):
    """Returns how many comparisons differ, and how many of them README.md lists."""
    failed = sum(row.outcome == FAILED for row in rows)
    named = sum(row.note == NAMED for row in rows)
    return f"{named} named" if named and not failed else str(failed + named)


def pairs(found, part):
    """Returns the table of a part: for each peer its counterparts, its versions, and over all of
    them the number of comparisons and units."""
    met = {}
    for row in found.rows:
        if row.names.part == part and row.outcome != SKIPPED:
            peer, _, beside = row.names.peer.partition(" at ")
            met.setdefault((peer, row.names.release), []).append((beside, row))
    lines = []
    for (peer, release), pairs_of_peer in sorted(met.items()):
        rows = [row for _, row in pairs_of_peer]
        beside = ", ".join(sorted({name for name, _ in pairs_of_peer if name}))
        versions = ", ".join(sorted({row.names.version or "all" for row in rows}))
        units = sum(row.units or 0 for row in rows)
        lines.append((peer, release, beside, versions, len(rows), units, differences(rows)))
    heads = ["Peer", "Package", "At", "RTR", "Comparisons", "Units", "Differences"]
    if not any(line[2] for line in lines):
        heads, lines = heads[:2] + heads[3:], [line[:2] + line[3:] for line in lines]
    return table(heads, lines) if lines else []


def answers(found):
    """Returns a row for each cache and version: its answers to unknown requests."""
    seen = {}
    for names, what, answer in found.seen:
        seen.setdefault(names, {})[what] = answer
    heads = sorted({what for _, what, _ in found.seen if "query" in what})
    rows = [
        (names.peer, names.version, *(replies.get(head, "") for head in heads))
        for names, replies in sorted(seen.items()) if heads and heads[0] in replies
    ]
    return table(["Cache", "Version", *heads], rows)


def scenes(found, part, names, across=False):
    """Returns a row for each of these scenes, and a column for each peer of a part that took part
    in it; with `across`, a column for each scene."""
    seen = {}
    for peer, scene, did in found.seen:
        if peer.part == part and scene in names:
            seen.setdefault(peer.column(), {})[scene] = did
    lines = [("After", *sorted(seen))]
    lines += [(scene, *(seen[peer].get(scene, "") for peer in sorted(seen))) for scene in names]
    heads, *rows = zip(*lines) if across else lines
    return table(heads, rows) if seen else []


def marks(name):
    """Returns a pattern that finds the marks of this name and the table between them."""
    return re.compile(rf"(<!-- measured: {name} -->\n)(.*?)(<!-- end -->)", re.DOTALL)


def read(path):
    """Returns the text of a page."""
    with open(path, encoding="utf-8") as file:
        return file.read()


def written(name):
    """Returns the cells of such a table on the pages, by row and column."""
    part = next(found[2] for found in (marks(name).search(read(page)) for page in PAGES) if found)
    lines = [[cell.strip() for cell in line.strip("|").split("|")] for line in part.splitlines()]
    return {row[0]: dict(zip(lines[0], row)) for row in lines[2:]}


def replace(name, lines):
    """Writes these lines between the marks of this name, on the page with these marks."""
    for page in PAGES:
        text = read(page)
        updated = marks(name).sub(lambda mark: mark[1] + "\n".join(lines) + "\n" + mark[3], text)
        if marks(name).search(text):
            with open(page, "w", encoding="utf-8") as file:
                file.write(updated)
            return
    raise ValueError(f"no page has marks of {name}")


def write_long(found, lines):
    """Writes the measurements of the long run into the page, if none of it failed."""
    if lines and not found.count(FAILED):
        replace("long", lines)


def write(found, parts, more):
    """Writes the measurements of these parts into the pages, each between its marks, and other
    tables between theirs."""
    for mark, part in parts.items():
        lines = pairs(found, part)
        if lines:
            replace(mark, lines)
    if any("query" in what for _, what, _ in found.seen):
        replace("answers", answers(found))
    for mark, lines in more.items():
        if lines:
            replace(mark, lines)
    skipped = [f"- {row.names.peer} {row.what}: {row.note}" for row in found.rows
               if row.outcome == SKIPPED]
    day = time.strftime("%Y-%m-%d", time.gmtime())
    counts = [f"{found.count(outcome)} {outcome}" for outcome in ("passed", FAILED, SKIPPED)]
    lines = [f"Measured on {day} on {system()}: {', '.join(counts)}."]
    replace("run", lines + (["", "Skipped:", "", *skipped] if skipped else []))
