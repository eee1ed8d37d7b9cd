"""What jobs took in the last release, and the cells of tables that compare with it.

The first line of released.txt has the version, and each other a job, a kind of units, and
instructions a unit. A cell says `now / released = ratio`; that of a job which the release doesn't
have says only `now`.
"""
import os
import re

from speed_page import lines_of_page, table_at

FILE = os.path.join(os.path.dirname(os.path.abspath(__file__)), "released.txt")
CELL = re.compile(r"(\d+)( / \d+ = [\d.]+)?$")
ROW = re.compile(r"(.+) (\S+) (\d+)$")

# By how much a number on a page may differ, and how much more than in the release a job may take,
# as a share or as a number.
SHARE, LEAST = 0.03, 1


def read():
    """Returns the version, and instructions a unit by job and kind."""
    with open(FILE, encoding="ascii") as file:
        version, *lines = file.read().splitlines()
    rows = (ROW.match(line).groups() for line in lines)
    return version, {(job, kind): int(number) for job, kind, number in rows}


def write(version, counted):
    """Puts this version into the file, and what these jobs take by job and kind."""
    found = read()[1] | {key: round(number) for key, number in counted.items()}
    with open(FILE, "w", encoding="ascii") as file:
        print(version, *(f"{job} {kind} {number}" for (job, kind), number in found.items()),
              sep="\n", file=file)


def is_near(shown, counted):
    """Reports whether a number on a page is near enough."""
    return abs(shown - counted) <= max(LEAST, SHARE * counted)


def is_more(number, before):
    """Reports whether a job takes more than it may, beside the release."""
    return before is not None and number - before > max(LEAST, SHARE * before)


def cell(now, before):
    """Returns a cell of a table."""
    now = round(now)
    return f"{now} / {before} = {now / before:.2f}" if before else f"{now}"


def fault(shown, now, before):
    """Returns what is wrong with a cell of a page, or None."""
    said = CELL.match(shown)
    number = int(said[1]) if said else 0
    if not is_near(number, now) or shown != cell(number, before):
        return f"`{shown}`, counted {cell(now, before)}"
    if is_more(now, before) and not is_more(number, before):
        return f"`{shown}`, but {cell(now, before)} is more than the page says"
    return None


def head(title, kinds):
    """Returns the first lines of a table, which name the release."""
    return [f"| {title}, now / in {read()[0]} | " + " | ".join(kinds) + " |",
            "|---" * (len(kinds) + 1) + "|"]


def row(job, kinds, counted):
    """Returns the row of a job, by what was counted by job and kind."""
    before = read()[1]
    cells = (cell(counted[job, kind], before.get((job, kind))) for kind in kinds)
    return f"| `{job}` | " + " | ".join(cells) + " |"


def table(kinds, counted):
    """Returns a table."""
    jobs = dict.fromkeys(job for job, _ in counted)
    return head("Job", kinds) + [row(job, kinds, counted) for job in jobs]


def faults_of_row(shown, job, kinds, counted):
    """Yields what is wrong with the row of a job on docs/SPEED.md."""
    name, *cells = (text.strip() for text in shown.strip("|").split("|"))
    if name != f"`{job}`" or len(cells) != len(kinds):
        yield f"docs/SPEED.md: `{shown}` isn't the row of {job}"
        return
    before = read()[1]
    for kind, text in zip(kinds, cells):
        wrong = fault(text, counted[job, kind], before.get((job, kind)))
        if wrong:
            yield f"docs/SPEED.md: {job}, {kind}: {wrong}"


def faults(marker, kinds, counted):
    """Yields what is wrong with the table on docs/SPEED.md below this line."""
    jobs = list(dict.fromkeys(job for job, _ in counted))
    lines = lines_of_page()
    lines = lines[slice(*table_at(lines, marker))]
    if lines[:2] != head("Job", kinds) or len(lines) != 2 + len(jobs):
        yield f"docs/SPEED.md: the table of {', '.join(jobs)} has another head, or other rows"
        return
    for shown, job in zip(lines[2:], jobs):
        yield from faults_of_row(shown, job, kinds, counted)
