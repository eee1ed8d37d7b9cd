"""The results of a run: a row for each comparison, lines on the screen, tables of the pages."""
import os
import re
import threading
import traceback
from typing import NamedTuple

from processes import Missing

FOLDER = os.path.dirname(os.path.abspath(__file__))
README = os.path.join(FOLDER, "README.md")
PASSED, FAILED, SKIPPED = "passed", "failed", "skipped"
OUTCOMES = (PASSED, FAILED, SKIPPED)

# The word for a difference that README.md lists.
NAMED = "a difference that README.md lists"

# How many differences of a comparison are printed, and how much of the observed values.
SHOWN, SEEN = 4, 1000


class Names(NamedTuple):
    """A pair: the part of the run, the peer, the version of RTR, and that of the peer's package."""
    part: str
    peer: str
    version: str
    release: str

    def column(self):
        """Returns its column in a table of scenes."""
        return f"{self.peer} ({self.release})"


class Row(NamedTuple):
    """A comparison: its peer, its subject, its number of units, and its result."""
    names: Names
    what: str
    outcome: str
    units: int | None
    note: str

    def line(self):
        """Returns it as a line for the screen."""
        units = "" if self.units is None else f", {self.units} units"
        note = f": {self.note}" if self.note else ""
        peer = f"{self.names.peer} {self.names.version}".strip()
        loud = "!!! " if self.outcome == SKIPPED else ""
        return f"{loud}{self.outcome}  {peer}, {self.what}{units}{note}"


class Results:
    """All rows of a run, and other observations."""

    def __init__(self):
        self.rows = []
        self.seen = []
        self.lock = threading.Lock()

    def add(self, row):
        """Adds a row, and prints it."""
        with self.lock:
            self.rows.append(row)
            print(row.line(), flush=True)

    def again(self):
        """Returns the lines of what was skipped, and of what failed, for the end of a log."""
        return [row.line() for outcome in (SKIPPED, FAILED) for row in self.rows
                if row.outcome == outcome]

    def count(self, outcome):
        """Returns how many rows have this result."""
        return sum(row.outcome == outcome for row in self.rows)


class Pair:
    """What is compared with one peer in one version."""

    def __init__(self, results, part, peer, version, release=""):
        self.results = results
        self.names = Names(part, peer, version, release)

    def __enter__(self):
        return self

    def __exit__(self, kind, error, _trace):
        if kind is None:
            return False
        if issubclass(kind, Missing):
            self.skip("all", str(error))
            return True
        if issubclass(kind, Exception):
            where = " < ".join(places(error))
            self.add("all", FAILED, None, f"{kind.__name__}: {error} ({where})")
            return True
        return False

    def add(self, what, outcome, units, note):
        """Adds a row."""
        self.results.add(Row(self.names, what, outcome, units, note))

    def skip(self, what, reason):
        """Records what isn't compared, and why."""
        self.add(what, SKIPPED, None, reason)

    def holds(self, what, holds, note="", units=None):
        """Passes if this holds."""
        self.add(what, PASSED if holds else FAILED, units, "" if holds else note)

    def equal(self, what, got, expected, units=None, seen=""):
        """Passes if both are equal, or if README.md lists the difference; else shows the
        difference, and the observed value."""
        if got != expected and what in self.known():
            return self.add(what, PASSED, 0, NAMED)
        note = difference(got, expected) if got != expected else ""
        if note and seen:
            note += f"; seen: {seen[:SEEN]}"
        counts = units if units is not None else len(expected)
        return self.add(what, FAILED if note else PASSED, counts, note)

    def column(self):
        """Returns its column in a table of scenes."""
        return self.names.column()

    def known(self):
        """Returns the findings that README.md lists for this pair."""
        return {text for *names, text in known() if names == [self.names.peer, self.names.version]}

    def sees(self, what, seen):
        """Stores an observation, for the table of the page."""
        with self.results.lock:
            self.results.seen.append((self.names, what, seen))


def places(error):
    """Returns the last lines of the run's own code that led to an error."""
    frames = traceback.extract_tb(error.__traceback__)
    own = [frame for frame in frames if os.path.dirname(os.path.abspath(frame.filename)) == FOLDER]
    return [f"{os.path.basename(frame.filename)}:{frame.lineno}" for frame in own[:-4:-1]]


def difference(got, expected):
    """Returns where two sets, lists or values differ, in short."""
    if isinstance(got, list) and isinstance(expected, set):
        return f"{len(got)} lines, of which {len(set(got))} differ"
    if isinstance(got, (set, frozenset)) and isinstance(expected, (set, frozenset)):
        more, less = sorted(map(str, got - expected)), sorted(map(str, expected - got))
        return f"{len(more)} more {more[:SHOWN]}, {len(less)} missing {less[:SHOWN]}"
    if isinstance(got, (list, tuple, bytes)) and isinstance(expected, (list, tuple, bytes)):
        pairs = zip(got, expected)
        index = next((i for i, (g, w) in enumerate(pairs) if g != w), min(len(got), len(expected)))
        piece = slice(index, index + 1)
        counts = f"{len(got)} in place of {len(expected)}"
        return f"{counts}, from {index}: {got[piece]}, not {expected[piece]}"
    return f"{got!r}, not {expected!r}"


# A row of the table of known findings in README.md.
KNOWN = re.compile(r"^\| ([^|]+) \| (v[v0-9, ]+) \| `([^`]+)` \|", re.MULTILINE)


def known():
    """Returns the findings that README.md lists: peer, version and text."""
    with open(README, encoding="utf-8") as file:
        text = file.read()
    return {
        (peer, version.strip(), found)
        for peers, versions, found in KNOWN.findall(text)
        for peer in each_of(peers) for version in versions.split(",")
    }


def each_of(peers):
    """Returns the peers of a row: several may share a cache."""
    names, separator, cache = peers.partition(" at ")
    return [f"{name}{separator}{cache}" for name in names.split(", ")]
