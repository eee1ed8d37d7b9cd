"""The result of each unit at a cache: one table, of which the first matching row applies.

A row has the state of the cache (whether a query came, and whether it has data), the unit (its
kind, its version compared with that of the connection or with the supported ones, and a further
condition), the result, and the section of RFC 8210. None stands for any.
"""
from cases import BAD, GOOD, Case
from cache_states import EARLIER, SERIAL, UNKNOWN
from rules import REFUSED, REPORT
from units import OTHER_SESSION, SESSION, reset_query, serial_query

ALL, CHANGES = "reset query", "serial query"
OWN, OTHER, NONE = "own", "other", "none"  # a version
ASKED, SILENT = True, False

VERSION = (8, "unit of another version than the session")
NO_VERSION = (4, "version is not supported")
NO_QUERY = (3, "unit is not a query")
CANNOT_TELL = (0, "no data of this session and serial number")

ROWS = [
    # query  data   unit      version  note        comes to     section
    # Reports: none is answered by a report.
    (None,   None,  REPORT,   None,    None,       "ends",      "5.11"),
    (None,   None,  REFUSED,  None,    "report",   "ends",      "5.11"),
    # Versions: the first query says which one the connection has.
    (ASKED,  None,  None,     OTHER,   None,       VERSION,     "7"),
    (SILENT, None,  None,     NONE,    None,       NO_VERSION,  "7"),
    (None,   None,  REFUSED,  None,    None,       "refused",   "12"),
    # Queries.
    (None,   False, ALL,      None,    None,       "no data",   "8.4"),
    (None,   False, CHANGES,  None,    None,       "no data",   "8.4"),
    (None,   True,  ALL,      None,    None,       "all",       "8.1"),
    (None,   True,  CHANGES,  None,    "known",    "changes",   "8.2"),
    (None,   True,  CHANGES,  None,    "refuses",  CANNOT_TELL, "5.1"),
    (None,   True,  CHANGES,  None,    None,       "reset",     "8.3"),
    # Nothing else may come.
    (None,   None,  None,     None,    None,       NO_QUERY,    "12"),
]

LATEST = 7  # of all that the states have


def query(name, serial, session=SESSION):
    return Case(name, CHANGES, lambda v: serial_query(v, serial, session), session=session,
                serial=serial)


QUERIES = [
    Case("reset-query", ALL, reset_query),
    query("serial-query", SERIAL),
    query("serial-query-earlier", EARLIER),
    query("serial-query-unknown", UNKNOWN),
    query("serial-query-to-come", LATEST + 1),
    query("serial-query-other-session", SERIAL, OTHER_SESSION),
    query("serial-query-unknown-other-session", UNKNOWN, OTHER_SESSION),
]
CASES = QUERIES + [case for case in GOOD + BAD if case.kind != "query"]


def known(state, case):
    """Reports whether the cache knows the changes: its editions go from the first to the present
    one."""
    return case.session == state.session and state.present is not None and (
        state.first <= case.serial <= state.present)


def row_of(state, case, version):
    """Returns the first row that matches a unit in a state."""
    relation = OWN if version == state.version or (not state.asked and version < 3) else (
        OTHER if state.asked else NONE)
    notes = {None}
    if case.kind == REFUSED and case.code is None:
        notes.add("report")
    if case.kind == CHANGES and known(state, case):
        notes.add("known")
    if state.refuses:
        notes.add("refuses")
    for row in ROWS:
        asked, has_data, kind, versions, note, outcome, section = row
        if (asked in (None, state.asked) and has_data in (None, state.present is not None)
                and kind in (None, case.kind) and versions in (None, relation)
                and note in notes):
            return outcome, section
    raise ValueError(f"no row for {case.name}")
