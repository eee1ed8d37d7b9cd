"""What each unit comes to in each state: one table, in the order in which its rows are looked at.

A row names the state (its phase, whether a version is agreed on, and the query), the unit (its
kind, its version beside that of the connection, and its other fields: its code, its session, its
serial number), what it comes to, and the section of RFC 8210. None stands for any.
"""
NOTIFY, QUERY, RESPONSE, PREFIX, KEY, ASPA, END, RESET, REPORT, REFUSED = (
    "serial notify", "query", "cache response", "prefix", "router key", "ASPA", "end of data",
    "cache reset", "report", "refused unit")
SAME, LOWER, HIGHER, OTHER = "same", "lower", "higher", "other"
ASKED, READING, WAITING = "asked", "reading", "waiting"
FIRST, AGREED = False, True
ALL, CHANGES = False, True
PAYLOAD = (PREFIX, KEY, ASPA)

# Texts of reports, with their codes (section 12).
VERSION = (8, "unit of another version than the session")
HIGHER_ANSWER = (4, "answer of a higher version than the query")
MISPLACED = (5, "unit is not allowed here")
NO_PAYLOAD = (5, "version does not have such payloads")
SESSION = (0, "unit of another session")
BACKWARDS = (0, "serial number before that of the query")

ROWS = [
    # phase   agreed  query    unit       version session comes to      section
    # Reports: none is answered by a report (5.11).
    (ASKED,   FIRST,  None,    REPORT,    None,   "4",    "falls",      "7, 12"),
    (ASKED,   FIRST,  None,    REPORT,    LOWER,  None,   "falls",      "7"),
    (ASKED,   None,   None,    REPORT,    SAME,   "2",    "no data",    "8.4"),
    (READING, None,   None,    REPORT,    SAME,   "2",    "no data",    "8.4"),
    (None,    None,   None,    REPORT,    None,   None,   "ends",       "5.11, 12"),
    (None,    None,   None,    REFUSED,   None,   "report", "refused",  "5.11"),
    # Versions: before one is agreed on, notifies are ignored, and the first answer decides.
    (ASKED,   FIRST,  None,    NOTIFY,    None,   None,   "passed over", "5.2"),
    (ASKED,   FIRST,  None,    None,      HIGHER, None,   HIGHER_ANSWER, "7"),
    (ASKED,   FIRST,  CHANGES, RESPONSE,  LOWER,  None,   "falls there", "7"),
    (ASKED,   FIRST,  CHANGES, RESET,     LOWER,  None,   "falls there", "7"),
    (ASKED,   FIRST,  ALL,     RESPONSE,  LOWER,  None,   "begins",     "7"),
    (None,    AGREED, None,    None,      LOWER,  None,   VERSION,      "7"),
    (None,    AGREED, None,    None,      HIGHER, None,   VERSION,      "7"),
    (None,    None,   None,    REFUSED,   None,   None,   "refused",    "12"),
    # Awaiting an answer.
    (ASKED,   None,   CHANGES, RESPONSE,  SAME,   OTHER,  "drops",      "5.1"),
    (ASKED,   None,   None,    RESPONSE,  SAME,   None,   "begins",     "5.5"),
    (ASKED,   None,   CHANGES, RESET,     SAME,   None,   "asks for all", "8.3"),
    (ASKED,   AGREED, None,    NOTIFY,    SAME,   None,   "noted",      "5.2"),
    (ASKED,   None,   None,    None,      None,   None,   MISPLACED,    "5.6, 12"),
    # Reading a response.
    (READING, None,   None,    NOTIFY,    SAME,   OTHER,  "drops",      "5.1"),
    (READING, None,   None,    NOTIFY,    SAME,   None,   "noted",      "5.2"),
    (READING, None,   None,    PAYLOAD,   SAME,   "has",  "kept",       "5.6"),
    (READING, None,   None,    PAYLOAD,   SAME,   None,   NO_PAYLOAD,   "5.10"),
    (READING, None,   None,    END,       SAME,   OTHER,  "drops",      "5.1"),
    (READING, None,   CHANGES, END,       SAME,   "back", BACKWARDS,    "5.8; RFC 1982"),
    (READING, None,   None,    END,       SAME,   None,   "applied",    "5.8"),
    (READING, None,   None,    None,      None,   None,   MISPLACED,    "5.6, 12"),
    # Waiting.
    (WAITING, None,   None,    NOTIFY,    SAME,   OTHER,  "drops",      "5.1"),
    (WAITING, None,   None,    NOTIFY,    SAME,   "known", "passed over", "5.2"),
    (WAITING, None,   None,    NOTIFY,    SAME,   None,   "asks",       "5.2, 8.2"),
    (WAITING, None,   None,    None,      None,   None,   MISPLACED,    "5.6, 12"),
]


def row_of(state, case, version):
    """Returns the first row that matches a unit in a state."""
    relation = SAME if version == state.version else LOWER if version < state.version else HIGHER
    notes = case.notes(state, version)
    for row in ROWS:
        phase, agreed, query, kinds, versions, note, outcome, section = row
        if (phase in (None, state.phase) and agreed in (None, state.agreed)
                and query in (None, state.serial) and fits(kinds, case.kind)
                and versions in (None, relation) and (note is None or note in notes)):
            return outcome, section
    raise ValueError(f"no row for {case.name} while {state.phase}")


def fits(kinds, kind):
    return kinds is None or kind == kinds or (isinstance(kinds, tuple) and kind in kinds)
