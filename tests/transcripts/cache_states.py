"""How a scene reaches each state of a cache's end (docs/SESSIONS.md, "The cache")."""
from dataclasses import dataclass
from typing import Optional

import editions
from cache_scene import CacheScene
from scene import SECOND
from units import OTHER_SESSION, SESSION, cache_reset, notify, report, reset_query, serial_query

FIRST_LIMIT, IDLE_LIMIT, PAUSE = 30 * SECOND, 90_000 * SECOND, 60 * SECOND
EARLIER, SERIAL = 4, 5  # the serial numbers of the data from which there are changes, at first
UNKNOWN = 2  # one from which there are no changes
NO_DATA = "the cache has no data yet"
FULL = "too many connections"


@dataclass
class State:
    """The state of a cache's end of a connection, as far as it matters for what may come."""
    scene: CacheScene
    version: Optional[int]  # that of the connection, once a query came
    present: Optional[int]  # the serial number of the newest data, if there are any
    notified: Optional[int] = None  # when the last notify was sent
    refuses: bool = False
    over: bool = False
    session: int = SESSION  # of the newest data
    first: int = EARLIER  # the first serial number from which there are changes

    @property
    def asked(self):
        return self.version is not None


def begun(name, about, has_data, **settings):
    """A router has connected."""
    scene = CacheScene(name, about, **settings)
    if has_data:
        scene.has(0, editions.data(EARLIER))
        scene.has(0, editions.data(SERIAL))
    scene.connects(10)
    return State(scene, None, SERIAL if has_data else None, refuses="refuses" in settings)


def silent(name, about, version):
    return begun(name, about, True)


def silent_without_data(name, about, version):
    return begun(name, about, False)


def silent_refusing(name, about, version):
    return begun(name, about, True, refuses="")


def answers(state, version, query, answer):
    """A query comes and is answered."""
    state.scene.router(state.scene.now + 100, query)
    state.scene.sends(answer)
    state.version = version
    return state


def given_all(name, about, version):
    return answers(silent(name, about, version), version, reset_query(version),
                   editions.everything(version, SERIAL))


def given_changes(name, about, version):
    return answers(silent(name, about, version), version, serial_query(version, EARLIER),
                   editions.changes(version, EARLIER, SERIAL))


def given_none_of_changes(name, about, version):
    return answers(silent(name, about, version), version, serial_query(version, SERIAL),
                   editions.changes(version, SERIAL, SERIAL))


def given_reset(name, about, version):
    return answers(silent(name, about, version), version, serial_query(version, UNKNOWN),
                   cache_reset(version))


def given_reset_and_moved(name, about, version):
    """A cache reset told of no data: those of another session come without a word, nor an end."""
    state = given_reset(name, about, version)
    state.scene.has(2 * SECOND, editions.data(SERIAL, OTHER_SESSION))
    state.session, state.first = OTHER_SESSION, SERIAL
    return state


def given_no_data(name, about, version):
    state, query = silent_without_data(name, about, version), reset_query(version)
    state.scene.router(state.scene.now + 100, query)
    state.scene.reports(version, 2, query, NO_DATA)
    state.version = version
    return state


def refusing(name, about, version):
    return answers(silent_refusing(name, about, version), version, reset_query(version),
                   editions.everything(version, SERIAL))


def notified(name, about, version):
    """Its first data came after a query, and a notify of them was sent."""
    state = given_no_data(name, about, version)
    state.scene.has(2 * SECOND, editions.data(EARLIER))
    return renew(state, EARLIER)


def pausing(name, about, version):
    """There are newer data than those of the last notify, which is less than a pause ago."""
    state = given_all(name, about, version)
    state.scene.has(2 * SECOND, editions.data(6))
    state = renew(state, 6)
    state.scene.has(3 * SECOND, editions.data(7))
    state.present = 7
    return state


def renew(state, serial):
    """The data of this serial number came, and a notify is sent."""
    state.scene.sends(notify(state.version, serial))
    state.present, state.notified = serial, state.scene.now
    return state


def reported(name, about, version):
    """The connection ended at a report of the router."""
    state = given_all(name, about, version)
    state.scene.router(state.scene.now + 100, report(version, 1))
    return ended(state)


def crowded(name, about, version):
    """The cache has more connections than it may have, by this one."""
    scene = CacheScene(name, about)
    scene.has(0, editions.data(SERIAL))
    scene.connects(10, beyond=True)
    scene.reports(2, 1, b"", FULL)
    return ended(State(scene, None, SERIAL))


def moved(name, about, version):
    """The data are of another session now, and the connection ended."""
    state = given_all(name, about, version)
    state.scene.has(2 * SECOND, editions.data(SERIAL, OTHER_SESSION))
    return ended(state)


def given_all_and_reset_and_moved(name, about, version):
    """The same: it was told of data before it was given a cache reset."""
    state = answers(given_all(name, about, version), version, serial_query(version, UNKNOWN),
                    cache_reset(version))
    state.scene.has(2 * SECOND, editions.data(SERIAL, OTHER_SESSION))
    return ended(state)


def ended(state):
    state.scene.ends()
    state.over = True
    return state


# Before a query, while the connection has no version yet.
FIRST = {
    "silent": silent,
    "silent-without-data": silent_without_data,
    "silent-refusing": silent_refusing,
}
# After one.
LATER = {
    "given-all": given_all,
    "given-changes": given_changes,
    "given-none-of-changes": given_none_of_changes,
    "given-reset": given_reset,
    "given-reset-and-moved": given_reset_and_moved,
    "given-no-data": given_no_data,
    "notified": notified,
    "pausing": pausing,
    "refusing": refusing,
}
# After the end.
OVER = {
    "reported": reported,
    "crowded": crowded,
    "moved": moved,
    "given-all-and-reset-and-moved": given_all_and_reset_and_moved,
}
