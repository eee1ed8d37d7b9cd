"""The lines of a scene after a unit has reached a cache: its outcome, and what follows."""
import editions
from cache_rules import VERSION
from cache_states import NO_DATA, PAUSE, EARLIER
from rules import REFUSED
from scene import SECOND
from units import OTHER_SESSION, cache_reset, notify, reset_query, serial_query


def goes_on(state):
    """Plays new data: a notify of them, a query of the version, and one of another."""
    scene, version, session = state.scene, state.version, state.session
    known, state.present = state.present, state.present + 1
    scene.has(scene.now + SECOND, editions.data(state.present, session))
    time = scene.now if state.notified is None else max(scene.now, state.notified + PAUSE)
    if time > scene.now:
        scene.passes(time - 1)
        scene.passes(time)
    scene.sends(notify(version, state.present, session))
    scene.router(scene.now + 100, serial_query(version, known, session))
    scene.sends(editions.changes(version, known, state.present, session))
    other = (version + 1) % 3
    scene.router(scene.now + 100, reset_query(other))
    scene.reports(version, *VERSION[:1], reset_query(other), VERSION[1])
    scene.ends()


def quiet(state):
    """The cache sends nothing more, whatever comes: new data, another session, a query, a day."""
    scene = state.scene
    scene.has(scene.now + SECOND, editions.data(8))
    scene.router(scene.now + 100, reset_query(1))
    scene.has(scene.now + SECOND, editions.data(3, OTHER_SESSION))
    scene.passes(scene.now + 100_000 * SECOND)


def gives_all(state, case, unit, version):
    state.version = version
    state.scene.sends(editions.everything(version, state.present, state.session))
    goes_on(state)


def gives_changes(state, case, unit, version):
    state.version = version
    state.scene.sends(editions.changes(version, case.serial, state.present, state.session))
    goes_on(state)


def gives_reset(state, case, unit, version):
    state.version = version
    state.scene.sends(cache_reset(version))
    goes_on(state)


def gives_none(state, case, unit, version):
    state.version = version
    scene = state.scene
    scene.reports(version, 2, unit, NO_DATA)
    scene.passes(scene.now + 2 * SECOND)
    scene.has(scene.now + SECOND, editions.data(EARLIER))
    scene.sends(notify(version, EARLIER))
    state.present, state.notified = EARLIER, scene.now
    goes_on(state)


def ends(state, case, unit, version):
    state.scene.ends()
    quiet(state)


def breach(state, case, unit, version, code, text):
    """Plays a report in the version of the connection; without one in that of the unit, or in
    version 2 if that is lower."""
    about = unit if case.kind != REFUSED else unit[:case.about]
    own = state.version if state.asked else min(version, 2)
    state.scene.reports(own, code, about, text)
    ends(state, case, unit, version)


def refused(state, case, unit, version):
    breach(state, case, unit, version, case.code, case.text)


OUTCOMES = {"all": gives_all, "changes": gives_changes, "reset": gives_reset,
            "no data": gives_none, "ends": ends, "refused": refused}


def come_to(outcome, state, case, unit, version):
    if isinstance(outcome, tuple):
        breach(state, case, unit, version, *outcome)
    else:
        OUTCOMES[outcome](state, case, unit, version)
