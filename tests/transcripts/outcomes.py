"""The lines of a scene after a unit has come: its outcome, and what the router does next."""
from cases import NEW
from rules import REFUSED
from scene import SECOND
from states import OLD, SERIAL, answer, data_of
from units import SESSION, end, ipv4, reset_query, response, serial_query

NEXT = SERIAL + 1  # the serial number of the answers below
RETRY, PAUSE = 600 * SECOND, SECOND


def query_serial(state):
    """Returns the serial number that the next query asks from, or None if it asks for all."""
    return SERIAL if state.has_data and state.serial is not False else None


def asks_here(state, time, serial):
    """Plays a query on the open connection."""
    version = state.version
    query = reset_query(version) if serial is None else serial_query(version, serial)
    state.scene.sends(time, query)


def completes(state, version, session=SESSION, serial=NEXT):
    """Plays the rest of a good answer, after its cache response."""
    scene, time = state.scene, state.scene.now + 100
    scene.cache(time, ipv4(version, NEW) + end(version, serial, session))
    base = OLD if state.serial else ()
    scene.shows(time, data_of(version, serial, base + (NEW,), session))


def answers(state, version, session=SESSION):
    """Plays a good answer, or the rest of it."""
    if state.phase == "asked":
        state.scene.cache(state.scene.now + 100, response(version, session))
    completes(state, version, session)


def quiet(state):
    """The router does nothing for two seconds."""
    state.scene.passes(state.scene.now + 2 * SECOND)


def gone(state, dropped=False):
    """The connection has ended: the router makes the next one, and asks for what it has to."""
    scene = state.scene
    scene.ends(scene.now)
    all_next = dropped or query_serial(state) is None or state.phase != "waiting"
    scene.asks(scene.now + state.wait, state.version, None if all_next else SERIAL,
               None if all_next else SESSION)


# ---- the outcome of a unit

def passed_over(state, case, unit, version):
    if state.phase == "asked":
        answers(state, state.version)
    quiet(state)


def noted(state, case, unit, version):
    """Heeded after the answer, if that has another serial number."""
    answers(state, state.version)
    time = max(state.scene.now, state.asked + PAUSE)
    state.scene.passes(time)
    asks_here(state, time, NEXT)


def begins(state, case, unit, version):
    completes(state, version, case.session)


def kept(state, case, unit, version):
    scene, time = state.scene, state.scene.now + 100
    base = data_of(version, NEXT, OLD if state.serial else ())
    last = end(version, NEXT)
    scene.cache(time, last)
    scene.shows(time, base[:-len(last)] + unit + last)


def applied(state, case, unit, version):
    state.scene.shows(state.scene.now, data_of(version, case.serial, OLD if state.serial else (),
                                               case.session))
    quiet(state)


def asks(state, case, unit, version):
    """At once, or a pause after the query before."""
    time = max(state.scene.now, state.asked + PAUSE)
    state.scene.passes(time)
    asks_here(state, time, query_serial(state))


def asks_for_all(state, case, unit, version):
    asks_here(state, state.scene.now, None)
    answer(state.scene, state.scene.now + 100, version, NEXT, (NEW,))


def has_none(state, case, unit, version):
    scene = state.scene
    scene.has_none(scene.now)
    time = scene.now + RETRY
    scene.passes(time)
    asks_here(state, time, None)


def falls(state, case, unit, version, lower=None):
    """It connects at once in a lower version; in version 0 there is none, and it ends."""
    scene = state.scene
    if state.version == 0:
        return gone(state)
    lower = state.version - 1 if lower is None else lower
    scene.ends(scene.now)
    scene.asks(scene.now, lower)
    answer(scene, scene.now + 100, lower, NEXT, (NEW,))


def falls_there(state, case, unit, version):
    falls(state, case, unit, version, version)


def ends(state, case, unit, version):
    gone(state)


def drops(state, case, unit, version):
    scene = state.scene
    if state.has_data:
        scene.drops(scene.now)
    scene.reports(scene.now, state.version, 0, unit, "unit of another session")
    gone(state, dropped=True)


def refused(state, case, unit, version):
    if case.code is None:
        gone(state)
    else:
        breach(state, case, unit, version, case.code, case.text)


def breach(state, case, unit, version, code, text):
    """Plays a report of this code, in the version of the connection."""
    about = unit if case.kind != REFUSED else unit[:case.about]
    state.scene.reports(state.scene.now, state.version, code, about, text)
    gone(state)


OUTCOMES = {"passed over": passed_over, "noted": noted, "begins": begins, "kept": kept,
            "applied": applied, "asks": asks, "asks for all": asks_for_all, "no data": has_none,
            "falls": falls, "falls there": falls_there, "ends": ends, "drops": drops,
            "refused": refused}


def come_to(outcome, state, case, unit, version):
    if isinstance(outcome, tuple):
        breach(state, case, unit, version, *outcome)
    else:
        OUTCOMES[outcome](state, case, unit, version)
