"""How a scene reaches each state in which units may come (docs/SESSIONS.md, "The client")."""
from dataclasses import dataclass
from typing import Optional

from scene import SECOND, Scene
from units import (SESSION, cache_reset, end, ipv4, notify, report, reset_query, response,
                   serial_query)

RETRY = 600 * SECOND  # while there are data, and the cache answered nothing on the connection
SERIAL = 5  # of the data that the router has
OLD = (1, 2)  # the ASes of the prefixes that it has


def data_of(version, serial, asns, session=SESSION):
    """Returns data in canonical form: prefixes of these ASes, and the end of data."""
    return b"".join(ipv4(version, asn) for asn in asns) + end(version, serial, session)


@dataclass
class State:
    """The state of a router, as far as it matters for what may come."""
    scene: Scene
    phase: str  # asked, reading, waiting
    agreed: bool  # on the version, by what the cache answered on this connection
    serial: Optional[bool]  # whether the query was a serial query
    has_data: bool
    version: int
    asked: int = 0  # when the last query was sent
    wait: int = SECOND  # from the end of this connection to the next one, for most faults


def answer(scene, time, version, serial, asns, session=SESSION):
    """The cache answers a reset query, and the router has its data."""
    scene.cache(time, response(version, session) + data_of(version, serial, asns, session))
    scene.shows(time, data_of(version, serial, asns, session))


def first_reset(name, about, version, **settings):
    scene = Scene(name, about, version, **settings)
    scene.asks(0, version)
    return State(scene, "asked", False, False, False, version, 10)


def waiting(name, about, version, **settings):
    state = first_reset(name, about, version, **settings)
    answer(state.scene, 100, version, SERIAL, OLD)
    state.phase, state.agreed, state.has_data, state.serial = "waiting", True, True, None
    return state


def first_serial(name, about, version):
    state = waiting(name, about, version)
    state.scene.closes(5 * SECOND)
    state.scene.ends(5 * SECOND)
    state.scene.asks(6 * SECOND, version, SERIAL, SESSION)
    state.phase, state.agreed, state.serial = "asked", False, True
    state.asked = state.scene.now
    return state


def again_serial(name, about, version):
    state = waiting(name, about, version)
    state.scene.cache(5 * SECOND, notify(version, SERIAL + 1))
    state.scene.sends(5 * SECOND, serial_query(version, SERIAL))
    state.phase, state.serial, state.asked = "asked", True, 5 * SECOND
    return state


def again_reset(name, about, version):
    state = again_serial(name, about, version)
    state.scene.cache(5200, cache_reset(version))
    state.scene.sends(5200, reset_query(version))
    state.serial, state.asked = False, 5200
    return state


def first_reset_with_data(name, about, version):
    """A serial query was answered by a report, and another connection is made for all data."""
    state = again_serial(name, about, version)
    state.scene.cache(5200, report(version, 1))
    state.scene.ends(5200)
    state.scene.asks(6200, version)
    state.agreed, state.serial, state.asked, state.wait = False, False, 6210, RETRY
    return state


def reading(of):
    """The cache response to the query of another state has come."""
    def begin(name, about, version):
        state = of(name, about, version)
        state.scene.cache(state.scene.now + 100, response(version))
        state.phase, state.agreed = "reading", True
        return state
    return begin


def without_data(of):
    """The cache has reported that it has no data: the next query is a reset query (section 8.4)."""
    def begin(name, about, version):
        state = of(name, about, version)
        state.scene.cache(state.scene.now + 100, report(version, 2))
        state.scene.has_none(state.scene.now)
        state.phase, state.agreed, state.serial = "waiting", True, False
        return state
    return begin


STATES = {
    "first-reset": first_reset,
    "first-serial": first_serial,
    "again-serial": again_serial,
    "again-reset": again_reset,
    "first-reset-with-data": first_reset_with_data,
    "reading-all": reading(first_reset),
    "reading-changes": reading(again_serial),
    "reading-first-changes": reading(first_serial),
    "reading-all-again": reading(again_reset),
    "waiting": waiting,
    "waiting-without-data": without_data(first_reset),
    "waiting-beside-none": without_data(again_serial),
}
