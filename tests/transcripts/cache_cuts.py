"""Queries that reach a cache in two reads, or incomplete."""
import editions
from cache_states import FIRST_LIMIT, SERIAL, given_all, silent
from cache_outcomes import goes_on, quiet
from cache_rules import VERSION
from scene import SECOND
from units import reset_query, serial_query

CUT = "unexpected end of input"


def of_query(version, by_serial):
    if by_serial:
        return serial_query(version, SERIAL), editions.changes(version, SERIAL, SERIAL)
    return reset_query(version), editions.everything(version, SERIAL)


def in_two(offset, version, by_serial):
    """A query is answered once it is complete."""
    query, answer = of_query(version, by_serial)
    name = f"query-v{version}-{len(query)}-in-two-at-{offset}"
    state = silent(name, f"A query of version {version} comes in two reads.", version)
    scene = state.scene
    scene.router_cut(scene.now + 100, query[:offset])
    scene.router_cut(scene.now + 5 * SECOND, query[offset:])
    scene.sends(answer)
    state.version = version
    goes_on(state)
    return scene


def two_at_once(version, by_serial, offset):
    """The rest of a query comes with the whole next one: both are answered."""
    query, answer = of_query(version, by_serial)
    name = f"query-v{version}-{len(query)}-twice-at-{offset}"
    state = given_all(name, "A query comes with the rest of the one before.", version)
    scene = state.scene
    scene.router_cut(scene.now + 100, query[:offset])
    scene.router_cut(scene.now + 100, query[offset:] + query)
    scene.sends(answer)
    scene.sends(answer)
    goes_on(state)
    return scene


def first(offset, version, by_serial, how):
    """A first query is incomplete when the router closes or breaks the connection, or at the time
    limit."""
    query, _ = of_query(version, by_serial)
    name = f"query-v{version}-{len(query)}-{how}-at-{offset}"
    state = silent(name, f"After {offset} bytes of a first query the router {how}.", version)
    scene = state.scene
    scene.router_cut(FIRST_LIMIT - 5 * SECOND, query[:offset])
    if how == "closes":
        scene.router_closes(scene.now + 100)
        scene.reports(min(version, 2), 4 if version > 2 else 0, query[:offset],
                      "version is not supported" if version > 2 else CUT)
    elif how == "breaks":
        scene.router_breaks(scene.now + 100)
    else:
        scene.passes(10 + FIRST_LIMIT - 1)
        scene.passes(10 + FIRST_LIMIT)
    scene.ends()
    quiet(state)
    return scene


def later(offset, version, of_unit, by_serial):
    """A later query, of the connection's version or another, is incomplete when the router
    closes."""
    query, _ = of_query(of_unit, by_serial)
    name = f"later-query-v{version}-v{of_unit}-{len(query)}-at-{offset}"
    state = given_all(name, f"After {offset} bytes of a later query the router closes.", version)
    scene = state.scene
    scene.router_cut(scene.now + 100, query[:offset])
    scene.router_closes(scene.now + 100)
    if of_unit == version:
        scene.reports(version, 0, query[:offset], CUT)
    else:
        scene.reports(version, VERSION[0], query[:offset], VERSION[1])
    scene.ends()
    quiet(state)
    return scene


def scenes():
    for by_serial in (False, True):
        for offset in range(1, 12 if by_serial else 8):
            for version in (0, 1, 2):
                yield in_two(offset, version, by_serial)
                yield two_at_once(version, by_serial, offset)
            for version in (0, 1, 2, 3):
                for how in ("closes", "breaks", "stalls"):
                    yield first(offset, version, by_serial, how)
                yield later(offset, 1, version, by_serial)
