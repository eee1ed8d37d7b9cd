"""The families of scenes: each kind of unit in each state, and what is cut (README.md)."""
import itertools

import cache_cuts
import cache_outcomes
import cache_rules
import cache_states
import cases
import cuts
import outcomes
import rules
import states


def scene_of_unit(name, state_name, case, of_connection, of_unit):
    """A unit of a version comes in a state."""
    case = cases.as_in(case, of_unit)
    about = f"While the router is in the state {state_name}, in version {of_connection},"
    state = states.STATES[state_name](name, about, of_connection)
    unit = case.make(of_unit)
    outcome, section = rules.row_of(state, case, of_unit)
    expected = outcome if isinstance(outcome, str) else f"report {outcome[0]}"
    comes = f"# {case.name} of version {of_unit} comes: {expected} ({section})."
    state.scene.lines.insert(2, comes)
    state.scene.cache_one(state.scene.now + 100, unit)
    outcomes.come_to(outcome, state, case, unit, of_unit)
    return state.scene


def units_in_states():
    for state_name in states.STATES:
        for of_connection in (0, 1, 2):
            for of_unit in (0, 1, 2, 3):
                if of_connection != 1 and of_unit != of_connection:
                    continue
                for case in cases.GOOD + cases.BAD:
                    name = f"{state_name}-v{of_connection}-{case.name}-v{of_unit}"
                    yield scene_of_unit(name, state_name, case, of_connection, of_unit)


def scene_at_cache(name, state_name, states_of, case, of_connection, of_unit):
    """A unit of a version comes to a cache in a state."""
    case = cases.as_in(case, of_unit)
    about = f"A cache is in the state {state_name}"
    about += "." if of_connection is None else f", in version {of_connection}."
    state = states_of[state_name](name, about, of_connection)
    unit = case.make(of_unit)
    after = len(state.scene.lines)
    state.scene.router(state.scene.now + 100, unit)
    if state.over:
        cache_outcomes.quiet(state)
        return state.scene
    outcome, section = cache_rules.row_of(state, case, of_unit)
    expected = outcome if isinstance(outcome, str) else f"report {outcome[0]}"
    state.scene.lines.insert(after, f"# {case.name} of version {of_unit}: {expected} ({section}).")
    cache_outcomes.come_to(outcome, state, case, unit, of_unit)
    return state.scene


def units_at_cache():
    """Yields the states before a query, after one, and after the end."""
    for case in cache_rules.CASES:
        for of_unit in (0, 1, 2, 3):
            for states_of in (cache_states.FIRST, cache_states.LATER, cache_states.OVER):
                for state_name in states_of:
                    versions = (None,) if states_of is cache_states.FIRST else (0, 1, 2)
                    for of_connection in versions:
                        if of_connection in (0, 2) and of_unit != of_connection:
                            continue
                        version = "" if of_connection is None else f"-v{of_connection}"
                        name = f"{state_name}{version}-{case.name}-v{of_unit}"
                        yield scene_at_cache(name, state_name, states_of, case, of_connection,
                                             of_unit)


def scenes_of(end):
    """Generates the families of a router or a cache."""
    if end == "cache":
        return itertools.chain(units_at_cache(), cache_cuts.scenes())
    return itertools.chain(units_in_states(), cuts.scenes())
