"""Two answers cut at each byte: into two reads, or by a cache that closes, breaks or stalls."""
from cases import NEW
from outcomes import NEXT
from scene import SECOND
from states import OLD, SERIAL, again_serial, answer, data_of, first_reset
from units import SESSION, end, ipv4, response, split

LIMIT = 120 * SECOND
VERSION = 1
ALL = response(VERSION) + data_of(VERSION, SERIAL, OLD)
CHANGES = (response(VERSION) + ipv4(VERSION, NEW) + ipv4(VERSION, OLD[0], 0)
           + end(VERSION, NEXT))
CHANGED = OLD[1:] + (NEW,)


def begun(name, changes, how):
    """Returns a router that has asked for all, or for changes."""
    answered = "changes are asked for" if changes else "all is asked for"
    about = f"{answered[0].upper()}{answered[1:]}, and the answer is cut: {how}."
    return (again_serial if changes else first_reset)(name, about, VERSION)


def left(data):
    """Returns the bytes after the last whole unit."""
    rest = data
    for unit in split(data):
        if len(unit) >= 8 and len(unit) == int.from_bytes(unit[4:8], "big"):
            rest = rest[len(unit):]
    return rest


def in_two(offset, changes):
    """The bytes come in two reads: the data are those of the whole answer."""
    data = CHANGES if changes else ALL
    name = f"cut-{'changes' if changes else 'all'}-{offset}-reads"
    state = begun(name, changes, f"it comes in two reads, of {offset} bytes and the others")
    scene = state.scene
    scene.cache_cut(scene.now + 100, data[:offset])
    scene.cache_cut(scene.now + 100, data[offset:])
    shown = data_of(VERSION, NEXT, CHANGED) if changes else data_of(VERSION, SERIAL, OLD)
    scene.shows(scene.now, shown)
    return scene


def goes_on(scene, again):
    """The next connection, a second later, asks again for the changes, or for all."""
    if again:
        scene.asks(scene.now + SECOND, VERSION, SERIAL, SESSION)
        scene.cache(scene.now + 100, CHANGES)
        scene.shows(scene.now, data_of(VERSION, NEXT, CHANGED))
    else:
        scene.asks(scene.now + SECOND, VERSION)
        answer(scene, scene.now + 100, VERSION, NEXT, (NEW,))


def ended(offset, changes, how):
    """The cache closes, breaks off or stalls after this many bytes: none of them is shown."""
    data = (CHANGES if changes else ALL)[:offset]
    name = f"cut-{'changes' if changes else 'all'}-{offset}-{how}"
    state = begun(name, changes, f"after {offset} bytes the cache {how}")
    scene = state.scene
    scene.cache_cut(scene.now + 100, data)
    if how == "stalls":
        time = state.asked + LIMIT
        scene.passes(time)
    elif how == "closes":
        scene.closes(scene.now + 100)
    else:
        scene.breaks(scene.now + 100)
    rest = left(data)
    if how == "closes" and rest:
        scene.reports(scene.now, VERSION, 0, rest, "unexpected end of input")
    scene.ends(scene.now)
    if offset == 0 and not changes and how != "stalls":  # silence (section 7)
        scene.asks(scene.now, VERSION - 1)
    else:
        goes_on(scene, changes and how == "stalls")
    return scene


def scenes():
    for changes in (False, True):
        length = len(CHANGES if changes else ALL)
        for offset in range(length):
            if offset:
                yield in_two(offset, changes)
            for how in ("closes", "breaks", "stalls"):
                yield ended(offset, changes, how)
