"""Origin validation: the same routes looked up by ours, by rtrlib's manager and by BIRD, with the
data of one cache."""
import contextlib
import os
import random
import subprocess
import sys

import ours
import recorder
import routers
from payloads import Origin
from processes import Missing, package_version, program, until
from results import Pair

TOP = os.path.join(os.path.dirname(os.path.abspath(__file__)), "..")
sys.path.append(os.path.join(TOP, "tests", "libraries"))

import validity  # noqa: E402  (it lies in that folder)

PART = "validation"
SECONDS = 120

# How many random tables of each kind give VRPs, and how many routes are looked up.
DRAWN, ROUTES = 4, 3000

# The states as rtrlib and as BIRD number them (enum pfxv_state; ROA_UNKNOWN, ROA_VALID,
# ROA_INVALID).
OF_RTRLIB = ["valid", "not found", "invalid"]
OF_BIRD = ["not found", "valid", "invalid"]


def is_taken(vrp):
    """Reports whether all of them accept a VRP: BIRD has none of addresses that aren't unicast, and
    rtrlib 0.8.0 fails an assertion at each lookup if one has length 0."""
    if vrp.width == 128:
        return vrp.length > 0 and vrp.prefix >> 125 == 1
    return vrp.length > 0 and 1 <= vrp.prefix >> 24 < 224 and vrp.prefix >> 24 != 127


def made_up():
    """Returns VRPs of each kind of table, in order, and routes near them."""
    choice = random.Random("validation")
    vrps = sorted({vrp for _ in range(DRAWN) for kind, widths, _ in validity.tables(1)
                   for vrp in validity.table(choice, kind, widths) if is_taken(vrp)})
    return vrps, list(validity.routes(choice, vrps, ROUTES))


def origin_of(vrp):
    """Returns a VRP as an item of the list of a cache."""
    return Origin(validity.shown(vrp.prefix, vrp.width, vrp.length), vrp.most, vrp.asn)


def text_of(route):
    """Returns the prefix of a route."""
    return validity.shown(route.prefix, route.width, route.length)


def lines_of(routes):
    """Returns the routes as the two programs in C read them."""
    families = {32: 4, 128: 6}
    return "".join(f"{families[route.width]} {text_of(route).replace('/', ' ')} {route.asn}\n"
                   for route in routes)


def has_header(name):
    """Reports whether the compiler finds a header."""
    words = [program("cc", "gcc", "clang"), "-include", name, "-E", "-x", "c", os.devnull]
    return not subprocess.run(words, capture_output=True, timeout=SECONDS, check=False).returncode


def compiled(folder, name, *words):
    """Compiles a program of this folder in C, and returns its path."""
    out = os.path.join(folder, name)
    command = [program("cc", "gcc", "clang"), "-std=c11", "-D_DEFAULT_SOURCE", "-O1", "-o", out,
               os.path.join(TOP, "interop", f"{name}.c"), *words]
    result = subprocess.run(command, capture_output=True, text=True, timeout=SECONDS, check=False)
    if result.returncode:
        raise OSError(f"interop/{name}.c isn't compiled: {result.stderr[-300:]}")
    return out


def answers(words, routes):
    """Returns the numbers that a program prints for the routes."""
    result = subprocess.run(words, input=lines_of(routes), capture_output=True, text=True,
                            timeout=SECONDS, check=False)
    if result.returncode:
        raise OSError(f"{words[0]} ends with {result.returncode}: {result.stderr[-300:]}")
    return [int(line) for line in result.stdout.splitlines()]


def by_us(folder, sequence, routes):
    """Returns the output of `rtr_validate` for the routes, by this sequence."""
    path = compiled(folder, "routes", "-I", os.path.join(TOP, "bindings", "c"),
                    os.path.join(TOP, ours.ARCHIVE))
    return [validity.VALIDITIES[number] for number in answers([path, sequence], routes)]


def by_rtrlib(folder, port, routes):
    """Returns the states of rtrlib's manager for the routes, by the data of a cache."""
    if not has_header("rtrlib/rtrlib.h"):
        raise Missing("librtr-dev isn't installed")
    path = compiled(folder, "rtr_mgr", "-lrtr")
    return [OF_RTRLIB[number] for number in answers([path, str(port)], routes)]


def by_bird(bird, routes):
    """Returns the states of BIRD for the routes, by its tables."""
    lines = "".join(
        f"eval roa_check(origins{4 if route.width == 32 else 6}, {text_of(route)}, {route.asn})\n"
        for route in routes)
    words = [program("birdc"), "-s", bird.path("control")]
    result = subprocess.run(words, input=lines, capture_output=True, text=True, timeout=SECONDS,
                            check=False)
    marked = [line.split("(enum 35)")[1] for line in result.stdout.splitlines()
              if "(enum 35)" in line]
    return [OF_BIRD[int(number)] for number in marked]


def compare(results, maker, folder):
    """Looks the routes up by all of them, with one cache."""
    vrps, routes = made_up()
    states = [validity.state(validity.covering(vrps, route), route) for route in routes]
    listed = {origin_of(vrp) for vrp in vrps}
    path = os.path.join(folder, "validation")
    with Pair(results, PART, maker.name, "v1", maker.release()):
        cache = maker(path, 1)
        with cache.serve(listed), contextlib.ExitStack() as stack:
            with recorder.Session(cache.port, path, "recorded") as session:
                answer = session.ask(recorder.reset_query(1))
            file = cache.keep("sequence", answer.sequence())
            with Pair(results, PART, "rtr_validate", "v1", "this tree") as other:
                other.equal("its answers", by_us(path, file, routes), states)
            with Pair(results, PART, "rtrlib", "v1", package_version("librtr0")) as other:
                theirs = by_rtrlib(path, cache.port, routes)
                other.equal("rtr_mgr_validate", theirs, states)
            with Pair(results, PART, "BIRD", "v1", routers.Bird.release()) as other:
                bird = stack.enter_context(routers.Bird(os.path.join(path, "bird"), cache.port))
                until(lambda: len(bird.table()) == len(listed), SECONDS, "BIRD's tables")
                other.equal("roa_check", by_bird(bird, routes), states)
