"""The package for Python, as pip installs the wheel of this tree: its commands, and the examples of
its page, with a cache."""
import os
import re
import subprocess
import sys
import threading

import ours
import payloads
import programs
from payloads import Change, Origin
from processes import Missing, Server, until
from results import Pair

TOP = os.path.realpath(os.path.join(os.path.dirname(os.path.abspath(__file__)), ".."))
EXAMPLES = os.path.join(TOP, "bindings", "python", "examples")
PART = "Python"
SECONDS = 180

# The example for asyncio follows caches for this many seconds.
WATCHED = 1

installing = threading.Lock()


def ran(words, **settings):
    """Returns the output of a command; raises an error if it fails."""
    result = subprocess.run(words, capture_output=True, timeout=SECONDS, check=False, **settings)
    if result.returncode:
        errors = result.stderr[-500:].decode(errors="replace")
        raise OSError(f"{words[0]} ends with {result.returncode}: {errors}")
    return result.stdout


def installed(folder):
    """Returns the interpreter of an environment with only the wheel, which is made first if
    needed."""
    environment = os.path.join(folder, "environment")
    python = os.path.join(environment, "bin", "python")
    with installing:
        if os.path.exists(python):
            return python
        try:
            import ensurepip  # noqa: F401
        except ImportError:
            raise Missing("python3 has no ensurepip (python3-venv)") from None
        packages = os.path.join(folder, "packages")
        archives = os.path.dirname(os.path.dirname(os.path.join(TOP, ours.ARCHIVE)))
        ran([os.path.join(TOP, "bindings", "package.py"), "--archives", archives, packages])
        wheels = os.path.join(packages, "python")
        ran([sys.executable, "-m", "venv", environment])
        ran([python, "-m", "pip", "install", "--no-index", "--disable-pip-version-check",
             "--find-links", wheels, "rtr_wire", "--only-binary", "rtr_wire"])
    return python


def lines_of(changes):
    """Returns the lines that the example prints for changes of origins."""
    return {f"{'+' if change.announce else '-'} {change.payload.prefix}-"
            f"{change.payload.max_length} AS{change.payload.asn}"
            for change in changes if isinstance(change.payload, Origin)}


def fetched(pair, python, cache, listed):
    """The command `fetch` gets the list, and `validate` prints the expected validity."""
    file = cache.keep("fetched", ran([python, "-I", "-m", "rtr_wire", "fetch",
                                      f"127.0.0.1:{cache.port}"]))
    nothing = cache.keep("nothing", payloads.end_of_data(1, 0, 0))
    pair.equal("fetch has the list", programs.differing(nothing, file),
               {Change(True, payload).line() for payload in listed})
    origin = max((each for each in listed if isinstance(each, Origin) and each.asn),
                 key=lambda each: each.order())
    output = ran([python, "-I", "-m", "rtr_wire", "validate", file, origin.prefix, str(origin.asn)])
    pair.equal("validate", output.decode().splitlines()[0],
               f"{origin.prefix} AS{origin.asn} valid", 1)


def watched(pair, python, cache, listed):
    """The example for asyncio prints the number of payloads, and exits after its time."""
    address, log = f"127.0.0.1:{cache.port}", os.path.join(cache.folder, "watch_async.log")
    words = [python, "-I", os.path.join(EXAMPLES, "watch_async.py")]
    with Server([*words, str(SECONDS), address], log) as server:
        output = until(lambda: server.check() or server.output(), SECONDS,
                       "a word of watch_async.py")
    expected = f"{address}: <Data of {len(listed)} payloads, "
    ended = ran([*words, str(WATCHED), address]).decode()
    well = output.startswith(expected) and (not ended or ended.startswith(expected))
    pair.holds("watch_async.py prints how much there is", well, f"{output}, and then {ended}", 1)


def followed(pair, python, cache, change):
    """The example that follows a cache prints the list, and then changes."""
    old, new = map(cache.serves, change)
    log = os.path.join(cache.folder, "watch.log")
    words = [python, "-I", "-u", os.path.join(EXAMPLES, "watch.py"), "127.0.0.1", str(cache.port),
             "2"]

    def updates():
        with open(log, encoding="utf-8") as file:
            return re.split(r"(?m)^serial number \d+, payloads: \d+\n", file.read())

    server = Server(words, log)
    try:
        until(lambda: len(updates()) > 1, SECONDS, "the first update")
        cache.change(change[1])
        until(lambda: len(updates()) > 2, cache.change_seconds + SECONDS, "the second update")
    finally:
        server.end()
    first, second, _ = (set(update.splitlines()) for update in updates())
    pair.equal("watch.py prints the list", first,
               lines_of({Change(True, payload) for payload in old}))
    pair.equal("watch.py prints the changes", second, lines_of(payloads.changes(old, new)))


def compare(results, maker, folder):
    """Installs the wheel, and runs all of it with one cache."""
    with Pair(results, PART, f"rtr_wire in Python at {maker.name}", "v1", maker.release()) as pair:
        python = installed(folder)
        cache = maker(os.path.join(folder, f"python.{maker.__name__.lower()}"), 1)
        old, new = payloads.made_up()
        with cache.serve(old):
            served = cache.serves(old)
            fetched(pair, python, cache, served)
            watched(pair, python, cache, served)
            followed(pair, python, cache, (old, new))
