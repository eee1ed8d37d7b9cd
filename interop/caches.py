"""Caches: starts each on the loopback interface, and changes its list."""
import contextlib
import os
import shutil
import signal
import subprocess
import tempfile
import threading

import ours as examples
import payloads
import recorder
import trust_anchor
from processes import READY_SECONDS, Missing, Server, on_port, package_version, program, until

FOLDER = os.path.dirname(os.path.abspath(__file__))


class Cache:
    """A cache that serves a list. Its files are in a folder of its own."""

    name = package = ""
    # The versions that it speaks, each in a run of its own unless one run has all of them.
    versions = (0, 1)
    # Its file, if rtr_make can read it.
    json = None
    # Whether the layout of its ASPAs differs from ours.
    other_aspas = False
    # The retry time in seconds that it sends, if that can be set.
    retry = 600
    # How long it may take to notify its clients of a change.
    change_seconds = 60
    # Whether it increments its serial number at each check for changes, and has no delta over a
    # check that found none.
    numbers_looks = False

    def __init__(self, folder, version):
        self.folder = folder
        self.version = version
        self.port = None
        self.server = None
        os.makedirs(folder, exist_ok=True)

    @property
    def highest(self):
        """Returns the highest version that it speaks."""
        return self.version

    def __enter__(self):
        return self

    def __exit__(self, *_):
        self.server.end()

    @classmethod
    def release(cls):
        """Returns the version of its package."""
        return package_version(cls.package)

    def keep(self, name, text):
        """Replaces one of its files atomically."""
        path = os.path.join(self.folder, name)
        mode = "wb" if isinstance(text, bytes) else "w"
        with open(path + ".new", mode) as file:
            file.write(text)
        os.replace(path + ".new", path)
        return path

    def start(self, words):
        """Starts its program with the arguments for a port, which stays the same."""
        return on_port(lambda port: self.start_on(port, words), self.port)

    def start_on(self, port, words):
        """Starts it, and waits until it has data, since some listen before that."""
        self.server = Server(words(port), os.path.join(self.folder, "log"))
        try:
            self.server.listens(port)
            self.port = port
            until(self.has_data, READY_SECONDS, f"{self.name} has data")
        except BaseException:
            self.server.end()
            raise
        return self

    def has_data(self):
        """Reports whether it answers a reset query with data."""
        query = recorder.reset_query(self.version)
        with contextlib.suppress(OSError):
            with recorder.Session(self.port, self.folder, "probe") as session:
                return session.ask(query).last == payloads.END
        return False

    def restart(self, listed):
        """Stops it, and starts it on the same port with another list and another session."""
        self.server.end()
        self.serve(listed)

    def serves(self, listed):
        """Returns the payloads of version 1 or lower: its ASPAs have another layout, and are
        compared separately."""
        return payloads.in_version(listed, self.version)


class StayRTR(Cache):
    """stayrtr, over the JSON that rpki-client writes."""

    name, package = "stayrtr", "stayrtr"
    json = "list.json"
    versions = (0, 1, 2)

    @property
    def other_aspas(self):
        """ASPAs of version 2 have the layout of draft 10 (`docs/INTEROP.md`)."""
        return self.version == 2

    def serve(self, listed):
        """Starts it with this list."""
        path = self.keep("list.json", payloads.stayrtr_json(listed))
        words = [program("stayrtr"), "-cache", path, "-checktime=false", "-refresh", "3600"]
        words += ["-protocol", str(self.version), "-rtr.retry", str(self.retry)]
        words += ["-metrics.addr", "127.0.0.1:0"]
        return self.start(lambda port: [*words, "-bind", f"127.0.0.1:{port}"])

    def change(self, listed):
        """Changes the list that it serves."""
        self.keep("list.json", payloads.stayrtr_json(listed))
        self.server.send(signal.SIGHUP)

    def serves(self, listed):
        """Its ASPAs have another layout: they are compared separately."""
        return payloads.in_version(listed, min(self.version, 1))


class GoRTR(Cache):
    """The library gortr, in a small program of ours."""

    name, package = "gortr library", "golang-github-cloudflare-gortr-dev"
    sources = "/usr/share/gocode"
    lock = threading.Lock()

    @classmethod
    def built(cls, folder):
        """Builds the program from the sources that Debian's package has, without the network."""
        path = os.path.join(folder, "gortr_cache")
        if not os.path.isdir(os.path.join(cls.sources, "src/github.com/cloudflare/gortr")):
            raise Missing("the sources of gortr aren't installed")
        setting = dict(os.environ, GO111MODULE="off", GOPATH=cls.sources, GOFLAGS="",
                       GOPROXY="off", GOCACHE=os.path.join(folder, "go"))
        words = [program("go"), "build", "-o", path, os.path.join(FOLDER, "gortr/main.go")]
        with cls.lock:
            if not os.path.exists(path):
                subprocess.run(words, env=setting, check=True, capture_output=True, timeout=240)
        return path

    def serve(self, listed):
        """Starts it with the origins of this list."""
        path = self.keep("list", payloads.plain_lines(listed))
        words = [self.built(os.path.dirname(self.folder)), "-file", path]
        words += ["-version", str(self.version)]
        return self.start(lambda port: [*words, "-listen", f"127.0.0.1:{port}"])

    def change(self, listed):
        """Changes the list that it serves."""
        self.keep("list", payloads.plain_lines(listed))
        self.server.send(signal.SIGHUP)

    def serves(self, listed):
        """It has only origins."""
        return payloads.in_version(listed, 0)


class Fort(Cache):
    """fort, over a trust anchor that certifies nothing, and local assertions (RFC 8416)."""

    name, package = "fort-validator", "fort-validator"
    # It looks for changes once a minute at most.
    change_seconds = 180
    numbers_looks = True
    highest = 1

    def serve(self, listed):
        """Starts it with the origins and router keys of this list."""
        path = self.keep("list.slurm", payloads.slurm(listed))
        fort = program("fort")
        if shutil.which("openssl") is None:
            raise Missing("openssl isn't installed, which makes the trust anchor")
        anchor = tempfile.mkdtemp(prefix="anchor.", dir=self.folder)
        locators, repository = trust_anchor.make(anchor)
        words = [fort, f"--tal={locators}", f"--local-repository={repository}", f"--slurm={path}"]
        words += ["--mode=server", "--work-offline=true", "--server.interval.validation=60"]
        words += ["--log.output=console", "--validation-log.enabled=true"]
        words += ["--validation-log.output=console"]
        words += ["--server.address=127.0.0.1"]
        return self.start(lambda port: [*words, f"--server.port={port}"])

    def change(self, listed):
        """Changes the list that it serves, from its next check on."""
        self.keep("list.slurm", payloads.slurm(listed))

    def serves(self, listed):
        """It has no ASPAs."""
        return payloads.in_version(listed, min(self.version, 1))


class Ours(Cache):
    """A cache of ours, over a sequence in a file."""

    # The first query fixes the version; it notifies a client at most once a minute.
    versions = (0, 1, 2)
    change_seconds = 120
    highest = 2
    example = None
    session, serial = 4660, 1

    @classmethod
    def release(cls):
        """It is of this tree."""
        return "this tree"

    # Whether it serves the serial number of its file.
    numbered = True

    def refuses(self, listed, times):
        """Reports whether it refuses these times with a message."""
        content = payloads.sequence(listed, 2, self.session, self.serial, times)
        path = self.keep("refused.sequence", content)
        log = os.path.join(self.folder, "refused")
        with open(log, "wb"), Server(self.words_of(path)(0), log) as server:
            until(lambda: "time has to be" in server.output(), READY_SECONDS, "a refusal")
            return "payloads" not in server.output()

    def write(self, listed):
        """Writes the file that it serves."""
        timings = (3600, self.retry, 7200)
        content = payloads.sequence(listed, 2, self.session, self.serial, timings)
        return self.keep("list.sequence", content)

    def serve(self, listed):
        """Starts it with this list."""
        return self.start(self.words_of(self.write(listed)))

    def words_of(self, path):
        """Returns the command that starts it on a port with a file."""
        words = self.example.words()
        return lambda port: [*words, path, "--listen", f"127.0.0.1:{port}"]

    def change(self, listed):
        """Changes the list that it serves."""
        self.serial += 1
        self.write(listed)

    def restart(self, listed):
        """Stops it, and starts it with another list and another session."""
        self.session, self.serial = self.session + 1, 7
        super().restart(listed)


class RtrCache(Ours):
    """The program rtr-cache, over the JSON that rpki-client writes. It manages session and serial
    number itself, and begins another session if it has no folder for them."""

    name = "rtr-cache"
    json = "list.json"
    numbered = False
    # Whether it keeps its state in a folder.
    kept = False

    def write(self, listed):
        """Writes the file that it serves."""
        return self.keep(self.json, payloads.stayrtr_json(listed))

    def serve(self, listed):
        """Starts it with this list."""
        self.write(listed)
        return self.serve_again()

    def refuses(self, listed, times):
        """Reports whether these times make it exit with the status of wrong arguments and a
        message."""
        self.write(listed)
        words = [*self.example.words(), "--json", os.path.join(self.folder, self.json)]
        for name, seconds in zip(("--refresh", "--retry", "--expire"), times):
            words += [name, str(seconds)]
        result = subprocess.run([*words, "--listen", "127.0.0.1:0"], capture_output=True, text=True,
                                timeout=READY_SECONDS, check=False)
        return result.returncode == 2 and "time has to be" in result.stderr

    def serve_again(self):
        """Starts it with the present list."""
        words = [*self.example.words(), "--json", os.path.join(self.folder, self.json)]
        words += ["--guard", "100%", "--retry", str(self.retry)]
        if self.kept:
            words += ["--state", os.path.join(self.folder, "state")]
        return self.start(lambda port: [*words, "--listen", f"127.0.0.1:{port}"])


def of_programs(folder, base=RtrCache, **fields):
    """Yields a maker of rtr-cache, if it can be built here."""
    here = examples.Program("rtr-cache", folder)
    if not here.lacks():
        yield type(base.__name__, (base,), {"example": here, **fields})


def maker_of(example):
    """Returns the maker of one of our caches."""
    name = f"our cache in {example.name}"
    return type(f"Our{example.name}", (Ours,), {"name": name, "example": example})


def ours(folder):
    """Yields a maker of each of our caches that can be built here."""
    yield from map(maker_of, examples.caches(folder))


def in_scripts(folder):
    """Yields a maker of each of our caches in Python and JavaScript that can be run here."""
    yield from (maker_of(script) for script in examples.scripts(folder) if not script.lacks())


CACHES = (StayRTR, GoRTR, Fort)
