"""Caches over TLS and SSH, ours and stayrtr, with our clients and others: what these hold at first,
after a change, and after a restart with another list and session."""
import contextlib
import functools
import os
import re
import socket
import subprocess
import threading

import caches
import ours as examples
import payloads
import routers
import routing
from processes import READY_SECONDS, Ports, PortTaken, program, until
from results import Pair

PART = "over TLS and SSH"
TLS, SSH = "TLS", "SSH"

# The SSH user of routers, and the name in the certificates of caches.
USER, NAME = "rpki", "localhost"

# Routers ask again after this many seconds.
RETRY = 2

# How often rtrclient is started, since its authentication may fail without a cause.
ATTEMPTS = 20


class Keys:
    """An authority, with its certificates for a cache and a router, and SSH keys of both."""

    CURVE = ("-newkey", "ec", "-pkeyopt", "ec_paramgen_curve:P-256", "-nodes")
    NAMES = f"subjectAltName=DNS:{NAME},IP:127.0.0.1\n"
    lock = threading.Lock()

    def __init__(self, folder):
        self.folder = folder
        self.programs = {name: program(name) for name in ("openssl", "ssh-keygen")}
        with Keys.lock:
            if not os.path.isdir(folder):
                os.makedirs(folder)
                self.make()

    def path(self, name):
        """Returns the path of a file."""
        return os.path.join(self.folder, name)

    def run(self, name, *words):
        """Runs a program there."""
        subprocess.run([self.programs[name], *words], cwd=self.folder, check=True, timeout=60,
                       capture_output=True)

    def make(self):
        """Makes everything."""
        with open(self.path("names"), "w", encoding="ascii") as file:
            file.write(self.NAMES)
        self.run("openssl", "req", "-x509", *self.CURVE, "-subj", "/CN=authority", "-days", "2",
                 "-keyout", "authority.key", "-out", "authority.pem")
        for name in ("cache", "router"):
            self.run("openssl", "req", *self.CURVE, "-subj", f"/CN={name}",
                     "-keyout", f"{name}.key", "-out", f"{name}.request")
            self.run("openssl", "x509", "-req", "-in", f"{name}.request", "-CA", "authority.pem",
                     "-CAkey", "authority.key", "-CAcreateserial", "-days", "2",
                     "-extfile", "names", "-out", f"{name}.pem")
            self.run("ssh-keygen", "-q", "-t", "ecdsa", "-m", "PEM", "-N", "", "-f", f"{name}.ssh")

    def known(self, port):
        """Returns a known_hosts file with the key of the cache at a port."""
        with open(self.path("cache.ssh.pub"), encoding="ascii") as file:
            key = file.read()
        path = self.path(f"known.{port}")
        with open(path, "w", encoding="ascii") as file:
            file.write(f"[127.0.0.1]:{port} {key}")
        return path


class Secured:
    """A mixin for a cache that also listens for TLS and SSH."""

    keys = None

    @functools.cached_property
    def secured(self):
        """Its ports, by transport."""
        return {TLS: Ports.free(), SSH: Ports.free()}

    def start_on(self, port, words):
        """Starts it; if a port is in use, retries on others, unless they are fixed."""
        try:
            return super().start_on(port, words)
        except PortTaken:
            if self.port is None:
                del self.secured
            raise

    def start(self, words):
        """Starts it, and waits until it accepts connections on all ports."""
        super().start(lambda port: [*words(port), *self.more()])
        for transport, port in self.secured.items():
            until(lambda listening=port: reached(listening), READY_SECONDS,
                  f"{self.name} listens for {transport}")
        return self


def reached(port):
    """Reports whether a port accepts connections."""
    with contextlib.suppress(OSError), socket.create_connection(("127.0.0.1", port), 1):
        return True
    return False


class SecuredStayRTR(Secured, caches.StayRTR):
    """stayrtr, which doesn't require certificates of routers."""

    def more(self):
        """Returns its arguments."""
        path = self.keys.path
        return ["-tls.bind", f"127.0.0.1:{self.secured[TLS]}", "-tls.cert", path("cache.pem"),
                "-tls.key", path("cache.key"), "-ssh.bind", f"127.0.0.1:{self.secured[SSH]}",
                "-ssh.key", path("cache.ssh"), "-ssh.method.key", "-ssh.auth.user", USER,
                "-ssh.auth.key.file", path("router.ssh.pub")]


class SecuredRtrCache(Secured, caches.RtrCache):
    """rtr-cache, which requires certificates of routers by the authority."""

    def more(self):
        """Returns its arguments."""
        path = self.keys.path
        return ["--listen", f"tls:127.0.0.1:{self.secured[TLS]}", "--tls-cert", path("cache.pem"),
                "--tls-key", path("cache.key"), "--tls-client-ca", path("authority.pem"),
                "--listen", f"ssh:127.0.0.1:{self.secured[SSH]}",
                "--ssh-host-key", path("cache.ssh"), "--ssh-routers", path("router.ssh.pub")]


class OverTLS(routers.OurClient):
    """rtr-client over TLS."""

    name = "rtr-client over TLS"
    transport, keys = TLS, None

    def more(self):
        """Returns its arguments."""
        path = self.keys.path
        return ["--tls", "--tls-ca", path("authority.pem"), "--tls-cert", path("router.pem"),
                "--tls-key", path("router.key")]


class OverSSH(routers.OurClient):
    """rtr-client over SSH."""

    name = "rtr-client over SSH"
    transport, keys = SSH, None

    def more(self):
        """Returns its arguments."""
        return ["--ssh", USER, "--ssh-key", self.keys.path("router.ssh"),
                "--ssh-known-hosts", self.keys.known(self.cache)]


class RustOverTLS(routers.Router):
    """The example of the crate for tokio, which prints serial numbers and the number of changes."""

    name = "our client for tokio over TLS"
    transport, keys, example = TLS, None, None
    LINE = re.compile(r"serial (\d+): (\d+) changes")

    release = routers.OurClient.release

    def start(self):
        """Starts it."""
        files = [self.keys.path(name) for name in ("router.pem", "router.key", "authority.pem")]
        words = [program("stdbuf"), "-oL", self.example.built(), "client"]
        words += [f"127.0.0.1:{self.cache}", NAME, *files]
        with open(self.path("changes"), "ab") as file:
            self.run(words, split=file)

    def table(self):
        """Returns the number of changes, each time."""
        with open(self.path("changes"), encoding="utf-8") as file:
            return [int(count) for _, count in self.LINE.findall(file.read())]


class RtrClientOverSSH(routers.RtrClient):
    """rtrclient over SSH. Sometimes its authentication fails at once without a cause, and it waits
    for its whole retry time; then it is restarted."""

    name = "rtrclient over SSH"
    transport, keys = SSH, None
    FAILED, DONE = "Publickey authentication failed", "Connection established"

    def start(self):
        """Starts it, until it is connected."""
        words = [program("stdbuf"), "-oL", program("rtrclient"), "-kp", "ssh", "127.0.0.1"]
        words += [str(self.cache), USER, self.keys.path("router.ssh"), self.keys.known(self.cache)]
        for _ in range(ATTEMPTS):
            with contextlib.suppress(FileNotFoundError):
                os.remove(self.path("log"))
            with open(self.path("changes"), "wb") as file:
                self.run(words, split=file)
            until(self.tried, READY_SECONDS, "rtrclient connects")
            if self.DONE in self.server.output():
                return
            self.server.end()
        raise OSError(f"rtrclient: {self.FAILED}, {ATTEMPTS} times")

    def tried(self):
        """Reports whether it has connected, or failed to."""
        output = self.server.output()
        return self.DONE in output or self.FAILED in output


class Beside(routing.Beside):
    """A client and a cache, with nothing in between."""

    def reach(self, cache, _folder, _stack):
        """Returns the port that it connects to."""
        return cache.secured[self.maker.transport]


def clients(folder, keys):
    """Yields a maker of each client, of this tree and others. The folder is that of the part."""
    run = os.path.dirname(folder)
    client, tokio = examples.Program("rtr-client", run), examples.TokioTLS(run)
    return [
        type(maker.__name__, (maker,), {"keys": keys, "example": example})
        for maker, example in ((OverTLS, client), (OverSSH, client), (RustOverTLS, tokio),
                               (RtrClientOverSSH, None))
    ]


def counts(each, what, expected):
    """Passes if the example for tokio printed these numbers of changes."""
    with each.pair:
        with contextlib.suppress(TimeoutError):
            until(lambda: each.router.table() == expected, 2 * routing.FIRST_SECONDS, "changes")
        each.pair.equal(what, each.router.table(), expected, sum(expected))


def compare(results, maker, folder):
    """Runs clients with one cache."""
    old, new = payloads.made_up()
    other = payloads.varied(old, 1)
    with Pair(results, PART, maker.name, "v1", maker.release()), contextlib.ExitStack() as stack:
        maker.keys = Keys(os.path.join(os.path.dirname(folder), "keys"))
        cache = maker(folder, 1)
        cache.retry = RETRY
        stack.enter_context(cache.serve(old))
        beside = [Beside(results, cache, each, stack, PART) for each in clients(
            os.path.dirname(folder), maker.keys)]
        counting = [each for each in beside if each.live and isinstance(each.router, RustOverTLS)]
        holding = [each for each in beside if each.live and each not in counting]
        lists = [cache.serves(listed) for listed in (old, new, other)]
        routing.all_hold(holding, "holds the list", lists[0], routing.FIRST_SECONDS)
        for each in counting:
            counts(each, "counts the list", [len(lists[0])])
        cache.change(new)
        routing.all_hold(holding, "holds the changed list", lists[1], cache.change_seconds)
        changed = len(payloads.changes(*lists[:2]))
        for each in counting:
            counts(each, "counts what changes", [len(lists[0]), changed])
        cache.restart(other)
        what = "holds the list of another session"
        routing.all_hold(holding, what, lists[2], routing.RESTART_SECONDS)
