"""Other routers and clients: starts each, and reads what it holds."""
import contextlib
import glob
import ipaddress
import json
import os
import re
import struct
import subprocess

import ours as examples
import payloads
import speaker
from payloads import Origin, RouterKey
from processes import Missing, Server, on_port, package_version, program, until

SECONDS = 60


def asked(words):
    """Returns the output of a command that asks a daemon; nothing if that doesn't answer in
    time."""
    try:
        result = subprocess.run(words, capture_output=True, text=True, timeout=SECONDS, check=False)
    except subprocess.TimeoutExpired:
        return ""
    return result.stdout


def asked_json(words):
    """Runs a command, and returns the JSON object that it prints, or None."""
    try:
        return json.loads(asked(words))
    except json.JSONDecodeError:
        return None


def origin(address, length, max_length, asn):
    """Returns an origin from its parts."""
    network = ipaddress.ip_network((address, int(length)))
    return Origin(str(network), int(max_length), int(asn))


class Router:
    """A router, or a client, that asks a cache. Its files are in a folder of its own."""

    name = package = ""
    # The times that its configuration sets, so that it soon asks again.
    times = ""

    def __init__(self, folder, port):
        self.folder = folder
        self.cache = port
        self.server = None
        self.read = {}
        os.makedirs(folder, exist_ok=True)

    def __enter__(self):
        self.start()
        return self

    def __exit__(self, *_):
        if self.server:
            self.server.end()

    @classmethod
    def release(cls):
        """Returns the version of its package."""
        return package_version(cls.package)

    @classmethod
    def build(cls):
        """Builds it if it is of this tree and isn't built yet."""

    @property
    def ports(self):
        """Returns the ports of its caches, in order of preference."""
        return self.cache if isinstance(self.cache, tuple) else (self.cache,)

    def path(self, name):
        """Returns the path of one of its files."""
        return os.path.join(self.folder, name)

    def keep(self, name, text):
        """Writes one of its files."""
        with open(self.path(name), "w", encoding="utf-8") as file:
            file.write(text)
        return self.path(name)

    def once(self, name, parse):
        """Returns the result of this function for the text of one of its files, computed again when
        the text changes."""
        state = os.stat(self.path(name))
        now = state.st_ino, state.st_size, state.st_mtime_ns
        before, parsed = self.read.get(name, (None, None))
        if before != now:
            with open(self.path(name), encoding="utf-8") as file:
                parsed = parse(file.read())
            self.read[name] = now, parsed
        return parsed

    def run(self, words, **options):
        """Starts its program."""
        self.server = Server(words, self.path("log"), **options)

    def lines_with(self, name, text):
        """Returns the lines of one of its files that match this."""
        with contextlib.suppress(FileNotFoundError), \
                open(self.path(name), encoding="utf-8", errors="replace") as file:
            return [line.strip() for line in file if re.search(text, line)]
        return []

    def complaints(self, _times):
        """Returns what it logged against these times of an end of data: refresh, retry and expire
        time."""
        return []

    def shows(self, listed):
        """Returns the part of a list that it shows: the origins."""
        return {payload for payload in listed if isinstance(payload, Origin)}


class OfRtrlib(Router):
    """A router with rtrlib, which logs the times that it takes."""

    def complaints(self, times):
        taken = "expire_interval:{2}, refresh_interval:{0}, retry_interval:{1}".format(*times)
        return [line for line in self.lines_with("log", "New interval values") if taken not in line]


class RtrClient(OfRtrlib):
    """rtrclient of rtrlib: it prints what comes and what goes."""

    name, package = "rtrclient", "rtr-tools"
    PREFIX = re.compile(r"([+-]) (\S+) +(\d+) - +(\d+) +(\d+)")
    KEY = re.compile(r"([+-]) HOST:.*\nASN:\s+(\d+)\s+SKI:\s+([0-9a-f:]+)\s+SPKI:([0-9a-f:\s]+)")

    def start(self):
        """Starts it."""
        words = [program("stdbuf"), "-oL", program("rtrclient"), "-kp", "tcp", "127.0.0.1"]
        with open(self.path("changes"), "ab") as file:
            self.run(words + [str(self.cache)], split=file)

    def table(self):
        """Returns its payloads: those that were announced and not withdrawn since."""
        return self.once("changes", self.held)

    def held(self, text):
        """Returns the same from its output."""
        held = set()
        for found in sorted([*self.PREFIX.finditer(text), *self.KEY.finditer(text)],
                            key=lambda found: found.start()):
            if found.re is self.PREFIX:
                payload = origin(*found.groups()[1:])
            else:
                _, asn, identifier, info = found.groups()
                info = bytes.fromhex(re.sub(r"[:\s]", "", info))
                payload = RouterKey(bytes.fromhex(identifier.replace(":", "")), int(asn), info)
            (held.add if found[1] == "+" else held.discard)(payload)
        return held

    def shows(self, listed):
        """Returns origins and router keys."""
        return {payload for payload in listed if isinstance(payload, (Origin, RouterKey))}


class Bird(Router):
    """BIRD: its two tables of ROAs."""

    name, package = "BIRD", "bird2"
    times = "retry keep 2;"
    LINE = re.compile(r"^(\S+)/(\d+)-(\d+) AS(\d+) ", re.MULTILINE)

    def start(self):
        """Starts it."""
        path = self.keep("conf", f"""
            log "{self.path('messages')}" all;
            router id 192.0.2.1;
            roa4 table origins4;
            roa6 table origins6;
            protocol rpki cache {{
                roa4 {{ table origins4; }};
                roa6 {{ table origins6; }};
                remote 127.0.0.1 port {self.cache};
                {self.times}
            }}
        """)
        control = ["-s", self.path("control"), "-P", self.path("process")]
        self.run([program("bird"), "-f", "-c", path, *control])

    def complaints(self, _times):
        return self.lines_with("messages", "<WARN>.* interval ")

    def table(self):
        """Returns what it holds."""
        held = set()
        for table in ("origins4", "origins6"):
            ask = [program("birdc"), "-s", self.path("control"), "show", "route", "table", table]
            held |= {origin(*found) for found in self.LINE.findall(asked(ask))}
        return held


class FRR(OfRtrlib):
    """bgpd of FRR with its module rpki, which is rtrlib."""

    name, package = "FRR", "frr"
    times = " rpki polling_period 3600\n rpki retry_interval 2\n"
    MODULES = "/usr/lib/*/frr/modules/bgpd_rpki.so"

    def start(self):
        """Starts it, without zebra."""
        daemon = "/usr/lib/frr/bgpd"
        if not os.access(daemon, os.X_OK):
            raise Missing("frr isn't installed")
        if not glob.glob(self.MODULES):
            raise Missing("frr-rpki-rtrlib isn't installed")
        program("vtysh")
        named = "".join(f" rpki cache 127.0.0.1 {port} preference {preference}\n"
                        for preference, port in enumerate(self.ports, 1))
        path = self.keep("conf", f"rpki\n{self.times}{named} exit\n")
        words = ["-M", "rpki", "-f", path, "-i", self.path("process"), "-Z", "-S", "-P", "0"]
        words += ["--vty_socket", self.folder, "-l", "127.0.0.1", "-p", "0"]
        self.run([daemon, *words])

    def table(self):
        """Returns what it holds."""
        words = ["--vty_socket", self.folder, "-d", "bgpd", "-c", "show rpki prefix-table json"]
        shown = asked_json([program("vtysh"), *words]) or {"prefixes": []}
        return {
            origin(o["prefix"], o["prefixLenMin"], o["prefixLenMax"], o["asn"])
            for o in shown["prefixes"]
        }


class OpenBGPD(Router):
    """bgpd of OpenBGPD, in a mount namespace of its own with the folder of its chroot. It shows no
    table: it counts the prefixes in it, and shows of each route whether its origin is valid."""

    name, package = "OpenBGPD", "openbgpd"
    # The lists whose origins its routes try, instead of the usual ones.
    lists = None
    INSIDE = "mount -t tmpfs none /run && mkdir -m 755 /run/openbgpd && exec \"$@\""
    NEEDS_ROOT = "bgpd of OpenBGPD changes its root and its user: that needs root and a namespace"

    def __init__(self, folder, port):
        super().__init__(folder, port)
        old, new = payloads.made_up()
        lists = [payloads.varied(old | new, 1)] if self.lists is None else self.lists
        origins = {each for each in set().union(*lists) if isinstance(each, Origin)}
        self.routes = speaker.routes_of(origins)
        self.speaker = None

    def __exit__(self, *words):
        if self.speaker:
            self.speaker.close()
        super().__exit__(*words)

    def start(self):
        """Starts it, and announces routes to it."""
        daemon = program("bgpd")
        inside = [program("unshare"), "--mount", "sh", "-c", self.INSIDE, "sh"]
        tried = subprocess.run([*inside, "true"], capture_output=True, timeout=SECONDS, check=False)
        if os.geteuid() != 0 or tried.returncode:
            raise Missing(self.NEEDS_ROOT)
        on_port(lambda listen: self.start_on(listen, [*inside, daemon]))

    def start_on(self, listen, words):
        """Starts it with these arguments, with a port for its neighbor."""
        path = self.keep("conf", f"""
            AS 65000
            router-id 192.0.2.1
            fib-update no
            listen on 127.0.0.1 port {listen}
            socket "{self.path('control')}"
            rtr 127.0.0.1 {{
                port {self.cache}
            }}
            neighbor 127.0.0.1 {{
                remote-as {speaker.AS}
                passive
                announce IPv4 unicast
                announce IPv6 unicast
                announce add-path recv yes
                export none
            }}
            allow from any
        """)
        os.chmod(path, 0o600)
        self.run([*words, "-d", "-v", "-f", path])
        try:
            self.server.listens(listen)
        except BaseException:
            self.server.end()
            raise
        self.speaker = until(lambda: self.connected(listen), SECONDS, "OpenBGPD takes a neighbor")

    def complaints(self, _times):
        return self.lines_with("log", "bad timeout values")

    def connected(self, listen):
        """Returns a session of BGP, once it accepts one."""
        with contextlib.suppress(OSError, struct.error):
            return speaker.Speaker(listen, self.routes)
        return None

    def table(self):
        """Returns how many prefixes it holds, and the state of each route."""
        ask = [program("bgpctl"), "-j", "-s", self.path("control"), "show"]
        sets, rib = asked_json([*ask, "sets"]), asked_json([*ask, "rib", "in"])
        if sets is None or rib is None:
            return set()
        held = {
            (f"IPv{family}", each[f"num_IPv{family}"])
            for each in sets["sets"] if each["type"] == "ROA" for family in (4, 6)
        }
        for route in rib.get("rib", []):
            held.add((route["prefix"], int(route["aspath"].split()[-1]), route["ovs"]))
        return held

    def shows(self, listed):
        """Returns the same of a list."""
        origins = frozenset(super().shows(listed))
        prefixes = {origin.prefix for origin in origins}
        longer = sum(":" in prefix for prefix in prefixes)
        counts = {("IPv4", len(prefixes) - longer), ("IPv6", longer)}
        return counts | speaker.states(self.routes, origins)


class OurClient(Router):
    """One of our clients, which prints each change as it comes."""

    example = None
    # The highest version that it asks in.
    version = 1

    @classmethod
    def release(cls):
        """It is of this tree."""
        return "this tree"

    @classmethod
    def build(cls):
        """Builds it; one that can't be built fails when it is started."""
        with contextlib.suppress(OSError, Missing, subprocess.SubprocessError):
            cls.example.built()

    def start(self):
        """Starts it."""
        words = [*self.example.words(), *self.caches(), "--json", "--version", str(self.version)]
        with open(self.path("changes"), "ab") as file:
            self.run([*words, *self.more()], split=file)

    def caches(self):
        """Returns the arguments that name its cache."""
        return [f"127.0.0.1:{self.cache}"]

    def more(self):
        """Returns more arguments."""
        return []

    def table(self):
        """Returns what it holds: what was announced, without what was withdrawn."""
        return self.once("changes", self.held)

    def held(self, text):
        """Returns the same from its output."""
        held = set()
        for line in text.split("\n")[:-1]:
            fields = json.loads(line)
            change = held.add if fields["action"] == "announce" else held.discard
            change(payloads.payload_of(fields))
        return held

    def shows(self, listed):
        """Returns what its version has."""
        return payloads.in_version(listed, self.version)


class Preferring(OurClient):
    """Such a client of several caches, in order of preference: `cache` has their ports."""

    def caches(self):
        """Returns the arguments that name its caches."""
        word = [] if isinstance(self.example, examples.Program) else ["--prefer"]
        return [each for port in self.ports for each in (*word, f"127.0.0.1:{port}")]


def ours(folder, base=OurClient, **fields):
    """Yields a maker of each of our clients that can be built here."""
    for example in examples.clients(folder):
        name = f"our client in {example.name}"
        yield type(f"Our{example.name}", (base,), {"name": name, "example": example, **fields})


def of_programs(folder, base=OurClient, **fields):
    """Yields a maker of rtr-client, if it can be built here."""
    here = examples.Program("rtr-client", folder)
    if not here.lacks():
        yield type("OurProgram", (base,), {"name": here.name, "example": here, **fields})


def in_python(folder, **fields):
    """Yields a maker of the client in Python, if it can be used here."""
    here = examples.InPython(folder)
    if not here.lacks():
        name = f"our client in {here.name}"
        yield type("OurPython", (OurClient,), {"name": name, "example": here, **fields})


ROUTERS = (RtrClient, Bird, FRR, OpenBGPD)


def at_default_times(lists):
    """Yields a maker of each other router that sets no time of its own. OpenBGPD's routes are those
    of these lists."""
    for maker in ROUTERS:
        yield type(maker.__name__, (maker,), {"times": "", "lists": lists})
