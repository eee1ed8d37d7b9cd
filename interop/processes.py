"""Servers of a run: each in a process group of its own, which is always killed by its id."""
import contextlib
import functools
import itertools
import os
import shutil
import signal
import socket
import subprocess
import threading
import time

# How long a server may take to start, also on a machine under load, and to stop.
READY_SECONDS = 60
END_SECONDS = 5


# How often a server is started whose port another process may have taken.
ATTEMPTS = 5

# The messages of systems about a port in use, in any case.
TAKEN = "address already in use"


# The seconds between two checks of a wait.
LEAST_PAUSE, MOST_PAUSE = 0.1, 0.5


class Missing(Exception):
    """Something isn't installed: what needs it is skipped."""


class PortTaken(OSError):
    """A server couldn't listen: its port is in use."""


def program(*names):
    """Returns the path of the first of these programs that is installed."""
    for name in names:
        for path in (shutil.which(name), f"/usr/sbin/{name}", f"/usr/bin/{name}"):
            if path and os.access(path, os.X_OK):
                return path
    raise Missing(f"{names[0]} isn't installed")


@functools.cache
def package_version(package):
    """Returns the version of a Debian package, or "unknown"."""
    try:
        words = ["dpkg-query", "-W", "-f", "${Version}", package]
        found = subprocess.run(words, capture_output=True, text=True, timeout=60, check=False)
        return found.stdout.strip() or "of no package"
    except FileNotFoundError:
        return "of no package"


class Ports:
    """Ports of the loopback interface, each used once, below those of clients. A run reserves a
    name for each of its ports, so that concurrent runs use others."""

    lock = threading.Lock()
    given = itertools.cycle(range(20000, 32000))
    start = os.getpid() * 97 % 12000
    names = []

    @classmethod
    def free(cls):
        """Returns a free port."""
        with cls.lock:
            for port in itertools.islice(cls.given, cls.start, cls.start + 1000):
                cls.start = 0
                with contextlib.suppress(OSError), socket.socket() as probe:
                    probe.bind(("127.0.0.1", port))
                    cls.hold(port)
                    return port
        raise OSError("no port is free")

    @classmethod
    def hold(cls, port):
        """Reserves the name of a port: a local socket's, which goes away with this process."""
        name = socket.socket(socket.AF_UNIX)
        try:
            name.bind(f"\0interop.{port}")
        except OSError:
            name.close()
            raise
        cls.names.append(name)


def on_port(start, port=None, free=Ports.free):
    """Returns what `start` makes on this port, or without one on a free port. If the port is in
    use, the same port is retried a second later, or another free one."""
    for _ in range(ATTEMPTS - 1):
        with contextlib.suppress(PortTaken):
            return start(port or free())
        time.sleep(1 if port else 0)
    return start(port or free())


def listeners(port):
    """Returns the inodes of the sockets that listen at a port (proc(5))."""
    for name in ("tcp", "tcp6"):
        with contextlib.suppress(OSError), open(f"/proc/net/{name}", encoding="ascii") as lines:
            for _, local, _, state, *rest in map(str.split, itertools.islice(lines, 1, None)):
                if state == "0A" and int(local.rpartition(":")[2], 16) == port:
                    yield rest[5]


def until(condition, seconds, what):
    """Waits until the condition holds, at most this many seconds, and returns its result. It checks
    once more at the end, and mostly sleeps, since checks take processor time."""
    end = time.monotonic() + seconds
    while True:
        start = time.monotonic()
        found = condition()
        if found:
            return found
        if start >= end:
            raise TimeoutError(f"{what}: not within {seconds:.0f} s")
        took = time.monotonic() - start
        time.sleep(min(max(LEAST_PAUSE, 2 * took), MOST_PAUSE, max(0, end - start)))


class Server:
    """A program that runs until it is stopped. Its output goes to a file."""

    running = []
    lock = threading.RLock()
    # Whether the run is ending, so that no server may start any more.
    stopping = False

    def __init__(self, words, log, split=None):
        """Starts it. Its standard output goes to the file `split`, if there is one."""
        self.words = words
        self.log = log
        with open(log, "ab") as file, Server.lock:
            if Server.stopping:
                raise OSError("the run ends")
            self.started = time.monotonic()
            self.process = subprocess.Popen(words, stdin=subprocess.DEVNULL, stdout=split or file,
                                            stderr=file, start_new_session=True)
            Server.running.append(self)

    def __enter__(self):
        return self

    def __exit__(self, *_):
        self.end()

    def send(self, number):
        """Sends a signal only to the program."""
        self.process.send_signal(number)

    def end(self):
        """Stops its process group, whose id is that of the program."""
        for number in (signal.SIGTERM, signal.SIGKILL):
            with contextlib.suppress(ProcessLookupError):
                os.killpg(self.process.pid, number)
            with contextlib.suppress(subprocess.TimeoutExpired):
                self.process.wait(END_SECONDS)
        with Server.lock:
            if self in Server.running:
                Server.running.remove(self)

    def output(self):
        """Returns its output so far."""
        with open(self.log, encoding="utf-8", errors="replace") as file:
            return file.read()

    def check(self):
        """Raises why it exited, if it did."""
        if self.process.poll() is not None:
            output = self.output()[-300:]
            kind = PortTaken if TAKEN in output.lower() else OSError
            raise kind(f"{self.words[0]} ended: {output}")

    def owns(self, port):
        """Reports whether this server, or a process that it started, listens at a port."""
        listening = {f"socket:[{inode}]" for inode in listeners(port)}
        for process in filter(str.isdigit, os.listdir("/proc")):
            with contextlib.suppress(OSError):
                if os.getsid(int(process)) == self.process.pid:
                    folder = f"/proc/{process}/fd"
                    if any(os.readlink(f"{folder}/{fd}") in listening for fd in os.listdir(folder)):
                        return True
        return False

    def listens(self, port, seconds=READY_SECONDS):
        """Waits until it accepts connections on this port."""
        def connects():
            self.check()
            with contextlib.suppress(OSError), socket.create_connection(("127.0.0.1", port), 1):
                return self.owns(port)
            return False
        until(connects, seconds, f"{self.words[0]} listens")


def end_all():
    """Stops each running server; none starts afterwards."""
    with Server.lock:
        Server.stopping = True
    for server in list(Server.running):
        server.end()


def end_on_signals(last_lines=list):
    """Stops the servers when the run is interrupted, and then prints these lines."""
    def stop(number, _frame):
        end_all()
        for line in last_lines():
            print(line)
        print(f"interop: ended by signal {number}, {signal.Signals(number).name}", flush=True)
        os._exit(128 + number)

    for number in (signal.SIGINT, signal.SIGTERM, signal.SIGHUP, signal.SIGALRM):
        signal.signal(number, stop)
