"""A tap between a router and a cache: forwards all bytes, and stores each direction in a file."""
import contextlib
import os
import socket
import threading

from processes import PortTaken, on_port

PIECE = 1 << 16


def listener_on(port):
    """Returns a socket that listens on this port."""
    try:
        return socket.create_server(("127.0.0.1", port))
    except OSError as error:
        raise PortTaken(f"port {port}: {error}") from error


def close(connection):
    """Closes a socket, even if a thread waits for it."""
    with contextlib.suppress(OSError):
        connection.shutdown(socket.SHUT_RDWR)
    connection.close()


class Tap:
    """Listens for one router and connects it to a cache, each time it connects. The files are
    NAME.N.queries and NAME.N.answers, N the number of the connection."""

    def __init__(self, port, folder, name):
        self.cache = port
        self.path = os.path.join(folder, name)
        self.count = 0
        self.open = []
        self.threads = []
        self.port = self.listener = None
        self.listen()

    def __enter__(self):
        return self

    def __exit__(self, *_):
        for each in [self.listener, *self.open]:
            close(each)
        for thread in self.threads:
            thread.join(5)

    def start(self, work, *words):
        """Starts a thread of this tap."""
        thread = threading.Thread(target=work, args=words, daemon=True)
        self.threads.append(thread)
        thread.start()

    def listen(self):
        """Accepts connections, after `refuse` on the same port again."""
        self.listener = on_port(listener_on, self.port)
        self.port = self.listener.getsockname()[1]
        self.start(self.accept, self.listener)

    def refuse(self):
        """Refuses connections, as the port of a stopped cache does. Open connections stay."""
        close(self.listener)

    def accept(self, listener):
        """Accepts connections until the listener is closed."""
        with contextlib.suppress(OSError):
            while True:
                router, _ = listener.accept()
                self.connect(router)

    def connect(self, router):
        """Connects a router to the cache; closes its connection if the cache refuses."""
        try:
            cache = socket.create_connection(("127.0.0.1", self.cache), 5)
        except OSError:
            router.close()
            return
        cache.settimeout(None)
        self.open += [router, cache]
        ways = [(router, cache, f"{self.path}.{self.count}.queries"),
                (cache, router, f"{self.path}.{self.count}.answers")]
        for *_, path in ways:
            with open(path, "wb"):
                pass
        self.count += 1
        for way in ways:
            self.start(self.pass_on, *way)

    def pass_on(self, source, target, path):
        """Forwards bytes from one to the other until it ends; then both are closed."""
        with open(path, "wb") as file, contextlib.suppress(OSError):
            while content := source.recv(PIECE):
                file.write(content)
                file.flush()
                target.sendall(content)
        for each in (source, target):
            with contextlib.suppress(OSError):
                each.shutdown(socket.SHUT_RDWR)

    def recorded(self):
        """Returns the connections so far: queries and answers."""
        for number in range(self.count):
            found = []
            for way in ("queries", "answers"):
                with open(f"{self.path}.{number}.{way}", "rb") as file:
                    found.append(file.read())
            yield found
