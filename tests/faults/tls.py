"""TLS for the ends that tests play: of a cache, before one that speaks TCP alone, and of a
router."""
import contextlib
import os
import select
import socket
import ssl
import subprocess
import threading

IDENTITY = "identity.pem"  # the name of a file with a certificate for localhost, and its key
NAME = "localhost"
OVER = " over TLS"  # ends the names of programs


def make_identity(folder):
    """Makes a certificate for localhost, by which the client is known, too. Returns the path of the
    file with it and its key; nothing without the program openssl."""
    path = os.path.join(folder, IDENTITY)
    if os.path.exists(path):
        return path
    with contextlib.suppress(FileNotFoundError, subprocess.CalledProcessError):
        subprocess.run(["openssl", "req", "-x509", "-newkey", "ec", "-pkeyopt",
                        "ec_paramgen_curve:P-256", "-nodes", "-days", "2", "-subj", "/CN=cache",
                        "-addext", f"subjectAltName=DNS:{NAME}", "-keyout", path, "-out",
                        f"{path}.signed"], check=True, capture_output=True)
        with open(f"{path}.signed", "rb") as signed, open(path, "ab") as both:
            both.write(signed.read())
        return path
    return None


def identity_in(command):
    """Returns the path of such a file among the words of a command, or nothing."""
    return next((word for word in command if os.path.basename(word) == IDENTITY), None)


def router_context(identity):
    """Returns the context of a router's end, by which it and the cache are known."""
    context = ssl.SSLContext(ssl.PROTOCOL_TLS_CLIENT)
    context.load_cert_chain(identity)
    context.load_verify_locations(identity)
    return context


def router_end(context, connection):
    """Returns a router's end over a socket that isn't connected yet. The first call that sends or
    receives shakes hands; an end that the cache doesn't notify of is an error."""
    return context.wrap_socket(connection, server_hostname=NAME, do_handshake_on_connect=False,
                               suppress_ragged_eofs=False)


class Front:
    """Takes connections over TLS, and passes what comes to a cache at a port and back. Each has a
    thread of its own."""

    def __init__(self, cache_port, identity):
        self.cache_port, self.context = cache_port, ssl.SSLContext(ssl.PROTOCOL_TLS_SERVER)
        self.accepted = 0
        self.context.load_cert_chain(identity)
        self.context.load_verify_locations(identity)
        self.context.verify_mode = ssl.CERT_REQUIRED
        self.listener = socket.create_server(("127.0.0.1", 0))
        self.port = self.listener.getsockname()[1]
        threading.Thread(target=self.accept, daemon=True).start()

    def accept(self):
        with contextlib.suppress(OSError):
            while True:
                accepted, _ = self.listener.accept()
                self.accepted += 1
                threading.Thread(target=self.serve, args=(accepted,), daemon=True).start()

    def serve(self, accepted):
        """Passes bytes until an end closes, which then the other one does, too."""
        with contextlib.suppress(OSError), accepted, \
                self.context.wrap_socket(accepted, server_side=True) as client, \
                socket.create_connection(("127.0.0.1", self.cache_port)) as cache:
            while True:
                ready = [client] if client.pending() else select.select([client, cache], [], [])[0]
                for one, other in (client, cache), (cache, client):
                    if one in ready:
                        received = one.recv(1 << 14)
                        if not received:
                            client.unwrap()
                            return
                        other.sendall(received)

    def close(self):
        self.listener.close()
