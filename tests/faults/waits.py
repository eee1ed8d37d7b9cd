"""Plays the waits of clients. Many start at once beside caches that answer each query by a report:
a random number of its own shortens the growing waits of each, of 1, 2, 4 seconds, by up to half, so
that the routers of a site don't come back at the same moment. And one has data, for which it asks
again when their refresh time is over, and not later.
"""
import contextlib
import os
import selectors
import socket
import struct
import subprocess
import time

import tls
from process_state import Wait
from units import REPORT, RESPONSE, SERIAL_QUERY, SESSION, TICK, TIMEOUT
from units import Wrong, end, prefix, unit

NAME = "the waits of twelve clients"
CLIENTS = 12
WAIT = 3  # the number of the wait that is measured
SECONDS = 4  # its length, without a random number
INTERNAL_ERROR = 1  # the code of the report (RFC 8210 section 12)
# The least difference of the longest and the shortest: twelve numbers at random are closer once in
# a million times.
SPREAD = SECONDS / 2 / 5

REFRESH = "the wait for a refresh"
TIMES = (20, 600, 7200)  # seconds: the refresh time, and the other times of an end of data
MOST_LATE = TIMES[0] / 20  # seconds from the refresh time to the query


def names(_):
    return [NAME, REFRESH]


def measured_waits(listeners):
    """Returns the wait of each client, in seconds."""
    refusals, waits = {listener: [] for listener in listeners}, {}
    deadline = time.monotonic() + TIMEOUT
    with selectors.DefaultSelector() as selector:
        for listener in listeners:
            selector.register(listener, selectors.EVENT_READ)
        while len(waits) < len(listeners):
            ready = selector.select(deadline - time.monotonic())
            if not ready:
                raise Wrong(f"only {len(waits)} clients connected {WAIT + 1} times")
            for key, _ in ready:
                listener = key.fileobj
                connection, _ = listener.accept()
                if len(refusals[listener]) == WAIT:
                    waits[listener] = time.monotonic() - refusals[listener][-1]
                    selector.unregister(listener)
                refusals[listener].append(refuse(connection))
    return sorted(waits.values())


def refuse(connection):
    """Answers a query by a report without a unit and a text, and closes. Returns a time before
    which no wait for the next connection begins."""
    connection.settimeout(TIMEOUT)
    query = connection.recv(16)
    before = time.monotonic()
    if query:
        connection.sendall(unit(REPORT, INTERNAL_ERROR, bytes(8), query[0]))
    connection.close()
    return before


def refresh_wait(listener, pid):
    """Answers a client's query by data, and returns its wait for the next query in seconds, and
    that without the time in which it was busy."""
    connection, _ = listener.accept()
    with connection:
        connection.settimeout(TIMEOUT)
        version = connection.recv(16)[0]
        answer = unit(RESPONSE, SESSION, version=version) + prefix("192.0.2.0/24", 1, version)
        wait = Wait(pid)
        connection.sendall(answer + end(1, version, times=TIMES))
        query = connection.recv(16)
        seconds = wait.seconds()
    if query != unit(SERIAL_QUERY, SESSION, struct.pack(">I", 1), version):
        raise Wrong(f"it sent {query.hex()}, not a serial query")
    return seconds


def play_refresh(command, folder):
    """Plays a client that asks at the refresh time of its data (RFC 8210 section 6)."""
    with contextlib.ExitStack() as stack:
        log = stack.enter_context(open(os.path.join(folder, "said"), "wb"))
        listener = stack.enter_context(socket.create_server(("127.0.0.1", 0)))
        listener.settimeout(TIMEOUT)
        port, identity = listener.getsockname()[1], tls.identity_in(command)
        if identity:
            port = stack.enter_context(contextlib.closing(tls.Front(port, identity))).port
        words = [word.replace("ADDRESS", f"localhost:{port}") for word in command]
        process = stack.enter_context(subprocess.Popen(words, stdout=log, stderr=log))
        stack.callback(process.kill)
        wait, idle = refresh_wait(listener, process.pid)
    if wait < TIMES[0] - TICK or idle > TIMES[0] + MOST_LATE:
        raise Wrong(f"it asked after {wait:.3f} seconds, {idle:.3f} idle, not after {TIMES[0]}")


def play(command, name, _, folder):
    """Plays the clients of this name. Returns a text of what was wrong, or None."""
    if name == NAME:
        return play_many(command, folder)
    try:
        play_refresh(command, folder)
    except (Wrong, OSError, IndexError) as error:
        return f"{error!r}"
    return None


def play_many(command, folder):
    """Plays clients that wait at the same time."""
    listeners = [socket.create_server(("127.0.0.1", 0)) for _ in range(CLIENTS)]
    processes = []
    with open(os.path.join(folder, "said"), "wb") as log:
        for listener in listeners:
            address = f"127.0.0.1:{listener.getsockname()[1]}"
            words = [word.replace("ADDRESS", address) for word in command]
            processes.append(subprocess.Popen(words, stdout=log, stderr=log))
    try:
        waits = measured_waits(listeners)
        listed = ", ".join(f"{wait:.3f}" for wait in waits)
        if waits[0] < SECONDS / 2 - TICK:
            return f"a wait is shorter than {SECONDS / 2} seconds: {listed}"
        if waits[-1] - waits[0] < SPREAD:
            return f"the waits are alike: {listed}"
    except Wrong as wrong:
        return f"{wrong}"
    finally:
        for process in processes:
            process.kill()
            process.wait()
        for listener in listeners:
            listener.close()
    return None
