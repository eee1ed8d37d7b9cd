"""Reads the state of a process: its threads or goroutines, its children, its memory, its times."""
import contextlib
import os
import signal
import socket
import time

from units import TIMEOUT, Wrong


def state(process, path, signal_number=signal.SIGUSR1):
    """Returns the numbers that a program writes to this file at a signal, in Go those of goroutines
    and of bytes of memory; None for a program without such a file. Only SIGUSR2 collects garbage,
    which closes forgotten descriptors."""
    if not os.path.exists(path):
        return None
    before, deadline = count_lines(path), time.monotonic() + TIMEOUT
    process.send_signal(signal_number)
    while count_lines(path) == before:
        if time.monotonic() > deadline or process.poll() is not None:
            raise Wrong("it doesn't say what it holds")
        time.sleep(0.001)
    with open(path, encoding="ascii") as file:
        *_, last = file
    return [int(word) for word in last.split()]


def count_lines(path):
    """Returns the number of lines of a file."""
    with open(path, "rb") as file:
        return file.read().count(b"\n")


def tasks(process, path):
    """Returns the number of a program's threads or goroutines. Raises Wrong if it has children."""
    folder = f"/proc/{process.pid}/task"
    threads = os.listdir(folder)
    for thread in threads:
        try:
            with open(f"{folder}/{thread}/children", encoding="ascii") as file:
                if file.read().strip():
                    raise Wrong("it has children")
        except FileNotFoundError:
            pass  # the thread ended meanwhile
    goroutines = state(process, path)
    return goroutines[0] if goroutines else len(threads)


def memory(process, path):
    """Returns the memory that a program writes to this file after a collection, or the resident
    memory of a program that doesn't."""
    numbers = state(process, path, signal.SIGUSR2)
    if numbers:
        return numbers[-1]
    with open(f"/proc/{process.pid}/statm", encoding="ascii") as file:
        return int(file.read().split()[1]) * os.sysconf("SC_PAGESIZE")


def sockets_at(address):
    """Returns the names of the sockets at an address of IPv4, as descriptors of processes have
    them."""
    start = socket.inet_aton(address)[::-1].hex().upper() + ":"
    with open("/proc/net/tcp", encoding="ascii") as file:
        rows = [line.split() for line in file]
    return {f"socket:[{row[9]}]" for row in rows if row[1].startswith(start)}


def busy_seconds(pid):
    """Returns for how long the threads of a process ran, or waited for a processor."""
    nanoseconds, folder = 0, f"/proc/{pid}/task"
    for thread in os.listdir(folder):
        with contextlib.suppress(OSError):  # it ended meanwhile
            with open(f"{folder}/{thread}/schedstat", encoding="ascii") as file:
                ran, waited, _ = file.read().split()
            nanoseconds += int(ran) + int(waited)
    return nanoseconds / 1e9


class Wait:
    """The wait of a process, from now on. On a busy machine it may take longer than the process
    asked for: what it and this process ran, or waited for a processor, can be left out."""

    def __init__(self, pid):
        self.pids = pid, os.getpid()
        self.begun, self.busy = time.monotonic(), sum(map(busy_seconds, self.pids))

    def seconds(self):
        """Returns how long it took, and how long without that."""
        seconds = time.monotonic() - self.begun
        return seconds, seconds - (sum(map(busy_seconds, self.pids)) - self.busy)
