#!/usr/bin/env python3
"""Runs clients of C, Rust, Go, Python and Node, in Rust also that over tokio, in Python that for
asyncio, beside a cache on the loopback interface, and caches of the same languages beside routers,
with faults in their system calls: short reads and writes, interrupted calls, spurious wakes, broken
connections, addresses that refuse or don't answer, no descriptors left, failing files, kills. The
faults in what TLS sends and reads are played over TLS, too (`tls.py`), except with the cache in C,
which has no TLS, and `rtr-cache`, which has that of the cache in Go. A preloaded library
(`faults.c`) injects them. A program in Go makes its system calls itself: its connections are
wrapped (`go/faults.go`), and a tracer (`traced.c`) injects faults into calls on files, and into
those of `rtr-cache` on sockets.
`clients.py`, `caches.py` and `saves.py` say what must happen, `cuts.py` what a cut of the power may
leave, `handovers.py` what one cache takes over from another's file, and `waits.py` how the waits of
clients differ.

usage: run.py [FOLDER] [PROGRAM [FAULT]]  the folder has the archive; bindings/lib/x86_64 if not
                                          said, or else prebuilt/x86_64. PROGRAM and FAULT are names
                                          that a failure prints

A program without its compiler is skipped, with a loud message. Prints how many runs there were.
"""
import multiprocessing
import os
import sys
import tempfile
import threading
from concurrent.futures import ProcessPoolExecutor

import caches
import clients
import cuts
import handovers
import programs
import saves
import waits

AT_ONCE = 20  # runs, each played by a process of its own: no peer waits for those of another

# The names of programs, what builds them, in this order, and what is run with them.
PLAYS = (
    (["C client", "C link"], programs.c_clients, (clients, waits)),
    (["C client over TLS"], programs.c_tls_clients, (clients, waits)),
    (["Python", "asyncio"], programs.python_clients, (clients, waits)),
    (["Python over TLS", "asyncio over TLS"], programs.python_tls_clients, (clients,)),
    (["Node"], programs.node_clients, (clients, waits)),
    (["Node over TLS"], programs.node_tls_clients, (clients,)),
    (["Node cache"], programs.node_caches, (caches, saves, cuts, handovers)),
    (["Node cache over TLS"], programs.node_tls_caches, (caches,)),
    (["C cache"], programs.c_caches, (caches, saves, cuts, handovers)),
    (["Rust"], programs.rust_clients, (clients, waits)),
    (["Rust that counts"], programs.counting_rust_clients, (clients,)),
    (["Go"], programs.go_clients, (clients, waits)),
    (["Go over TLS"], programs.go_tls_clients, (clients,)),
    (["Go cache"], programs.go_caches, (caches,)),
    (["Go cache over TLS"], programs.go_tls_caches, (caches,)),
    (["Go cache that saves"], programs.traced_go_caches, (saves, cuts, handovers)),
    (["rtr-cache"], programs.rtr_caches, (caches, saves, cuts, handovers)),
    (["Rust cache"], programs.rust_caches, (caches, saves, cuts, handovers)),
    (["tokio"], programs.tokio_clients, (clients, waits)),
    (["tokio cache"], programs.tokio_caches, (caches, saves, cuts, handovers)),
    (["Rust over TLS", "tokio over TLS"], programs.rust_tls_clients, (clients,)),
    (["Rust cache over TLS", "tokio cache over TLS"], programs.rust_tls_caches, (caches,)),
    (["Python cache"], programs.python_caches, (caches, saves, cuts, handovers)),
    (["Python cache over TLS"], programs.python_tls_caches, (caches,)),
)


def play(scene, program, command, name, library, work):
    """Plays one run; returns what was wrong, or nothing."""
    wrong = scene(command, name, library, tempfile.mkdtemp(dir=work))
    return wrong and f"faults: {program}: {name}: {wrong}"


def end_with_parent():
    """Ends this process when the one that started it has ended, by a signal, too."""
    def waits():
        multiprocessing.parent_process().join()
        os._exit(1)
    threading.Thread(target=waits, daemon=True).start()


def built(words, archives, work):
    """Builds the programs of which there are runs, and the one that saves a file for them; returns
    the name, the command and the parts of each."""
    wanted = {*words[:1], *map(handovers.writer_of, words[1:2])}
    plays = [(program, command, parts) for names, builds, parts in PLAYS
             if not wanted or wanted & {*names} for program, command in builds(archives, work)]
    handovers.COMMANDS.update({program: command for program, command, parts in plays
                               if handovers in parts})
    return plays


def played(runs):
    """Plays these runs; returns what was wrong. The processes have what was built and set before
    them, and nothing is built beside them."""
    with ProcessPoolExecutor(AT_ONCE, multiprocessing.get_context("fork"),
                             end_with_parent) as pool:
        results = [pool.submit(play, *run) for run in runs]
        return [wrong for wrong in (one.result() for one in results) if wrong]


def main():
    words = sys.argv[1:]
    lib = os.path.join(programs.BINDINGS, "lib", "x86_64")
    archives = os.path.realpath(words.pop(0)) if words and os.path.isdir(words[0]) else lib
    if not os.path.exists(os.path.join(archives, "librtr_wire.a")):
        archives = os.path.join(programs.TOP, "prebuilt", "x86_64")
    with tempfile.TemporaryDirectory() as work:
        library = programs.library(work)
        cuts.TRACER = programs.tracer(work)
        if not cuts.TRACER:
            programs.skipped("leave to trace by ptrace", "cuts of the power")
        plays = built(words, archives, work)
        runs = [(part.play, program, command, name, library, work)
                for program, command, parts in plays for part in parts
                for name in part.names(program)
                if words[:1] in ([], [program]) and words[1:2] in ([], [name])]
        wrong = played(runs)
    if wrong:
        sys.exit("\n".join([*wrong, f"faults: {len(wrong)} of {len(runs)} runs are wrong"]))
    print(f"faults in system calls: {len(runs)} runs of {len(plays)} programs")


if __name__ == "__main__":
    main()
