#!/usr/bin/env python3
"""Connects a client and a cache, programs that read their events from standard input, and prints
where they break their rules (README.md).

usage: join.py SEED STEPS CLIENT CACHE     both commands, with their arguments"""
import os
import shlex
import sys
import tempfile

sys.path[:0] = [os.path.join(os.path.dirname(os.path.abspath(__file__)), *folders)
                for folders in ((), ("..", "transcripts"))]
from ends import End  # noqa: E402
from simulation import Simulation, Wrong  # noqa: E402


def main():
    seed, steps, *commands = sys.argv[1:]
    with tempfile.TemporaryDirectory() as folder:
        router, cache = (End(shlex.split(command), folder) for command in commands)
        simulation = Simulation(seed, router, cache)
        try:
            simulation.run(int(steps))
        except (Wrong, EOFError, BrokenPipeError) as wrong:
            for now, end, what, did, wakes in simulation.latest:
                print(now, end, what or "at", "->", did, "wakes", wakes)
            sys.exit(f"join: by seed {seed}, after {simulation.steps} steps, of which the last are "
                     f"above: {wrong}")
        router.end()
        cache.end()
    print(simulation.steps, "steps, and data were shown", simulation.compared, "times")


main()
