#!/usr/bin/env python3
"""Plays the scenes of tests/transcripts, and prints where a machine, a client or a cache does
otherwise than they say.

usage: play.py                         by the program `test_scenes`, as each compiler builds it,
                                       which plays the machines of `session_router` and
                                       `session_cache`, and then connects them, for a million steps
                                       by the two seeds of `seeds.py`: a failure is printed with its
                                       seed
       play.py router|cache [--without STEP] COMMAND ..
                                       by this command, an end (tests/joined), which may lack a
                                       step, as `forgets`. Prints how many scenes there were
       play.py --print [--cache]       prints all scenes of a router, or of a cache
       play.py --write                 puts the kept scenes into the sample of `test_scenes`
       play.py --seed N                connects the machines by only this seed

The programs are those of `built.py`.
"""
import os
import re
import subprocess
import sys

HERE = os.path.dirname(os.path.realpath(__file__))
TOP = os.path.dirname(os.path.dirname(HERE))
sys.path[:0] = [HERE, os.path.join(TOP, ".ci"), os.path.join(TOP, "tests")]
sys.dont_write_bytecode = True

import player  # noqa: E402  (it lies beside this, which may be called by a link)

SAMPLE = os.path.join(TOP, "crates", "test_scenes", "stdin")
WANTED = os.path.join(TOP, "crates", "test_scenes", "stdout")
STEPS = 500_000  # of a simulation; a tenth of it as Rattle's own compiler builds the program


def all_scenes(end):
    """Returns the scenes of a router or a cache, kept ones and families."""
    return "".join(text for text, _ in player.texts_of(end))


def count(scenes):
    return len(re.findall("^(?:scene|simulate) ", scenes, re.M))


def of_machines(seed):
    """Has test_scenes play the scenes and connect the machines, or only the latter by this seed."""
    import built
    from seeds import seeds

    programs = built.needed("test_scenes")
    if seed:
        return has_none_that_differs(programs[0], f"simulate {seed} {STEPS}\n")
    with open(SAMPLE, encoding="ascii") as file:
        if file.read() != sample():
            sys.exit("scenes: crates/test_scenes/stdin isn't what tests/transcripts keeps: --write")
    scenes = {end: all_scenes(end) for end in player.KEPT}
    for end in scenes:
        if count(scenes[end]) < player.LEAST:
            sys.exit(f"scenes: only {count(scenes[end])} of a {end}")
    for program in programs:
        steps = STEPS if program == programs[0] else STEPS // 10
        has_none_that_differs(program, "".join(scenes.values()))
        for seed in seeds("crates"):
            has_none_that_differs(program, f"simulate {seed} {steps}\n")


def has_none_that_differs(program, scenes):
    """Has the program play scenes."""
    expected = f"{count(scenes)} scenes, of which 0 differ\n"
    done = subprocess.run([program], input=scenes, stdout=subprocess.PIPE, text=True, timeout=600)
    if done.returncode or done.stdout != expected:
        sys.exit(f"scenes: {program}:\n{done.stdout[-3000:]}")


def sample():
    """Returns the sample of test_scenes."""
    kept = (text for end in player.KEPT for text, _ in player.kept_of(end))
    return "".join(kept) + "simulate 1 20000\n"


def write():
    with open(SAMPLE, "w", encoding="ascii") as file:
        file.write(sample())
    with open(WANTED, "w", encoding="ascii") as file:
        file.write(f"{count(sample())} scenes, of which 0 differ\n")


def main():
    words = sys.argv[1:]
    if words == ["--write"]:
        write()
    elif words[:1] == ["--print"]:
        sys.stdout.write(all_scenes("cache" if words[1:] == ["--cache"] else "router"))
    elif words and words[0] in player.KEPT and words[1:]:
        lacks = words[2] if words[1] == "--without" else None
        player.play(words[0], words[3 if lacks else 1:], lacks)
    elif not words or words[0] == "--seed":
        of_machines(int(words[1]) if words else None)
    else:
        sys.exit(__doc__)


main()
