"""The input of an end of a connection (tests/joined/README.md)."""
import sys


def play(new_end, kind):
    """Plays the scenes of standard input with new ends: a setting is a line that begins with this
    kind of end, and other lines begin with a time."""
    end = None
    for line in sys.stdin:
        words = line.split()
        if words[0] == "scene":
            end = new_end()
        elif words[0] == kind:
            end.set(words[1].replace("-", "_"), int((words[2:] or [1])[0]))
        else:
            if words[0] == "at":
                end.passes(int(words[1]))
            else:
                end.passes(int(words[0]))
                end.take_step(words[1], words[2:])
            print("wakes", end.wakes, flush=True)
